#!/usr/bin/env python3
"""Debian packages that checks use, which are installed where they can be had.

packages.py install PACKAGE..: installs these.
packages.py grpcio: whether python3-grpcio is there.
packages.py go SOURCE PROGRAM CACHE: builds a program on grpc-go.

Exits 1 where that can't be had.
"""
import os
import subprocess
import sys

QUIET = {"stdout": subprocess.DEVNULL, "stderr": subprocess.DEVNULL, "check": False}
GO = {"GOPATH": "/usr/share/gocode", "GO111MODULE": "off", "GOFLAGS": ""}


def install(*packages):
    """Installs these packages. Whether they could be had."""
    update = "timeout 60 apt-get update -qq"
    words = f"DEBIAN_FRONTEND=noninteractive timeout 240 apt-get install -y -qq {' '.join(packages)}"
    return subprocess.run(["sh", "-c", f"{update} && {words}"], **QUIET).returncode == 0


def works(words, **how):
    """Whether a program is there, and ends with 0."""
    try:
        return subprocess.run(words, **QUIET, **how).returncode == 0
    except FileNotFoundError:
        return False


def has_grpcio():
    """Whether python3-grpcio is there, which is installed where it can be had."""
    words = ["/usr/bin/python3", "-c", "import grpc"]
    return works(words) or (install("python3-grpcio") and works(words))


def has_built_go(source, binary, cache):
    """Whether a program on grpc-go is built, of what Debian has of it."""
    words, environment = ["go", "build", "-o", binary, source], {**os.environ, **GO, "GOCACHE": cache}
    is_built = works(words, env=environment)
    return is_built or (install("golang-go", "golang-google-grpc-dev") and works(words, env=environment))


def main(deed, *words):
    deeds = {"install": install, "grpcio": has_grpcio, "go": has_built_go}
    return deeds[deed](*words)


if __name__ == "__main__":
    sys.exit(0 if main(*sys.argv[1:]) else 1)
