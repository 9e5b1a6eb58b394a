"""What the checks share that refuse a program memory, threads, reads or writes: the libraries that are loaded before the C library, and
the connections of checks/parts-data."""
import os
import subprocess

HERE = os.path.dirname(os.path.abspath(__file__))


def build(folder, name):
    """Builds NAME.c, which stands beside this file, into the folder."""
    library = os.path.join(folder, f"{name}.so")
    subprocess.run(["cc", "-O2", "-shared", "-fPIC", "-o", library, os.path.join(HERE, f"{name}.c"), "-ldl"], check=True)
    return library


def counted(path):
    """How many allocations a program had, which refuse.c wrote there at its end."""
    with open(path, encoding="ascii") as file:
        return int(file.read())


def text_of(name):
    """A file of checks/parts-data."""
    with open(os.path.join(HERE, "..", "parts-data", name), encoding="utf-8") as file:
        return file.read()
