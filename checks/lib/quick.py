#!/usr/bin/env python3
"""quick.py ROOM [REV]: a first answer on what has changed since the commit REV, in the folder ROOM, before ./check gives the whole one.

Changed are the crates of which a file below src/, specs/ or proofs/, or the line in crates.txt, isn't as in REV. That is HEAD where none
is named, or the commit before it where nothing was changed since HEAD. What an earlier ./check on this machine proved below them is taken
as it stands. Each changed crate is proved, by the kit's `rt lib`, which keeps what it proved of the last time. Where the contracts of a
library stay what they were in a proof that is kept, no proof of a crate above can change; where they don't, the crates that name it are
proved too, and so on. Beside that the program is built without a proof, and the scripts of checks/ that take a program run on it, several
at a time, so far as they are told to be quick. On standard output comes a line for each, then what was left out, and last 'N passed,
M failed'. The exit status is 0 where none failed, 1 where one did, and 2 where nothing was tried.
"""
import hashlib
import importlib.machinery
import importlib.util
import json
import os
import re
import shutil
import subprocess
import sys
import time
from concurrent.futures import ThreadPoolExecutor, as_completed

import crates

PARTS = ("src", "specs", "proofs")
# What of a library the crates above it are proved by: not the code of its functions.
FACADE = ("interface/", "lang/src/", "lang/antt/specs", "lang/antt/proofs")
# A script that says so takes half a minute at most.
QUICK = re.compile(r"^# Quick: yes$", re.MULTILINE)


def git(*words):
    ran = subprocess.run(["git", *words], cwd=crates.ROOT, capture_output=True, text=True, check=False)
    if ran.returncode:
        sys.exit(f"check: git {' '.join(words)}: {ran.stderr.strip()}")
    return ran.stdout


def changed_since(rev, uses):
    """The crates that aren't as in this commit."""
    paths = git("diff", "--name-only", rev, "--", "crates", "crates.txt").split()
    paths += git("ls-files", "--others", "--exclude-standard", "crates").split()
    found = {path.split("/")[1] for path in paths if len(path.split("/")) > 3 and path.split("/")[2] in PARTS}
    if "crates.txt" in paths:
        was = {line.partition(":")[0].split()[0]: line for line in git("show", f"{rev}:crates.txt").splitlines() if line.strip() and line[0] != "#"}
        with open(f"{crates.ROOT}/crates.txt", encoding="utf-8") as file:
            now = {line.partition(":")[0].split()[0]: line.rstrip("\n") for line in file if line.strip() and line[0] != "#"}
        found |= {name for name, line in now.items() if was.get(name) != line}
    return [it for it in crates.with_below(uses, uses) if it in found]


class Kit:
    """What the kit keeps of the proofs of this machine. It says nothing of these files outside its command `rt`; where they are others, none is taken."""

    def __init__(self):
        self.rt = self.kept = None
        self.by_name = {}
        path = os.path.realpath(shutil.which("rt"))
        try:
            sys.path.insert(0, os.path.dirname(path))
            loader = importlib.machinery.SourceFileLoader("rt", path)
            self.rt = importlib.util.module_from_spec(importlib.util.spec_from_loader("rt", loader))
            loader.exec_module(self.rt)
            self.rt.Crate.allowed = self.rt.handles_of(crates.ROOT)
            found = self.rt.crates_of(crates.ROOT)
            self.by_name = {it.name: it for it in found}
            self.kept = self.rt.Kept(found)
            # (it takes an entry away that it can't hand out; that is for the gate to do)
            self.kept.drop = lambda path: None
        except (Exception, SystemExit) as error:  # (the kit's own affair, whatever it is)
            print(f"check: what this machine keeps of earlier proofs can't be read ({error}): all below is proved", file=sys.stderr)

    def take(self, name):
        """Puts the library of a crate into its place, if it is kept as the crate stands. Whether it is."""
        crate = self.by_name.get(name)
        if not crate or not self.kept:
            return False
        try:
            # (that of a gate first: what stands above was proved over it, byte for byte)
            if os.path.isdir(self.kept.place(crate, False, self.kept.key(crate))):
                shutil.rmtree(f"{crate.folder}/out/rlib", ignore_errors=True)
            stands = self.kept.give(crate, False, self.kept.key(crate)) or crate.is_built()
            if stands and not crate.is_built():
                with open(f"{crate.folder}/out/rlib/stamp", "w", encoding="utf-8") as file:
                    file.write(crate.stamp())
            if stands:
                self.kept.is_built(crate)
            return stands
        except (OSError, AttributeError, TypeError, ValueError):
            return False

    def has_such(self, name):
        """Whether a proof is kept of a library of this name with the same contracts as the one that stands built."""
        now = facade_of(f"{crates.ROOT}/crates/{name}/out/rlib/{name}.rlib")
        store = getattr(self.rt, "STORE", None)
        if not store or not os.path.isdir(store):
            return False
        return any(now == facade_kept(f"{store}/{it}/made.json", name) for it in os.listdir(store) if it.startswith(f"proof-{name}-"))


def facade_of(rlib):
    """The sums of the files of a library by which the crates above it are proved."""
    sums = {}
    for at, _, files in os.walk(rlib):
        for file in files:
            path = os.path.relpath(f"{at}/{file}", rlib)
            if path.startswith(FACADE):
                with open(f"{at}/{file}", "rb") as it:
                    sums[path] = hashlib.sha256(it.read()).hexdigest()
    return sums


def facade_kept(made, name):
    try:
        with open(made, encoding="utf-8") as file:
            files = json.load(file)["files"]
    except (OSError, ValueError, KeyError):
        return None
    top = f"rlib/{name}.rlib/"
    return {path[len(top) :]: told for path, told in files if path.startswith(top) and path[len(top) :].startswith(FACADE)}


def prove(name):
    """Proves a crate, and builds it where it is a library. Whether it is proved, and the seconds that it took; what was said of it is told where it isn't."""
    start = time.monotonic()
    words = ["rt", "check" if crates.is_program(name) else "lib", "--jobs", str(len(os.sched_getaffinity(0)))]
    how = {"cwd": f"{crates.ROOT}/crates/{name}", "stdin": subprocess.DEVNULL, "stdout": subprocess.PIPE, "stderr": subprocess.STDOUT}
    ran = subprocess.run(words, text=True, errors="replace", check=False, **how)
    if ran.returncode:
        print(ran.stdout, end="", flush=True)
    return ran.returncode == 0, time.monotonic() - start


def prove_all(kit, uses, changed):
    """Proves what has changed, and what that may change. Yields a line for each crate, and whether it passed."""
    due, needed = {*changed}, crates.with_below(uses, ["interop"])
    for name in crates.with_below(uses, changed):
        if name not in due:
            kit.take(name)
    for name in crates.with_above(uses, changed):
        if name not in due:
            continue
        is_proved, seconds = prove(name)
        told = f"{name}: {'proved' if is_proved else 'FAILED'} in {seconds:.0f} s"
        callers = [it for it in needed if name in uses[it] and it not in due]
        if is_proved and callers and not crates.is_program(name):
            if kit.has_such(name):
                told += f"; its contracts are as in a proof that is kept: none of {', '.join(callers)} can be refused for it"
            else:
                told += f"; its contracts aren't those of a proof that is kept, so there come {', '.join(callers)}"
                due.update(callers)
        yield told, is_proved


def build(program):
    """Builds the program without a proof. What was said of it, if that failed."""
    words = [f"{crates.ROOT}/checks/lib/unproved", "interop", program]
    ran = subprocess.run(words, stdin=subprocess.DEVNULL, capture_output=True, text=True, errors="replace", check=False)
    return None if os.path.isfile(program) else ran.stdout + ran.stderr


def run(script, program):
    """Runs a script. Whether it passed, what it printed, and its seconds."""
    start = time.monotonic()
    how = {"cwd": crates.ROOT, "stdin": subprocess.DEVNULL, "stdout": subprocess.PIPE, "stderr": subprocess.STDOUT}
    ran = subprocess.run([f"checks/{script}", program], text=True, errors="replace", check=False, **how)
    return ran.returncode == 0, ran.stdout, time.monotonic() - start


def scripts():
    """The scripts of checks/: those that say that they are quick, and the others."""
    found = {True: [], False: []}
    for name in sorted(os.listdir(f"{crates.ROOT}/checks")):
        path = f"{crates.ROOT}/checks/{name}"
        if os.path.isfile(path) and os.access(path, os.X_OK):
            with open(path, encoding="utf-8", errors="replace") as file:
                found[bool(QUICK.search(file.read()))].append(name)
    return found[True], found[False]


def run_all(program, quick):
    """Builds the program and runs the quick scripts on it, two at a time. Yields a line for each, and whether it passed."""
    said = build(program)
    if said is not None:
        yield f"{said}the program: FAILED to be built", False
        return
    with ThreadPoolExecutor(2) as pool:
        running = {pool.submit(run, it, program): it for it in quick}
        for done in as_completed(running):
            passed, printed, seconds = done.result()
            yield f"{'' if passed else printed}checks/{running[done]}: {'passed' if passed else 'FAILED'} in {seconds:.0f} s", passed


def main():
    start, room, uses = time.monotonic(), sys.argv[1], crates.listed()
    rev = sys.argv[2] if len(sys.argv) > 2 else "HEAD" if changed_since("HEAD", uses) else "HEAD~1"
    changed = changed_since(rev, uses)
    if not changed:
        print(f"check: no crate has changed since {rev}: name another commit", file=sys.stderr)
        return 2
    print(f"changed since {rev}: {', '.join(changed)}", flush=True)
    quick, others = scripts()
    results = []

    def tell(lines):
        for line, passed in lines:
            print(line, flush=True)
            results.append(passed)

    needed = crates.with_below(uses, ["interop"])
    proved = [it for it in changed if it in needed]
    with ThreadPoolExecutor(1) as pool:
        tried = pool.submit(tell, run_all(f"{room}/interop", quick))
        tell(prove_all(Kit(), uses, proved))
        tried.result()
    drivers = [it for it in uses if it not in needed]
    print(f"left out: the edits that must fail; the drivers {', '.join(drivers)}; checks/ {', '.join(others)}; whether program/ is stale")
    print(f"quick: {time.monotonic() - start:.0f} s")
    print(f"{results.count(True)} passed, {results.count(False)} failed")
    return 0 if all(results) else 1


if __name__ == "__main__":
    sys.exit(main())
