#!/usr/bin/env python3
"""wrong_bodies.py COPY [NAME..]: tries every wrong body of these crates, or of all, on a copy in the folder COPY.

A wrong body is an edit of crates/NAME/must-fail, which the gate tries too, or of crates/NAME/wrong, which only this does:
the prover has to refuse each. In the copy all of them stand in must-fail/, and `rt must-fail` tries them, a crate's in turn
and several crates side by side. Prints a line for each, and at the end 'N passed, M failed'; exits 1 where one failed.
"""
import glob
import os
import re
import shutil
import subprocess
import sys
import time
from concurrent.futures import ThreadPoolExecutor, as_completed

import crates
import libraries

REFUSED = re.compile(r"^rt: must-fail \S+: refused, as it must be", re.MULTILINE)


def leave_behind(needed):
    """Gives copytree what the copy is to lack: the history, and of what was built all but the libraries of these crates."""

    def ignored(folder, names):
        inside = os.path.relpath(folder, crates.ROOT).split(os.sep)
        if inside == ["."]:
            return [".git"]
        if inside[0] == "crates" and inside[2:] == ["out"]:
            return [it for it in names if it != "rlib" or inside[1] not in needed]
        return [it for it in names if it == "__pycache__"]

    return ignored


def edits(folder, crate, part):
    return sorted(glob.glob(f"{folder}/crates/{crate}/{part}/*.edit"))


def gather(copy, crate):
    """Moves the copy's edits of wrong/ into must-fail/. Whether wrong/ has only edits, and no name stands in both."""
    is_well = True
    os.makedirs(f"{copy}/crates/{crate}/must-fail", exist_ok=True)
    for other in glob.glob(f"{copy}/crates/{crate}/wrong/*"):
        if not other.endswith((".edit", ".md")):
            print(f"{crate}/wrong/{os.path.basename(other)} is no edit: its name is to end in .edit, or in .md if it is only to be read", flush=True)
            is_well = False
    for edit in edits(copy, crate, "wrong"):
        to = f"{copy}/crates/{crate}/must-fail/{os.path.basename(edit)}"
        if os.path.exists(to):
            print(f"{crate}/{os.path.basename(edit)} stands in must-fail/ and in wrong/: rename one", flush=True)
            is_well = False
        else:
            os.rename(edit, to)
    return is_well


def tried(copy, crate):
    """What rt said of the crate's edits, how many were refused and how many were not, and the seconds that it took."""
    start, count = time.monotonic(), len(edits(copy, crate, "must-fail"))
    how = {"cwd": copy, "stdin": subprocess.DEVNULL, "stdout": subprocess.PIPE, "stderr": subprocess.STDOUT}
    ran = subprocess.run(["rt", "must-fail", crate], text=True, errors="replace", check=False, **how)
    refused = min(len(REFUSED.findall(ran.stdout)), count)
    failed = max(count - refused, int(ran.returncode != 0))
    return ran.stdout, refused, failed, time.monotonic() - start


def main():
    copy, uses = sys.argv[1], crates.listed()
    unknown = [it for it in sys.argv[2:] if it not in uses]
    if unknown:
        print(f"check: crates.txt lists no crate {', '.join(unknown)}: it has {', '.join(uses)}", file=sys.stderr)
        return 2
    needed = crates.with_below(uses, sys.argv[2:] or uses)
    shutil.copytree(crates.ROOT, copy, ignore=leave_behind(needed), symlinks=True)
    names = [it for it in sys.argv[2:] or uses if edits(copy, it, "must-fail") or edits(copy, it, "wrong")]
    passed, failed = 0, sum(not gather(copy, it) for it in names)
    print(f"check: the libraries below {' '.join(names) or 'no crate'}", flush=True)
    if not libraries.build_below(names, copy):
        print("check: a library was not built, so no wrong body was tried\n0 passed, 1 failed")
        return 1
    # The dearest crate first, since the last one to end is waited for.
    names.sort(key=lambda it: -len(edits(copy, it, "must-fail")) * crates.lines(it))
    with ThreadPoolExecutor(libraries.at_once()) as pool:
        running = {pool.submit(tried, copy, it): it for it in names}
        for it in as_completed(running):
            said, refused, not_refused, seconds = it.result()
            print(f"{said}{running[it]}: {refused} of {refused + not_refused} wrong bodies refused in {seconds:.0f} s", flush=True)
            passed, failed = passed + refused, failed + not_refused
    print(f"{passed} passed, {failed} failed")
    return 1 if failed else 0


if __name__ == "__main__":
    sys.exit(main())
