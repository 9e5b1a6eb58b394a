#!/usr/bin/env python3
"""part.py COPY NAME..: copies into the folder COPY what ./check needs for these crates and every crate above them.

The copy is a repository of its own: those crates and the libraries below them, a crates.txt that lists no other, and of
the rest all but the history. Of a library that is only below, the must-fail edits stay behind. So do the checks that do
not say that they concern one of the crates: a check says so by a line '# Concerns: NAME ..'. Prints what the copy has.
"""
import os
import re
import shutil
import sys

import crates


def concerned(check):
    """The crates that the check concerns, by its own words."""
    with open(check, encoding="utf-8", errors="replace") as file:
        found = re.search(r"^# Concerns: (.+)$", file.read(), re.MULTILINE)
    return {*found[1].split()} if found else set()


def is_check(path):
    return os.path.isfile(path) and os.access(path, os.X_OK)


def leave_behind(tried, kept):
    """Gives copytree the names of a folder that the copy is to lack."""

    def ignored(folder, names):
        inside = os.path.relpath(folder, crates.ROOT).split(os.sep)
        if inside == ["."]:
            return [".git"]
        if inside == ["crates"]:
            return [it for it in names if it not in kept]
        if inside == ["checks"]:
            return [it for it in names if is_check(f"{folder}/{it}") and not concerned(f"{folder}/{it}") & {*tried}]
        if inside[0] == "crates" and len(inside) == 2:
            return ["out", *(["must-fail"] if inside[1] not in tried else [])]
        return [it for it in names if it in ("out", "__pycache__")]

    return ignored


def main():
    copy, names = sys.argv[1], sys.argv[2:]
    uses = crates.listed()
    unknown = [it for it in names if it not in uses]
    if unknown:
        sys.exit(f"check: crates.txt lists no crate {', '.join(unknown)}: it has {', '.join(uses)}")
    tried = crates.with_above(uses, names)
    kept = crates.with_below(uses, tried)
    shutil.copytree(crates.ROOT, copy, ignore=leave_behind(tried, kept), symlinks=True, dirs_exist_ok=True)
    with open(f"{crates.ROOT}/crates.txt", encoding="utf-8") as file:
        lines = [it for it in file if it.partition("#")[0].partition(":")[0].split()[:1] in [[name] for name in kept]]
    with open(f"{copy}/crates.txt", "w", encoding="utf-8") as file:
        file.writelines(lines)
    print(f"check: {' '.join(tried)}")
    only_below = [it for it in kept if it not in tried]
    if only_below:
        print(f"check: and, without their must-fail edits, what is below: {' '.join(only_below)}")
    for name in sorted(os.listdir(f"{crates.ROOT}/checks")):
        if is_check(f"{crates.ROOT}/checks/{name}") and not os.path.exists(f"{copy}/checks/{name}"):
            print(f"check: checks/{name} is left to the whole ./check")


if __name__ == "__main__":
    main()
