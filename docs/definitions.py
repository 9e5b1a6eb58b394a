#!/usr/bin/env python3
"""definitions.py [CRATE..]: lists the definitions that contracts cite, of these crates or of all.

A line for each public definition of crates/NAME/specs: its name, its file, and the comment before it.
"""
import glob
import os
import re
import sys

CRATES = os.path.join(os.path.dirname(os.path.dirname(os.path.abspath(__file__))), "crates")
DEFINITION = re.compile(r"\s*(?:abbrev|record|data|def|theorem) pub (\S+)|\s*pub (?:abbrev|record|data|def) (\S+)")
COMMENT = re.compile(r"\s*--\s?(.*)")


def definitions(path):
    """The names of a file's definitions, each with the comment that stands before it."""
    comment = []
    with open(path, encoding="utf-8") as file:
        for line in file:
            said, found = COMMENT.match(line), DEFINITION.match(line)
            if found:
                yield found[1] or found[2], " ".join(comment)
            if said:
                comment.append(said[1].strip())
            else:
                comment = []


def main():
    names = sys.argv[1:] or sorted(os.path.basename(os.path.dirname(it)) for it in glob.glob(f"{CRATES}/*/specs"))
    for name in names:
        files = sorted(glob.glob(f"{CRATES}/{name}/specs/*.antt"))
        if not files:
            sys.exit(f"definitions: no definitions of {name}")
        print(f"\n{name}\n")
        for path in files:
            for word, comment in definitions(path):
                print(f"  {word} ({os.path.basename(path)})" + (f": {comment}" if comment else ""))


main()
