#!/usr/bin/env python3
"""names.py [ROOT]: the names of types that say what they are, and words that mean one thing where they stand.

No type of the sources, and no record of data of the definitions, is a bare participle. A word of `ONE_CRATE` names a type of
one crate at most. In a file of `ONE_USE` a word isn't a field and a function too. Prints each name that breaks this, and ends
with 1 where there is one.
"""
import collections
import pathlib
import re
import sys

# Participles and other words that say nothing without a noun: those that end otherwise than in -ed.
PARTICIPLES = {
    *"Begun Broken Built Cut Drawn Found Fresh Given Gone Held Kept Known Lacking Last Left Lost Made Met Played Put Ran Read Said Seen".split(),
    *"Sent Shown Shut Spent Stood Taken Taking Told Took Unfit Unwritten Waiting Wound Written Wrote".split(),
    *"Draining Keeping Refusing Returning Running Telling Handed Heard".split(),
}
NOUNS = {"Bed", "Feed", "Need", "Seed", "Speed"}
# Names of the specification and of the public ends of a call; in the definitions, facts, which are named by verbs.
STAY = {
    ("account", "Shut"), ("lane", "Shut"), ("lane", "Settled"), ("callbox", "Taken"),
    ("connection", "Ordered"), ("connection", "Closed"), ("outwriter", "Kept"), ("session", "Reached"), ("writerloop", "Wrote"),
}
# A type of only one crate may have one of these names: they had several meanings.
ONE_CRATE = "Control Cut Ended Found Half Hand Known Opened Place Polled Seat Seen Sent Shown Stage Step Told Waiting Worker".split()
# Words that were a field and a function of one file, or had a second meaning there: the file, the word, and how it isn't to stand.
ONE_USE = [
    ("connection/src/orders.rt", "ring", "fn"),
    ("connection/src/reader.rt", "ring", "fn"),
    ("connection/src/writer.rt", "told", "field"),
    ("writerloop/src/frames.rt", "left", "fn"),
    ("writerloop/src/frames.rt", "left", "field"),
    ("writerloop/src/writing.rt", "left", "fn"),
    ("writerloop/src/writing.rt", "rest", "fn"),
    ("writerloop/src/writing.rt", "rest", "field"),
    ("writerloop/src/senders.rt", "rest", "field"),
    ("readerloop/src/reading.rt", "cut", "field"),
]
STANDS = {"fn": r"\bfn {}\b", "field": r"(?m)^ +(?:pub(?:\([a-z]+\))? )?(?:ghost )?{}: "}
TYPE = re.compile(r"(?m)^(?:pub(?:\([a-z]+\))? )?(?:struct|enum|trait|union|type) ([A-Z]\w*)")
RECORD = re.compile(r"(?m)^ *(?:pub )?(?:record|data) ([A-Z]\w*)")


def is_bare(name):
    """Whether the name is a participle and no more."""
    return name in PARTICIPLES or re.fullmatch(r"[A-Z][a-z]*ed", name) is not None and name not in NOUNS


def wrong(root):
    crates = collections.defaultdict(set)  # the crates that have a type of this name
    for part, names in (("src/**/*.rt", TYPE), ("specs/**/*.antt", RECORD)):
        for path in sorted(root.glob(f"crates/*/{part}")):
            crate = path.relative_to(root).parts[1]
            for name in names.findall(path.read_text(encoding="utf-8")):
                if is_bare(name) and (crate, name) not in STAY:
                    yield f"{path.relative_to(root)}: {name} is a bare participle: a type's name is a noun"
                if names is TYPE:
                    crates[name].add(crate)
    for name in ONE_CRATE:
        if len(crates[name]) > 1:
            yield f"{name} is a type of {', '.join(sorted(crates[name]))}: only one crate's may be called so"
    for name, word, kind in ONE_USE:
        path = root / "crates" / name
        if path.is_file() and re.search(STANDS[kind].format(word), path.read_text(encoding="utf-8")):
            yield f"crates/{name}: `{word}` is the name of a {'function' if kind == 'fn' else kind}: here the word means something else"


def main():
    root = pathlib.Path(sys.argv[1] if sys.argv[1:] else pathlib.Path(__file__).resolve().parents[2])
    found = list(wrong(root))
    print(*found, sep="\n", end="\n" if found else "")
    sys.exit(1 if found else 0)


if __name__ == "__main__":
    main()
