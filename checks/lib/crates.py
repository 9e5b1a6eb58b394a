"""Which crates of crates.txt use which. The scripts of this folder import it."""
import os
import re

ROOT = os.path.dirname(os.path.dirname(os.path.dirname(os.path.abspath(__file__))))


def listed(root=ROOT):
    """The crates of crates.txt, each with those of them that it names."""
    uses = {}
    with open(f"{root}/crates.txt", encoding="utf-8") as file:
        for line in file:
            head, _, tail = line.partition("#")[0].partition(":")
            if head.split():
                uses[head.split()[0]] = re.split(r"[\s,]+", tail.strip())
    return {name: [it for it in used if it in uses] for name, used in uses.items()}


def with_below(uses, names):
    """These crates and all that they use, each after those that it uses."""
    found = []

    def add(name):
        for it in uses[name]:
            add(it)
        if name not in found:
            found.append(name)

    for name in names:
        add(name)
    return found


def with_above(uses, names):
    """These crates and all that use them, each after those that it uses."""
    return [it for it in with_below(uses, uses) if {*names} & {*with_below(uses, [it])}]


def is_program(name, root=ROOT):
    return os.path.isfile(f"{root}/crates/{name}/src/main.rt")


def lines(name, root=ROOT):
    """How many lines of source the crate has, as a measure of what its proof costs."""
    count = 0
    for part in ("src", "specs", "proofs"):
        for at, _, files in os.walk(f"{root}/crates/{name}/{part}"):
            for file in files:
                with open(f"{at}/{file}", "rb") as it:
                    count += it.read().count(b"\n")
    return count
