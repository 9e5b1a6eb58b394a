#!/usr/bin/env python3
"""tables.py [--check | --write] [DOCUMENT..]: the tables of documents that come from the sources.

ARCHITECTURE has the crates: by the headings of crates.txt, each with the first sentence of its
sources. What stands in parentheses is left out, and what follows a colon after five words or more.
MAINTAINERS has the scripts of checks/: by the group that a line "# Tries: GROUP" names, each with
the first sentence of its comment.

Without words it prints both. --check ends with 1 where a document has another table than is printed
here; --write puts the table there in place of it.
"""
import os
import pathlib
import re
import sys

sys.dont_write_bytecode = True
import proved  # noqa: E402

GROUPS = ("The server", "The client", "Wire cases, misbehaviours", "Other commands", "Crates")
TRIED = "Tests and measurements"


def crates():
    """The table of the crates."""
    yield "|Crate|Holds|"
    yield "|---|---|"
    for heading, names in proved.groups():
        yield f"|**{heading}**||"
        if heading == TRIED:
            yield f"|{', '.join(f'`{it}`' for it in names)}|[MAINTAINERS.md](MAINTAINERS.md)|"
            return
        for name in names:
            said = re.sub(r"\s\([^()]*\)", "", proved.root_of(name)[1]).rstrip(".")
            short = re.match(r"(?:[^ :;]+ ){4,}[^ :;]+(?=[:;])", said)
            yield f"|`{name}`|{short[0] if short else said}|"


def script(path):
    """The group of a script of checks/, and what it tries."""
    _, first, *rest = path.read_text(encoding="utf-8").split("\n")
    mark = "#" if first.startswith("#") else ""
    head = [first.removeprefix('"""')]
    for line in rest:
        if not line.startswith(mark) or line.endswith('"""'):
            break
        head.append(line)
    group = re.search(r"^# Tries: (.+)$", "\n".join(rest), re.MULTILINE)
    found = re.match(rf"{path.name}(?: \[.*\])?: (.+)\.$", proved.read_comment(head, mark))
    if not found or not group or group[1] not in GROUPS:
        sys.exit(f"tables: checks/{path.name} needs '{path.name}: SENTENCE.' and '# Tries: GROUP'")
    return group[1], found[1]


def checks():
    """The list of the scripts of checks/."""
    folder = pathlib.Path(proved.ROOT, "checks")
    paths = [it for it in sorted(folder.iterdir()) if it.is_file() and os.access(it, os.X_OK)]
    found = {path.name: script(path) for path in paths}
    for group in GROUPS:
        yield f"- **{group}**"
        yield from (f"  - `{name}`: {said}" for name, (its, said) in found.items() if its == group)


TABLES = {"ARCHITECTURE": crates, "MAINTAINERS": checks}


def is_same(name, table, is_written):
    """Whether the document has this table, which goes from its first line to an empty one."""
    path = pathlib.Path(proved.ROOT, "docs", f"{name}.md")
    text = path.read_text(encoding="utf-8")
    found = re.findall(rf"^{re.escape(table[0])}(?:\n.+)*", text, re.MULTILINE)
    if len(found) != 1:
        sys.exit(f"tables: docs/{name}.md has {len(found)} tables that begin with {table[0]}")
    if is_written:
        path.write_text(text.replace(found[0], "\n".join(table)), encoding="utf-8")
    return is_written or found[0].split("\n") == table


def main():
    mode = sys.argv[1] if sys.argv[1:2] in (["--check"], ["--write"]) else None
    names = sys.argv[2 if mode else 1:] or list(TABLES)
    if not set(names) <= set(TABLES):
        sys.exit(f"tables: there are tables of {', '.join(TABLES)}, not of {', '.join(names)}")
    tables = {name: list(TABLES[name]()) for name in names}
    if not mode:
        print("\n\n".join("\n".join(table) for table in tables.values()))
        return
    others = [name for name, table in tables.items() if not is_same(name, table, mode == "--write")]
    for name in others:
        print(f"tables: docs/{name}.md has another table: docs/tables.py --write {name} renews it")
    sys.exit(1 if others else 0)


main()
