#!/usr/bin/env python3
"""proved.py [--all] [CRATE..]: lists what is proved of these crates, or of all, from their sources.

Of each crate it prints its sentence and its public functions that have a contract: the path, the
first sentence of the comment, and the names of the clauses, each with the comment before it. A
clause without a name is printed itself where it fits on its line, else as "..". A law is a public
function that does nothing: its contract is all that it has. Of a public trait it lists the ghost
members with a comment too: its laws and definitions. With --all it lists private functions too.
"""
import itertools
import pathlib
import re
import signal
import sys

ROOT = pathlib.Path(__file__).resolve().parent.parent
FUNCTION = re.compile(r"( *)(pub )?(?:pub\(\w+\) |const |final )*(fn|ghost) (\w+)")
CLAUSE = re.compile(r" *(requires|ensures)\*? ?(\w*) *(\{.*\}(?=;?$))?")


def groups():
    """The headings of crates.txt, each with its crates."""
    text = (ROOT / "crates.txt").read_text(encoding="utf-8")
    parts = re.findall(r"^# (.)(.*)\n([^#]*)", text, re.MULTILINE)
    return [(it[0].upper() + it[1], re.findall(r"^\w+", it[2], re.MULTILINE)) for it in parts]


def read_comment(lines, mark, is_whole=False):
    """The first sentence of a comment, or its whole first paragraph."""
    lines = [line.strip() for line in lines if not line.strip().startswith("#[")]
    words = [line.removeprefix(mark).strip() or "\n" for line in lines]
    text = " ".join(" ".join(words).strip().partition("\n")[0].split())
    return text if is_whole else re.split(r"(?<=\.)\s+(?=[A-Z`\[])", text)[0]


def root_of(crate):
    """The first source file of a crate, and the sentence with which it begins."""
    for path in (ROOT / "crates" / crate / "src" / name for name in ("lib.rt", "main.rt")):
        if path.exists():
            said = re.findall(r"^//!.*", path.read_text(encoding="utf-8"), re.MULTILINE)
            return path, read_comment(said, "//!")
    sys.exit(f"proved: there is no crate {crate}")


def modules(path, folder, name="", is_public=True):
    """The files of a crate: the path of the module, whether others may name it, and the lines."""
    lines = path.read_text(encoding="utf-8").split("\n")
    yield name, is_public, lines
    for found in filter(None, (re.match(r"(pub )?mod (\w+);", line) for line in lines)):
        inner, is_open = folder / found[2], is_public and bool(found[1])
        yield from modules(inner.with_suffix(".rt"), inner, f"{name}{found[2]}::", is_open)


def names_of(files):
    """The names by which others may know a crate's types, traits and functions."""
    text = "\n".join(line for _, is_public, lines in files if is_public for line in lines)
    parts = re.findall(r"^pub (?:use ([^;]+);|(?:struct|enum|trait) (\w+))", text, re.MULTILINE)
    return {name for part in parts for name in re.findall(r"\w+", " ".join(part))}


def owner(header):
    """The type or trait that a block is of, and whether it is a trait; no type where it has one."""
    header = header.replace("->", "")
    while re.search(r"<[^<>]*>", header):
        header = re.sub(r"<[^<>]*>", "", header)
    found = None if " for " in header else re.match(r"(?:impl|pub trait) (\w+)", header)
    return found and found[1], header.startswith("pub trait")


def clauses(lines):
    """The clauses of the function that begins here: kind, name or text, and the comment before."""
    indent, said = len(lines[0]) - len(lines[0].lstrip()), []
    for line in lines:
        depth, found = len(line) - len(line.lstrip()), CLAUSE.match(line)
        if found and depth == indent + 4:
            name = found[2] or found[3] or ".."
            yield found[1], f"`{name}`", read_comment(said, "//", True)
        said = [*said, line] if line.strip().startswith("//") else []
        if line.endswith(";") or (depth == indent and line.endswith(("{", "}"))):
            return


def functions(module, is_public, lines, names):
    """The functions of a file with a contract, those with such names: path, sentence, clauses."""
    block, is_trait, said = None, False, []
    for at, line in enumerate(lines):
        found = FUNCTION.match(line)
        if re.match(r"impl\b|(pub )?trait |}", line):
            block, is_trait = owner(" ".join(lines[at:at + 9]).partition("{")[0])
        elif found and (found[2] or is_trait or names is None) and (not found[1] or block):
            path = f"{block}::" if found[1] else module if is_public else ""
            key = block if found[1] else found[4]
            is_open = names is None or key in names or (is_public and not found[1])
            has = list(clauses(lines[at:]))
            if is_open and (has or (found[3] == "ghost" and is_trait and said)):
                yield path + found[4], read_comment(said, "///"), has
        said = [*said, line] if line.strip().startswith(("///", "#[")) else []


def show(crate, is_all):
    path, sentence = root_of(crate)
    print(f"\n## `{crate}`\n\n{sentence}\n")
    files = list(modules(path, path.parent)) if is_all or path.stem == "lib" else []
    for file in files:
        for function, said, has in functions(*file, None if is_all else names_of(files)):
            print(f"- `{function}`{said and ': ' + said}")
            for (kind, why), them in itertools.groupby(has, lambda it: (it[0], it[2])):
                named = ", ".join(it[1] for it in them)
                print(f"  - {kind} {named}{why and ': ' + why}")


if __name__ == "__main__":
    signal.signal(signal.SIGPIPE, signal.SIG_DFL)
    words = [word for word in sys.argv[1:] if word != "--all"]
    for heading, crates in [("", words)] if words else groups():
        print(heading and f"\n# {heading}")
        for one in crates:
            show(one, "--all" in sys.argv)
