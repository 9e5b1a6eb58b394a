#!/usr/bin/env python3
"""wide_lines [--count] [--keep-imports] [CRATE..]: breaks .antt and .rt lines of over 100 columns.

It runs at the top of the repository, cuts lines between tokens, and has the kit's formatter indent
what it cut. The formatter also writes the last comma of a list that goes over lines, the last
semicolon of a record, and the bar of an `elim`'s first case. Comments are wrapped by words. A file
that fails `must_stay` or the formatter's check is put back. Strings, Rattle's own code and doc
comments that a macro may read stay. A second run changes nothing.
"""
import collections
import itertools
import json
import re
import subprocess
import sys
from pathlib import Path

WIDTH, OPENERS, CLOSERS = 100, "([{", ")]}"
# A line is cut first at the lowest depth of brackets, and there at the lowest of these levels.
BODY, ELSE, THEN, SIGN, COLON, ARGUMENT, HEAD = 0, 1, 2, 3, 20, 21, 22
SIGNS = "→, ⊎, ×, ≡ ≢ ≤ < ≥ > ↔, any other, || &&, ++ ∷, + -, * / %, ^".split(", ")  # loosest first
LEVELS = {sign: SIGN + n for n, signs in enumerate(SIGNS) for sign in signs.split()}
is_sign = re.compile(r"(?![_?⊥⊤.,;|=:λ↦]$)[^\w◌(){}\[\]\"«»?]+$").match
GLUED_TO_LAST = set("= : in ↦ where | }".split())
GLUED_TO_NEXT = set("λ let if then else elim as record pub abbrev unfoldable Type ← ¬ { |".split())
Token = collections.namedtuple("Token", "line start end kind text")  # start, end: bytes of the file
Cut = collections.namedtuple("Cut", "depth level opener")  # opener: the end of a list's bracket
GUIDE = subprocess.run(["rt", "doc"], capture_output=True, text=True, check=True).stdout.strip()


def formatter(option, files):
    """What the kit's formatter says of the files."""
    words = [f"{Path(GUIDE).parent}/bin/rattle", "fmt", option, *files]
    ran = subprocess.run(words if files else ["true"], capture_output=True, text=True)
    return ran.stdout + ran.stderr


def tokens_of(files):
    """Each file's tokens but for comments, as the kit reads them."""
    found = {}
    for row in formatter("--tokens", files).split("\n")[:-1]:
        if row.startswith("file "):
            tokens = found[files[int(row[5:])]] = []
        else:
            line, start, end, kind, text = row.split(" ", 4)
            tokens.append(Token(int(line) - 1, int(start), int(end), kind, json.loads(text)))
    return found


def must_stay(file, tokens):
    """The tokens but for those that the formatter adds to a list that goes over lines, the words
    of the comments, and how often each `old:` of the crate's edits stands in the file."""
    texts, text = [it.text for it in tokens], Path(file).read_text()
    said = [it for last, it, after in zip(["start"] + texts, texts, texts[1:] + ["end"])
            if not (it in (",", ";") and after in CLOSERS or (last, it) == ("[", "|"))]
    edits = [it.read_text() for it in sorted(Path(*file.split("/")[:2]).glob("*/*.edit"))]
    olds = [old for it in edits for old in re.findall("^old: (.*)$", it, re.M)]
    words = [word for line in text.split("\n") for word in comment_of(line)[1].split()]
    return said, words, [text.count(old) for old in olds]


def comment_of(line):
    """A comment line's front, which is its marks and spaces, and its text. Empty of other lines."""
    found = re.match(r"( *(?:--|///|//!|//)(?: +|$))(.*)$", line)
    return (found[1], found[2].rstrip()) if found else ("", "")


def wrapped(lines, kept):
    """The lines with their wide comments wrapped, but for those at `kept`, tables, and what stands
    between fences. What is too much goes to the next line, where the sentence goes on there."""
    out, lines, fenced = [], list(lines), False
    for at, line in enumerate(lines):
        front, text = comment_of(line)
        fenced ^= text.startswith("```")
        if len(line) <= WIDTH or not front or fenced or at in kept or text[0] == "|":
            out.append(line)
            continue
        mark = re.match(r"(([-*]|\d+\.) +)?", text)[0]
        later, rows = front + " " * len(mark), [front + mark]
        for word in text[len(mark):].split():
            if len(rows[-1]) + len(word) > WIDTH and rows[-1] != later:
                rows.append(later)
            rows[-1] += word + " "
        out += [it.rstrip() for it in rows]
        next_front, next_text = comment_of(lines[at + 1]) if at + 1 < len(lines) else ("", "")
        goes_on = text[-1] not in ".:?!" and not re.match(r"[-*|#]|```|\d+\. |$", next_text)
        if goes_on and next_front == later and at + 1 not in kept:
            lines[at + 1] = f"{out.pop()} {next_text}"
    return out


def level_between(left, right):
    """The level of a cut between two tokens, or None where there is to be none."""
    if left in ("=", "↦", "in") or right in ("then", "else"):
        return {"then": THEN, "else": ELSE}.get(right, BODY)
    if left in GLUED_TO_NEXT or right in GLUED_TO_LAST or is_sign(left):
        return None
    if left == ":":
        return HEAD if right in OPENERS else COLON
    return LEVELS.get(right, LEVELS["other"]) if is_sign(right) and right not in "←¬" else ARGUMENT


def is_list(tokens, at):
    """Whether the bracket at `at` has a list, which has an item a line where it goes over lines."""
    rest = tokens[at + 1:]
    steps = [(it.text in OPENERS) - (it.text in CLOSERS) if it.kind == "Antt" else 0 for it in rest]
    depths = itertools.takewhile(lambda depth: depth >= 0, itertools.accumulate(steps))
    inside = [it.text for it, depth in zip(rest, depths) if depth == 0]
    is_record = inside and "record" in [it.text for it in tokens[max(0, at - 2):at]]
    return {"(": "," in inside, "[": "↦" in inside, "{": is_record}[tokens[at].text]


def words_of(tokens, column):
    """A line's words, each from column to column, and the cuts between them."""
    words, cuts, frames, depth = [], [], [{}], 0  # a frame: what is known of an open bracket
    for at, it in enumerate(tokens):
        last, frame, level = tokens[max(0, at - 1)], frames[-1], None
        stays = it.text in OPENERS and at == len(tokens) - 1
        if last.end < it.start and {it.kind, last.kind} <= {"Antt", "Text"} and not stays:
            level = BODY if frame.pop("is_body", False) else level_between(last.text, it.text)
            level = HEAD if frame.get("head") and level is not None else level
            level = ARGUMENT if frame.get("list") else level
        if words and level is None:
            words[-1][1] = column(it.end)
        else:
            cuts += [Cut(depth, level, frame.get("list"))] if words else []
            words.append([column(it.start), column(it.end)])
        if it.kind == "Antt" and it.text in OPENERS:
            opens = is_list(tokens, at) and not frame.get("head")
            frames.append({"list": column(it.end) if opens else None})
            depth += 1
        elif it.kind == "Antt" and it.text in CLOSERS:
            frames, depth = frames[:-1] if frames[1:] else [{}], depth - 1
        elif it.kind == "Antt" and it.text in ("λ", "let"):
            frame["head"] = it.text
        elif (frame.get("head"), it.text) in (("λ", "."), ("let", "=")):
            frame["head"], frame["is_body"] = None, it.text == "."
    return words, cuts


def pieces_of(line, words, cuts, indent, width):
    """The line in pieces of up to this width, where the later ones are indented by `indent`."""
    ends, in_list = [], []

    def is_one_list(inner):
        depth = min([it.depth for it in inner] or [0])
        is_alone = sum(it.depth == depth and not it.opener for it in inner) <= 1
        return is_alone and any(it.opener and it.depth <= depth + 1 for it in inner)

    def lay(first, last, at):
        """Lays out the words from `first` to before `last` from column `at`; gives the next one."""
        size, inner = words[last - 1][1] - words[first][0], cuts[first:last - 1]
        is_wide = at + size > width and not in_list
        if is_wide and first and at > indent and (indent + size <= width or not inner):
            ends.append(words[first][0])
            return indent + size
        if not is_wide or not inner:
            return at + size
        depth, level, opener = min(inner, key=lambda it: it[:2])
        if opener:  # the formatter lays out the list
            ends.append(opener)
            in_list.append(True)
            return at
        starts = [first] + [first + 1 + n for n, it in enumerate(inner) if it[:2] == (depth, level)]
        is_over = False  # whether the part before goes over lines
        for start, stop in zip(starts, starts[1:] + [last]):
            if start > first and not in_list:
                size = words[stop - 1][1] - words[start][0]
                stays = level == ARGUMENT or level == BODY and is_one_list(cuts[start:stop - 1])
                is_let = re.compile("(?<= in )|let ").match(line, words[start][0])
                always = level == (BODY if is_let else ELSE) or is_over and SIGN <= level < COLON
                if always or at + 1 + size > width and not (stays and indent + size > width):
                    ends.append(words[start][0])
                    at = indent - 1
            count, at = len(ends), lay(start, stop, at + (start > first))
            is_over = len(ends) > count
        return at

    lay(0, len(words), words[0][0])
    return [line[x:y].strip() for x, y in zip([0] + ends, ends + [len(line)])]


def broken(line, words, cuts, indent):
    """The line in several: few of them, then few that are short, and then full ones."""
    ways = [pieces_of(line, words, cuts, indent, width) for width in range(WIDTH, WIDTH - 40, -4)]
    first, *others = min(ways, key=lambda it: (len(it), sum(0 < len(one) < 18 for one in it[1:])))
    return [line[:len(line) - len(line.lstrip())] + first] + [" " * indent + it for it in others]


def step(file, tokens, imports):
    """Cuts each wide line of the file once, for the formatter to lay out. Whether there was one."""
    lines, out, bases, start = Path(file).read_text().split("\n"), [], [0], 0
    of_line = {line: list(it) for line, it in itertools.groupby(tokens, lambda it: it.line)}
    for at, line in enumerate(lines):
        data, here, indent = line.encode(), of_line.get(at, []), len(line) - len(line.lstrip())
        while here and indent < bases[-1]:
            bases.pop()
        if here and indent not in (bases[-1], bases[-1] + 4):
            bases.append(indent)  # an item's column; the formatter indents its other lines by four
        is_term = any(it.kind == "Antt" for it in here) and here[-1].end == start + len(data)
        if len(line) <= WIDTH or not is_term:
            out.append(line)
        elif "use" in (here[0].text, here[1].text):
            out += line.replace(".{", ".{\n  ", 1).split("\n") if imports else [line]
        else:
            words = words_of(here, lambda byte: len(data[:byte - start].decode()))
            out += broken(line, *words, (bases[-1] if file.endswith(".antt") else indent) + 4)
        start += len(data) + 1
    if len(out) == len(lines):
        out = wrapped(out, {it.line for it in tokens if it.text.startswith("//")})
    Path(file).write_text("\n".join(out))
    return out != lines


def wide(files):
    """How many lines are wide, by kind."""
    count = collections.Counter()
    for file, line in ((it, line) for it in files for line in Path(it).read_text().split("\n")):
        is_use = re.match(r" *(pub |ghost )*use ", line)
        kind = "comments" if comment_of(line)[0] else "imports" if is_use else "code"
        count[f"{Path(file).suffix} {kind}"] += len(line) > WIDTH
    return ", ".join(f"{n} of {kind}" for kind, n in sorted(count.items()))


def main():
    options = [it for it in sys.argv[1:] if it.startswith("--")]
    crates = [it for it in sys.argv[1:] if not it.startswith("--")] or ["*"]
    files = [str(it) for crate in crates for it in Path("crates").glob(f"{crate}/**/*.*")]
    files = sorted(it for it in files if it.endswith((".antt", ".rt")))
    print(f"wide: {wide(files)}")
    todo = [] if "--count" in options else files
    tokens = tokens_of(files)
    before = {it: (Path(it).read_text(), must_stay(it, tokens[it])) for it in files}
    for _ in range(40):
        texts = {it: Path(it).read_text() for it in todo}
        todo = [it for it in todo if step(it, tokens[it], "--keep-imports" not in options)]
        print(formatter("--write", todo), end="")
        todo = [it for it in todo if Path(it).read_text() != texts[it]]
        tokens = tokens_of(todo)
    changed = [it for it in files if Path(it).read_text() != before[it][0]]
    tokens, loose = tokens_of(changed), formatter("--check", changed)
    for it in changed:
        if it not in tokens or it in loose or must_stay(it, tokens[it]) != before[it][1]:
            print(f"put back: {it}")
            Path(it).write_text(before[it][0])
    print(f"wide now: {wide(files)}; {len(changed)} files changed")


main()
