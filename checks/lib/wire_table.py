#!/usr/bin/python3
"""wire_table.py NAME=FILE..: what real servers fail, from runs of `interop wire`.

FILE is what `interop wire all --port P --json FILE` left of a server, which the table calls NAME; a NAME may have several files,
of a group each. The table in docs/WIRE.md, after
its line `<!-- wire_table.py -->`, becomes that of these runs: cases, their level and section, and how each server did. For each
case of level must that failed, checks/wire-peers/NAME.txt has the sentence that binds the server, the bytes that were sent and the
frames that were read.
"""
import json
import os
import sys

ROOT = os.path.dirname(os.path.dirname(os.path.dirname(os.path.abspath(__file__))))
MARK = "<!-- wire_table.py -->\n"
# What follows the name of a server, by its verdict. A server whose case is ok isn't named.
WORDS = {"failed": "", "unsteady": "?", "not applicable": "-"}

# A sent text of more bytes than this is cut: the case's steps say what stands there.
SHOWN = 4_000


def outcomes_of(words):
    """The outcomes of each server: by its name, and by the case's."""
    servers = {}
    for word in words:
        name, path = word.split("=", 1)
        with open(path, encoding="utf-8") as file:
            found = [json.loads(line) for line in file]
        servers.setdefault(name, {}).update({it["name"]: it for it in found if "summary" not in it})
    return servers


def joined(cases):
    """The names of cases, those of a group with their numbers joined: `conn/1-3,7`."""
    groups = {}
    for case in cases:
        group, number = case.split("/")
        groups.setdefault(group, []).append(int(number))
    return " ".join(f"{group}/{spans(numbers)}" for group, numbers in groups.items())


def spans(numbers):
    found = []
    for number in numbers:
        if found and found[-1][1] == number - 1:
            found[-1][1] = number
        else:
            found.append([number, number])
    return ",".join(str(first) if first == last else f"{first}-{last}" for first, last in found)


def sentence_of(outcome):
    """What a case rests on: the standard and the section, and the sentence where there is one."""
    return outcome["rule"] + (f": {outcome['sentence']}" if outcome["sentence"] else "")


def rows_of(servers):
    """The table's rows: those cases together that have the same level, section and verdicts, where not each verdict is ok."""
    cases = list(dict.fromkeys(case for outcomes in servers.values() for case in outcomes))
    rows = {}
    for case in cases:
        known = next(outcomes[case] for outcomes in servers.values() if case in outcomes)
        verdicts = tuple(outcomes.get(case, {}).get("verdict") for outcomes in servers.values())
        if known["level"] != "ours" and {"failed", "unsteady"} & set(verdicts):
            rows.setdefault((known["level"], known["rule"], verdicts), []).append(case)
    return rows


def table_of(servers):
    lines = ["|Cases|Section|Failed by|", "|---|---|---|"]
    for (level, rule, verdicts), cases in rows_of(servers).items():
        marks = " ".join(name + WORDS[verdict] for name, verdict in zip(servers, verdicts) if verdict in WORDS)
        lines.append(f"|{joined(cases)}|{level} {rule}|{marks}|")
    return "\n".join(lines) + "\n\n" + counts_of(servers)


def counts_of(servers):
    """How many cases of each level failed, and how many were not applicable."""
    parts = []
    for name, outcomes in servers.items():
        failed = [it["level"] for it in outcomes.values() if it["verdict"] == "failed"]
        others = sum(it["verdict"] == "not applicable" for it in outcomes.values())
        parts.append(f"{name} fails {failed.count('must')} of level must and {failed.count('should')} of level should ({others} not applicable)")
    return "; ".join(parts) + ".\n"


def faults_of(outcomes):
    """Of each case of level must that failed: what was wanted, what came, the bytes and the frames."""
    lines = []
    for case, it in outcomes.items():
        if it["verdict"] != "failed" or it["level"] != "must":
            continue
        sent = it["sent"]
        cut = f" and {len(sent) // 2 - SHOWN} bytes more" if len(sent) > 2 * SHOWN else ""
        lines += [f"{case} {it['title']}", f"  {it['level']} {sentence_of(it)}", f"  wanted {it['wanted']}", f"  came {it['came']}"]
        lines += [f"  sent {sent[:2 * SHOWN]}{cut}", *(f"  read {frame}" for frame in it["frames"]), ""]
    return "\n".join(lines)


def main():
    servers = outcomes_of(sys.argv[1:])
    path = os.path.join(ROOT, "docs", "WIRE.md")
    with open(path, encoding="utf-8") as file:
        text = file.read()
    front, mark, _ = text.partition(MARK)
    if not servers or not mark:
        sys.exit(__doc__)
    with open(path, "w", encoding="utf-8") as file:
        file.write(front + mark + table_of(servers))
    folder = os.path.join(ROOT, "checks", "wire-peers")
    os.makedirs(folder, exist_ok=True)
    for name, outcomes in servers.items():
        with open(os.path.join(folder, f"{name}.txt"), "w", encoding="utf-8") as file:
            file.write(faults_of(outcomes))


main()
