#!/usr/bin/env python3
"""times.py PID: where the time of a run goes, by crate: proofs, tests and must-fail edits; and whether it is within its bound.

Twice a second this looks at the provers (`rattle check`, `rattle build`) that descend from the process PID, and tells by
their words and their folder what each works at. `rt ci` works at several crates side by side and prints each when it has
ended, so its output does not tell. On SIGTERM, or once PID has ended, it prints a table and ends: wall seconds from the
first prover's start to the last one's end, and processor seconds, each a fraction of a second short for each prover.
"""
import os
import signal
import sys
import time

PERIOD = 0.5
TICKS = os.sysconf("SC_CLK_TCK")
WORK = ("proof", "tests", "edits")
NAMES = {"proof": "proofs", "tests": "tests", "edits": "must-fail edits"}
# The bound on a run from nothing, in processor seconds: all crates together, and the dearest with its tests and edits. It is that of a
# machine on which the proof of the crate REFERENCE takes as many as here; on another it is in proportion.
BOUND_OF_ALL, BOUND_OF_ONE = 9_000, 900
REFERENCE, REFERENCE_SECONDS = "hpack_codec", 77


class Prover:
    """A prover that was seen, with all that it started: its crate, its work, when it ran, and the processor's ticks."""

    def __init__(self, crate, work, start):
        self.crate, self.work, self.start, self.end, self.ticks = crate, work, start, start, 0


def processes():
    """Each process by its number: its parent, its processor ticks (those of children that have ended too), its start in ticks."""
    found = {}
    for name in os.listdir("/proc"):
        if name.isdigit():
            try:
                with open(f"/proc/{name}/stat", encoding="utf-8", errors="replace") as file:
                    words = file.read().rpartition(")")[2].split()
            except OSError:
                continue
            found[int(name)] = int(words[1]), sum(map(int, words[11:15])), int(words[19])
    return found


def work_of(pid):
    """The crate and the work of a prover, or None where the process is none."""
    try:
        with open(f"/proc/{pid}/cmdline", encoding="utf-8", errors="replace") as file:
            words = file.read().split("\0")
        folder = os.readlink(f"/proc/{pid}/cwd")
    except OSError:
        return None
    if os.path.basename(words[0]) != "rattle" or words[1:2] not in (["check"], ["build"]) or "--crate-name" not in words[:-1]:
        return None
    # An edit is tried on a copy of the crate, in a folder of that name.
    is_edit = os.path.basename(folder).startswith("rt-edit-")
    work = "edits" if is_edit else "tests" if "--test" in words else "proof"
    return words[words.index("--crate-name") + 1], work


def look(root, seen, now):
    """Notes what the provers below the process `root` have used so far. A prover's own forks count as the prover."""
    running = processes()
    children = {}
    for pid, (parent, _, _) in running.items():
        children.setdefault(parent, []).append(pid)

    def ticks(pid):
        return running[pid][1] + sum(ticks(it) for it in children.get(pid, []))

    left = [root]
    while left:
        pid = left.pop()
        start = running[pid][2] if pid in running else 0
        if (pid, start) not in seen:
            told = work_of(pid)
            if told:
                seen[pid, start] = Prover(*told, start)
        prover = seen.get((pid, start))
        if prover:
            prover.end, prover.ticks = now, max(prover.ticks, ticks(pid))
        else:
            left += children.get(pid, [])


def bound(provers, used):
    """The lines that hold what the run proved to the bound, where the proof that tells the machine's speed is among it."""
    of = {name: used([it for it in provers if it.crate == name]) for name in {it.crate for it in provers}}
    reference = used([it for it in provers if (it.crate, it.work) == (REFERENCE, "proof")])
    if not reference:
        yield f"the bound: nothing is said, since the proof of {REFERENCE}, which tells this machine's speed, was kept from an earlier run"
        return
    speed, dearest = reference / REFERENCE_SECONDS, max(of, key=of.get)
    yield f"the bound: the proof of {REFERENCE} took {reference:.0f} s of a processor, {speed:.2f} of the {REFERENCE_SECONDS} s that the bound is for"
    for what, much, most in (("in all", sum(of.values()), BOUND_OF_ALL), (f"{dearest}, the dearest crate,", of[dearest], BOUND_OF_ONE)):
        yield f"the bound: {what} {much:.0f} s of {most * speed:.0f} s: {'within' if much <= most * speed else 'PAST IT'}, {much / most / speed:.2f} of it"


def table(provers, began, ended):
    """The lines of each crate, the dearest first, and of each kind of work."""
    began = min([began, *(it.start for it in provers)])
    crates = {}
    for it in provers:
        crates.setdefault(it.crate, {}).setdefault(it.work, []).append(it)
    wall = lambda some: (max(it.end for it in some) - min(it.start for it in some)) / TICKS if some else 0
    used = lambda some: sum(it.ticks for it in some) / TICKS
    cell = lambda number: f"{number:9.0f}" if number else "        -"
    yield f"{'seconds':20}" + "".join(f"{it:>9}" for it in WORK) + "   of a processor:" + "".join(f"{it:>9}" for it in (*WORK, "all"))
    dearest = sorted(crates, key=lambda it: -used(sum(crates[it].values(), [])))
    for name in dearest:
        some = [crates[name].get(it, []) for it in WORK]
        costs = [*map(used, some), used(sum(some, []))]
        yield f"{name:20}" + "".join(cell(wall(it)) for it in some) + " " * 18 + "".join(map(cell, costs))
    for work in WORK:
        some = [it for it in provers if it.work == work]
        if some:
            at = (min(it.start for it in some) - began) / TICKS
            yield f"{NAMES[work]}: {wall(some):.0f} s, from {at:.0f} s to {at + wall(some):.0f} s, {used(some):.0f} s of a processor"
    yield from bound(provers, used)
    last = max((it.end for it in provers), default=began)
    yield f"what follows the last of them (programs and tests run): {(ended - last) / TICKS:.0f} s"
    share = used(provers) / max((ended - began) / TICKS, 1)
    yield f"provers kept {share:.1f} of {len(os.sched_getaffinity(0))} processors busy"


def main():
    root = int(sys.argv[1])
    is_told = []
    signal.signal(signal.SIGTERM, lambda *_: is_told.append(True))
    seen = {}
    now = lambda: int(time.clock_gettime(time.CLOCK_BOOTTIME) * TICKS)
    began = now()
    while not is_told and os.path.exists(f"/proc/{root}"):
        look(root, seen, now())
        time.sleep(PERIOD)
    for line in table([*seen.values()], began, now()):
        print(line)


if __name__ == "__main__":
    main()
