"""What the scripts of this folder share: the program that they measure, the least of several runs, the bounds.

A script names its measurements by the words of the program crate `crates/bench`, prints what they cost, and yields a line for
each bound that was passed. `main` builds that program first, and stops where that fails: no older program is ever measured.
"""
import os
import re
import resource
import shutil
import subprocess
import sys

ROOT = os.path.dirname(os.path.dirname(os.path.abspath(__file__)))
PROGRAM = f"{ROOT}/crates/bench/out/bench"
THREE_THREADS = f"{ROOT}/bench/out/release/three_threads"
SCRIPT = f"bench/{os.path.basename(sys.argv[0])}"


def stop(why):
    sys.exit(f"{SCRIPT}: {why}")


def needs(*tools):
    """Stops where one of these commands is not on the path."""
    for it in tools:
        if not shutil.which(it):
            stop(f"there is no {it} on the path")


def build(*words, folder=ROOT):
    """Runs a command that builds something, which tells of itself on standard error, and stops where it fails."""
    needs(words[0])
    if subprocess.run(words, cwd=folder, stdin=subprocess.DEVNULL, stdout=subprocess.DEVNULL, check=False).returncode:
        stop(f"`{' '.join(words)}` failed in {os.path.relpath(folder, ROOT)}, so nothing was measured")


def build_three_threads():
    """Builds the program that only starts threads and hands over between them (bench/three_threads). It needs cargo, and no network."""
    build("cargo", "build", "--offline", "--quiet", "--release", "--manifest-path", "bench/three_threads/Cargo.toml", "--target-dir", "bench/out")


def serving(pid):
    """The process that serves: this one, or where this is `./interop`, whose shell heeds signals for it, the one that it started."""
    while os.path.basename(os.readlink(f"/proc/{pid}/exe")) in ("bash", "dash", "sh"):
        with open(f"/proc/{pid}/task/{pid}/children", encoding="ascii") as file:
            pid = int(file.read().split()[0])
    return pid


def printed(*command, **how):
    """What the command prints. Stops where it fails."""
    ran = subprocess.run([*map(str, command)], capture_output=True, text=True, check=False, **how)
    if ran.returncode:
        stop(f"`{' '.join(map(str, command))}` ended with status {ran.returncode}: {ran.stderr.strip()[-300:]}")
    return ran.stdout, ran.stderr


def run(*words, program=PROGRAM):
    """The numbers that the program prints for these words, the nanoseconds last."""
    return tuple(map(int, re.findall(r"\d+", printed(program, *words)[0])))


def cost(*command, **how):
    """What the command prints, its seconds on the processor and its peak memory in bytes."""
    # GNU time starts it, since a child of this script would count the script's own memory too.
    needs("time")
    before = resource.getrusage(resource.RUSAGE_CHILDREN)
    out, said = printed("time", "-f", "%M", *command, **how)
    after = resource.getrusage(resource.RUSAGE_CHILDREN)
    return out, after.ru_utime + after.ru_stime - before.ru_utime - before.ru_stime, int(said.split()[-1]) << 10


def least(runs, measures):
    """The least of what each call gives, number by number; they take turns, so that a slow moment of the machine is one of all."""
    rounds = [[measure() for measure in measures] for _ in range(runs)]
    return [tuple(map(min, zip(*results))) for results in zip(*rounds)]


def worst_step(costs):
    """How many times a cost is that of the one before it, at most."""
    return max(after / before for before, after in zip(costs, costs[1:]))


def main(measure, build_program=lambda: build("rt", "run", folder=f"{ROOT}/crates/bench")):
    """Builds the program and measures. Prints the bounds that were passed, and exits 1 where there is one."""
    sys.stdout.reconfigure(line_buffering=True)
    build_program()
    passed = [*measure()]
    for it in passed:
        print(f"a bound was passed: {it}")
    sys.exit(1 if passed else 0)
