"""Proves and builds the libraries below some crates, by `rt lib`, each once those that it uses stand.

Those that share no library are built side by side, as many as there are processors and memory allow. On standard error comes
a line for each that was built, and all that `rt lib` said of one that failed. The scripts of this folder import it.
"""
import os
import re
import subprocess
import sys
import time
from concurrent.futures import FIRST_COMPLETED, ThreadPoolExecutor, wait

import crates

# The most that the check of one library has been seen to take.
MEMORY = 4 << 30


def processors():
    return len(os.sched_getaffinity(0))


def at_once():
    """How many checks fit the processors and the free memory."""
    try:
        with open("/proc/meminfo", encoding="utf-8") as file:
            free = int(re.search(r"MemAvailable:\s+(\d+)", file.read())[1]) << 10
    except (OSError, TypeError):
        free = MEMORY
    return max(1, min(processors(), free // MEMORY))


def build(name, jobs, root):
    """Builds one library. Whether that went well, what rt said, and the seconds that it took."""
    start = time.monotonic()
    how = {"cwd": f"{root}/crates/{name}", "stdin": subprocess.DEVNULL, "stdout": subprocess.PIPE, "stderr": subprocess.STDOUT}
    ran = subprocess.run(["rt", "lib", "--jobs", str(jobs)], text=True, errors="replace", check=False, **how)
    return ran.returncode == 0, ran.stdout, time.monotonic() - start


def tell(name, is_well, said, seconds):
    if not is_well:
        print(f"{said}{name} was not built, after {seconds:.0f} s", file=sys.stderr, flush=True)
    elif re.search(rf"^crate {name}: ", said, re.MULTILINE):
        print(f"built {name} in {seconds:.0f} s", file=sys.stderr, flush=True)


def build_below(names, root=crates.ROOT):
    """Builds the libraries below these crates, and tells of each. Whether all were built."""
    uses, lanes = crates.listed(root), at_once()
    # (rt holds a library and those below it while it works at it, so two that share one are not started together)
    held = {it: {*crates.with_below(uses, [it])} for it in uses}
    left = sorted(set().union(*(held[it] - {it} for it in names)), key=lambda it: -crates.lines(it, root))
    built, running, is_well = set(), {}, True
    with ThreadPoolExecutor(lanes) as pool:
        while running or (left and is_well):
            chosen = []
            for it in left:
                beside = [*chosen, *(name for name, _ in running.values())]
                if is_well and len(beside) < lanes and built.issuperset(uses[it]) and not any(held[it] & held[other] for other in beside):
                    chosen.append(it)
            idle = processors() - sum(jobs for _, jobs in running.values())
            for place, name in enumerate(chosen):
                # The largest, which the others above wait for longest, gets the processors that are free, and two at least: the
                # small ones beside it soon end. The rest get one each.
                jobs = 1 if place else max(2, idle)
                left.remove(name)
                running[pool.submit(build, name, jobs, root)] = name, jobs
            for it in wait(running, return_when=FIRST_COMPLETED).done:
                name, _ = running.pop(it)
                tell(name, *it.result())
                is_well = is_well and it.result()[0]
                built.add(name)
    return is_well
