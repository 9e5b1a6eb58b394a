#!/usr/bin/env python3
"""costs.py CRATE [N]: what the proofs of a crate's functions cost, the dearest N first (30), by what its last `rt check` kept.

Each line has the megabytes of the files that are kept of a function's proof, and its path. They grow with the seconds that the
proof takes, and don't hang on what else the machine does.
"""
import collections
import glob
import os
import re
import sys

KEPT = "crates/{}/out/incremental/*/Rattle-{}-proofs.*.oantt"
# The parts of a function's proof, a file each.
PART = re.compile(r"(\.(Code|Mir|Statement|Met|Named|Layout|Reads|Symbol|Given|Goals|Answers|Invariants|Proof|Tie|TheLink|Lts|(Kinds|Carried)[-\d]*))*\.oantt$")


def main():
    root = os.path.dirname(os.path.dirname(os.path.abspath(__file__)))
    crate, most = sys.argv[1], int(sys.argv[2]) if len(sys.argv) > 2 else 30
    sizes = collections.Counter()
    for file in glob.glob(os.path.join(root, KEPT.format(crate, crate))):
        name = os.path.basename(file).partition("-proofs.")[2]
        sizes[PART.sub("", name)] += os.path.getsize(file)
    if not sizes:
        sys.exit(f"costs.py: nothing is kept of {crate}: call rt check in crates/{crate}")
    for name, size in sizes.most_common(most):
        print(f"{size / 1e6:6.1f} MB {name}")
    print(f"{sum(sizes.values()) / 1e6:6.1f} MB in all, of {len(sizes)} functions and types")


main()
