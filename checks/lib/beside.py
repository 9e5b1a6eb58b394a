"""beside.py ROOT NAME: the crates of ROOT/crates.txt that neither use the crate NAME nor are used by it, on one line."""
import sys

import crates

if __name__ == "__main__":
    root, name = sys.argv[1:]
    uses = crates.listed(root)
    if name in uses:
        joined = {*crates.with_below(uses, [name]), *crates.with_above(uses, [name])}
        print(*(it for it in uses if it not in joined))
