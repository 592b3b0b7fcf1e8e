#!/usr/bin/env python3
"""Takes recorded answers into answers/: keep.py FOLDER [--new] [--all]

FOLDER is that of record.sh, or of record_new.sh with --new. Kept is every second case of each set, so that the other half can check what was
made of this one, and of failovers 400 at most; all of them with --all. Sets that no comparison reads are left out.
"""
import gzip
import json
import os
import sys

TOP = os.path.dirname(os.path.dirname(os.path.dirname(os.path.abspath(__file__))))
sys.path.insert(0, TOP)
from beside.grid import SETS as OF_GRID
from beside.recorded import NEW, SETS

WHOLE = ("election_two_leaders", "runs", "election_emptied", f"{NEW}election_emptied")  # few cases, or no list
MOST_FAILOVERS = 400


def main():
    folder, step, is_new = sys.argv[1], 1 if "--all" in sys.argv else 2, "--new" in sys.argv
    for name in sorted({*SETS, *OF_GRID}):
        if name.startswith(NEW) != is_new:
            continue
        path = os.path.join(folder, f"{name.removeprefix(NEW)}.json")
        if not os.path.exists(path):
            print(f"{name}: not recorded")
            continue
        with open(path, encoding="utf-8") as file:
            cases = json.load(file)
        kept = cases if name in WHOLE or isinstance(cases, dict) else cases[::step]
        if name.endswith("election_failover") and step > 1:
            kept = kept[:MOST_FAILOVERS]
        with open(f"{TOP}/answers/{name}.json.gz", "wb") as file, gzip.GzipFile("", "wb", 9, file, mtime=0) as packed:
            packed.write(json.dumps(kept, separators=(",", ":"), sort_keys=True).encode())
        print(f"{name}: {len(kept)} of {len(cases)} cases")


if __name__ == "__main__":
    main()
