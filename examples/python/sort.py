"""Sorts circuits: prints their files in the order of compare, the drawings of one
circuit on one row, after its number of gates. Those that are turned away go to
standard error.

usage: python3 sort.py FILE..      needs the package yilgorza (folder python)
"""

import functools
import itertools
import sys
from pathlib import Path
from typing import Callable, Dict, List

import yilgorza

# Makes of a text what sorts as compare says, and is equal where compare says so.
ordered: Callable[[bytes], object] = functools.cmp_to_key(yilgorza.compare)


def main(paths: List[str]) -> int:
    texts: Dict[str, bytes] = {}
    gates: Dict[str, int] = {}
    status = 0
    for path in paths:
        text = Path(path).read_bytes()
        try:
            gates[path] = len(yilgorza.reduce(text).gates)
            texts[path] = text
        except yilgorza.TurnedAway as refusal:
            print(f"{path}: {refusal}", file=sys.stderr)
            status = 1
    rising = sorted(texts, key=lambda path: ordered(texts[path]))
    for _, drawings in itertools.groupby(rising, key=lambda path: ordered(texts[path])):
        row = list(drawings)
        print(f"{gates[row[0]]:4} gates  {' '.join(row)}")
    return status


if __name__ == "__main__":
    if len(sys.argv) < 2:
        sys.exit("usage: python3 sort.py FILE..")
    sys.exit(main(sys.argv[1:]))
