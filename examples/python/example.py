"""Prints the circuit of a cascade and its price, or why it is turned away.

usage: python3 example.py CASCADE      needs the package yilgorza (folder python)
"""

import sys
from pathlib import Path

import yilgorza


def main(path: str) -> int:
    try:
        circuit = yilgorza.map(Path(path).read_bytes())
    except yilgorza.TurnedAway as refusal:
        print(f"{path}: {refusal}", file=sys.stderr)
        return 1
    print(circuit.text.decode("ascii"))
    kinds = [gate.kind.name.lower() for gate in circuit.gates]
    for kind in sorted(set(kinds)):
        print(f"{kinds.count(kind):4} {kind}")
    print(f"{len(kinds):4} gates")
    return 0


if __name__ == "__main__":
    if len(sys.argv) != 2:
        sys.exit("usage: python3 example.py CASCADE")
    sys.exit(main(sys.argv[1]))
