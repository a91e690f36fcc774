"""Finds steps that reduce a circuit: passes and merges of neighbouring gates, each
forwards, that lead from a circuit to its reduced list.

A gate is its target, its control and its power here, and a NOT has control -1 and
power 2: so gates compare as in dictionary order, a NOT before control 0."""

from __future__ import annotations

from typing import Iterable, Iterator, List, Optional, Set, Tuple

_Gate = Tuple[int, int, int]
# The word of a step, and the place of the first of its two gates, counted from 1.
_Step = Tuple[str, int]

_POWERS = {b"not": 2, b"v": 1, b"cn": 2, b"vp": 3}


def read(text: bytes) -> List[_Gate]:
    """The gates of a circuit text that reduce accepts."""
    gates = []
    for line in text.splitlines()[1:]:
        word, *numbers = line.strip(b"()").split()
        control = -1 if word == b"not" else int(numbers[0])
        gates.append((int(numbers[-1]), control, _POWERS[word]))
    return gates


def write(steps: Iterable[_Step]) -> bytes:
    """A slip with these steps."""
    return "".join(f"({word} {place})\n" for word, place in steps).encode()


def reduce(gates: List[_Gate]) -> Iterator[_Step]:
    """The steps from these gates to the reduced list, which they are when the last step
    is taken."""
    yield from _merge(gates)
    yield from _order(gates)


def _merge(gates: List[_Gate]) -> Iterator[_Step]:
    """Takes the gates in order, brings each back to its partner, if it has one, and
    merges the two. Before the gate that is taken no two can be brought together, so
    in the end the gates are as few as passes and merges can make them."""
    place = 0
    while place < len(gates):
        partner = _partner(gates, place)
        if partner is None:
            place += 1
            continue
        yield from _bring(gates, place, partner + 1)
        target, control, power = gates[partner]
        power = (power + gates[partner + 1][2]) % 4
        merged = [(target, control, power)] if power else []
        gates[partner : partner + 2] = merged
        yield "merge", partner + 1
        place -= 1 - len(merged)


def _partner(gates: List[_Gate], place: int) -> Optional[int]:
    """The nearest gate before this one with its target and its control, if it passes
    every gate between them."""
    target, control, _ = gates[place]
    for before in range(place - 1, -1, -1):
        other, other_control, _ = gates[before]
        if (other, other_control) == (target, control):
            return before
        if other == control or other_control == target:
            return None
    return None


def _order(gates: List[_Gate]) -> Iterator[_Step]:
    """Brings the gates into dictionary order, as far as passes can: of those that pass
    all before them, from the front on, the smallest comes next."""
    for front in range(len(gates)):
        yield from _bring(gates, _smallest(gates, front), front)


def _smallest(gates: List[_Gate], front: int) -> int:
    """The place of the smallest gate that passes all gates from the front up to it."""
    smallest = front
    targets: Set[int] = set()
    controls: Set[int] = set()
    for place in range(front, len(gates)):
        target, control, _ = gates[place]
        in_front = target not in controls and control not in targets
        if in_front and gates[place] < gates[smallest]:
            smallest = place
        targets.add(target)
        controls.add(control)
    return smallest


def _bring(gates: List[_Gate], place: int, to: int) -> Iterator[_Step]:
    """Brings a gate to an earlier place, pass by pass."""
    for right in range(place, to, -1):
        gates[right - 1], gates[right] = gates[right], gates[right - 1]
        yield "pass", right
