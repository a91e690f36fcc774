"""The C functions of include/yilgorza.h, in a shared object that is loaded at the
first call: the one of this package, or the one that YILGORZA_SO names."""

from __future__ import annotations

import ctypes
import os
from functools import lru_cache
from pathlib import Path
from typing import Any, Callable, Dict, List, Tuple, Union

_PACKAGED = str(Path(__file__).absolute().with_name("libyilgorza.so"))

LIST_RECORDS = 4096
ANSWER_BYTES = 45067

GateList = ctypes.c_uint16 * LIST_RECORDS
AnswerArea = ctypes.c_uint8 * ANSWER_BYTES
NoAnswerArea = ctypes.c_uint8 * 0
_Outcome = ctypes.c_uint64 * 4
_GateParts = ctypes.c_uint8 * 3

_TEXT: List[Any] = [ctypes.c_char_p, ctypes.c_size_t]
_LIST: List[Any] = [ctypes.POINTER(ctypes.c_uint16), ctypes.c_size_t]
_ANSWER: List[Any] = [ctypes.POINTER(ctypes.c_uint8), ctypes.c_size_t]
_OUTCOME: List[Any] = [ctypes.POINTER(ctypes.c_uint64)]

# The parameters of each function. None has a result.
_FUNCTIONS: Dict[str, List[Any]] = {
    "map": _TEXT + _LIST + _ANSWER + _OUTCOME,
    "reduce": _TEXT + _LIST + _ANSWER + _OUTCOME,
    "invert": _TEXT + _LIST + _ANSWER + _OUTCOME,
    "join": _TEXT + _LIST + _TEXT + _ANSWER + _OUTCOME,
    "compare": _TEXT + _LIST + _TEXT + _LIST + _OUTCOME,
    "slip": _TEXT + _LIST + _TEXT + _TEXT + _LIST + _OUTCOME,
    "gate": [ctypes.c_uint16, ctypes.POINTER(ctypes.c_uint8)],
}


# A text, or an area that is lent.
Lent = Union[bytes, "ctypes.Array[Any]"]


def run(job: str, *lent: Lent) -> Tuple[int, int, int, int]:
    """Runs a job on its texts and the areas lent to it, in its order: of one text
    number, line, gates and bytes, of several number, line, text and count."""
    outcome = _Outcome()
    parts = [part for area in lent for part in (area, len(area))]
    _functions()[job](*parts, outcome)
    first, second, third, fourth = outcome
    return first, second, third, fourth


def gate(record: int) -> Tuple[int, int, int]:
    """Reads a record of a gate list: kind, control and target."""
    parts = _GateParts()
    _functions()["gate"](record, parts)
    kind, control, target = parts
    return kind, control, target


@lru_cache(maxsize=None)
def _functions() -> Dict[str, Callable[..., None]]:
    path = os.environ.get("YILGORZA_SO") or _PACKAGED
    try:
        library = ctypes.CDLL(path)
        functions = {name: getattr(library, f"yilgorza_{name}") for name in _FUNCTIONS}
    except (OSError, AttributeError) as error:
        raise OSError(
            f"yilgorza: the shared object {path} cannot be used: {error}. `pip "
            "install` puts one into the package; the environment variable YILGORZA_SO, "
            "where it is set, names another."
        ) from error
    for name, function in functions.items():
        function.argtypes = _FUNCTIONS[name]
        function.restype = None
    return functions
