"""Maps a cascade of multiple-control Toffoli gates to a list of NCV gates,
reduces such a list, quotes its gate count, inverts it, joins two of them, says whether
two are one circuit, and checks the steps that are said to lead from one to another.

    >>> import yilgorza
    >>> yilgorza.quote("(lines 3)\\n(mct (0 1) 2)\\n").count
    5
    >>> yilgorza.compare("(lines 2)\\n(v 0 1)\\n(v 0 1)\\n", "(lines 2)\\n(cn 0 1)\\n")
    <Ordering.EQUAL: 0>
    >>> undo = yilgorza.invert("(lines 2)\\n(v 0 1)\\n(not 0)\\n")
    >>> undo.text
    b'(lines 2)\\n(not 0)\\n(vp 0 1)\\n'
    >>> yilgorza.join("(lines 2)\\n(v 0 1)\\n(not 0)\\n", undo.text).gates
    ()
    >>> circuit = "(lines 2)\\n(v 0 1)\\n(v 0 1)\\n"
    >>> yilgorza.slip(circuit, "(merge 1)\\n", "(lines 2)\\n(cn 0 1)\\n")
    >>> yilgorza.reduction_slip(circuit)
    b'(merge 1)\\n'

A text is a str or any bytes-like object. A str stands for its UTF-8 bytes, a lone
surrogate for its three; no character outside ASCII is in form, so a line that has
one is turned away as malformed. A file is best read as bytes: opened as a text
its line ends are changed, and bytes of it may be.

The functions are called by the module's name, yilgorza.map, yilgorza.reduce,
yilgorza.quote, yilgorza.invert, yilgorza.join, yilgorza.compare, yilgorza.slip and
yilgorza.reduction_slip: `from yilgorza import *` brings the types alone, so that it
hides neither the built-in map nor functools.reduce. One call of map gives the gates
and the text; quote gives the gates alone.

Calls may run at the same time in any number of threads: each lends areas of its
own, and the interpreter runs other threads meanwhile. The shared object is loaded
at the first call, from the package or from where the environment variable
YILGORZA_SO says; OSError if that fails.
"""

from __future__ import annotations

from dataclasses import dataclass
from enum import Enum, IntEnum
from functools import lru_cache
from itertools import islice
from pathlib import Path
from typing import Optional, Tuple, Union

from . import _library, _slips

__all__ = [
    "Circuit",
    "Gate",
    "InternalError",
    "Kind",
    "Number",
    "Ordering",
    "Quote",
    "TurnedAway",
]

__version__: str = Path(__file__).with_name("VERSION").read_text("ascii").strip()

# Any object that lends its bytes is taken; these are the ones that types can name.
Text = Union[str, bytes, bytearray, memoryview]

# The most lines of a slip.
_SLIP_STEPS = 4096


class Number(IntEnum):
    """The numbers of a refusal.

    A line of the text is tried against 3, 4, 5, 6, 8, 7 and 9, in this order: so a
    gate with 16 or more controls that may borrow no line, since it names each of them
    or the line is kept, gets NO_SPARE, and once a line is added TOO_WIDE.
    DIFFERENT_LINES is join's and slip's, once all texts are read; before join counts
    the gates of both together, and before slip takes a step. NOT_ALLOWED, of a step,
    and OTHER_END, once every step is taken, are slip's.
    """

    OVERLONG = 1
    SHORT_LIST = 2
    MALFORMED = 3
    NO_SUCH_LINE = 4
    CROSSED = 5
    UNSORTED = 6
    TOO_WIDE = 7
    NO_SPARE = 8
    TOO_MANY = 9
    SHORT_ANSWER = 10
    DIFFERENT_LINES = 11
    NOT_ALLOWED = 12
    OTHER_END = 13

    @property
    def words(self) -> str:
        """What the number says, in a customer's words."""
        return _WORDS[self]

    def __str__(self) -> str:
        # Versions before 3.11 would give the name.
        return str(self.value)


_WORDS = {
    Number.OVERLONG: "the text is longer than 60,000 bytes",
    Number.SHORT_LIST: "the service lent a gate list of fewer than 4,096 records",
    Number.MALFORMED: "this line of the text is not written in the form asked for",
    Number.NO_SUCH_LINE: "this line of the text names a line that the circuit does "
    "not have (or line 1 of the text asks for none, or for more than 32)",
    Number.CROSSED: "a gate is controlled by its own target",
    Number.UNSORTED: "the controls of a gate, or the lines to be kept, are not in "
    "rising order",
    Number.TOO_WIDE: "a gate has more than 15 controls",
    Number.NO_SPARE: "a gate with three or more controls has no line left that it "
    "may borrow: add a line to the circuit",
    Number.TOO_MANY: "too many gates: the 257th of a cascade, an expansion past "
    "4,096, or the 4,097th of a circuit or of two that are joined; or too many steps: "
    "the 4,097th of a slip",
    Number.SHORT_ANSWER: "the service lent an answer area that is too short",
    Number.DIFFERENT_LINES: "the two circuits do not have the same number of lines",
    Number.NOT_ALLOWED: "this step of the slip is not allowed: the two gates at its "
    "place do not pass or merge, or there are no two gates there",
    Number.OTHER_END: "the steps of the slip end at another circuit than the second",
}

# The texts of a job over several, by their numbers from 1.
_ORDINALS = ("first", "second", "third")


class TurnedAway(Exception):
    """A text is refused, with the number and the line, counted from 1; line 0
    where no line is meant.

    From a job over several texts it also has the number of the text, counted from 1
    in the order in which the job takes them; 0 where no one of them is meant. From
    a job over one text this is None.

    It can be pickled. As with other exceptions no two are equal: compare number,
    line and text.
    """

    def __init__(self, number: int, line: int, text: Optional[int] = None) -> None:
        self.number = Number(number)
        self.line = line
        self.text = text
        super().__init__(self.number, line, *(() if text is None else (text,)))

    @property
    def words(self) -> str:
        """The refusal in a customer's words."""
        return self.number.words

    @property
    def form(self) -> str:
        """The form that the programs write."""
        text = "" if self.text is None else f" {self.text}"
        return f"(turned-away {self.number} {self.line}{text})"

    def __str__(self) -> str:
        text = f"the {_ORDINALS[self.text - 1]} text" if self.text else "the text"
        if self.line:
            place = f" at line {self.line} of {text}"
        else:
            place = f" at {text}" if self.text else ""
        return f"refusal {self.number}{place}: {self.words}"


class InternalError(RuntimeError):
    """The shared object answered what its contract rules out: it is not the one
    that this module is for."""


class Kind(Enum):
    """The kinds of gates, as yilgorza_gate numbers them."""

    V = 1
    CN = 2
    VP = 3
    NOT = 4


@dataclass(frozen=True)
class Gate:
    """A gate of a circuit; a NOT has no control."""

    kind: Kind
    control: Optional[int]
    target: int


@dataclass(frozen=True)
class Circuit:
    """The reduced list of a text, and its circuit text."""

    text: bytes
    gates: Tuple[Gate, ...]


@dataclass(frozen=True)
class Quote:
    """The gate count of a cascade, and the gates that are counted."""

    count: int
    gates: Tuple[Gate, ...]


class Ordering(IntEnum):
    """What compare finds of its first text beside the second: below 0, 0 or above
    0, as functools.cmp_to_key asks for."""

    LESS = -1
    EQUAL = 0
    GREATER = 1

    def __str__(self) -> str:
        # Versions before 3.11 would give the name.
        return str(self.value)


def map(text: Text) -> Circuit:
    """Maps a cascade text to a circuit; TurnedAway if it is refused.

    Line 2 of the text may be `(keep a b ..)`, with lines of the circuit that nobody
    may borrow: such a line is used only by the gates that name it.
    """
    return _written("map", text)


def reduce(text: Text) -> Circuit:
    """Reduces a circuit text; TurnedAway if it is refused."""
    return _written("reduce", text)


def quote(text: Text) -> Quote:
    """Quotes the gate count of a cascade text, which is map without the circuit text;
    TurnedAway if it is refused."""
    gates, _ = _answered("map", text, _library.NoAnswerArea())
    return Quote(len(gates), gates)


def invert(text: Text) -> Circuit:
    """Inverts a circuit text: its gates reversed, v and vp exchanged, and the circuit
    so made reduced; TurnedAway if it is refused.

    It undoes the circuit: joined with it, either way round, it gives no gates. The
    inverse of the inverse is what reduce gives.
    """
    return _written("invert", text)


def join(first: Text, second: Text) -> Circuit:
    """Joins two circuit texts on the same number of lines, the first before the
    second, and reduces; TurnedAway, with the number of the text, if one is refused,
    and with the number 0 if they are on different numbers of lines.

    As they are read the two have together at most 4,096 gates. It is what reduce
    gives to both texts put together.
    """
    records = _library.GateList()
    answer = _library.AnswerArea()
    number, line, text, length = _library.run(
        "join", _bytes(first), records, _bytes(second), answer
    )
    _accept(number, line, text)
    written = memoryview(answer)[:length].tobytes()
    # Line 1 is no gate, and each later line is one.
    lines = written.count(b"\n")
    if not lines:
        raise InternalError("yilgorza: the answer has no line 1")
    return Circuit(written, tuple(_gate(record) for record in records[: lines - 1]))


def compare(first: Text, second: Text) -> Ordering:
    """Compares two circuit texts; TurnedAway, with the number of the text, if one
    is refused.

    The circuit on fewer lines is less. On the same number of lines the one is
    whose reduced list comes first in dictionary order, a list that ends sooner
    before one that goes on. So two texts are equal exactly if they are on the same
    number of lines and passes and merges lead from one circuit to the other. The
    order is total: functools.cmp_to_key(compare) sorts texts, and puts those of one
    circuit side by side.

    The reduced lists themselves are what reduce gives.
    """
    lists = _library.GateList(), _library.GateList()
    number, line, text, found = _library.run(
        "compare", _bytes(first), lists[0], _bytes(second), lists[1]
    )
    _accept(number, line, text)
    if found > 2:
        raise InternalError(f"yilgorza: there is no order {found}")
    return Ordering(found - 1)


def slip(circuit: Text, slip: Text, second: Text) -> None:
    """Checks a reduction that was made elsewhere: whether the steps of a slip lead from
    a circuit text to a second one. It returns if the slip is accepted; TurnedAway, with
    the number of the text, if not: the slip is text 2, the second circuit text 3, and
    the number is 0 if no one of them is meant.

    A slip has a step on each line, at most 4,096, and no `(lines n)`; it may be empty.
    `(pass i)` exchanges the gates at the places i and i + 1, counted from 1, if
    neither's target is the other's control. `(merge i)` puts one gate in place of two
    with the same control and target, its power the sum of theirs modulo 4, or none if
    that is 0; two NOTs on one line vanish. The slip is accepted exactly if each step is
    allowed on the circuit so far and the last circuit is the second, gate for gate.
    Then compare finds the two equal, so they have one reduced list.
    """
    lists = _library.GateList(), _library.GateList()
    number, line, text, count = _library.run(
        "slip", _bytes(circuit), lists[0], _bytes(slip), _bytes(second), lists[1]
    )
    _accept(number, line, text)
    if count:
        raise InternalError(f"yilgorza: an accepted slip has no count {count}")


def reduction_slip(circuit: Text) -> bytes:
    """A slip that leads from a circuit text to the text that reduce gives for it;
    TurnedAway if the circuit is refused, ValueError if the slip would have more than
    4,096 lines.

    It is an example of the format for those who write slips, in plain Python, and not
    the shortest slip: each gate is brought back to its partner and merged with it, and
    then the gates are brought into dictionary order. The job slip accepts what it
    writes as it accepts any other slip, by its steps.
    """
    text = _bytes(circuit)
    reduced = _slips.read(reduce(text).text)
    gates = _slips.read(text)
    steps = list(islice(_slips.reduce(gates), _SLIP_STEPS + 1))
    if len(steps) > _SLIP_STEPS:
        raise ValueError(
            f"the slip would have more than {_SLIP_STEPS:,} lines; no slip has more"
        )
    if gates != reduced:
        raise InternalError("yilgorza: the steps do not end at the reduced list")
    return _slips.write(steps)


def _written(job: str, text: Text) -> Circuit:
    answer = _library.AnswerArea()
    gates, length = _answered(job, text, answer)
    written = memoryview(answer)[:length].tobytes()
    # Line 1 is no gate, and each later line is one.
    if written.count(b"\n") != len(gates) + 1:
        raise InternalError(f"yilgorza: the answer has not {len(gates)} gates")
    return Circuit(written, gates)


def _answered(
    job: str, text: Text, answer: _library.Lent
) -> Tuple[Tuple[Gate, ...], int]:
    """The gates that a job over one text gives, and the bytes that it writes."""
    records = _library.GateList()
    number, line, gates, length = _library.run(job, _bytes(text), records, answer)
    _accept(number, line)
    return tuple(_gate(record) for record in records[:gates]), length


def _bytes(text: Text) -> bytes:
    # Only of bytes itself, and of no class made from it, is the length certain.
    if type(text) is bytes:
        return text
    if isinstance(text, str):
        return str.encode(text, "utf-8", "surrogatepass")
    try:
        return memoryview(text).tobytes()
    except TypeError:
        raise TypeError(
            f"a text is a str or a bytes-like object, not {type(text).__name__}"
        ) from None


def _accept(number: int, line: int, text: Optional[int] = None) -> None:
    if number == 0:
        return
    if number not in _WORDS:
        raise InternalError(f"yilgorza: there is no refusal {number}")
    raise TurnedAway(number, line, text)


@lru_cache(maxsize=None)
def _gate(record: int) -> Gate:
    number, control, target = _library.gate(record)
    try:
        kind = Kind(number)
    except ValueError:
        raise InternalError(f"yilgorza: record {record} is no gate") from None
    return Gate(kind, None if kind is Kind.NOT else control, target)
