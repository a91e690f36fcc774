"""Texts of document 01's examples and others, their answers, and places in the
repository."""

from __future__ import annotations

import os
from pathlib import Path

from yilgorza import Gate, Kind, Number

REPOSITORY = Path(__file__).resolve().parents[2]
PROGRAMS = Path(os.environ.get("YILGORZA_BIN") or REPOSITORY / "target/bin")
ARCHIVE = Path(
    os.environ.get("YILGORZA_ARCHIVE") or REPOSITORY / "target/staticlib/libcapi.a"
)


def typed(*lines: str) -> bytes:
    """A text of these lines."""
    return "".join(line + "\n" for line in lines).encode()


TOFFOLI = typed("(lines 3)", "(mct (0 1) 2)")
TOFFOLI_MAPPED = typed(
    "(lines 3)", "(v 0 2)", "(v 1 2)", "(cn 0 1)", "(vp 1 2)", "(cn 0 1)"
)
TOFFOLI_GATES = (
    Gate(Kind.V, 0, 2),
    Gate(Kind.V, 1, 2),
    Gate(Kind.CN, 0, 1),
    Gate(Kind.VP, 1, 2),
    Gate(Kind.CN, 0, 1),
)
# Five controls: the gate borrows line 6, and of its smaller gates M1 line 7.
FIVE = typed("(lines 8)", "(mct (0 1 2 3 4) 5)")
FIVE_MAPPED = typed(
    "(lines 8)",
    "(v 6 5)",
    "(v 0 6)",
    "(v 1 6)",
    "(cn 0 1)",
    "(vp 1 6)",
    "(vp 6 5)",
    "(v 7 6)",
    "(cn 2 7)",
    "(vp 7 6)",
    "(v 3 7)",
    "(v 4 7)",
    "(cn 3 4)",
    "(vp 4 7)",
    "(v 7 6)",
    "(cn 2 7)",
    "(vp 7 6)",
    "(v 6 5)",
    "(vp 0 6)",
    "(v 1 6)",
    "(cn 0 1)",
    "(vp 1 6)",
    "(vp 6 5)",
    "(v 7 6)",
    "(cn 2 7)",
    "(vp 7 6)",
    "(vp 3 7)",
    "(v 4 7)",
    "(cn 3 4)",
    "(vp 4 7)",
    "(v 7 6)",
    "(cn 2 7)",
    "(vp 7 6)",
)
# Three controls, and the lines 4 and 5 unnamed: 4 is kept, so the gate borrows 5. The
# list is the reduced one of the expansion with this spare line, by hand.
KEPT = typed("(lines 6)", "(keep 4)", "(mct (0 1 2) 3)")
KEPT_MAPPED = typed(
    "(lines 6)",
    "(v 5 3)",
    "(cn 0 5)",
    "(vp 5 3)",
    "(v 1 5)",
    "(v 2 5)",
    "(cn 1 2)",
    "(vp 2 5)",
    "(v 5 3)",
    "(cn 0 5)",
    "(vp 5 3)",
    "(vp 1 5)",
    "(v 2 5)",
    "(cn 1 2)",
    "(vp 2 5)",
)
WIDE = "(mct (0 1 2 3 4 5 6 7 8 9 10 11 12 13 14) 15)"
# The same gate with one, two and three controls negated.
WIDE_1 = WIDE.replace(" 14)", " -14)")
WIDE_2 = WIDE_1.replace("(0 ", "(-0 ")
WIDE_3 = WIDE_2.replace(" 7 ", " -7 ")
# A gate with 16 controls, without signs and with some: it names 17 lines.
SIXTEEN = "(mct (0 1 2 3 4 5 6 7 8 9 10 11 12 13 14 15) 16)"
SIXTEEN_NEGATED = "(mct (-0 1 2 3 4 5 6 7 8 9 10 11 12 13 14 -15) 16)"

# Cascades with negated controls, and what they are mapped to.
NEGATED = [
    (
        typed("(lines 2)", "(mct (-0) 1)"),
        typed("(lines 2)", "(not 0)", "(cn 0 1)", "(not 0)"),
    ),
    (
        typed("(lines 3)", "(mct (-0 -1) 2)"),
        typed(
            "(lines 3)",
            "(not 0)",
            "(not 1)",
            "(v 0 2)",
            "(v 1 2)",
            "(cn 0 1)",
            "(vp 1 2)",
            "(not 1)",
            "(cn 0 1)",
            "(not 0)",
        ),
    ),
    # NOTs that meet between the gates vanish.
    (
        typed("(lines 3)", "(mct (-0) 1)", "(mct (-0) 2)"),
        typed("(lines 3)", "(not 0)", "(cn 0 1)", "(cn 0 2)", "(not 0)"),
    ),
    (typed("(lines 2)", "(mct (-0) 1)", "(mct (-0) 1)"), typed("(lines 2)")),
    # A NOT keeps apart what would merge without it.
    (
        typed("(lines 2)", "(mct (0) 1)", "(mct (-0) 1)"),
        typed("(lines 2)", "(cn 0 1)", "(not 0)", "(cn 0 1)", "(not 0)"),
    ),
]

# Gates with spare lines, and their quotes: the expansion by document 02's order of
# spare lines, reduced.
SPARES = [
    (typed("(lines 6)", "(mct (0 1 2 3) 4)"), 20),
    (typed("(lines 7)", "(mct (0 1 2 3) 4)"), 20),
    (typed("(lines 7)", "(mct (0 1 2 3 4) 5)"), 42),
    (FIVE, 32),
    (typed("(lines 9)", "(mct (0 1 2 3 4) 5)"), 32),
    (typed("(lines 7)", "(mct (1 2 3 4 5) 0)"), 42),
    (typed("(lines 8)", "(mct (0 1 2 3 4 5) 6)"), 52),
    (typed("(lines 9)", "(mct (0 1 2 3 4 5) 6)"), 44),
    (typed("(lines 11)", "(mct (0 1 2 3 4 5 6 7 8) 9)"), 100),
    (typed("(lines 12)", "(mct (0 1 2 3 4 5 6 7 8) 9)"), 98),
    (typed("(lines 13)", "(mct (0 1 2 3 4 5 6 7 8) 9)"), 80),
    (typed("(lines 12)", "(mct (0 1 2 3 4 5 6 7 8 9) 10)"), 130),
    (typed("(lines 13)", "(mct (0 1 2 3 4 5 6 7 8 9) 10)"), 132),
    (typed("(lines 17)", WIDE), 250),
    (typed("(lines 18)", WIDE), 252),
    (typed("(lines 32)", WIDE), 252),
    (typed("(lines 17)", WIDE_3), 256),
]

# Cascades with kept lines, and their quotes: a kept line that the gate does not name is
# no spare line, and one that it names may be borrowed by the smaller gates.
KEPT_LINES = [
    (KEPT, 14),
    (typed("(lines 7)", "(keep 0)", "(mct (0 1 2 3 4) 5)"), 42),
    (typed("(lines 8)", "(keep 6)", "(mct (0 1 2 3 4) 5)"), 42),
    (typed("(lines 8)", "(keep 7)", "(mct (0 1 2 3 4) 5)"), 42),
    (typed("(lines 9)", "(keep 6)", "(mct (0 1 2 3 4) 5)"), 32),
    (typed("(lines 8)", "(keep 0 1 2 3 4 5)", "(mct (0 1 2 3 4) 5)"), 32),
    (typed("(lines 13)", "(keep 12)", "(mct (0 1 2 3 4 5 6 7 8 9) 10)"), 130),
    (typed("(lines 6)", "(keep 0 4)", "(mct (-0 1 2) 3)"), 16),
    # Two controls borrow nothing.
    (typed("(lines 3)", "(keep 0 1 2)", "(mct (0 1) 2)"), 5),
    (typed("(lines 3)", "(keep 0 1 2)"), 0),
    (typed("(lines 1)", "(keep 0)", "(mct () 0)"), 1),
    (typed("(lines 3)", "(keep 2)", *["(mct (0) 1)"] * 256), 0),
]

# Cascades and their quotes.
QUOTES = [
    *SPARES,
    *KEPT_LINES,
    (TOFFOLI, 5),
    (typed("(lines 3)", "(mct (0 1) 2)", "(mct (0 1) 2)"), 9),
    (typed("(lines 5)", "(mct (0 1 2) 3)"), 14),
    (typed("(lines 32)"), 0),
    *[(text, mapped.count(b"\n") - 1) for text, mapped in NEGATED],
    (typed("(lines 3)", "(mct (-0 1) 2)"), 7),
    (typed("(lines 3)", "(mct (0 -1) 2)"), 7),
    (typed("(lines 5)", "(mct (-0 -1 -2) 3)"), 20),
    (typed("(lines 14)", "(mct (-0 1 -12) 5)"), 18),
]

# Circuits and what they are reduced to.
REDUCTIONS = [
    (typed("(lines 2)", "(v 0 1)", "(v 0 1)"), typed("(lines 2)", "(cn 0 1)")),
    (typed("(lines 2)", "(cn 0 1)", "(v 0 1)"), typed("(lines 2)", "(vp 0 1)")),
    (typed("(lines 2)", "(v 0 1)", "(vp 0 1)"), typed("(lines 2)")),
    (
        typed("(lines 3)", "(cn 0 2)", "(cn 1 2)", "(cn 0 2)"),
        typed("(lines 3)", "(cn 1 2)"),
    ),
    (
        typed("(lines 3)", "(cn 0 1)", "(cn 1 2)", "(cn 0 1)"),
        typed("(lines 3)", "(cn 0 1)", "(cn 1 2)", "(cn 0 1)"),
    ),
    (
        typed("(lines 2)", "(cn 0 1)", "(not 1)"),
        typed("(lines 2)", "(not 1)", "(cn 0 1)"),
    ),
    (
        typed("(lines 2)", "(not 0)", "(cn 0 1)", "(not 0)"),
        typed("(lines 2)", "(not 0)", "(cn 0 1)", "(not 0)"),
    ),
]

# The list that undoes TOFFOLI_MAPPED: its gates reversed, v and vp exchanged, and
# vp 0 2 brought before v 1 2.
TOFFOLI_UNDONE = typed(
    "(lines 3)", "(cn 0 1)", "(vp 0 2)", "(v 1 2)", "(cn 0 1)", "(vp 1 2)"
)

# Circuits and what they are inverted to.
INVERSES = [
    (typed("(lines 32)"), typed("(lines 32)")),
    (typed("(lines 1)", "(not 0)"), typed("(lines 1)", "(not 0)")),
    (typed("(lines 2)", "(v 0 1)"), typed("(lines 2)", "(vp 0 1)")),
    (typed("(lines 2)", "(vp 1 0)"), typed("(lines 2)", "(v 1 0)")),
    (typed("(lines 2)", "(v 0 1)", "(v 0 1)"), typed("(lines 2)", "(cn 0 1)")),
    (
        typed("(lines 2)", "(not 0)", "(cn 0 1)"),
        typed("(lines 2)", "(cn 0 1)", "(not 0)"),
    ),
    (
        typed("(lines 2)", "(cn 0 1)", "(not 1)"),
        typed("(lines 2)", "(not 1)", "(cn 0 1)"),
    ),
    (
        typed("(lines 3)", "(cn 0 1)", "(v 1 2)", "(cn 2 0)"),
        typed("(lines 3)", "(cn 2 0)", "(vp 1 2)", "(cn 0 1)"),
    ),
    (TOFFOLI_MAPPED, TOFFOLI_UNDONE),
    (TOFFOLI_UNDONE, TOFFOLI_MAPPED),
]

# Pairs of circuits and what they are joined to.
JOINS = [
    (typed("(lines 7)"), typed("(lines 7)"), typed("(lines 7)")),
    (
        typed("(lines 2)", "(cn 0 1)"),
        typed("(lines 2)", "(v 0 1)"),
        typed("(lines 2)", "(vp 0 1)"),
    ),
    # The first stands before the second, unless they pass.
    (
        typed("(lines 2)", "(not 0)"),
        typed("(lines 2)", "(cn 0 1)"),
        typed("(lines 2)", "(not 0)", "(cn 0 1)"),
    ),
    (
        typed("(lines 2)", "(cn 0 1)"),
        typed("(lines 2)", "(not 0)"),
        typed("(lines 2)", "(cn 0 1)", "(not 0)"),
    ),
    (
        typed("(lines 2)", "(cn 0 1)"),
        typed("(lines 2)", "(not 1)"),
        typed("(lines 2)", "(not 1)", "(cn 0 1)"),
    ),
    (
        typed("(lines 3)", "(cn 0 2)", "(cn 1 2)"),
        typed("(lines 3)", "(cn 0 2)"),
        typed("(lines 3)", "(cn 1 2)"),
    ),
    (
        typed("(lines 3)"),
        typed("(lines 3)", "(v 1 2)", "(v 1 2)"),
        typed("(lines 3)", "(cn 1 2)"),
    ),
    (TOFFOLI_MAPPED, TOFFOLI_UNDONE, typed("(lines 3)")),
    (TOFFOLI_UNDONE, TOFFOLI_MAPPED, typed("(lines 3)")),
    # As many gates as may be.
    *[
        (
            typed("(lines 1)", *["(not 0)"] * gates),
            typed("(lines 1)", *["(not 0)"] * (4096 - gates)),
            typed("(lines 1)"),
        )
        for gates in (0, 1, 2048, 4095, 4096)
    ],
]

# The Toffoli gate written twice, as it is expanded; a slip; and its reduced list, which
# document 01 says has 9 gates. The last gate passes back to the fifth, the two merge to
# cn 0 2, and this passes to the front.
TWICE = typed(
    "(lines 3)",
    *["(v 1 2)", "(cn 0 1)", "(vp 1 2)", "(cn 0 1)", "(v 0 2)"] * 2,
)
TWICE_SLIP = typed(
    "(pass 9)",
    "(pass 8)",
    "(pass 7)",
    "(pass 6)",
    "(merge 5)",
    "(pass 4)",
    "(pass 3)",
    "(pass 2)",
    "(pass 1)",
)
# What the slip leads to up to its merge, and to its end.
BETWEEN = typed(
    "(lines 3)",
    "(v 1 2)",
    "(cn 0 1)",
    "(vp 1 2)",
    "(cn 0 1)",
    "(cn 0 2)",
    "(v 1 2)",
    "(cn 0 1)",
    "(vp 1 2)",
    "(cn 0 1)",
)
NINE = typed(
    "(lines 3)",
    "(cn 0 2)",
    *["(v 1 2)", "(cn 0 1)", "(vp 1 2)", "(cn 0 1)"] * 2,
)

# Circuits, the slips that lead from each to its reduced list, by way of partners and
# then of dictionary order, and the reduced lists, worked out by hand.
REDUCTION_SLIPS = [
    *[
        (text, typed(*steps), reduced)
        for (text, reduced), steps in zip(
            REDUCTIONS,
            (
                ["(merge 1)"],
                ["(merge 1)"],
                ["(merge 1)"],
                ["(pass 2)", "(merge 1)"],
                [],
                ["(pass 1)"],
                [],
            ),
        )
    ],
    (typed("(lines 32)"), typed(), typed("(lines 32)")),
    (TOFFOLI_MAPPED, typed(), TOFFOLI_MAPPED),
    # The Toffoli gate as it is expanded: the last gate comes to the front.
    (
        typed("(lines 3)", "(v 1 2)", "(cn 0 1)", "(vp 1 2)", "(cn 0 1)", "(v 0 2)"),
        typed("(pass 4)", "(pass 3)", "(pass 2)", "(pass 1)"),
        TOFFOLI_MAPPED,
    ),
    (TWICE, TWICE_SLIP, NINE),
    # Two that vanish bring the next two together.
    (
        typed("(lines 2)", "(v 0 1)", "(not 0)", "(not 0)", "(v 0 1)"),
        typed("(merge 2)", "(merge 1)"),
        typed("(lines 2)", "(cn 0 1)"),
    ),
    # Four v are none, and three are vp.
    (
        typed("(lines 2)", *["(v 0 1)"] * 7),
        typed(*["(merge 1)"] * 5),
        typed("(lines 2)", "(vp 0 1)"),
    ),
    (
        typed("(lines 3)", "(not 2)", "(not 1)", "(not 0)"),
        typed("(pass 2)", "(pass 1)", "(pass 2)"),
        typed("(lines 3)", "(not 0)", "(not 1)", "(not 2)"),
    ),
    (
        typed("(lines 1)", *["(not 0)"] * 4096),
        typed(*["(merge 1)"] * 2048),
        typed("(lines 1)"),
    ),
]

# Gates that all pass one another, in falling order: to bring them into rising order
# takes a pass for each two of them, so 4,095 for 91, and for 92 more than a slip may
# have.
FALLING = [
    f"(cn {control} {target})"
    for target in range(31, 15, -1)
    for control in range(15, -1, -1)
]

# Circuits, slips and second circuits that are accepted.
SLIPS = [
    *REDUCTION_SLIPS,
    (TWICE, typed(), TWICE),
    (TWICE, b"".join(TWICE_SLIP.splitlines(True)[:5]), BETWEEN),
    (BETWEEN, b"".join(TWICE_SLIP.splitlines(True)[5:]), NINE),
    # Passes lead back.
    (NINE, typed("(pass 1)", "(pass 2)", "(pass 3)", "(pass 4)"), BETWEEN),
    (
        typed("(lines 3)", "(cn 0 2)", "(cn 1 2)", "(cn 0 2)"),
        typed("(pass 1)", "(merge 2)"),
        typed("(lines 3)", "(cn 1 2)"),
    ),
    # Gates that are equal pass too.
    (
        typed("(lines 2)", "(v 0 1)", "(v 0 1)", "(vp 0 1)"),
        typed("(pass 1)", "(merge 2)"),
        typed("(lines 2)", "(v 0 1)"),
    ),
    (
        typed("(lines 2)", "(vp 0 1)", "(vp 0 1)"),
        typed("(merge 1)"),
        typed("(lines 2)", "(cn 0 1)"),
    ),
    (
        typed("(lines 2)", "(cn 1 0)", "(vp 1 0)"),
        typed("(merge 1)"),
        typed("(lines 2)", "(v 1 0)"),
    ),
    # As many steps as may be, at the first place and at the last.
    (
        typed("(lines 3)", "(cn 0 2)", "(cn 1 2)"),
        typed(*["(pass 1)"] * 4096),
        typed("(lines 3)", "(cn 0 2)", "(cn 1 2)"),
    ),
    (
        typed("(lines 1)", *["(not 0)"] * 4096),
        typed(*["(pass 4095)"] * 4095, "(merge 4095)"),
        typed("(lines 1)", *["(not 0)"] * 4094),
    ),
]

# Circuits in rising order, each in all the ways in which it is drawn here: by the
# number of lines, then by the reduced lists, which document 01 gives or which are the
# only ones with so few gates.
RISING = [
    [typed("(lines 1)")],
    [typed("(lines 1)", "(not 0)")],
    [typed("(lines 2)"), typed("(lines 2)", "(v 0 1)", "(vp 0 1)")],
    [typed("(lines 2)", "(not 0)")],
    [typed("(lines 2)", "(not 0)", "(cn 0 1)")],
    # One gate more than the last, and it is the `not 0` that fills a list.
    [typed("(lines 2)", "(not 0)", "(cn 0 1)", "(not 0)")],
    [
        typed("(lines 2)", "(not 1)", "(cn 0 1)"),
        typed("(lines 2)", "(cn 0 1)", "(not 1)"),
    ],
    [typed("(lines 2)", "(cn 0 1)"), typed("(lines 2)", "(v 0 1)", "(v 0 1)")],
    [typed("(lines 2)", "(cn 0 1)", "(cn 1 0)")],
    [typed("(lines 2)", "(vp 0 1)"), typed("(lines 2)", "(cn 0 1)", "(v 0 1)")],
    [typed("(lines 3)")],
    [typed("(lines 3)", "(cn 0 1)", "(cn 1 2)", "(cn 0 1)")],
    [
        TOFFOLI_MAPPED,
        typed("(lines 3)", "(v 1 2)", "(cn 0 1)", "(vp 1 2)", "(cn 0 1)", "(v 0 2)"),
    ],
    [
        typed("(lines 3)", "(cn 1 2)"),
        typed("(lines 3)", "(cn 0 2)", "(cn 1 2)", "(cn 0 2)"),
        typed("(lines 3)", "(v 1 2)", "(v 1 2)"),
    ],
    [typed("(lines 32)")],
]

# Circuits that are turned away, with number and line: every number that a circuit
# can get where the lists are long enough.
CIRCUIT_REFUSALS = [
    (b"(" * 60001, Number.OVERLONG, 0),
    (b"", Number.MALFORMED, 1),
    (TOFFOLI, Number.MALFORMED, 2),
    (b"(lines 2)\n(cn 0 1)", Number.MALFORMED, 2),
    (typed("(lines 0)"), Number.NO_SUCH_LINE, 1),
    (typed("(lines 2)", "(cn 0 1)", "(not 2)"), Number.NO_SUCH_LINE, 3),
    (typed("(lines 2)", "(v 1 1)"), Number.CROSSED, 2),
    (typed("(lines 2)", *["(not 0)"] * 4097), Number.TOO_MANY, 4098),
    # A circuit has no sign.
    (typed("(lines -2)"), Number.MALFORMED, 1),
    (typed("(lines 2)", "(cn -0 1)"), Number.MALFORMED, 2),
    (typed("(lines 2)", "(v 0 -1)"), Number.MALFORMED, 2),
    (typed("(lines 2)", "(not 1)", "(not -0)"), Number.MALFORMED, 3),
    # Nor has it a keep line.
    (typed("(lines 2)", "(keep 0)"), Number.MALFORMED, 2),
    (typed("(lines 2)", "(keep 2)"), Number.MALFORMED, 2),
    (typed("(lines 2)", "(not 1)", "(keep 0)"), Number.MALFORMED, 3),
]

# Pairs of circuits that join turns away though each passes by itself, with number,
# line and text: 11, and after it 9, at the first gate over.
JOIN_REFUSALS = [
    (typed("(lines 2)"), typed("(lines 3)"), Number.DIFFERENT_LINES, 0, 0),
    (typed("(lines 32)"), typed("(lines 1)"), Number.DIFFERENT_LINES, 0, 0),
    (
        typed("(lines 1)", *["(not 0)"] * 4096),
        typed("(lines 2)", "(not 0)"),
        Number.DIFFERENT_LINES,
        0,
        0,
    ),
    *[
        (
            typed("(lines 1)", *["(not 0)"] * first),
            typed("(lines 1)", *["(not 0)"] * second),
            Number.TOO_MANY,
            4096 - first + 2,
            2,
        )
        for first, second in ((1, 4096), (2048, 2049), (4095, 2), (4096, 1))
    ],
    (
        typed("(lines 1)", *["(not 0)"] * 4096),
        typed("(lines 1)", *["(not 0)"] * 4096),
        Number.TOO_MANY,
        2,
        2,
    ),
]

# Circuits, slips and second circuits that are turned away though each circuit passes
# by itself, with number, line and text: a slip's own numbers 1, 3 and 9, then 11, then
# 12, then 13.
_APART = typed("(lines 3)", "(cn 0 1)", "(cn 1 2)", "(cn 0 1)")
_BESIDE = typed("(lines 3)", "(cn 0 2)", "(cn 1 2)")
SLIP_REFUSALS = [
    (_BESIDE, b"(" * 60001, _BESIDE, Number.OVERLONG, 0, 2),
    *[
        (_BESIDE, typed("(pass 0)", form), _BESIDE, Number.MALFORMED, 2, 2)
        for form in (
            "(pass 01)",
            "(pass 00)",
            "(pass 10000)",
            "(pass -1)",
            "(pass +1)",
            "(pass)",
            "(pass )",
            "(pass 1 )",
            "(pass  1)",
            "( pass 1)",
            "(pass 1) ",
            " (pass 1)",
            "(pass 1 2)",
            "(pass (1))",
            "(Pass 1)",
            "(merge 01)",
            "(merge)",
            "(merge 1",
            "merge 1",
            "(merges 1)",
            "(lines 3)",
            "(cn 0 2)",
            "",
        )
    ],
    (_BESIDE, b"(pass 1)", _BESIDE, Number.MALFORMED, 1, 2),
    (_BESIDE, typed(*["(pass 1)"] * 4097), _BESIDE, Number.TOO_MANY, 4097, 2),
    # That a line is not in form is told before that it is one too many.
    (_BESIDE, typed(*["(pass 1)"] * 4096, "?"), _BESIDE, Number.MALFORMED, 4097, 2),
    # Before any step.
    (_BESIDE, typed(), typed("(lines 4)"), Number.DIFFERENT_LINES, 0, 0),
    (_BESIDE, typed("(pass 0)"), typed("(lines 2)"), Number.DIFFERENT_LINES, 0, 0),
    # Place 0, places without a right neighbour, and gates that do not pass or merge.
    *[
        (_APART, typed(step), NINE, Number.NOT_ALLOWED, 1, 2)
        for step in (
            "(pass 0)",
            "(merge 0)",
            "(pass 1)",
            "(merge 1)",
            "(pass 2)",
            "(merge 2)",
            "(pass 3)",
            "(merge 3)",
            "(pass 4)",
            "(merge 9999)",
        )
    ],
    (_BESIDE, typed("(pass 1)", "(merge 1)"), _BESIDE, Number.NOT_ALLOWED, 2, 2),
    (
        _BESIDE,
        typed("(pass 1)", "(pass 2)", "(pass 0)"),
        _APART,
        Number.NOT_ALLOWED,
        2,
        2,
    ),
    (
        typed("(lines 2)", "(v 0 1)", "(v 0 1)"),
        typed("(merge 1)", "(merge 1)"),
        typed("(lines 2)"),
        Number.NOT_ALLOWED,
        2,
        2,
    ),
    (
        typed("(lines 2)", "(not 1)", "(cn 0 1)"),
        typed("(merge 1)"),
        typed("(lines 2)"),
        Number.NOT_ALLOWED,
        1,
        2,
    ),
    # The last circuit is linked to the second, but not the same gate for gate; or it
    # is a gate shorter, or longer.
    (_BESIDE, typed("(pass 1)"), _BESIDE, Number.OTHER_END, 0, 0),
    (TWICE, typed(), NINE, Number.OTHER_END, 0, 0),
    (TWICE, TWICE_SLIP[:-9], NINE, Number.OTHER_END, 0, 0),
    *[
        (typed(*first), typed(), typed(*second), Number.OTHER_END, 0, 0)
        for first, second in (
            (["(lines 1)"], ["(lines 1)", "(not 0)"]),
            (["(lines 1)", "(not 0)"], ["(lines 1)"]),
        )
    ],
]

# Cascades that are turned away, with number and line: every number but 2 and 10,
# which no text gets, as the module and the programs lend enough.
REFUSALS = [
    (b"(" * 60001, Number.OVERLONG, 0),
    (b"", Number.MALFORMED, 1),
    (b"(lines 2)\n(mct (0) 1)", Number.MALFORMED, 2),
    (typed("(lines 33)"), Number.NO_SUCH_LINE, 1),
    (typed("(lines 2)", "(mct (0) 1)", "(mct (0) 2)"), Number.NO_SUCH_LINE, 3),
    (typed("(lines 2)", "(mct (0) 0)"), Number.CROSSED, 2),
    (typed("(lines 3)", "(mct (1 0) 2)"), Number.UNSORTED, 2),
    (typed("(lines 4)", "(mct (0 1 2) 3)"), Number.NO_SPARE, 2),
    # 16 controls break rule 7, and on 17 lines rule 8 too, which is tried before it.
    (typed("(lines 17)", SIXTEEN), Number.NO_SPARE, 2),
    (typed("(lines 18)", SIXTEEN), Number.TOO_WIDE, 2),
    (typed("(lines 17)", *[WIDE] * 12), Number.TOO_MANY, 13),
    # A sign is one minus directly before a control, and stands nowhere else.
    (typed("(lines -2)", "(mct (-0) 1)"), Number.MALFORMED, 1),
    *[
        (typed("(lines 13)", "(mct (-0) 1)", form), Number.MALFORMED, 3)
        for form in (
            "(mct (0) -1)",
            "(mct () -1)",
            "(mct (--1) 2)",
            "(mct (- 1) 2)",
            "(mct (-01) 2)",
            "(mct (-00) 2)",
            "(mct (+1) 2)",
            "(mct (-+1) 2)",
            "(mct (-) 2)",
            "(mct (0 -) 2)",
            "(mct (0-1) 2)",
            "(mct (1-) 2)",
            "(mct -(0) 2)",
            "(-mct (0) 2)",
            "(mct (-100) 2)",
        )
    ],
    # The other rules read the line, whatever its sign.
    (typed("(lines 3)", "(mct (-3) 1)"), Number.NO_SUCH_LINE, 2),
    (typed("(lines 3)", "(mct (-1) 1)"), Number.CROSSED, 2),
    (typed("(lines 5)", "(mct (3 -3) 4)"), Number.UNSORTED, 2),
    (typed("(lines 5)", "(mct (-3 3) 4)"), Number.UNSORTED, 2),
    (typed("(lines 5)", "(mct (-3 -3) 4)"), Number.UNSORTED, 2),
    (typed("(lines 5)", "(mct (-3 2) 4)"), Number.UNSORTED, 2),
    (typed("(lines 4)", "(mct (-0 1 -2) 3)"), Number.NO_SPARE, 2),
    (typed("(lines 17)", SIXTEEN_NEGATED), Number.NO_SPARE, 2),
    (typed("(lines 18)", SIXTEEN_NEGATED), Number.TOO_WIDE, 2),
    (typed("(lines 17)", WIDE_3, *[WIDE] * 10), Number.TOO_MANY, 12),
    (typed("(lines 17)", *[WIDE] * 9, WIDE_1, WIDE_2), Number.TOO_MANY, 12),
    # No line is left that is unnamed and unkept; rule 8 is tried before 7.
    (typed("(lines 5)", "(keep 4)", "(mct (0 1 2) 3)"), Number.NO_SPARE, 3),
    (typed("(lines 5)", "(keep 0 4)", "(mct (0 1 2) 3)"), Number.NO_SPARE, 3),
    (typed("(lines 5)", "(keep 4)", "(mct (-0 1 -2) 3)"), Number.NO_SPARE, 3),
    (typed("(lines 4)", "(keep 0)", "(mct (0 1 2) 3)"), Number.NO_SPARE, 3),
    (typed("(lines 8)", "(keep 6 7)", "(mct (0 1 2 3 4) 5)"), Number.NO_SPARE, 3),
    (typed("(lines 18)", "(keep 17)", SIXTEEN), Number.NO_SPARE, 3),
    (typed("(lines 19)", "(keep 17)", SIXTEEN), Number.TOO_WIDE, 3),
    # The keep line itself: rules 3, 4 and 6, in this order.
    *[
        (typed("(lines 3)", form, "(mct (0) 0)"), Number.MALFORMED, 2)
        for form in (
            "(keep)",
            "(keep )",
            "(keep  0)",
            "(keep 0 )",
            "(keep 0  1)",
            "(keep -1)",
            "(keep 0 -1)",
            "(keep 01)",
            "(keep 100)",
            "(keep (0))",
            "(keep 0",
            "(Keep 0)",
            "(kept 0)",
        )
    ],
    (typed("(lines 3)", "(keep 3)"), Number.NO_SUCH_LINE, 2),
    (typed("(lines 3)", "(keep 3 0)", "(mct (0) 0)"), Number.NO_SUCH_LINE, 2),
    (typed("(lines 3)", "(keep 1 0)", "(mct (0) 0)"), Number.UNSORTED, 2),
    (typed("(lines 3)", "(keep 1 1)"), Number.UNSORTED, 2),
    # It stands on line 2 and nowhere else, and the lines after it are counted with it.
    (typed("(keep 0)", "(lines 3)"), Number.MALFORMED, 1),
    (typed("(lines 33)", "(keep 0)"), Number.NO_SUCH_LINE, 1),
    (typed("(lines 3)", "(keep 0)", "(keep 1)"), Number.MALFORMED, 3),
    (typed("(lines 3)", "(mct () 0)", "(keep 1)"), Number.MALFORMED, 3),
    (b"(lines 3)\n(keep 0)", Number.MALFORMED, 2),
    (typed("(lines 3)", "(keep 0)", "(mct (0) 0)"), Number.CROSSED, 3),
    (typed("(lines 3)", "(keep 2)", *["(mct (0) 1)"] * 257), Number.TOO_MANY, 259),
    (typed("(lines 17)", "(keep 0)", *[WIDE] * 12), Number.TOO_MANY, 14),
]
