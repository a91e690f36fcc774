"""The jobs on document 01's examples, on negated controls, on spare lines, on kept
lines, on inverses, on joins and on slips, from the module and from the programs.

The environment variable YILGORZA_BIN names the folder of the programs; else it
is target/bin of the repository.
"""

import functools
import itertools
import random
import re
import subprocess
import sys
import tempfile
import unittest
from concurrent.futures import ThreadPoolExecutor
from pathlib import Path

import yilgorza
from texts import (
    BETWEEN,
    CIRCUIT_REFUSALS,
    FALLING,
    FIVE,
    FIVE_MAPPED,
    INVERSES,
    JOIN_REFUSALS,
    JOINS,
    KEPT,
    KEPT_MAPPED,
    NEGATED,
    NINE,
    PROGRAMS,
    QUOTES,
    REDUCTION_SLIPS,
    REDUCTIONS,
    REFUSALS,
    REPOSITORY,
    RISING,
    SIXTEEN,
    SLIP_REFUSALS,
    SLIPS,
    TOFFOLI,
    TOFFOLI_GATES,
    TOFFOLI_MAPPED,
    TOFFOLI_UNDONE,
    TWICE,
    TWICE_SLIP,
    WIDE,
    WIDE_1,
    WIDE_2,
    typed,
)
from yilgorza import (
    Circuit,
    Gate,
    InternalError,
    Kind,
    Number,
    Ordering,
    TurnedAway,
)

# A circuit that is accepted, and every drawing of RISING with its circuit's place.
GOOD = typed("(lines 2)", "(cn 0 1)")
DRAWN = [(place, text) for place, ways in enumerate(RISING) for text in ways]


def order(first: int, second: int) -> Ordering:
    """What compare is to find of circuits at these places of RISING."""
    return Ordering((first > second) - (first < second))


def circuit_by_chance(chance: random.Random, lines: int, gates: int) -> bytes:
    """A circuit text of gates that are drawn by chance."""
    kinds = ("not", "v", "cn", "vp") if lines > 1 else ("not",)
    forms = []
    for _ in range(gates):
        kind = chance.choice(kinds)
        *control, target = chance.sample(range(lines), 1 if kind == "not" else 2)
        forms.append(f"({' '.join(map(str, [kind, *control, target]))})")
    return typed(f"(lines {lines})", *forms)


def passes_by_chance(chance: random.Random, text: bytes, tries: int) -> tuple:
    """Passes that are allowed on a circuit text, drawn by chance, as a slip; and the
    text that they end at."""
    head, *forms = text.decode().splitlines()
    steps = []
    for _ in range(tries if len(forms) > 1 else 0):
        place = chance.randrange(1, len(forms))
        numbers = [re.findall(r"\d+", form) for form in forms[place - 1 : place + 1]]
        (*left_control, left), (*right_control, right) = numbers
        if left not in right_control and right not in left_control:
            forms[place - 1 : place + 1] = forms[place], forms[place - 1]
            steps.append(f"(pass {place})")
    return typed(*steps), typed(head, *forms)


def flipped(cascade: str, pattern: int) -> int:
    """The pattern that the gates of a cascade, with their signs, make of this one; line
    0 is its lowest bit."""
    for controls, target in re.findall(r"^\(mct \((.*)\) (\d+)\)$", cascade, re.M):
        if all(
            (pattern >> int(control.lstrip("-"))) % 2 == (control[0] != "-")
            for control in controls.split()
        ):
            pattern ^= 1 << int(target)
    return pattern


class Module(unittest.TestCase):
    def test_toffoli(self):
        circuit = yilgorza.map(TOFFOLI)
        self.assertEqual(circuit.text, TOFFOLI_MAPPED)
        self.assertEqual(circuit.gates, TOFFOLI_GATES)
        self.assertEqual(yilgorza.quote(TOFFOLI).gates, TOFFOLI_GATES)

    def test_negated_controls(self):
        for text, mapped in NEGATED:
            with self.subTest(text):
                circuit = yilgorza.map(text)
                self.assertEqual(circuit.text, mapped)
                self.assertEqual(len(circuit.gates), mapped.count(b"\n") - 1)
                # The list is a circuit, reduced already.
                self.assertEqual(yilgorza.reduce(mapped), circuit)

    def test_a_sign_adds_two_gates_to_the_quote_of_a_gate(self):
        for controls in range(6):
            lines = f"(lines {controls + 2})"
            for signs in itertools.product(("", "-"), repeat=controls):
                signed = " ".join(f"{sign}{line}" for line, sign in enumerate(signs))
                plain = signed.replace("-", "")
                counts = [
                    yilgorza.quote(typed(lines, f"(mct ({form}) {controls})")).count
                    for form in (signed, plain)
                ]
                self.assertEqual(counts[0], counts[1] + 2 * signs.count("-"), signed)

    def test_spare_lines(self):
        self.assertEqual(yilgorza.map(FIVE).text, FIVE_MAPPED)
        example = REPOSITORY / "examples/texts/five.cascade"
        self.assertEqual(example.read_bytes(), FIVE)

    def test_kept_lines(self):
        circuit = yilgorza.map(KEPT)
        self.assertEqual(circuit.text, KEPT_MAPPED)
        self.assertEqual(yilgorza.reduce(KEPT_MAPPED), circuit)
        example = REPOSITORY / "examples/texts/kept.cascade"
        self.assertEqual(example.read_bytes(), KEPT)
        page = (REPOSITORY / "docs/USING.md").read_text("utf-8")
        shown = page.partition("`kept.cascade` is\n\n")[2].partition("\n\n")[0]
        self.assertEqual(typed(*[line[4:] for line in shown.splitlines()]), KEPT)

    def test_kept_lines_that_the_gate_names(self):
        # It is the list without the keep line; on seven lines it borrows line 0.
        form = "(mct (0 1 2 3 4) 5)"
        for lines in ("(lines 7)", "(lines 8)"):
            circuit = yilgorza.map(typed(lines, form))
            for count in range(1, 7):
                for kept in itertools.combinations(range(6), count):
                    keep = f"(keep {' '.join(map(str, kept))})"
                    given = yilgorza.map(typed(lines, keep, form))
                    self.assertEqual(given, circuit, kept)

    def test_kept_lines_that_the_gate_does_not_name(self):
        # Of the unnamed lines some are kept, others not: it is the list on a circuit
        # that has only the others, which stand in their places.
        for controls, count in itertools.product(range(3, 8), range(1, 5)):
            named = list(range(controls + 1))
            form = f"(mct ({' '.join(map(str, named[:-1]))}) {controls})"
            lines = f"(lines {controls + 1 + count})"
            unnamed = range(controls + 1, controls + 1 + count)
            for left in range(1, count):
                few = yilgorza.map(typed(f"(lines {controls + 1 + left})", form))
                for spares in itertools.combinations(unnamed, left):
                    kept = " ".join(str(line) for line in unnamed if line not in spares)
                    names = [*named, *spares]
                    gates = tuple(
                        Gate(gate.kind, names[gate.control], names[gate.target])
                        for gate in few.gates
                    )
                    given = yilgorza.map(typed(lines, f"(keep {kept})", form))
                    self.assertEqual(given.gates, gates)
            all_of_them = " ".join(map(str, unnamed))
            with self.assertRaises(TurnedAway) as caught:
                yilgorza.map(typed(lines, f"(keep {all_of_them})", form))
            self.assertEqual(caught.exception.form, "(turned-away 8 3)")

    def test_the_quote_of_a_gate_goes_by_how_many_lines_are_unnamed(self):
        # Whichever they are: five controls, and one line unnamed or two.
        for lines, count in ((7, 42), (8, 32)):
            for controls in itertools.combinations(range(lines), 5):
                form = f"(mct ({' '.join(map(str, controls))}) %d)"
                for target in set(range(lines)) - set(controls):
                    text = typed(f"(lines {lines})", form % target)
                    self.assertEqual(yilgorza.quote(text).count, count, text)

    def test_further_lines_make_no_difference_to_four_controls(self):
        for controls in ("0 1 2", "0 1 2 3", "0 -1 2 -3"):
            form = f"(mct ({controls}) 4)"
            gates = yilgorza.map(typed("(lines 6)", form)).gates
            for lines in range(7, 33):
                longer = yilgorza.map(typed(f"(lines {lines})", form))
                self.assertEqual(longer.gates, gates)

    def test_quotes(self):
        for text, count in QUOTES:
            with self.subTest(text):
                quote = yilgorza.quote(text)
                self.assertEqual((quote.count, len(quote.gates)), (count, count))
                self.assertEqual(yilgorza.map(text).gates, quote.gates)

    def test_reductions(self):
        for text, reduced in REDUCTIONS:
            with self.subTest(text):
                circuit = yilgorza.reduce(text)
                self.assertEqual(circuit.text, reduced)
                self.assertEqual(len(circuit.gates), reduced.count(b"\n") - 1)

    def test_not_0_in_the_list(self):
        text = typed("(lines 2)", "(not 0)", "(cn 0 1)", "(not 0)")
        negated = Gate(Kind.NOT, None, 0)
        self.assertEqual(
            yilgorza.reduce(text).gates, (negated, Gate(Kind.CN, 0, 1), negated)
        )

    def test_refusals(self):
        for text, number, line in REFUSALS:
            for job in (yilgorza.map, yilgorza.quote):
                with self.subTest(text[:40], job=job.__name__):
                    with self.assertRaises(TurnedAway) as caught:
                        job(text)
                    self.assertEqual(caught.exception.number, number)
                    self.assertEqual(caught.exception.line, line)

    def test_a_gate_with_16_controls_from_smaller_ones(self):
        # The four gates of docs/USING.md do what it does, and leave line 17 as it was,
        # from every pattern in which at most two of its controls are 0.
        page = (REPOSITORY / "docs/USING.md").read_text("utf-8")
        shown = page.partition("together they are quoted 296:\n\n")[2]
        shown = shown.partition("\n\n")[0]
        four = "\n".join(line[4:] for line in shown.splitlines())
        self.assertEqual(four.count("(mct ("), 4)
        self.assertEqual(yilgorza.quote(typed("(lines 18)", four)).count, 296)
        for count, rest in itertools.product(range(3), range(4)):
            for low in itertools.combinations(range(16), count):
                start = (rest << 16) + 0xFFFF - sum(1 << line for line in low)
                self.assertEqual(flipped(four, start), flipped(SIXTEEN, start), start)

    def test_comparisons(self):
        for (first, text), (second, other) in itertools.product(DRAWN, DRAWN):
            found = yilgorza.compare(text, other)
            self.assertIs(found, order(first, second), (text, other))

    def test_sorting(self):
        by_circuit = functools.cmp_to_key(yilgorza.compare)
        texts = [text for _, text in DRAWN]
        rising = sorted(texts[::-1], key=by_circuit)
        rows = [list(row) for _, row in itertools.groupby(rising, key=by_circuit)]
        self.assertEqual([sorted(row) for row in rows], [sorted(row) for row in RISING])
        self.assertEqual(max(texts, key=by_circuit), typed("(lines 32)"))

    def test_inverses(self):
        for text, inverse in INVERSES:
            with self.subTest(text):
                circuit = yilgorza.invert(text)
                self.assertEqual(circuit.text, inverse)
                self.assertEqual(len(circuit.gates), inverse.count(b"\n") - 1)
        self.assertEqual(yilgorza.invert(TOFFOLI_UNDONE).gates, TOFFOLI_GATES)

    def test_what_was_computed_is_uncomputed(self):
        # Every list that map gives here, and every drawing: joined with its inverse,
        # either way round, it gives no gates, and twice inverted it is reduced.
        mapped = [yilgorza.map(text).text for text, _ in QUOTES]
        for text in mapped + [text for _, text in DRAWN]:
            undo = yilgorza.invert(text)
            nothing = Circuit(text[: text.index(b"\n") + 1], ())
            self.assertEqual(yilgorza.join(text, undo.text), nothing)
            self.assertEqual(yilgorza.join(undo.text, text), nothing)
            self.assertEqual(yilgorza.invert(undo.text), yilgorza.reduce(text))
            # It has as many gates.
            self.assertEqual(len(undo.gates), len(yilgorza.reduce(text).gates))

    def test_the_longest_inverse(self):
        # No two of these merge; with the inverse there are too many to be joined.
        forms = ["(v 30 31)", "(v 31 30)"] * 2048
        undo = ["(vp 30 31)", "(vp 31 30)"] * 2048
        text = typed("(lines 32)", *forms)
        inverse = yilgorza.invert(text).text
        self.assertEqual(inverse, typed("(lines 32)", *undo[::-1]))
        self.assertEqual(yilgorza.invert(inverse).text, text)
        with self.assertRaises(TurnedAway) as caught:
            yilgorza.join(text, inverse)
        self.assertEqual(caught.exception.form, "(turned-away 9 2 2)")
        half = typed("(lines 32)", *forms[:2048])
        self.assertEqual(
            yilgorza.join(half, yilgorza.invert(half).text).text, typed("(lines 32)")
        )

    def test_joins(self):
        for first, second, joined in JOINS:
            with self.subTest((first[:40], second[:40])):
                circuit = yilgorza.join(first, second)
                self.assertEqual(circuit.text, joined)
                # It is what reduce gives to both texts put together, and to their
                # reduced lists.
                both = first + second.partition(b"\n")[2]
                self.assertEqual(yilgorza.reduce(both), circuit)
                parts = yilgorza.reduce(first).text, yilgorza.reduce(second).text
                self.assertEqual(yilgorza.join(*parts), circuit)
        # The same gate twice does not vanish: document 01 quotes it 9.
        twice = yilgorza.join(TOFFOLI_MAPPED, TOFFOLI_MAPPED)
        self.assertEqual(twice, yilgorza.map(TOFFOLI + b"(mct (0 1) 2)\n"))
        self.assertEqual(len(twice.gates), 9)

    def test_joins_in_any_grouping(self):
        texts = [text for _, text in DRAWN if text.startswith(b"(lines 2)")]
        for first, second, third in itertools.product(texts, repeat=3):
            left = yilgorza.join(yilgorza.join(first, second).text, third)
            right = yilgorza.join(first, yilgorza.join(second, third).text)
            self.assertEqual(left, right)

    def test_refusals_of_two_texts(self):
        def refused(job: object, first: bytes, second: bytes) -> tuple:
            with self.assertRaises(TurnedAway) as caught:
                job(first, second)
            refusal = caught.exception
            return refusal.number, refusal.line, refusal.text

        for text, number, line in CIRCUIT_REFUSALS:
            for job in (yilgorza.compare, yilgorza.join):
                with self.subTest(text[:40], job=job.__name__):
                    self.assertEqual(refused(job, text, GOOD), (number, line, 1))
                    self.assertEqual(refused(job, GOOD, text), (number, line, 2))
                    # The first text is judged whole before the second is looked at.
                    for other, _, _ in CIRCUIT_REFUSALS:
                        self.assertEqual(refused(job, text, other), (number, line, 1))
        for first, second, *told in JOIN_REFUSALS:
            with self.subTest((first[:40], second[:40])):
                self.assertEqual(refused(yilgorza.join, first, second), tuple(told))
                # A text that is refused by itself is told before.
                bad, number, line = CIRCUIT_REFUSALS[1]
                self.assertEqual(refused(yilgorza.join, first, bad), (number, line, 2))

    def test_slips(self):
        for circuit, slip, second in SLIPS:
            with self.subTest((circuit[:40], slip[:40])):
                self.assertIsNone(yilgorza.slip(circuit, slip, second))
                # What is accepted is linked, and has one reduced list.
                self.assertIs(yilgorza.compare(circuit, second), Ordering.EQUAL)
                self.assertEqual(yilgorza.reduce(circuit), yilgorza.reduce(second))
        for name, text in (
            ("twice.circuit", TWICE),
            ("twice.slip", TWICE_SLIP),
            ("nine.circuit", NINE),
        ):
            example = REPOSITORY / "examples/texts" / name
            self.assertEqual(example.read_bytes(), text)
        # The circuits are those of document 01's mct written twice.
        self.assertEqual(yilgorza.map(TOFFOLI + b"(mct (0 1) 2)\n").text, NINE)

    def test_slips_one_after_the_other_are_a_slip(self):
        for (circuit, slip, second), (other, more, third) in itertools.product(
            SLIPS, repeat=2
        ):
            if second == other and (slip + more).count(b"\n") <= 4096:
                yilgorza.slip(circuit, slip + more, third)
        back = typed("(pass 1)", "(pass 2)", "(pass 3)", "(pass 4)")
        yilgorza.slip(TWICE, TWICE_SLIP + back, BETWEEN)

    def test_refusals_of_slips(self):
        def refused(*texts: bytes) -> tuple:
            with self.assertRaises(TurnedAway) as caught:
                yilgorza.slip(*texts)
            refusal = caught.exception
            return refusal.number, refusal.line, refusal.text

        for circuit, slip, second, *told in SLIP_REFUSALS:
            with self.subTest((circuit[:40], slip[:40])):
                self.assertEqual(refused(circuit, slip, second), tuple(told))
        # The texts are judged in their order, each whole before the next one is looked
        # at; all of them before the circuits are compared and a step is taken.
        for text, number, line in CIRCUIT_REFUSALS:
            with self.subTest(text[:40]):
                self.assertEqual(refused(text, b"?", b""), (number, line, 1))
                self.assertEqual(refused(GOOD, b"?", text), (3, 1, 2))
                for slip in (b"", b"(pass 0)\n", b"(merge 1)\n"):
                    self.assertEqual(refused(GOOD, slip, text), (number, line, 3))
                    self.assertEqual(refused(NINE, slip, text), (number, line, 3))

    def test_the_slip_of_a_reduction(self):
        for circuit, slip, reduced in REDUCTION_SLIPS:
            with self.subTest(circuit[:40]):
                self.assertEqual(yilgorza.reduction_slip(circuit), slip)
                self.assertEqual(yilgorza.reduce(circuit).text, reduced)
        # A list that is reduced already needs no step.
        for text, _ in QUOTES:
            mapped = yilgorza.map(text).text
            self.assertEqual(yilgorza.reduction_slip(mapped), b"")
        for _, text in DRAWN:
            slip = yilgorza.reduction_slip(text)
            yilgorza.slip(text, slip, yilgorza.reduce(text).text)

    def test_the_slips_of_reductions_by_chance(self):
        # On few lines most gates merge, on many most pass.
        for lines, gates, seed in itertools.product(
            (1, 2, 3, 4, 5, 8, 16, 32), (1, 2, 5, 10, 20, 40, 60), range(12)
        ):
            chance = random.Random(f"{lines} {gates} {seed}")
            text = circuit_by_chance(chance, lines, gates)
            reduced = yilgorza.reduce(text)
            slip = yilgorza.reduction_slip(text)
            yilgorza.slip(text, slip, reduced.text)
            # A merge leaves one gate or two less.
            merges, less = slip.count(b"m"), gates - len(reduced.gates)
            self.assertTrue(merges <= less <= 2 * merges, text)
            # From there on by passes, and back; and reduced again from where they end.
            passes, second = passes_by_chance(chance, reduced.text, 50)
            back = b"".join(passes.splitlines(True)[::-1])
            yilgorza.slip(text, slip + passes, second)
            yilgorza.slip(second, back, reduced.text)
            yilgorza.slip(second, yilgorza.reduction_slip(second), reduced.text)
            self.assertNotIn(b"m", yilgorza.reduction_slip(second))

    def test_the_longest_slip_of_a_reduction(self):
        # A pass for each two of 91 gates are 4,095 steps, and one is left for a merge.
        first, second = ([form.replace("cn", "v")] * 2 for form in FALLING[:2])
        for forms, count in (
            (FALLING[:91], 4095),
            (first + FALLING[1:91], 4096),
        ):
            text = typed("(lines 32)", *forms)
            slip = yilgorza.reduction_slip(text)
            self.assertEqual(slip.count(b"\n"), count)
            reduced = yilgorza.reduce(text).text
            self.assertEqual(reduced, typed("(lines 32)", *FALLING[90::-1]))
            yilgorza.slip(text, slip, reduced)
        for forms in (first + second + FALLING[2:91], FALLING[:92], FALLING):
            with self.assertRaisesRegex(ValueError, "more than 4,096 lines"):
                yilgorza.reduction_slip(typed("(lines 32)", *forms))
        # A circuit of 4,096 gates that stay in their places.
        stay = typed("(lines 32)", *["(cn 30 31)", "(cn 31 30)"] * 2048)
        self.assertEqual(yilgorza.reduction_slip(stay), b"")
        yilgorza.slip(stay, b"", stay)

    def test_refusals_of_a_circuit(self):
        for text, number, line in CIRCUIT_REFUSALS:
            for job in (yilgorza.reduce, yilgorza.invert, yilgorza.reduction_slip):
                with self.subTest(text[:40], job=job.__name__):
                    with self.assertRaises(TurnedAway) as caught:
                        job(text)
                    refusal = caught.exception
                    self.assertEqual((refusal.number, refusal.line), (number, line))
                    self.assertIsNone(refusal.text)

    def test_the_longest_circuits(self):
        # 4,096 gates that vanish, and 4,096 that stay.
        vanish = typed("(lines 32)", *["(not 0)"] * 4096)
        stay = typed("(lines 32)", *["(cn 30 31)", "(cn 31 30)"] * 2048)
        self.assertIs(yilgorza.compare(vanish, "(lines 32)\n"), Ordering.EQUAL)
        self.assertIs(yilgorza.compare(vanish, stay), Ordering.LESS)
        self.assertIs(yilgorza.compare(stay, stay), Ordering.EQUAL)
        # The last of 4,096 gates decides, and then that there is none.
        last = typed("(lines 32)", *stay.decode().splitlines()[1:-1], "(vp 31 30)")
        self.assertIs(yilgorza.compare(stay, last), Ordering.LESS)
        sooner = typed("(lines 32)", *stay.decode().splitlines()[1:-1])
        self.assertIs(yilgorza.compare(stay, sooner), Ordering.GREATER)

    def test_eleven_wide_gates(self):
        # 4,092 gates are expanded, and two more for each negated control; with three
        # of these it is refused.
        for gates in (
            [WIDE] * 11,
            [WIDE] * 10 + [WIDE_1],
            [WIDE] * 10 + [WIDE_2],
            [WIDE_1] + [WIDE] * 9 + [WIDE_1],
        ):
            self.assertTrue(yilgorza.map(typed("(lines 17)", *gates)).gates)

    def test_the_longest_circuit(self):
        # No two of these merge: neighbours on lines 30 and 31 don't pass.
        forms = ["(cn 30 31)", "(cn 31 30)"] * 2048
        circuit = yilgorza.reduce(typed("(lines 32)", *forms))
        self.assertEqual(circuit.text, typed("(lines 32)", *forms))
        self.assertEqual(
            circuit.gates, (Gate(Kind.CN, 30, 31), Gate(Kind.CN, 31, 30)) * 2048
        )
        with self.assertRaises(TurnedAway) as caught:
            yilgorza.reduce(typed("(lines 32)", *forms, "(not 0)"))
        self.assertEqual(caught.exception.form, "(turned-away 9 4098)")

    def test_every_number(self):
        """A number is a gate's exactly if the header makes it of a valid gate."""
        gates = {}
        for target in range(32):
            gates[target * 132 + 2] = Gate(Kind.NOT, None, target)
            for control in set(range(32)) - {target}:
                for kind in (Kind.V, Kind.CN, Kind.VP):
                    record = (target * 33 + control + 1) * 4 + kind.value
                    gates[record] = Gate(kind, control, target)
        self.assertEqual(len(gates), 32 + 32 * 31 * 3)
        for record in range(65536):
            if record in gates:
                self.assertEqual(yilgorza._gate(record), gates[record])
            else:
                with self.assertRaisesRegex(InternalError, f"record {record} "):
                    yilgorza._gate(record)

    def test_threads(self):
        def answers(_: int) -> None:
            for text, count in QUOTES:
                self.assertEqual(yilgorza.quote(text).count, count)
                self.assertEqual(len(yilgorza.map(text).gates), count)
            for text, reduced in REDUCTIONS:
                self.assertEqual(yilgorza.reduce(text).text, reduced)
            for text, number, line in REFUSALS:
                with self.assertRaises(TurnedAway) as caught:
                    yilgorza.map(text)
                refusal = caught.exception
                self.assertEqual((refusal.number, refusal.line), (number, line))
            for (first, text), (second, other) in zip(DRAWN, DRAWN[1:]):
                found = yilgorza.compare(text, other)
                self.assertIs(found, order(first, second))
            for text, inverse in INVERSES:
                self.assertEqual(yilgorza.invert(text).text, inverse)
            for text, other, joined in JOINS:
                self.assertEqual(yilgorza.join(text, other).text, joined)
            yilgorza.slip(TWICE, TWICE_SLIP, NINE)
            for *texts, number, line, place in SLIP_REFUSALS[-12:]:
                with self.assertRaises(TurnedAway) as caught:
                    yilgorza.slip(*texts)
                refusal = caught.exception
                told = refusal.number, refusal.line, refusal.text
                self.assertEqual(told, (number, line, place))

        with ThreadPoolExecutor(8) as pool:
            self.assertEqual(list(pool.map(answers, range(64))), [None] * 64)


class Programs(unittest.TestCase):
    """The programs write what the module gives."""

    def written(self, program: str, text: bytes) -> bytes:
        run = subprocess.run([PROGRAMS / program], input=text, stdout=subprocess.PIPE)
        self.assertEqual(run.returncode, 0)
        return run.stdout

    def written_of(self, program: str, *texts: bytes) -> bytes:
        """What a program over several texts writes."""
        with tempfile.TemporaryDirectory() as folder:
            names = [Path(folder) / str(place) for place in range(len(texts))]
            for name, text in zip(names, texts):
                name.write_bytes(text)
            run = subprocess.run([PROGRAMS / program, *names], stdout=subprocess.PIPE)
        self.assertEqual(run.returncode, 0)
        return run.stdout

    def test_compare(self):
        for (first, text), (second, other) in itertools.product(DRAWN, DRAWN):
            form = f"({order(first, second).name.lower()})"
            found = self.written_of("compare", text, other)
            self.assertEqual(found, typed(form), (text, other))

    def test_join(self):
        for first, second, joined in JOINS:
            with self.subTest((first[:40], second[:40])):
                self.assertEqual(self.written_of("join", first, second), joined)
        for first, second, number, line, text in JOIN_REFUSALS:
            with self.subTest((first[:40], second[:40])):
                refusal = TurnedAway(number, line, text)
                self.assertEqual(
                    self.written_of("join", first, second), typed(refusal.form)
                )

    def test_slip(self):
        for texts in SLIPS:
            with self.subTest((texts[0][:40], texts[1][:40])):
                self.assertEqual(self.written_of("slip", *texts), typed("(accepted)"))
        for *texts, number, line, place in SLIP_REFUSALS:
            with self.subTest((texts[0][:40], texts[1][:40])):
                form = TurnedAway(number, line, place).form
                self.assertEqual(self.written_of("slip", *texts), typed(form))
        for text, number, line in CIRCUIT_REFUSALS:
            first, third = TurnedAway(number, line, 1), TurnedAway(number, line, 3)
            with self.subTest(text[:40]):
                found = self.written_of("slip", text, b"?", b"")
                self.assertEqual(found, typed(first.form))
                found = self.written_of("slip", NINE, b"(pass 0)\n", text)
                self.assertEqual(found, typed(third.form))

    def test_invert(self):
        for text, inverse in INVERSES:
            with self.subTest(text):
                self.assertEqual(self.written("invert", text), inverse)

    def test_refusals_of_two_texts(self):
        for text, number, line in CIRCUIT_REFUSALS:
            first, second = TurnedAway(number, line, 1), TurnedAway(number, line, 2)
            for program in ("compare", "join"):
                with self.subTest(text[:40], program=program):
                    for texts, refusal in (
                        ((text, GOOD), first),
                        ((GOOD, text), second),
                        ((text, b""), first),
                    ):
                        self.assertEqual(
                            self.written_of(program, *texts), typed(refusal.form)
                        )

    def test_map_and_quote(self):
        self.assertEqual(self.written("map", TOFFOLI), TOFFOLI_MAPPED)
        self.assertEqual(self.written("map", FIVE), FIVE_MAPPED)
        self.assertEqual(self.written("map", KEPT), KEPT_MAPPED)
        for text, count in QUOTES:
            with self.subTest(text):
                self.assertEqual(
                    self.written("quote", text), typed(f"(quote {count})")
                )
                self.assertEqual(self.written("map", text), yilgorza.map(text).text)

    def test_negated_controls(self):
        for text, mapped in NEGATED:
            with self.subTest(text):
                self.assertEqual(self.written("map", text), mapped)

    def test_reduce(self):
        for text, reduced in REDUCTIONS:
            with self.subTest(text):
                self.assertEqual(self.written("reduce", text), reduced)

    def test_circuit_refusals(self):
        for text, number, line in CIRCUIT_REFUSALS:
            with self.subTest(text[:40]):
                form = typed(TurnedAway(number, line).form)
                self.assertEqual(self.written("reduce", text), form)
                self.assertEqual(self.written("invert", text), form)

    def test_refusals(self):
        for text, number, line in REFUSALS:
            for program in ("map", "quote"):
                with self.subTest(text[:40], program=program):
                    self.assertEqual(
                        self.written(program, text),
                        typed(TurnedAway(number, line).form),
                    )


class Counting(unittest.TestCase):
    """The cascades of examples/texts that count up and down."""

    def test_patterns(self):
        # Lines 0 to 3 are the number; line 4, which is borrowed, keeps its bit.
        for name, step in (("increment", 1), ("decrement", -1)):
            cascade = (REPOSITORY / f"examples/texts/{name}.cascade").read_text("ascii")
            self.assertEqual(cascade.count("(mct ("), 4)
            for pattern in range(32):
                self.assertEqual(
                    flipped(cascade, pattern),
                    pattern // 16 * 16 + (pattern + step) % 16,
                    (name, pattern),
                )

    def test_quotes(self):
        page = (REPOSITORY / "docs/USING.md").read_text("utf-8")
        for name, count in (("increment", 19), ("decrement", 23)):
            told = page.partition(f"`{name}.cascade`")[2]
            told = re.search(r"\b[Ii]ts quote is (\d+)\.$", told, re.M)[1]
            text = (REPOSITORY / f"examples/texts/{name}.cascade").read_bytes()
            self.assertEqual((yilgorza.quote(text).count, told), (count, str(count)))

    def test_down_undoes_up(self):
        # As patterns; as lists the two together are not linked to no gates.
        up, down = (
            (REPOSITORY / f"examples/texts/{name}.cascade").read_text("ascii")
            for name in ("increment", "decrement")
        )
        both = up + down.partition("\n")[2]
        self.assertEqual(
            [flipped(both, pattern) for pattern in range(32)], list(range(32))
        )
        self.assertTrue(yilgorza.quote(both).count)


class Examples(unittest.TestCase):
    """The programs of examples/python."""

    def ran(self, program: str, *texts: str) -> subprocess.CompletedProcess:
        names = [f"examples/texts/{text}" for text in texts]
        return subprocess.run(
            [sys.executable, f"examples/python/{program}", *names],
            cwd=REPOSITORY,
            stdout=subprocess.PIPE,
            stderr=subprocess.PIPE,
        )

    def test_a_cascade(self):
        run = self.ran("example.py", "toffoli.cascade")
        self.assertEqual((run.returncode, run.stderr), (0, b""))
        self.assertEqual(
            run.stdout,
            TOFFOLI_MAPPED + typed("", "   2 cn", "   2 v", "   1 vp", "   5 gates"),
        )

    def test_a_refusal(self):
        run = self.ran("example.py", "redrawn.circuit")
        self.assertEqual((run.returncode, run.stdout), (1, b""))
        refusal = TurnedAway(Number.MALFORMED, 2)
        self.assertEqual(
            run.stderr, typed(f"examples/texts/redrawn.circuit: {refusal}")
        )

    def test_sorted_circuits(self):
        nine, ordered, redrawn, toffoli, twice = names = [
            f"{name}.circuit"
            for name in ("nine", "ordered", "redrawn", "toffoli", "twice")
        ]
        # The rows that docs/USING.md shows for the command.
        page = (REPOSITORY / "docs/USING.md").read_text("utf-8")
        command = "    python3 examples/python/sort.py examples/texts/*.circuit\n\n"
        shown = page.partition(command)[2].partition("\n\n")[0]
        rows = typed(*[line[4:] for line in shown.splitlines()])
        texts = REPOSITORY / "examples/texts"
        self.assertEqual(sorted(path.name for path in texts.glob("*.circuit")), names)
        run = self.ran("sort.py", *names)
        self.assertEqual((run.returncode, run.stdout, run.stderr), (0, rows, b""))
        self.assertEqual(
            rows,
            typed(
                "   5 gates  examples/texts/toffoli.circuit",
                "   9 gates  examples/texts/nine.circuit examples/texts/twice.circuit",
                "   1 gates  examples/texts/ordered.circuit "
                "examples/texts/redrawn.circuit",
            ),
        )
        # Whatever their order, and with a text among them that is no circuit.
        texts = toffoli, nine, ordered, "toffoli.cascade", redrawn, twice
        run = self.ran("sort.py", *texts)
        refusal = TurnedAway(Number.MALFORMED, 2)
        self.assertEqual((run.returncode, run.stdout), (1, rows))
        self.assertEqual(
            run.stderr, typed(f"examples/texts/toffoli.cascade: {refusal}")
        )


if __name__ == "__main__":
    unittest.main()
