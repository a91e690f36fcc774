"""The kinds of objects that are taken as texts, and those that are not."""

import array
import unittest

import yilgorza
from texts import TOFFOLI, TOFFOLI_MAPPED, typed
from yilgorza import Circuit, Number, Ordering, TurnedAway

CIRCUIT = typed("(lines 2)", "(v 0 1)", "(v 0 1)")


def compare_first(text: object) -> Ordering:
    return yilgorza.compare(text, CIRCUIT)


def compare_second(text: object) -> Ordering:
    return yilgorza.compare(CIRCUIT, text)


def join_first(text: object) -> Circuit:
    return yilgorza.join(text, CIRCUIT)


def join_second(text: object) -> Circuit:
    return yilgorza.join(CIRCUIT, text)


def slip_first(text: object) -> None:
    yilgorza.slip(text, b"", CIRCUIT)


def slip_second(text: object) -> None:
    yilgorza.slip(CIRCUIT, b"", text)


def slip_steps(text: object) -> None:
    yilgorza.slip(CIRCUIT, text, typed("(lines 2)", "(cn 0 1)"))


# What takes a cascade or a circuit.
JOBS = (
    yilgorza.map,
    yilgorza.reduce,
    yilgorza.quote,
    yilgorza.invert,
    yilgorza.reduction_slip,
    compare_first,
    compare_second,
    join_first,
    join_second,
    slip_first,
    slip_second,
)


class Longer(bytes):
    """Bytes that say they are more than they are."""

    def __len__(self) -> int:
        return 60000


class Renamed(str):
    """A str with an encoding of its own."""

    def encode(self, *_: str) -> bytes:
        return b""


class Taken(unittest.TestCase):
    def mapped(self, text: object) -> None:
        self.assertEqual(yilgorza.map(text).text, TOFFOLI_MAPPED)
        self.assertEqual(yilgorza.quote(text).count, 5)
        with self.assertRaises(TurnedAway) as caught:
            yilgorza.reduce(text)
        self.assertEqual(caught.exception.form, "(turned-away 3 2)")

    def test_bytes_and_str(self):
        for text in (TOFFOLI, TOFFOLI.decode(), bytearray(TOFFOLI)):
            with self.subTest(type(text).__name__):
                self.mapped(text)
        for text in (CIRCUIT, CIRCUIT.decode(), bytearray(CIRCUIT)):
            with self.subTest(type(text).__name__):
                self.assertEqual(
                    yilgorza.reduce(text).text, typed("(lines 2)", "(cn 0 1)")
                )
                self.assertIs(yilgorza.compare(text, "(lines 1)\n"), Ordering.GREATER)
                self.assertIs(yilgorza.compare("(lines 3)\n", text), Ordering.GREATER)
                self.assertIs(yilgorza.compare(text, text), Ordering.EQUAL)
                self.assertEqual(
                    yilgorza.invert(text).text, typed("(lines 2)", "(cn 0 1)")
                )
                self.assertEqual(yilgorza.join(text, text).text, typed("(lines 2)"))
                for joined in (join_first(text), join_second(text)):
                    self.assertEqual(joined.text, typed("(lines 2)"))
                yilgorza.slip(text, "", text)
                self.assertEqual(yilgorza.reduction_slip(text), b"(merge 1)\n")
        for text in (b"(merge 1)\n", "(merge 1)\n", bytearray(b"(merge 1)\n")):
            with self.subTest(type(text).__name__):
                slip_steps(text)

    def test_a_given_text_is_left_as_it_is(self):
        text = bytearray(TOFFOLI)
        self.mapped(text)
        self.assertEqual(text, TOFFOLI)

    def test_views(self):
        twice = bytes(byte for byte in TOFFOLI for _ in range(2))
        for name, view in (
            ("whole", memoryview(TOFFOLI)),
            ("a part", memoryview(b"?" + TOFFOLI + b"?")[1:-1]),
            ("every second byte", memoryview(twice)[::2]),
            ("backwards", memoryview(TOFFOLI[::-1])[::-1]),
            ("pairs", memoryview(TOFFOLI).cast("H")),
        ):
            with self.subTest(name):
                self.mapped(view)

    def test_other_bytes_like_objects(self):
        self.mapped(array.array("B", TOFFOLI))

    def test_classes_made_from_bytes_and_str(self):
        self.mapped(Longer(TOFFOLI))
        self.mapped(Renamed(TOFFOLI.decode()))

    def test_text_outside_ascii(self):
        for character in "\u0660\uff10\u00e9\U0001d7ce\ud800\udcb0":
            with self.subTest(ascii(character)):
                for text, line in (
                    (f"(lines 3)\n(mct ({character} 1) 2)\n", 2),
                    (f"(lines {character})\n", 1),
                    (f"(lines 3)\n{character}", 2),
                ):
                    for job in JOBS:
                        with self.assertRaises(TurnedAway) as caught:
                            job(text)
                        refusal = caught.exception
                        self.assertEqual(
                            (refusal.number, refusal.line), (Number.MALFORMED, line)
                        )

    def test_every_character_but_those_of_texts(self):
        used = set("(lines 0123456789)\n")
        for code in [*range(0x80), *range(0x80, 0x110000, 977), 0x10FFFF]:
            if chr(code) not in used:
                with self.assertRaises(TurnedAway) as caught:
                    yilgorza.reduce(f"(lines 3)\n{chr(code)}\n")
                self.assertEqual(caught.exception.form, "(turned-away 3 2)", hex(code))

    def test_every_character_but_a_minus_before_a_control(self):
        # Dashes and minus signs of other alphabets among them.
        dashes = [*range(0x2010, 0x2016), 0x2212, 0xAD, 0xFE58, 0xFE63, 0xFF0D]
        for code in [*range(0x80), *range(0x80, 0x110000, 977), *dashes]:
            if chr(code) not in "-123456789":
                with self.assertRaises(TurnedAway) as caught:
                    yilgorza.quote(f"(lines 3)\n(mct ({chr(code)}0 1) 2)\n")
                self.assertEqual(caught.exception.form, "(turned-away 3 2)", hex(code))
        self.assertEqual(yilgorza.quote("(lines 3)\n(mct (-0 1) 2)\n").count, 7)

    def test_every_character_but_a_digit_in_a_keep_line(self):
        # A minus sign among them: a kept line has no sign.
        for code in [*range(0x80), *range(0x80, 0x110000, 977)]:
            if chr(code) not in "123456789":
                with self.assertRaises(TurnedAway) as caught:
                    yilgorza.quote(f"(lines 32)\n(keep {chr(code)}0)\n")
                self.assertEqual(caught.exception.form, "(turned-away 3 2)", hex(code))
        self.assertEqual(yilgorza.quote("(lines 32)\n(keep 0 10)\n").count, 0)

    def test_every_character_but_a_digit_in_a_step(self):
        # Digits of other alphabets among them, and a minus sign.
        for code in [*range(0x80), *range(0x80, 0x110000, 977), 0x661, 0xFF11]:
            if chr(code) not in "123456789":
                for step in (f"(merge {chr(code)}1)\n", f"(pass {chr(code)}1)\n"):
                    with self.assertRaises(TurnedAway) as caught:
                        slip_steps(step)
                    form = caught.exception.form
                    self.assertEqual(form, "(turned-away 3 1 2)", hex(code))
        slip_steps("(merge 1)\n")

    def test_a_length_is_counted_in_bytes(self):
        for text, number in (
            ("x" * 60000, Number.MALFORMED),
            ("x" * 60001, Number.OVERLONG),
            ("\u00e9" * 30000, Number.MALFORMED),
            ("\u00e9" * 30001, Number.OVERLONG),
        ):
            with self.assertRaises(TurnedAway) as caught:
                yilgorza.map(text)
            self.assertEqual(caught.exception.number, number)

    def test_bytes_zero(self):
        for text in (b"(lines 3)\0\n", b"(lines 3)\n\0", "(lines 3)\n\0\n"):
            with self.assertRaises(TurnedAway) as caught:
                yilgorza.map(text)
            self.assertEqual(caught.exception.number, Number.MALFORMED)

    def test_other_objects(self):
        for text in (None, 3, 3.0, True, ["(lines 3)"], (40, 41), {}, object(), print):
            for job in (*JOBS, slip_steps):
                with self.subTest(repr(text), job=job.__name__):
                    with self.assertRaisesRegex(
                        TypeError,
                        "^a text is a str or a bytes-like object, "
                        f"not {type(text).__name__}$",
                    ):
                        job(text)


if __name__ == "__main__":
    unittest.main()
