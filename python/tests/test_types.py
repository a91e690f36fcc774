"""Refusals and results: words, pickling, a process pool, the names exported, and the
examples in the documentation."""

import ast
import builtins
import copy
import doctest
import functools
import multiprocessing
import pickle
import re
import typing
import unittest
from concurrent.futures import ProcessPoolExecutor
from dataclasses import FrozenInstanceError

import yilgorza
from texts import (
    CIRCUIT_REFUSALS,
    JOIN_REFUSALS,
    QUOTES,
    REFUSALS,
    REPOSITORY,
    SLIP_REFUSALS,
    TOFFOLI,
    TOFFOLI_MAPPED,
)
from yilgorza import Circuit, Kind, Number, Ordering, TurnedAway, _library


class Refusals(unittest.TestCase):
    def test_words_are_those_of_the_table(self):
        page = (REPOSITORY / "README.md").read_text("utf-8")
        rest = page.partition("| r | in a customer's words |\n")[2]
        table = rest.partition("\n\n")[0]
        rows = re.findall(r"^\| (\d+) \| (.+) \|$", table, re.MULTILINE)
        self.assertEqual(len(rows), 13)
        self.assertEqual(
            [(number.value, number.words) for number in Number],
            [(int(number), words) for number, words in rows],
        )

    def test_what_a_refusal_says(self):
        for number in Number:
            with self.subTest(number.name):
                refusal = TurnedAway(number, 7)
                self.assertEqual(refusal.words, number.words)
                self.assertEqual(
                    str(refusal),
                    f"refusal {number.value} at line 7 of the text: {number.words}",
                )
                self.assertEqual(
                    str(TurnedAway(number, 0)),
                    f"refusal {number.value}: {number.words}",
                )
                self.assertEqual(refusal.form, f"(turned-away {number.value} 7)")
                self.assertIsNone(refusal.text)

    def test_what_a_refusal_of_several_texts_says(self):
        for text, place in ((1, "first"), (2, "second"), (3, "third")):
            refusal = TurnedAway(3, 7, text)
            self.assertEqual((refusal.line, refusal.text), (7, text))
            self.assertEqual(refusal.form, f"(turned-away 3 7 {text})")
            self.assertEqual(
                str(refusal),
                f"refusal 3 at line 7 of the {place} text: {Number(3).words}",
            )
            self.assertEqual(
                str(TurnedAway(1, 0, text)),
                f"refusal 1 at the {place} text: {Number(1).words}",
            )
        # Some numbers are about no one of the texts.
        refusal = TurnedAway(10, 0, 0)
        self.assertEqual(refusal.text, 0)
        self.assertEqual(refusal.form, "(turned-away 10 0 0)")
        self.assertEqual(str(refusal), f"refusal 10: {Number(10).words}")
        refusal = TurnedAway(Number.DIFFERENT_LINES, 0, 0)
        self.assertEqual(refusal.form, "(turned-away 11 0 0)")
        self.assertEqual(str(refusal), f"refusal 11: {Number(11).words}")
        refusal = TurnedAway(Number.OTHER_END, 0, 0)
        self.assertEqual(refusal.form, "(turned-away 13 0 0)")
        self.assertEqual(str(refusal), f"refusal 13: {Number(13).words}")

    def test_what_a_job_says(self):
        with self.assertRaises(TurnedAway) as caught:
            yilgorza.quote("(lines 3)\n(mct (0 2) 2)\n")
        self.assertEqual(
            str(caught.exception),
            "refusal 5 at line 2 of the text: a gate is controlled by its own target",
        )
        with self.assertRaises(TurnedAway) as caught:
            yilgorza.compare("(lines 3)\n", "(lines 3)\n(cn 2 2)\n")
        self.assertEqual(
            str(caught.exception),
            "refusal 5 at line 2 of the second text: "
            "a gate is controlled by its own target",
        )
        with self.assertRaises(TurnedAway) as caught:
            yilgorza.join("(lines 3)\n", "(lines 2)\n")
        self.assertEqual(
            str(caught.exception),
            "refusal 11: the two circuits do not have the same number of lines",
        )
        with self.assertRaises(TurnedAway) as caught:
            yilgorza.slip("(lines 3)\n", "(pass 1)\n", "(lines 3)\n")
        self.assertEqual(
            str(caught.exception),
            "refusal 12 at line 1 of the second text: this step of the slip is not "
            "allowed: the two gates at its place do not pass or merge, or there are no "
            "two gates there",
        )
        with self.assertRaises(TurnedAway) as caught:
            yilgorza.slip("(lines 3)\n", "", "(lines 3)\n(not 0)\n")
        self.assertEqual(
            str(caught.exception),
            "refusal 13: the steps of the slip end at another circuit than the second",
        )
        with self.assertRaises(TurnedAway) as caught:
            yilgorza.slip("(lines 3)\n", "", "(lines 3)\n(cn 2 2)\n")
        self.assertEqual(
            str(caught.exception),
            "refusal 5 at line 2 of the third text: "
            "a gate is controlled by its own target",
        )

    def test_every_number_is_met(self):
        met = {number for _, number, _ in REFUSALS}
        met |= {number for *_, number, _, _ in JOIN_REFUSALS}
        slips = {number for *_, number, _, _ in SLIP_REFUSALS}
        met |= slips
        self.assertEqual(set(Number) - met, {Number.SHORT_LIST, Number.SHORT_ANSWER})
        # Besides those of its circuits, a slip gets these.
        self.assertEqual({number.value for number in slips}, {1, 3, 9, 11, 12, 13})
        # Of a circuit's lines only these rules can fail.
        met = {number for _, number, _ in CIRCUIT_REFUSALS}
        self.assertEqual({number.value for number in met}, {1, 3, 4, 5, 9})

    def test_a_number_is_shown_as_a_number(self):
        self.assertEqual(
            (str(Number.NO_SPARE), f"{Number.NO_SPARE}", "%d" % Number.NO_SPARE),
            ("8", "8", "8"),
        )

    def test_a_refusal_by_its_number(self):
        refusal = TurnedAway(8, 2)
        self.assertIs(refusal.number, Number.NO_SPARE)
        with self.assertRaises(ValueError):
            TurnedAway(99, 2)

    def test_equality_is_identity(self):
        refusal = TurnedAway(8, 2)
        self.assertEqual(refusal, refusal)
        self.assertNotEqual(refusal, TurnedAway(8, 2))
        self.assertEqual(len({refusal, refusal, TurnedAway(8, 2)}), 2)


class Orderings(unittest.TestCase):
    def test_the_order_of_numbers(self):
        self.assertEqual([found.value for found in Ordering], [-1, 0, 1])
        names = [found.name for found in Ordering]
        self.assertEqual(names, ["LESS", "EQUAL", "GREATER"])
        self.assertEqual(yilgorza.compare("(lines 1)\n", "(lines 2)\n"), -1)

    def test_shown_as_a_number(self):
        self.assertEqual((str(Ordering.LESS), f"{Ordering.LESS}"), ("-1", "-1"))
        self.assertEqual(repr(Ordering.LESS), "<Ordering.LESS: -1>")


class Pickled(unittest.TestCase):
    def same(
        self,
        made: TurnedAway,
        number: int,
        line: int,
        text: typing.Optional[int] = None,
    ) -> None:
        self.assertIs(type(made), TurnedAway)
        self.assertIs(made.number, Number(number))
        self.assertEqual((made.line, made.text), (line, text))
        self.assertEqual(str(made), str(TurnedAway(number, line, text)))

    def test_refusals(self):
        for number in Number:
            for text in (None, 0, 2):
                refusal = TurnedAway(number, 3, text)
                for protocol in range(pickle.HIGHEST_PROTOCOL + 1):
                    made = pickle.loads(pickle.dumps(refusal, protocol))
                    self.same(made, number, 3, text)
                self.same(copy.copy(refusal), number, 3, text)
                self.same(copy.deepcopy(refusal), number, 3, text)

    def test_results(self):
        for made in (
            yilgorza.map(TOFFOLI),
            yilgorza.quote(TOFFOLI),
            yilgorza.invert(TOFFOLI_MAPPED),
            yilgorza.join(TOFFOLI_MAPPED, TOFFOLI_MAPPED),
        ):
            self.assertEqual(pickle.loads(pickle.dumps(made)), made)
        found = yilgorza.compare("(lines 1)\n", "(lines 1)\n")
        self.assertIs(pickle.loads(pickle.dumps(found)), Ordering.EQUAL)

    def test_process_pool(self):
        context = multiprocessing.get_context("spawn")
        with ProcessPoolExecutor(2, mp_context=context) as pool:
            refused = [
                (pool.submit(job, text), number, line)
                for text, number, line in REFUSALS
                for job in (yilgorza.map, yilgorza.quote)
            ]
            for future, number, line in refused:
                self.same(future.exception(timeout=60), number, line)
            texts = "(lines 1)\n", "(lines 1)\n(not 1)\n"
            future = pool.submit(yilgorza.compare, *texts)
            self.same(future.exception(timeout=60), 4, 2, 2)
            future = pool.submit(yilgorza.join, "(lines 1)\n", "(lines 2)\n")
            self.same(future.exception(timeout=60), 11, 0, 0)
            texts = "(lines 1)\n", "(pass 1)\n", "(lines 1)\n"
            future = pool.submit(yilgorza.slip, *texts)
            self.same(future.exception(timeout=60), 12, 1, 2)
            # The pool lives on.
            quotes = pool.map(yilgorza.quote, [text for text, _ in QUOTES], timeout=60)
            self.assertEqual(
                [quote.count for quote in quotes], [count for _, count in QUOTES]
            )


class Names(unittest.TestCase):
    def test_import_star(self):
        names: dict = {}
        exec("from functools import reduce\nfrom yilgorza import *", names)
        self.assertIs(names["reduce"], functools.reduce)
        self.assertNotIn("map", names)
        self.assertIs(names["TurnedAway"], TurnedAway)
        self.assertIs(names["Kind"], Kind)
        hidden = set(dir(builtins)) & set(yilgorza.__all__)
        self.assertEqual(hidden, set())
        for name in yilgorza.__all__:
            self.assertIs(names[name], getattr(yilgorza, name))

    def test_jobs_by_the_name_of_the_module(self):
        jobs = "map", "reduce", "quote", "compare", "invert", "join", "slip"
        for name in (*jobs, "reduction_slip"):
            self.assertEqual(getattr(yilgorza, name).__module__, "yilgorza")
            self.assertNotIn(name, yilgorza.__all__)

    def test_version(self):
        version = (REPOSITORY / "VERSION").read_text("ascii").strip()
        self.assertRegex(version, r"^\d+\.\d+\.\d+$")
        self.assertEqual(yilgorza.__version__, version)

    def test_frozen(self):
        circuit = yilgorza.map(TOFFOLI)
        for made, name in (
            (circuit, "text"),
            (circuit.gates[0], "target"),
            (yilgorza.quote(TOFFOLI), "count"),
        ):
            with self.assertRaises(FrozenInstanceError):
                setattr(made, name, None)
            self.assertEqual(hash(made), hash(copy.deepcopy(made)))

    def test_annotations(self):
        for name in ("map", "reduce", "quote", "invert"):
            hints = typing.get_type_hints(getattr(yilgorza, name))
            self.assertEqual(set(hints), {"text", "return"})
        for job, given in ((yilgorza.compare, Ordering), (yilgorza.join, Circuit)):
            hints = typing.get_type_hints(job)
            self.assertEqual(set(hints), {"first", "second", "return"})
            self.assertIs(hints["return"], given)
        hints = typing.get_type_hints(yilgorza.slip)
        self.assertEqual(set(hints), {"circuit", "slip", "second", "return"})
        self.assertIs(hints["return"], type(None))
        hints = typing.get_type_hints(yilgorza.reduction_slip)
        self.assertEqual(set(hints), {"circuit", "return"})
        self.assertIs(hints["return"], bytes)
        self.assertEqual(
            typing.get_type_hints(yilgorza.Gate),
            {"kind": Kind, "control": typing.Optional[int], "target": int},
        )
        typing.get_type_hints(yilgorza.Circuit)
        typing.get_type_hints(yilgorza.Quote)
        typing.get_type_hints(TurnedAway.__init__)
        typing.get_type_hints(_library.run)

    def test_all_functions_are_annotated(self):
        paths = sorted((REPOSITORY / "python/src/yilgorza").glob("*.py"))
        names = ["__init__.py", "_library.py", "_slips.py"]
        self.assertEqual([path.name for path in paths], names)
        for path in paths:
            # The grammar of the oldest version that the package is for.
            tree = ast.parse(path.read_text("utf-8"), feature_version=(3, 9))
            functions = [
                node for node in ast.walk(tree) if isinstance(node, ast.FunctionDef)
            ]
            self.assertTrue(functions)
            for function in functions:
                self.assertIsNotNone(function.returns, function.name)
                for given in function.args.args:
                    if given.arg != "self":
                        self.assertIsNotNone(given.annotation, function.name)

    def test_numbers_of_the_header(self):
        header = (REPOSITORY / "include/yilgorza.h").read_text("utf-8")
        names = dict(re.findall(r"\bYILGORZA_(\w+)(?: = | )(\d+)", header))
        for member in [*Number, *Kind]:
            self.assertEqual(names[member.name], str(member.value))
        for found in Ordering:
            self.assertEqual(names[found.name], str(found.value + 1))
        self.assertEqual(names["LIST_RECORDS"], str(_library.LIST_RECORDS))
        self.assertEqual(names["ANSWER_BYTES"], str(_library.ANSWER_BYTES))
        for name in _library._FUNCTIONS:
            self.assertIn(f"void yilgorza_{name}(", header)


class Documentation(unittest.TestCase):
    def test_examples_of_the_module(self):
        self.assertEqual(doctest.testmod(yilgorza), (0, 9))

    def test_examples_of_the_page(self):
        page = str(REPOSITORY / "python/README.md")
        self.assertEqual(doctest.testfile(page, module_relative=False), (0, 42))


if __name__ == "__main__":
    unittest.main()
