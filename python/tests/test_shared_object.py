"""The shared object that YILGORZA_SO names: another one, none, and a wrong one."""

import os
import subprocess
import sys
import tempfile
import unittest
from pathlib import Path

from texts import ARCHIVE, REPOSITORY

STUB = Path(__file__).resolve().with_name("stub.c")

# The jobs, and how many texts each takes.
JOBS = {
    "map": 1,
    "reduce": 1,
    "quote": 1,
    "compare": 2,
    "invert": 1,
    "join": 2,
    "slip": 3,
    "reduction_slip": 1,
}


class Named(unittest.TestCase):
    def setUp(self):
        scratch = tempfile.TemporaryDirectory()
        self.addCleanup(scratch.cleanup)
        self.made = Path(scratch.name) / "made.so"

    def answer(self, path: object, code: str) -> str:
        """What an interpreter prints that runs the code with this shared object."""
        run = subprocess.run(
            [sys.executable, "-c", f"import yilgorza\n{code}"],
            env={**os.environ, "YILGORZA_SO": str(path)},
            stdout=subprocess.PIPE,
            text=True,
        )
        self.assertEqual(run.returncode, 0)
        return run.stdout

    def error(self, path: object, text: bytes, job: str) -> str:
        return self.answer(
            path,
            f"try:\n    yilgorza.{job}(*[{text!r}] * {JOBS[job]})\n"
            "except Exception as error:\n    print(type(error).__name__, error)",
        )

    def test_another_one(self):
        subprocess.run(
            [REPOSITORY / "bin/shared-object", ARCHIVE, self.made], check=True
        )
        code = (
            "print(yilgorza.quote('(lines 3)\\n(mct (0 1) 2)\\n').count)\n"
            "print(open('/proc/self/maps').read())"
        )
        count, _, maps = self.answer(self.made, code).partition("\n")
        self.assertEqual(count, "5")
        self.assertIn(str(self.made), maps)
        self.assertNotIn("libyilgorza.so", maps)

    def test_none(self):
        # It is asked for by the first call, and not before.
        imported = self.answer(self.made, "print(yilgorza.Number(3).name)")
        self.assertEqual(imported, "MALFORMED\n")
        for job in JOBS:
            said = self.error(self.made, b"", job)
            self.assertTrue(said.startswith("OSError "), said)
            self.assertIn(str(self.made), said)
            self.assertIn("YILGORZA_SO", said)

    def test_one_without_the_functions(self):
        empty = self.made.with_name("empty.c")
        empty.write_text("int nothing;\n")
        subprocess.run(["gcc", "-shared", "-fPIC", "-o", self.made, empty], check=True)
        said = self.error(self.made, b"", "map")
        self.assertTrue(said.startswith("OSError "), said)
        self.assertIn("yilgorza_map", said)
        self.assertIn("YILGORZA_SO", said)

    def test_one_that_answers_nonsense(self):
        subprocess.run(["gcc", "-shared", "-fPIC", "-o", self.made, STUB], check=True)
        for job in JOBS:
            with self.subTest(job):
                nonsense = "record 65535 is no gate"
                if job == "compare":
                    nonsense = "there is no order 3"
                elif job == "slip":
                    nonsense = "an accepted slip has no count 3"
                self.assertEqual(
                    self.error(self.made, b"", job),
                    f"InternalError yilgorza: {nonsense}\n",
                )
                self.assertEqual(
                    self.error(self.made, b"x", job),
                    "InternalError yilgorza: there is no refusal 99\n",
                )
        for job in ("map", "reduce", "invert", "reduction_slip"):
            self.assertEqual(
                self.error(self.made, b"xx", job),
                "InternalError yilgorza: the answer has not 0 gates\n",
            )
        self.assertEqual(
            self.error(self.made, b"xx", "join"),
            "InternalError yilgorza: the answer has no line 1\n",
        )


if __name__ == "__main__":
    unittest.main()
