"""pip installs the package with its shared object, without a network, and it works
from a folder that knows nothing of the repository."""

import base64
import csv
import hashlib
import io
import os
import subprocess
import sys
import tempfile
import unittest
import zipfile
from pathlib import Path
from typing import Dict, List

from texts import ARCHIVE, REPOSITORY
from yilgorza import Number, TurnedAway

FILES = [
    "VERSION",
    "__init__.py",
    "_library.py",
    "_slips.py",
    "libyilgorza.so",
    "py.typed",
]

# Prints where the package is, what it says of itself, an answer and a refusal.
TRIED = """
import yilgorza
from importlib.metadata import version
print(yilgorza.__file__)
print(yilgorza.__version__, version("yilgorza"))
print(yilgorza.quote("(lines 3)\\n(mct (0 1) 2)\\n").count)
try:
    yilgorza.map("(lines 3)\\n(mct (0 2) 2)\\n")
except yilgorza.TurnedAway as refusal:
    print(refusal)
"""


class Installed(unittest.TestCase):
    def setUp(self):
        scratch = tempfile.TemporaryDirectory()
        self.addCleanup(scratch.cleanup)
        self.scratch = Path(scratch.name).resolve()
        self.away = self.scratch / "away"
        self.away.mkdir()

    def run_away(
        self, command: List[object], expected: int = 0, **variables: str
    ) -> str:
        """What the command says, run from a folder of its own."""
        kept: Dict[str, str] = {
            name: held
            for name, held in os.environ.items()
            if not name.startswith(("PYTHON", "PIP_", "YILGORZA_"))
        }
        kept.update(
            PIP_CONFIG_FILE=os.devnull,
            PIP_NO_CACHE_DIR="1",
            PYTHONDONTWRITEBYTECODE="1",
            YILGORZA_ARCHIVE=str(ARCHIVE),
        )
        run = subprocess.run(
            [str(part) for part in command],
            cwd=self.away,
            env={**kept, **variables},
            stdout=subprocess.PIPE,
            stderr=subprocess.STDOUT,
            text=True,
        )
        self.assertEqual(run.returncode, expected, run.stdout)
        return run.stdout

    def pip(self, *arguments: object, expected: int = 0, **variables: str) -> str:
        command = [sys.executable, "-m", "pip", *arguments]
        return self.run_away(command, expected, **variables)

    def install(self, what: Path) -> Path:
        target = self.scratch / "target"
        self.pip("install", "--no-index", "--target", target, what)
        return target

    def tried(self, module: Path, python: object = sys.executable, **variables: str):
        version = (REPOSITORY / "VERSION").read_text("ascii").strip()
        self.assertEqual(
            self.run_away([python, "-c", TRIED], **variables).splitlines(),
            [
                str(module / "__init__.py"),
                f"{version} {version}",
                "5",
                str(TurnedAway(Number.CROSSED, 2)),
            ],
        )

    def test_folder(self):
        target = self.install(REPOSITORY / "python")
        module = target / "yilgorza"
        self.assertEqual(
            sorted(path.name for path in module.iterdir() if path.is_file()), FILES
        )
        self.tried(module, PYTHONPATH=str(target))

    def test_source_distribution(self):
        # It is built where the repository is, and installed with no archive named.
        self.run_away(
            [
                sys.executable,
                "-c",
                "import sys; sys.path.insert(0, sys.argv[1]); import backend; "
                "print(backend.build_sdist(sys.argv[2]))",
                REPOSITORY / "python",
                self.scratch,
            ]
        )
        (made,) = self.scratch.glob("yilgorza-*.tar.gz")
        target = self.scratch / "target"
        self.pip("install", "--no-index", "--target", target, made, YILGORZA_ARCHIVE="")
        self.tried(target / "yilgorza", PYTHONPATH=str(target))

    def test_editable(self):
        # Of a copy, since it puts files beside the modules.
        copied = self.scratch / "copied"
        self.run_away(["mkdir", copied])
        for name in ("VERSION", "bin", "python"):
            self.run_away(["cp", "-r", REPOSITORY / name, copied / name])
        env = self.scratch / "env"
        self.run_away([sys.executable, "-m", "venv", "--without-pip", env])
        python = env / "bin/python"
        self.pip("--python", python, "install", "--no-index", "-e", copied / "python")
        module = copied / "python/src/yilgorza"
        self.tried(module, python)
        self.assertTrue((module / "libyilgorza.so").is_file())

    def test_wheel(self):
        self.pip("wheel", "--no-index", "-w", self.scratch, REPOSITORY / "python")
        (made,) = self.scratch.glob("*.whl")
        self.assertRegex(made.name, r"^yilgorza-[\d.]+-py3-none-linux_x86_64\.whl$")
        with zipfile.ZipFile(made) as wheel:
            held = {name: wheel.read(name) for name in wheel.namelist()}
        (info,) = {name.partition("/")[0] for name in held} - {"yilgorza"}
        self.assertEqual(
            sorted(held),
            sorted(
                [f"yilgorza/{name}" for name in FILES]
                + [f"{info}/{name}" for name in ("METADATA", "WHEEL", "RECORD")]
            ),
        )
        rows = list(csv.reader(io.StringIO(held[f"{info}/RECORD"].decode())))
        self.assertEqual(sorted(row[0] for row in rows), sorted(held))
        for name, digest, size in rows:
            if name != f"{info}/RECORD":
                hashed = hashlib.sha256(held[name]).digest()
                padded = base64.urlsafe_b64encode(hashed).decode()
                self.assertEqual(digest, "sha256=" + padded.rstrip("="))
                self.assertEqual(int(size), len(held[name]))
        self.assertIn(b"\nRequires-Python: >=3.9\n", held[f"{info}/METADATA"])

    def test_no_archive(self):
        nowhere = self.scratch / "nowhere.a"
        said = self.pip(
            "install",
            "--no-index",
            "--target",
            self.scratch / "target",
            REPOSITORY / "python",
            expected=1,
            YILGORZA_ARCHIVE=str(nowhere),
        )
        self.assertIn(f"there is no archive {nowhere}", said)
        self.assertIn("./build capi", said)
        self.assertFalse((self.scratch / "target").exists())

    def test_a_file_that_is_no_archive(self):
        wrong = self.scratch / "wrong.a"
        wrong.write_text("no archive\n")
        said = self.pip(
            "wheel",
            "--no-index",
            "-w",
            self.scratch,
            REPOSITORY / "python",
            expected=1,
            YILGORZA_ARCHIVE=str(wrong),
        )
        self.assertIn(f"bin/shared-object made no shared object of {wrong}", said)


if __name__ == "__main__":
    unittest.main()
