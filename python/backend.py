"""Builds the package yilgorza for pip: the modules of src and the shared object,
which bin/shared-object makes of the archive.

It is a backend as PEP 517 and PEP 660 say, of the standard library alone, so that
`pip install` needs no network. The environment variable YILGORZA_ARCHIVE names the
archive, by its whole path; else it is target/staticlib/libcapi.a of the repository.
"""

from __future__ import annotations

import base64
import hashlib
import io
import os
import platform
import subprocess
import sys
import tarfile
import tempfile
import zipfile
from pathlib import Path
from typing import Any, Dict, Optional

HERE = Path(__file__).resolve().parent
MODULES = HERE / "src" / "yilgorza"
ARCHIVE = "target/staticlib/libcapi.a"
SCRIPT = "bin/shared-object"


def _root() -> Path:
    """The repository, or a source distribution, which has the files that it needs
    of the repository at the same places."""
    for folder in (HERE, HERE.parent):
        if (folder / SCRIPT).is_file():
            return folder
    raise SystemExit(
        f"yilgorza: {HERE} is not in the repository. A pip before 21.3 copies the "
        "folder before it builds: take a later one, or a wheel."
    )


ROOT = _root()
VERSION = (ROOT / "VERSION").read_text("ascii").strip()
NAME = f"yilgorza-{VERSION}"
TAG = "py3-none-linux_x86_64"
WHEEL = f"Wheel-Version: 1.0\nGenerator: {NAME}\nRoot-Is-Purelib: false\nTag: {TAG}\n"
METADATA = f"""\
Metadata-Version: 2.1
Name: yilgorza
Version: {VERSION}
Summary: Cascades of Toffoli gates to reduced lists of NCV gates; inverses, joins, slips
Requires-Python: >=3.9
Classifier: Operating System :: POSIX :: Linux
Classifier: Typing :: Typed
Description-Content-Type: text/markdown

"""

# Names in a wheel or a source distribution, and what they hold.
Files = Dict[str, bytes]
Settings = Optional[Dict[str, Any]]


def build_wheel(
    wheel_directory: str,
    config_settings: Settings = None,
    metadata_directory: Optional[str] = None,
) -> str:
    files = {**_modules(), **_made()}
    return _wheel(wheel_directory, {f"yilgorza/{name}": files[name] for name in files})


def build_editable(
    wheel_directory: str,
    config_settings: Settings = None,
    metadata_directory: Optional[str] = None,
) -> str:
    """A wheel that leads to src, where what is made is put beside the modules."""
    for name, held in _made().items():
        (MODULES / name).write_bytes(held)
    return _wheel(wheel_directory, {"yilgorza.pth": f"{MODULES.parent}\n".encode()})


def build_sdist(sdist_directory: str, config_settings: Settings = None) -> str:
    files = {f"src/yilgorza/{name}": held for name, held in _modules().items()}
    for name in ("README.md", "backend.py", "pyproject.toml"):
        files[name] = (HERE / name).read_bytes()
    for name in ("VERSION", SCRIPT):
        files[name] = (ROOT / name).read_bytes()
    files[ARCHIVE] = _archive().read_bytes()
    files["PKG-INFO"] = _metadata()
    path = Path(sdist_directory) / f"{NAME}.tar.gz"
    with tarfile.open(path, "w:gz", format=tarfile.PAX_FORMAT) as packed:
        for name in sorted(files):
            entry = tarfile.TarInfo(f"{NAME}/{name}")
            entry.size = len(files[name])
            packed.addfile(entry, io.BytesIO(files[name]))
    return path.name


def _modules() -> Files:
    paths = [*MODULES.glob("*.py"), MODULES / "py.typed"]
    return {path.name: path.read_bytes() for path in sorted(paths)}


def _made() -> Files:
    return {
        "VERSION": f"{VERSION}\n".encode(),
        "libyilgorza.so": _shared_object(),
    }


def _archive() -> Path:
    path = Path(os.environ.get("YILGORZA_ARCHIVE") or ROOT / ARCHIVE).absolute()
    if not path.is_file():
        raise SystemExit(
            f"yilgorza: there is no archive {path}. `./build capi`, run in the "
            f"repository, writes {ARCHIVE} there; the environment variable "
            "YILGORZA_ARCHIVE may name another, by its whole path."
        )
    return path


def _shared_object() -> bytes:
    archive = _archive()
    if (sys.platform, platform.machine()) != ("linux", "x86_64"):
        raise SystemExit("yilgorza: the archive is for Linux on x86-64 alone.")
    with tempfile.TemporaryDirectory() as folder:
        made = Path(folder) / "libyilgorza.so"
        status = subprocess.run(["sh", ROOT / SCRIPT, archive, made]).returncode
        if status != 0:
            raise SystemExit(
                f"yilgorza: {SCRIPT} made no shared object of {archive}; it needs gcc."
            )
        return made.read_bytes()


def _metadata() -> bytes:
    return METADATA.encode() + (HERE / "README.md").read_bytes()


def _wheel(directory: str, files: Files) -> str:
    info = f"{NAME}.dist-info"
    files = {**files, f"{info}/METADATA": _metadata(), f"{info}/WHEEL": WHEEL.encode()}
    listed = [_recorded(name, held) for name, held in files.items()]
    record = "".join([*listed, f"{info}/RECORD,,\n"])
    path = Path(directory) / f"{NAME}-{TAG}.whl"
    with zipfile.ZipFile(path, "w", zipfile.ZIP_DEFLATED) as packed:
        for name, held in {**files, f"{info}/RECORD": record.encode()}.items():
            # The same files give the same wheel, so all have one date.
            entry = zipfile.ZipInfo(name, (1980, 1, 1, 0, 0, 0))
            entry.external_attr = 0o100644 << 16
            packed.writestr(entry, held, zipfile.ZIP_DEFLATED)
    return path.name


def _recorded(name: str, held: bytes) -> str:
    digest = base64.urlsafe_b64encode(hashlib.sha256(held).digest()).rstrip(b"=")
    return f"{name},sha256={digest.decode()},{len(held)}\n"
