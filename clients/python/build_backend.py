"""Builds the package without any other one: `pip install` needs no network for it (PEP 517).

A wheel's bytes depend on the files alone: its members have the time of SOURCE_DATE_EPOCH, or of 1980 where it isn't set.
"""

from __future__ import annotations

import base64
import hashlib
import io
import os
import pathlib
import re
import tarfile
import time
import zipfile

HERE = pathlib.Path(__file__).resolve().parent


def stated(key: str) -> str:
    """What pyproject.toml says of the project."""
    found = re.search(rf'(?m)^{key} = "(.*)"$', (HERE / "pyproject.toml").read_text())
    if found is None:
        raise LookupError(key)
    return found[1]


NAME, VERSION = stated("name"), stated("version")
INFO = f"{NAME}-{VERSION}.dist-info"
METADATA = f"""\
Metadata-Version: 2.1
Name: {NAME}
Version: {VERSION}
Summary: {stated("description")}
License: MIT
Requires-Python: {stated("requires-python")}
"""
WHEEL = """\
Wheel-Version: 1.0
Generator: build_backend
Root-Is-Purelib: true
Tag: py3-none-any
"""
COMMANDS = f"""\
[console_scripts]
{NAME} = {stated(NAME)}
"""


def sources() -> dict[str, bytes]:
    """The package's files."""
    found = sorted(path for path in (HERE / NAME).iterdir() if path.suffix == ".py" or path.name == "py.typed")
    return {f"{NAME}/{path.name}": path.read_bytes() for path in found}


def record(files: dict[str, bytes]) -> bytes:
    """The list of a wheel's files, each with its digest."""
    rows = []
    for name, data in files.items():
        digest = base64.urlsafe_b64encode(hashlib.sha256(data).digest()).rstrip(b"=").decode()
        rows.append(f"{name},sha256={digest},{len(data)}\n")
    return "".join([*rows, f"{INFO}/RECORD,,\n"]).encode()


def epoch() -> int:
    """The time of a build, in seconds."""
    return max(int(os.environ.get("SOURCE_DATE_EPOCH", 0)), 315532800)


def build_wheel(wheel_directory: str, config_settings: object = None, metadata_directory: object = None) -> str:
    """Writes the wheel to a folder, and gives its name."""
    texts = {"METADATA": METADATA, "WHEEL": WHEEL, "entry_points.txt": COMMANDS}
    files = {**sources(), **{f"{INFO}/{name}": text.encode() for name, text in texts.items()}}
    files[f"{INFO}/RECORD"] = record(files)
    name = f"{NAME}-{VERSION}-py3-none-any.whl"
    with zipfile.ZipFile(os.path.join(wheel_directory, name), "w", zipfile.ZIP_DEFLATED) as wheel:
        for member, data in files.items():
            info = zipfile.ZipInfo(member, time.gmtime(epoch())[:6])
            info.external_attr = 0o644 << 16
            wheel.writestr(info, data, zipfile.ZIP_DEFLATED)
    return name


def build_sdist(sdist_directory: str, config_settings: object = None) -> str:
    """Writes the sources to a folder, and gives the archive's name."""
    top = f"{NAME}-{VERSION}"
    files = {**sources(), "PKG-INFO": METADATA.encode()}
    for name in ("pyproject.toml", "build_backend.py"):
        files[name] = (HERE / name).read_bytes()
    with tarfile.open(os.path.join(sdist_directory, f"{top}.tar.gz"), "w:gz", format=tarfile.PAX_FORMAT) as archive:
        for member, data in files.items():
            info = tarfile.TarInfo(f"{top}/{member}")
            info.size, info.mtime, info.mode = len(data), epoch(), 0o644
            archive.addfile(info, io.BytesIO(data))
    return f"{top}.tar.gz"
