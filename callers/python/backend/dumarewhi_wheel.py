"""Builds the wheel. It is a build backend (PEP 517) that needs nothing else, so that pip can build without a network.

The shared library is made of the archive ``libdumarewhi_c.a``. That is in the folder that DUMAREWHI_LIB names, or else
where ``rt lib`` leaves it, or else ``callers/archive.sh`` builds it.
"""
from __future__ import annotations

import base64
import hashlib
import os
import re
import subprocess
import sys
import tempfile
import zipfile
from pathlib import Path
from typing import Dict, Iterator, List, Optional

PACKAGE = Path(__file__).resolve().parent.parent
CALLERS = PACKAGE.parent
SOURCES = PACKAGE / "src" / "dumarewhi"
ARCHIVE = "libdumarewhi_c.a"
# Sections of README for those who have the repository
OF_REPOSITORY = ("Install it", "Test it")

# The calls of the header are exported, and nothing else.
EXPORTS = "{ global: dm_*; local: *; };\n"


def build_wheel(
    wheel_directory: str, config_settings: Optional[Dict[str, str]] = None, metadata_directory: Optional[str] = None
) -> str:
    """The hook of PEP 517: builds the wheel in a folder, and returns its name."""
    version = _version()
    library = _shared_library()
    tag = _tag(library)
    wheel = f"dumarewhi-{version}-{tag}.whl"
    info = f"dumarewhi-{version}.dist-info"
    files = {f"dumarewhi/{path.name}": path.read_bytes() for path in sorted(SOURCES.glob("*.py"))}
    files["dumarewhi/py.typed"] = (SOURCES / "py.typed").read_bytes()
    files["dumarewhi/libdumarewhi.so"] = library
    files[f"{info}/METADATA"] = _metadata(version).encode()
    lines = ["Wheel-Version: 1.0", "Generator: dumarewhi", "Root-Is-Purelib: false", f"Tag: {tag}", ""]
    files[f"{info}/WHEEL"] = "\n".join(lines).encode()
    record = f"{info}/RECORD"
    files[record] = "".join([*_record(files), f"{record},,\n"]).encode()
    _write(Path(wheel_directory) / wheel, files)
    return wheel


def build_sdist(sdist_directory: str, config_settings: Optional[Dict[str, str]] = None) -> str:
    """The hook of PEP 517. There is no source distribution: the archive is built of the repository."""
    raise NotImplementedError("build a wheel: there is no source distribution")


def _version() -> str:
    match = re.search(r'^__version__ = "(.*)"$', (SOURCES / "__init__.py").read_text(), re.MULTILINE)
    if match is None:
        raise ValueError("__init__.py has no version")
    return match[1]


def _metadata(version: str) -> str:
    project = (PACKAGE / "pyproject.toml").read_text()

    def text(key: str) -> str:
        match = re.search(rf'^{key} = "(.*)"$', project, re.MULTILINE)
        if match is None:
            raise ValueError(f"pyproject.toml has no {key}")
        return match[1]

    def texts(key: str) -> List[str]:
        match = re.search(rf"^{key} = \[(.*?)\]$", project, re.MULTILINE | re.DOTALL)
        return re.findall(r'"([^"]*)"', match[1]) if match else []

    lines = [
        "Metadata-Version: 2.1",
        "Name: dumarewhi",
        f"Version: {version}",
        f"Summary: {text('description')}",
        f"Requires-Python: {text('requires-python')}",
        f"Keywords: {','.join(texts('keywords'))}",
        *(f"Classifier: {classifier}" for classifier in texts("classifiers")),
        "Description-Content-Type: text/markdown",
        "",
        _description(),
    ]
    return "\n".join(lines)


def _description() -> str:
    """README for those who have the wheel."""
    head, *sections = (PACKAGE / "README.md").read_text().split("\n## ")
    return "\n## ".join([head, *(it for it in sections if it.partition("\n")[0] not in OF_REPOSITORY)])


def _tag(library: bytes) -> str:
    """The tag of the wheel (PEP 600): the library needs no other than glibc, at least of the version of its newest
    symbol."""
    found = [tuple(map(int, it.split(b"."))) for it in re.findall(rb"\0GLIBC_(\d+\.\d+)(?=[.\0])", library)]
    if not found:
        return "py3-none-linux_x86_64"
    major, minor = max(found)
    return f"py3-none-manylinux_{major}_{minor}_x86_64"


def _shared_library() -> bytes:
    """All of the archive as a shared library, which needs the C library alone."""
    with tempfile.TemporaryDirectory() as room:
        library, exports = Path(room, "libdumarewhi.so"), Path(room, "exports")
        exports.write_text(EXPORTS)
        archive = str(_archive(Path(room)))
        command = [os.environ.get("CC", "cc"), "-shared", "-o", str(library)]
        command += ["-Wl,--whole-archive", archive, "-Wl,--no-whole-archive"]
        command += [f"-Wl,--version-script={exports}", "-Wl,-z,defs,-z,now,-z,noexecstack,--strip-all"]
        subprocess.run(command, check=True)
        return library.read_bytes()


def _archive(room: Path) -> Path:
    """The archive, which is built if there is none."""
    folder = os.environ.get("DUMAREWHI_LIB", CALLERS.parent / "crates" / "dumarewhi_c" / "out")
    archive = Path(folder, ARCHIVE)
    if archive.exists() or "DUMAREWHI_LIB" in os.environ:
        return archive
    subprocess.run([CALLERS / "archive.sh", room / ARCHIVE], check=True)
    return room / ARCHIVE


def _record(files: Dict[str, bytes]) -> Iterator[str]:
    """A line for each file: its name, hash and size."""
    for name, content in files.items():
        digest = base64.urlsafe_b64encode(hashlib.sha256(content).digest()).decode().rstrip("=")
        yield f"{name},sha256={digest},{len(content)}\n"


def _write(wheel: Path, files: Dict[str, bytes]) -> None:
    """The same octets at each build: the files have no times of their own."""
    wheel.parent.mkdir(parents=True, exist_ok=True)
    with zipfile.ZipFile(wheel, "w", zipfile.ZIP_DEFLATED) as archive:
        for name, content in files.items():
            entry = zipfile.ZipInfo(name)
            entry.compress_type = zipfile.ZIP_DEFLATED
            entry.external_attr = 0o644 << 16
            archive.writestr(entry, content)


if __name__ == "__main__":
    print(Path(sys.argv[1], build_wheel(sys.argv[1])))
