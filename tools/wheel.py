"""What `pip install .` calls: makes a wheel of the Python package, the tools, their man pages and completion.

Where the proved program is there, as in a release, the wheel has the server too; else the tools start the `scadserve` that is
on the PATH. Nothing but Python is needed, so nothing is downloaded. Installed, what stands at the top of the repository stands
in `release` beside the modules (`scadserve.top`).
"""

from __future__ import annotations

import base64
import hashlib
import os
import re
import subprocess
import sys
import zipfile
from pathlib import Path
from typing import Dict, Iterator, NoReturn, Optional, Tuple

TOP = Path(__file__).resolve().parent.parent
sys.path.insert(0, str(TOP / "clients"))

from scadserve.tools import completion, manual  # noqa: E402
from scadserve.tools.catalogue import STARTER, TOOLS  # noqa: E402
from scadserve.version import VERSION  # noqa: E402

NAME = f"scadserve-{VERSION}"
STARTED = """#!python
import os
import sys
from scadserve.tools.catalogue import main
from scadserve.top import TOP
if sys.argv[1:] in (["--help"], ["-h"], ["--version"]):
    sys.exit(main(["scadserve", *sys.argv[1:]]))
os.execv(os.path.join(TOP, "scadserve"), sys.argv)
"""
# A file of the wheel: its name, its bytes, and whether it can be run.
File = Tuple[str, bytes, bool]


def build_wheel(folder: str, config_settings: Optional[Dict[str, str]] = None, metadata_directory: Optional[str] = None) -> str:
    """Makes the wheel in the folder, and gives its name. The same files make the same bytes."""
    program = _program()
    tag = "py3-none-linux_x86_64" if program else "py3-none-any"
    files = [*_package(), *_tools(), *_shared(), *(_server(program) if program else ()), *_about(tag)]
    lines = [f"{name},sha256={_digest(data)},{len(data)}\n" for name, data, _ in files]
    record = f"{NAME}.dist-info/RECORD"
    files.append((record, "".join([*lines, f"{record},,\n"]).encode(), False))
    wheel = f"{NAME}-{tag}.whl"
    with zipfile.ZipFile(os.path.join(folder, wheel), "w", zipfile.ZIP_DEFLATED) as it:
        for name, data, is_run in files:
            entry = zipfile.ZipInfo(name, (1980, 1, 1, 0, 0, 0))
            entry.external_attr = (0o100755 if is_run else 0o100644) << 16
            entry.compress_type = zipfile.ZIP_DEFLATED
            it.writestr(entry, data)
    return wheel


def build_sdist(folder: str, config_settings: Optional[Dict[str, str]] = None) -> NoReturn:
    """There is none: the repository is what its sources are."""
    raise NotImplementedError("tools/release.sh makes releases, and the repository has the sources")


def _program() -> Optional[Path]:
    """The proved program: that of a release, or the one of the sources that stand here, which was built here or is in boot/."""
    if not (TOP / "crates.txt").exists():
        program = TOP / "libexec/scadserve"
        return program if program.exists() else None
    find = 'top=$0; . "$top/tools/built.sh"; . "$top/tools/unpack.sh"; { is_built || is_unpacked; } && echo "$program"'
    found = subprocess.run(["sh", "-c", find, str(TOP)], stdout=subprocess.PIPE, text=True, check=False)
    return Path(found.stdout.rstrip("\n")) if found.returncode == 0 else None


def _package() -> Iterator[File]:
    """The modules, and what they read."""
    for file in sorted((TOP / "clients/scadserve").rglob("*")):
        if file.is_file() and file.suffix != ".pyc":
            yield f"scadserve/{file.relative_to(TOP / 'clients/scadserve').as_posix()}", file.read_bytes(), False
    pages = (TOP / "docs" / name for name in ("FAULTS.md", "OPENSCAD.md", "differences.txt"))
    for file in (*pages, *sorted((TOP / "library").glob("*.scad"))):
        yield f"scadserve/release/{file.relative_to(TOP).as_posix()}", file.read_bytes(), False


def _tools() -> Iterator[File]:
    """The files that start the tools, by the Python that they are installed for."""
    for name in TOOLS:
        yield f"{NAME}.data/scripts/{name}", re.sub(rb"\A#!.*", b"#!python", (TOP / "bin" / name).read_bytes()), True


def _server(program: Path) -> Iterator[File]:
    """The program with its starter."""
    yield "scadserve/release/libexec/scadserve", program.read_bytes(), True
    yield "scadserve/release/scadserve", (TOP / STARTER).read_bytes(), True
    yield "scadserve/release/memory.sh", (TOP / "memory.sh").read_bytes(), False
    yield f"{NAME}.data/scripts/{STARTER}", STARTED.encode(), True


def _shared() -> Iterator[File]:
    """Man pages and completion."""
    share = f"{NAME}.data/data/share"
    for name in (STARTER, *TOOLS):
        yield f"{share}/man/man1/{name}.1", manual.page(name).encode(), False
        yield f"{share}/bash-completion/completions/{name}", completion.bash(name).encode(), False
        yield f"{share}/zsh/site-functions/_{name}", completion.zsh(name).encode(), False


def _about(tag: str) -> Iterator[File]:
    """What a wheel says of itself."""
    told = dict(re.findall(r'^([a-z-]+) = "(.*)"$', (TOP / "pyproject.toml").read_text("utf-8"), re.MULTILINE))
    metadata = f"Metadata-Version: 2.1\nName: {told['name']}\nVersion: {VERSION}\nSummary: {told['description']}\n"
    metadata += f"Requires-Python: {told['requires-python']}\n"
    is_pure = str(tag.endswith("any")).lower()
    wheel = f"Wheel-Version: 1.0\nGenerator: scadserve\nRoot-Is-Purelib: {is_pure}\nTag: {tag}\n"
    yield f"{NAME}.dist-info/METADATA", metadata.encode(), False
    yield f"{NAME}.dist-info/WHEEL", wheel.encode(), False


def _digest(data: bytes) -> str:
    return base64.urlsafe_b64encode(hashlib.sha256(data).digest()).decode().rstrip("=")
