"""Files that the tools read and write: bytes in, bytes out, and no file is ever left half written."""

from __future__ import annotations

import contextlib
import errno
import os
import stat
import sys


def read_file(path: str, most: int = -1) -> bytes:
    """The bytes of a file, of a pipe too, which is read once; `-` is standard input. No more than `most`. Raises OSError."""
    with open(0 if path == "-" else path, "rb", closefd=path != "-") as it:
        return it.read(most)


def write_file(path: str, data: bytes) -> None:
    """Writes a file beside its place and renames it, so that it has these bytes or stays as it was. `-` and what standard
    output goes to are written by it, and what is not an ordinary file, as a pipe or a terminal, is written itself. Raises
    OSError."""
    if _is_stream(path):
        is_output = _is_output(path)
        with open(1 if is_output else path, "wb", closefd=not is_output) as it:
            it.write(data)
        return
    path = os.path.realpath(path)
    if _is_protected(path):
        raise PermissionError(errno.EACCES, os.strerror(errno.EACCES))
    # (a name that no other process has, on another machine neither)
    beside = os.path.join(os.path.dirname(path), f".{os.urandom(8).hex()}.tmp")
    file = os.open(beside, os.O_WRONLY | os.O_CREAT | os.O_EXCL, 0o666)
    try:
        with open(file, "wb") as it:
            with contextlib.suppress(FileNotFoundError):
                os.chmod(file, os.stat(path).st_mode & 0o777)
            it.write(data)
        os.replace(beside, path)
    except BaseException:
        with contextlib.suppress(FileNotFoundError):
            os.unlink(beside)
        raise


def left_over(path: str, begins: tuple[bytes, ...]) -> str:
    """Removes what is left of an earlier solid where a fault leaves nothing to write, and gives the line that says so. What
    does not begin as one of these does is nothing that the tool made: it stays, and the line says that it is old."""
    if _is_stream(path) or not os.path.isfile(path):
        return ""
    with contextlib.suppress(OSError):
        with open(path, "rb") as it:
            is_made = bool(begins) and it.read(max(map(len, begins))).startswith(begins)
        if is_made and not _is_protected(path):
            os.unlink(os.path.realpath(path))
            return f"{path}: removed, since it was made of an earlier source\n"
    return f"{path}: warning: it stays as it was, and is not of this source\n"


def called(path: str, stream: str = "<stdin>") -> str:
    """What a file is called in messages, in which `-` is this stream."""
    return stream if path == "-" else path


def identity(path: str, stream: int) -> tuple[int, int] | None:
    """What tells an ordinary file from others, whatever it is called; `-` is that of a stream. None where there is none."""
    try:
        found = os.stat(stream if path == "-" else path)
    except OSError:
        return None
    return (found.st_dev, found.st_ino) if stat.S_ISREG(found.st_mode) else None


def refusal_to_write(path: str) -> str | None:
    """Why a file can't be written here, as far as that shows before it is tried; None where nothing speaks against it."""
    if path == "-":
        return None
    if os.path.isdir(path):
        return os.strerror(errno.EISDIR)
    if _is_stream(path):
        return None
    try:
        folder = os.path.dirname(os.path.realpath(path))
    except OSError as error:  # (the folder that relative paths begin in is gone)
        return error.strerror
    if not path or not os.path.isdir(folder):
        return os.strerror(errno.ENOENT)
    return None if os.access(folder, os.W_OK) and not _is_protected(path) else os.strerror(errno.EACCES)


def _is_protected(path: str) -> bool:
    """Whether a file is there that may not be written: nor is another one put in its place."""
    return os.path.exists(path) and not os.access(path, os.W_OK)


def _is_stream(path: str) -> bool:
    """Whether a path is that of a pipe, a terminal or the like, or of standard output."""
    return _is_output(path) or (os.path.exists(path) and not os.path.isfile(path))


def _is_output(path: str) -> bool:
    """Whether a path is that of standard output, as `-`, `/dev/stdout` and the file that it goes to are."""
    if path == "-":
        return True
    try:
        return os.path.samestat(os.stat(path), os.fstat(1))
    except OSError:
        return False


def reason(error: Exception) -> str:
    """The reason alone, without the number and the name of the file."""
    return (error.strerror if isinstance(error, OSError) else None) or str(error)


def say(text: str) -> None:
    """Writes a text to standard error, with names of files as they are. Where that is closed, nothing is said."""
    with contextlib.suppress(AttributeError, OSError, ValueError):
        sys.stderr.buffer.write(text.encode("utf-8", "surrogateescape"))
        sys.stderr.buffer.flush()
