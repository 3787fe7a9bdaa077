"""Reading inputs whole, and writing outputs whole or not at all."""

import os
import stat
import sys
import tempfile
from typing import NoReturn

from . import TOOL
from .names import file_name
from .refusal import Refusal


def reports_of(path: str) -> list[str]:
    """The reports that a word of the command line names: itself, or all those below a folder."""
    if path == "-" or not os.path.isdir(path):
        return [path]
    found = [os.path.join(folder, name) for folder, _, names in os.walk(path, onerror=_unread) for name in names]
    reports = sorted(name for name in found if name.endswith(".json"))
    if not reports:
        raise Refusal(f"{file_name(path)}: no report (*.json) is in this folder")
    for report in reports:
        _check_regular(report)
    return reports


def _unread(error: OSError) -> NoReturn:
    """Of a folder whose reports would be missing."""
    raise Refusal(f"{file_name(error.filename)}: can't be read: {error.strerror}")


def _check_regular(path: str) -> None:
    """Of a file that nobody named: a pipe would be waited for, and what a device gives may have no end."""
    try:
        is_regular = stat.S_ISREG(os.stat(path).st_mode)
    except OSError:
        return  # why is told when it is opened
    if not is_regular:
        raise Refusal(f"{file_name(path)}: can't be read: not a regular file")


def bytes_of(path: str, name: str) -> bytes:
    """What the file has; `-` is standard input."""
    try:
        if path == "-":
            # Python has no stream for a descriptor that is closed.
            if sys.stdin is None:
                raise Refusal(f"{name}: can't be read: it is closed")
            return sys.stdin.buffer.read()
        with open(path, "rb") as file:
            return file.read()
    except (OSError, ValueError) as error:
        raise Refusal(f"{name}: can't be read: {getattr(error, 'strerror', None) or error}") from None


def write_files(texts: dict[str, str]) -> None:
    """Writes all files under temporary names first, so that each is there whole or as it was."""
    temporary: dict[str, str] = {}
    path = ""
    try:
        for path, text in texts.items():
            number, name = tempfile.mkstemp(dir=os.path.dirname(path) or ".", prefix=f".{TOOL}-")
            temporary[path] = name
            with open(number, "wb") as file:
                file.write(text.encode("utf-8"))
            os.chmod(name, 0o666 & ~_mask())
        for path in list(temporary):
            os.replace(temporary[path], path)
            del temporary[path]
    except OSError as error:
        raise Refusal(f"{file_name(path)}: can't be written: {error.strerror}") from None
    finally:
        for name in temporary.values():
            os.unlink(name)


def _mask() -> int:
    """The permissions that new files don't get."""
    value = os.umask(0)
    os.umask(value)
    return value


def write_text(text: str) -> None:
    """Writes to standard output."""
    if sys.stdout is None:
        raise Refusal("standard output: can't be written: it is closed")
    try:
        sys.stdout.buffer.write(text.encode("utf-8"))
        sys.stdout.buffer.flush()
    except OSError as error:
        os.dup2(os.open(os.devnull, os.O_WRONLY), sys.stdout.fileno())  # so that closing doesn't fail again
        raise Refusal(f"standard output: can't be written: {error.strerror}") from None
