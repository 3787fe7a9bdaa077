"""Names as reports spell them, and as people read them.

Reports spell names in printable ASCII: a byte outside 0x20..0x7e, and the backslash, is \\x and two hex digits. So a
spelled name has no line end, no tab and no control byte, and can be printed as it is.
"""

from __future__ import annotations

import functools
import hashlib
import os
import re

_PLAIN = r"[\x20-\x5b\x5d-\x7e]*"
SPELLED = re.compile(_PLAIN + r"(?:\\x(?:[01][0-9a-f]|5c|7f|[89a-f][0-9a-f])" + _PLAIN + ")*")
_ESCAPE = re.compile(rb"\\x([0-9a-f]{2})")
_NUMBER = re.compile(r"(\\x[0-9a-f]{2})|0x[0-9a-fA-F]+|[0-9]+")


def spell(raw: bytes) -> str:
    """Bytes as a report spells them."""
    return "".join(chr(b) if 0x20 <= b <= 0x7E and b != 0x5C else f"\\x{b:02x}" for b in raw)


def unspell(name: str) -> bytes:
    """The bytes that a spelled name stands for."""
    return _ESCAPE.sub(lambda match: bytes([int(match[1], 16)]), name.encode("ascii"))


def is_shown(char: str) -> bool:
    """Printable characters are shown; controls, bidi overrides and invisible ones are not (nor the backslash)."""
    return char.isprintable() and char != "\\"


@functools.lru_cache(maxsize=1_000)
def readable(name: str) -> str:
    """A spelled name for people: text that is UTF-8 and printable is shown as such, the rest stays escaped.

    A backslash stays escaped too, so different names look different.
    """
    if "\\" not in name:
        return name
    text = unspell(name).decode("utf-8", "surrogateescape")
    return "".join(c if is_shown(c) else spell(c.encode("utf-8", "surrogateescape")) for c in text)


def shortened(text: str, most: int = 72, dots: str = "...") -> str:
    """Long text by its two ends. The digits of a hash between them tell different long texts apart."""
    if len(text) <= most:
        return text
    digest = hashlib.sha256(text.encode("utf-8")).hexdigest()[:8]
    kept = max(most - len(digest) - 2 * len(dots) - 2, 8)
    return f"{text[: kept - kept // 3]}{dots}[{digest}]{dots}{text[-(kept // 3) :]}"


def counted(number: int, noun: str) -> str:
    """A number with its noun, as `1 cycle` and `2 cycles`."""
    return f"{number:,} {noun}" + ("" if number == 1 else "s")


def kind_of_name(name: str) -> str:
    """A spelled name with each number in it left out, so that the names of a loop's locks look alike."""
    return _NUMBER.sub(lambda match: match[1] or "*", name)


def by_numbers(name: str) -> tuple[list[str | tuple[int, str]], str]:
    """Sorts T9 before T10. Numbers go by their length first, since they may have thousands of digits."""
    parts: list[str | tuple[int, str]] = list(re.split("([0-9]+)", name))
    for at in range(1, len(parts), 2):
        digits = str(parts[at]).lstrip("0")
        parts[at] = (len(digits), digits)
    return parts, name


def file_name(path: str) -> str:
    """A file name from the command line, spelled so that it can be printed whatever it has."""
    return "standard input" if path == "-" else spell(os.fsencode(path))
