"""Names of documents: 1 to 255 bytes without control characters, each once in a run, and paths again by `path_of`."""
from __future__ import annotations

import hashlib
import os
import re

from .document import Report

LONGEST = 255
# Stands before the digest of a shortened name. `escape` leaves no other `%` before `~`.
CUT = "%~"
ESCAPED = re.compile("[%\0-\x1f\x7f-\x9f\ud800-\udfff]")


def escape(name: str) -> str:
    """The name with `%`, control characters and bytes that are not UTF-8 (as surrogates) as `%XX`, a byte each."""
    return ESCAPED.sub(lambda found: "".join(f"%{byte:02X}" for byte in bytes_of(found[0])), name)


def bytes_of(character: str) -> bytes:
    """The UTF-8 bytes of a character; the byte that a surrogate of `os.fsdecode` stands for."""
    try:
        return character.encode("utf-8", "surrogateescape")
    except UnicodeEncodeError:
        return character.encode("utf-8", "surrogatepass")


def path_name(path: str) -> str:
    """The name of the document at this path."""
    return escape(os.fsencode(path).decode("utf-8", "surrogateescape"))


def path_of(name: bytes) -> bytes | None:
    """The path whose name this is, or None if the name was shortened."""
    if CUT.encode() in name:
        return None
    return re.sub(rb"%([0-9A-F]{2})", lambda found: bytes.fromhex(found[1].decode()), name)


def digest_name(content: bytes) -> str:
    """The name of a document that has none: the first half of the SHA-256 of its content."""
    return "sha256-" + hashlib.sha256(content).hexdigest()[:32]


def shorten(name: str) -> str:
    """The name if it has at most 255 bytes; otherwise its beginning and the digest of the whole."""
    data = name.encode()
    if len(data) <= LONGEST:
        return name
    ending = CUT + hashlib.sha256(data).hexdigest()[:32]
    return data[: LONGEST - len(ending)].decode("utf-8", "ignore") + ending


class Names:
    """The names that a run has given, each with the number of its last double."""

    def __init__(self, report: Report) -> None:
        self.report = report
        self.taken: dict[str, int] = {}

    def take(self, wanted: str) -> str:
        """The name of a document that wants to be called so: shortened, or with `#2` and so on if it is taken."""
        whole = escape(wanted)
        name = first = shorten(whole)
        if first != whole:
            self.report.noted("name of more than 255 bytes, shortened", first)
        number = self.taken.get(first, 0)
        while name in self.taken:
            number += 1
            name = shorten(f"{whole}#{number}")
        if name != first:
            self.report.noted("name that an earlier document has, numbered", name)
            self.taken[first] = number
        self.taken[name] = 1
        return name
