"""What every reader yields, and what it tells of what it left out."""
from __future__ import annotations

import re
import sys
from collections import Counter
from dataclasses import dataclass, field

# The dashes and quotation marks of running text, and the punctuation of ASCII but for `_`.
MARKS = "!-/:-@\\[-^`{-~‘’“”„«»‹›…–—"
CONTROLS = re.compile("[\0-\x1f\x7f-\x9f]")


class Mistake(Exception):
    """A mistake of the user: status 2."""


class Fault(Exception):
    """A source or the output fails, so the collection is cut short: status 4."""


class LeftOut(Exception):
    """One document has no text that can be had; its text says why."""


@dataclass(frozen=True)
class Document:
    """A document: its name as its source has it, its text, and the fields whose words are put behind the text."""

    name: str
    text: str
    fields: dict[str, str] = field(default_factory=dict)

    def line(self) -> str:
        """The text and the words of the fields, on one line."""
        return " ".join([*CONTROLS.sub(" ", self.text).split(), *field_words(self.fields)])


def field_words(fields: dict[str, str]) -> list[str]:
    """Each run and each word of a field as `field_word`, once. UAX #29 does not cut at `_`."""
    words: dict[str, None] = {}
    for name, value in fields.items():
        for run in CONTROLS.sub(" ", value).split():
            whole = re.sub(f"^[{MARKS}]+|[{MARKS}]+$", "", run)
            words.update((f"{name}_{word}", None) for word in (whole, *re.split(f"[{MARKS}]+", whole)) if word)
    return list(words)


class Report:
    """Counts what is left out, doubted or noted, and prints the counts at the end. With `verbose` each case is printed."""

    def __init__(self, verbose: bool = False) -> None:
        self.verbose = verbose
        self.counts: Counter[str] = Counter()
        self.incomplete = False

    def left_out(self, what: str, where: str) -> None:
        """A document, or a part that may be one, is not in the collection."""
        self.incomplete = True
        self._count(f"left out: {what}", where)

    def doubted(self, what: str, where: str) -> None:
        """A document's text may differ from what was meant."""
        self.incomplete = True
        self._count(f"doubtful: {what}", where)

    def noted(self, what: str, where: str) -> None:
        """Nothing is lost, and the reader may want to know."""
        self._count(f"noted: {what}", where)

    def _count(self, what: str, where: str) -> None:
        self.counts[what] += 1
        if self.verbose:
            tell(f"{what}: {where}")

    def end(self, documents: int) -> None:
        """Prints the counts, if there are any or if somebody looks on."""
        if self.counts or self.verbose or (sys.stderr is not None and sys.stderr.isatty()):
            tell(f"{documents} document{'s' * (documents != 1)}")
        for what, count in sorted(self.counts.items()):
            tell(f"{count} {what}")
        if self.counts and not self.verbose:
            tell("-v lists each")


def tell(line: str) -> None:
    """A line on the error output, if there is one, without control characters."""
    try:
        if sys.stderr is not None:
            print("ix-collect:", CONTROLS.sub(lambda found: f"\\x{ord(found[0]):02x}", line), file=sys.stderr)
    except OSError:
        pass
