"""Exact search in collections of named texts, by the proved engine of ``build/libix.so`` (``make lib``).

>>> import ix
>>> index = ix.build({"one": "A red fox.", "two": "The blue fox\\nand a hound."})
>>> index.search("fox AND NOT red")
['two']

A query has words, ``"phrases"``, ``AND``, ``OR``, ``NOT``, ``NEAR/n``, brackets, and patterns with stars. What the engine
refuses comes as an exception by what it is about, with the number of the error and the line that says it:

>>> index.search("red fox")
Traceback (most recent call last):
ix.QueryError: query 2: Unexpected(4)

An index is opened once and asked often, by one thread at a time; threads that ask side by side open one each, on the
same text (`Index(index.text)`). The engine runs without Python's lock.
"""

from __future__ import annotations

import builtins
import ctypes
import ctypes.util
import mmap
import os
import tempfile
import threading
import weakref
from collections.abc import Iterable, Iterator, Mapping
from pathlib import Path
from typing import NamedTuple, Union

Documents = Union[Mapping[str, str], Iterable[tuple[str, str]]]
"""Names and their texts: a mapping, or pairs, in which a name may come more than once."""


class Error(Exception):
    """The engine refused: ``number`` is the error's place in the list of its area, and ``line`` says it."""

    def __init__(self, line: str, number: int) -> None:
        super().__init__(line)
        self.line = line
        self.number = number


class CollectionError(Error):
    """The documents make no collection text: a name has not 1 to 255 bytes, or all are more than 256 MiB."""


class StopError(Error):
    """A stop word is not exactly one word, or too long."""


class QueryError(Error):
    """The text is no query."""


class PatternError(Error):
    """The text is no pattern of terms."""


class IndexTextError(Error):
    """The bytes are the index text of no collection."""


class RunError(Error):
    """The documents make no run: counted from their first number on, they are more than a run holds."""


class MergeError(Error):
    """The bytes are not the run texts of the parts of one collection, each part once, under the same stop words."""


class OutOfMemory(Error, MemoryError):
    """Memory ran out."""


# by the numbers of `include/ix.h`
_AREAS: dict[int, type[Error]] = {
    1: CollectionError,
    2: StopError,
    3: QueryError,
    4: PatternError,
    5: IndexTextError,
    6: RunError,
    7: MergeError,
    9: OutOfMemory,
}

_DONE = 0
_CLOSED = 3


class _Found(ctypes.Structure):
    _fields_ = [
        ("count", ctypes.c_size_t),
        ("size", ctypes.c_size_t),
        ("area", ctypes.c_uint32),
        ("number", ctypes.c_uint32),
    ]


class _Handle(ctypes.Structure):
    _fields_ = [("is_open", ctypes.c_bool), ("held", ctypes.c_void_p)]


def _load() -> ctypes.CDLL:
    """The library named by IX_LIBRARY, or the one that `make lib` made beside this file, or the installed one."""
    beside = Path(__file__).resolve().parent.parent / "build" / "libix.so"
    named = os.environ.get("IX_LIBRARY")
    path = named or (str(beside) if beside.exists() else ctypes.util.find_library("ix"))
    if path is None:
        raise ImportError(f"there is no {beside}: run `make lib`, or name the library in IX_LIBRARY")
    library = ctypes.CDLL(path)
    handle = [ctypes.POINTER(_Handle)]
    text = [ctypes.c_char_p, ctypes.c_size_t]
    for name, given in (
        ("ix_ask", text * 3),
        ("ix_build", text * 2),
        ("ix_run", [*text, *text, ctypes.c_uint32]),
        ("ix_merge", [*text, ctypes.POINTER(ctypes.c_size_t), ctypes.c_size_t]),
        ("ix_index_open", handle + text),
        ("ix_index_search", handle + text),
        ("ix_index_terms", handle + text),
        ("ix_index_names", handle),
        ("ix_search_trusting", [ctypes.c_void_p, ctypes.c_size_t, *text]),
    ):
        call = getattr(library, name)
        call.argtypes = [*given, *text, ctypes.POINTER(_Found)]
        call.restype = ctypes.c_uint32
    library.ix_index_close.argtypes = handle
    library.ix_index_close.restype = None
    return library


_LIBRARY = _load()


def _call(name: str, room: int, *given: object) -> tuple[bytes, int]:
    """The bytes that a call gives, and the count that it tells. A text of those given goes with its size.

    `room` is a guess of how many bytes there are.
    """
    sized = [part for one in given for part in ((one, len(one)) if isinstance(one, bytes) else (one,))]
    while True:
        out = ctypes.create_string_buffer(max(room, 1))
        found = _Found()
        status = getattr(_LIBRARY, name)(*sized, out, len(out), ctypes.byref(found))
        if found.size <= len(out):
            break
        room = found.size
    given = ctypes.string_at(out, found.size)
    if status == _DONE:
        return given, found.count
    if status == _CLOSED:
        raise ValueError("the index is closed")
    raise _AREAS.get(found.area, Error)(given.decode(), found.number)


def _lines(text: bytes) -> list[str]:
    """The lines of a text in which each ends with LF."""
    return text.decode().split("\n")[:-1]


def _collection(documents: Documents) -> bytes:
    """The collection text of documents. A line end in a text becomes a space, which parts words as it does."""
    pairs = documents.items() if isinstance(documents, Mapping) else documents
    lines = []
    for name, text in pairs:
        if "\t" in name or "\n" in name:
            raise ValueError(f"a name has a TAB or a line end: {name!r}")
        lines.append(f"{name}\t{text}\n" if "\n" not in text else f"{name}\t{text.translate(_SPACES)}\n")
    return "".join(lines).encode()


_SPACES = str.maketrans({"\n": " "})


def _stop(words: Iterable[str]) -> bytes:
    """The stop text of some words."""
    words = list(words)
    for word in words:
        if "\n" in word:
            raise ValueError(f"a stop word has a line end: {word!r}")
    return "".join(f"{word}\n" for word in words).encode()


class Term(NamedTuple):
    """A term of an index, and in how many documents it is."""

    term: str
    documents: int


class Index:
    """The index of a collection, opened once: its index text, and a handle that each question is put to.

    >>> Index(b"no index")
    Traceback (most recent call last):
    ix.IndexTextError: index 1: Short

    Questions of several threads wait for one another. What the handle holds is given back by `close`, at the end of a
    `with` statement, or when nothing refers to the index any more:

    >>> with build({"a": "fox"}) as index:
    ...     index.search("fox")
    ['a']
    >>> index.search("fox")
    Traceback (most recent call last):
    ValueError: the index is closed
    """

    def __init__(self, text: bytes) -> None:
        """Opens an index text; raises `IndexTextError` where it is none."""
        self._text = bytes(text)
        self._handle = _Handle()
        # The library's rule for a handle is one thread at a time.
        self._lock = threading.Lock()
        self._close = weakref.finalize(self, _LIBRARY.ix_index_close, self._handle)
        self._ask("ix_index_open", 1 << 8, self._text)

    def _ask(self, name: str, room: int, *texts: bytes) -> bytes:
        """The bytes that a call of the handle gives for these texts."""
        with self._lock:
            return _call(name, room, self._handle, *texts)[0]

    def close(self) -> None:
        """Closes the index. A closed one stays closed; its text can still be read and saved."""
        with self._lock:
            self._close()

    def __enter__(self) -> Index:
        return self

    def __exit__(self, *raised: object) -> None:
        self.close()

    def search(self, query: str) -> list[str]:
        """The names of exactly the documents that satisfy the query, in the order in which they were indexed.

        >>> build([("a", "x y"), ("b", "y"), ("c", "")]).search("NOT x")
        ['b', 'c']
        """
        return _lines(self._ask("ix_index_search", 1 << 16, query.encode()))

    def terms(self, pattern: str) -> Iterator[Term]:
        """Exactly the terms that match the pattern, in the order of their bytes, and in how many documents each is.

        >>> list(build({"a": "red rod", "b": "Red"}).terms("r*d"))
        [Term(term='red', documents=2), Term(term='rod', documents=1)]
        """
        for row in _lines(self._ask("ix_index_terms", 1 << 16, pattern.encode())):
            term, documents = row.rsplit("\t", 1)
            yield Term(term, int(documents))

    def names(self) -> list[str]:
        """The names of all documents, in the order in which they were indexed.

        >>> build([("b", "x"), ("a", ""), ("b", "y")]).names()
        ['b', 'a', 'b']
        """
        return _lines(self._ask("ix_index_names", 1 << 16))

    @staticmethod
    def ask_file(path: Union[str, os.PathLike[str]], query: str) -> list[str]:
        """The names of the documents of an index file that satisfy the query, without opening the index.

        Only what the query needs is read, so one question to a large file takes milliseconds. The names, the terms that are
        asked about and their lists are checked; a fault elsewhere may not be noticed. For a file that ix wrote and that is
        kept well.

        >>> with tempfile.TemporaryDirectory() as folder:
        ...     _ = build({"a": "fox", "b": "dog"}, f"{folder}/index")
        ...     Index.ask_file(f"{folder}/index", "fox OR wolf")
        ['a']
        """
        with builtins.open(path, "rb") as file:
            size = os.fstat(file.fileno()).st_size
            if size == 0:
                return Index(b"").search(query)
            # A private map can be handed over by its address, and is never written.
            with mmap.mmap(file.fileno(), size, flags=mmap.MAP_PRIVATE) as text:
                first = ctypes.c_char.from_buffer(text)
                try:
                    names, _ = _call("ix_search_trusting", 1 << 16, ctypes.addressof(first), size, query.encode())
                finally:
                    del first
        return _lines(names)

    def save(self, path: Union[str, os.PathLike[str]]) -> None:
        """Saves the index text under a path: whole, or not at all."""
        folder = os.path.dirname(os.path.abspath(path))
        handle, name = tempfile.mkstemp(dir=folder, prefix=".ix-")
        try:
            with os.fdopen(handle, "wb") as file:
                file.write(self._text)
            os.replace(name, path)
        except BaseException:
            os.unlink(name)
            raise

    @property
    def text(self) -> bytes:
        """The index text."""
        return self._text


def build(
    documents: Documents,
    path: Union[str, os.PathLike[str], None] = None,
    *,
    stop: Iterable[str] = (),
) -> Index:
    """The index of documents, which is saved under the path where one is given. Words of `stop` are left out.

    >>> index = build({"a": "a day to remember"}, stop=["to"])
    >>> index.search('"day to remember"')
    ['a']
    >>> index.search("to")
    Traceback (most recent call last):
    ix.QueryError: query 7: OnlyStopWords
    """
    collection = _collection(documents)
    text, _ = _call("ix_build", 2 * len(collection) + (1 << 12), collection, _stop(stop))
    index = Index(text)
    if path is not None:
        index.save(path)
    return index


def run(documents: Documents, first: int = 0, *, stop: Iterable[str] = ()) -> bytes:
    """The run text of a part of a collection, its documents counted from `first` on: what `merge` takes.

    `first` is how many documents stand before the part.
    """
    if not 0 <= first < 1 << 32:
        raise ValueError(f"no number of a document: {first}")
    collection = _collection(documents)
    text, _ = _call("ix_run", 2 * len(collection) + (1 << 12), collection, _stop(stop), first)
    return text


def merge(runs: Iterable[bytes]) -> Index:
    """The index of a collection from the run texts of its parts, each part once, in any order.

    >>> parts = run({"a": "fox"}), run({"b": "dog", "c": "fox"}, 1)
    >>> merge(reversed(parts)).search("fox")
    ['a', 'c']
    >>> merge(parts).text == build({"a": "fox", "b": "dog", "c": "fox"}).text
    True
    >>> merge(parts[1:])
    Traceback (most recent call last):
    ix.MergeError: merge 1: Gap(0)
    """
    runs = list(runs)
    sizes = (ctypes.c_size_t * max(len(runs), 1))(*map(len, runs))
    whole = b"".join(runs)
    text, _ = _call("ix_merge", 2 * len(whole) + (1 << 12), whole, sizes, len(runs))
    return Index(text)


def open(path: Union[str, os.PathLike[str]]) -> Index:  # pylint: disable=redefined-builtin
    """The index in a file, as `build` here or the program's `ix build` saved it.

    >>> with tempfile.TemporaryDirectory() as folder:
    ...     _ = build({"a": "fox"}, f"{folder}/index")
    ...     index = open(f"{folder}/index")
    >>> index.search("fox")
    ['a']
    """
    return Index(Path(path).read_bytes())


def ask(documents: Documents, query: str, *, stop: Iterable[str] = ()) -> list[str]:
    """The names of exactly the documents that satisfy the query, by a look at each: no index is built.

    >>> ask([("a", "x y"), ("b", "y z")], "y AND NOT x")
    ['b']
    """
    names, _ = _call("ix_ask", 1 << 16, _collection(documents), _stop(stop), query.encode())
    return _lines(names)
