"""Writes a collection whole, or recognizably cut short."""
from __future__ import annotations

import os
import select
import stat
import tempfile
from io import FileIO

from .document import Fault, Mistake

Identity = tuple[int, int]
# So many bytes are collected before they are written.
BLOCK = 1 << 16


def identity(status: os.stat_result) -> Identity:
    """Which file of the system this is, whatever its path."""
    return status.st_dev, status.st_ino


class Output:
    """The lines of documents, written to a file that is replaced only at the end, or to the standard output.

    The line end of a document is written with the next document, or by `finish`. No other write ends in a line end, and in
    a pipe each is written whole or not at all. So a collection that is cut short does not end in a line end, and ix rejects
    it.
    """

    def __init__(self, path: str | None) -> None:
        self.path = os.path.realpath(path) if path else ""
        self.temporary = ""
        self.documents = 0
        self.size = 0
        self.waiting = bytearray()
        self.last = b""
        # The files that are written here: no source.
        self.own: set[Identity] = set()
        try:
            self.stream = self._create() if self.path else open(1, "wb", buffering=0, closefd=False)
            self.own.add(identity(os.fstat(self.stream.fileno())))
        except OSError as fault:
            raise Mistake(f"{self.path or 'standard output'}: {fault.strerror}") from fault

    def _create(self) -> FileIO:
        """A temporary file beside the path, with the permissions of the file that it will replace."""
        os.umask(mask := os.umask(0))
        mode = 0o666 & ~mask
        if os.path.exists(self.path):
            old = os.stat(self.path)
            if not stat.S_ISREG(old.st_mode):
                raise Mistake(f"{self.path}: no plain file; write to the standard output instead")
            self.own.add(identity(old))
            mode = stat.S_IMODE(old.st_mode)
        folder, name = os.path.split(self.path)
        handle, self.temporary = tempfile.mkstemp(prefix=f".{name[:50]}.", dir=folder)
        os.fchmod(handle, mode)
        return open(handle, "wb", buffering=0)

    def write(self, name: str, line: str) -> None:
        """Writes a document. A name has no TAB, and neither a name nor a text has a line end.

        Errors: `Fault`, as of `finish`.
        """
        data = f"{name}\t{line}".encode()
        self.waiting += b"\n" + data if self.documents else data
        self.documents += 1
        self.size += len(data) + 1
        if len(self.waiting) >= BLOCK:
            self._flush()

    def _flush(self) -> None:
        data, self.waiting = memoryview(self.waiting), bytearray()
        place = 0
        try:
            while place < len(data):
                piece = bytes(data[place:place + select.PIPE_BUF]).rstrip(b"\n") or b"\n"
                count = self.stream.write(piece)
                self.last = piece[count - 1:count]
                place += count
        except OSError as fault:
            raise Fault(f"{self.path or 'standard output'}: {fault.strerror}") from fault

    def finish(self) -> None:
        """Ends the last line, and puts the file in its place."""
        self._flush()
        self.waiting += b"\n" if self.documents else b""
        self._flush()
        if self.path:
            self._replace()

    def _replace(self) -> None:
        try:
            os.fsync(self.stream.fileno())
            self.stream.close()
            os.replace(self.temporary, self.path)
            self.temporary = ""
            folder = os.open(os.path.dirname(self.path), os.O_RDONLY)
            os.fsync(folder)
            os.close(folder)
        except OSError as fault:
            raise Fault(f"{self.path}: {fault.strerror}") from fault

    def cut_short(self) -> None:
        """Removes the temporary file. On the standard output there stays what ix rejects, if only a line without a tab."""
        if self.temporary:
            self.stream.close()
            os.unlink(self.temporary)
        if self.path or self.stream.isatty():
            return
        try:
            if self.last == b"\n":
                # A full disk took a part of a write.
                self.stream.truncate(self.stream.tell() - 1)
            elif not self.last:
                self.stream.write(b"cut short")
        except OSError:
            pass
