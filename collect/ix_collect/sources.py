"""Files of sources as streams of bytes: plain, in .gz, in .zst, and each member of a .zip."""
from __future__ import annotations

import gzip
import os
import shutil
import stat
import subprocess
import zipfile
import zlib
from collections.abc import Callable, Iterator
from contextlib import AbstractContextManager, contextmanager
from dataclasses import dataclass
from fnmatch import fnmatch
from functools import partial
from io import BufferedIOBase
from typing import cast

from .document import Report
from .names import path_name
from .output import Identity, identity

# What reading a file or a member raises; RuntimeError is the password of a .zip, or a way of packing that is not known.
UNREADABLE = (OSError, EOFError, zlib.error, zipfile.BadZipFile, RuntimeError)
Opener = Callable[[], AbstractContextManager[BufferedIOBase]]
PACKED = (".gz", ".zst")


@dataclass(frozen=True)
class File:
    """A file that holds one or more documents: its path, also within a .zip, and how it is opened."""

    path: str
    # Whether the file at this path is the one that is meant, as it is.
    plain: bool
    open: Opener

    @property
    def name(self) -> str:
        """The path as the name of a document."""
        return path_name(self.path)

    @property
    def suffix(self) -> str:
        """What the name ends in, in lower case: `.html` also of `page.html.gz`."""
        root, suffix = os.path.splitext(self.path.lower())
        return os.path.splitext(root)[1] if suffix in PACKED else suffix


@contextmanager
def unpacked_zst(path: str) -> Iterator[BufferedIOBase]:
    """The bytes of a .zst by zstd(1). If it fails, that is an OSError once all was read."""
    if not shutil.which("zstd"):
        raise OSError("there is no zstd (Debian: zstd)")
    with open(path, "rb") as packed, subprocess.Popen(
        ["zstd", "-dcq"], stdin=packed, stdout=subprocess.PIPE, stderr=subprocess.DEVNULL
    ) as child:
        stream = cast(BufferedIOBase, child.stdout)
        yield stream
        if stream.read(1) == b"" and child.wait() != 0:
            raise OSError("zstd cannot unpack it to its end")


def opener(path: str) -> Opener:
    """How the plain bytes of the file at this path are had."""
    if path.lower().endswith(".gz"):
        return lambda: gzip.open(path)
    if path.lower().endswith(".zst"):
        return lambda: unpacked_zst(path)
    return lambda: open(path, "rb")


def files(path: str) -> Iterator[File]:
    """The file at this path, or the members of the .zip there in the order of their names."""
    if not path.lower().endswith(".zip"):
        yield File(path, not path.lower().endswith(PACKED), opener(path))
        return
    with zipfile.ZipFile(path) as archive:
        for member in sorted(archive.infolist(), key=lambda info: info.filename):
            if not member.is_dir():
                yield File(f"{path}/{member.filename}", False, cast(Opener, partial(archive.open, member)))


class Walk:
    """The files below folders, in the order of their names, numbers last. What is not taken is told."""

    def __init__(self, report: Report, own: set[Identity], match: str) -> None:
        self.report = report
        # The pattern of the names of files that are taken.
        self.match = match
        # The files of the output, which may lie in the folder.
        self.own = own

    def below(self, source: str) -> Iterator[File]:
        """The files of a folder or of a .zip, or the one file that the source is."""
        found = self._folder(source, os.path.realpath(source)) if os.path.isdir(source) else files(source)
        return (file for file in found if fnmatch(os.path.basename(file.path), self.match))

    def _folder(self, folder: str, top: str) -> Iterator[File]:
        try:
            names = sorted(os.listdir(folder), key=lambda name: (len(name) if name.isdecimal() else 0, os.fsencode(name)))
        except OSError as fault:
            self.report.left_out(f"folder that cannot be read: {fault.strerror}", path_name(folder))
            return
        for name in names:
            yield from self._entry(os.path.join(folder, name), top)

    def _entry(self, path: str, top: str) -> Iterator[File]:
        if not (fnmatch(os.path.basename(path), self.match) or path.lower().endswith(".zip") or os.path.isdir(path)):
            return
        try:
            status = os.lstat(path)
            if stat.S_ISLNK(status.st_mode):
                status = os.stat(path)
                if os.path.commonpath([top, os.path.realpath(path)]) != top:
                    self.report.left_out("symbolic link that leads out of the folder", path_name(path))
                    return
                if stat.S_ISDIR(status.st_mode):
                    # What it leads to is found by its own path.
                    return
            if identity(status) in self.own:
                return
            if stat.S_ISDIR(status.st_mode):
                yield from self._folder(path, top)
            elif stat.S_ISREG(status.st_mode):
                yield from files(path)
            else:
                self.report.left_out("no plain file", path_name(path))
        except (OSError, zipfile.BadZipFile) as fault:
            self.report.left_out(f"file that cannot be read: {reason(fault)}", path_name(path))


def reason(fault: BaseException) -> str:
    """What a fault says, without the path."""
    return fault.strerror if isinstance(fault, OSError) and fault.strerror else str(fault) or type(fault).__name__
