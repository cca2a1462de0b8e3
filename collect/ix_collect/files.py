"""Documents of files: each file of a folder by its path."""
from __future__ import annotations

from collections.abc import Iterable, Iterator

from .document import Document, LeftOut, Report
from .sources import UNREADABLE, File, reason
from .texts import LARGEST, PACKED_XML, is_binary, text_of

# So many bytes tell whether a file is binary, so that the rest of a large one is not read.
HEAD = 8192


def documents_of_files(files: Iterable[File], report: Report) -> Iterator[Document]:
    """Each of these files as a document. A file that has no text that can be had is told."""
    for file in files:
        try:
            text, doubt = text_of(content(file), file.suffix)
        except LeftOut as why:
            report.left_out(str(why), file.name)
        except UNREADABLE as fault:
            report.left_out(f"file that cannot be read: {reason(fault)}", file.name)
        else:
            if doubt:
                report.doubted(doubt, file.name)
            yield Document(file.path, text)


def content(file: File) -> bytes:
    """The bytes of a file that may have a text.

    Errors: `LeftOut` if it is binary or too large.
    """
    with file.open() as stream:
        data = stream.read(HEAD)
        if is_binary(data) and not data.startswith(b"%PDF-") and file.suffix not in PACKED_XML:
            raise LeftOut("binary file")
        data += stream.read(LARGEST + 1 - len(data))
    if len(data) > LARGEST:
        raise LeftOut("file of more than 256 MiB")
    return data
