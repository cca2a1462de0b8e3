"""The command ix-collect."""
from __future__ import annotations

import argparse
import os
import signal
import sqlite3
import sys
import traceback
from collections.abc import Callable, Generator, Iterator
from contextlib import closing
from types import FrameType

from . import files, mail, tables
from .document import Document, Fault, Mistake, Report, tell
from .names import Names, path_of
from .output import Output, identity
from .sources import UNREADABLE, File, Walk, reason
from .sources import files as files_of
from .texts import LARGEST

HELP = """
kinds of sources, each also packed as .gz, .zst or .zip:
  folder    each file below it; its path is its name
  mbox      each mail; its Message-ID is its name
  maildir   each mail in the folders cur and new, also of its subfolders
  mh        each file whose name is a number, also of its subfolders
  csv       each row; the column --name is its name
  jsonl     each line, an object; the field --name is its name
  sqlite    each row of --query; the first column is its name

examples:
  ix-collect -o notes.tsv folder ~/notes
  ix-collect -o notes.tsv --match '*.md' folder ~/notes
  ix-collect -o mail.tsv mbox ~/mail/2025.mbox.gz ~/mail/2026.mbox
  ix-collect -o mail.tsv -v maildir ~/Maildir
  ix-collect -o orders.tsv csv orders.csv --name id
  ix-collect -o posts.tsv jsonl posts.jsonl --name id --text title body
  ix-collect -o items.tsv sqlite shop.db --query 'select id, title, text from items'
  ix-collect mbox archive.mbox | ix build - mail.ix
  ix search mail.ix 'from_anna* AND date_2026_03*'
  ix search notes.ix umbrella | ix-collect --path - | xargs -0 grep -i umbrella

status: 0 all was taken; 2 a mistake in the command line or in what it names; 3 something was left out or is doubtful, as
the last lines say; 4 a source or the output failed. After 2 and 4 FILE is as it was, and a collection on the standard
output has no line end at its end, so that ix rejects it.
"""


FOLDERS = ("folder", "maildir", "mh")
KINDS = (*FOLDERS, "mbox", "csv", "jsonl", "sqlite")
OPTIONS = {"folder": {"match"}, "csv": {"name", "text"}, "jsonl": {"name", "text"}, "sqlite": {"query"}}
SIGNALS = (signal.SIGINT, signal.SIGTERM, signal.SIGHUP)


class Signalled(BaseException):
    """A signal that ends the program."""

    def __init__(self, number: int) -> None:
        self.number = number


def parser() -> argparse.ArgumentParser:
    made = argparse.ArgumentParser(
        prog="ix-collect", description="Makes a collection for ix, one line `name TAB text` a document.", epilog=HELP,
        formatter_class=argparse.RawDescriptionHelpFormatter, allow_abbrev=False,
        usage="ix-collect [-o FILE] [-v] [options] KIND SOURCE..\n       ix-collect --path NAME",
    )
    made.add_argument("-o", "--output", metavar="FILE", help="replace FILE, once all is collected; else the standard output")
    made.add_argument("-v", "--verbose", action="store_true", help="tell each document that is left out, doubtful or renamed")
    made.add_argument("--match", metavar="PATTERN", help="folder: only files whose name matches, as '*.md'")
    made.add_argument("--name", metavar="FIELD", help="csv, jsonl: the field that is the document's name")
    made.add_argument("--text", metavar="FIELD", action="extend", nargs="+", default=[],
                      help="csv, jsonl: the fields that are its text; without it all but its name")
    made.add_argument("--query", metavar="SQL", help="sqlite: gives the name and the text of each document")
    made.add_argument("--path", metavar="NAME", help="print the path whose name this is, and end; with - those of the lines of "
                                                     "the standard input, with a NUL behind each")
    made.add_argument("kind", metavar="KIND", nargs="?", choices=KINDS, help=", ".join(KINDS))
    made.add_argument("sources", metavar="SOURCE", nargs="*", help="a file or a folder")
    return made


def check(words: argparse.Namespace, out: Output) -> None:
    """Whether the options go with the kind, and the sources are there and of their kind.

    Errors: `Mistake`.
    """
    given = {option for option in ("match", "name", "text", "query") if getattr(words, option)}
    for option in given - OPTIONS.get(words.kind, set()):
        raise Mistake(f"--{option} does not go with {words.kind}")
    for option in OPTIONS.get(words.kind, set()) & {"name", "query"} - given:
        raise Mistake(f"{words.kind} needs --{option}: see ix-collect --help")
    for source in words.sources:
        try:
            status = os.stat(source)
        except OSError as fault:
            raise Mistake(f"{source}: {fault.strerror}") from fault
        if identity(status) in out.own:
            raise Mistake(f"{source} is both read and written")
        if os.path.isdir(source) != (words.kind in FOLDERS) and not source.lower().endswith(".zip") and words.kind != "folder":
            raise Mistake(f"{source}: {words.kind} reads a {'folder' if words.kind in FOLDERS else 'file'}, and this is none")


def documents(words: argparse.Namespace, out: Output, report: Report) -> Generator[Document, None, None]:
    """The documents of all sources, in their order.

    Errors: `Mistake`, and `Fault` if a source cannot be read to its end.
    """
    for source in words.sources:
        count = 0
        try:
            for document in of_source(source, words, Walk(report, out.own, words.match or "*"), report):
                yield document
                count += 1
        except (*UNREADABLE, sqlite3.Error) as fault:
            raise Fault(f"{source}: {reason(fault)}") from fault
        if not count:
            report.doubted("source without a document", source)


def of_source(source: str, words: argparse.Namespace, walk: Walk, report: Report) -> Iterator[Document]:
    """The documents of a source."""
    if words.kind in FOLDERS:
        found = walk.below(source)
        if words.kind == "folder":
            return files.documents_of_files(found, report)
        return mail.mails_of_files(filter(mail.in_maildir if words.kind == "maildir" else mail.in_mh, found), report)
    readers: dict[str, Callable[[File], Iterator[Document]]] = {
        "mbox": lambda file: mail.mbox(file, report),
        "csv": lambda file: tables.csv_rows(file, report, words.name, words.text),
        "jsonl": lambda file: tables.json_lines(file, report, words.name, words.text),
        "sqlite": lambda file: tables.query_rows(file, report, words.query),
    }
    return (document for file in files_of(source) for document in readers[words.kind](file))


def collect(words: argparse.Namespace) -> int:
    """Writes the collection, and answers the status."""
    report = Report(words.verbose)
    signal.pthread_sigmask(signal.SIG_BLOCK, SIGNALS)
    for number in SIGNALS:
        if signal.getsignal(number) != signal.SIG_IGN:
            signal.signal(number, interrupted)
    out = Output(words.output)
    try:
        signal.pthread_sigmask(signal.SIG_UNBLOCK, SIGNALS)
        check(words, out)
        names = Names(report)
        with closing(documents(words, out, report)) as found:
            for document in found:
                name = names.take(document.name)
                out.write(name, encodable(document.line(), name, report))
        signal.pthread_sigmask(signal.SIG_BLOCK, SIGNALS)
        out.finish()
    except BaseException as fault:
        signal.pthread_sigmask(signal.SIG_BLOCK, SIGNALS)
        out.cut_short()
        return ended_by(fault)
    if out.size > LARGEST:
        report.noted("collection of more than 256 MiB, which ix reads in pieces", words.output or "standard output")
    report.end(out.documents)
    return 3 if report.incomplete else 0


def encodable(line: str, name: str, report: Report) -> str:
    """The line; halves of surrogate pairs, which JSON and some charsets give, become U+FFFD."""
    try:
        line.encode()
        return line
    except UnicodeEncodeError:
        report.doubted("half of a surrogate pair, which is no character", name)
        return line.encode("utf-16", "surrogatepass").decode("utf-16", "replace")


def interrupted(number: int, frame: FrameType | None) -> None:
    raise Signalled(number)


def ended_by(fault: BaseException) -> int:
    """Tells why the collection was cut short, and answers the status; a signal ends the program as it does others."""
    if isinstance(fault, Signalled):
        tell(f"cut short by {signal.Signals(fault.number).name}")
        signal.signal(fault.number, signal.SIG_DFL)
        signal.pthread_sigmask(signal.SIG_UNBLOCK, SIGNALS)
        os.kill(os.getpid(), fault.number)
    elif isinstance(fault, (Mistake, Fault)):
        tell(str(fault))
    else:
        tell(f"an error of its own: {fault!r} at {traceback.extract_tb(fault.__traceback__)[-1]}")
    return 2 if isinstance(fault, Mistake) else 4


def print_paths(name: str) -> int:
    """Prints the path of a name with a line end, or the paths of the names on the standard input, each with a NUL."""
    status = 0
    names, ending = ([os.fsencode(name)], b"\n") if name != "-" else (sys.stdin.buffer.read().splitlines(), b"\0")
    for each in names:
        path = path_of(each)
        if path is None:
            tell(f"shortened, so its path is not in it: {os.fsdecode(each)}")
            status = 2
        else:
            sys.stdout.buffer.write(path + ending)
    sys.stdout.flush()
    return status


def main(arguments: list[str]) -> int:
    """Runs the command on the words behind its name, and answers the status."""
    made = parser()
    try:
        words = made.parse_intermixed_args(arguments)
        if words.path is not None:
            return print_paths(words.path)
        if not words.sources:
            made.error("KIND and SOURCE are missing" if not words.kind else "no SOURCE; it stands before --text FIELD..")
        return collect(words)
    except SystemExit as ended:
        if ended.code:
            Output(None).cut_short()
        raise
    except Mistake as mistake:
        tell(str(mistake))
        return 2
