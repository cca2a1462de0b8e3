"""Documents of tables: the rows of CSV and of SQLite queries, and lines of JSON."""
from __future__ import annotations

import codecs
import csv
import io
import json
import shutil
import sqlite3
import sys
import tempfile
from collections.abc import Iterable, Iterator, Sequence
from contextlib import closing
from pathlib import Path
from typing import cast

from .document import Document, Mistake, Report
from .names import digest_name
from .sources import File
from .texts import decode, is_binary, marked_charset


def row_document(name: str, texts: Iterable[str], where: str, report: Report) -> Document:
    """A row as a document. Without a name it is named by its content."""
    text = " ".join(texts)
    if not name:
        report.doubted("row without a name, named by its content", where)
    return Document(name or digest_name(text.encode("utf-8", "surrogatepass")), text)


def lines_of(stream: io.BufferedIOBase, name: str, report: Report) -> Iterator[str]:
    """The lines of a text, each with its line end: UTF-8, or what its mark says, or line by line Latin-1."""
    charset = marked_charset(cast(io.BufferedReader, stream).peek(4)[:4])
    if charset.startswith(("utf-16", "utf-32")):
        lines = io.TextIOWrapper(stream, charset, "replace", newline="")  # type: ignore[arg-type]
        for line in lines:
            if "\ufffd" in line:
                report.doubted(f"bytes that are not {charset.upper()}", name)
            yield line
        # The stream is closed by who opened it.
        lines.detach()
        return
    for number, data in enumerate(stream, start=1):
        text, doubt = decode(data.removeprefix(codecs.BOM_UTF8) if number == 1 else data)
        if doubt:
            report.doubted(doubt, f"{name}: line {number}")
        yield text


def rows_of(lines: Iterator[str], separator: str, name: str, report: Report) -> Iterator[tuple[int, list[str]]]:
    """The rows of CSV and the line where each ends. A row whose quotes are not those of CSV is read as far as that goes."""
    read: list[str] = []

    def fed() -> Iterator[str]:
        for line in lines:
            read.append(line)
            yield line

    rows = csv.reader(fed(), delimiter=separator, strict=True)
    while True:
        read.clear()
        try:
            row = next(rows, None)
        except csv.Error as fault:
            report.doubted(f"row that is not CSV, read as far as that goes: {fault}", f"{name}: line {rows.line_num}")
            row = next(csv.reader(["".join(read).replace("\n", " ").replace("\r", " ")], delimiter=separator))
        if row is None:
            return
        if row:
            yield rows.line_num, row


def column(header: Sequence[str], name: str, file: File) -> int:
    """The place of a column."""
    if name not in header:
        raise Mistake(f"{file.name}: no column {name}; there are: {', '.join(header)}")
    return header.index(name)


def csv_rows(file: File, report: Report, name: str, texts: Sequence[str]) -> Iterator[Document]:
    """Each row of a CSV file with a header: the column `name` is its name, the columns `texts`, or all others, its text."""
    csv.field_size_limit(sys.maxsize)
    with file.open() as stream:
        lines = lines_of(stream, file.name, report)
        first = next(lines, "")
        separator = max(",;\t|", key=first.count)
        rows = rows_of((line for part in ((first,), lines) for line in part), separator, file.name, report)
        header = next((row for _, row in rows), None)
        if not header:
            raise Mistake(f"{file.name}: no header of columns")
        named = column(header, name, file)
        taken = [column(header, text, file) for text in texts] or [place for place in range(len(header)) if place != named]
        for line, row in rows:
            where = f"{file.name}: line {line}"
            if len(row) != len(header):
                report.doubted(f"row with {'fewer' if len(row) < len(header) else 'more'} fields than the header", where)
            values = [row[place] for place in taken if place < len(row)] + row[len(header):]
            yield row_document(row[named] if named < len(row) else "", values, where, report)


def strings_in(value: object) -> Iterator[str]:
    """The strings and numbers in a value of JSON, in their order."""
    if isinstance(value, dict):
        value = list(value.values())
    if isinstance(value, list):
        for inner in value:
            yield from strings_in(inner)
    elif value is not None:
        yield value if isinstance(value, str) else json.dumps(value)


def object_of(pairs: list[tuple[str, object]]) -> dict[str, object]:
    """An object of JSON; a name that comes again has all of its values."""
    made: dict[str, object] = {}
    for name, value in pairs:
        made[name] = [made[name], value] if name in made else value
    return made


def json_lines(file: File, report: Report, name: str, texts: Sequence[str]) -> Iterator[Document]:
    """Each line of JSON, an object: the field `name` is its name, the fields `texts`, or all others, its text."""
    missing = set(texts)
    with file.open() as stream:
        for number, line in enumerate(lines_of(stream, file.name, report), start=1):
            where = f"{file.name}: line {number}"
            if not line.strip():
                continue
            try:
                row = json.loads(line, parse_int=str, parse_float=str, object_pairs_hook=object_of)
            except (ValueError, RecursionError):
                row = None
            if not isinstance(row, dict):
                report.left_out("line that is no object of JSON", where)
                continue
            fields = [text for text in texts or row if text in row and (texts or text != name)]
            missing -= set(fields)
            values = strings_in([row[field] for field in fields])
            yield row_document(" ".join(strings_in(row.get(name))), values, where, report)
    for text in sorted(missing):
        report.doubted("field that no line has", f"{file.name}: {text}")


def query_rows(file: File, report: Report, query: str) -> Iterator[Document]:
    """Each row that a query of an SQLite database gives: its first column is its name, the others its text."""
    with tempfile.NamedTemporaryFile() as copy:
        if not file.plain:
            with file.open() as stream:
                shutil.copyfileobj(stream, copy)
            copy.flush()
        path = Path(file.path if file.plain else copy.name).resolve()
        with closing(sqlite3.connect(f"{path.as_uri()}?mode=ro", uri=True)) as database:
            database.text_factory = bytes
            try:
                rows = database.execute(query)
            except (sqlite3.Error, sqlite3.Warning) as fault:
                raise Mistake(f"{file.name}: {fault}") from fault
            if not rows.description:
                raise Mistake(f"{file.name}: the query gives no rows")
            for number, row in enumerate(rows, start=1):
                where = f"{file.name}: row {number}"
                name, *texts = (value_text(value, where, report) for value in row)
                yield row_document(name, texts, where, report)


def value_text(value: object, where: str, report: Report) -> str:
    """The text of a value of SQLite; none of NULL."""
    if not isinstance(value, bytes):
        return "" if value is None else str(value)
    if is_binary(value):
        report.left_out("value of bytes that are no text", where)
        return ""
    text, doubt = decode(value, marked_charset(value) or "utf-8")
    if doubt:
        report.doubted(doubt, where)
    return text
