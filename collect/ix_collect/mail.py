"""Documents of mails: RFC 5322 and MIME by Python's email, each in an mbox or in a file of its own."""
from __future__ import annotations

import re
from collections.abc import Iterable, Iterator
from email import message_from_bytes
from email.errors import HeaderParseError
from email.header import decode_header
from email.headerregistry import HeaderRegistry
from email.message import Message
from email.policy import EmailPolicy
from email.utils import parsedate
from functools import lru_cache
from os.path import basename, dirname, splitext

from .document import Document, LeftOut, Mistake, Report
from .names import digest_name
from .sources import UNREADABLE, File, reason
from .texts import decode, html_text, text_of

HEADERS = ("subject", "from", "to", "cc", "date")
DAY, MONTH = "(?:Mon|Tue|Wed|Thu|Fri|Sat|Sun)", "(?:Jan|Feb|Mar|Apr|May|Jun|Jul|Aug|Sep|Oct|Nov|Dec)"
TIME = r"\d?\d:\d\d(?::\d\d)?"
# The line before each mail of an mbox: `From ADDRESS DATE`, the date as asctime(3) or RFC 5322 write it.
FROM_LINE = re.compile(
    rf"From (?:.*\s)?{DAY},?\s+(?:{MONTH}\s+\d?\d\s+{TIME}\s(?:.*\s)?\d{{4}}\b|\d?\d\s+{MONTH}\s+\d{{4}}\s+{TIME}\b)".encode()
)
ENCODED_WORD = re.compile(r"=\?[^?\s]+\?[bq]\?[^?]*\?=", re.IGNORECASE)


def _policy() -> EmailPolicy:
    """The modern policy, but for headers that are read as text: as addresses they would lose comments, which hold names."""
    headers, usual = HeaderRegistry(use_default_map=False), HeaderRegistry()
    for name in ("content-type", "content-disposition", "content-transfer-encoding"):
        headers.registry[name] = usual.registry[name]
    # A header is parsed anew each time it is asked for.
    return EmailPolicy(header_factory=lru_cache(256)(headers))


POLICY = _policy()


class Reader:
    """Reads one mail, and tells what is doubtful in it."""

    def __init__(self, data: bytes, where: str, report: Report) -> None:
        self.data = data
        self.where = where
        self.report = report
        self.attachments: list[str] = []
        self.doubts: set[str] = set()

    def document(self) -> Document:
        """The mail as a document; its raw text if it cannot be parsed."""
        try:
            mail = message_from_bytes(self.data, policy=POLICY)
            fields = {name: self.header(mail, name) for name in HEADERS}
            text = " ".join([*fields.values(), *self.texts(mail)])
            fields["date"] = self.date(fields["date"])
            fields["attachment"] = " ".join(self.attachments)
            return Document(self.name(mail), text, fields)
        except Exception as fault:  # noqa: BLE001 (whatever mails do to the parsers, none is lost)
            self.report.doubted("mail that cannot be parsed, its raw text kept", f"{self.where}: {fault!r}")
            return Document(digest_name(self.data), decode(self.data)[0])

    def doubt(self, doubt: str) -> None:
        """Tells a doubt, if it is one, once for a mail."""
        if doubt and doubt not in self.doubts:
            self.doubts.add(doubt)
            self.report.doubted(doubt, self.where)

    def name(self, mail: Message) -> str:
        """The Message-ID without its brackets, or a name from the mail's content."""
        raw = next((value for key, value in mail.raw_items() if key.lower() == "message-id"), "")
        found = re.search("<([^<>]+)>", unfolded := "".join(raw.split()))
        name = found[1] if found else unfolded
        if not name:
            self.report.noted("mail without an id, named by its content", self.where)
        return name or digest_name(self.data)

    def date(self, header: str) -> str:
        """The day of a mail as `2026_03_02`, where it was sent."""
        date = parsedate(header)
        if not date:
            self.report.noted("mail without a date that can be read", self.where)
        return "{:04}_{:02}_{:02}".format(*date) if date else ""

    def header(self, mail: Message, name: str) -> str:
        """The values of a header, decoded."""
        raw = " ".join(value for key, value in mail.raw_items() if key.lower() == name)
        if raw.isascii() and "=?" not in raw:
            return raw
        text = " ".join(str(value) for value in mail.get_all(name, []))
        if "\ufffd" not in text:
            return text
        return ENCODED_WORD.sub(self.encoded_word, self.decoded(raw))

    def decoded(self, raw: str) -> str:
        """A text whose bytes that are not ASCII are surrogates."""
        text, doubt = decode(raw.encode("utf-8", "surrogateescape"))
        self.doubt(doubt)
        return text

    def encoded_word(self, found: re.Match[str]) -> str:
        """An encoded word of RFC 2047 that Python's email cannot decode."""
        try:
            [(data, charset)] = decode_header(found[0])
        except HeaderParseError:
            self.doubt("encoded word of a header that cannot be decoded")
            return found[0]
        text, doubt = decode(data, charset or "utf-8")
        self.doubt(doubt)
        return text

    def texts(self, part: Message) -> Iterator[str]:
        """The texts of a part and of all parts within it, in their order."""
        if part.get_content_type() == "message/delivery-status":
            yield self.decoded(part.as_string())
        elif part.is_multipart():
            for inner in part.get_payload():
                if part.get_content_maintype() == "message":
                    yield from (self.header(inner, name) for name in HEADERS)
                yield from self.texts(inner)
            yield self.decoded(part.epilogue or "")
        else:
            yield from self.leaf(part)
        self.doubt("mail with faults in its form, read as far as that goes" if part.defects else "")

    def leaf(self, part: Message) -> Iterator[str]:
        """The text of a part, and its name if it is an attachment."""
        name = part.get_filename() or ""
        self.doubt("attachment with bytes in its name that are not UTF-8" if "\ufffd" in name else "")
        self.attachments.append(name)
        yield name
        content = part.get_payload(decode=True)
        data = content if isinstance(content, bytes) else b""
        charset = part.get_content_charset("")
        if part.get_content_type() == "text/html":
            text, doubt = html_text(data, charset)
        elif part.get_content_maintype() in ("text", "multipart"):
            text, doubt = decode(data, charset or "utf-8")
        else:
            text, doubt = self.attached(part, data, name)
        self.doubt(doubt)
        yield text

    def attached(self, part: Message, data: bytes, name: str) -> tuple[str, str]:
        """The text of an attachment, if it is of a kind that is read."""
        try:
            signature = part.get_content_subtype().endswith("signature")
            if part.get_content_maintype() not in ("image", "audio", "video", "font") and not signature:
                return text_of(data, splitext(name.lower())[1])
            self.report.noted("attachment known by its name alone", f"{self.where}: {name}")
        except LeftOut as why:
            self.report.noted("attachment known by its name alone", f"{self.where}: {name}: {why}")
        return "", ""


def mails_of_mbox(lines: Iterable[bytes], name: str, report: Report) -> Iterator[bytes]:
    """The mails of an mbox, a mail in memory at a time.

    A mail begins behind a line of the form `From ADDRESS DATE` that is the first or that comes after an empty line. Other
    lines that begin with `From ` are text, and doubtful. `>From `, by which writers of an mbox mark lines of text that begin
    with `From `, loses its first `>`.
    """
    mail: list[bytes] | None = None
    empty_before = True
    for line in lines:
        if line.startswith(b"From "):
            if mail is None or (empty_before and FROM_LINE.match(line)):
                if mail is not None:
                    yield b"".join(mail)
                mail, empty_before = [], False
                continue
            where = f"{name}: {line.decode('latin-1').strip()}"
            report.doubted("line that begins with `From ` and was read as text of a mail", where)
        if mail is None:
            if line.strip():
                raise Mistake(f"{name}: no mbox: it does not begin with `From `")
            continue
        mail.append(line[1:] if re.match(rb">+From ", line) else line)
        empty_before = not line.strip(b"\r\n")
    if mail is not None:
        yield b"".join(mail)


def mbox(file: File, report: Report) -> Iterator[Document]:
    """Each mail of an mbox."""
    with file.open() as stream:
        for number, data in enumerate(mails_of_mbox(stream, file.name, report), start=1):
            yield Reader(data, f"{file.name}: mail {number}", report).document()


def mails_of_files(files: Iterable[File], report: Report) -> Iterator[Document]:
    """Each of these files as a mail."""
    for file in files:
        try:
            with file.open() as stream:
                data = stream.read()
        except UNREADABLE as fault:
            report.left_out(f"file that cannot be read: {reason(fault)}", file.name)
            continue
        yield Reader(data, file.name, report).document()


def in_maildir(file: File) -> bool:
    """Whether this file of a Maildir, or of a folder in it, is a mail that was delivered."""
    return basename(dirname(file.path)) in ("cur", "new")


def in_mh(file: File) -> bool:
    """Whether this file of an MH folder is a mail: its name is a number."""
    return re.fullmatch("[1-9][0-9]*", basename(file.path)) is not None
