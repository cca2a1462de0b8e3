"""The text of a file or of an attachment: plain text, HTML, PDF, DOCX, ODT."""
from __future__ import annotations

import codecs
import re
import subprocess
import zipfile
from collections.abc import Iterator
from html.parser import HTMLParser
from io import BytesIO
from xml.etree import ElementTree

from .document import LeftOut
from .sources import UNREADABLE

# Encodings that hold another one and mostly are what is meant by its name (WHATWG Encoding Standard, 4.2).
WIDER = {"iso8859-1": "cp1252", "gb2312": "gb18030", "gbk": "gb18030", "euc_kr": "cp949", "shift_jis": "cp932"}
BYTE_ORDER_MARKS = (
    (codecs.BOM_UTF8, "utf-8-sig"), (codecs.BOM_UTF32_LE, "utf-32"), (codecs.BOM_UTF32_BE, "utf-32"),
    (codecs.BOM_UTF16_LE, "utf-16"), (codecs.BOM_UTF16_BE, "utf-16"),
)
# Bytes that no text has, as file(1) tells text from data.
NO_TEXT = re.compile(rb"[\x00-\x06\x0e-\x1a\x1c-\x1f\x7f]")
META = re.compile(rb"<meta[^>]{1,200}?charset\s*=\s*[\"']?([\w.:-]+)", re.IGNORECASE)
HTML = (".html", ".htm", ".xhtml")
# Of each format the members that hold text, and the elements in these that do.
PACKED_XML = {
    ".docx": (r"word/(document|footnotes|endnotes|comments|header\d*|footer\d*)\.xml", ("t",)),
    ".odt": (r"(content|styles)\.xml", ("p", "h")),
}
PARTING = ("p", "h", "tab", "br", "cr", "line-break", "s", "creator", "date")
# No collection holds a document of more bytes.
LARGEST = 1 << 28


def decode(data: bytes, charset: str = "utf-8") -> tuple[str, str]:
    """The text of these bytes, and what is doubtful about it: that they are not of this charset, or that it is unknown."""
    try:
        name = codecs.lookup(charset).name
        return data.decode(WIDER.get(name, name)), ""
    except LookupError:
        doubt = "unknown charset, read as UTF-8 or Latin-1"
    except ValueError:
        doubt = "bytes that are not UTF-8, read as Latin-1"
        if charset != "utf-8":
            doubt = "bytes that are not of the declared charset, read as UTF-8 or Latin-1"
        if charset.startswith(("utf-16", "utf-32")):
            return data.decode(charset, "replace"), doubt
    for guess in ("utf-8", "cp1252"):
        try:
            return data.decode(guess), doubt
        except UnicodeDecodeError:
            pass
    return data.decode("latin-1"), doubt


def marked_charset(data: bytes) -> str:
    """The encoding that a byte order mark tells, or nothing."""
    return next((charset for mark, charset in BYTE_ORDER_MARKS if data.startswith(mark)), "")


def is_binary(data: bytes) -> bool:
    """Whether the bytes, which may be the beginning of a file, are no text: no mark, and bytes that texts do not have."""
    if marked_charset(data):
        return False
    try:
        codecs.getincrementaldecoder("utf-8")().decode(data)
        return b"\0" in data
    except UnicodeDecodeError:
        return NO_TEXT.search(data) is not None


def text_of(data: bytes, suffix: str) -> tuple[str, str]:
    """The text of a file, and what is doubtful about it.

    Errors: `LeftOut` if the file is binary or cannot be read as what it is.
    """
    if data.startswith(b"%PDF-"):
        return pdf_text(data)
    if suffix in PACKED_XML:
        return packed_xml_text(data, suffix), ""
    if is_binary(data):
        raise LeftOut("binary file")
    if suffix in HTML or re.match(rb"\s*<(!doctype html|html)\b", data[:1024], re.IGNORECASE):
        return html_text(data)
    return decode(data, marked_charset(data) or "utf-8")


class _HtmlText(HTMLParser):
    """Collects what HTML shows. Tags part words, but for those that stand within words."""

    WITHIN = frozenset("a abbr b bdi bdo big cite code del dfn em font i ins kbd mark q s samp small span strike strong sub "
                       "tt u var wbr".split())

    def __init__(self) -> None:
        super().__init__(convert_charrefs=True)
        self.pieces: list[str] = []
        self.silent = ""

    def handle_starttag(self, tag: str, attrs: list[tuple[str, str | None]]) -> None:
        if tag in ("script", "style"):
            self.silent = tag
        if tag not in self.WITHIN:
            self.pieces.append(" ")
        self.pieces += [f" {value} " for key, value in attrs if key == "alt" and value]

    def handle_endtag(self, tag: str) -> None:
        if tag == self.silent:
            self.silent = ""
        if tag not in self.WITHIN:
            self.pieces.append(" ")

    def handle_data(self, data: str) -> None:
        if not self.silent:
            self.pieces.append(data)

    def parse_marked_section(self, i: int, report: int = 1) -> int:
        """`<![if ..]>` and the like are comments to HTML; the base class takes them for SGML."""
        return self.parse_bogus_comment(i)


def html_text(data: bytes, charset: str = "") -> tuple[str, str]:
    """What a page of HTML shows. The charset is the one handed in, or what a mark or the page itself tells."""
    charset = charset or marked_charset(data)
    if not charset:
        found = META.search(data[:4096])
        charset = found[1].decode() if found and not found[1].lower().startswith(b"utf-16") else "utf-8"
    text, doubt = decode(data, charset)
    parser = _HtmlText()
    parser.feed(text)
    parser.close()
    return "".join(parser.pieces), doubt


def pdf_text(data: bytes) -> tuple[str, str]:
    """The text of a PDF by pdftotext(1)."""
    try:
        done = subprocess.run(["pdftotext", "-q", "-enc", "UTF-8", "-", "-"], input=data, capture_output=True, timeout=600)
    except FileNotFoundError:
        raise LeftOut("PDF, and there is no pdftotext (Debian: poppler-utils)") from None
    except subprocess.TimeoutExpired:
        raise LeftOut("PDF, for which pdftotext takes more than ten minutes") from None
    text = done.stdout.decode("utf-8", "replace")
    if done.returncode != 0 and not text.strip():
        raise LeftOut("PDF that pdftotext cannot read")
    return text, "PDF that is damaged" if done.returncode else "" if text.strip() else "PDF without text"


def packed_xml_text(data: bytes, suffix: str) -> str:
    """The text of DOCX (ECMA-376) or ODT (OASIS OpenDocument): of the document, its notes, headers and footers."""
    kind = suffix[1:].upper()
    members, carriers = PACKED_XML[suffix]
    try:
        with zipfile.ZipFile(BytesIO(data)) as archive:
            found = [info for info in archive.infolist() if re.fullmatch(members, info.filename)]
            if sum(info.file_size for info in found) > LARGEST:
                raise LeftOut(f"{kind} of more than 256 MiB")
            roots = [ElementTree.fromstring(archive.read(info)) for info in found]
            texts = ["".join(xml_pieces(root, carriers)) for root in roots]
    except (*UNREADABLE, ElementTree.ParseError) as fault:
        raise LeftOut(f"{kind} that cannot be read") from fault
    if not texts:
        raise LeftOut(f"{kind} that holds no document")
    return " ".join(texts)


def xml_pieces(element: ElementTree.Element, carriers: tuple[str, ...], carried: bool = False) -> Iterator[str]:
    """The text within the elements of these names, without what tracked changes deleted."""
    tag = element.tag.rpartition("}")[2]
    if tag in ("tracked-changes", "Fallback"):
        return
    carried = carried or tag in carriers
    ending = " " if tag in PARTING else ""
    yield ending
    if carried and element.text:
        yield element.text
    for child in element:
        yield from xml_pieces(child, carriers, carried)
        if carried and child.tail:
            yield child.tail
    yield ending
