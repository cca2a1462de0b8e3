#!/usr/bin/python3
"""Runs ix-collect whole, as a process, on mails, files and tables that it makes, and compares what it prints, writes and answers.

usage: check_collect.py [IX]        default: build/ix beside this folder; without it the collections are read here alone

What is expected was counted or written by what made the sources. All files are made in a folder of the system's own choice,
which is gone at the end. Status 0: all is as expected.
"""
from __future__ import annotations

import gzip
import os
import resource
import shutil
import signal
import sqlite3
import subprocess
import sys
import tempfile
import time
import zipfile
from collections.abc import Iterable
from email.message import EmailMessage
from pathlib import Path

TOP = Path(__file__).resolve().parent.parent
COLLECT = TOP / "collect/ix-collect"
IX = Path(sys.argv[1] if len(sys.argv) > 1 else TOP / "build/ix").resolve()
FROM_LINE = b"From anna@example.org Mon Mar  2 08:00:00 2026\n"
failed = 0


def check(name: str, ok: bool, told: object = "") -> None:
    global failed
    failed += not ok
    print(f"ok: {name}" if ok else f"FAILED: {name}: {told}", file=sys.stdout if ok else sys.stderr, flush=True)


def run(*words: str | bytes | Path, **how: object) -> subprocess.CompletedProcess[bytes]:
    environment = {**os.environ, "PYTHONDONTWRITEBYTECODE": "1"}
    return subprocess.run([COLLECT, *words], capture_output=True, timeout=300, env=environment, **how)  # type: ignore


class Collected:
    """What a run printed: documents by the rules of docs/format/texts.md, which are read here by code of its own."""

    def __init__(self, done: subprocess.CompletedProcess[bytes], data: bytes | None = None) -> None:
        self.status = done.returncode
        self.said = done.stderr.decode()
        self.data = done.stdout if data is None else data
        self.texts: dict[str, str] = {}
        self.lawful = self.data == b"" or self.data.endswith(b"\n")
        for line in self.data.decode().split("\n")[:-1]:
            name, tab, text = line.partition("\t")
            self.lawful &= bool(tab) and 1 <= len(name.encode()) <= 255 and name not in self.texts and name.isprintable()
            self.texts[name] = text

    def holding(self, words: str) -> list[str]:
        """The names of the documents that hold these words, one behind the other, as they stand."""
        return [name for name, text in self.texts.items() if f" {words} " in f" {text} "]


def collected(*words: str | bytes | Path) -> Collected:
    return Collected(run(*words))


def asked(data: bytes, query: str) -> list[str] | None:
    """What ix answers, if it is there."""
    if not IX.is_file():
        return None
    done = subprocess.run([IX, "ask", "-", "--", query], input=data, capture_output=True)
    return done.stdout.decode().splitlines() if done.returncode < 2 else [done.stderr.decode()]


def finds(name: str, made: Collected, words: str, query: str, expected: Iterable[str]) -> None:
    """The documents that hold the words are the expected ones, and ix finds them by the query."""
    check(name, sorted(made.holding(words)) == sorted(expected), (made.holding(words), expected, made.said))
    answer = asked(made.data, query)
    if answer is not None:
        check(f"{name}: ix finds them", sorted(answer) == sorted(expected), answer)


# Mails.

def plain(number: int, kind: str, text: str, charset: str = "utf-8", encoding: str | None = None) -> EmailMessage:
    mail = EmailMessage()
    mail["From"] = "Anna König <anna@lawfirm.example>" if number % 3 == 0 else "boris@example.org (Boris Ritter)"
    mail["To"] = "Team Köln <team@köln.example>".replace("köln.", "koeln.")
    mail["Cc"] = "dora@example.org"
    mail["Date"] = f"Mon, {1 + number % 28:02} Mar 2026 08:00:00 +0100"
    mail["Message-ID"] = f"<{number}.{kind}@example.org>"
    mail["Subject"] = f"合同 Königstraße {kind}" if number % 2 else f"Rent for {kind}"
    mail.set_content(text, charset=charset, cte=encoding)
    return mail


def html_alone(number: int) -> EmailMessage:
    mail = plain(number, "html", "x")
    mail.set_content("<html><head><title>offer</title><style>.hidden{}</style><script>var hidden=1</script></head>"
                     "<body><p>html<b>only</b></p><p>caf&eacute; s&#233;curit&#xe9;<br>next&nbsp;line</body></html>", subtype="html")
    return mail


def alternative(number: int) -> EmailMessage:
    mail = plain(number, "both", "plainpart\n")
    mail.add_alternative("<p>markedpart</p>", subtype="html")
    return mail


def attached(number: int) -> EmailMessage:
    mail = plain(number, "attached", "see attachment\n")
    mail.add_attachment(b"\x89PNG\r\n\0\0", maintype="image", subtype="png", filename="plan zürich.png")
    mail.add_attachment("insidenote\n", filename="note.txt")
    return mail


def forwarded(number: int) -> EmailMessage:
    inner = plain(number, "inner", "innerbody\n")
    inner.replace_header("Subject", "innersubject über alles")
    mail = plain(number, "forward", "outerbody\n")
    mail.add_attachment(inner)
    return mail


def mails() -> dict[str, EmailMessage]:
    """Mails of every kind, by their ids."""
    made: dict[str, EmailMessage] = {}
    for number in range(0, 96, 8):
        for mail in (
            plain(number, "utf8", "Grüße naïve\n", encoding="8bit"), plain(number + 1, "latin", "Grüße\n", "iso-8859-1", "quoted-printable"),
            plain(number + 2, "base64", "Grüße 契約\n", encoding="base64"), html_alone(number + 3), alternative(number + 4),
            attached(number + 5), forwarded(number + 6), plain(number + 7, "body", "one\n\nFrom the start, no new mail\n>From here\n"),
        ):
            made[str(mail["Message-ID"])[1:-1]] = mail
    return made


def write_mails(made: dict[str, EmailMessage]) -> None:
    """The mails as an mbox, written by hand as mboxrd, a Maildir and an MH folder, and packed."""
    for folder in ("Maildir/cur", "Maildir/new", "Maildir/tmp", "Maildir/.Old/cur", "mh/inbox"):
        os.makedirs(folder)
    with open("all.mbox", "wb") as box:
        for number, mail in enumerate(made.values(), start=1):
            data = mail.as_bytes()
            place = ("Maildir/cur", "Maildir/new", "Maildir/.Old/cur")[number % 3]
            Path(f"{place}/{1000 + number}.host:2,S").write_bytes(data)
            Path(f"mh/inbox/{number}").write_bytes(data)
            lines = [b">" + line if line.lstrip(b">").startswith(b"From ") else line for line in data.splitlines(keepends=True)]
            box.write(FROM_LINE + b"".join(lines) + b"\n")
    Path("Maildir/tmp/1").write_bytes(b"half a ma")
    Path("mh/inbox/.mh_sequences").write_text("cur: 1\n")
    data = Path("all.mbox").read_bytes()
    with gzip.open("all.mbox.gz", "wb") as packed:
        packed.write(data)
    subprocess.run(["zstd", "-q", "all.mbox", "-o", "all.mbox.zst"], check=True)
    with zipfile.ZipFile("all.zip", "w") as archive:
        archive.write("all.mbox")
    with zipfile.ZipFile("Maildir.zip", "w") as archive:
        for path in sorted(Path("Maildir").rglob("*")):
            archive.write(path)


def check_mails() -> None:
    made = mails()
    write_mails(made)
    box = collected("mbox", "all.mbox")
    check("mbox: every mail, by its id", box.lawful and list(box.texts) == list(made), (box.said, sorted(set(made) ^ set(box.texts))[:5]))
    check("mbox: nothing doubtful", box.status == 0 and "doubtful" not in box.said and "left out" not in box.said, (box.status, box.said))

    def of(*kinds: str) -> list[str]:
        return [name for name in made if name.split("@")[0].split(".")[1] in kinds]

    def numbered(test: object) -> list[str]:
        return [name for name in made if test(int(name.split(".")[0]))]  # type: ignore[operator]

    finds("HTML alone", box, "htmlonly", "htmlonly", of("html"))
    finds("HTML: entities", box, "café sécurité next line", '"café sécurité next line"', of("html"))
    finds("HTML: script and style are no text", box, "var", "var", [])
    finds("both alternatives", box, "markedpart", "plainpart AND markedpart", of("both"))
    finds("Latin-1 and UTF-8, quoted-printable, 8bit and base64", box, "Grüße", "grüsse", of("utf8", "latin", "base64"))
    finds("encoded subject", box, "合同 Königstraße", '"合同 KÖNIGSTRASSE"', numbered(lambda n: n % 2))
    finds("sender", box, "Anna König <anna@lawfirm.example>", "anna AND könig", numbered(lambda n: n % 3 == 0))
    finds("a name in a comment", box, "(Boris Ritter)", "ritter", numbered(lambda n: n % 3))
    finds("recipient", box, "Köln <team@koeln.example>", "köln", made)
    finds("name of an attachment", box, "plan zürich.png", "zürich.png", of("attached"))
    finds("text of an attachment", box, "insidenote", "insidenote", of("attached"))
    finds("subject of a forwarded mail", box, "innersubject über alles", "innersubject", of("forward"))
    finds("text of a forwarded mail", box, "innerbody", "innerbody AND outerbody", of("forward"))
    finds("From in a body", box, "From the start, no new mail >From here", '"From the start, no new mail From here"', of("body"))
    finds("word of a sender", box, "from_anna", "from_anna*", numbered(lambda n: n % 3 == 0))
    finds("word of a domain", box, "from_lawfirm", "from_lawfirm", numbered(lambda n: n % 3 == 0))
    finds("word of an address", box, "from_anna@lawfirm.example", "from_anna@lawfirm.example", numbered(lambda n: n % 3 == 0))
    finds("word of a subject", box, "subject_Rent", "subject_rent", numbered(lambda n: n % 2 == 0))
    finds("word of a date", box, "date_2026_03_02", "date_2026_03_02", numbered(lambda n: n % 28 == 1))
    finds("word of an attachment", box, "attachment_zürich.png", "attachment_zürich*", of("attached"))
    answer = asked(box.data, "from_anna* AND date_2026_03* AND subject_rent")
    check("fields together", answer is None or answer == numbered(lambda n: n % 6 == 0), answer)
    for kind, source in (("mbox", "all.mbox.gz"), ("mbox", "all.mbox.zst"), ("mbox", "all.zip")):
        check(f"{source}: the same collection", collected(kind, source).data == box.data)
    same = {name: text for name, text in box.texts.items()}
    for kind, source in (("maildir", "Maildir"), ("maildir", "Maildir.zip"), ("mh", "mh")):
        other = collected(kind, source)
        check(f"{source}: the same documents", other.lawful and other.texts == same and other.status == 0,
              (other.said, len(other.texts), len(same)))


def check_notmuch() -> None:
    """Counts of words for which notmuch has the same rules."""
    if not shutil.which("notmuch"):
        print("skipped: counts by notmuch, which is not installed")
        return
    Path("notmuch").write_text(f"[database]\npath={os.getcwd()}/Maildir\n[user]\nname=n\nprimary_email=n@example.org\n")
    environment = {**os.environ, "NOTMUCH_CONFIG": "notmuch", "HOME": os.getcwd()}
    subprocess.run(["notmuch", "new", "--quiet"], env=environment, check=True, stderr=subprocess.DEVNULL)
    box = collected("maildir", "Maildir")
    # It parts words at tags and leaves entities as they are.
    for query, words in (("offer", "offer"), ("markedpart", "markedpart"), ("Grüße", "Grüße"), ("innerbody", "innerbody"),
                         ("from:anna", "from_Anna"), ("from:lawfirm", "from_lawfirm"), ("subject:Königstraße", "subject_Königstraße"),
                         ("subject:rent", "subject_Rent"), ("to:köln", "to_Köln"), ("date:2026-03-02", "date_2026_03_02"), ("attachment:zürich", "attachment_zürich")):
        counted = subprocess.run(["notmuch", "count", query], env=environment, capture_output=True).stdout
        check(f"notmuch counts as many for {query}", int(counted) == len(box.holding(words)) > 0, (counted, len(box.holding(words))))


def box_of(*mails: bytes) -> bytes:
    return b"".join(FROM_LINE + mail + b"\n" for mail in mails)


def check_odd_mails() -> None:
    Path("odd.mbox").write_bytes(box_of(
        b"Message-ID: <odd1@x>\nSubject: one\nDate: Mon, 2 Mar 2026 08:00:00 +0000\n\nfirst\n",
        b"Message-ID: <odd2@x>\nSubject: =?unknown-8bit?q?caf=E9?= =?utf-8?q?_two?=\nDate: Mon, 2 Mar 2026 08:00:00 +0000\n"
        b"Content-Type: text/plain; charset=unknown-8bit\nContent-Transfer-Encoding: 8bit\n\nM\xfcller\n",
        b"Message-ID: <odd3@x>\nSubject: three\nDate: Mon, 2 Mar 2026 08:00:00 +0000\n\nthird\n",
    ))
    odd = collected("-v", "mbox", "odd.mbox")
    check("unknown charset: every mail, status 3", odd.lawful and list(odd.texts) == ["odd1@x", "odd2@x", "odd3@x"] and odd.status == 3, odd.said)
    check("unknown charset: read as Latin-1", "café two" in odd.texts["odd2@x"] and "Müller" in odd.texts["odd2@x"], odd.texts)
    check("unknown charset: told, with its place", "doubtful: unknown charset" in odd.said and "odd.mbox: mail 2" in odd.said, odd.said)

    Path("ids.mbox").write_bytes(box_of(
        b"Message-ID:\n <folded@x\n .example>\n\na\n", b"Message-ID: <same@x>\n\nfirst\n", b"Message-ID: <same@x>\n\nsecond\n",
        b"Subject: none\n\nno id\n", b"Message-ID: <" + b"l" * 300 + b"@x>\n\nlong\n", b"Message-ID: <\x1b]0;owned\x07tab\there@x>\n\nescapes\n",
        b"Message-ID: <same@x>\n\nthird\n", "Message-ID: <".encode() + "ü".encode() * 200 + b"@x>\n\nlong too\n",
    ))
    ids = collected("mbox", "ids.mbox")
    names = list(ids.texts)
    check("ids: each document has a name of its own", ids.lawful and len(names) == 8, names)
    check("ids: folded", names[0] == "folded@x.example", names[0])
    check("ids: doubles are numbered and counted", names[1:3] + [names[6]] == ["same@x", "same@x#2", "same@x#3"] and
          "2 noted: name that an earlier document has" in ids.said, (names, ids.said))
    check("ids: none", names[3].startswith("sha256-") and "1 noted: mail without an id" in ids.said, ids.said)
    check("ids: long ones are cut at a character and counted", len(names[4].encode()) == 255 and len(names[7].encode()) in (254, 255) and
          "2 noted: name of more than 255 bytes" in ids.said, (names[4], names[7]))
    check("ids: control characters are escaped", names[5] == "%1B]0;owned%07tabhere@x", names[5])
    check("ids: the same names the next time", collected("mbox", "ids.mbox").data == ids.data)
    again = b"Subject: none\n\nno id\n"
    Path("other.mbox").write_bytes(box_of(b"Message-ID: <first@x>\n\n", again))
    check("ids: a name from the content is that of the mail, wherever it is", list(collected("mbox", "other.mbox").texts)[1] == names[3])

    body = b"Message-ID: <body@x>\n\nbefore\n\nFrom Anna with love\nFrom anna@x Mon Mar  2 08:00:00 2026\nafter\n"
    Path("from.mbox").write_bytes(b"From  Mon Mar  2 08:00:00 2026\n" + body + b"\n" + b"From anna at x  Tue, 3 Mar 2026 08:00:00 +0100\n"
                                  b"Message-ID: <next@x>\n\nx\n\nFrom - Tue Mar 03 08:00:00 CET 2026\nMessage-ID: <last@x>\n\ny\n")
    lines = collected("mbox", "from.mbox")
    check("From in bodies: only lines of that form behind an empty line begin a mail", list(lines.texts) == ["body@x", "next@x", "last@x"], lines.texts)
    check("From in bodies: the lines are kept and counted", "From Anna with love From anna@x Mon Mar 2 08:00:00 2026 after" in lines.texts["body@x"]
          and "2 doubtful: line that begins with `From `" in lines.said and lines.status == 3, (lines.texts, lines.said))
    Path("crlf.mbox").write_bytes(Path("from.mbox").read_bytes().replace(b"\n", b"\r\n"))
    check("mbox with CR LF", collected("mbox", "crlf.mbox").texts == lines.texts)
    Path("no.mbox").write_bytes(b"Subject: a mail\n\nx\n")
    refused = run("mbox", "no.mbox")
    check("no mbox: status 2", refused.returncode == 2 and not refused.stdout.endswith(b"\n"), refused)

    Path("bad.mbox").write_bytes(box_of(
        b"Message-ID: <b64@x>\nContent-Transfer-Encoding: base64\n\nR3LDvMOfZQ=====!\n",
        b"Message-ID: <cut@x>\nContent-Type: multipart/mixed; boundary=b\n\npreamble\nkeptwords\n",
        b"Message-ID: <kind@x>\nContent-Type: ;;;=\n\nstillthere\n", b"Message-ID: <raw@x>\nSubject: caf\xe9 raw\nFrom: k\xc3\xb6ln\n\nx\n",
        b"Message-ID: <deep@x>\n" + b"".join(b"Content-Type: multipart/mixed; boundary=b%d\n\n--b%d\n" % (n, n) for n in range(400)) + b"\ndeepword\n",
    ))
    bad = collected("mbox", "bad.mbox")
    check("bad mails: every one is kept", bad.lawful and len(bad.texts) == 5 and bad.status == 3, (list(bad.texts), bad.said))
    for word in ("Grüße", "keptwords", "stillthere", "café raw", "köln", "deepword"):
        check(f"bad mails: {word}", len(bad.holding(word)) == 1, (bad.texts, bad.said))


# Files.

ODT = """<office:document-content xmlns:office="o" xmlns:text="t"><office:body><text:tracked-changes><text:p>deleted</text:p>
</text:tracked-changes><text:h>heading</text:h><text:p>odt<text:span>word</text:span><text:tab/>behind<text:line-break/>it</text:p>
</office:body></office:document-content>"""
DOCX = """<w:document xmlns:w="w"><w:body><w:p><w:r><w:t>docx</w:t></w:r><w:hyperlink><w:r><w:t>word</w:t></w:r></w:hyperlink></w:p>
<w:p><w:r><w:instrText>PAGEREF</w:instrText><w:delText>deleted</w:delText><w:t>next</w:t></w:r></w:p></w:body></w:document>"""


def pdf(text: str) -> bytes:
    """A PDF of one page, written by hand."""
    stream = f"BT /F1 12 Tf 72 700 Td ({text}) Tj ET".encode()
    objects = (
        b"<</Type/Catalog/Pages 2 0 R>>", b"<</Type/Pages/Kids[3 0 R]/Count 1>>",
        b"<</Type/Page/Parent 2 0 R/MediaBox[0 0 612 792]/Contents 4 0 R/Resources<</Font<</F1 5 0 R>>>>>>",
        b"<</Length %d>>stream\n%b\nendstream" % (len(stream), stream), b"<</Type/Font/Subtype/Type1/BaseFont/Helvetica>>",
    )
    data, places = b"%PDF-1.4\n", []
    for number, content in enumerate(objects, start=1):
        places.append(len(data))
        data += b"%d 0 obj%b endobj\n" % (number, content)
    table = b"".join(b"%010d 00000 n \n" % place for place in places)
    return data + b"xref\n0 6\n0000000000 65535 f \n" + table + b"trailer<</Root 1 0 R/Size 6>>\nstartxref\n%d\n%%%%EOF\n" % len(data)


def packed_xml(path: str, member: str, content: str) -> None:
    with zipfile.ZipFile(path, "w") as archive:
        archive.writestr(member, content)


def write_files() -> dict[bytes, str]:
    """A folder of files of each kind; which words each of them has, by its path."""
    os.makedirs("docs/sub")
    os.makedirs("outside")
    Path("outside/secret.txt").write_text("secret\n")
    expected = {
        b"docs/plain.txt": ("Grüße\nplain", "utf-8"), b"docs/mark.txt": ("Mark Grüße", "utf-8-sig"), b"docs/utf16.txt": ("sixteen Grüße", "utf-16"),
        b"docs/latin.txt": ("Müller “quoted”", "cp1252"), b"docs/two  spaces.txt": ("spaces", "utf-8"), b"docs/tab\there.txt": ("tabs", "utf-8"),
        b"docs/line\nend\r.txt": ("lineends", "utf-8"), b"docs/byte\xe9.txt": ("bytes", "utf-8"), b"docs/100%25.txt": ("percents", "utf-8"),
        b"docs/esc\x1b[0m\xc2\x9b.txt": ("controls", "utf-8"), b"docs/empty.txt": ("", "utf-8"), b"docs/sub/" + b"n" * 250 + b".md": ("longname", "utf-8"),
        b"docs/page.html": ("<html><p>caf&eacute;</p><p>t<i>ag</i>s</p><script>p()</script>", "utf-8"),
    }
    for path, (text, charset) in expected.items():
        Path(os.fsdecode(path)).write_bytes(text.encode(charset))
    words = {path: " ".join(text.split()) for path, (text, _) in expected.items()}
    words[b"docs/page.html"] = "café tags"
    Path("docs/data.bin").write_bytes(bytes(range(256)) * 10)
    Path("docs/data.gif").write_bytes(b"GIF89a\x01\xfe\xff\xf1")
    with gzip.open("docs/packed.txt.gz", "wb") as packed:
        packed.write("packed Grüße".encode())
    words[b"docs/packed.txt.gz"] = "packed Grüße"
    packed_xml("docs/letter.docx", "word/document.xml", DOCX)
    packed_xml("docs/letter.odt", "content.xml", ODT)
    packed_xml("docs/bundle.zip", "inner/a.txt", "bundled")
    words |= {b"docs/letter.docx": "docxword next", b"docs/letter.odt": "heading odtword behind it", b"docs/bundle.zip/inner/a.txt": "bundled"}
    Path("docs/broken.docx").write_bytes(b"PK no zip")
    Path("docs/scan.pdf").write_bytes(pdf("pdf words"))
    if shutil.which("pdftotext"):
        words[b"docs/scan.pdf"] = "pdf words"
    Path("docs/cut.txt.gz").write_bytes(gzip.compress(b"cut" * 1000)[:-20])
    os.symlink("plain.txt", "docs/inside.link")
    words[b"docs/inside.link"] = "Grüße plain"
    os.symlink("../outside/secret.txt", "docs/outside.link")
    os.symlink("..", "docs/loop")
    os.symlink("nowhere", "docs/broken.link")
    os.mkfifo("docs/pipe")
    return words


def check_files() -> None:
    words = write_files()
    made = collected("-v", "folder", "docs")
    names = {name: run("--path", name).stdout[:-1] for name in made.texts if len(name.encode()) < 255}
    texts = {path: made.texts[name] for name, path in names.items()}
    long = next(path for path in words if len(path) > 255)
    expected = {path: text for path, text in words.items() if path != long}
    check("folder: lawful, status 3", made.lawful and made.status == 3, made.said)
    check("folder: the texts, by paths that --path undoes", texts == expected, {path: (texts.get(path), expected.get(path))
          for path in texts.keys() | expected.keys() if texts.get(path) != expected.get(path)})
    check("folder: all but zipped names open again", all(os.path.exists(path) for path in names.values() if b".zip/" not in path))
    check("folder: a long name is cut and told", "longname" in made.texts.values() and "noted: name of more than 255 bytes" in made.said, made.said)
    for told in ("doubtful: bytes that are not UTF-8, read as Latin-1: docs/latin.txt", "left out: binary file: docs/data.bin",
                 "left out: binary file: docs/data.gif", "left out: DOCX that cannot be read: docs/broken.docx", "docs/cut.txt.gz",
                 "left out: symbolic link that leads out of the folder: docs/outside.link",
                 "left out: symbolic link that leads out of the folder: docs/loop",
                 "left out: file that cannot be read: No such file or directory: docs/broken.link", "left out: no plain file: docs/pipe"):
        check(f"folder: told: {told}", told in made.said, made.said)
    check("folder: nothing of outside", "secret" not in made.texts.values())
    counts = collected("folder", "docs").said
    check("folder: counts", "2 left out: binary file" in counts and "2 left out: symbolic link" in counts and
          f"{len(made.texts)} documents" in counts, counts)
    paths = run("--path", "-", input="".join(f"{name}\n" for name in names).encode()).stdout
    check("--path -: all paths, each with a NUL", paths.split(b"\0")[:-1] == list(names.values()), paths)
    check("--match", list(collected("--match", "*.odt", "folder", "docs").texts) == ["docs/letter.odt"])
    without = {**os.environ, "PATH": "/nonexistent"}
    done = subprocess.run([sys.executable, "-B", COLLECT, "folder", "docs/scan.pdf"], capture_output=True, env=without)
    check("PDF without pdftotext: told, status 3", done.returncode == 3 and b"pdftotext" in done.stderr, done)
    unreadable()


def unreadable() -> None:
    """A file and a folder that may not be read; as root by giving up what root may."""
    os.makedirs("closed/shut")
    Path("closed/a.txt").write_text("open\n")
    Path("closed/b.txt").write_text("shut\n")
    Path("closed/b.txt").chmod(0)
    Path("closed/shut/c.txt").write_text("shut too\n")
    Path("closed/shut").chmod(0)
    overrides = "-dac_override,-dac_read_search"
    aside = ["setpriv", f"--bounding-set={overrides}", f"--inh-caps={overrides}"] if os.geteuid() == 0 else []
    if os.geteuid() == 0 and not shutil.which("setpriv"):
        print("skipped: files that may not be read, since this is root and there is no setpriv")
        return
    done = Collected(subprocess.run([*aside, sys.executable, "-B", COLLECT, "-v", "folder", "closed"], capture_output=True))
    check("no permission: the others are there, status 3", done.texts == {"closed/a.txt": "open"} and done.status == 3, (done.texts, done.said))
    check("no permission: told", "Permission denied: closed/b.txt" in done.said and "Permission denied: closed/shut" in done.said, done.said)
    Path("closed/shut").chmod(0o700)


# Tables.

def check_tables() -> None:
    long = "x" * 200_000
    Path("t.csv").write_bytes(b'\xef\xbb\xbfid,what,note\n1,"a ""chair"", oak",old\n2,z\n3,p,q,r\n4,"two\nlines",' + long.encode() +
                              b"\n1,double,x\n,nameless,x\n\n5,M\xfcller,x\n6,bad\"quote,x\n7,\"open,x\n8,swallowed,x\n")
    made = collected("-v", "csv", "--name", "id", "t.csv")
    texts = list(made.texts.items())
    check("csv: rows by name", [name for name, _ in texts[:5]] == ["1", "2", "3", "4", "1#2"] and made.lawful and made.status == 3, made.said)
    check("csv: quotes, short and long rows, line ends, long fields", [text for _, text in texts[:5]] ==
          ['a "chair", oak old', "z", "p q r", f"two lines {long}", "double x"], [text[:50] for _, text in texts])
    check("csv: Latin-1 and bad quotes are kept", made.texts["5"] == "Müller x" and "swallowed" in made.texts["7"], made.texts)
    for told in ("row with fewer fields than the header: t.csv: line 3", "row with more fields than the header: t.csv: line 4",
                 "row without a name", "read as Latin-1: t.csv", "row that is not CSV"):
        check(f"csv: told: {told}", told in made.said, made.said)
    Path("semi.csv").write_text("id;what;note\na;one, two;three\n", encoding="utf-16")
    check("csv: UTF-16, semicolons, --text", collected("csv", "semi.csv", "--name", "id", "--text", "note").texts == {"a": "three"})
    for path in ("t.csv", "semi.csv"):
        with gzip.open(f"{path}.gz", "wb") as packed:
            packed.write(Path(path).read_bytes())
        with zipfile.ZipFile(f"{path}.zip", "w") as archive:
            archive.write(path)
        subprocess.run(["zstd", "-q", path], check=True)
        for suffix in (".gz", ".zst", ".zip"):
            packed_too = collected("csv", path + suffix, "--name", "id")
            check(f"{path}{suffix}: the same rows", packed_too.texts == collected("csv", path, "--name", "id").texts != {}, packed_too.said)
    refused = run("csv", "--name", "nosuch", "t.csv")
    check("csv: no such column: status 2, and the columns", refused.returncode == 2 and b"id, what, note" in refused.stderr, refused)

    Path("t.jsonl").write_bytes(b'{"id": 1, "t": "one \\u00fc", "n": [1.10, {"x": null, "y": true}], "t": "again"}\n{"id": "b", "t": "\\ud800half"}\n'
                                b'not json\n[1]\n\n{"t": "nameless"}\n' + b"[" * 100_000 + b'\n{"id": "e", "t": "emoji \\ud83d\\ude00"}\n')
    made = collected("-v", "jsonl", "t.jsonl", "--name", "id")
    check("jsonl: lines", list(made.texts)[:2] == ["1", "b"] and made.texts["1"] == "one ü again 1.10 true" and made.texts["b"] == "\ufffdhalf" and
          made.texts["e"] == "emoji 😀" and made.lawful and made.status == 3 and len(made.texts) == 4, (made.texts, made.said))
    check("jsonl: bad lines are told", all(f"line that is no object of JSON: t.jsonl: line {line}" in made.said for line in (3, 4, 7)), made.said)
    made = collected("jsonl", "t.jsonl", "--name", "id", "--text", "n")
    check("jsonl: a line without the fields of the text", made.texts["1"] == "1.10 true" and made.texts["b"] == "", made.texts)
    made = collected("jsonl", "t.jsonl", "--name", "id", "--text", "t", "nosuch")
    check("jsonl: --text", made.texts["1"] == "one ü again" and made.texts["b"] == "\ufffdhalf" and "field that no line has" in made.said, made.said)

    with sqlite3.connect("shop.db") as shop:
        shop.execute("create table items (id, title, text)")
        shop.executemany("insert into items values (?, ?, ?)", [(1, "chair", None), ("two", 2.5, b"\x89PNG\0"), (None, "nameless", "x")])
        shop.execute("insert into items values ('l', cast(x'4dfc6c6c6572' as text), 'y')")
    shop.close()
    before = Path("shop.db").read_bytes()
    with gzip.open("shop.db.gz", "wb") as packed:
        packed.write(before)
    for source in ("shop.db", "shop.db.gz"):
        made = collected("sqlite", source, "--query", "select id, title, text from items")
        check(f"{source}: rows", list(made.texts.values()) == ["chair", "2.5", "nameless x", "Müller y"] and
              list(made.texts)[:2] == ["1", "two"] and made.status == 3 and "1 left out: value of bytes" in made.said, (made.texts, made.said))
    check("sqlite: two statements: status 2", run("sqlite", "shop.db", "--query", "select 1; select 2").returncode == 2)
    refused = run("sqlite", "shop.db", "--query", "delete from items")
    check("sqlite: opened read-only", refused.returncode == 2 and Path("shop.db").read_bytes() == before, refused)


# Cut short.

def check_cut_short() -> None:
    """Whatever ends a run, FILE stays as it was, no other file stays, and ix rejects what is on the standard output."""
    os.makedirs("cut")
    old = b"old\tcollection\n"
    many = box_of(*(b"Message-ID: <%d@x>\n\nword\n" % number for number in range(9000)))
    Path("cut/good.mbox").write_bytes(many)
    Path("cut/bad.mbox.gz").write_bytes(gzip.compress(many)[:-9])
    done = run("mbox", "cut/good.mbox", "cut/bad.mbox.gz")
    check("fault, standard output: status 4, no line end", done.returncode == 4 and not done.stdout.endswith(b"\n") and len(done.stdout) > 1000, done.stderr)
    answer = asked(done.stdout, "word")
    check("fault, standard output: ix rejects it", answer is None or "NoLineEnd" in answer[0], answer)
    Path("cut/out.tsv").write_bytes(old)
    Path("cut/out.tsv").chmod(0o640)
    files = sorted(os.listdir("cut"))
    for words, status in ((("cut/good.mbox", "cut/bad.mbox.gz"), 4), (("cut/nosuch",), 2), (("cut/out.tsv",), 2)):
        done = run("-o", "cut/out.tsv", "mbox", *words)
        check(f"fault, -o: {words[-1]}: status {status}, FILE as it was", done.returncode == status and Path("cut/out.tsv").read_bytes() == old and
              sorted(os.listdir("cut")) == files, (done, os.listdir("cut")))
    for words in (("folder", "nosuch"), ("foldr", "cut")):
        done = run(*words)
        check(f"mistake, standard output: {words}: status 2, no lawful collection", done.returncode == 2 and done.stdout not in (b"",) and
              not done.stdout.endswith(b"\n"), done)
    with open("/dev/full", "wb") as full:
        done = subprocess.run([sys.executable, "-B", COLLECT, "mbox", "cut/good.mbox"], stdout=full, stderr=subprocess.PIPE)
    check("full device: status 4", done.returncode == 4 and b"No space" in done.stderr, done)
    packed = subprocess.run(["zstd", "-qc", "cut/good.mbox"], capture_output=True, check=True).stdout
    Path("cut.zst").write_bytes(packed[:-20])
    check("a .zst that was cut: status 4", run("mbox", "cut.zst").returncode == 4)
    closed = ["/bin/sh", "-c", '"$@" 2>&-', "sh", sys.executable, "-B", COLLECT, "-v", "-o", "closed.tsv", "mbox", "cut/good.mbox"]
    status = subprocess.run(closed).returncode  # type: ignore[arg-type]
    check("no error output: none of it in FILE", Collected(subprocess.CompletedProcess([], status, b"", b""), Path("closed.tsv").read_bytes()).lawful and status == 0)
    full_disk(Path("cut/good.mbox"))
    for name in ("SIGINT", "SIGTERM", "SIGHUP"):
        signalled(name, many, old, files)
    done = run("-o", "cut/out.tsv", "mbox", "cut/good.mbox")
    made = Collected(done, Path("cut/out.tsv").read_bytes())
    check("-o: replaced at the end, with the permissions it had", made.lawful and len(made.texts) == 9000 and done.stdout == b"" and done.returncode == 0 and
          Path("cut/out.tsv").stat().st_mode & 0o777 == 0o640 and sorted(os.listdir("cut")) == files, (made.said, len(made.texts)))
    os.symlink("out.tsv", "cut/link")
    run("-o", "cut/link", "folder", "docs/plain.txt")
    check("-o: a symbolic link stays one", os.path.islink("cut/link") and Path("cut/out.tsv").read_text() == "docs/plain.txt\tGrüße plain\n")
    check("-o: a device is refused", run("-o", "/dev/null", "mbox", "cut/good.mbox").returncode == 2 and Path("/dev/null").is_char_device())
    done = run("-o", "docs/own.tsv", "folder", "docs/sub", "docs")
    check("-o: in the folder that is read: not read", b"own.tsv" not in Path("docs/own.tsv").read_bytes() and done.returncode == 3, done)


def full_disk(source: Path) -> None:
    """A file of the standard output that may not grow at a line end, or behind or before it."""
    whole = run("mbox", source).stdout
    end = whole.index(b"\n", 3000) + 1
    for size in (end - 1, end, end + 1):
        with open("small", "wb") as small:
            done = subprocess.run([sys.executable, "-B", COLLECT, "mbox", source], stdout=small, stderr=subprocess.PIPE,
                                  preexec_fn=lambda: resource.setrlimit(resource.RLIMIT_FSIZE, (size, size)))
        data = Path("small").read_bytes()
        check(f"a disk that is full at byte {size}: status 4, no line end", done.returncode == 4 and whole.startswith(data) and
              len(data) >= end - 1 and not data.endswith(b"\n"), (done, data[-20:]))


def signalled(name: str, many: bytes, old: bytes, files: list[str]) -> None:
    """A run that waits for the rest of its source gets a signal."""
    outputs: tuple[list[str], ...] = ([], ["-o", "cut/out.tsv"])
    for output in outputs:
        with open("printed", "w+b") as printed:
            words: list[str | Path] = [sys.executable, "-B", COLLECT, *output, "mbox", "/dev/stdin"]
            child = subprocess.Popen(words, stdin=subprocess.PIPE, stdout=printed, stderr=subprocess.PIPE)
            assert child.stdin and child.stderr
            child.stdin.write(many)
            child.stdin.flush()
            while child.poll() is None and not (os.path.getsize("printed") or len(os.listdir("cut")) > len(files)):
                time.sleep(0.01)
            child.send_signal(getattr(signal, name))
            said = child.stderr.read()
            status = child.wait()
            child.stdin.close()
        data = Path("printed").read_bytes()
        told = (status, said, data[-50:], os.listdir("cut"))
        check(f"{name}, {output or 'standard output'}: ended by it, and told", status == -getattr(signal, name) and name.encode() in said, told)
        if output:
            check(f"{name}, -o: FILE as it was, nothing beside it", Path("cut/out.tsv").read_bytes() == old and sorted(os.listdir("cut")) == files, told)
        else:
            check(f"{name}, standard output: no line end", len(data) > 1000 and not data.endswith(b"\n"), told)


def main() -> int:
    if not IX.is_file():
        print(f"there is no {IX}, so ix is not asked")
    here = os.getcwd()
    with tempfile.TemporaryDirectory() as folder:
        os.chdir(folder)
        try:
            for part in (check_mails, check_notmuch, check_odd_mails, check_files, check_tables, check_cut_short):
                part()
        finally:
            os.chdir(here)
    print(f"{failed} failed" if failed else "all as expected")
    return 1 if failed else 0


if __name__ == "__main__":
    sys.exit(main())
