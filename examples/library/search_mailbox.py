#!/usr/bin/env python3
"""Indexes a mailbox, and searches it.

    search_mailbox.py build MBOX INDEX        an index of the mails of an mbox file
    search_mailbox.py search INDEX QUERY      the mails that satisfy the query: number and subject, a line each
"""

import mailbox
import sys
from email.header import decode_header, make_header
from email.message import Message
from pathlib import Path

sys.path.insert(0, str(Path(__file__).resolve().parents[2] / "python"))
import ix  # noqa: E402


def header(mail: Message, name: str) -> str:
    """A header of a mail, decoded, on one line."""
    return " ".join(str(make_header(decode_header(str(mail[name] or "")))).split())


def body(mail: Message) -> str:
    """The plain text of a mail."""
    parts = []
    for part in mail.walk():
        if part.get_content_type() == "text/plain":
            held = part.get_payload(decode=True) or b""
            parts.append(held.decode(part.get_content_charset() or "utf-8", "replace"))
    return "\n".join(parts)


def documents(path: str):
    """Each mail by its number and subject, with what is said in it."""
    for number, mail in enumerate(mailbox.mbox(path, create=False), start=1):
        subject = header(mail, "Subject")
        # A name has at most 255 bytes.
        name = f"{number} {subject}".replace("\t", " ").encode()[:255].decode(errors="ignore")
        yield name, f"{subject}\n{header(mail, 'From')}\n{header(mail, 'To')}\n{body(mail)}"


def main(words: list[str]) -> int:
    """0: found or built; 1: nothing found; 2: refused."""
    try:
        if len(words) == 3 and words[0] == "build":
            ix.build(documents(words[1]), words[2])
            return 0
        if len(words) == 3 and words[0] == "search":
            names = ix.open(words[1]).search(words[2])
            print("".join(f"{name}\n" for name in names), end="")
            return 0 if names else 1
    except (ix.Error, OSError) as error:
        print(error, file=sys.stderr)
        return 2
    print(__doc__, file=sys.stderr)
    return 2


if __name__ == "__main__":
    sys.exit(main(sys.argv[1:]))
