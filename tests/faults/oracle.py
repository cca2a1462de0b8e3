"""Reads index texts and run texts by docs/format alone. A refusal is the exception Refused, with the words that
`ix` prints."""
from writing import GREATEST, MOST, NAMES, Collection, grams_of


class Refused(Exception):
    """A text is refused, in the words of the refusal's name and fields."""


# ---- numbers as bytes

class Fault(Exception):
    """A number is faulty: Cut, LeadingZero or TooBig."""


def decode(data, at, end):
    """The number that is coded at a place, and the place behind it."""
    value, first = 0, True
    while True:
        if at >= end:
            raise Fault("Cut")
        byte = data[at]
        at += 1
        if first and byte == 0:
            raise Fault("LeadingZero")
        first = False
        value = value * 128 + (byte & 127)
        if value > GREATEST:
            raise Fault("TooBig")
        if byte & 128:
            return value, at


# ---- reading an index text

def is_utf8(text):
    try:
        text.decode()
        return True
    except UnicodeDecodeError:
        return False


class Section:
    """The bytes of a section, read from the left."""

    def __init__(self, data, at, end, name):
        self.data, self.at, self.end, self.name = data, at, end, name

    def number(self):
        try:
            value, self.at = decode(self.data, self.at, self.end)
            return value
        except Fault as fault:
            raise Refused(f"Number({self.name}, {fault})") from None

    def text(self, size):
        if self.end - self.at < size:
            raise Refused(f"Number({self.name}, Cut)")
        self.at += size
        return self.data[self.at - size:self.at]

    def more(self):
        return self.at < self.end


def open_index(data):
    """The version and the collection of an index text."""
    if len(data) < 64:
        raise Refused("Short")
    if data[:8] not in (b"PIIX0001", b"PIIX0002"):
        raise Refused("Magic")
    version = data[7] - 48
    if data[-8:] != b"PIIXEND%d" % version:
        raise Refused("Trailer")
    trailer = data[-56:]
    lengths = [int.from_bytes(trailer[8 * i:8 * i + 8], "little") for i in range(5)]
    documents, terms = (int.from_bytes(trailer[i:i + 4], "little") for i in (40, 44))
    if sum(lengths) != len(data) - 64:
        raise Refused("Lengths")
    if documents > MOST:
        raise Refused("TooLarge")
    sections, at = {}, 8
    for name, length in zip(NAMES, lengths):
        sections[name] = Section(data, at, at + length, name)
        at += length
    found = Collection()
    found.stop = read_stop(sections["STOP"])
    found.rows = read_rows(sections["DOCS"], documents)
    entries = read_dictionary(sections["DICTIONARY"], version, set(found.stop), terms, lengths[0])
    found.terms = read_postings(sections["POSTINGS"], entries, [c for _, c in found.rows])
    grams = sections["GRAMS"]
    if grams_of(found.terms) != data[grams.at:grams.end]:
        raise Refused("Grams")
    return version, found


def read_term(section, size):
    if not 1 <= size <= 255:
        raise Refused("TermSize")
    text = section.text(size)
    if not is_utf8(text):
        raise Refused("Text")
    return text


def read_stop(section):
    stop = []
    while section.more():
        term = read_term(section, section.number())
        if stop and term <= stop[-1]:
            raise Refused("StopOrder")
        stop.append(term)
        if len(stop) > MOST:
            raise Refused("TooLarge")
    return stop


def read_name(section):
    size = section.number()
    if not 1 <= size <= 255:
        raise Refused("Name")
    name = section.text(size)
    if not is_utf8(name):
        raise Refused("Text")
    if b"\t" in name or b"\n" in name:
        raise Refused("Name")
    return name


def read_rows(section, documents):
    rows, tokens = [], 0
    while section.more():
        name = read_name(section)
        count = section.number()
        tokens += count
        if tokens > MOST:
            raise Refused("TooLarge")
        rows.append((name, count))
    if len(rows) != documents:
        raise Refused("Counts")
    return rows


def read_entry_term(section, before, is_whole):
    if is_whole:
        return read_term(section, section.number())
    shared, rest = section.number(), section.number()
    if shared > len(before) or rest == 0:
        raise Refused("Front")
    if not section.more():
        raise Refused("Number(DICTIONARY, Cut)")
    if shared < len(before) and section.data[section.at] == before[shared]:
        raise Refused("Front")
    if not 1 <= shared + rest <= 255:
        raise Refused("TermSize")
    term = before[:shared] + section.text(rest)
    if not is_utf8(term):
        raise Refused("Text")
    return term


def read_dictionary(section, version, stop, terms, length):
    entries, before = [], None
    while section.more():
        term = read_entry_term(section, before, version == 1 or len(entries) % 4 == 0)
        if before is not None and term <= before:
            raise Refused("TermOrder")
        if term in stop:
            raise Refused("StopIndexed")
        count = section.number()
        if count == 0:
            raise Refused("Zero")
        entries.append((term, count, section.number()))
        before = term
    if len(entries) != terms:
        raise Refused("Counts")
    if sum(size for _, _, size in entries) != length:
        raise Refused("ListLength")
    return entries


def list_number(section):
    try:
        value, section.at = decode(section.data, section.at, section.end)
        return value
    except Fault as fault:
        raise Refused("ListLength" if str(fault) == "Cut" else f"Number(POSTINGS, {fault})") from None


def read_list(section, count, tokens):
    postings, document = [], -1
    for _ in range(count):
        gap = list_number(section)
        if gap == 0:
            raise Refused("Zero")
        document += gap
        if document >= len(tokens):
            raise Refused("DocRange")
        positions, position = [], -1
        size = list_number(section)
        if size == 0:
            raise Refused("Zero")
        for _ in range(size):
            gap = list_number(section)
            if gap == 0:
                raise Refused("Zero")
            position += gap
            if position >= tokens[document]:
                raise Refused("PositionRange")
            positions.append(position)
        postings.append((document, positions))
    if section.more():
        raise Refused("ListLength")
    return postings


def read_postings(section, entries, tokens):
    terms, taken, doubled, at = {}, set(), False, section.at
    for term, count, size in entries:
        terms[term] = read_list(Section(section.data, at, at + size, "POSTINGS"), count, tokens)
        at += size
        for document, positions in terms[term]:
            for position in positions:
                doubled |= (document, position) in taken
                taken.add((document, position))
    if doubled:
        raise Refused("Doubled")
    return terms


# ---- reading a run text

class Input:
    """The bytes of a run text, read from the left; within a list, up to its said length."""

    def __init__(self, data):
        self.data, self.at, self.left = data, 0, None

    def text(self, size):
        if len(self.data) - self.at < size:
            raise Refused("Number(Cut)")
        self.at += size
        return self.data[self.at - size:self.at]

    def number(self):
        end = len(self.data) if self.left is None else min(len(self.data), self.at + self.left)
        try:
            value, at = decode(self.data, self.at, end)
        except Fault as fault:
            if str(fault) == "Cut" and self.left is not None and self.at + self.left <= len(self.data):
                raise Refused("ListLength") from None
            raise Refused(f"Number({fault})") from None
        if self.left is not None:
            self.left -= at - self.at
        self.at = at
        return value


def read_head(source):
    """First number, stop set and rows: what opening a reader reads."""
    if source.data[:8] != b"PIIXRUN1":
        raise Refused("Magic")
    source.at = 8
    first, documents = (int.from_bytes(source.text(4), "little") for _ in range(2))
    if first + documents > MOST:
        raise Refused("TooLarge")
    count = source.number()
    if count > MOST:
        raise Refused("TooLarge")
    stop = []
    for _ in range(count):
        term = read_term(source, source.number())
        if stop and term <= stop[-1]:
            raise Refused("StopOrder")
        stop.append(term)
    rows, tokens = [], 0
    for _ in range(documents):
        name = read_name(source)
        count = source.number()
        tokens += count
        if tokens > MOST:
            raise Refused("TooLarge")
        rows.append((name, count))
    return first, stop, rows


def read_run_list(source, count, tokens, taken):
    source.left = source.number()
    postings, document = [], -1
    for _ in range(count):
        gap = source.number()
        if gap == 0:
            raise Refused("Zero")
        document += gap
        if document >= len(tokens):
            raise Refused("DocRange")
        size = source.number()
        if size == 0:
            raise Refused("Zero")
        positions, position = [], -1
        for _ in range(size):
            gap = source.number()
            if gap == 0:
                raise Refused("Zero")
            position += gap
            if position >= tokens[document]:
                raise Refused("PositionRange")
            if (document, position) in taken:
                raise Refused("Doubled")
            taken.add((document, position))
            positions.append(position)
        postings.append((document, positions))
    if source.left:
        raise Refused("ListLength")
    source.left = None
    return postings


def read_run(data):
    """The first number and the collection of a run text."""
    source = Input(data)
    first, stop, rows = read_head(source)
    return first, Collection(stop, rows, read_run_terms(source, stop, [c for _, c in rows]))


def read_run_terms(source, stop, tokens):
    terms, before, taken = {}, None, set()
    while size := source.number():
        if size > 255:
            raise Refused("TermSize")
        term = read_term(source, size)
        if before is not None and term <= before:
            raise Refused("TermOrder")
        if term in stop:
            raise Refused("StopIndexed")
        count = source.number()
        if count == 0:
            raise Refused("Zero")
        terms[term] = read_run_list(source, count, tokens, taken)
        before = term
    if source.at < len(source.data):
        raise Refused("Extra")
    return terms
