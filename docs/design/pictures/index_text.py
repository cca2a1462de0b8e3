"""An index text of version 2, read into its parts with the place of each, and drawn."""
from svg import COLOURS, GREY, INK, MONO, Drawing

SECTIONS = ("POSTINGS", "STOP", "DOCS", "DICTIONARY", "GRAMS")
INKS = {"x": COLOURS["blue"][1], "y": COLOURS["orange"][1]}


class Cursor:
    """Reads codes from the left, and keeps of each its offset, its bytes and what it says."""

    def __init__(self, text, at, end):
        self.text, self.at, self.end, self.marks = text, at, end, []

    def mark(self, begin, says):
        self.marks.append((begin, self.at - begin, says))

    def number(self, says):
        begin, value = self.at, 0
        while True:
            byte = self.text[self.at]
            self.at += 1
            value = value << 7 | byte & 127
            if byte & 128:
                self.mark(begin, says(value))
                return value

    def word(self, length):
        begin = self.at
        self.at += length
        word = self.text[begin:self.at].decode()
        self.mark(begin, word)
        return word


def sized(length):
    return f"{length} byte" if length == 1 else f"{length} bytes"


def read(text):
    """The sections, each with its offset, its size and its marks, and what they say of documents, terms and lists."""
    fields = [int.from_bytes(text[len(text) - 56 + 8 * i:][:8], "little") for i in range(5)]
    parts = {"text": text, "sections": {}, "documents": [], "terms": [], "lists": {}, "grams": []}
    at = 8
    for name, size in zip(SECTIONS, fields):
        parts["sections"][name] = (at, size)
        at += size
    at, size = parts["sections"]["DOCS"]
    parts["DOCS"] = docs = Cursor(text, at, at + size)
    while docs.at < docs.end:
        begin = docs.at
        name = docs.word(docs.number(sized))
        parts["documents"].append((begin, name, docs.number(lambda n: f"{n} tokens" if n != 1 else "1 token")))
    at, size = parts["sections"]["DICTIONARY"]
    parts["DICTIONARY"] = dictionary = Cursor(text, at, at + size)
    before = ""
    while dictionary.at < dictionary.end:
        begin, shared = dictionary.at, 0
        if len(parts["terms"]) % 4:
            shared = dictionary.number(lambda n: f"{n} shared")
        term = before[:shared] + dictionary.word(dictionary.number(sized))
        holders = dictionary.number(lambda n: f"in {n}")
        parts["terms"].append((begin, term, holders, dictionary.number(lambda n: f"list: {n}")))
        before = term
    parts["POSTINGS"] = postings = Cursor(text, 8, 8 + fields[0])
    for _, term, holders, length in parts["terms"]:
        begin, document, entries = postings.at, -1, []
        for _ in range(holders):
            at = postings.at
            document += postings.number(lambda gap, d=document: f"doc {d + gap}")
            position, positions = -1, []
            for _ in range(postings.number(lambda n: f"{n} pos.")):
                position += postings.number(lambda gap, p=position: f"at {p + gap}")
                positions.append(position)
            entries.append((at, document, positions))
        assert postings.at - begin == length
        parts["lists"][term] = (begin, length, entries)
    at, size = parts["sections"]["GRAMS"]
    parts["GRAMS"] = grams = Cursor(text, at, at + size)
    while grams.at < grams.end:
        begin = grams.at
        gram = grams.word(grams.number(sized))
        number = -1
        for _ in range(grams.number(lambda n: f"{n} term")):
            at = grams.at
            number += grams.number(lambda gap, n=number: f"no. {n + gap}")
            parts["grams"].append((begin, gram, at, number))
    return parts


CELL, HEIGHT, LEFT = 40, 26, 190


def row(drawing, parts, name, y, colours):
    """A section as a row of bytes, with what each says below it; gives the place of an offset in it."""
    begin, size = parts["sections"][name]
    drawing.text(24, y + 12, name, 13, INK, weight="bold")
    drawing.text(24, y + 28, f"{size} bytes from {begin}" if size else "no byte", 11, GREY)
    for offset, length, says in parts[name].marks:
        x = LEFT + (offset - begin) * CELL
        for place in range(length):
            drawing.box(x + place * CELL, y, CELL - 2, HEIGHT, colours(offset), f"{parts['text'][offset + place]:02x}")
        drawing.text(x + (length * CELL - 2) / 2, y + HEIGHT + 12, says, 9.5, GREY, "middle")
    return lambda offset: LEFT + (offset - begin) * CELL + (CELL - 2) / 2


def picture(parts):
    drawing = Drawing(1000, 730, "The index text of five documents, byte by byte, and what points where")
    drawing.text(24, 34, "The index of five documents, byte by byte", 18, weight="bold")
    drawing.text(24, 56, "a: x y  ·  b: y  ·  c: no word  ·  d: y x y  ·  e: x", 13, GREY, font=MONO)
    text = parts["text"]
    for place in range(8):
        drawing.box(LEFT + place * CELL, 76, CELL - 2, HEIGHT, "grey", f"{text[place]:02x}")
    drawing.text(24, 94, "what it is", 13, weight="bold")
    drawing.text(LEFT + 8 * CELL + 10, 94, text[:8].decode(), 13, GREY, font=MONO)

    first_y = parts["lists"]["y"][0]
    of_term = lambda offset: "blue" if offset < first_y else "orange"
    post = row(drawing, parts, "POSTINGS", 166, of_term)
    docs = row(drawing, parts, "DOCS", 320, lambda offset: "green")
    terms = {term: begin for begin, term, _, _ in parts["terms"]}
    words = row(drawing, parts, "DICTIONARY", 410, lambda offset: "blue" if offset < terms["y"] else "orange")
    grams = row(drawing, parts, "GRAMS", 500, lambda offset: "violet")
    drawing.text(24, 262, "STOP", 13, weight="bold")
    drawing.text(24, 278, "no byte: no stop words", 11, GREY)

    for term, (begin, length, entries) in parts["lists"].items():
        colour = INKS[term]
        left, right = post(begin) - CELL / 2 + 1, post(begin + length - 1) + CELL / 2 - 1
        drawing.bracket(left, right, 162, colour, f"the list of {term}")
        for at, document, _ in entries:
            drawing.curve(post(at), 166 + HEIGHT + 17, docs(parts["documents"][document][0]), 318, colour)
    for lane, (begin, term, _, length) in enumerate(parts["terms"]):
        last = begin + 3 + (1 if lane else 0)
        colour, x, lane_x = INKS[term], words(last), 972 - 14 * lane
        left = post(parts["lists"][term][0]) + parts["lists"][term][1] * CELL / 2 - CELL / 2
        top = 118 + 10 * lane
        drawing.line([(x, 410), (x, 398 - 8 * lane), (lane_x, 398 - 8 * lane), (lane_x, top), (left, top), (left, 136)], colour, True)
    for _, _, at, number in parts["grams"]:
        drawing.curve(grams(at), 500, words(parts["terms"][number][0]), 410 + HEIGHT + 17, COLOURS["violet"][1])
    trailer(drawing, parts, 590)
    return drawing.render()


def trailer(drawing, parts, y):
    """The last 56 bytes: eight a field, with what each says."""
    text = parts["text"]
    drawing.text(24, y + 12, "trailer", 13, weight="bold")
    drawing.text(24, y + 28, "56 bytes", 11, GREY)
    fields = [f"{name}: {parts['sections'][name][1]}" for name in SECTIONS]
    fields += [f"{len(parts['documents'])} documents, {len(parts['terms'])} terms", "what it was"]
    width, cell = 194, 23
    for place, says in enumerate(fields):
        x, top = LEFT + place % 4 * width, y + place // 4 * 56
        for byte in range(8):
            drawing.box(x + byte * cell, top, cell - 1, 22, "grey", f"{text[len(text) - 56 + 8 * place + byte]:02x}", 11)
        drawing.text(x + 4 * cell, top + 37, says if place < 6 else text[-8:].decode(), 11, GREY, "middle")
    drawing.text(24, 712, "A list has for each document its gap, how many positions, and their gaps; 80 is 0, 81 is 1, 82 is 2; gaps begin at −1.", 11.5, GREY)
