"""A phrase of two words on its way through dictionary, lists and positions."""
from svg import COLOURS, GREY, INK, MONO, Drawing

INKS = ("blue", "orange")


def picture(parts, question, found):
    """The lists of the two words, the documents that both have, and the positions that are side by side there."""
    one, two = question.strip('"').split()
    names = [name for _, name, _ in parts["documents"]]
    lists = {term: {document: positions for _, document, positions in parts["lists"][term][2]} for term in (one, two)}
    both = [document for document in lists[one] if document in lists[two]]
    pairs = {document: [p for p in lists[one][document] if p + 1 in lists[two][document]] for document in both}
    assert [names[document] for document in both if pairs[document]] == found

    drawing = Drawing(1000, 600, f"How the question {question} is answered from an index")
    drawing.text(24, 34, f"How the question {question} is answered", 18, weight="bold")
    column = {document: 392 + 118 * document for document in range(len(names))}
    headings = [("1", "words to terms"), ("2", "dictionary"), ("3", "lists: documents"), ("4", "in both"), ("5", "positions"), ("6", "names")]
    rows = dict(zip("123456", (88, 150, 238, 338, 420, 540)))
    for number, says in headings:
        drawing.text(24, rows[number] + 5, number, 15, GREY, weight="bold")
        drawing.text(46, rows[number] + 5, says, 13, INK)

    for place, term in enumerate((one, two)):
        colour, x = INKS[place], 190 + 78 * place
        ink = COLOURS[colour][1]
        drawing.box(x, rows["1"] - 14, 64, 28, colour, term)
        drawing.line([(x + 32, rows["1"] + 14), (x + 32, rows["2"] - 16)], ink, True)
        holders = len(lists[term])
        drawing.box(x, rows["2"] - 14, 64, 28, colour, f"{term}: {holders}")
        y = rows["3"] - 22 + 40 * place
        drawing.line([(x + 32, rows["2"] + 14), (x + 32, y + 8), (column[0] - 62, y + 8)], ink, True)
        for document in lists[term]:
            drawing.box(column[document] - 50, y - 8, 100, 32, colour, f"doc {document}: {', '.join(map(str, lists[term][document]))}", 12)
    drawing.text(345, rows["2"] + 5, "the term, and how many documents have it; its list begins where those of the terms before end", 11, GREY)
    drawing.text(345, rows["1"] + 5, "the same words, case folding and normal form as in the documents", 11, GREY)
    for document, name in enumerate(names):
        drawing.text(column[document], rows["3"] - 48, f"document {document}", 11, GREY, "middle")
        y = rows["4"]
        if document in both:
            drawing.line([(column[document], rows["3"] + 44), (column[document], y - 16)], GREY, True)
            drawing.box(column[document] - 50, y - 14, 100, 28, "green", f"doc {document}")
            drawing.line([(column[document], y + 14), (column[document], rows["5"] - 28)], GREY, True)
            strip(drawing, column[document], rows["5"], document, (one, two), lists, pairs[document])
            if pairs[document]:
                drawing.line([(column[document], rows["5"] + 62), (column[document], rows["6"] - 16)], GREY, True)
                drawing.box(column[document] - 50, rows["6"] - 14, 100, 28, "violet", name)
        else:
            drawing.text(column[document], y + 4, "no", 12, GREY, "middle")
    return drawing.render()


def strip(drawing, x, y, document, terms, lists, pairs):
    """The positions of a document, and where the second word stands right behind the first."""
    last = max(max(lists[term][document]) for term in terms)
    left = x - (last + 1) * 17
    for position in range(last + 1):
        place = next(n for n, term in enumerate(terms) if position in lists[term][document])
        drawing.box(left + position * 34, y - 24, 32, 28, INKS[place], terms[place])
        drawing.text(left + position * 34 + 16, y + 18, str(position), 11, GREY, "middle", MONO)
    for position in pairs:
        drawing.bracket(left + position * 34, left + position * 34 + 66, y + 24, COLOURS["green"][1], f"{position} and {position} + 1", above=False)
