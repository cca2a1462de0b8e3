"""The segments of a live index while documents are added one by one."""
from svg import COLOURS, GREY, INK, Drawing

HUES = ("grey", "blue", "green", "orange", "violet", "red")


def grown(table):
    """A table of segments, each its generation and documents, after one document more; and the segments made on the way."""
    made, table = [(0, 1)], list(table)
    while table and table[-1][0] == made[-1][0]:
        last = table.pop()
        made.append((last[0] + 1, last[1] + made[-1][1]))
    return table + made[-1:], made


def picture(additions):
    drawing = Drawing(1000, 560, f"The segments of a live index over {additions} additions")
    drawing.text(24, 34, f"The segments of a live index over {additions} additions of one document", 18, weight="bold")
    drawing.text(24, 58, "A new segment has generation 0. While the last one is of its generation, the two are merged to one of the next.", 12, GREY)
    left, bottom, width, unit = 56, 500, 22.6, 9.6
    table, moved = [], 0
    for count in range(1, additions + 1):
        table, made = grown(table)
        moved += sum(documents for _, documents in made)
        x, y = left + (count - 1) * width, bottom
        for place, (generation, documents) in enumerate(table):
            height = documents * unit
            y -= height
            new = place == len(table) - 1
            drawing.box(x, y, width - 4, height - 1, HUES[generation], str(documents) if height > 15 else "", 10)
            if new:
                ink = COLOURS[HUES[generation]][1]
                drawing.add(f'<rect x="{x:g}" y="{y:g}" width="{width - 4:g}" height="{height - 1:g}" rx="2" fill="none" stroke="{ink}" stroke-width="2.4"/>')
        if count % 4 == 0 or count == 1:
            drawing.text(x + width / 2 - 2, bottom + 16, str(count), 11, GREY, "middle")
    for documents in (0, 8, 16, 24, 32, 40):
        y = bottom - documents * unit
        drawing.text(left - 10, y + 4, str(documents), 11, GREY, "end")
    drawing.text(24, 88, "documents", 11, GREY)
    drawing.text(left + 17 * width, bottom + 36, "additions; thick: the segment that this addition wrote", 11, GREY, "middle")
    for generation in range(max(g for g, _ in table) + 1):
        x = 330 + 104 * generation
        drawing.box(x - 226, 106, 14, 14, HUES[generation])
        drawing.text(x - 206, 118, f"generation {generation}", 11, INK)
    drawing.text(104, 142, f"after {additions}: segments of {' and '.join(str(d) for _, d in table)}; over all merges a document was written {moved / additions:g} times on average", 12, INK)
    return drawing.render()
