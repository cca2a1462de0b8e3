"""Shapes as SVG text. A drawing brings its own light ground, so that it reads the same on a light and on a dark page."""
from html import escape

INK, GREY, GROUND, LINE = "#1f2328", "#59636e", "#fdfdfb", "#8c959f"
# fill and ink of the colours, told apart in brightness too
COLOURS = {
    "blue": ("#cfe3fb", "#0b4f9e"), "orange": ("#fbdfc0", "#8a3d00"), "green": ("#cdeed0", "#146c2e"),
    "violet": ("#e3d7fa", "#5b2fa8"), "grey": ("#e6e8eb", "#424a53"), "red": ("#fbd0d0", "#9c1c1c"), "white": ("#ffffff", INK),
}
MONO = "DejaVu Sans Mono, Menlo, Consolas, monospace"
SANS = "DejaVu Sans, Verdana, Helvetica, sans-serif"


class Drawing:
    """Shapes in the order in which they are drawn."""

    def __init__(self, width, height, title):
        self.size, self.title, self.shapes = (width, height), title, []

    def add(self, shape):
        self.shapes.append(shape)

    def text(self, x, y, words, size=13, colour=INK, anchor="start", font=SANS, weight="normal"):
        self.add(f'<text x="{x:g}" y="{y:g}" font-family="{font}" font-size="{size}" fill="{colour}" '
                 f'text-anchor="{anchor}" font-weight="{weight}">{escape(words)}</text>')

    def box(self, x, y, width, height, colour="white", words="", size=13, font=MONO, round=2):
        fill, ink = COLOURS[colour]
        self.add(f'<rect x="{x:g}" y="{y:g}" width="{width:g}" height="{height:g}" rx="{round}" fill="{fill}" stroke="{ink}" stroke-width="1"/>')
        if words:
            self.text(x + width / 2, y + height / 2 + size * 0.36, words, size, ink, "middle", font)

    def line(self, points, colour=LINE, arrow=False, width=1.5, dashed=False):
        path = "M" + " L".join(f"{x:g},{y:g}" for x, y in points)
        self.path(path, colour, arrow, width, dashed)

    def curve(self, x1, y1, x2, y2, colour=LINE, arrow=True):
        middle = (y1 + y2) / 2
        self.path(f"M{x1:g},{y1:g} C{x1:g},{middle:g} {x2:g},{middle:g} {x2:g},{y2:g}", colour, arrow)

    def path(self, path, colour, arrow, width=1.5, dashed=False):
        end = f' marker-end="url(#tip{colour[1:]})"' if arrow else ""
        dash = ' stroke-dasharray="4 3"' if dashed else ""
        self.add(f'<path d="{path}" fill="none" stroke="{colour}" stroke-width="{width}"{dash}{end}/>')

    def bracket(self, x1, x2, y, colour, words="", above=True):
        """A bracket over or under a row, from x1 to x2, with words at its middle."""
        end = y - 6 if above else y + 6
        self.line([(x1 + 2, y), (x1 + 2, end), (x2 - 2, end), (x2 - 2, y)], colour, width=1.2)
        if words:
            self.text((x1 + x2) / 2, end - 5 if above else end + 13, words, 11, colour, "middle")

    def render(self):
        width, height = self.size
        inks = [GREY, LINE, INK] + [ink for _, ink in COLOURS.values()]
        tips = "".join(f'<marker id="tip{ink[1:]}" viewBox="0 0 8 8" refX="7" refY="4" markerWidth="7" markerHeight="7" orient="auto">'
                       f'<path d="M0,0 L8,4 L0,8 z" fill="{ink}"/></marker>' for ink in dict.fromkeys(inks))
        return (f'<svg xmlns="http://www.w3.org/2000/svg" viewBox="0 0 {width} {height}" width="{width}" height="{height}" role="img">\n'
                f"<title>{escape(self.title)}</title>\n<defs>{tips}</defs>\n"
                f'<rect x="0.5" y="0.5" width="{width - 1}" height="{height - 1}" rx="8" fill="{GROUND}" stroke="{LINE}"/>\n'
                + "\n".join(self.shapes) + "\n</svg>\n")
