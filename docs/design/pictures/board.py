"""A board of five places and two workers, step by step."""
from svg import COLOURS, GREY, INK, Drawing

PLACES, WORKERS = 5, 2
# whose step comes next, and what a worker does with the place that it holds: delivers a piece, or gives it up
ORDER = (1, 1, 0, 0, 0, 0, 1, 1, 1, 0, 0, 1, 1)
REFUSED = {3}


def tour(worker):
    """The order in which a worker goes over the places: a circle from its section on, without its own first one."""
    begin = worker * (PLACES // WORKERS)
    return [(begin + step) % PLACES for step in range(PLACES) if (begin + step) % PLACES != worker]


def steps():
    """Each step: the worker, what it does, the place, and the board after it."""
    board = [("held", place) if place < WORKERS else ("open", None) for place in range(PLACES)]
    holds, left = {w: w for w in range(WORKERS)}, {w: tour(w) for w in range(WORKERS)}
    yield None, "the start", None, list(board)
    for worker in ORDER:
        if holds[worker] is not None:
            place, holds[worker] = holds[worker], None
            kind = "given up" if place in REFUSED else "done"
            board[place] = (kind, worker)
            yield worker, "gives it up" if kind == "given up" else "delivers", place, list(board)
        else:
            place = left[worker].pop(0)
            if board[place][0] == "open":
                board[place], holds[worker] = ("held", worker), place
                yield worker, "claims", place, list(board)
            else:
                yield worker, f"looks: {board[place][0]}", place, list(board)
    assert all(kind in ("done", "given up") for kind, _ in board) and not any(holds[w] is not None for w in holds)


def picture():
    rows = list(steps())
    drawing = Drawing(860, 118 + 34 * len(rows) + 60, "A board of five places and two workers, step by step")
    drawing.text(24, 34, "A board of five places and two workers, step by step", 18, weight="bold")
    drawing.text(24, 58, "There is no lock and no queue: each step is one compare-exchange on the word of its place.", 12, GREY)
    hues = ("blue", "orange")
    for place in range(PLACES):
        drawing.text(360 + 96 * place, 92, f"place {place}", 12, GREY, "middle")
    for number, (worker, does, place, board) in enumerate(rows):
        y = 118 + 34 * number
        if worker is None:
            drawing.text(24, y + 5, "start: worker w holds place w", 12, INK)
        else:
            drawing.text(24, y + 5, str(number), 12, GREY)
            drawing.box(48, y - 11, 76, 22, hues[worker], f"worker {worker}", 11)
            drawing.text(134, y + 5, does, 12, INK)
        for k, (kind, who) in enumerate(board):
            x = 360 + 96 * k - 42
            hue = {"open": "white", "held": hues[who or 0], "done": "green", "given up": "red"}[kind]
            words = f"held by {who}" if kind == "held" else kind
            drawing.box(x, y - 12, 84, 24, hue, words, 11)
            if k == place:
                ink = COLOURS[hues[worker]][1]
                drawing.add(f'<rect x="{x - 4}" y="{y - 16}" width="92" height="32" rx="5" fill="none" stroke="{ink}" stroke-width="2.5"/>')
    y = 118 + 34 * len(rows) + 14
    drawing.text(24, y + 5, "closed: the piece of each place", 12, INK)
    for k, (kind, _) in enumerate(rows[-1][3]):
        drawing.text(360 + 96 * k, y + 5, "none" if kind == "given up" else "ABCDE"[k], 15, INK, "middle", weight="bold")
    return drawing.render()
