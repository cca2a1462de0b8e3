#!/usr/bin/env python3
"""Draws the pictures of docs/ as SVG: those of an index from the bytes that the program writes.

  draw.py [IX] [FOLDER]     default: build/ix of this repository, and the folder of this script
  draw.py --check [IX]      draws them elsewhere and compares; status 1 where one is not as it stands here

Nothing but Python's standard library is needed.
"""
import subprocess
import sys
import tempfile
from pathlib import Path

sys.dont_write_bytecode = True

import board  # noqa: E402
import index_text  # noqa: E402
import question  # noqa: E402
import segments  # noqa: E402

HERE = Path(__file__).resolve().parent
FIVE = b"a\tx y\nb\ty\nc\t\nd\ty x y\ne\tx\n"
QUESTION = '"x y"'


def draw(program, folder):
    """Writes the four pictures into a folder."""
    with tempfile.TemporaryDirectory() as work:
        collection, index = Path(work, "c.tsv"), Path(work, "c.ix")
        collection.write_bytes(FIVE)
        subprocess.run([program, "build", collection, index], check=True)
        found = subprocess.run([program, "search", index, QUESTION], check=True, capture_output=True, text=True).stdout.split()
        parts = index_text.read(index.read_bytes())
    pictures = {
        "index.svg": index_text.picture(parts),
        "question.svg": question.picture(parts, QUESTION, found),
        "board.svg": board.picture(),
        "segments.svg": segments.picture(40),
    }
    for name, picture in pictures.items():
        Path(folder, name).write_text(picture, encoding="utf-8")
    return pictures


def main(words):
    checked = words[:1] == ["--check"]
    words = words[checked:]
    program = Path(words[0] if words else HERE.parents[2] / "build/ix").resolve()
    if not program.is_file():
        print(f"there is no program {program}: make it with make", file=sys.stderr)
        return 2
    if not checked:
        draw(program, words[1] if words[1:] else HERE)
        return 0
    status = 0
    with tempfile.TemporaryDirectory() as folder:
        for name in draw(program, folder):
            same = (HERE / name).exists() and (HERE / name).read_bytes() == Path(folder, name).read_bytes()
            print(f"ok: {name}" if same else f"FAILED: docs/design/pictures/{name} is not what docs/design/pictures/draw.py draws")
            status = status if same else 1
    return status


if __name__ == "__main__":
    sys.exit(main(sys.argv[1:]))
