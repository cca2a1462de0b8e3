#!/usr/bin/env python3
"""Checks README.md, CONTRIBUTING.md and docs/: links, named files, lines but for tables, and the sessions that they show.

usage: tests/check_docs.py [IX]     (without IX the sessions are not run)

A session is an indented block with lines `$ COMMAND`; below each is what it prints, where `..` stands for any lines. The
sessions of a document run in order in one folder of their own. A block is left out if one of its commands is none of those
below, or names a path under the home folder: then it is an example, not a session. The recipes of the cookbook are run by
examples/check-cookbook.sh, which makes the files that they want.
"""
import os
import re
import shutil
import subprocess
import sys
import tempfile
from collections.abc import Iterator
from pathlib import Path

TOP = Path(__file__).resolve().parent.parent
COMMANDS = {"ix", "build/ix", "printf", "head", "xxd", "cat", "echo"}
WIDTH = 100
GENERATED = TOP / "docs" / "proofs" / "index.md"


def documents() -> list[Path]:
    return [TOP / "README.md", TOP / "CONTRIBUTING.md", *sorted((TOP / "docs").rglob("*.md"))]


def anchors(page: Path) -> set[str]:
    """The anchors of a page's headings, as GitHub makes them."""
    heads = re.findall(r"^#+ (.*)$", page.read_text(), re.M)
    return {re.sub(r"[^\w\- ]", "", head.lower()).strip().replace(" ", "-") for head in heads}


def faults_of(page: Path) -> Iterator[str]:
    text = page.read_text()
    for number, line in enumerate(text.splitlines(), 1):
        if len(line) > WIDTH and page != GENERATED and not line.startswith(("|", "    $")):
            yield f"line {number} has {len(line)} columns"
    for target in re.findall(r"\]\(([^)\s]+)\)", text):
        path, _, anchor = target.partition("#")
        linked = (page.parent / path).resolve() if path else page
        if target.startswith("http"):
            continue
        if not linked.exists():
            yield f"no file behind the link {target}"
        elif anchor and linked.suffix == ".md" and anchor not in anchors(linked):
            yield f"no heading behind the link {target}"
    specs = {it.name for it in TOP.glob("crates/*/specs/*.antt")}
    for name in re.findall(r"`(?:crates/\w+/specs/)?(\w+\.antt)`", text):
        if name not in specs:
            yield f"no definitions in {name}"
    for name in re.findall(r"`((?:bench|crates|docs|examples|include|python|share|tests)/[\w./-]+)`", text):
        if "NAME" not in name and not (TOP / name).exists():
            yield f"no file {name}"


def sessions(page: Path) -> Iterator[list[tuple[str, str]]]:
    """Each session of the page: its commands, each with what it prints."""
    if page.name == "cookbook.md":
        return
    for block in re.findall(r"(?:^    .*\n|^\n(?=    ))+", page.read_text(), re.M):
        lines = [line[4:] for line in block.splitlines()]
        steps: list[tuple[str, str]] = []
        for line in lines:
            if line.startswith("$ "):
                steps.append((line[2:], ""))
            elif steps and line:
                steps[-1] = (steps[-1][0], f"{steps[-1][1]}{line}\n")
        if steps and all(step.split()[0] in COMMANDS and "~/" not in step for step, _ in steps):
            yield steps


def is_printed(shown: str, printed: str) -> bool:
    parts = [re.escape(part) for part in re.split(r"^\.\.\n", shown, flags=re.M)]
    return re.fullmatch("(?:.*\n)*".join(parts), printed) is not None


def run_sessions(page: Path, program: Path) -> Iterator[str]:
    with tempfile.TemporaryDirectory() as folder:
        home = Path(folder)
        (home / "build").mkdir()
        for name in ("build/ix", "bin/ix"):
            (home / name).parent.mkdir(exist_ok=True)
            os.symlink(program, home / name)
        shutil.copytree(TOP / "examples", home / "examples")
        known = {**os.environ, "PATH": f"{home}/bin:{os.environ['PATH']}"}
        for steps in sessions(page):
            for command, shown in steps:
                run = subprocess.run(
                    ["bash", "-c", command], cwd=home, env=known, stdout=subprocess.PIPE, stderr=subprocess.STDOUT,
                    text=True, timeout=60, check=False,
                )
                if shown and not is_printed(shown, run.stdout):
                    yield f"`{command}` prints\n{run.stdout}and not\n{shown}"


def main(words: list[str]) -> int:
    faults = 0
    for page in documents():
        found = [*faults_of(page), *(run_sessions(page, Path(words[0]).resolve()) if words else ())]
        for fault in found:
            print(f"{page.relative_to(TOP)}: {fault}", file=sys.stderr)
        faults += len(found)
    made = subprocess.run([str(TOP / "docs/proofs/index.py")], stdout=subprocess.PIPE, text=True, check=True).stdout
    if made != GENERATED.read_text():
        print("docs/proofs/index.md is old: docs/proofs/index.py > docs/proofs/index.md", file=sys.stderr)
        faults += 1
    print(f"{len(documents())} documents, {faults} faults")
    return 1 if faults else 0


if __name__ == "__main__":
    sys.exit(main(sys.argv[1:]))
