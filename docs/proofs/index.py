#!/usr/bin/env python3
"""Prints the index of the proofs from the sources: index.py > docs/proofs/index.md"""
import re
import textwrap
from collections.abc import Iterator
from pathlib import Path

TOP = Path(__file__).resolve().parents[2]
INTRO = """# Index of the proofs

[index.py](index.py) prints this list from the sources, so do not edit it. It has the public
functions of each file, with the names of the clauses that each ensures. `_` is a clause without a
name. The name of a trait stands for the clauses of that trait's function. Below the functions are
the wrong bodies that are aimed at the file, named after what they get wrong ([gate.md](gate.md))."""
FUNCTION = re.compile(r'\s*(pub )?(?:pub\(.*?\) )?(?:(?:const|unsafe|extern "C") )*fn (\w+)')
CLAUSE = re.compile(r"\s*ensures(?: (\w+))? \{")
OWNER = re.compile(r"(?:impl(?: ([\w:]+) for)?|pub trait) (\w+)")
DECLARED = re.compile(r"^pub (?:struct|enum|trait|fn) (\w+)", re.M)
TRAIT = re.compile(r"^pub trait (\w+)", re.M)


def exported(source: Path) -> set[str]:
    """The names by which callers reach a crate's functions and types."""
    text = (source / "lib.rt").read_text() if (source / "lib.rt").exists() else ""
    for module in re.findall(r"^pub mod (\w+);", text, re.M):
        below = (source / f"{module}.rt").read_text()
        text += "".join(f"\npub use {name};" for name in DECLARED.findall(below)) + below
    return set(re.findall(r"\w+", " ".join(re.findall(r"^pub use ([^;]*);", text, re.M))))


def functions(text: str, public: set[str], traits: set[str]) -> Iterator[tuple[str, list[str]]]:
    """The public functions of a file, each with the clauses that it ensures."""
    owner, trait, clauses = "", "", None
    for line in text.splitlines():
        plain = re.sub(r"<[^<>]*>", "", re.sub(r"<[^<>]*>", "", line))
        if line == "}":
            owner, trait, clauses = "", "", None
        elif found := OWNER.match(plain):
            owner = found[2] if found[2] in public else "-"
            trait = found[1] if found[1] in traits else owner if TRAIT.match(line) else ""
        elif found := FUNCTION.match(line):
            seen = (found[1] or trait) and (owner or found[2]) in public
            clauses = [trait] * (trait != owner) if seen else None
            if clauses is not None:
                yield f"{owner}::{found[2]}".removeprefix("::"), clauses
        elif clauses is not None and (found := CLAUSE.match(line)):
            clauses.append(found[1] or "_")


def item(head: str, names: list[str]) -> str:
    text = ", ".join(f"`{name}`" for name in names if name) or "no clause"
    return textwrap.fill(f"- {head}: {text}", 100, subsequent_indent="  ", break_on_hyphens=False)


def crate_lines(folder: Path, traits: set[str]) -> Iterator[str]:
    edits: dict[str, list[str]] = {}
    for edit in sorted((folder / "must-fail").glob("*.edit")):
        for name in sorted(set(re.findall(r"^file: (\S+)", edit.read_text(), re.M))):
            edits.setdefault(name, []).append(edit.stem)
    public = exported(folder / "src")
    for file in sorted((folder / "src").rglob("*.rt")):
        name = str(file.relative_to(folder))
        calls = functions(file.read_text(), public, traits)
        items = [item(f"`{call}`", clauses) for call, clauses in list(calls)]
        items += [item("wrong bodies", edits[name])] if name in edits else []
        yield from [f"\n`{name}`\n", *items] if items else []


def main() -> None:
    names = re.findall(r"^(?!ix_tests_)(\w+)[^#\n]*:", (TOP / "crates.txt").read_text(), re.M)
    folders = [TOP / "crates" / name for name in names]
    files = [file for folder in folders for file in (folder / "src").rglob("*.rt")]
    traits = {name for file in files for name in TRAIT.findall(file.read_text())}
    print(INTRO)
    for folder in folders:
        print(f"\n## {folder.name}", *crate_lines(folder, traits), sep="\n")


main()
