#!/usr/bin/env python3
"""Prints the crates of the toolchain that are linked into the program, with whose they are and under which licence.

  notices.py            the table of NOTICES.md beside this file
  notices.py --whole    the same, and the text of each licence: what belongs beside a copy of the program

Which crates they are is read from crates.txt, from `ix` on down, and from the toolchain's libraries; whose they are from the
files LICENSE* in the toolchain's folders. The toolchain is that of the command `rt`.
"""
import re
import subprocess
import sys
from pathlib import Path

TOP = Path(__file__).resolve().parent.parent
KINDS = {"UNICODE LICENSE V3": "Unicode-3.0", "Apache License": "Apache-2.0",
         "Permission is hereby granted, free of charge, to any person obtaining": "MIT"}


def toolchain():
    try:
        page = subprocess.run(["rt", "doc"], check=True, stdout=subprocess.PIPE, text=True).stdout
    except (OSError, subprocess.CalledProcessError):
        sys.exit("notices.py needs the command 'rt' of the Rattle toolchain on the PATH")
    return next(Path(word).parent for word in page.split() if word.endswith(".md") and Path(word).is_file())


def own_crates():
    """What each crate of this repository stands on."""
    lines = (line.split("#")[0].strip() for line in (TOP / "crates.txt").read_text().splitlines())
    return {name.split()[0]: rest.split() for name, _, rest in (line.partition(":") for line in lines if line)}


def linked(kit):
    """The crates of the toolchain that `ix` stands on, itself or by another."""
    own, seen, left = own_crates(), set(), ["ix", "std"]
    while left:
        name = left.pop()
        if name not in seen:
            seen.add(name)
            head = kit / "rlibs" / f"{name}.rlib" / "format"
            left += own[name] if name in own else re.findall(r"^dep (\w+)$", head.read_text(), re.M)
    return sorted(seen - own.keys())


def original(folder):
    """The Rust crate that a crate is made after, where its first page names one."""
    page = folder / "README.md"
    head = page.read_text()[:1500].split("```")[0] if page.exists() else ""
    found = re.search(r"Rust crate `([\w-]+)`( \d[\d.]*\d)?", head)
    return found.group(1) + (found.group(2) or "") if found else ""


def kind(text):
    return next((short for words, short in KINDS.items() if words in " ".join(text.split())), "see its text")


def holders(text):
    """The lines of a licence that name whose it is."""
    return [line.strip() for line in re.findall(r"^\s*(Copyright (?:\(c\)|©).*)$", text, re.M)]


def rows(kit):
    for name in linked(kit):
        folder = kit / "rattle" / name
        texts = [path.read_text() for path in sorted(folder.glob("LICENSE*"))]
        yield name, original(folder), texts


def table(kit):
    print("# Notices\n")
    print("The crates of the Rattle toolchain that are linked into `ix`, made by `share/notices.py` from the toolchain's own files.")
    print("`share/notices.py --whole` prints the text of each licence too, and `make install` puts that beside the program.\n")
    print("| Crate | After the Rust crate | Licence | Whose |\n|---|---|---|---|")
    bare = []
    for name, rust, texts in rows(kit):
        if not texts:
            bare.append(f"`{name}`")
            continue
        kinds = ", ".join(dict.fromkeys(kind(text) for text in texts))
        whose = "; ".join(dict.fromkeys(line for text in texts for line in holders(text))) or "not named in it"
        print(f"| `{name}` | {rust} | {kinds} | {whose} |")
    print(f"\nThe toolchain's own crates, for which it states no licence: {', '.join(bare)}.")


def whole(kit):
    table(kit)
    texts = {}
    for name, _, licences in rows(kit):
        for text in licences:
            texts.setdefault(text.strip("\n"), []).append(name)
    for text, names in texts.items():
        print(f"\n{'=' * 80}\n{', '.join(names)}\n{'=' * 80}\n\n{text}")


if __name__ == "__main__":
    if sys.argv[1:] not in ([], ["--whole"]):
        sys.exit(__doc__)
    (whole if sys.argv[1:] else table)(toolchain())
