#!/usr/bin/env python3
"""Reads the sources and tells who calls what, where no run and no clause can show it.

usage: check_calls.py

Looked at are the sources of the crates without tests and comments. That one function reaches another means that its body
calls it, or calls a function of the same crate that reaches it. Status 0: all is as it should be.
"""
import re
import sys
from pathlib import Path

CRATES = Path(__file__).resolve().parent.parent / "crates"
failed = 0


def check(name, ok, told=""):
    global failed
    if not ok:
        failed += 1
        print(f"FAILED: {name}: {told}", file=sys.stderr)
    else:
        print(f"ok: {name}")


def text_of(path):
    """The text without comments, texts in quotes and what is built for tests alone."""
    text = path.read_text()
    text = re.sub(r'"(?:[^"\\\n]|\\.)*"', '""', text)
    text = re.sub(r"//[^\n]*", "", text)
    while found := re.search(r"#\[(?:cfg\(test\)|test)\]", text):
        opens, ends = text.find("{", found.end()), text.find(";", found.end())
        end = ends + 1 if ends >= 0 and (opens < 0 or ends < opens) else closing(text, opens)
        text = text[:found.start()] + text[end:]
    return text


def closing(text, opens):
    """Where the block that opens here is behind its end."""
    depth = 0
    for place in range(opens, len(text)):
        depth += {"{": 1, "}": -1}.get(text[place], 0)
        if depth == 0:
            return place + 1
    raise SystemExit("a block has no end")


def functions_of(crate):
    """(file, name, body) of each function of a crate. The body is the last block of a function: clauses stand before it."""
    functions = []
    for path in sorted((CRATES / crate / "src").rglob("*.rt")):
        name = path.relative_to(CRATES / crate / "src").as_posix()
        if "tests" in name:
            continue
        text = text_of(path)
        for found in re.finditer(r"\bfn (\w+)", text):
            place = found.end()
            while True:
                opens, ends = text.find("{", place), text.find(";", place)
                if opens < 0 or 0 <= ends < opens:
                    break
                clause = re.search(r"\b(requires|ensures)\b[\w\s*]*$", text[place:opens])
                end = closing(text, opens)
                if clause is None:
                    functions.append((name, found.group(1), text[opens:end]))
                    break
                place = end
    return functions


def calls(body, name):
    return len(re.findall(rf"\b{name}(?:::<[^>]*>)?\(", body))


def reaches(functions, start, goal, seen=()):
    bodies = [body for _, name, body in functions if name == start]
    if any(calls(body, goal) for body in bodies):
        return True
    further = {name for _, name, _ in functions if any(calls(body, name) for body in bodies)}
    return any(reaches(functions, name, goal, seen + (start,)) for name in further if name not in seen + (start,))


def where(functions, name):
    """The (file, function) pairs whose bodies call `name`, each as often as it is called."""
    return [(file, own) for file, own, body in functions for _ in range(calls(body, name))]


def inverting_files(crate):
    """The files of a crate that bring in the `invert` of ix_run."""
    root = CRATES / crate / "src"
    return sorted(path.relative_to(root).as_posix() for path in root.rglob("*.rt")
                  if re.search(r"\buse ix_run::(?:\{[^}]*\b)?invert\b", text_of(path)))


build = functions_of("ix_build")
for start, goal in [
    ("build", "build_by"), ("build", "build_over"), ("build_in_memory", "build_by"),
    ("invert_all", "work_all"), ("build_by", "work_all"), ("build_over", "work_all"),
]:
    check(f"`{start}` of ix_build reaches `{goal}`", reaches(build, start, goal))
inverting = where(build, "invert")
check("ix_build inverts in the bodies of its makers' `make` alone",
      sorted(set(inverting)) == [("block_maker.rt", "make"), ("saving_maker.rt", "make")], inverting)
made = [(file, own) for file, own, body in build for _ in re.findall(r"\.make\(", body)]
check("ix_build asks no maker itself", made == [], made)
pool = functions_of("ix_pool")
made = [(file, own) for file, own, body in pool for _ in re.findall(r"\.make\(", body)]
check("ix_pool asks a maker at one place alone, in the workers' loop", made == [("worker.rt", "work")], made)

program = functions_of("ix_command")
inverting = inverting_files("ix_command")
check("ix_command inverts in the command `run` alone", inverting == ["commands/run_file.rt"], inverting)
building = [f for f in program if f[0] == "commands/build.rt"]
for goal in ["invert_all", "merge_into", "build"]:
    check(f"the command `build` reaches `{goal}`", reaches(building, "run", goal))

asking = functions_of("ix_ask")
inverting = inverting_files("ix_ask")
check("ix_ask inverts without threads alone, a whole collection and a part", inverting == ["alone.rt", "invert_part.rt"], inverting)
check("`ask` of ix_ask reaches no `invert` of its own", not reaches(asking, "ask", "invert"))
check("`ask` of ix_ask reaches `build_in_memory`", reaches(asking, "ask", "build_in_memory"))

gram = functions_of("ix_gram")
check("ix_gram reads the grams of an index", any(re.search(r"\.gram\(", body) for _, _, body in gram))

sys.exit(1 if failed else 0)
