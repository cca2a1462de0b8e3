#!/usr/bin/env python3
"""Compares the man page and the completions with the program's help, and the notices with the toolchain; then installs
everything into a folder of the system's own choice, takes it away again, and tries `make clean` on a tree of its own.

usage: check.py [IX]        default: build/ix beside this folder

Needs bash, zsh, fish and mandoc (Debian: apt install zsh fish mandoc). Each shell is asked what it completes.
"""
import os
import re
import shutil
import subprocess
import sys
import tempfile
from pathlib import Path

HERE = Path(__file__).resolve().parent
TOP = HERE.parent
IX = Path(sys.argv[1] if len(sys.argv) > 1 else TOP / "build/ix").resolve()
home = None
failed = 0


def check(name, ok, told=""):
    global failed
    print(f"ok: {name}" if ok else f"FAILED: {name}: {told}", file=sys.stdout if ok else sys.stderr)
    failed += not ok


def printed(*words, **how):
    done = subprocess.run([os.fspath(word) for word in words], capture_output=True, text=True, stdin=subprocess.DEVNULL, **how)
    return done.stdout


def same(name, has, wants):
    has, wants = set(has), set(wants)
    check(name, has == wants, f"lacks {sorted(wants - has)}, has besides {sorted(has - wants)}")


def of_program():
    """The commands that the program's help lists, and of each its line of usage, its options among it."""
    commands = re.findall(r"^  ([a-z]+)  +[a-z]", printed(IX, "--help").split("Commands")[1].split("\n\n")[0], re.M)
    usages = {}
    for command in commands:
        text = printed(IX, command, "--help")
        usage = re.search(r"^Usage: ix (.+?)\n\n", text, re.M | re.S).group(1)
        usages[command] = " ".join(usage.split())
        told = set(re.findall(r"^  (--[a-z]+)", text, re.M))
        same(f"help of {command}: what is in its usage is told below", told, re.findall(r"--[a-z]+", usage))
    return usages


def of_page():
    """The commands of the man page's synopsis, each with its usage as the program's help writes it."""
    page = (HERE / "ix.1").read_text()
    synopsis = page.split(".Sh SYNOPSIS")[1].split(".Sh")[0]
    usages = {}
    for block in synopsis.split(".Nm\n")[1:]:
        words = []
        for line in block.splitlines():
            kind, *rest = line.split()
            if kind == ".Cm":
                words += rest
            elif kind == ".Op":
                words.append("[" + " ".join(w.replace("-", "--", 1) if w.startswith("-") else w.upper() for w in rest if w not in ("Fl", "Ar")) + "]")
            elif kind == ".Fl":
                words.append("-" + rest[0] + "".join(" " + w.upper() for w in rest[2:]))
            elif kind == ".Ar":
                words.append(" ".join(w.upper() for w in rest).replace(" ...", "..."))
        usages[words[0]] = " ix ".join(filter(None, [usages.get(words[0]), " ".join(words)]))
    return usages, page


def manual(usages):
    page_usages, page = of_page()
    page_usages.pop("help")
    same("man page: commands", page_usages, usages)
    for command, usage in usages.items():
        check(f"man page: usage of {command}", page_usages.get(command) == usage, f"{page_usages.get(command)} for {usage}")
    listed = re.findall(r"^\.It Fl -([a-z]+)\b", page, re.M)
    same("man page: each option is told", ["--" + name for name in listed], options_in(" ".join(usages.values())))
    numbers = set(re.findall(r"\d{4,}", "".join(re.split(r"\nExamples?:", printed(IX, command, "--help"))[0] for command in usages)))
    same("man page: the numbers of the help", set(re.findall(r"\b\d{4,}\b", page.split(".Sh QUERIES")[0].split(".Sh DESCRIPTION")[1])), numbers)
    lint = printed("mandoc", "-Tlint", "-W", "warning", HERE / "ix.1")
    check("man page: mandoc finds no fault", not [line for line in lint.splitlines() if "mandoc.db" not in line], lint)


def options_in(usage):
    return set(re.findall(r"--[a-z]+", usage))


BASH = """
compopt() { :; }
. "$1"; shift
COMP_WORDS=("$@"); COMP_CWORD=$(($# - 1)); _ix; printf '%s\\n' "${COMPREPLY[@]}"
"""
# what the page hands to zsh's own functions says what these would offer
ZSH = """
_arguments() { print -rl -- "$@"; state=$STATE; [[ $1 != -C ]] }
_describe() { print -rl -- "${(@P)4}" }
STATE=$2; words=($3); fpath=($1:h $fpath); autoload -Uz _ix; _ix
"""


def away_from_home():
    """An environment in which a shell keeps its files in a folder that will be gone."""
    return {**os.environ, **dict.fromkeys(("HOME", "XDG_CONFIG_HOME", "XDG_DATA_HOME", "XDG_CACHE_HOME"), home)}


def completed(shell, *words):
    """What a shell offers behind these words, the last of which is a beginning."""
    if shell == "bash":
        lines = printed("bash", "-c", BASH, "bash", HERE / "ix.bash", "ix", *words).split()
    elif shell == "fish":
        line = " ".join(("ix", *words))
        script = f"source '{HERE / 'ix.fish'}'; complete -C '{line}'"
        lines = [row.split("\t")[0] for row in printed("fish", "-N", "-c", script, env=away_from_home()).splitlines()]
    else:
        state = "command" if len(words) == 1 else "operands"
        lines = printed("zsh", "-f", "-c", ZSH, "zsh", HERE / "_ix", state, words[0])
        if len(words) == 1 or words[0] == "help":
            return re.findall(r"^([a-z]+):[a-z]", lines, re.M)
        return options_in(lines)
    return [line for line in lines if line.startswith(words[-1])]


def completions(usages):
    shells = {"bash": "bash", "zsh": "zsh", "fish": "fish"}
    for shell in shells:
        commands = [word for word in completed(shell, "") if not word.startswith("-")]
        same(f"{shell}: commands", [word for word in commands if "/" not in word and "." not in word], [*usages, "help"])
        same(f"{shell}: commands behind help", completed(shell, "help", ""), usages if shell != "zsh" else [*usages, "help"])
        for command, usage in usages.items():
            same(f"{shell}: options of {command}", completed(shell, command, "--"), options_in(usage) | {"--help"})


def notices():
    done = subprocess.run([HERE / "notices.py"], capture_output=True, text=True)
    check("notices are those of the toolchain", done.stdout == (HERE / "NOTICES.md").read_text(),
          f"share/notices.py > share/NOTICES.md writes them anew {done.stderr}")


def installing():
    with tempfile.TemporaryDirectory() as folder:
        make = ["make", "-s", "-C", TOP, f"DESTDIR={folder}", "PREFIX=/opt/ix"]
        subprocess.run([*make, "install"], check=True, stdout=subprocess.DEVNULL)
        files = sorted(str(path.relative_to(folder)) for path in Path(folder).rglob("*") if path.is_file())
        same("what is installed", files, {"opt/ix/bin/ix", "opt/ix/share/man/man1/ix.1", "opt/ix/share/bash-completion/completions/ix",
             "opt/ix/share/zsh/site-functions/_ix", "opt/ix/share/fish/vendor_completions.d/ix.fish", "opt/ix/share/doc/ix/NOTICES",
             "opt/ix/bin/ix-collect", "opt/ix/share/man/man1/ix-collect.1", "opt/ix/share/bash-completion/completions/ix-collect",
             "opt/ix/share/zsh/site-functions/_ix-collect", "opt/ix/share/fish/vendor_completions.d/ix-collect.fish",
             "opt/ix/share/ix/ix-collect", *(f"opt/ix/share/ix/ix_collect/{path.name}" for path in TOP.glob("collect/ix_collect/*.py"))})
        listed = printed(Path(folder, "opt/ix/bin/ix-collect"), "folder", TOP / "examples/mail.txt")
        check("the collector that is installed answers", listed.startswith(f"{TOP}/examples/mail.txt\t"), listed[:100])
        asked = printed(Path(folder, "opt/ix/bin/ix"), "ask", TOP / "examples/mail.txt", "contract AND NOT hotel")
        check("what is installed answers", asked == "2026-03-06/anna-3\n", asked)
        subprocess.run([*make, "uninstall"], check=True, stdout=subprocess.DEVNULL)
        left = [str(path) for path in Path(folder).rglob("*") if path.is_file()]
        check("nothing is left once it is uninstalled", not left, left)


def cleaning():
    """What was made goes, and nothing else: a function may be called build, and its proof then lies in a folder of that name."""
    with tempfile.TemporaryDirectory() as folder:
        made, kept = ("build/ix", "crates/a/out/x", "bench/a/out/x", "bench/out/x"), ("crates/a/proofs/build/x", "crates/a/src/x")
        for name in made + kept:
            Path(folder, name).parent.mkdir(parents=True, exist_ok=True)
            Path(folder, name).touch()
        subprocess.run(["make", "-s", "-C", folder, "-f", TOP / "Makefile", "clean"], check=True)
        same("what make clean leaves", [str(path.relative_to(folder)) for path in Path(folder).rglob("*") if path.is_file()], kept)


def main():
    lacking = [name for name in ("bash", "zsh", "fish", "mandoc", "make") if not shutil.which(name)]
    if lacking:
        print(f"check.py needs more: apt install {' '.join(lacking)}", file=sys.stderr)
        return 2
    if not IX.is_file():
        print(f"there is no program {IX}: make it with make", file=sys.stderr)
        return 2
    usages = of_program()
    manual(usages)
    with tempfile.TemporaryDirectory() as folder:
        global home
        home = folder
        completions(usages)
    notices()
    installing()
    cleaning()
    print(f"{failed} failed" if failed else "all as expected")
    return 1 if failed else 0


if __name__ == "__main__":
    sys.exit(main())
