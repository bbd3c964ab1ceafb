#!/usr/bin/env python3
"""Brings this repository's own definitions and lemmas to snake case, once, after the toolchain's port script.

A name with a hyphen that a file of specs/ or proofs/ declares gets underscores in place of its hyphens, in every
.antt and .rt file and in every edit of must-fail/. Names of goals and of what a proof is given (they are made by the
check), names of the library, comments and strings stay as they are. Prints what it renamed, and stops without
writing where two names would fall together.
"""

import pathlib
import re
import subprocess
import sys

NAME = r"[A-Za-z_][\w']*(?:-[\w']+)+"
DECLARED = re.compile(rf"^\s*(?:(?:pub|abbrev|unfoldable|record|data|syntax)\s+)*({NAME})\s*(?=[:({{])")
LOCAL = re.compile(rf"(?:\blet\s+|\bas\s+)({NAME})(?![\w'-])")
LIBRARY = re.compile(r"use (?:Rattle\.(?:std|core)|logic|antt)[\w.]*\.\{([^}]*)\}", re.S)
MADE = ("Answers.antt", "Invariants.antt")


def files(top):
    return sorted(p for p in (top / "crates").rglob("*") if p.suffix in (".antt", ".rt", ".edit") and "out" not in p.parts)


def declared(paths):
    own, library = set(), set()
    for path in paths:
        text = path.read_text()
        for names in LIBRARY.findall(text):
            library.update(n.split(" as ")[0].strip() for n in names.split(","))
        if path.suffix != ".antt":
            continue
        for line in text.splitlines():
            line = line.split("--")[0]
            m = DECLARED.match(line)
            if m and not (path.name in MADE and re.search(rf":\s*goal\.{re.escape(m[1])}\s*$", line)):
                own.add(m[1])
            own.update(LOCAL.findall(line))
    made = set()
    for path in paths:
        if path.name in MADE:
            made.update(re.findall(rf"goal\.({NAME})", path.read_text()))
    return own - library - made, own & library, own & made


def plain(paths):
    """Every name without a hyphen that could be meant where one of ours is: the library's, and what a file of ours declares."""
    words = set()
    for path in paths:
        text = path.read_text()
        for names in LIBRARY.findall(text):
            words.update(n.split(" as ")[-1].strip() for n in names.split(","))
        if path.suffix == ".antt":
            words.update(re.findall(r"^\s*(?:(?:pub|abbrev|unfoldable|record|data|syntax|let)\s+)*([A-Za-z_][\w']*)\s*(?=[:({=])", text, re.M))
    return words


def turned(path, own):
    token = re.compile(r"(?<![\w'-])(?<!\bc\.)(?<!\bgoal\.)(" + "|".join(sorted(map(re.escape, own), key=len, reverse=True)) + r")(?![\w'-])")
    comment = "--" if path.suffix == ".antt" else "//"

    def line(text):
        code, mark, rest = text.partition(comment)
        parts = re.split(r'("(?:[^"\\]|\\.)*")', code)
        return "".join(p if p.startswith('"') else token.sub(lambda m: m[1].replace("-", "_"), p) for p in parts) + mark + rest

    return "\n".join(map(line, path.read_text().split("\n")))


def main():
    top = pathlib.Path(subprocess.run(["git", "rev-parse", "--show-toplevel"], capture_output=True, text=True, check=True).stdout.strip())
    paths = files(top)
    own, both, goals = declared(paths)
    for name in sorted(both):
        print(f"left, a name of the library too: {name}")
    for name in sorted(goals):
        print(f"left, a name of a goal too: {name}")
    together = sorted(n for n in own if n.replace("-", "_") in plain(paths))
    for name in together:
        print(f"falls together with another name: {name}")
    if "--write" not in sys.argv:
        print("\n".join(f"{n} -> {n.replace('-', '_')}" for n in sorted(own)))
        return 1 if together else 0
    if together:
        return 1
    for path in paths:
        after = turned(path, own)
        if after != path.read_text():
            path.write_text(after)
    print(f"{len(own)} names")
    return 0


if __name__ == "__main__":
    sys.exit(main())
