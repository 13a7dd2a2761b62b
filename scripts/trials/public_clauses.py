#!/usr/bin/env python3
"""Prints what each public function promises, so that two trees can be compared.

For each `pub fn` of crates/*/src the script prints its crate, file, type and name, its arguments and result, and its
`requires` and `ensures` clauses, with all white space made one space. With --specs it prints the definitions of specs/
too, without comments and `use` lines, since a clause means what these say.

    scripts/trials/public_clauses.py [--specs] [CRATE ..]      of these crates, or of all
    scripts/trials/public_clauses.py --since REV [--specs]     only what differs from a revision; the status is 1 if any does
"""
import difflib
import re
import subprocess
import sys
from pathlib import Path

ROOT = Path(__file__).resolve().parents[2]
FUNCTION = re.compile(r"^[ \t]*pub (?:const )?fn (\w+)", re.M)
OWNER = re.compile(r"^(?:impl|trait|pub trait)\b[^{]*", re.M)
COMMENT = re.compile(r"//[^\n]*|--[^\n]*")


def one_line(text):
    return " ".join(text.split())


def close_of(text, start):
    """The place after the bracket that closes the one at a place."""
    depth = 0
    for place in range(start, len(text)):
        if text[place] in "([{":
            depth += 1
        elif text[place] in ")]}":
            depth -= 1
            if depth == 0:
                return place + 1
    raise ValueError("a bracket is not closed")


def signature(text, start):
    """All from the name of a function to its body."""
    place = start
    while True:
        found = re.compile(r"[{(;]|->").search(text, place)
        if found is None or found.group() == ";":
            return text[start : found.start() if found else len(text)]
        if found.group() == "->":
            place = found.end()
            continue
        if found.group() == "(":
            place = close_of(text, found.start())
            continue
        before = text[start : found.start()]
        if re.search(r"\b(?:requires|ensures)\*?(?:\s+\w+)?\s*$", before):
            place = close_of(text, found.start())
            continue
        return before


def functions(path, text):
    bare = COMMENT.sub("", text)
    for found in FUNCTION.finditer(bare):
        owner = ""
        for head in OWNER.finditer(bare, 0, found.start()):
            body = bare.find("{", head.end() - 1)
            if body != -1 and body < found.start() < close_of(bare, body):
                owner = one_line(head.group()) + ": "
        yield f"{path}: {owner}{one_line(signature(bare, found.start()))}"


def lines(names, specs, read):
    out = []
    for path in sorted(names):
        if re.match(r"crates/\w+/src/.*\.rt$", path):
            out += functions(path, read(path))
        elif specs and re.match(r"crates/\w+/specs/.*\.antt$", path):
            bare = COMMENT.sub("", read(path))
            kept = [one_line(line) for line in bare.split("\n") if not line.startswith(("use ", "pub use "))]
            out += [f"{path}: {line}" for line in kept if line]
    return out


def git(*words):
    return subprocess.run(["git", "-C", str(ROOT), *words], check=True, capture_output=True, text=True).stdout


def main(words):
    specs = "--specs" in words
    rest = [word for word in words if word != "--specs"]
    here = [str(path.relative_to(ROOT)) for path in ROOT.glob("crates/*/s*/**/*") if path.is_file()]
    here = [path for path in here if path.split("/")[2] in ("src", "specs")]

    def read_here(path):
        return (ROOT / path).read_text()

    if rest[:1] == ["--since"] and len(rest) == 2:
        revision = rest[1]
        there = git("ls-tree", "-r", "--name-only", revision, "crates").split("\n")
        old = lines(there, specs, lambda path: git("show", f"{revision}:{path}"))
        new = lines(here, specs, read_here)
        differences = [line for line in difflib.unified_diff(old, new, lineterm="", n=0) if line[:1] in "+-"][2:]
        print("\n".join(differences) if differences else f"{len(new)} lines, none of which differs from {revision}")
        return 1 if differences else 0
    wanted = [path for path in here if not rest or path.split("/")[1] in rest]
    print("\n".join(lines(wanted, specs, read_here)))
    return 0


if __name__ == "__main__":
    sys.exit(main(sys.argv[1:]))
