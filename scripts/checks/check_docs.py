#!/usr/bin/env python3
"""Whether the documents and the program agree by name. What a document names has to be there: links and their headings,
files of the repository, crates, options of the program's commands and of the scripts, report lines, statuses. And what
the program has, the manual page has: each option under its command, each report line and each status; docs/OPERATING.md
has each line of `serve`.

  scripts/checks/check_docs.py [PROGRAM]      bin/tnc, if no other is named
  scripts/checks/check_docs.py --self-test    plants faults of each kind, and sees that each is found"""
import dataclasses
import functools
import re
import subprocess
import sys
from pathlib import Path

ROOT = Path(__file__).resolve().parents[2]
FOLDERS = ("crates", "docs", "scripts", "samples", "bench", "man", "systemd", ".ci")
COMMANDS = ("serve", "decode", "encode", "show", "loop", "bench", "record", "call")
REPORTING = ("tnc_main", "tnc_ports", "tnc_record", "keying")  # the crates whose sources spell what goes to standard error
OPERATING = "docs/OPERATING.md"
MANUAL = "man/tnc.1"


@dataclasses.dataclass
class Facts:
    """What is there: the documents by name, the manual page, and what the program has."""

    pages: dict
    manual: str
    options: dict  # of each command
    lines: dict  # of each crate, the words that its report lines begin with
    statuses: set
    scripts: dict  # their texts, by name


def gathered(tnc):
    """Returns the facts of this repository."""
    names = [ROOT / "README.md", *sorted((ROOT / "docs").glob("*.md")), ROOT / "samples/README.md"]
    helps = {it: subprocess.run([tnc, "help", it], capture_output=True, text=True).stdout for it in COMMANDS}
    status = (ROOT / "crates/tnc_main/specs/Status.antt").read_text()
    return Facts(
        {str(it.relative_to(ROOT)): it.read_text() for it in names},
        (ROOT / MANUAL).read_text(),
        {it: set(re.findall(r"--[a-z][a-z0-9-]*", told)) for it, told in helps.items()},
        {it: report_lines(it) for it in REPORTING},
        {int(it) for it in re.findall(r"^code_of \w+ = (\d+)$", status, re.M)},
        {str(it.relative_to(ROOT)): script_text(it) for it in [*ROOT.glob("scripts/*/*"), *ROOT.glob("bench/*")]},
    )


def script_text(path):
    """Returns the text of a script, or of the files of one that is a folder."""
    files = [path] if path.is_file() else [it for it in path.rglob("*") if it.is_file()]
    files = [it for it in files if it.suffix != ".pyc"]
    return "".join(it.read_text(errors="replace") for it in files)


def report_lines(crate):
    """Returns the words that the report lines of a crate begin with, up to what differs from line to line."""
    found = set()
    for file in (ROOT / "crates" / crate / "src").glob("*.rt"):
        if file.name != "tests.rt":
            text = file.read_text()
            found |= set(re.findall(r'(?:&str = |format!\(in alloc; )"([a-z][a-z :]*[a-z])(?: ?[\d{].*)?\\n"', text))
            found |= set(re.findall(r'\bb"([a-z]+) "', text))
            found |= set(re.findall(r'\btext_of\(b"(ptt [a-z]+)', text))
            found |= {f"tnc: bad input: {it} at" for it in re.findall(r'LineFlaw::\w+ => "([a-z ]+)"', text)}
    return found


# ---- what documents name


def anchor(heading):
    """Returns the name under which a heading is linked."""
    return re.sub(r"[^\w\- ]", "", heading.lower()).replace(" ", "-")


def spans(text):
    """Returns the pieces of code of a document, each with its line: spans between back quotes, and lines of blocks."""
    found, in_block = [], False
    for number, line in enumerate(text.splitlines(), 1):
        if line.startswith("```"):
            in_block = not in_block
        elif in_block:
            found.append((number, line))
        else:
            found += [(number, it) for it in re.findall(r"`([^`]+)`", line)]
    return found


def dead_links(_, name, text):
    """Finds links to files or headings that are not there."""
    for number, line in enumerate(text.splitlines(), 1):
        for target in re.findall(r"\]\(([^)\s]+)\)", line):
            if re.match(r"\w+:", target):
                continue
            file, _, heading = target.partition("#")
            page = (ROOT / name).parent / file if file else ROOT / name
            if not page.exists():
                yield number, f"links to {target}, which is not there"
            elif heading and heading not in [anchor(it) for it in re.findall(r"^#+ (.*)$", page.read_text(), re.M)]:
                yield number, f"links to {target}, which has no such heading"


def missing_files(_, name, text):
    """Finds files of the repository that are named and not there. A name may have * for any part of it."""
    for number, span in spans(text):
        for word in re.findall(r"[\w.*/{},-]+", span):
            word = word.rstrip(".,")
            if word.split("/")[0] in FOLDERS and "/" in word and not re.search(r"[A-Z]{3,}$|[{}]", word):
                if not any(ROOT.glob(word)):
                    yield number, f"names {word}, which is not there"
            elif re.fullmatch(r"\w+\.(md|py|sh|rt|antt)", word) and word not in file_names():
                yield number, f"names {word}, which is not there"


@functools.cache
def file_names():
    """Returns the names of all files of the repository, without their folders."""
    words = ["git", "ls-files", "-co", "--exclude-standard"]
    listed = subprocess.run(words, cwd=ROOT, capture_output=True, text=True).stdout
    return {it.rpartition("/")[2] for it in listed.splitlines()}


def unknown_options(facts, _, text):
    """Finds options that a command of the program, or a script, does not have."""
    every = set().union(*facts.options.values())
    scripts = "".join(facts.scripts.values())
    for number, span in spans(text):
        for command, rest in re.findall(rf"\btnc ({'|'.join(COMMANDS)})\b([^|>&;)]*)", span):
            for option in re.findall(r"(?<!\S)\[?(--[a-z][a-z0-9-]*)", rest):
                if option not in facts.options[command] | {"--help"}:
                    yield number, f"gives {command} the option {option}, which it does not have"
        for script, rest in re.findall(r"\b((?:scripts(?:/\w+)?|bench)/[\w.]+)([^|>&;)]*)", span):
            for option in re.findall(r"(?<!\S)\[?(--[a-z][a-z0-9-]*)", rest.partition(" -- ")[0]):
                if option not in facts.scripts.get(script, option):
                    yield number, f"gives {script} the option {option}, which it does not have"
        for option in re.findall(r"^(--[a-z][a-z0-9-]*)", span):
            if option not in every | {"--help", "--version"} and option not in scripts:
                yield number, f"speaks of {option}, which neither the program nor a script has"


def begins_as(said, known):
    """Tells whether a line that is spoken of is one of those known, of which a document may leave out the end."""
    return any(said.startswith(it) or it.startswith(said) for it in known)


def unknown_reports(facts, _, text):
    """Finds report lines that the program does not have. What stands for a number, digits or octets is left out."""
    known = set().union(*facts.lines.values())
    for number, span in spans(text):
        for said in re.findall(r"^(tnc: [a-z ]+[a-z])", span):
            if not begins_as(re.sub(r" [a-z]$", "", said), known):
                yield number, f"speaks of the report `{said}`, which the program does not have"
    for number, row in rows_of_reports(text):
        for said in re.findall(r"`([a-z][a-z: ]*[a-z])", row):
            if not begins_as(said, known):
                yield number, f"speaks of the report `{said}`, which the program does not have"


def rows_of_reports(text):
    """Returns the first column of the tables of report lines, with their lines."""
    inside = False
    for number, line in enumerate(text.splitlines(), 1):
        inside = line.startswith("| Line on standard error") or (inside and line.startswith("|"))
        if inside and "`" in line.split("|")[1]:
            yield number, line.split("|")[1]


def unknown_statuses(facts, _, text):
    """Finds statuses that the program does not have, in sentences and in tables of statuses."""
    in_table = False
    for number, line in enumerate(text.splitlines(), 1):
        in_table = line.startswith("| Status |") or (in_table and line.startswith("|"))
        told = re.findall(r"\bstatus (\d+)\b", line) + (re.findall(r"^\| (\d+) \|", line) if in_table else [])
        for it in told:
            if int(it) not in facts.statuses:
                yield number, f"speaks of status {it}, which the program does not have"


def unknown_crates(_, name, text):
    """Finds crates in the tables of the page on crates that crates.txt does not list."""
    listed = set(re.findall(r"^(\w+):", (ROOT / "crates.txt").read_text(), re.M))
    if name != "docs/CLAUSES.md":
        return
    for number, line in enumerate(text.splitlines(), 1):
        crate = re.match(r"\| `(\w+)` \|", line)
        is_below = number > text[: text.find("crate by crate")].count("\n")
        if crate and "_" in crate[1] and crate[1] not in listed and is_below:
            if not re.search(rf"\b{crate[1]}\b", (ROOT / "crates/tnc_main/src/program.rt").read_text()):
                yield number, f"speaks of the crate {crate[1]}, which is not listed"


# ---- what the program has


def plain(manual):
    """Returns the manual page without its marks, line by line."""
    lines = re.sub(r"\\f.|\\e", "", manual).replace("\\-", "-").splitlines()
    return [re.sub(r'^\.[A-Z]+ ', "", it).replace('"', "") for it in lines]


def section(manual, begin):
    """Returns the part of the manual page from a heading to the next of its kind."""
    mark = begin[:4]
    return manual.partition(f"\n{begin}\n")[2].partition(f"\n{mark}")[0].partition("\n.SH ")[0]


def not_in_manual(facts):
    """Finds options, report lines and statuses that the manual page does not have."""
    for command, options in facts.options.items():
        words = " ".join(plain(section(facts.manual, f".SS {command}"))).split()
        for option in sorted(options - {"--help"}):
            if option not in words:
                yield f"does not have the option {option} of {command}"
    lines = plain(section(facts.manual, ".SH DIAGNOSTICS"))
    for said in sorted(set().union(*facts.lines.values())):
        if not any(it == said or it.startswith(f"{said} ") for it in lines):
            yield f"does not have the report line `{said}`"
    told = re.findall(r"^\.B (\d+)$", section(facts.manual, ".SH EXIT STATUS"), re.M)
    for status in sorted(facts.statuses - {int(it) for it in told}):
        yield f"does not have the status {status}"
    for status in sorted({int(it) for it in told} - facts.statuses):
        yield f"has the status {status}, which the program does not have"
    for file in re.findall(r"^\.I(?:R|) (docs/[\w.]+)", facts.manual, re.M):
        if not (ROOT / file).exists():
            yield f"names {file}, which is not there"


def not_in_operating(facts):
    """Finds report lines of `serve` that the table of the page for operators does not have."""
    rows = rows_of_reports(facts.pages.get(OPERATING, ""))
    told = [it for _, row in rows for it in re.findall(r"`([a-z: ]*[a-z])", row)]
    for said in sorted(facts.lines["tnc_ports"] | facts.lines["keying"]):
        if not any(it == said or it.startswith(f"{said} ") for it in told):
            yield f"does not have the report line `{said}` of serve"


FINDERS = (dead_links, missing_files, unknown_options, unknown_reports, unknown_statuses, unknown_crates)


def faults(facts):
    """Returns what is named and not there, and what is there and not named."""
    found = [f"{name}:{number}: {what}" for name, text in facts.pages.items() for find in FINDERS
             for number, what in find(facts, name, text)]
    found += [f"{MANUAL}: it {what}" for what in not_in_manual(facts)]
    return found + [f"{OPERATING}: it {what}" for what in not_in_operating(facts)]


# ---- the check of this check

PLANTED = {  # what is planted in a page, and what is said of it
    "`tnc serve --kis 1`": "serve the option --kis,",
    "`scripts/trials/soak.py --no-such" "-word 1`": "scripts/trials/soak.py the option --no-such" "-word",
    "`--no-such" "-option`": "speaks of --no-such" "-option",
    "`docs/NONE.md`": "names docs/NONE.md",
    "`no_such_script" ".py`": "names no_such_script",
    "[it](docs/NONE.md)": "links to docs/NONE.md",
    "[it](docs/HOSTS.md#none)": "no such heading",
    "`tnc: no such line`": "the report `tnc: no such line`",
    "ends with status 99": "status 99",
    "| Status | |\n|---|---|\n| 98 | what |": "status 98",
    "| Line on standard error |\n|---|\n| `shut ID` |": "the report `shut`",
}
CUT = {  # what is cut out of the manual page, and what is said of that
    '.BI \\-\\-window " n"\n': "the option --window of serve",
    "tnc: no port": "the report line `tnc: no port`",
    '.BI "gap "': "the report line `gap`",
    ".B 15\n": "the status 15",
}
GOOD = ("`tnc serve --kiss 1`, `docs/HOSTS.md`, [it](docs/HOSTS.md), `tnc: no port`, `scripts/trials/soak.py --minutes 1`, "
        "status 10\n")


def self_test(facts):
    """Returns whether each planted fault is found, each alone, and none in what is good."""
    wrong = []

    def sees(what, said, **changed):
        found = faults(dataclasses.replace(facts, **changed))
        if (len(found) != 1 or said not in found[0]) if said else found:
            wrong.append(f"{what}: {found}")

    table = "".join(f"| `{it}` |\n" for it in facts.lines["tnc_ports"] | facts.lines["keying"])
    page = {OPERATING: f"| Line on standard error |\n|---|\n{table}"}
    sees("a good page", None, pages={**page, "README.md": GOOD})
    for text, said in PLANTED.items():
        sees(text, said, pages={**page, "README.md": GOOD + text + "\n"})
    for text, said in CUT.items():
        sees(f"the manual page without {text}", said, pages=page, manual=facts.manual.replace(text, "\n"))
    less = {OPERATING: page[OPERATING].replace("| `gap` |\n", "")}
    sees("a page without a line", "the report line `gap`", pages=less)
    print("\n".join(f"not found as it should be: {it}" for it in wrong), end="\n" if wrong else "")
    return not wrong


def main():
    words = sys.argv[1:]
    facts = gathered(next((it for it in words if not it.startswith("--")), str(ROOT / "bin/tnc")))
    found = faults(facts)
    print("\n".join(found), end="\n" if found else "")
    good = [] if found else [self_test(facts)]
    if "--self-test" in words:
        good = [self_test(facts)]
    return 0 if good == [True] else 1


if __name__ == "__main__":
    sys.exit(main())
