#!/usr/bin/env python3
"""Whether docs/CLAUSES.md and docs/DEFINITIONS.md say again what the sources say: by name, whole, and in order.

- CLAUSES has each clause of `run` in its first table, and no other; in its second, all that a row names stands in the
  sources of the row's crate, and each public law of a crate has its row.
- DEFINITIONS has a row for each file of definitions that the table of docs/TRUST.md sends a reader to, and what a row
  names is defined in the files of the row.

  scripts/checks/check_clauses.py                prints what differs; the status is 1 if anything does
  scripts/checks/check_clauses.py --self-test    plants faults of each kind, and sees that each is found"""
import dataclasses
import re
import sys
from pathlib import Path

ROOT = Path(__file__).resolve().parents[2]
BY_CRATE = "## What is proved, crate by crate"


@dataclasses.dataclass
class Facts:
    """What is there: the pages, and the sources by their names below crates/."""

    clauses: str
    definitions: str
    trust: str
    sources: dict


def gathered():
    """Returns the facts of this repository."""
    files = [*ROOT.glob("crates/*/src/**/*.rt"), *ROOT.glob("crates/*/specs/**/*.antt")]
    page = lambda name: (ROOT / "docs" / name).read_text()
    return Facts(page("CLAUSES.md"), page("DEFINITIONS.md"), page("TRUST.md"),
                 {str(it.relative_to(ROOT / "crates")): it.read_text() for it in sorted(files)})


def rows(text):
    """Returns the cells of each row of a page's tables, without the heads and the lines below them."""
    lines = text.splitlines()
    for line, after in zip(lines, lines[1:] + [""]):
        if line.startswith("|") and not line.startswith("|-") and not after.startswith("|-"):
            yield [it.strip() for it in line.strip().strip("|").split(" | ")]


def spans(cell):
    """Returns what stands between backticks."""
    return re.findall(r"`([^`]+)`", cell)


def has_word(word, text):
    """Tells whether a name stands in a text by itself."""
    return re.search(rf"(?<!\w){re.escape(word)}(?!\w)", text) is not None


def clauses_of_run(facts):
    """Finds clauses of `run` without a row, and rows without a clause."""
    there = re.findall(r"^\s+ensures (\w+)", facts.sources["tnc_main/src/program.rt"], re.M)
    first = facts.clauses.partition(BY_CRATE)[0]
    said = [it for row in rows(first) for it in spans(row[0])]
    yield from (f"CLAUSES has no row for the clause `{it}` of `run`" for it in there if it not in said)
    yield from (f"CLAUSES has a row for `{it}`, which is no clause of `run`" for it in said if it not in there)


def sources_of(facts, crates):
    """Returns the sources of crates as one text."""
    return "".join(text for name, text in facts.sources.items() if name.partition("/")[0] in crates)


def clauses_of_crates(facts):
    """Finds what a row of the second table names and its crate does not have, and laws without a row."""
    crates, told = [], {}
    for row in rows(facts.clauses.partition(BY_CRATE)[2]):
        crates = re.findall(r"`(\w+)`", row[0]) or crates
        there = sources_of(facts, crates)
        for span in spans(row[-1]):
            missing = [it for it in re.findall(r"\w+", span) if not has_word(it, there)]
            if missing:
                yield f"CLAUSES has `{span}` in a row of {', '.join(crates)}, which has no {missing[0]}"
        for crate in crates:
            told[crate] = told.get(crate, "") + row[-1]
    for name, text in facts.sources.items():
        crate = name.partition("/")[0]
        for law in re.findall(r"^pub fn (\w+)", text, re.M) if name.endswith("/src/laws.rt") else []:
            if not has_word(law, told.get(crate, "")):
                yield f"CLAUSES has no row for the law `{law}` of {crate}"


def files_of(cell):
    """Returns the files that a row of DEFINITIONS names; one without a folder stands in that of the one before it."""
    folder, found = "", []
    for it in spans(cell):
        folder = it.rpartition("/")[0] or folder
        found.append(f"{folder}/{it.rpartition('/')[2]}")
    return found


def definitions(facts):
    """Finds what a row defines and its files do not, and files of the table of what is trusted without a row."""
    said = set()
    for row in rows(facts.definitions):
        files = files_of(row[-1])
        said.update(files)
        there = "".join(facts.sources.get(it, "") for it in files)
        yield from (f"DEFINITIONS names the file {it}, which is not there" for it in files if it not in facts.sources)
        yield from (f"DEFINITIONS defines `{it}`, which {' and '.join(files)} do not"
                    for it in spans(row[0]) if not has_word(it, there))
    for name in re.findall(r"^\| `(\w+/specs/[\w/]+\.antt)`", facts.trust, re.M):
        if name not in said:
            yield f"DEFINITIONS has no row for {name}, which docs/TRUST.md sends a reader to"


def faults(facts):
    """Returns all that differs."""
    return [it for find in (clauses_of_run, clauses_of_crates, definitions) for it in find(facts)]


def self_test(facts):
    """Returns whether each planted fault is found, each alone."""
    program = facts.sources["tnc_main/src/program.rt"]
    laws = "tnc_main/src/laws.rt"
    planted = [
        ("no row for the clause `heard`", {"clauses": facts.clauses.replace("| `heard` |", "| |", 1)}),
        ("`unheard`, which is no clause", {"clauses": facts.clauses.replace("| `read` |", "| `read`, `unheard` |", 1)}),
        ("has no planted", {"clauses": facts.clauses.rstrip() + "\n| | nothing | `planted` |\n"}),
        ("the law `planted_law`", {"sources": {**facts.sources, laws: facts.sources[laws] + "\npub fn planted_law()"}}),
        ("the clause `planted_clause`",
         {"sources": {**facts.sources, "tnc_main/src/program.rt": program + "\n    ensures planted_clause { }"}}),
        ("defines `planted_name`", {"definitions": facts.definitions.replace("| `wave_sample` |", "| `planted_name` |")}),
        ("the file tone_table/specs/None.antt",
         {"definitions": facts.definitions.rstrip() + "\n| | | | `tone_table/specs/None.antt` |\n"}),
        ("no row for tone_table/specs/None.antt",
         {"trust": facts.trust + "\n| `tone_table/specs/None.antt` | 1 |\n"}),
    ]
    wrong = []
    for said, changed in planted:
        found = faults(dataclasses.replace(facts, **changed))
        if len(found) != 1 or said not in found[0]:
            wrong.append(f"{said}: {found}")
    print("\n".join(f"not found as it should be: {it}" for it in wrong), end="\n" if wrong else "")
    return not wrong


def main():
    facts = gathered()
    found = faults(facts)
    print("\n".join(found), end="\n" if found else "")
    return 0 if not found and self_test(facts) else 1


if __name__ == "__main__":
    sys.exit(main())
