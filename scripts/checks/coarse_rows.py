#!/usr/bin/env python3
"""Prints the table of the coarse count of wrong bits, crates/fx25_blocks/src/coarse_rows.rt, from the tags.

  scripts/checks/coarse_rows.py             prints the file
  scripts/checks/coarse_rows.py --check     says whether the file is what is printed

The first 48 bits of a tag are six pieces of eight, the lowest bits first. For each piece and each value of eight bits a
row has a field of five bits for each tag, that of tag 1 the lowest: in how many of the eight bits the tag is wrong, but at
most four."""
import re
import sys
from pathlib import Path

SOURCES = Path(__file__).resolve().parents[2] / "crates/fx25_blocks/src"
PIECES = 6
MOST = 4
FIELD = 5

HEAD = """//! The table of the coarse count: in how many of eight bits each tag is wrong, but at most four, in a field of five bits
//! for each tag.

// The rows of the first eight bits begin at 0, those of the next eight at 256.
"""


def tags():
    """The values of the tags, as the code has them."""
    text = (SOURCES / "tags.rt").read_text()
    values = re.search(r"static VALUES: \[u64; 11\] = \[(.*?)\];", text, re.S)[1]
    return [int(value.replace("_", ""), 16) for value in re.findall(r"0x[0-9A-F_]+", values)]


def row(piece, eight, values):
    """The counts of eight bits for all tags, as one number."""
    wrong = [(eight ^ (value >> (8 * piece)) & 255).bit_count() for value in values]
    return sum(min(MOST, count) << (FIELD * place) for place, count in enumerate(wrong))


def grouped(number):
    """A number of 64 bits in hexadecimal, in groups of four digits."""
    digits = f"{number:016x}"
    return "0x" + "_".join(digits[place : place + 4] for place in range(0, 16, 4))


def printed():
    values = tags()
    rows = [row(piece, eight, values) for piece in range(PIECES) for eight in range(256)]
    lines = "".join(f"    {grouped(number)},\n" for number in rows)
    return f"{HEAD}pub static ROWS: [u64; {len(rows)}] = [\n{lines}];\n"


def main():
    if sys.argv[1:] == ["--check"]:
        if (SOURCES / "coarse_rows.rt").read_text() != printed():
            sys.exit("coarse_rows.rt is not what scripts/checks/coarse_rows.py prints")
    elif sys.argv[1:]:
        sys.exit(__doc__)
    else:
        print(printed(), end="")


main()
