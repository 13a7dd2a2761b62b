#!/usr/bin/env python3
"""Lists the files that a reader must believe for each promise, from the contracts themselves.

A promise is a clause of `run`, or the contract of a law. What it means is told by the definitions that it names, by
those that these name, and so on down, and by the types of the program whose fields they speak of. This script follows
the names through the `use` lines and lists the files that it comes to, each after all that it rests on, with their
lines. `docs/TRUST.md` holds the table between two marks.

    scripts/checks/trust_table.py            prints the table
    scripts/checks/trust_table.py --write    writes it into docs/TRUST.md
    scripts/checks/trust_table.py --check    fails if docs/TRUST.md has another table than the tree
"""
import re
import sys
from dataclasses import dataclass, field
from pathlib import Path

ROOT = Path(__file__).resolve().parents[2]
CRATES = ROOT / "crates"
PAGE = ROOT / "docs" / "TRUST.md"
BEGIN = "<!-- begin: made by scripts/checks/trust_table.py -->"
END = "<!-- end -->"

# Each promise: its name in the table, the file, and the clause of `run` or the function whose whole contract counts.
PROMISES = [
    ("heard", "tnc_main/src/program.rt", "clause", "heard"),
    ("benched", "tnc_main/src/program.rt", "clause", "benched"),
    ("served", "tnc_main/src/program.rt", "clause", "served"),
    ("keyed", "tnc_main/src/program.rt", "clause", "keyed"),
    ("recorded", "tnc_main/src/program.rt", "clause", "recorded"),
    ("called", "tnc_main/src/program.rt", "clause", "called"),
    ("two links", "link_world/src/laws.rt", "function", "prefix_law"),
    ("two stations", "station_laws/src/laws.rt", "function", "stations_law"),
    ("a call", "call_laws/src/laws.rt", "function", "a_call_prints_what_was_given"),
    ("two live runs", "live_laws/src/laws.rt", "function", "two_live_runs"),
]

WORD = re.compile(r"[^\W\d]\w*")
# A definition begins at the left edge, by one of these words.
ITEM = re.compile(r"^(?:pub |abbrev |unfoldable |record |data )+(\S+)")
USE = re.compile(r"^\s*(?:ghost )?(?:pub )?use Rattle\.(\w+)\.(.+?)\.\{([^}]*)\};?\s*$", re.M)
RUST_USE = re.compile(r"^(?:pub )?use (\w+)((?:::\w+)*)::(?:\{([^}]*)\}|(\w+));", re.M)
RUST_TYPE = re.compile(r"^pub(?:\(crate\))? (?:struct|enum|trait|type) (\w+)", re.M)


@dataclass
class Item:
    """A definition, or a type of the program: where it stands and which names it uses."""

    file: Path
    name: str
    words: set = field(default_factory=set)
    clause: str = ""


@dataclass
class File:
    path: Path
    # the items by name, and what an imported name stands for: (crate, module path, name)
    items: dict = field(default_factory=dict)
    imports: dict = field(default_factory=dict)


def without_comments(text, sign):
    return "\n".join(line for line in text.split("\n") if not line.lstrip().startswith(sign))


def ghost_imports(text):
    imports = {}
    for crate, module, names in USE.findall(text):
        for name in names.split(","):
            name = name.strip()
            if " as " in name:
                told, own = name.split(" as ")
                imports[own.strip()] = (crate, module, told.strip())
            elif name:
                imports[name] = (crate, module, name)
    return imports


def read_specs(path):
    """The definitions of a file of specs/."""
    text = without_comments(path.read_text(), "--")
    found = File(path, imports=ghost_imports(text))
    item = None
    for line in text.split("\n"):
        if line.startswith("use ") or line.startswith("pub mod ") or line.startswith("pub use "):
            continue
        begins = ITEM.match(line)
        if begins:
            item = found.items.setdefault(begins.group(1), Item(path, begins.group(1)))
        if item:
            item.words.update(WORD.findall(line))
    return found


def read_source(path):
    """The types of a source file, with the names in their fields, and its Rust imports."""
    text = without_comments(path.read_text(), "//")
    found = File(path, imports=ghost_imports(text))
    for crate, module, many, one in RUST_USE.findall(text):
        for name in (many or one).split(","):
            name = name.strip().split(" as ")[0]
            if name:
                found.imports.setdefault(name, (crate, module, name))
    for begins in RUST_TYPE.finditer(text):
        name = begins.group(1)
        rest = text[begins.start():]
        # A tuple struct or a type ends with a semicolon, everything else with a brace at the left edge.
        ends = re.search(r";$|^\}", rest, re.M)
        body = rest[: ends.end() if ends else len(rest)]
        found.items[name] = Item(path, name, set(WORD.findall(body)) - {name})
    return found


class Tree:
    def __init__(self):
        self.files = {}
        self.types = {}
        for crate in sorted(path.name for path in CRATES.iterdir() if (path / "src").is_dir()):
            for path in sorted((CRATES / crate / "specs").rglob("*.antt")):
                self.files[path] = read_specs(path)
            for path in sorted((CRATES / crate / "src").rglob("*.rt")):
                if "tests" in path.parts:
                    continue
                self.files[path] = read_source(path)
                for name in self.files[path].items:
                    self.types.setdefault((crate, name), path)

    def resolve(self, found, name):
        """The item that a name stands for in a file, or None for one of the kit or of a variable."""
        if name in found.items:
            return found.items[name]
        if name not in found.imports:
            return None
        crate, module, told = found.imports[name]
        if crate == "crate":
            crate = found.path.relative_to(CRATES).parts[0]
        if not (CRATES / crate).is_dir():
            return None
        if module.startswith("specs.declared."):
            # a type of the program, or the variants or constants of one
            parts = module.split(".")[2:]
            names = [told] if parts[-1] not in ("TheVariants",) else [parts[-2]]
            path = self.types.get((crate, names[0]))
            return self.files[path].items[names[0]] if path else None
        if module.startswith("specs."):
            parts = module.split(".")[1:]
            path = CRATES / crate / "specs" / ("/".join(parts) + ".antt")
            if path not in self.files:
                # the cases of a definition
                told = parts.pop()
                path = CRATES / crate / "specs" / ("/".join(parts) + ".antt")
            if path not in self.files:
                raise SystemExit(f"{found.path}: no file for {module} of {crate}")
            return self.files[path].items.get(told)
        path = self.types.get((crate, told))
        return self.files[path].items[told] if path else None

    def below(self, item):
        """The items that an item names."""
        found = self.files[item.file]
        return [other for other in (self.resolve(found, word) for word in sorted(item.words)) if other]

    def reached(self, roots):
        reached, open_items = {}, list(roots)
        while open_items:
            item = open_items.pop()
            key = (item.file, item.name)
            if key not in reached:
                reached[key] = item
                open_items.extend(self.below(item))
        return reached


def braces(text, start):
    """The text from the brace at or after a place to the one that closes it."""
    begin = text.index("{", start)
    depth = 0
    for at in range(begin, len(text)):
        depth += {"{": 1, "}": -1}.get(text[at], 0)
        if depth == 0:
            return text[begin: at + 1]
    raise SystemExit("a brace is not closed")


def roots(tree, path, kind, name):
    """The items that a clause, or the contract of a law, names."""
    path = CRATES / path
    text = without_comments(path.read_text(), "//")
    words = set()
    if kind == "clause":
        at = re.search(rf"ensures {name} \{{", text)
        if not at:
            raise SystemExit(f"{path}: no clause {name}")
        words.update(WORD.findall(braces(text, at.start())))
        # The clause speaks of streams and ports by the traits that bound its parameters.
        head = text[: at.start()]
        generics = head[head.rindex("pub fn "):]
        for parameter, bounds in re.findall(r"(\w+): ([\w +]+)", generics):
            if parameter in words:
                words.update(WORD.findall(bounds))
    else:
        at = text.index(f"pub fn {name}(")
        words.update(WORD.findall(braces(text, text.index("ensures", at))))
    found = tree.files[path]
    items = [tree.resolve(found, word) for word in sorted(words)]
    return [item for item in items if item]


def ordered(tree, items):
    """The files of these items, each after those that its items name."""
    below = {}
    for item in items.values():
        below.setdefault(item.file, set()).update(other.file for other in tree.below(item))
    order, seen = [], set()

    def visit(path):
        if path not in seen:
            seen.add(path)
            for other in sorted(below.get(path, ())):
                visit(other)
            order.append(path)

    for path in sorted(below):
        visit(path)
    return order


def table():
    tree = Tree()
    reached = {}
    for promise, path, kind, name in PROMISES:
        reached[promise] = tree.reached(roots(tree, path, kind, name))
        if not reached[promise]:
            raise SystemExit(f"{path}: {name} names no definition")
    everything = {key: item for items in reached.values() for key, item in items.items()}
    lines = []
    head = " | ".join(promise for promise, *_ in PROMISES)
    lines.append(f"| File, in `crates/` | Lines | {head} |")
    lines.append("|---|---|" + "---|" * len(PROMISES))
    sums = {promise: [0, 0] for promise in reached}
    for path in ordered(tree, everything):
        count = len(path.read_text().splitlines())
        cells = []
        for promise, items in reached.items():
            names = {item.name for item in items.values() if item.file == path}
            cells.append(str(len(names)) if names else "")
            if names:
                sums[promise][0] += 1
                sums[promise][1] += count
        lines.append(f"| `{path.relative_to(CRATES)}` | {count} | " + " | ".join(cells) + " |")
    lines.append("| **files** | | " + " | ".join(str(sums[promise][0]) for promise in reached) + " |")
    lines.append("| **their lines** | | " + " | ".join(str(sums[promise][1]) for promise in reached) + " |")
    return "\n".join(lines) + "\n"


def main():
    made = table()
    if sys.argv[1:] == []:
        print(made, end="")
        return
    text = PAGE.read_text()
    before, rest = text.split(BEGIN + "\n", 1)
    old, after = rest.split(END, 1)
    if sys.argv[1:] == ["--write"]:
        PAGE.write_text(before + BEGIN + "\n" + made + END + after)
    elif sys.argv[1:] == ["--check"]:
        if old != made:
            raise SystemExit("docs/TRUST.md lists other files than the tree: scripts/checks/trust_table.py --write")
    else:
        raise SystemExit(__doc__)


if __name__ == "__main__":
    main()
