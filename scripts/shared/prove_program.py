#!/usr/bin/env python3
"""Proves the program's crates and builds it, and tells how far that is: on a terminal in one line that is written anew
each second, else in a line a crate. If the files are those of the last build, it says so and does nothing.

  scripts/shared/prove_program.py         (scripts/build.sh calls it)"""
import hashlib
import os
import subprocess
import sys
import threading
import time
from pathlib import Path

PROGRAM = "tnc_main"
PARTS = ("src", "specs", "proofs")
MEMORY = 3 << 30  # octets that a proof may take


def crates_of(program):
    """Returns the program's crate and those of the repository below it."""
    uses = {}
    for line in Path("crates.txt").read_text().splitlines():
        name, _, below = line.partition("#")[0].partition(":")
        if name.strip():
            uses[name.split()[0]] = below.split()
    found, open_names = [], [program]
    while open_names:
        name = open_names.pop()
        if name in uses and name not in found:
            found.append(name)
            open_names += uses[name]
    return found


def files_of(crate):
    """Returns the files of a crate that its proof reads."""
    files = [it for part in PARTS for it in Path("crates", crate, part).rglob("*") if it.is_file()]
    return sorted(files)


def sum_of(crates):
    """Returns a sum of all that the program is made from."""
    total = hashlib.sha256(subprocess.run(["rt", "version"], capture_output=True).stdout)
    for file in [Path("crates.txt"), Path("HANDLES"), *[it for crate in sorted(crates) for it in files_of(crate)]]:
        total.update(f"{file}\n".encode() + file.read_bytes())
    return total.hexdigest()


def processors():
    """Returns how many crates are proved beside each other: one for each processor, if there is memory for so many."""
    memory = os.sysconf("SC_PAGE_SIZE") * os.sysconf("SC_PHYS_PAGES")
    return max(1, min(len(os.sched_getaffinity(0)), memory // MEMORY))


class Progress:
    """What is told while crates are proved. A crate counts as much as its lines: they tell best how long it takes."""

    def __init__(self, lines, out=sys.stderr, clock=time.monotonic):
        self.lines, self.out, self.clock = lines, out, clock
        self.start, self.done, self.shown, self.last = clock(), set(), 0, ""
        self.lock, self.is_over = threading.Lock(), threading.Event()
        if out.isatty():
            threading.Thread(target=self.tick, daemon=True).start()

    def tick(self):
        """Writes the line anew each second."""
        while not self.is_over.wait(1):
            with self.lock:
                if not self.is_over.is_set():
                    self.tell(self.line())

    def line(self):
        """How far it is: crates done of all, minutes so far, and about how many are left."""
        part = sum(self.lines[it] for it in self.done) / sum(self.lines.values())
        minutes = (self.clock() - self.start) / 60
        is_known = minutes > 1 and 0.1 < part < 1
        left = f", about {max(1, round(minutes * (1 - part) / part))} min left" if is_known else ""
        last = f" ({self.last})" if self.last else ""
        return f"{len(self.done)} of {len(self.lines)} crates proved, {minutes:.0f} min so far{left}{last}"

    def tell(self, text, stays=False):
        """Writes a line, on a terminal over the one before it."""
        if not self.out.isatty():
            print(text, file=self.out, flush=True)
            return
        print("\r" + text.ljust(self.shown), end="\n" if stays else "", file=self.out, flush=True)
        self.shown = 0 if stays else len(text)

    def proved(self, crate):
        """Tells that a crate is proved."""
        with self.lock:
            self.done.add(crate)
            self.last = crate
            self.tell(self.line())

    def end(self, text):
        """Tells how it ended."""
        with self.lock:
            self.is_over.set()
            self.tell(text, stays=True)


def prove(crates):
    """Proves the crates, those that do not need each other beside each other, and returns whether all are."""
    progress = Progress({it: sum(file.read_bytes().count(b"\n") for file in files_of(it)) for it in crates})
    command = ["rt", "all", "check", "--jobs", str(processors())]
    said, is_summary = [], False
    with subprocess.Popen(command, cwd=f"crates/{PROGRAM}", stdout=subprocess.PIPE, stderr=subprocess.STDOUT,
                          text=True, errors="replace") as run:
        for line in run.stdout:
            said.append(line)
            is_summary = is_summary or line == "== summary\n"
            name = line[3:].strip() if line.startswith("== ") else ""
            if name in crates and not is_summary:
                progress.proved(name)
    if run.returncode:
        progress.end("not proved: what the prover said last follows")
        sys.stderr.writelines(said[-60:])
        return False
    progress.end(f"all {len(crates)} crates proved; building the program")
    return True


def main():
    os.chdir(Path(__file__).resolve().parents[2])
    crates = crates_of(PROGRAM)
    out = Path("crates", PROGRAM, "out")
    stamp, now = out / "built_from", sum_of(crates)
    if (out / PROGRAM).exists() and stamp.exists() and stamp.read_text() == now:
        print("nothing to do: the program is built from these files", file=sys.stderr)
        return 0
    print(f"{len(crates)} crates are proved before the program is built, {processors()} at a time: each function is\n"
          "checked against what its source promises, which takes longer than compiling. If nothing is proved yet, it takes\n"
          "about half an hour on four processors with nothing else to do; a later run proves what changed.",
          file=sys.stderr)
    if not prove(crates):
        return 1
    built = subprocess.run(["rt", "run", "--", "decode"], cwd=f"crates/{PROGRAM}", stdin=subprocess.DEVNULL,
                           stdout=subprocess.PIPE, stderr=subprocess.STDOUT, text=True, errors="replace")
    if built.returncode:
        sys.stderr.write(built.stdout[-6000:])
        return built.returncode
    if sum_of(crates) == now:
        stamp.write_text(now)
    return 0


if __name__ == "__main__":
    try:
        sys.exit(main())
    except KeyboardInterrupt:
        sys.exit("\nstopped: what is proved so far is kept")
