#!/usr/bin/env python3
"""Checks `tnc bench`: its worked runs, and a hundred others; or a table of runs at several losses and noises.

  scripts/checks/check_bench.py [--tnc PROGRAM] [--runs N] [--octets N] [--at-once N]
  scripts/checks/check_bench.py --table [--seeds N]

The runs draw their seeds, losses of 0 to 60 %, both kinds of duplex, both moduli and check octets. Without noise each ends with status 0, 7 or 8:
a frame that nobody sent is not heard. At status 0 the counts are those of the run: as many octets as were given, the last set-up
of each side whole with the hash that the other side gave, and in every set-up no more got than the other side gave. A run again
gives the same. It prints one line, and ends with status 0 where all is well.

With --table it runs `bench` at some losses and noises with so many seeds each, and prints a table."""
import argparse
import collections
import concurrent.futures
import random
import re
import statistics
import subprocess
import sys

WORKED = [
    ("--seed 7 --octets 0 --full", 0, "ticks 172", "sent 4 lost 0"),
    ("--seed 7 --octets 0 --full --wide", 0, "ticks 172", "sent 4 lost 0"),
    ("--seed 7 --octets 2000 --loss 20", 0, "ticks 5264", "sent 16 lost 6"),
    ("--seed 85 --octets 5000 --full", 0, "ticks 3952", None),
]
REPORTS = {0: r"", 6: r"tnc: stray [0-9a-f]+\n", 7: r"tnc: not quiet at [0-9]+\n", 8: r"tnc: spent after [0-9]+ ticks\n"}
SET_UP = re.compile(r"([AB]) (\d+) given (\d+) ([0-9a-f]{16}) got (\d+) ([0-9a-f]{16})")
LOSSES, NOISES = (0, 10, 20, 40, 60), (1, 500, 2000)

Run = collections.namedtuple("Run", "status lines report")


def run_of(tnc, words):
    done = subprocess.run([tnc, "bench", *words], stdin=subprocess.DEVNULL, capture_output=True, text=True)
    return Run(done.returncode, done.stdout.splitlines(), done.stderr)


def fault_of(words, run, octets):
    """What is wrong with a run, or nothing."""
    if run.status not in REPORTS or not re.fullmatch(REPORTS[run.status], run.report):
        return f"status {run.status}, report {run.report!r}"
    if run.status:
        return "an output" if run.lines else ""
    shape = re.fullmatch(r"ticks (\d+)\nsent (\d+) lost (\d+)", "\n".join(run.lines[:2]))
    rows = [SET_UP.fullmatch(line) for line in run.lines[2:]]
    if not shape or not all(rows) or not rows:
        return f"lines of another form: {run.lines[:3]}"
    if int(shape[3]) > int(shape[2]) or "--loss" not in words and int(shape[3]):
        return f"losses: {run.lines[1]}"
    sides = {side: [row for row in rows if row[1] == side] for side in "AB"}
    if [row[1] for row in rows] != sorted(row[1] for row in rows):
        return "set-ups out of their order"
    for side, those in sides.items():
        if [int(row[2]) for row in those] != list(range(1, len(those) + 1)) or not those:
            return f"the numbers of the set-ups of {side}"
    (a, b) = (those[-1] for those in sides.values())
    if not int(a[3]) == int(a[5]) == int(b[3]) == int(b[5]) == octets or a[4] != b[6] or b[4] != a[6]:
        return f"the last set-ups: {a[0]}; {b[0]}"
    most = {side: max(int(row[3]) for row in those) for side, those in sides.items()}
    if any(int(row[5]) > most["B" if side == "A" else "A"] for side, those in sides.items() for row in those):
        return "more got than given"
    return ""


def worked(tnc):
    """How many of the worked runs are not as they are to be."""
    wrong = 0
    for words, status, ticks, sent in WORKED:
        run = run_of(tnc, words.split())
        if run.status != status or ticks not in run.lines or sent and sent not in run.lines:
            wrong += 1
            print(f"WRONG: bench {words}: status {run.status}, {run.lines[:2]}")
    return wrong


def drawn(count, octets):
    """So many runs: their words, and their octets."""
    draws = random.Random(1)
    for seed in range(count):
        given = draws.choice([0, 1, 256, 257, octets])
        words = ["--seed", str(draws.choice([seed, draws.getrandbits(64)])), "--octets", str(given)]
        loss = draws.randrange(61)
        words += ["--loss", str(loss)] if loss else []
        words += draws.choice([[], [], ["--fx25", draws.choice(["16", "32", "64"])]])
        yield words + draws.choice([[], ["--full"]]) + draws.choice([[], [], ["--wide"]]), given


def check(given):
    wrong = worked(given.tnc)
    ends = collections.Counter()

    def one(row):
        words, octets = row
        run = run_of(given.tnc, words)
        fault = fault_of(words, run, octets)
        if run.status == 6:
            fault = f"a stray without noise: {run.report.strip()[:100]}"
        if not fault and run_of(given.tnc, words) != run:
            fault = "another run with the same words"
        return words, run, fault

    with concurrent.futures.ThreadPoolExecutor(given.at_once) as pool:
        for words, run, fault in pool.map(one, drawn(given.runs, given.octets)):
            ends[run.status] += 1
            if fault:
                wrong += 1
                print(f"WRONG: bench {' '.join(words)}: {fault}", flush=True)
    told = ", ".join(f"{count} with status {status}" for status, count in sorted(ends.items()))
    print(f"{len(WORKED)} worked runs and {given.runs} others: {told}; {wrong} wrong")
    return wrong


def row_of(given, words):
    """A row of the table: how the runs ended, and the medians of those that ended well."""
    with concurrent.futures.ThreadPoolExecutor(given.at_once) as pool:
        runs = list(pool.map(lambda seed: run_of(given.tnc, ["--seed", str(seed), *words.split()]), range(1, given.seeds + 1)))
    well = [it for it in runs if it.status == 0]
    others = collections.Counter(it.status for it in runs if it.status)
    cells = ["", "", "", ""]
    if well:
        numbers = [list(map(int, re.findall(r"\d+", " ".join(it.lines[:2])))) for it in well]
        ticks, sent, lost = (statistics.median(it[at] for it in numbers) for at in range(3))
        set_ups = statistics.median(sum(line.startswith("A ") for line in it.lines) for it in well)
        cells = [f"{ticks / 100:.0f} s", f"{sent:g}", f"{lost:g}", f"{set_ups:g}"]
    told = ", ".join(f"{count} with {status}" for status, count in sorted(others.items()))
    return f"| `{words or '-'}` | {len(well)} | {told} | " + " | ".join(cells) + " |"


def table(given):
    print("| Words | Well | Others, with their status | Time on the air | Transmissions | Lost | Connections of A |")
    print("|---|---|---|---|---|---|---|")
    for duplex in "", " --full":
        for loss in LOSSES:
            print(row_of(given, f"--loss {loss}{duplex}"), flush=True)
    for noise in NOISES:
        print(row_of(given, f"--noise {noise} --full"), flush=True)
    print(row_of(given, "--noise 2000 --loss 20 --full"), flush=True)
    print(row_of(given, "--noise 1"), flush=True)
    return 0


def main():
    reader = argparse.ArgumentParser()
    reader.add_argument("--tnc", default="bin/tnc")
    reader.add_argument("--runs", type=int, default=100)
    reader.add_argument("--octets", type=int, default=1500)
    reader.add_argument("--at-once", type=int, default=1)
    reader.add_argument("--table", action="store_true")
    reader.add_argument("--seeds", type=int, default=20)
    given = reader.parse_args()
    sys.exit((table(given) if given.table else check(given)) > 0)


if __name__ == "__main__":
    main()
