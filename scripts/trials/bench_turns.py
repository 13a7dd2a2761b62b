#!/usr/bin/env python3
"""How long runs of `tnc bench` take on the air, for two programs side by side: a table of docs/BENCH.md.

  scripts/trials/bench_turns.py --before PROGRAM [--after PROGRAM] [--seeds N]

Each kind of run is made with so many seeds by both programs. A row tells, for each program, how many runs ended well (status 0) and
how the others did, and the mean and the greatest time on the air of those that are well with both. With --full nothing may differ: the
outputs of both are compared, octet by octet. The status is 1 where one differs."""
import argparse
import collections
import re
import statistics
import subprocess
import sys

HALF = ("", "--octets 5000", "--wide --octets 5000", "--loss 10", "--loss 20", "--loss 40")
FULL = ("--full", "--full --loss 20")


def run_of(tnc, seed, words):
    """The status of a run, its ticks, and all that it writes."""
    done = subprocess.run([tnc, "bench", "--seed", str(seed), *words.split()], stdin=subprocess.DEVNULL, capture_output=True, text=True)
    ticks = re.match(r"ticks (\d+)", done.stdout)
    return done.returncode, int(ticks[1]) if ticks else None, done.stdout + done.stderr


def told(runs):
    """How many runs ended well, and how the others did."""
    others = collections.Counter(status for status, _, _ in runs if status)
    return ", ".join([str(sum(not it[0] for it in runs)), *(f"{count} with {status}" for status, count in sorted(others.items()))])


def row(given, words):
    pairs = [[run_of(tnc, seed, words) for seed in range(1, given.seeds + 1)] for tnc in (given.before, given.after)]
    both = [(old[1], new[1]) for old, new in zip(*pairs) if old[0] == new[0] == 0]
    cells = [told(runs) for runs in pairs]
    for ticks in zip(*both):
        cells.append(f"{statistics.mean(ticks) / 100:.1f} s, {max(ticks) / 100:.1f} s")
    print(f"| `{words or '--loss 0'}` | " + " | ".join(cells) + " |", flush=True)


def main():
    reader = argparse.ArgumentParser()
    reader.add_argument("--before", required=True)
    reader.add_argument("--after", default="bin/tnc")
    reader.add_argument("--seeds", type=int, default=20)
    given = reader.parse_args()
    print("| Words | Well before | Well after | Mean and longest time before | After |")
    print("|---|---|---|---|---|")
    for words in HALF:
        row(given, words)
    differ = [
        f"bench --seed {seed} {words}"
        for words in FULL
        for seed in range(1, given.seeds + 1)
        if run_of(given.before, seed, words) != run_of(given.after, seed, words)
    ]
    print("\n".join(f"DIFFERS: {it}" for it in differ) or f"--full: {len(FULL) * given.seeds} outputs, none differs")
    return 1 if differ else 0


sys.exit(main())
