#!/usr/bin/env python3
"""How often two stations of this program send at once, if the sound between them has holes. By hand.

  scripts/trials/both_at_once.py [--tnc PROGRAM] [--dcd HOW ..] [--octets N] [--holes PER THOUSAND] [--runs N] [--seed N]
                                 [--mode rej|srej]

Each gives the other so many octets over one link; a hole takes a tick, 10 milliseconds, of what one of them hears. A line a
`--dcd` tells, over all runs: for how much of the time both sent, for how much at least one of them did, octets a second from
the call to the last octet, and how many links were lost. A station hears nothing while it sends."""
import argparse
import os
import random
import sys
from types import SimpleNamespace

sys.path.append(os.path.join(os.path.dirname(__file__), "../shared"))
from air import TICK, Station
from goodput import Hosts, Ours

LATE = 3  # ticks from one station to the other
LIMIT = 1800 * 100  # ticks of a run


class Told(Ours):
    """A station that takes the channel as busy by what it is told."""

    def __init__(self, given, how, seed):
        self.station = Station(given.tnc, "--seed", seed, "--mode", given.mode, "--dcd", how)


def run(given, how, number):
    """Ticks in which both, and in which one sent, ticks from the call on, octets, and whether the link was lost."""
    draws = random.Random(given.seed + number)
    stations = [Told(given, how, given.seed + 10 * number + at) for at in range(2)]
    hosts = Hosts(SimpleNamespace(kind="both", octets=given.octets), stations)
    ways = [[bytes(TICK)] * LATE for _ in stations]
    both = one = ticks = called = 0
    while not hosts.is_over and ticks < LIMIT:
        sent = [it.tick(way.pop(0)) for it, way in zip(stations, ways)]
        sends = [any(it) for it in sent]
        for at, way in enumerate(ways):
            is_hole = draws.random() < given.holes / 1000
            way.append(bytes(TICK) if is_hole or sends[at] else sent[1 - at])
        hosts.go_on()
        ticks += 1
        if hosts.is_called:
            called = called or ticks
            both, one = both + all(sends), one + any(sends)
    for it in stations:
        it.end()
    return both, one, ticks - called, hosts.got_a + hosts.got_b, hosts.is_lost or ticks >= LIMIT


def main():
    """The table, a line a `--dcd`."""
    reader = argparse.ArgumentParser()
    reader.add_argument("--tnc", default="bin/tnc")
    reader.add_argument("--dcd", nargs="+", default=["tones", "3", "1"])
    reader.add_argument("--octets", type=int, default=3000)
    reader.add_argument("--holes", type=float, default=3)
    reader.add_argument("--runs", type=int, default=10)
    reader.add_argument("--seed", type=int, default=1)
    reader.add_argument("--mode", choices=("rej", "srej"), default="rej")
    given = reader.parse_args()
    print("| `--dcd` | both send, % of the time | one sends, % | octets a second | links lost |\n|---|---|---|---|---|")
    for how in given.dcd:
        rows = [run(given, how, it) for it in range(given.runs)]
        both, one, ticks, octets, lost = (sum(it) for it in zip(*rows))
        shares = f"{100 * both / ticks:.2f} | {100 * one / ticks:.1f} | {100 * octets / ticks:.0f}"
        print(f"| {how} | {shares} | {lost} of {given.runs} |", flush=True)
    return 0


if __name__ == "__main__":
    sys.exit(main())
