#!/usr/bin/env python3
"""How long a half-duplex station waits to send where its receiver gives it noise, for each `--dcd`.

  scripts/trials/open_squelch.py [--tnc PROGRAM] [--minutes N] [--dcd HOW ..] [--level N] [--seed N]

The station hears white noise for so many minutes of sound, and always has frames to send; its persistence is 255 and its
TXDELAY 0, so that nothing but a busy channel holds it back. It sends eight frames in a transmission, and the next one follows
at once if the channel is free: what is silent is a wait. A line tells how many transmissions it made, before how many of them
it had to wait, and how long."""
import argparse
import array
import os
import random
import sys

sys.path.append(os.path.join(os.path.dirname(__file__), "../shared"))
from air import TICK, Kiss, Station, read_all

FRAME = bytes.fromhex("82a0a4a64040609c6e988a9a406103f0")
STEP = 2  # ticks at a time
EACH = 8  # frames in a transmission
BITS = 152  # of a frame with its flag, or a few more


def noise(draws, level):
    """A minute of it."""
    return array.array("h", (max(-32767, min(32767, round(draws.gauss(0, level)))) for _ in range(60 * 9600))).tobytes()


def keyed(station, heard, draws, steps):
    """Whether something is sent, tick for tick."""
    for _ in range(steps):
        at = draws.randrange((len(heard) - STEP * TICK) // 2) * 2
        station.program.stdin.write(heard[at : at + STEP * TICK])
        sent = read_all(station.program.stdout, STEP * TICK)
        yield from (any(sent[tick : tick + TICK]) for tick in range(0, len(sent), TICK))


def measured(tnc, dcd, minutes, level, seed):
    """How many transmissions it made, and the ticks of each wait."""
    draws = random.Random(seed)
    station = Station(tnc, "--seed", seed, "--dcd", dcd, "--monitor")
    host = Kiss(station)
    for command, value in ((1, 0), (2, 255), (3, 0), (4, 0)):
        host.send(bytes([value]), command=command)
    queued, sending, waits, silent = 0, 0, [], 0
    for tick, sends in enumerate(keyed(station, noise(draws, level), draws, minutes * 6000 // STEP)):
        if tick % STEP == 0:
            for _ in range(5 * EACH + sending * 12 // BITS - queued):
                host.send(FRAME)
                queued += 1
        if sends and silent and sending:
            waits.append(silent)
        sending, silent = sending + sends, 0 if sends else silent + 1
    frames = station.end()[2].count("tx ")
    return frames / EACH, waits


def main():
    reader = argparse.ArgumentParser()
    reader.add_argument("--tnc", default="bin/tnc")
    reader.add_argument("--minutes", type=int, default=10)
    reader.add_argument("--dcd", nargs="+", default=["tones", "1", "2", "3"])
    reader.add_argument("--level", type=int, default=3000)
    reader.add_argument("--seed", type=int, default=1)
    given = reader.parse_args()
    for dcd in given.dcd:
        made, waits = measured(given.tnc, dcd, given.minutes, given.level, given.seed)
        mean, longest = sum(waits) / max(made, 1) / 100, max(waits, default=0) / 100
        print(
            f"dcd {dcd}: {made:.0f} transmissions in {given.minutes} minutes, {100 * len(waits) / max(made, 1):.2f} % of them"
            f" after a wait; {mean:.2f} s on average, {longest:.2f} s at most", flush=True,
        )


main()
