#!/usr/bin/env python3
"""Two stations on one machine whose sound reaches each other, at the pace of sound: to try host programs without a radio.

  scripts/tools/two_stations.py [--tnc PROGRAM] [--kiss N N] [--agw N N] [--loss PERCENT] [--seed N] [--seconds N] [--times]
                                [--rate N] [WORD..]

The first station has the first port of each pair, the second one the second. WORDS after `--` go to both, as `-- --mode srej`.
Of so many percent of the transmissions nothing arrives; the seed says of which. A line tells the ports, and each frame that a
station hears or has sent is one more, with --times after the seconds of sound that have gone by. With --rate 48000 the
sound between them has so many samples a second, in place of 9600. It runs until it is stopped, or for so many seconds."""
import argparse
import os
import random
import subprocess
import sys
import threading
import time

sys.path.append(os.path.join(os.path.dirname(__file__), "../shared"))
from air import Loss, connect, read_all, tick_octets

STEP = 2  # ticks at a time


class Clock:
    """The seconds of sound that have gone by."""

    seconds = 0.0


def started(given, at, clock):
    """One of the stations, with its lines as lines of this program's output."""
    words = [given.tnc, "serve", "--kiss", str(given.kiss[at]), "--agw", str(given.agw[at]), "--seed", str(at + 1)]
    words += ["--rate", str(given.rate)]
    pipe = subprocess.PIPE
    program = subprocess.Popen([*words, "--monitor", *given.words], stdin=pipe, stdout=pipe, stderr=pipe, bufsize=0)

    def lines():
        for line in program.stderr:
            when = f"{clock.seconds:.2f} " if given.times else ""
            print(f"{when}{at + 1} {line.decode().rstrip()}", flush=True)

    teller = threading.Thread(target=lines, daemon=True)
    teller.start()
    return program, teller


def carry(stations, losses, seconds, clock, tick):
    """Lets each hear what the other one sends, in ticks of so many octets."""
    heard = [bytes(STEP * tick)] * 2
    if tick != tick_octets(9600):
        # the filter hears a sample once fifteen more have come, so without a tick ahead both would be one behind
        for program, _ in stations:
            program.stdin.write(bytes(tick))
    began, steps = time.monotonic(), 0
    while not seconds or steps * STEP < 100 * seconds:
        for (program, _), sound in zip(stations, heard):
            program.stdin.write(sound)
        sent = [read_all(program.stdout, STEP * tick) for program, _ in stations]
        heard = [losses[1].heard(sent[1]), losses[0].heard(sent[0])]
        steps += 1
        clock.seconds = steps * STEP / 100
        ahead = clock.seconds - (time.monotonic() - began)
        if ahead > 0:
            time.sleep(ahead)


def main():
    reader = argparse.ArgumentParser()
    reader.add_argument("--tnc", default="bin/tnc")
    reader.add_argument("--kiss", type=int, nargs=2, default=[8001, 8011])
    reader.add_argument("--agw", type=int, nargs=2, default=[8000, 8010])
    reader.add_argument("--loss", type=int, default=0)
    reader.add_argument("--seed", type=int)
    reader.add_argument("--seconds", type=float, default=0)
    reader.add_argument("--times", action="store_true")
    reader.add_argument("--rate", type=int, choices=[9600, 48000], default=9600)
    reader.add_argument("words", nargs="*")
    given = reader.parse_args()
    clock = Clock()
    stations = [started(given, at, clock) for at in range(2)]
    draws = random.Random(given.seed)
    for at in range(2):
        if stations[at][0].poll() is None:
            connect(given.agw[at]).close()
            print(f"{at + 1} kiss {given.kiss[at]} agw {given.agw[at]}", flush=True)
    try:
        tick = tick_octets(given.rate)
        carry(stations, [Loss(given.loss, draws, tick) for _ in range(2)], given.seconds, clock, tick)
    except (KeyboardInterrupt, RuntimeError, OSError) as fault:
        if str(fault):
            print(fault, flush=True)
    status = 0
    for program, teller in stations:
        program.stdin.close()
        program.stdout.read()
        status = program.wait() or status
        teller.join()
    return status


if __name__ == "__main__":
    sys.exit(main())
