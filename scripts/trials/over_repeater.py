#!/usr/bin/env python3
"""Two stations that reach each other through a repeater alone, in step: whether all arrives, and how often a link asks
in vain. By hand.

  scripts/trials/over_repeater.py [--tnc PROGRAM] [--t1 N] [--octets N] [--runs N] [--late N] [--table]

Three running stations have one channel. The first and the second hear the third alone, which repeats (`--digi`). Each host
gives so many octets as soon as the link is up, and the caller's asks for the end when all has come. A station hears what was
sent so many ticks ago.

A line tells, as means of the runs: seconds until all had arrived, how often an end sent an I frame that it had sent before,
and how often it asked for an answer by a command with P. A run in which something was lost or not whole ends with status 1.
`--table` prints the lines of several T1."""
import argparse
import os
import random
import re
import sys

sys.path.append(os.path.join(os.path.dirname(__file__), "../shared"))
from air import TICK, Agw, Station
from many_stations import Channel

RELAY, MOST_SECONDS = "RELAY-1", 900


class Valley(Channel):
    """A channel on which the two ends hear only the repeater."""

    def tick(self, sent):
        """What each station hears of a tick. One that sends hears nothing, and the repeater hears the sum of the ends."""
        of_ends = super().tick([sent[0], sent[1], bytes(TICK)])[2]
        return [bytes(TICK) if any(sent[end]) else sent[2] for end in range(2)] + [bytes(TICK) if any(sent[2]) else of_ends]


def lines_of(station, way):
    """The lines of the frames that it sent or heard."""
    return re.findall(rf"^{way} (.*)$", station.report(), re.M)


def run(tnc, t1, octets, late, number):
    """One run: seconds, I frames sent again, and questions; None if it was not whole."""
    words = ["--monitor", *([] if t1 is None else ["--t1", t1])]
    ends = [Station(tnc, "--seed", 10 * number + it, *words) for it in range(2)]
    relay = Station(tnc, "--seed", 10 * number + 2, "--digi", RELAY)
    hosts = [Agw(it, f"{'AB'[at]}0END") for at, it in enumerate(ends)]
    texts = [random.Random(10 * number + it).randbytes(octets) for it in range(2)]
    for host in hosts:
        host.send("X")
    channel, came, is_called, given, over = Valley([*ends, relay], late), [b"", b""], False, [False, False], 0
    for tick in range(0, 100 * MOST_SECONDS, late):
        channel.step()
        for host in hosts:
            host.pump()
        if hosts[0].take("X"):
            is_called = True
            hosts[0].send("v", hosts[1].call, bytes([1]) + RELAY.encode().ljust(10, b"\0"))
        for at, host in enumerate(hosts):
            if host.take("C") and not given[at]:
                given[at] = True
                host.send("D", hosts[1 - at].call, texts[at], 0xF0)
            came[at] += b"".join(host.take("D"))
        if is_called and came == texts[::-1] and not over:
            over = tick / 100
            hosts[0].send("d", hosts[1].call)
        if any(host.take("d") for host in hosts):
            break
    sent = [it for end in ends for it in lines_of(end, "tx")]
    for it in (*ends, relay):
        it.end()
    if not over:
        return None
    info = [re.sub(r" p=\d| nr=\d+", "", it) for it in sent if " I " in it]
    asked = [it for it in sent if re.search(r" R[RN]R? cmd .*p=1", it)]
    return over, len(info) - len(set(info)), len(asked)


def line(given, t1):
    """The means of the runs, as a line of a table, or None if one was not whole."""
    rows = [run(given.tnc, t1, given.octets, given.late, it + 1) for it in range(given.runs)]
    if None in rows:
        return None
    seconds, again, asked = (sum(it) / len(rows) for it in zip(*rows))
    return f"| {'not given' if t1 is None else t1} | {seconds:.1f} | {again:.1f} | {asked:.1f} |"


def main(words):
    reader = argparse.ArgumentParser()
    reader.add_argument("--tnc", default="bin/tnc")
    reader.add_argument("--t1", type=int)
    reader.add_argument("--octets", type=int, default=2000)
    reader.add_argument("--runs", type=int, default=3)
    reader.add_argument("--late", type=int, default=3)
    reader.add_argument("--table", action="store_true")
    given = reader.parse_args(words)
    print("| `--t1` | Seconds | Packets sent again | Questions |\n|---|---|---|---|")
    status = 0
    for t1 in (None, 100, 200, 500, 1000) if given.table else (given.t1,):
        told = line(given, t1)
        print(told or f"| {t1} | not whole | | |", flush=True)
        status |= told is None
    return status


if __name__ == "__main__":
    sys.exit(main(sys.argv[1:]))
