#!/usr/bin/env python3
"""Many running stations on one channel, in step: what a crowd of links carries. By hand.

  scripts/trials/many_stations.py [--tnc PROGRAM] [--pairs N] [--kind one|ask] [--seconds N] [--runs N] [--persist N]
                                  [--late N] [--table]

Each pair of stations has a link of its own, and all stations hear the sum of all others, but none while it sends. `one`: a
host gives its link packets of 256 octets without end. `ask`: a host asks 40 octets, the other answers 200, again and again.
A link that ends is called again. A station hears what was sent so many ticks ago (`--late`), as a carrier is noticed late,
and that many go at a time; with 3 a run goes some three times as fast as the air.

A line tells, as means of the runs: octets that arrived, a second; transmissions, and how many of a hundred met another one;
links lost; and what the least pair got, as a share of the mean pair. `--table` prints the lines of two, four and eight
pairs, both kinds."""
import argparse
import array
import operator
import os
import sys

sys.path.append(os.path.join(os.path.dirname(__file__), "../shared"))
from air import TICK, Agw, Kiss, Station, read_all

QUESTION, ANSWER, PACKET = 40, 200, 256
AHEAD = 12 * PACKET  # octets that a host gives before they have arrived


class Pair:
    """Two stations and the hosts of their link."""

    def __init__(self, tnc, number, persist):
        self.stations = [Station(tnc, "--seed", 1000 + 2 * number + side) for side in range(2)]
        self.hosts = [Agw(it, f"{'AB'[side]}{number}PAIR"[:6]) for side, it in enumerate(self.stations)]
        self.is_up = self.is_called = False
        self.arrived = self.given = self.owed = self.lost = 0
        for it, host in zip(self.stations, self.hosts):
            if persist is not None:
                Kiss(it).send(bytes([persist]), command=2)
            host.send("X")

    def begin(self):
        """Calls, or calls again."""
        self.is_up, self.is_called, self.given, self.owed = False, True, 0, 0
        self.hosts[0].send("C", self.hosts[1].call)

    def go_on(self, kind):
        """What both hosts do about what came."""
        a, b = self.hosts
        for host in self.hosts:
            host.pump()
        if a.take("X"):
            self.begin()
        if a.take("C"):
            self.is_up, self.given = True, 0
            if kind == "ask":
                a.send("D", b.call, bytes(QUESTION), 0xF0)
        came, answers = sum(map(len, b.take("D"))), sum(map(len, a.take("D")))
        self.arrived += came + answers
        if a.take("d"):
            self.lost += self.is_up
            self.begin()
        b.take("d"), b.take("C"), b.take("X")
        if not self.is_up:
            return
        if kind == "one":
            self.given -= came
            while self.given < AHEAD:
                a.send("D", b.call, bytes(PACKET), 0xF0)
                self.given += PACKET
        else:
            if came:
                b.send("D", a.call, bytes(ANSWER), 0xF0)
            self.owed += answers
            if self.owed >= ANSWER:
                self.owed -= ANSWER
                a.send("D", b.call, bytes(QUESTION), 0xF0)
        for host in self.hosts:
            host.pump()


class Channel:
    """The sound of all stations. Each hears the others, clipped as a card does, and nothing while it sends."""

    def __init__(self, stations, late):
        self.stations, self.late = stations, late
        self.heard = [bytes(TICK * late) for _ in stations]
        self.sending = [None] * len(stations)
        self.count = self.hit = 0

    def step(self):
        """So many ticks of all stations as a sound is late: a station takes 10 ms for each piece that it is given."""
        for station, heard in zip(self.stations, self.heard):
            station.program.stdin.write(heard)
        sent = [read_all(it.program.stdout, TICK * self.late) for it in self.stations]
        heard = [self.tick([it[at : at + TICK] for it in sent]) for at in range(0, TICK * self.late, TICK)]
        self.heard = [b"".join(ticks) for ticks in zip(*heard)]

    def tick(self, sent):
        """What each station hears of a tick."""
        on = [at for at, tick in enumerate(sent) if any(tick)]
        for at in range(len(sent)):
            if at not in on:
                self.sending[at] = None
            elif self.sending[at] is None:
                self.sending[at] = [False]
                self.count += 1
        if len(on) > 1:
            for at in on:
                self.hit += not self.sending[at][0]
                self.sending[at][0] = True
        whole = sent[on[0]] if on else bytes(TICK)
        for at in on[1:]:
            whole = array.array("i", map(operator.add, samples(whole), samples(sent[at])))
        mixed = clipped(whole)
        return [bytes(TICK) if at in on else mixed for at in range(len(sent))]


def samples(tick):
    """The samples of a tick, or a sum of several."""
    return tick if isinstance(tick, array.array) else array.array("h", tick)


def clipped(tick):
    """The octets of a tick, with each sample in its range."""
    if isinstance(tick, bytes):
        return tick
    return array.array("h", (max(-32768, min(32767, it)) for it in tick)).tobytes()


def run(given, pairs_count, kind, number):
    """One run: octets a second, transmissions, the share hit, links lost, the least pair's share of the mean."""
    pairs = [Pair(given.tnc, 100 * number + it, given.persist) for it in range(pairs_count)]
    stations = [it for pair in pairs for it in pair.stations]
    channel = Channel(stations, given.late)
    for _ in range(0, given.seconds * 100, given.late):
        channel.step()
        for pair in pairs:
            pair.go_on(kind)
    for it in stations:
        it.end()
    arrived = [pair.arrived for pair in pairs]
    mean = sum(arrived) / len(arrived)
    return [sum(arrived) / given.seconds, channel.count, 100 * channel.hit / max(1, channel.count),
            sum(pair.lost for pair in pairs), min(arrived) / mean if mean else 0.0]


def line(given, pairs_count, kind):
    """The means of the runs, as a line of a table."""
    rows = [run(given, pairs_count, kind, it + 1) for it in range(given.runs)]
    rate, count, hit, lost, least = (sum(it) / len(rows) for it in zip(*rows))
    return f"| {kind}, {pairs_count} pairs | {rate:.0f} | {count:.0f} | {hit:.0f} % | {lost:.1f} | {least:.2f} |"


def main(words):
    reader = argparse.ArgumentParser()
    reader.add_argument("--tnc", default="bin/tnc")
    reader.add_argument("--pairs", type=int, default=2)
    reader.add_argument("--kind", choices=("one", "ask"), default="one")
    reader.add_argument("--seconds", type=int, default=600)
    reader.add_argument("--runs", type=int, default=3)
    reader.add_argument("--persist", type=int)
    reader.add_argument("--late", type=int, default=3)
    reader.add_argument("--table", action="store_true")
    given = reader.parse_args(words)
    print("| Pairs | Octets a second | Transmissions | Hit | Links lost | Least of mean |\n|---|---|---|---|---|---|")
    for kind, count in [(k, n) for k in ("one", "ask") for n in (2, 4, 8)] if given.table else [(given.kind, given.pairs)]:
        print(line(given, count, kind), flush=True)
    return 0


if __name__ == "__main__":
    sys.exit(main(sys.argv[1:]))
