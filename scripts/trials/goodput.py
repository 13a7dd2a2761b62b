#!/usr/bin/env python3
"""What a link carries: two stations of this program, two Dire Wolfs, or one of each, on the same sound. By hand.

  scripts/trials/goodput.py [--tnc PROGRAM] [--ends ours|wolves|mixed] [--kind one|both|ask] [--octets N] [--wide]
                     [--mode rej|srej] [--loss PERCENT] [--third] [--runs N] [--seed N] [--table]

`one`: A gives B so many octets; `both`: each gives the other so many; `ask`: ten questions of 40 octets, each answered by
so many. A transmission is lost whole, in so many of a hundred. `--third`: another station sends UI frames besides, for
three tenths of the time if it is let. Each station hears the sum of the others, and none while it sends. The air goes
tick by tick, at about the pace of sound; with a Dire Wolf it keeps that pace, and runs go beside each other.

A line tells, as means of the runs: octets a second from the call to the last octet, seconds, transmissions, and in how many
runs the link was lost. `--table` prints the lines of all kinds, modes and losses for the ends that are named."""
import argparse
import os
import random
import sys
from concurrent.futures import ThreadPoolExecutor

sys.path.append(os.path.join(os.path.dirname(__file__), "../shared"))
from air import TICK, Agw, Kiss, Loss, Station, read_all
from direwolf import DireWolf
from many_stations import clipped, samples

import array
import operator
import time

LIMIT = 1800 * 100  # ticks of a run
QUESTIONS, QUESTION = 10, 40
LOSSES = (0, 5, 15, 25)


class Ours:
    """A station of this program on the air."""

    def __init__(self, given, seed):
        words = [*(["--mode", given.mode] if given.mode else []), *(["--wide"] if given.wide else [])]
        self.station = Station(given.tnc, "--seed", seed, *words)

    def tick(self, heard):
        self.station.program.stdin.write(heard)
        return read_all(self.station.program.stdout, TICK)

    def end(self):
        self.station.end()


class Wolf:
    """A Dire Wolf on the air. It calls modulo 128 and by SREJ if it may, and else modulo 8 and by REJ."""

    def __init__(self, given, call):
        self.station = DireWolf(call, *([] if given.wide else ["MAXV22 0"]))

    def tick(self, heard):
        self.station.program.stdin.write(heard)
        return self.station.take(TICK)

    def end(self):
        self.station.end()


class Channel:
    """The sound of all stations; of each of the link's two stations transmissions are lost."""

    def __init__(self, stations, loss, draws, is_paced, late=3):
        self.stations, self.is_paced = stations, is_paced
        self.losses = [Loss(loss if at < 2 else 0, draws) for at in range(len(stations))]
        self.heard = [[bytes(TICK)] * late for _ in stations]
        self.ticks, self.began = 0, time.monotonic()

    def step(self):
        sent = [it.tick(heard.pop(0)) for it, heard in zip(self.stations, self.heard)]
        on = [at for at, tick in enumerate(sent) if any(tick)]
        kept = [loss.heard(tick) for loss, tick in zip(self.losses, sent)]
        there = [it for it in kept if any(it)]
        whole = there[0] if there else bytes(TICK)
        for it in there[1:]:
            whole = array.array("i", map(operator.add, samples(whole), samples(it)))
        mixed = clipped(whole)
        for at, heard in enumerate(self.heard):
            heard.append(bytes(TICK) if at in on else mixed)
        self.ticks += 1
        ahead = self.ticks / 100 - (time.monotonic() - self.began)
        if self.is_paced and ahead > 0:
            time.sleep(ahead)


class Third:
    """A station that sends UI frames of 200 octets, three tenths of the time if it is let."""

    FRAME = bytes.fromhex("82a0a4a64040609c6e988a9a406103f0") + bytes(range(200))
    EVERY = 700  # ticks

    def __init__(self, given, seed):
        self.ours = Ours(given, seed)
        self.host = Kiss(self.ours.station)

    def go_on(self, ticks):
        if ticks % self.EVERY == 0:
            self.host.send(self.FRAME)


class Hosts:
    """The host programs of the link, and what is still to be given and got."""

    def __init__(self, given, stations):
        self.kind, self.octets = given.kind, given.octets
        self.a, self.b = (Agw(it.station, call) for it, call in zip(stations, ("AAAA", "BBBB")))
        self.got_a = self.got_b = self.asked = 0
        self.is_called = self.is_up = self.is_over = self.is_lost = False
        for host in (self.a, self.b):
            host.send("X")

    def give(self, host, to, count):
        for at in range(0, count, 256):
            host.send("D", to, bytes(min(256, count - at)), 0xF0)

    def ask(self):
        self.asked += 1
        self.give(self.a, "BBBB", QUESTION)

    def go_on(self):
        for host in (self.a, self.b):
            host.pump()
        if not self.is_called and self.a.take("X"):
            self.is_called = True
            self.a.send("C", "BBBB")
        if self.a.take("C") and not self.is_up:
            self.is_up = True
            self.give(self.a, "BBBB", QUESTION if self.kind == "ask" else self.octets)
            self.asked += 1
            if self.kind == "both":
                self.give(self.b, "AAAA", self.octets)
        came_b, came_a = sum(map(len, self.b.take("D"))), sum(map(len, self.a.take("D")))
        self.got_a, self.got_b = self.got_a + came_a, self.got_b + came_b
        if self.kind == "ask":
            if came_b and self.got_b % QUESTION == 0:
                self.give(self.b, "AAAA", self.octets)
            if came_a and self.got_a == self.asked * self.octets and self.asked < QUESTIONS:
                self.ask()
            self.is_over = self.got_a == QUESTIONS * self.octets
        else:
            self.is_over = self.got_b == self.octets and (self.kind == "one" or self.got_a == self.octets)
        # The host that is called is told of an end, and of the call again, if the answer to the call is lost: no link is lost.
        is_ended = [bool(host.take("d")) for host in (self.a, self.b)]
        if is_ended[0] or is_ended[1] and self.is_up:
            self.is_lost = self.is_over = True
        for host in (self.a, self.b):
            host.pump()


def run(given, number):
    """One run: octets a second, seconds, transmissions, and whether the link was lost."""
    seed = given.seed + 10 * number
    kinds = {"ours": "oo", "wolves": "ww", "mixed": "ow" if number % 2 else "wo"}[given.ends]
    calls = ("AAAA", "BBBB")
    stations = [Ours(given, seed + at) if kind == "o" else Wolf(given, calls[at]) for at, kind in enumerate(kinds)]
    third = Third(given, seed + 5) if given.third else None
    channel = Channel(stations + ([third.ours] if third else []), given.loss, random.Random(seed), "w" in kinds)
    hosts, since = Hosts(given, stations), None
    while not hosts.is_over and channel.ticks < LIMIT:
        channel.step()
        hosts.go_on()
        if third:
            third.go_on(channel.ticks)
        if hosts.is_called and since is None:
            since = channel.ticks
    for it in channel.stations:
        it.end()
    seconds = (channel.ticks - (since or 0)) / 100
    sent = channel.losses[0].sent_count + channel.losses[1].sent_count
    lost = hosts.is_lost or channel.ticks >= LIMIT
    return [(hosts.got_a + hosts.got_b) / seconds, seconds, sent, lost]


def line(given):
    """The means of the runs, as a line of a table."""
    beside = given.runs if given.ends != "ours" else 1
    with ThreadPoolExecutor(beside) as pool:
        rows = list(pool.map(lambda it: run(given, it), range(given.runs)))
    rate, seconds, sent = (sum(it) / len(rows) for it in list(zip(*rows))[:3])
    what = f"{given.ends}, {given.kind}, {'128' if given.wide else '8'}, {given.mode or 'usual'}, {given.loss} %" + (", third" * given.third)
    return f"| {what} | {rate:.0f} | {seconds:.0f} | {sent:.0f} | {sum(it[3] for it in rows)} of {len(rows)} |"


def rows_of(given):
    """The options of each line of the whole table."""
    for kind, octets in (("one", 5000), ("both", 5000), ("ask", 200)):
        for wide, mode in ((False, "rej"), (False, "srej"), (True, "rej"), (True, "srej")):
            if given.ends != "ours" and mode == ("rej" if wide else "srej"):
                continue
            for loss in LOSSES:
                yield argparse.Namespace(**{**vars(given), "kind": kind, "octets": octets, "wide": wide, "mode": mode, "loss": loss})
    yield argparse.Namespace(**{**vars(given), "kind": "ask", "octets": 200, "third": True})


def main(words):
    reader = argparse.ArgumentParser()
    reader.add_argument("--tnc", default="bin/tnc")
    reader.add_argument("--ends", choices=("ours", "wolves", "mixed"), default="ours")
    reader.add_argument("--kind", choices=("one", "both", "ask"), default="one")
    reader.add_argument("--octets", type=int, default=5000)
    reader.add_argument("--mode", choices=("rej", "srej"))
    reader.add_argument("--loss", type=int, default=0)
    reader.add_argument("--runs", type=int, default=10)
    reader.add_argument("--seed", type=int, default=1)
    for it in ("--wide", "--third", "--table"):
        reader.add_argument(it, action="store_true")
    given = reader.parse_args(words)
    print("| Ends, kind, modulo, mode, lost | Octets a second | Seconds | Transmissions | Links lost |\n|---|---|---|---|---|")
    for it in rows_of(given) if given.table else [given]:
        print(line(it), flush=True)
    return 0


if __name__ == "__main__":
    sys.exit(main(sys.argv[1:]))
