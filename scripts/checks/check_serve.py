#!/usr/bin/env python3
"""Checks `tnc serve` as a whole: two stations joined by an air of pipes, with host programs on their ports.

  scripts/checks/check_serve.py [--tnc PROGRAM] [--octets N] [--loss PERCENT] [--mode rej|srej] [--wide] [--wide-window N]
                                [--half] [--seed N] [--ticks N]

A connected session: A calls B, both send so many octets, and A disconnects once both have got all. What each host gets has
to be what the other one gave. It prints one line and ends with status 0 where all is well.
"""
import argparse
import os
import random
import sys
import time

sys.path.append(os.path.join(os.path.dirname(__file__), "../shared"))
from air import Agw, Air, Kiss, Station

LIMIT = 3 * 60 * 60 * 100  # ticks: three hours on the air


def wanted(words):
    """The options."""
    reader = argparse.ArgumentParser()
    reader.add_argument("--tnc", default="bin/tnc")
    reader.add_argument("--octets", type=int, default=2000)
    reader.add_argument("--loss", type=int, default=0)
    reader.add_argument("--mode", default="rej")
    reader.add_argument("--wide", action="store_true")
    reader.add_argument("--wide-window", type=int, default=32)
    reader.add_argument("--half", action="store_true")
    reader.add_argument("--seed", type=int, default=1)
    reader.add_argument("--ticks", type=int, default=5)
    return reader.parse_args(words)


class Session:
    """One connected session over the air of two stations."""

    def __init__(self, given):
        words = ["--mode", given.mode, "--wide-window", given.wide_window, *(["--wide"] if given.wide else [])]
        self.a = Station(given.tnc, "--seed", given.seed, *words)
        self.b = Station(given.tnc, "--seed", given.seed + 1, *words)
        self.air = Air(self.a, self.b, given.ticks, given.loss, given.seed)
        self.hosts = [Agw(self.a, "AAAA"), Agw(self.b, "BBBB")]
        self.kiss = [Kiss(self.a), Kiss(self.b)]
        if not given.half:
            for host in self.kiss:
                host.send(b"\x01", command=5)
        draws = random.Random(given.seed)
        self.texts = [draws.randbytes(given.octets), draws.randbytes(given.octets)]

    def until(self, what, holds):
        """Lets the air go on until something holds."""
        while not holds():
            if self.air.ticks > LIMIT:
                raise RuntimeError(f"gave up waiting: {what}")
            self.air.step()
            for host in self.hosts:
                host.pump()

    def both(self, kind):
        """Whether each host got a message of a kind since this call."""
        came = [False, False]

        def holds():
            for at, host in enumerate(self.hosts):
                came[at] = came[at] or bool(host.take(kind))
            return all(came)

        return holds

    def run(self):
        a = self.hosts[0]
        got = [b"", b""]
        for host in self.hosts:
            host.send("X")
        self.until("registered", self.both("X"))
        a.send("C", "BBBB")
        self.until("connected", self.both("C"))
        for host, to, text in zip(self.hosts, ["BBBB", "AAAA"], self.texts):
            for at in range(0, len(text), 256):
                host.send("D", to, text[at : at + 256], 0xF0)

        def have_all():
            for at, host in enumerate(self.hosts):
                got[at] += b"".join(host.take("D"))
                if host.take("d"):
                    raise RuntimeError(f"disconnected after {len(got[0])} and {len(got[1])} octets")
            return len(got[0]) >= len(self.texts[1]) and len(got[1]) >= len(self.texts[0])

        self.until("all octets", have_all)
        a.send("d", "BBBB")
        self.until("disconnected", self.both("d"))
        return got == [self.texts[1], self.texts[0]]


def main(words):
    given = wanted(words)
    began = time.monotonic()
    session = Session(given)
    try:
        same = session.run()
    except RuntimeError as error:
        print(f"FAILED: {error}")
        same = False
    frames = [len(host.frames()) for host in session.kiss]
    ends = [session.a.end(), session.b.end()]
    took = time.monotonic() - began
    sent = session.air.from_a.sent_count + session.air.from_b.sent_count
    lost = session.air.from_a.lost_count + session.air.from_b.lost_count
    well = same and all(status == 0 and report == "" for status, _, report in ends)
    print(
        f"{given.octets} octets each way in {session.air.ticks / 100:.0f} s on the air, {took:.1f} s here;"
        f" {sent} transmissions, {lost} lost; heard {frames[0]} and {frames[1]} frames;"
        f" {'the same' if same else 'NOT the same'}; statuses {ends[0][0]} {ends[1][0]}"
    )
    for status, _, report in ends:
        if report:
            print(f"report: {report[:400]}")
    return 0 if well else 1


if __name__ == "__main__":
    sys.exit(main(sys.argv[1:]))
