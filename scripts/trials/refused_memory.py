#!/usr/bin/env python3
"""Refuses memory to every command, one allocation after another, and threads where it starts any.

  scripts/trials/refused_memory.py [--tnc PROGRAM] [--only NAME] [--all-from] [--hosts] [--seconds N]

A run has to end with status 3, an output that is a first part of the ordinary one and a report that is a first part of the
ordinary one; or as it ends with all the memory that it asks for. A station that cannot open its ports for want of memory ends with
status 10, as with any other cause; one whose first thread is refused takes ten seconds to end. With --all-from no allocation
succeeds from the refused one on. With --hosts it is two stations with a session between their hosts, and the first one is refused an allocation, drawn anew
each time, for so many seconds. It prints a line for each command, and ends with status 0 where all is well."""
import argparse
import os
import random
import select
import subprocess
import sys
import time

sys.path.append(os.path.join(os.path.dirname(__file__), "../shared"))
from air import Agw, Air, Kiss, Station
from hostile_inputs import rows, stations
from refusing import Refusing

MEMORY, NO_PORT = 3, 10
LIMIT = 60 * 100  # ticks that a session may take
PATIENCE = 5  # seconds without a sample after which a station has stopped


def fault_of(ordinary, run):
    """What is wrong with a run, or nothing."""
    if run.status == ordinary.status and run.output == ordinary.output and run.report == ordinary.report:
        return ""
    if run.status == NO_PORT and run[1:3] == (b"", b"tnc: no port\n"):
        return ""
    if run.status != MEMORY:
        return f"status {run.status}, and not {MEMORY}" + (f" or {ordinary.status}" if run.status != ordinary.status else "")
    if not ordinary.output.startswith(run.output):
        return "an output that is no first part"
    if not ordinary.report.startswith(run.report):
        return f"a report that is no first part: {run.report[:100]!r}"
    return ""


def refused(refusing, row, kind, later):
    """Refuses each call of a kind in turn. Tells how many there are, how many runs ended for it, and how many were wrong."""
    ordinary = refusing.run(row.words, row.octets, kind)
    call = ended = wrong = 0
    while True:
        run = refusing.run(row.words, row.octets, kind, f"{call}{'+' if later else ''}")
        fault = fault_of(ordinary, run)
        if fault:
            wrong += 1
            print(f"WRONG: {row.name}, {kind} {call}: {fault}")
        ended += run.status == MEMORY
        if run.calls is not None and run.calls <= call:
            return call, ended, wrong
        call += 1


class Patient:
    """What a station sends. One that is out of memory sends no more, and ends at the next sound that comes or at the end of it."""

    def __init__(self, pipe):
        self.pipe = pipe

    def read(self, count=-1):
        if count >= 0 and not select.select([self.pipe], [], [], PATIENCE)[0]:
            raise RuntimeError("a station has stopped")
        return self.pipe.read(count)


class Session:
    """Two stations, the first of which is refused an allocation, and hosts that use all that a station has."""

    def __init__(self, refusing, draws, call, tally):
        mode = draws.choice(["rej", "srej"])
        words = ["--mode", mode, "--monitor", "--digi", "DIGI", *draws.choice([[], ["--wide"]])]
        self.a = Station(refusing.tnc, "--seed", "1", *words, env=refusing.surroundings("memory", call, tally))
        self.b = Station(refusing.tnc, "--seed", "2", *words)
        self.a.program.stdout = Patient(self.a.program.stdout)
        self.hosts, self.kiss = [], []

    def step(self):
        if self.air.ticks > LIMIT:
            raise AssertionError("a session that does not end")
        self.air.step()
        for host in self.hosts:
            host.pump()

    def until(self, holds):
        while not holds():
            self.step()

    def said(self, kind):
        """Goes on until both hosts were sent a message of a kind."""
        missing = list(self.hosts)

        def all_said():
            missing[:] = [it for it in missing if not it.take(kind)]
            return not missing

        self.until(all_said)

    def run(self):
        """A session: registered, connected, octets both ways, disconnected. What the hosts got."""
        self.air = Air(self.a, self.b, ticks=5)
        self.hosts = [Agw(self.a, "AAAA"), Agw(self.b, "BBBB")]
        self.kiss = [Kiss(self.a), Kiss(self.b)]
        for kiss in self.kiss:
            kiss.send(b"\x01", command=5)
        a, b = self.hosts
        for host in self.hosts:
            for kind in "kmRGgX":
                host.send(kind)
        self.said("X")
        a.send("c", "BBBB", pid=0xF0)
        self.said("C")
        texts = [bytes(range(256)) * 3, bytes(range(255, -1, -1)) * 2]
        for host, other, text in zip(self.hosts, ("BBBB", "AAAA"), texts):
            host.send("M", "APRS", b"a word")
            host.send("D", other, text, 0xF0)
        self.kiss[0].send(bytes.fromhex("82a0a4a64040609c6e988a9a406103f0") + b"by KISS")
        got = [b"", b""]

        def have_all():
            for at, host in enumerate(self.hosts):
                got[at] += b"".join(host.take("D"))
            return len(got[0]) >= len(texts[1]) and len(got[1]) >= len(texts[0])

        self.until(have_all)
        a.send("d", "BBBB")
        self.said("d")
        return got == [texts[1], texts[0]]


def is_stuck(station):
    """Whether a station does not end after its sound has; then it is ended."""
    station.program.stdin.close()
    try:
        station.program.wait(4 * PATIENCE)
    except subprocess.TimeoutExpired:
        station.program.kill()
        return True
    return False


def session(refusing, draws, call, tally):
    """A session in which an allocation is refused. Its fault, and whether memory ended it."""
    it = Session(refusing, draws, call, tally)
    cut, same = False, False
    try:
        same = it.run()
    except (RuntimeError, OSError):
        cut = True
    except AssertionError as fault:
        it.a.end(), it.b.end()
        return str(fault), False
    if is_stuck(it.a):
        it.b.end()
        return "it does not end", False
    status, _, report = it.a.end()
    other, _, _ = it.b.end()
    strange = [line for line in report.splitlines() if not line.startswith(("rx ", "tx ", "closed ", "dropped "))]
    if other:
        return f"status {other} of the other station", cut
    if strange:
        return f"a report: {strange[0][:100]}", cut
    if status == MEMORY:
        return "", True
    if status or cut or not same:
        return f"status {status}, {'cut short' if cut else 'whole'}, {'the same octets' if same else 'other octets'}", cut
    return "", False


def sessions(refusing, seconds, seed):
    """Sessions for so many seconds."""
    draws, began = random.Random(seed), time.monotonic()
    tally = f"{refusing.folder.name}/tally"
    fault, _ = session(refusing, draws, -1, tally)
    with open(tally) as file:
        most = int(file.read().split()[0])
    runs = ended = wrong = 0
    if fault:
        print(f"WRONG: with all its memory: {fault}")
        wrong += 1
    while time.monotonic() - began < seconds:
        # the first ones are those of the start and of hosts that join; half of the draws are of these
        call = draws.randrange(draws.choice([most, min(most, 300)]))
        fault, memory = session(refusing, draws, call, tally)
        runs, ended = runs + 1, ended + memory
        if fault:
            wrong += 1
            print(f"WRONG: a session with hosts, memory {call}: {fault}")
    print(f"sessions with hosts: {runs} runs, an allocation out of some {most} refused in each; {ended} ended for it; {wrong} wrong")
    return wrong


def main():
    reader = argparse.ArgumentParser()
    reader.add_argument("--tnc", default="bin/tnc")
    reader.add_argument("--only", default="")
    reader.add_argument("--all-from", action="store_true")
    reader.add_argument("--hosts", action="store_true")
    reader.add_argument("--seconds", type=float, default=600)
    reader.add_argument("--seed", type=int, default=1)
    given = reader.parse_args()
    refusing = Refusing(given.tnc)
    if given.hosts:
        sys.exit(sessions(refusing, given.seconds, given.seed) > 0)
    faults = 0
    for row in [*rows(refusing.tnc), *stations()]:
        if given.only not in row.name:
            continue
        for kind in "memory", "thread":
            calls, ended, wrong = refused(refusing, row, kind, given.all_from)
            faults += wrong
            if calls:
                print(f"{row.name}: {calls} calls for {kind}, {ended} of the runs ended with status 3; {wrong} wrong", flush=True)
    sys.exit(faults > 0)


if __name__ == "__main__":
    main()
