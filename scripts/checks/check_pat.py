#!/usr/bin/env python3
"""Checks that Winlink's `pat` carries mail over the station: two of them at two stations whose sound reaches each other.

  scripts/checks/check_pat.py [--tnc PROGRAM] [--pat PROGRAM] [--only NAME] [--at-once N] [--speed N] [--seed N] [--ptt | --wolves]

Each has a fresh home, and a message for the other one; one has an attachment. One waits for calls, the other one calls, and
both messages have to arrive whole, by REJ, by SREJ and modulo 128, and also while 15 % of the transmissions are lost. It prints
a line for each session, with its seconds on the air from the call to its end. AGWPE came with pat 0.14: an older one is left
out, as is one that is not installed (status 0). Debian calls the program pat-winlink. The sound goes at its own pace, or N
times as fast, while pat has its own clock. With --ptt each station keys the dummy rig of a rigctld of its own, and its sound
goes out only while that is keyed; none may be cut off. With --wolves both stations are Dire Wolfs, on the same sound at its
own pace: that is for a comparison and no check."""
import argparse
import concurrent.futures
import json
import os
import random
import re
import shutil
import subprocess
import sys
import tempfile
import time

sys.path.append(os.path.join(os.path.dirname(__file__), "../shared"))
from air import Air, Kiss, Station, free_port
from direwolf import DireWolf
from rigs import Rig, Transmitter, are_there

CALLS = ("N7LEM", "NJ7P")
OLDEST = (0, 14)
PATIENCE = 300  # seconds that a session may take

# A name, the words for both stations, and what percentage of the transmissions is lost.
SESSIONS = [
    ("REJ", [], 0),
    ("SREJ", ["--mode", "srej"], 0),
    ("modulo 128", ["--wide"], 0),
    ("modulo 128, SREJ", ["--wide", "--mode", "srej"], 0),
    ("REJ, 15 % lost", [], 15),
    ("SREJ, 15 % lost", ["--mode", "srej"], 15),
    ("modulo 128, 15 % lost", ["--wide", "--wide-window", "8"], 15),
    ("modulo 128, SREJ, 15 % lost", ["--wide", "--wide-window", "8", "--mode", "srej"], 15),
]


# The same of two Dire Wolfs. They call modulo 128 and by SREJ if they may, and else modulo 8 and by REJ.
WOLVES = [
    ("REJ", ["MAXV22 0"], 0),
    ("modulo 128, SREJ", [], 0),
    ("REJ, 15 % lost", ["MAXV22 0"], 15),
    ("modulo 128, SREJ, 15 % lost", [], 15),
]


def version_of(pat):
    """The first two numbers of its version."""
    told = subprocess.run([pat, "version"], capture_output=True, text=True).stdout
    found = re.search(r"v(\d+)\.(\d+)", told)
    return tuple(map(int, found.groups())) if found else (0, 0)


class Pat:
    """A `pat` in a home of its own."""

    def __init__(self, pat, call, port):
        self.pat, self.call = pat, call
        self.home = tempfile.TemporaryDirectory(prefix="pat-")
        settings = {
            "mycall": call, "locator": "JN58", "http_addr": f"127.0.0.1:{free_port()}", "listen": [],
            "ax25": {"engine": "agwpe"}, "agwpe": {"addr": f"127.0.0.1:{port}", "radio_port": 0},
            "version_reporting_disabled": True,
        }
        self.config = f"{self.home.name}/config.json"
        with open(self.config, "w") as file:
            json.dump(settings, file)
        self.mailbox = f"{self.home.name}/mailbox"
        self.log = open(f"{self.home.name}/log", "w+b")
        self.running = None

    def words(self, *words):
        named = ["--config", self.config, "--mbox", self.mailbox, "--log", f"{self.home.name}/pat.log",
                 "--event-log", f"{self.home.name}/events.json"]
        return [self.pat, *named, *words]

    def given(self):
        # every folder of its own is below its home
        return {"cwd": self.home.name, "env": {"PATH": os.environ["PATH"], "HOME": self.home.name, "TERM": "dumb",
                                              "LD_LIBRARY_PATH": os.environ.get("LD_LIBRARY_PATH", "")}}

    def compose(self, to, subject, text, attachment=None):
        """Puts a message into its outbox."""
        words = ["compose", "--p2p-only", "--subject", subject]
        if attachment:
            path = f"{self.home.name}/picture.bin"
            with open(path, "wb") as file:
                file.write(attachment)
            words += ["--attachment", path]
        done = subprocess.run(self.words(*words, to), input=text.encode(), capture_output=True, timeout=60, **self.given())
        if done.returncode:
            raise AssertionError(f"compose: {done.stdout.decode()} {done.stderr.decode()}")

    def start(self, *words):
        self.running = subprocess.Popen(self.words(*words), stdin=subprocess.PIPE, stdout=self.log, stderr=self.log,
                                        **self.given())

    def text(self):
        """What it has printed so far."""
        file = self.log.fileno()
        return os.pread(file, os.fstat(file).st_size, 0).decode(errors="replace")

    def box(self, name):
        """The messages in one of its boxes."""
        folder = f"{self.mailbox}/{self.call}/{name}"
        return [f"{folder}/{it}" for it in sorted(os.listdir(folder))] if os.path.isdir(folder) else []

    def end(self):
        if self.running:
            self.running.terminate()
            try:
                self.running.wait(5)
            except subprocess.TimeoutExpired:
                self.running.kill()
                self.running.wait()
            self.running.stdin.close()
        text = self.text()
        self.log.close()
        self.home.cleanup()
        return text


def parts(path):
    """The body of a message in a box, and its attachments, as they are: the header of a message tells their lengths."""
    with open(path, "rb") as file:
        octets = file.read()
    head, _, rest = octets.partition(b"\r\n\r\n")
    body = int(re.search(rb"(?mi)^Body: *(\d+)", head)[1])
    found, at = [rest[:body]], body
    for length in re.findall(rb"(?mi)^File: *(\d+)", head):
        at += 2
        found.append(rest[at : at + int(length)])
        at += int(length)
    return found


class World:
    """Two stations, a `pat` at each, and a way to let their sound go on."""

    def __init__(self, given, words, loss, seed):
        if given.wolves:
            self.stations = [DireWolf(call, *words) for call in CALLS]
        else:
            keys = [Transmitter(Rig().start()) if given.ptt else None for _ in range(2)]
            self.stations = [
                Station(given.tnc, "--seed", str(at + 1), "--monitor", *words, transmitter=key) for at, key in enumerate(keys)
            ]
        self.air = Air(*self.stations, ticks=2, loss=loss, seed=seed)
        self.began, self.speed, self.faults = time.monotonic(), given.speed, []
        self.pats = [Pat(given.pat, call, station.agw) for call, station in zip(CALLS, self.stations)]

    def until(self, what, holds):
        """Lets the sound go on until something holds."""
        began = time.monotonic()
        while not holds():
            if time.monotonic() - began > PATIENCE:
                raise AssertionError(f"waited in vain: {what}")
            self.air.step()
            ahead = self.air.ticks / 100 / self.speed - (time.monotonic() - self.began)
            if ahead > 0:
                time.sleep(ahead)

    def end(self):
        """Ends all; what was printed."""
        texts = [pat.end() for pat in self.pats]
        for station in self.stations:
            if isinstance(station, DireWolf):
                texts.append(station.end())
                continue
            status, _, report = station.end()
            texts.append(report)
            if status:
                texts.append(f"status {status}")
            if station.transmitter:
                self.faults += station.transmitter.end()
        return texts


def session(given, words, loss, seed):
    """Mail both ways. Its seconds on the air, the transmissions, and those that were lost."""
    world = World(given, words, loss, seed)
    caller, called = world.pats
    draws = random.Random(seed)
    letters = ["".join(draws.choice("abcdefghij \n") for _ in range(count)) for count in (150, 400)]
    picture = draws.randbytes(700)
    fault = ""
    try:
        caller.compose(called.call, "from the caller", letters[0], picture)
        called.compose(caller.call, "from the called", letters[1])
        called.start("--listen", "ax25", "http")
        world.until("one listens", lambda: "Listening for incoming traffic on ax25" in called.text())
        world.until("a second", lambda ends=world.air.ticks + 100: world.air.ticks > ends)
        began = world.air.ticks
        caller.start("connect", f"ax25:///{called.call}")
        world.until("the caller ends", lambda: caller.running.poll() is not None)
        took = world.air.ticks - began
        world.until("a second", lambda ends=world.air.ticks + 100: world.air.ticks > ends)
        for pat, other, at, more in ((called, caller, 0, [picture]), (caller, called, 1, [])):
            boxes = {name: len(pat.box(name)) for name in ("in", "sent", "out")}
            if boxes != {"in": 1, "sent": 1, "out": 0}:
                raise AssertionError(f"the boxes of {pat.call} are {boxes}")
            body, *attached = parts(pat.box("in")[0])
            if body.decode().split() != letters[at].split() or attached != more:
                raise AssertionError(f"what {pat.call} got is not what {other.call} sent")
        sent = world.air.from_a.sent_count + world.air.from_b.sent_count
        lost = world.air.from_a.lost_count + world.air.from_b.lost_count
    except BaseException as error:
        fault = error
        raise
    finally:
        texts = world.end()
        if fault or world.faults:
            print("\n".join(text[-2500:] for text in texts))
    if world.faults:
        raise AssertionError("; ".join(world.faults))
    return took / 100, sent, lost


def main():
    reader = argparse.ArgumentParser()
    reader.add_argument("--tnc", default="bin/tnc")
    reader.add_argument("--pat", default=shutil.which("pat-winlink") or shutil.which("pat") or "")
    reader.add_argument("--speed", type=float, default=1)
    reader.add_argument("--seed", type=int, default=1)
    reader.add_argument("--only", default="")
    reader.add_argument("--at-once", type=int, default=4)
    keying = reader.add_mutually_exclusive_group()
    keying.add_argument("--ptt", action="store_true")
    keying.add_argument("--wolves", action="store_true")
    given = reader.parse_args()
    if not given.pat:
        sys.exit(print("skipped: mail by pat (pat is not installed)"))
    version = version_of(given.pat)
    if version < OLDEST:
        sys.exit(print(f"skipped: mail by pat ({given.pat} is {'.'.join(map(str, version))}, and 0.14 is the first with AGWPE)"))

    if given.ptt and not are_there():
        sys.exit(print("skipped: mail by pat, keyed by rigctld (rigctld or rigctl is not installed)"))

    def is_well(row):
        name, words, loss = row
        try:
            took, sent, lost = session(given, words, loss, given.seed)
        except (AssertionError, RuntimeError, OSError) as error:
            print(f"FAILED: mail by pat, {name}: {error}", flush=True)
            return False
        print(f"{name}: mail both ways in {took:.0f} s on the air, {sent} transmissions, {lost} lost", flush=True)
        return True

    # most of a session is waiting for its sound
    with concurrent.futures.ThreadPoolExecutor(given.at_once) as pool:
        wells = list(pool.map(is_well, [row for row in (WOLVES if given.wolves else SESSIONS) if given.only in row[0]]))
    sys.exit(not all(wells))


if __name__ == "__main__":
    main()
