#!/usr/bin/env python3
"""Checks that random sound, and recordings that were spoiled, do not hurt the receiver.

  scripts/trials/random_sound.py [--tnc PROGRAM] [--seconds N] [--seed N]

For so many seconds it makes sounds: random octets, noise of any level, single and mixed tones, and the shipped recordings, those
of other programs, spoiled: bits flipped, pieces cut out, said twice or put elsewhere, made louder until they clip, quieter,
faster, slower, upside down, an octet late, or mixed with each other. Of each sound

- `decode` ends with status 0 and no report, and what it prints are lines of 15 to 1024 octets;
- `decode --threads`, `decode` out of a pipe in random pieces, and `decode --wav` of a WAV file with these samples print the same;
- a plain decoder in C (bench/plain_decoder.c), which does the same sums another way, prints the same;
- `decode --kiss` and then `encode --kiss` and `decode` give the same frames;
- a station (`serve --monitor`) that hears it reports exactly these frames, in the text of `show`, and sends as many whole ticks
  as it hears.

A fault leaves the sound in a file that it names. It prints one line at the end, and ends with status 0 where all is well."""
import argparse
import array
import glob
import math
import os
import random
import subprocess
import sys
import tempfile
import threading
import time

sys.path.append(os.path.join(os.path.dirname(__file__), "../shared"))
sys.path.append(os.path.join(os.path.dirname(__file__), "../checks"))
from air import TICK, Station, read_all
from check_cuts import write_in_pieces
from hostile_inputs import wav_of

TOP = os.path.dirname(os.path.dirname(os.path.dirname(os.path.abspath(__file__))))
LONGEST = 60000  # samples of a sound, less than the seven seconds that a station keeps


def clipped(samples):
    return array.array("h", (max(-32768, min(32767, int(it))) for it in samples))


class Sounds:
    """Where sounds come from."""

    def __init__(self, draws):
        self.draws = draws
        self.recordings = []
        for path in sorted(glob.glob(f"{TOP}/samples/*.raw")):
            samples = array.array("h")
            with open(path, "rb") as file:
                samples.frombytes(file.read())
            self.recordings.append(samples)

    def length(self):
        return self.draws.choice([0, 1, 7, 8, 95, 96, 97, self.draws.randrange(2000), self.draws.randrange(LONGEST)])

    def piece(self, most=LONGEST):
        """A piece of a recording."""
        samples = self.draws.choice(self.recordings)
        begin = self.draws.randrange(len(samples))
        return samples[begin : begin + self.draws.randrange(1, most)]

    def octets(self):
        """Random octets, perhaps an odd count of them."""
        return self.draws.randbytes(2 * self.length() + self.draws.randrange(2))

    def noise(self):
        """Noise of one level."""
        level = self.draws.choice([1, 2, 100, 5000, 32767])
        return clipped(self.draws.gauss(0, level) for _ in range(self.length())).tobytes()

    def tones(self):
        """A tone, or two, that change now and then; or steps of full scale."""
        made, phase, length = [], 0.0, self.length()
        while len(made) < length:
            if self.draws.randrange(4) == 0:
                made += [self.draws.choice([-32768, 32767, 0])] * self.draws.randrange(1, 400)
            frequency = self.draws.choice([1200, 2200, 1700, self.draws.randrange(1, 4800)])
            level = self.draws.choice([1, 1000, 40000])
            for _ in range(self.draws.choice([8, 16, 56, 64, 500])):
                phase += 2 * math.pi * frequency / 9600
                made.append(level * math.sin(phase))
        return clipped(made[:LONGEST]).tobytes()

    def flipped(self, samples):
        """Some bits are others."""
        octets = bytearray(samples.tobytes())
        for _ in range(self.draws.choice([1, 10, 1000])):
            octets[self.draws.randrange(len(octets))] ^= 1 << self.draws.randrange(8)
        return array.array("h", bytes(octets))

    def cut(self, samples):
        """A piece is missing."""
        at = self.draws.randrange(len(samples))
        return samples[:at] + samples[at + self.draws.choice([1, 3, 8, 80, 3000]) :]

    def inserted(self, samples):
        """A piece stands there that does not belong there: from elsewhere, said twice, or silence."""
        at = self.draws.randrange(len(samples))
        piece = self.draws.choice([self.piece(4000), samples[max(0, at - 700) : at], array.array("h", bytes(2 * 50))])
        return samples[:at] + piece + samples[at:]

    def scaled(self, samples):
        """Another level, perhaps one that clips, or upside down."""
        by = self.draws.choice([0.0001, 0.01, 0.5, 3, 50, -1, -8])
        return clipped(by * it for it in samples)

    def shifted(self, samples):
        """The zero line is elsewhere."""
        by = self.draws.choice([-30000, -3000, 1, 3000, 30000])
        return clipped(it + by for it in samples)

    def stretched(self, samples):
        """Faster or slower."""
        rate = 1 + self.draws.choice([1e-4, 1e-3, 1e-2, 0.1]) * self.draws.choice([-1, 1])
        return array.array("h", (samples[int(it * rate)] for it in range(int((len(samples) - 1) / rate))))

    def mixed(self, samples):
        """With another recording on top of it, or with noise."""
        level = self.draws.choice([0.05, 0.5, 1])
        if self.draws.randrange(2):
            other = self.piece()
            return clipped(it + level * other[at] if at < len(other) else it for at, it in enumerate(samples))
        return clipped(it + self.draws.gauss(0, 9000 * level) for it in samples)

    def late(self, samples):
        """An octet late, so that each sample has the halves of two."""
        octets = samples.tobytes()[1:]
        return array.array("h", octets[: len(octets) // 2 * 2])

    def spoiled(self):
        """A piece of a recording, spoiled once or more."""
        samples = self.piece()
        ways = [self.flipped, self.cut, self.inserted, self.scaled, self.shifted, self.stretched, self.mixed, self.late]
        for _ in range(self.draws.choice([1, 1, 1, 2, 3, 5])):
            if len(samples) > 1:
                samples = self.draws.choice(ways)(samples)[:LONGEST]
        return samples.tobytes()

    def next(self):
        way = self.draws.choice([self.octets, self.noise, self.tones, *[self.spoiled] * 7])
        return way.__name__, way()


class Checks:
    """What is looked at."""

    def __init__(self, tnc, room, draws):
        self.tnc, self.draws = os.path.abspath(tnc), draws
        self.plain = f"{room}/plain_decoder"
        subprocess.run(["cc", "-O2", "-o", self.plain, f"{TOP}/bench/plain_decoder.c", "-lm"], check=True)

    def lines(self, octets, *words):
        done = subprocess.run([self.tnc, *words], input=octets, capture_output=True, timeout=120)
        if done.returncode or done.stderr:
            raise AssertionError(f"{' '.join(words)}: status {done.returncode}, report {done.stderr[:200]!r}")
        return done.stdout

    def in_pieces(self, octets):
        """What decode prints of octets that come in random pieces."""
        with subprocess.Popen([self.tnc, "decode"], stdin=subprocess.PIPE, stdout=subprocess.PIPE, bufsize=0) as program:
            taken = []
            reader = threading.Thread(target=lambda: taken.append(program.stdout.read()))
            reader.start()
            write_in_pieces(program, octets, self.draws)
            reader.join()
        return taken[0]

    def of_station(self, octets):
        """What a station reports of it, and how many octets it sends."""
        station = Station(self.tnc, "--monitor")
        at = sent = 0
        while at < len(octets):
            piece = octets[at : at + self.draws.choice([1, 191, TICK, 50 * TICK])]
            station.program.stdin.write(piece)
            at += len(piece)
            ready = at // TICK * TICK - sent
            if any(read_all(station.program.stdout, ready)):
                raise AssertionError("serve: it sent what nobody asked for")
            sent += ready
        status, rest, report = station.end()
        if status or rest or sent != len(octets) // TICK * TICK:
            raise AssertionError(f"serve: status {status}, {sent + len(rest)} octets for {len(octets)}")
        return report

    def look(self, octets):
        """Holds one sound against all of these. How many frames were in it."""
        lines = self.lines(octets, "decode")
        for line in lines.splitlines():
            if not 15 <= len(bytes.fromhex(line.decode())) <= 1024:
                raise AssertionError(f"a line of {len(line)} digits")
        even = octets[: len(octets) // 2 * 2]
        others = {
            "threads": self.lines(octets, "decode", "--threads"),
            "pieces": self.in_pieces(octets),
            "WAV": self.lines(wav_of(even), "decode", "--wav"),
            "plain decoder": subprocess.run([self.plain], input=octets, capture_output=True, check=True).stdout,
            "KISS": self.lines(self.lines(self.lines(octets, "decode", "--kiss"), "encode", "--kiss"), "decode"),
        }
        for name, other in others.items():
            if other != lines:
                raise AssertionError(f"{name}: other lines than those of decode")
        heard = "".join(f"rx {line}\n" for line in self.lines(lines, "show").decode().splitlines())
        # a frame that ends in the last part of a tick is none of the station's
        whole = self.lines(octets[: len(octets) // TICK * TICK], "decode")
        report = self.of_station(octets)
        if report not in (heard, "".join(f"rx {line}\n" for line in self.lines(whole, "show").decode().splitlines())):
            raise AssertionError(f"serve: a report of {report.count(chr(10))} lines, not the {heard.count(chr(10))} of decode")
        return lines.count(b"\n")


def main():
    reader = argparse.ArgumentParser()
    reader.add_argument("--tnc", default=f"{TOP}/bin/tnc")
    reader.add_argument("--seconds", type=float, default=60)
    reader.add_argument("--seed", type=int, default=1)
    given = reader.parse_args()
    draws = random.Random(given.seed)
    sounds, began = Sounds(draws), time.monotonic()
    count = samples = frames = wrong = 0
    with tempfile.TemporaryDirectory() as room:
        checks = Checks(given.tnc, room, draws)
        while time.monotonic() - began < given.seconds:
            kind, octets = sounds.next()
            try:
                frames += checks.look(octets)
            except (AssertionError, RuntimeError, OSError, ValueError, subprocess.SubprocessError) as fault:
                wrong += 1
                path = f"random-sound-{given.seed}-{count}.raw"
                with open(path, "wb") as file:
                    file.write(octets)
                print(f"WRONG: {kind}, {path}: {fault}", flush=True)
            count, samples = count + 1, samples + len(octets) // 2
    took = time.monotonic() - began
    print(f"seed {given.seed}: {count} sounds, {samples / 9600:.0f} s of them, {frames} frames, in {took:.0f} s here; {wrong} wrong")
    sys.exit(wrong > 0)


if __name__ == "__main__":
    main()
