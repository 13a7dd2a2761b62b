#!/usr/bin/env python3
"""How soon a channel is found busy, how often it is lost, and when it is free again, by tones, by flags, and by Dire Wolf.

  scripts/trials/carrier.py                    the tables of docs/RECEIVING.md, with 60 transmissions a row
  scripts/trials/carrier.py --count 20         with another number of transmissions
  scripts/trials/carrier.py --minutes 5        with another length of each sound that holds no transmission, 10 if not said
  scripts/trials/carrier.py --only WORD        the rows whose names hold this word
  scripts/trials/carrier.py --check            holds bench/plain_carrier.c against `tnc serve --dcd`, tick by tick
  scripts/trials/carrier.py --tnc PROGRAM      of another program than bin/tnc; --check alone asks it, with each of --dcd

The sound is made here from fixed seeds: transmissions of 0.3 to 1.7 seconds with gaps of 0.2 to 0.6 seconds in the same
noise. Whether the channel is busy is told by bench/plain_carrier.c, which says the same as a live station (--check), and by
Dire Wolf's `atest -d o`, if it and sox are installed, after sox has brought the sound to 44,100 samples a second. Voices are
those of espeak-ng, if that is installed. A ratio is that of the power of a tone to that of white noise in the whole band of
4800 Hz.

A transmission counts as found when the channel, free as the first tone comes, becomes busy before the last one. Lost: in how
many of those found the channel was free again before the end, and for how much of the time that was left. Free: how long
after the last tone. Times are medians in ms, with the time that 95 % are within."""
import argparse
import array
import math
import os
import random
import re
import shutil
import statistics
import subprocess
import sys
import tempfile

sys.path.append(os.path.join(os.path.dirname(__file__), "../shared"))
from air import TICK, Kiss, Station, read_all
from scores import BAUD, LEVEL, MARK, RATE, SPACE, TOP, check_sequence, frames, octets_of

FLAG = [0, 1, 1, 1, 1, 1, 1, 0]
OPENING = 25  # flags, or as many bits of what is sent in their place
VOICES = ("en", "en+f2", "en+m3", "en-us+f4", "en-us+m7", "de+m1", "de+f3", "fr+f1", "es+m5", "it+f5")
TEXT = """C Q C Q C Q, calling C Q forty metres and listening. Good evening, old man, and thank you for the call. Your report is
five and nine in the capital. My name is Anna, and I live near the lake. The rig here runs fifty watts into a vertical, eleven
metres high. The weather is wet and windy, and it will rain again tomorrow. How do you copy? Over to you. Roger, roger, all
copied. I heard you on the repeater last week, when you spoke about your new antenna. Alfa Bravo Charlie Delta Echo Foxtrot
Golf Hotel India Juliett Kilo Lima Mike November Oscar Papa Quebec Romeo Sierra Tango Uniform Victor Whiskey X-ray Yankee Zulu.
Zero one two three four five six seven eight nine."""


SPEAKER = ("sinc", "300-3000", "gain", "-9", "compand", "0.01,0.2", "-60,-60,-40,-15,0,-6", "norm", "-3")
TREBLE = ("biquad", "1", "-0.95", "0", "1", "0", "0", "norm", "-3")
RAW = ("-t", "raw", "-r", str(RATE), "-e", "signed", "-b", "16", "-c", "1", "-")


def stuffed(frame):
    """The bits of a frame between its flags."""
    ones = 0
    for octet in frame + check_sequence(frame):
        for place in range(8):
            bit = octet >> place & 1
            yield bit
            ones = ones + 1 if bit else 0
            if ones == 5:
                yield 0
                ones = 0


def sent_bits(opening, count, sent):
    """So many bits: an opening, and frames with one flag before each."""
    bits = list(opening)
    while len(bits) < count:
        bits += FLAG + list(stuffed(next(sent)))
    return bits[: count - 8] + FLAG


class Row:
    """A kind of transmission, and what happens to it on its way."""

    def __init__(self, name, opening=FLAG * OPENING, ratio=None, level=LEVEL, twist=0.0, clock=0.0, tune=0.0, skip=0.0, hum=0.0,
                 hole=0.0, loud=False, fading=0.0):
        self.name, self.opening, self.ratio, self.level = name, opening, ratio, level
        self.twist, self.clock, self.tune, self.skip, self.hum = twist, clock, tune, skip, hum
        self.hole, self.loud, self.fading = hole, loud, fading

    def wave(self, bits, start):
        """The samples of a transmission that begins at a fraction of a sample."""
        rate = 1 + self.clock / 100
        each, begin, phase, at, level, made = RATE / (BAUD * rate), start, 0.0, 1, 1, []
        loud = self.level * 10 ** (self.twist / 20)
        for bit in bits:
            level = level if bit else 1 - level
            step = 2 * math.pi * ((MARK if level else SPACE) * rate + self.tune) / RATE
            size = self.level if level else loud
            while at < begin + each:
                made.append(size * math.sin(phase + step * (at - begin)))
                at += 1
            phase = (phase + step * each) % (2 * math.pi)
            begin += each
        return made

    def transmission(self, draws, sent):
        seconds = 0.3 + 1.4 * draws.random()
        made = self.wave(sent_bits(self.opening, round(seconds * BAUD), sent), draws.random())
        made = made[round(self.skip * draws.random() * RATE):] if self.skip else made
        if self.fading:
            turn = 2 * math.pi * draws.random()
            for at in range(len(made)):
                made[at] *= 10 ** (-self.fading * (1 + math.sin(turn + 10 * math.pi * at / RATE)) / 40)
        return made

    def spoil(self, made, draws, first, last):
        """Silence, or loud noise, at a drawn place of a transmission."""
        length = round(self.hole * RATE / 1000)
        at = draws.randrange(first + RATE // 10, last - RATE // 20 - length)
        made[at : at + length] = [draws.gauss(0, 2 * self.level) if self.loud else 0.0 for _ in range(length)]

    def sound(self, count, seed):
        """The whole, and where each transmission begins and ends."""
        draws, sent, made, places = random.Random(seed), iter(frames(4000, seed, None)), [], []
        for _ in range(count):
            made += [0.0] * round((0.2 + 0.4 * draws.random()) * RATE)
            one = self.transmission(draws, sent)
            places.append((len(made), len(made) + len(one)))
            made += one
        made += [0.0] * RATE
        if self.ratio is not None:
            power = self.level / math.sqrt(2) / 10 ** (self.ratio / 20)
            made = [it + draws.gauss(0, power) for it in made]
        if self.hum:
            made = [it + self.hum * self.level * math.sin(2 * math.pi * 50 * at / RATE) for at, it in enumerate(made)]
        if self.hole:
            for place in places:
                self.spoil(made, draws, *place)
        return made, places


ROWS = (
    Row("clean"),
    Row("noise, 10 dB", ratio=10),
    Row("noise, 7 dB", ratio=7),
    Row("noise, 4 dB", ratio=4),
    Row("noise, 2 dB", ratio=2),
    Row("opening of 0s, 10 dB", opening=[0] * 8 * OPENING, ratio=10),
    Row("opening of 1s, 10 dB", opening=[1] * 8 * OPENING, ratio=10),
    Row("no opening, 10 dB", opening=[], ratio=10),
    Row("joined in the middle, 10 dB", opening=[], ratio=10, skip=0.2),
    Row("level 10, 10 dB", ratio=10, level=10),
    Row("level 30000, 10 dB", ratio=10, level=30000),
    Row("space +6 dB, 10 dB", ratio=10, twist=6),
    Row("space -6 dB, 10 dB", ratio=10, twist=-6),
    Row("tones 50 Hz high, 10 dB", ratio=10, tune=50),
    Row("clock 1 % fast, 10 dB", ratio=10, clock=1),
    Row("hum as loud as the tones, 10 dB", ratio=10, hum=1),
    Row("hole of 10 ms, 10 dB", ratio=10, hole=10),
    Row("hole of 30 ms, 10 dB", ratio=10, hole=30),
    Row("hole of 30 ms, 7 dB", ratio=7, hole=30),
    Row("30 ms of loud noise, 10 dB", ratio=10, hole=30, loud=True),
    Row("50 ms of loud noise, 10 dB", ratio=10, hole=50, loud=True),
    Row("fading of 14 dB at 5 Hz, 10 dB", ratio=10, fading=14),
    Row("hum twice as loud as the tones, 10 dB", ratio=10, level=5000, hum=2),
)


def by_plain(program, words):
    """When the channel is busy, in ms, as the plain program says."""
    def busy(sound):
        told = subprocess.run([program, words], input=sound, stdout=subprocess.PIPE, check=True).stdout.split()
        places = [int(it) * 1000 / RATE for it in told[1::2]]
        if len(places) % 2:
            places.append(len(sound) / 2 * 1000 / RATE)
        return list(zip(places[::2], places[1::2]))
    return busy


def by_wolf(room):
    """The same as Dire Wolf's atest tells it. It tells a carrier once it ends."""
    def busy(sound):
        subprocess.run(["sox", "-q", "-V1", "-R", *RAW, "-r", "44100", f"{room}/wolf.wav", "vol", "0.5"], input=sound, check=True)
        told = subprocess.run(["atest", "-B", "1200", "-d", "o", f"{room}/wolf.wav"], stdout=subprocess.PIPE).stdout
        found = re.findall(r"DCD\[0\]\s+(\d+):([\d.]+) - (\d+):([\d.]+)", told.decode(errors="replace"))
        ms = lambda minutes, seconds: 60000 * int(minutes) + 1000 * float(seconds)
        return [(ms(*it[:2]), ms(*it[2:])) for it in found]
    return busy


def held_at(busy, at):
    return any(begin <= at < end for begin, end in busy)


def spread(values):
    if not values:
        return "never"
    values = sorted(values)
    return f"{statistics.median(values):.0f} ({values[min(len(values) - 1, int(0.95 * len(values)))]:.0f})"


def judged(busy, places):
    """The cells of a row: found, lost, free after the end."""
    found, held, lost, away, whole, free = [], 0, 0, 0.0, 0.0, []
    for (first, last), (after, _) in zip(places, [*places[1:], (math.inf, 0)]):
        begin, end = first * 1000 / RATE, last * 1000 / RATE
        inside = [(max(begin, one), min(end, other)) for one, other in busy if one < end and other > begin]
        if held_at(busy, begin):
            held += 1
        elif inside:
            found.append(inside[0][0] - begin)
        if inside:
            left = end - inside[0][0] - sum(other - one for one, other in inside)
            lost, away, whole = lost + (len(inside) > 1 or inside[-1][1] < end), away + left, whole + end - inside[0][0]
        free += [min(other, after * 1000 / RATE) - end for one, other in busy if one < end <= other]
    missed = len(places) - held - len(found)
    cell = spread(found) + (f", {missed} not" if missed and found else "") + (f", {held} still busy" if held else "")
    return cell, f"{lost}" + (f", {100 * away / whole:.1f} %" if lost else ""), spread(free)


def noises(seconds, seed):
    """Sounds that hold no transmission, as octets, by their names."""
    draws, count = random.Random(seed), seconds * RATE
    gauss = lambda size: [draws.gauss(0, size) for _ in range(count)]
    yield "silence", lambda: bytes(2 * count)
    for level in (1, 100, 3000, 20000):
        yield f"white noise, {level}", lambda level=level: octets_of(gauss(level))

    def discriminator():
        white = gauss(3000)
        return octets_of([one - other for one, other in zip(white[1:], white)])

    yield "noise of a discriminator", discriminator
    if shutil.which("sox"):
        yield "noise of 300 to 3000 Hz", lambda: by_sox(octets_of(gauss(6000)), "sinc", "300-3000")
        yield "pink noise", lambda: by_sox(bytes(2 * count), "synth", "pinknoise", "vol", "0.5")
    yield "hum of 50 Hz", lambda: octets_of([8000 * math.sin(2 * math.pi * 50 * at / RATE)
                                             + 3000 * math.sin(2 * math.pi * 150 * at / RATE) + draws.gauss(0, 100)
                                             for at in range(count)])
    if shutil.which("sox") and shutil.which("espeak-ng"):
        spoken = []

        def voice():
            if not spoken:
                spoken.append(b"".join(spoken_by(it) for it in VOICES))
            return spoken[0]

        yield "voices, whole band", voice
        yield "voices, 300 to 3000 Hz, compressed", lambda: by_sox(voice(), *SPEAKER)
        yield "voices, 6 dB an octave more treble", lambda: by_sox(voice(), *TREBLE)


def by_sox(sound, *effects):
    done = subprocess.run(["sox", "-q", "-V1", "-R", "-D", *RAW, *RAW, *effects], input=sound, stdout=subprocess.PIPE, check=True)
    return done.stdout


def spoken_by(name):
    """The text, twice, read by a voice at two speeds."""
    made = b""
    for words in ("150", "190"):
        wav = subprocess.run(["espeak-ng", "-v", name, "-s", words, "--stdout", TEXT], stdout=subprocess.PIPE, check=True).stdout
        program = ["sox", "-q", "-V1", "-D", "-t", "wav", "-", *RAW]
        made += subprocess.run(program, input=wav, stdout=subprocess.PIPE, check=True).stdout
    return made


def share(busy, sound):
    return f"{100 * sum(end - begin for begin, end in busy) / (len(sound) / 2 * 1000 / RATE):.3f}"


def tables(given, room):
    plain = compiled(room)
    ways = {"tones": by_plain(plain, "tones"), "3 flags": by_plain(plain, "3")}
    if shutil.which("atest") and shutil.which("sox"):
        ways["Dire Wolf"] = by_wolf(room)
    titles = [f"{what}, {way}" for what in ("Found", "Lost", "Free") for way in ways]
    print(f"| Of {given.count} transmissions | {' | '.join(titles)} |\n|---|{'---|' * len(titles)}")
    for at, row in enumerate(ROWS):
        if given.only in row.name:
            samples, places = row.sound(given.count, given.seed + at)
            sound = octets_of(samples)
            cells = zip(*(judged(busy(sound), places) for busy in ways.values()))
            print(f"| {row.name} | {' | '.join(cell for kind in cells for cell in kind)} |", flush=True)
    print(f"\n| Busy, % | minutes | {' | '.join(ways)} |\n|---|---|{'---|' * len(ways)}")
    for name, make in noises(given.minutes * 60, given.seed):
        if given.only in name:
            sound = make()
            cells = [share(busy(sound), sound) for busy in ways.values()]
            print(f"| {name} | {len(sound) / 2 / RATE / 60:.1f} | {' | '.join(cells)} |", flush=True)
    return 0


def compiled(room):
    subprocess.run(["cc", "-O2", "-o", f"{room}/plain_carrier", f"{TOP}/bench/plain_carrier.c"], check=True)
    return f"{room}/plain_carrier"


FRAME = bytes.fromhex("82a0a4a64040609c6e988a9a406103f0")


def keyed(tnc, how, sound):
    """In which ticks a station sends that always has frames, TXDELAY 0 and P = 255, and hears this sound."""
    station = Station(tnc, "--dcd", how)
    host = Kiss(station)
    for command, value in ((1, 0), (2, 255), (3, 0), (4, 0)):
        host.send(bytes([value]), command=command)
    sends, queued = [], 0
    for at in range(0, len(sound) - TICK + 1, TICK):
        while queued < 30 + sum(sends) // 10:
            host.send(FRAME)
            queued += 1
        station.program.stdin.write(sound[at : at + TICK])
        sends.append(any(read_all(station.program.stdout, TICK)))
    station.end()
    return sends


def check(given, room):
    """A station that always has frames begins to send in no busy tick, and is silent in no free one."""
    plain, wrong = compiled(room), 0
    for how in given.dcd:
        for at, row in enumerate(ROWS):
            if given.only not in row.name:
                continue
            samples, _ = row.sound(5, given.seed + 100 + at)
            sound = octets_of(samples)
            busy = by_plain(plain, how)(sound)
            sends = keyed(given.tnc, how, sound)
            begins = [it for it in range(1, len(sends)) if sends[it] and not sends[it - 1]]
            waits = [it for it in range(20, len(sends)) if not any(sends[it - 1 : it + 1])]
            bad = [it for it in begins if held_at(busy, 10 * (it + 1))]
            idle = [it for it in waits if not held_at(busy, 10 * (it + 1))]
            wrong += len(bad) + len(idle)
            if bad or idle:
                print(f"WRONG: --dcd {how}, {row.name}: begins while busy in ticks {bad[:5]}, waits while free in {idle[:5]}")
    print(f"{wrong} wrong")
    return wrong > 0


def main():
    reader = argparse.ArgumentParser()
    reader.add_argument("--tnc", default=f"{TOP}/bin/tnc")
    reader.add_argument("--count", type=int, default=60)
    reader.add_argument("--minutes", type=int, default=10)
    reader.add_argument("--seed", type=int, default=1)
    reader.add_argument("--only", default="")
    reader.add_argument("--check", action="store_true")
    reader.add_argument("--dcd", nargs="+", default=["tones", "1", "2", "3", "8"])
    given = reader.parse_args()
    with tempfile.TemporaryDirectory() as room:
        return (check if given.check else tables)(given, room)


if __name__ == "__main__":
    sys.exit(main())
