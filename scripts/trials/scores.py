#!/usr/bin/env python3
"""What `tnc decode` hears of sound that is not clean: how many of so many frames, row by row.

  scripts/trials/scores.py                 a table with 100 frames a row
  scripts/trials/scores.py --frames 20     with another number
  scripts/trials/scores.py --sensitive     and what `tnc decode --sensitive` hears
  scripts/trials/scores.py --more          rows of its own: noise by half decibels, clocks that are far off, offset and hum, phases
                                           that begin anew, an FM receiver's sound
  scripts/trials/scores.py --hf            short wave, 300 bits a second: noise, receivers off their frequency, clocks that are off, two paths.
                                           What `decode --hf` hears, and with --sensitive, atest as `atest -B 300` with --beside,
                                           also with two demodulators and repair of single bits
  scripts/trials/scores.py --wide          sound at 48,000 samples a second, with noise up to 24,000 Hz: what `decode --rate 48000` hears, and
                                           `decode` of what sox brings to 9600
  scripts/trials/scores.py --beside        and what atest (as it is, and as `atest -P E+ -F 1`), soundmodem and multimon-ng hear of
                                           the same sound, if they are installed
  scripts/trials/scores.py --check         12 frames a row, each count held against its bounds; status 1 outside
  scripts/trials/scores.py --noise 40      how many lines come of 40 hours of white noise, which holds no frame; with --sensitive
                                           too, of that decoder
  scripts/trials/scores.py --tnc PROGRAM   of another program than bin/tnc

The sound is made here and shares nothing with the program: frames with random text, inserted zeros, tones of continuous
phase at any clock. All is drawn from fixed seeds, so a run gives the same table again. Levels are amplitudes of a tone,
in steps of a sample; a signal-to-noise ratio is that of the power of a tone to the power of white noise in the whole
band of 4800 Hz."""
import argparse
import array
import cmath
import math
import os
import random
import select
import shutil
import subprocess
import sys
import tempfile
import time
import tty
from collections import Counter

TOP = os.path.dirname(os.path.dirname(os.path.dirname(os.path.abspath(__file__))))
RATE, BAUD, MARK, SPACE = 9600, 1200, 1200, 2200
LEVEL = 10000
CHECKED = 12


def check_sequence(octets):
    value = 0xFFFF
    for octet in octets:
        value ^= octet
        for _ in range(8):
            value = value >> 1 ^ 0x8408 if value & 1 else value >> 1
    return bytes(((value ^ 0xFFFF) & 255, (value ^ 0xFFFF) >> 8))


def call(name, ssid, last):
    return bytes(2 * ord(letter) for letter in name.ljust(6)) + bytes([0x60 | 2 * ssid | last])


def frames(count, seed, information):
    """UI frames whose text has so many octets; each has its number in it, so no two are equal."""
    draw = random.Random(seed)
    letters = "abcdefghijklmnopqrstuvwxyz     0123456789"
    made = []
    for number in range(count):
        length = information or 20 + int(draw.random() * 109)
        text = f"{number:04} " + "".join(letters[int(draw.random() * len(letters))] for _ in range(length - 5))
        head = call("APRS", 0, 0) + call(f"N{seed}CALL"[:6], 1 + number % 15, 1)
        made.append(head + b"\x03\xf0" + text.encode())
    return made


def line_bits(frame, opening):
    """The levels of the line, 1 for mark: flags, the frame with its inserted zeros, and two flags."""
    bits = [0, 1, 1, 1, 1, 1, 1, 0] * opening
    ones = 0
    for octet in frame + check_sequence(frame):
        for place in range(8):
            bit = octet >> place & 1
            bits.append(bit)
            ones = ones + 1 if bit else 0
            if ones == 5:
                bits.append(0)
                ones = 0
    bits += [0, 1, 1, 1, 1, 1, 1, 0] * 2
    level = 1
    for bit in bits:
        level = level if bit else 1 - level
        yield level


def tones(frame, start, clock=0.0, mark=LEVEL, space=LEVEL, opening=30, anew=False, off=0, turning=False):
    """The samples of a transmission that begins `start` samples (a fraction of one) after the first. The sender's clock
    is fast by so many parts per million, its tones as well as its bits, and its tones are so many hertz off. If `anew`, the
    phase begins anew at each change of tone. If `turning`, the samples are complex."""
    rate = 1 + clock / 1e6
    samples_a_bit = RATE / (BAUD * rate)
    begin, phase, at, before = start, 0.0, math.ceil(start), None
    made = [0.0] * at
    for level in line_bits(frame, opening):
        step = 2 * math.pi * ((MARK if level else SPACE) * rate + off) / RATE
        loud = mark if level else space
        if anew and level != before:
            phase, before = 0.0, level
        end = begin + samples_a_bit
        while at < end:
            angle = phase + step * (at - begin)
            made.append(loud * cmath.exp(1j * angle) if turning else loud * math.sin(angle))
            at += 1
        phase = (phase + step * samples_a_bit) % (2 * math.pi)
        begin = end
    return made


def sound(sent, seed, gap=400, **how):
    """Transmissions one after another, each after a silence of its own at a place of its own within a sample."""
    draw = random.Random(seed)
    made = []
    for frame in sent:
        made += [0.0] * (gap + int(draw.random() * 97))
        made += tones(frame, draw.random(), **how)
    return made + [0.0] * 200


class Noise:
    """White noise of unit power, drawn once."""

    def __init__(self):
        self.draw, self.values = random.Random(77), []

    def of(self, count):
        while len(self.values) < count:
            size, turn = math.sqrt(-2 * math.log(1 - self.draw.random())), 2 * math.pi * self.draw.random()
            self.values += [size * math.cos(turn), size * math.sin(turn)]
        return self.values


NOISE = Noise()


def noisy(samples, ratio, level=LEVEL):
    power = level / math.sqrt(2) / 10 ** (ratio / 20)
    return [sample + power * noise for sample, noise in zip(samples, NOISE.of(len(samples)))]


def added(samples, others):
    """One sound on top of another."""
    longer, shorter = sorted((samples, others), key=len, reverse=True)
    return [one + other for one, other in zip(longer, shorter)] + longer[len(shorter):]


def pcm(samples):
    return array.array("h", (max(-32768, min(32767, round(sample))) for sample in samples))


def octets_of(samples):
    made = pcm(samples)
    if sys.byteorder == "big":
        made.byteswap()
    return made.tobytes()


# A row: its name, the least and the most of the checked frames that are heard, the frames that were sent, the sound,
# and the frames of another sender, which may be heard too.
def rows(count):
    mixed = frames(count, 1, None)
    clean = sound(mixed, 11)
    yield "clean", *CLEAN, mixed, clean, []
    for ratio, least, most in NOISES:
        yield f"noise, {ratio} dB", least, most, mixed, noisy(clean, ratio), []
    for level, least, most in LEVELS:
        loud = [sample * level / LEVEL for sample in clean]
        yield f"level {level}{', clipped' if level > 32767 else ''}", least, most, mixed, loud, []
    for level, least, most in QUIET:
        loud = [sample * level / LEVEL for sample in clean]
        yield f"level {level}, noise, 12 dB", least, most, mixed, noisy(loud, 12, level), []
    for twist, least, most in TWISTS:
        made = sound(mixed, 12, space=LEVEL * 10 ** (twist / 20))
        yield f"space {twist:+} dB", least, most, mixed, made, []
        for ratio, fewest, highest in NOISY_TWISTS.get(twist, []):
            yield f"space {twist:+} dB, noise, {ratio} dB", fewest, highest, mixed, noisy(made, ratio), []
    for offset, least, most in OFFSETS:
        yield f"offset {offset}", least, most, mixed, [sample + offset for sample in clean], []
    for information, clocks in CLOCKS:
        sent = frames(count, 2, information)
        for clock, least, most in clocks:
            yield f"clock {clock:+} ppm, {information} octets", least, most, sent, sound(sent, 13, clock=clock), []
    # a second sender of another level and clock, after the first
    first, second = frames(count - count // 2, 3, None), frames(count // 2, 4, None)
    made = sound(first, 14, gap=300) + sound(second, 15, clock=-80, mark=LEVEL / 4, space=LEVEL / 4)
    yield "two senders, one after the other", *SECOND_AFTER, first + second, made, []
    # one that sends at the same time, and is weaker
    others = frames(count, 5, None)
    for under, least, most in SECOND_AT_ONCE:
        weak = LEVEL * 10 ** (-under / 20)
        other = sound(others, 16, gap=10, clock=40, mark=weak, space=weak)
        yield f"another sender at once, {under} dB weaker", least, most, mixed, added(clean, other), others


def filtered(samples, first, before, last):
    """The filter y[n] = first * x[n] + before * x[n - 1] + last * y[n - 1]."""
    made, was, now = [], 0.0, 0.0
    for sample in samples:
        now = first * sample + before * was + last * now
        was = sample
        made.append(now)
    return made


def of_unit_power(samples):
    power = math.sqrt(sum(sample * sample for sample in samples) / len(samples))
    return [sample / power for sample in samples]


def short_frame(number):
    """A frame of 21 to 100 octets, 16 of which are its path, its control octet and its PID."""
    return frames(1, 1000 + number, random.Random(number).randrange(5, 85))[0]


# More rows, without bounds: noise by half decibels, clocks that are far off, an offset and a hum that are louder than the
# tones, phases that begin anew, and what an FM receiver makes of a signal. The noise of its discriminator rises with the
# frequency; its de-emphasis takes 6 dB an octave from both (here above 212 Hz).
def more_rows(count):
    mixed = frames(count, 1, None)
    clean = sound(mixed, 11)
    for half in range(14, -3, -1):
        yield f"noise, {half / 2:g} dB", 0, count, mixed, noisy(clean, half / 2), []
    short = [short_frame(number) for number in range(count)]
    for ratio in (3, 2, 1.5, 1, 0.75, 0.5, 0):
        made = noisy(sound(short, 11), ratio)
        yield f"21 to 100 octets, noise, {ratio:g} dB", 0, count, short, made, []
    short = frames(count, 2, 20)
    for clock in (1000, 2000, 3000, 5000, 10000, 20000, 40000):
        for sign in (-1, 1):
            made = noisy(sound(short, 13, clock=sign * clock), 10)
            yield f"clock {sign * clock:+} ppm, noise, 10 dB", 0, count, short, made, []
    quiet = sound(short, 13, mark=1500, space=1500)
    for louder in (15, 20):
        yield f"offset, {louder} dB louder", 0, count, short, [sample + 1500 * 10 ** (louder / 20) for sample in quiet], []
        hum = [1500 * 10 ** (louder / 20) * math.sin(2 * math.pi * 50 * place / RATE) for place in range(len(quiet))]
        yield f"hum of 50 Hz, {louder} dB louder", 0, count, short, added(quiet, hum), []
    for clock in (0, -10000, 10000):
        yield f"phase anew, clock {clock:+} ppm", 0, count, short, sound(short, 13, clock=clock, anew=True), []
    rising = of_unit_power(filtered(NOISE.of(len(clean)), 1, -1, 0))
    decay = math.exp(-2 * math.pi * 212 / RATE)
    for ratio in (10, 8, 6, 4, 2, 0):
        power = LEVEL / math.sqrt(2) / 10 ** (ratio / 20)
        heard = [sample + power * noise for sample, noise in zip(clean, rising)]
        yield f"FM noise, {ratio} dB", 0, count, mixed, heard, []
        yield f"FM noise, {ratio} dB, de-emphasis", 0, count, mixed, filtered(heard, 4 * (1 - decay), 0, decay), []


# Bounds of the checked frames: what a correct receiver of this kind hears of the fixed sound, and one or two frames of
# room where a sample that is rounded otherwise could turn the outcome.
CLEAN = (12, 12)
NOISES = [(20, 12, 12), (15, 12, 12), (10, 12, 12), (8, 11, 12), (7, 11, 12), (6, 8, 12), (5, 3, 7), (4, 0, 4)]
NOISES += [(2, 0, 1)]
LEVELS = [(1, 12, 12), (2, 12, 12), (10, 12, 12), (100, 12, 12), (30000, 12, 12), (100000, 12, 12)]
QUIET = [(3, 10, 12), (10, 11, 12)]
TWISTS = [(-18, 12, 12), (-12, 12, 12), (-6, 12, 12), (6, 12, 12), (12, 12, 12), (18, 12, 12)]
NOISY_TWISTS = {-6: [(12, 11, 12)], 6: [(12, 11, 12)]}
OFFSETS = [(2000, 12, 12), (5000, 12, 12), (10000, 12, 12)]
CLOCKS = [
    (20, [(-1000, 12, 12), (1000, 12, 12), (-3000, 0, 0), (3000, 0, 0)]),
    (256, [(-100, 12, 12), (100, 12, 12), (-300, 12, 12), (300, 12, 12), (-1000, 0, 0), (1000, 0, 0)]),
]
SECOND_AFTER = (12, 12)
# What --sensitive hears at least, in the rows in which that is more than the eight lanes alone hear.
SENSITIVE = {
    "noise, 6 dB": 12,
    "noise, 5 dB": 12,
    "noise, 4 dB": 12,
    "noise, 2 dB": 8,
    **{f"clock {clock:+} ppm, 20 octets": 12 for clock in (-3000, 3000)},
    **{f"clock {clock:+} ppm, 256 octets": 12 for clock in (-1000, 1000)},
}
SECOND_AT_ONCE = [(20, 12, 12), (10, 11, 12), (6, 10, 12), (3, 8, 12)]


def faded(samples, draw, delay, spread):
    """What comes over two paths, the second so many samples later: each turns and fades by itself, by a spread in hertz. The
    samples are complex."""
    made = [0.0] * (len(samples) + delay)
    for later in (0, delay):
        waves = [(draw.gauss(0, spread / 2) * 2 * math.pi / RATE, draw.random() * 2 * math.pi) for _ in range(8)]
        for at in range(0, len(samples), 96):
            gain = sum(cmath.exp(1j * (step * at + phase)) for step, phase in waves) / 4
            for place, sample in enumerate(samples[at:at + 96], at + later):
                made[place] += (gain * sample).real
    return made


def hf_rows(count):
    """Short wave: frames of 20 to 80 octets, each with 30 flags before it."""
    sent = [frames(1, 3000 + number, 5 + number % 60)[0] for number in range(count)]
    clean = sound(sent, 21, gap=1600)
    yield "clean", 0, count, sent, clean, []
    for ratio in range(2, -9, -1):
        yield f"noise, {ratio} dB", 0, count, sent, noisy(clean, ratio), []
    for off in (10, 25, 50, 100):
        made = sound(sent, 22, gap=1600, off=off)
        for ratio in (3, -3):
            yield f"{off} Hz off, noise, {ratio} dB", 0, count, sent, noisy(made, ratio), []
    for clock in (-10000, -3000, 3000, 10000):
        yield f"clock {clock:+} ppm, noise, 3 dB", 0, count, sent, noisy(sound(sent, 23, gap=1600, clock=clock), 3), []
    for delay, spread in ((1, 0.5), (1, 1), (2, 0.5), (2, 1)):
        draw, made = random.Random(24), []
        for frame in sent:
            made += [0.0] * 1600
            made += faded(tones(frame, draw.random(), turning=True), draw, delay * RATE // 1000, spread)
        yield f"two paths, {delay} ms apart, spread {spread} Hz, noise, 9 dB", 0, count, sent, noisy(made, 9), []


def wide_rows(count):
    """Sound at 48,000 samples a second. The ratio is that to the noise below 4800 Hz, of which there is as much in each of
    the four bands above."""
    mixed = frames(count, 1, None)
    clean = sound(mixed, 11, gap=2000)
    yield "clean", count, count, mixed, clean, []
    for ratio in (14, 10, 8, 6, 5, 4, 3, 2):
        yield f"noise up to 24,000 Hz, {ratio} dB", 0, count, mixed, noisy(clean, ratio - 10 * math.log10(5)), []


def heard_by_tnc(tnc, samples, _, *options):
    run = subprocess.run([tnc, "decode", *options], input=octets_of(samples), capture_output=True)
    if run.returncode:
        sys.exit(f"scores.py: tnc decode ended with status {run.returncode}: {run.stderr.decode().strip()}")
    return run.stdout.decode().split()


def heard_by_sensitive(tnc, samples, room):
    return heard_by_tnc(tnc, samples, room, "--sensitive")


def heard_on_short_wave(tnc, samples, room):
    return heard_by_tnc(tnc, samples, room, "--hf")


def heard_on_short_wave_by_all(tnc, samples, room):
    return heard_by_tnc(tnc, samples, room, "--hf", "--sensitive")


def resampled(samples, rate, kind, to):
    words = ["sox", "-q", "-V0", "-t", "raw", "-r", str(RATE), "-e", "signed", "-b", "16", "-c", "1", "-"]
    words += ["-t", kind, "-r", str(rate), "-e", "signed", "-b", "16", to]
    subprocess.run(words, input=octets_of(samples), stderr=subprocess.DEVNULL, check=True)


def heard_at_48000(tnc, samples, room):
    return heard_by_tnc(tnc, samples, room, "--rate", "48000")


def heard_at_48000_by_all(tnc, samples, room):
    return heard_by_tnc(tnc, samples, room, "--rate", "48000", "--sensitive")


def heard_through_sox(tnc, samples, room):
    resampled(samples, 9600, "raw", f"{room}/9600.raw")
    with open(f"{room}/9600.raw", "rb") as given:
        return subprocess.run([tnc, "decode"], stdin=given, capture_output=True, check=True).stdout.decode().split()


def heard_by_atest(_, samples, room, *options):
    """The frames in the hexadecimal dumps of Dire Wolf's atest."""
    resampled(samples, 48000, "wav", f"{room}/48000.wav")
    run = subprocess.run(["atest", "-B", str(BAUD), *options, "-h", f"{room}/48000.wav"], capture_output=True)
    made, part = [], ""
    for line in run.stdout.decode(errors="replace").splitlines() + [""]:
        if line.startswith("  ") and line[5:8] == ":  ":
            part += line[8:56].replace(" ", "")
        elif part:
            made.append(part)
            part = ""
    return made


def heard_by_atest_repairing(tnc, samples, room):
    """With two demodulators, and with frames repaired by one bit. On short wave it hears each third sample: for more its filter
    is too long."""
    return heard_by_atest(tnc, samples, room, "-P", "E+", "-F", "1", *(["-D", "3"] if BAUD == 300 else []))


SOUNDMODEM = """<?xml version="1.0"?>
<modem><configuration name="file">
<chaccess txdelay="150" slottime="100" ppersist="40" fulldup="0" txtail="10"/>
<audio type="file" file="{sound}" repeat="1"/><ptt file="none"/>
<channel name="0">
<mod mode="afsk" bps="1200" f0="1200" f1="2200" diffenc="1"/>
<demod mode="afsk" bps="1200" f0="1200" f1="2200" diffdec="1"/>
<pkt mode="KISS" file="{port}" unlink="1"/>
</channel></configuration></modem>
"""


def heard_by_soundmodem(_, samples, room):
    """The data frames that soundmodem gives a KISS host, each once. It reads the sound again and again as fast as it can, and
    drops what the host does not take at once, so the host listens until nothing new has come for three seconds."""
    resampled(samples, RATE, "wav", f"{room}/9600.wav")
    port = f"{room}/kiss"
    with open(f"{room}/soundmodem.conf", "w") as made:
        made.write(SOUNDMODEM.format(sound=f"{room}/9600.wav", port=port))
    if os.path.islink(port):
        os.unlink(port)
    words = ["soundmodem", f"{room}/soundmodem.conf", "-v", "0"]
    program = subprocess.Popen(words, stdout=subprocess.DEVNULL, stderr=subprocess.DEVNULL)
    try:
        begun = time.monotonic()
        while not os.path.islink(port):
            if time.monotonic() > begun + 10:
                sys.exit("scores.py: soundmodem opened no port")
            time.sleep(0.01)
        host = os.open(port, os.O_RDWR | os.O_NOCTTY | os.O_NONBLOCK)
        tty.setraw(host)
        found, part, quiet = set(), b"", time.monotonic() + 3
        while time.monotonic() < quiet:
            part += os.read(host, 65536) if select.select([host], [], [], 0.1)[0] else b""
            *whole, part = part.split(b"\xc0")
            whole = [it.replace(b"\xdb\xdc", b"\xc0").replace(b"\xdb\xdd", b"\xdb") for it in whole]
            new = {it[1:].hex() for it in whole if it[:1] == b"\0"} - found
            if new:
                found, quiet = found | new, time.monotonic() + 3
        os.close(host)
    finally:
        program.kill()
        program.wait()
    return sorted(found)


def heard_by_multimon(_, samples, room):
    """The texts that multimon-ng prints, which are those of the frames: it prints no octets."""
    resampled(samples, 22050, "raw", f"{room}/22050.raw")
    with open(f"{room}/22050.raw", "rb") as given:
        words = ["multimon-ng", "-q", "-t", "raw", "-a", "AFSK1200", "-"]
        run = subprocess.run(words, stdin=given, capture_output=True)
    return [line for line in run.stdout.decode(errors="replace").splitlines() if not line.startswith("AFSK1200:")]


def of_noise(tnc, hours, options):
    """The lines that come of noise alone: samples that are drawn evenly, hour by hour. And how many of them are frames."""
    lines = frames = 0
    for hour in range(hours):
        noise = random.Random(hour).randbytes(2 * RATE * 3600)
        found = subprocess.run([tnc, "decode", *options], input=noise, capture_output=True, check=True).stdout
        shown = subprocess.run([tnc, "show"], input=found, capture_output=True, check=True).stdout
        lines += found.count(b"\n")
        frames += sum(not line.startswith(b"!") for line in shown.splitlines())
    print(f"{hours} hours of noise: {lines} lines, {frames} of them frames of AX.25")


def count_of(sent, others, heard):
    """How many of what was sent was heard, and how many lines are neither that nor another sender's."""
    given = Counter(heard)
    known = given & Counter(sent)
    return sum(known.values()), sum((given - known - Counter(others)).values())


def main():
    words = argparse.ArgumentParser(description="what tnc decode hears of sound that is not clean")
    words.add_argument("--frames", type=int, default=100)
    words.add_argument("--check", action="store_true")
    words.add_argument("--sensitive", action="store_true")
    words.add_argument("--more", action="store_true")
    words.add_argument("--hf", action="store_true")
    words.add_argument("--wide", action="store_true")
    words.add_argument("--beside", action="store_true")
    words.add_argument("--tnc", default=f"{TOP}/bin/tnc")
    words.add_argument("--noise", type=int, metavar="HOURS")
    given = words.parse_args()
    if given.noise:
        of_noise(given.tnc, given.noise, ["--sensitive"] if given.sensitive else [])
        return
    count = CHECKED if given.check else given.frames
    columns = [("tnc", heard_by_tnc, bytes.hex)]
    if given.sensitive or given.check:
        columns.append(("--sensitive", heard_by_sensitive, bytes.hex))
    made_by = more_rows if given.more else rows
    global RATE, BAUD, MARK, SPACE
    if given.hf:
        BAUD, MARK, SPACE, made_by = 300, 1600, 1800, hf_rows
        columns = [("--hf", heard_on_short_wave, bytes.hex)]
        if given.sensitive:
            columns.append(("--sensitive too", heard_on_short_wave_by_all, bytes.hex))
        if given.beside:
            columns += [("atest -B 300", heard_by_atest, bytes.hex), ("-P E+ -F 1 too", heard_by_atest_repairing, bytes.hex)]
    elif given.wide:
        RATE, made_by = 48000, wide_rows
        columns = [("--rate 48000", heard_at_48000, bytes.hex), ("through sox", heard_through_sox, bytes.hex)]
        if given.sensitive:
            columns.insert(1, ("--sensitive too", heard_at_48000_by_all, bytes.hex))
        if given.beside:
            columns += [("atest", heard_by_atest, bytes.hex), ("atest -P E+ -F 1", heard_by_atest_repairing, bytes.hex)]
    elif given.beside:
        text_of = lambda frame: frame[16:].decode()
        peers = [("atest", heard_by_atest, bytes.hex), ("atest -P E+ -F 1", heard_by_atest_repairing, bytes.hex)]
        peers += [("soundmodem", heard_by_soundmodem, bytes.hex), ("multimon-ng", heard_by_multimon, text_of)]
        for name, hears, spelled in peers:
            if shutil.which(name.split()[0]) and shutil.which("sox"):
                columns.append((name, hears, spelled))
            else:
                print(f"left out: {name} (it or sox is not installed)")
    outside = 0
    if not given.check:
        print(f"| {'Of ' + str(count) + ' frames':40} | " + " | ".join(f"{name:>11}" for name, _, _ in columns) + " |")
        print(f"|{'-' * 42}|" + "|".join("-" * 12 + ":" for _ in columns) + "|")
    with tempfile.TemporaryDirectory() as room:
        for name, least, most, sent, samples, others in made_by(count):
            cells = []
            for column, hears, spelled in columns:
                heard, strays = count_of(map(spelled, sent), map(spelled, others), hears(given.tnc, samples, room))
                cells.append(f"{heard}" + (f" (+{strays})" if strays else ""))
                fewest, highest = (least, most) if column == "tnc" else (SENSITIVE.get(name, least), count)
                if given.check and (strays or not fewest <= heard <= highest):
                    outside += 1
                    print(f"scores.py: {column}: {name}: {heard} of {count}, and {strays} not sent; bounds {fewest} to {highest}")
            if not given.check:
                print(f"| {name:40} | " + " | ".join(f"{cell:>11}" for cell in cells) + " |")
    sys.exit(outside > 0)


if __name__ == "__main__":
    main()
