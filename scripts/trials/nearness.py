#!/usr/bin/env python3
"""How near the recordings of samples/ are to the wave that the law of near signals asks for.

  scripts/trials/nearness.py                 a row for each recording of samples/
  scripts/trials/nearness.py NAME.raw ..     for others, each beside its NAME.frames

A transmission is near where at some place, from one of the six phases at which a bit can begin and at some level, each
sample is within a tenth of that level of the wave of two flags, the frame and a flag, on a line that stands at mark. Nothing
is shared with the program: each frame is looked for by a plain comparison of both tones in every window, at all eight
offsets. A row tells how many frames there are, how many were found so, and how many are near; and how many would be, if the
wave might begin at any of the 48 phases and the line stand at either tone. For those found it tells the least error that
would then have to be allowed in place of a tenth, as a share of the level: the least and the median over the frames."""
import array
import cmath
import glob
import math
import os
import statistics
import sys

TOP = os.path.dirname(os.path.dirname(os.path.dirname(os.path.abspath(__file__))))
MARK, SPACE = 6, 11  # forty-eighths of a cycle a sample
WINDOW = 8
CYCLE = [round(10000 * math.sin(2 * math.pi * k / 48)) for k in range(48)]
FLAG = [0, 1, 1, 1, 1, 1, 1, 0]


def check_sequence(octets):
    value = 0xFFFF
    for octet in octets:
        value ^= octet
        for _ in range(8):
            value = value >> 1 ^ 0x8408 if value & 1 else value >> 1
    return bytes(((value ^ 0xFFFF) & 255, (value ^ 0xFFFF) >> 8))


def frame_bits(octets):
    """The bits of a frame with its check sequence and inserted zeros."""
    bits, ones = [], 0
    for octet in octets + check_sequence(octets):
        for place in range(8):
            bit = octet >> place & 1
            bits.append(bit)
            ones = ones + 1 if bit else 0
            if ones == 5:
                bits.append(0)
                ones = 0
    return bits


def tones_of(bits):
    """The tones of bits on a line that stands at mark: a 0 changes the tone."""
    tone, tones = MARK, []
    for bit in bits:
        if not bit:
            tone = MARK + SPACE - tone
        tones.append(tone)
    return tones


def wave_of(tones, phase):
    """The samples of tones from a phase on."""
    samples = []
    for tone in tones:
        for _ in range(WINDOW):
            samples.append(CYCLE[phase % 48])
            phase += tone
    return samples


def tones_heard(samples, offset):
    """The louder tone of each window of an offset."""
    turns = {tone: [cmath.exp(2j * math.pi * tone * i / 48) for i in range(WINDOW)] for tone in (MARK, SPACE)}
    heard = []
    for start in range(offset, len(samples) - WINDOW + 1, WINDOW):
        window = samples[start:start + WINDOW]
        energy = {tone: abs(sum(x * z for x, z in zip(window, turns[tone]))) for tone in turns}
        heard.append(MARK if energy[MARK] >= energy[SPACE] else SPACE)
    return heard


def bits_of(tones):
    """The bits of tones as a text, from the second tone on."""
    return "".join("1" if one == other else "0" for one, other in zip(tones, tones[1:]))


def level_within(samples, wave):
    """Whether some level leaves each sample within a tenth of it from the wave."""
    least, most = 1.0, 32767.0
    for x, w in zip(samples, wave):
        # a (w - 1000) <= 10000 x <= a (w + 1000)
        for bound, factor in ((10000 * x, w - 1000), (-10000 * x, -w - 1000)):
            if factor > 0:
                most = min(most, bound / factor)
            elif factor < 0:
                least = max(least, bound / factor)
            elif bound < 0:
                return False
        if math.ceil(least - 1e-9) > math.floor(most + 1e-9):
            return False
    return True


def level_of(samples):
    """The amplitude of a tone with the energy of the samples."""
    return math.sqrt(2 * sum(x * x for x in samples) / len(samples))


def error_of(samples, wave, level, least):
    """The greatest distance of a sample from the wave at a level, as a share of it, or `least` if that is less."""
    most = 0
    for x, w in zip(samples, wave):
        most = max(most, abs(10000 * x - level * w))
        if most >= least * 10000 * level:
            return least
    return most / (10000 * level)


def frame_row(samples, heard, octets):
    """Whether a frame is near, and the least error that it asks for from any phase and tone; nothing if not found."""
    tones = tones_of(FLAG + FLAG + frame_bits(octets) + FLAG)
    sent = bits_of(tones)
    waves = [wave_of(tones, phase) for phase in range(48)]
    others = [wave_of([MARK + SPACE - tone for tone in tones], phase) for phase in range(48)]
    near, least = False, math.inf
    for offset, bits in enumerate(heard):
        place = bits.find(sent)
        while place >= 0:
            start = offset + WINDOW * place
            part = samples[start:start + WINDOW * len(tones)]
            near = near or any(level_within(part, wave) for wave in waves[::8])
            level = level_of(part)
            for wave in waves + others:
                least = error_of(part, wave, level, least)
            place = bits.find(sent, place + 1)
    return None if math.isinf(least) else (near, least)


def main(names):
    print(f"{'recording':22}{'frames':>7}{'found':>7}{'near':>6}{'any start':>11}{'least':>8}{'median':>8}")
    for name in names:
        samples = array.array("h")
        with open(name, "rb") as raw:
            octets = raw.read()
            samples.frombytes(octets[:len(octets) // 2 * 2])
        if sys.byteorder == "big":
            samples.byteswap()
        with open(os.path.splitext(name)[0] + ".frames", encoding="ascii") as lines:
            frames = [bytes.fromhex(line) for line in lines if line.strip()]
        heard = []
        for offset in range(WINDOW):
            heard.append(bits_of(tones_heard(samples, offset)))
        rows = [row for row in (frame_row(samples, heard, octets) for octets in frames) if row]
        label = os.path.basename(os.path.splitext(name)[0])
        if not rows:
            print(f"{label:22}{len(frames):7}{0:7}{0:6}")
            continue
        shares = [row[1] for row in rows]
        print(f"{label:22}{len(frames):7}{len(rows):7}{sum(row[0] for row in rows):6}"
              f"{sum(error <= 0.1 for error in shares):11}{min(shares):8.2f}{statistics.median(shares):8.2f}")


if __name__ == "__main__":
    main(sys.argv[1:] or sorted(glob.glob(os.path.join(TOP, "samples", "*.raw"))))
