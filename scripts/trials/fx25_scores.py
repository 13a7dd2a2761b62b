#!/usr/bin/env python3
"""What check octets are for: how many of so many frames are heard of sound that bursts and fading damage, as they are sent
plainly and in blocks of FX.25 with 16, 32 and 64 check octets.

  scripts/trials/fx25_scores.py                 a table with 100 frames a row
  scripts/trials/fx25_scores.py --frames 20     with another number
  scripts/trials/fx25_scores.py --sensitive     by all 26 lanes, and not by eight
  scripts/trials/fx25_scores.py --fading        a table of sound that fades, in more and less noise
  scripts/trials/fx25_scores.py --tnc PROGRAM   of another program than bin/tnc

Each cell is what `tnc decode --fx25` hears, and after a stroke what atest of Dire Wolf hears of the same sound, if it is
installed. The frames have 57 octets, and `tnc encode` makes their sound, each by itself after 30 flags. A burst is white noise
10 dB louder than the tones. Sound that fades comes over one path, whose strength is that of eight waves from all sides. All is
drawn from fixed seeds. Ratios are as in scores.py."""
import argparse
import math
import os
import random
import shutil
import subprocess
import sys
import tempfile

import scores

RATE, LEVEL = scores.RATE, scores.LEVEL
INFORMATION = 41
CHECKS = (None, 16, 32, 64)


def encoded(tnc, sent, checks):
    """The samples of frames, one after another."""
    words = [tnc, "encode", "--opening", "30", "--silence", "1200"] + (["--fx25", str(checks)] if checks else [])
    run = subprocess.run(words, input="\n".join(frame.hex() for frame in sent).encode() + b"\n", capture_output=True, check=True)
    return [int.from_bytes(run.stdout[k : k + 2], "little", signed=True) for k in range(0, len(run.stdout), 2)]


def with_bursts(samples, a_second, milliseconds):
    """Bursts at drawn places, so many a second on average."""
    draw, made = random.Random(31), list(samples)
    loud = LEVEL / math.sqrt(2) * math.sqrt(10)
    for _ in range(a_second * len(samples) // RATE):
        first = draw.randrange(len(samples))
        for at in range(first, min(len(samples), first + RATE * milliseconds // 1000)):
            made[at] += loud * draw.gauss(0, 1)
    return made


def fading(samples, hertz):
    """Waves from eight sides, each shifted by what its side makes of the speed."""
    draw = random.Random(32)
    waves = [(math.cos(draw.uniform(0, 2 * math.pi)), draw.uniform(0, 2 * math.pi)) for _ in range(8)]
    made = []
    for at, sample in enumerate(samples):
        turns = [phase + 2 * math.pi * hertz * side * at / RATE for side, phase in waves]
        strength = math.hypot(sum(map(math.cos, turns)), sum(map(math.sin, turns))) / math.sqrt(8)
        made.append(sample * strength)
    return made


def rows():
    """A name, and what becomes of samples."""
    for ratio in (3,):
        yield f"noise, {ratio} dB", lambda samples, ratio=ratio: scores.noisy(samples, ratio)
    for a_second, milliseconds in ((4, 20), (8, 10), (2, 60)):
        yield (f"12 dB, {a_second} bursts a second of {milliseconds} ms",
               lambda samples, a=a_second, m=milliseconds: scores.noisy(with_bursts(samples, a, m), 12))
    for hertz, ratio in ((5, 14), (15, 20)):
        yield f"{ratio} dB, fading at {hertz} Hz", lambda samples, h=hertz, r=ratio: scores.noisy(fading(samples, h), r)


def fading_rows():
    """The same of sound that fades five times a second, in more and less noise."""
    for ratio in range(4, 23, 2):
        yield f"{ratio} dB", lambda samples, ratio=ratio: scores.noisy(fading(samples, 5), ratio)


def main():
    reader = argparse.ArgumentParser()
    reader.add_argument("--frames", type=int, default=100)
    reader.add_argument("--sensitive", action="store_true")
    reader.add_argument("--fading", action="store_true")
    reader.add_argument("--tnc", default=os.path.join(scores.TOP, "bin/tnc"))
    words = reader.parse_args()
    options = ["--fx25"] + (["--sensitive"] if words.sensitive else [])
    beside = shutil.which("atest") and shutil.which("sox")
    sent = scores.frames(words.frames, 41, INFORMATION)
    sounds = [encoded(words.tnc, sent, checks) for checks in CHECKS]
    wanted = {frame.hex() for frame in sent}
    print(f"| Of {words.frames} frames | plainly | 16 | 32 | 64 |\n|---|--:|--:|--:|--:|")
    strays = 0
    with tempfile.TemporaryDirectory() as room:
        for name, damaged in fading_rows() if words.fading else rows():
            cells = []
            for samples in sounds:
                made = damaged(samples)
                heard = scores.heard_by_tnc(words.tnc, made, room, *options)
                strays += len([line for line in heard if line not in wanted]) + len(heard) - len(set(heard))
                cell = str(len(wanted & set(heard)))
                if beside:
                    cell += f" / {len(wanted & set(scores.heard_by_atest(None, made, room)))}"
                cells.append(cell)
            print(f"| {name} | " + " | ".join(cells) + " |", flush=True)
    print(f"Lines that were not sent, or came twice: {strays}")
    sys.exit(1 if strays else 0)


if __name__ == "__main__":
    main()
