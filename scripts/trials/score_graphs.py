#!/usr/bin/env python3
"""Draws what `tnc decode`, `tnc decode --sensitive`, Dire Wolf's atest, soundmodem and multimon-ng hear as two graphs, from counts
that it takes itself: frames heard against noise, and against the sender's clock.

  scripts/trials/score_graphs.py [--tnc PROGRAM] [--frames N] [--draw] [FOLDER]

The sound is that of scripts/trials/scores.py, a hundred frames a point. The counts are kept in FOLDER/heard.txt (docs/pictures where no
folder is named), a line for each sound. Those that are there already are not taken again, so remove the file for another program;
with --draw none is taken. The pictures are FOLDER/heard-in-noise.svg and FOLDER/heard-by-clock.svg. A third one, heard-on-short-wave.svg,
is of what `scores.py --hf --sensitive --beside` printed, which is kept as FOLDER/short-wave.txt; and a fourth one, heard-in-blocks.svg,
of what `fx25_scores.py --sensitive --fading` printed, which is FOLDER/blocks.txt."""
import argparse
import functools
import html
import os
import shutil
import sys
import tempfile

import scores

RATIOS = [-2, -1, -0.5, 0, 0.5, 1, 1.5, 2, 2.5, 3, 3.5, 4, 4.5, 5, 5.5, 6, 6.5, 7, 7.5, 8, 9, 10, 12]
CLOCKS = [0, 100, 300, 400, 500, 750, 1000, 1250, 1500, 2000, 3000, 4000]
CLOCKS += [-it for it in CLOCKS[1:]]
OCTETS = (20, 256)
NAMES = {
    "tnc": "tnc decode", "sensitive": "tnc decode --sensitive", "atest": "atest (Dire Wolf 1.6)",
    "atest-repairing": "atest -P E+ -F 1", "soundmodem": "soundmodem 0.20", "multimon-ng": "multimon-ng 1.2.0"
}
COLOURS = {
    "tnc": "#1f5fbf", "sensitive": "#8e44ad", "atest": "#c0392b", "atest-repairing": "#e08e0b", "soundmodem": "#555555",
    "multimon-ng": "#2e8540"
}
# The columns of the table of short wave.
ON_SHORT_WAVE = {"--hf": ("tnc decode --hf", "#1f5fbf"), "--sensitive too": ("tnc decode --hf --sensitive", "#8e44ad")}
ON_SHORT_WAVE["atest -B 300"] = ("atest -B 300", "#c0392b")
ON_SHORT_WAVE["-P E+ -F 1 too"] = ("atest -B 300 -P E+ -F 1", "#e08e0b")
# The columns of the table of blocks: what is sent, and its colour.
IN_BLOCKS = {"plainly": "#555555", "16": "#e08e0b", "32": "#1f5fbf", "64": "#8e44ad"}
# The programs of the second graph.
BY_CLOCK = ("tnc", "sensitive", "atest", "multimon-ng")
INK, FAINT = "#1b1f24", "#c9ced4"


def sounds(count):
    """Each sound: its graph, its place there, the frames that were sent, and what makes its samples."""
    mixed = scores.frames(count, 1, None)
    clean = functools.cache(lambda: scores.sound(mixed, 11))
    for ratio in RATIOS:
        yield "noise", ratio, mixed, lambda ratio=ratio: scores.noisy(clean(), ratio)
    for octets in OCTETS:
        sent = scores.frames(count, 2, octets)
        for clock in CLOCKS:
            yield f"clock-{octets}", clock, sent, lambda sent=sent, clock=clock: scores.sound(sent, 13, clock=clock)


def counted(tnc, count, path):
    """Takes the counts and keeps them in a file: graph, place, and how many of a hundred each program heard."""
    hears = {
        "tnc": (scores.heard_by_tnc, bytes.hex),
        "sensitive": (scores.heard_by_sensitive, bytes.hex),
        "atest": (scores.heard_by_atest, bytes.hex),
        "atest-repairing": (scores.heard_by_atest_repairing, bytes.hex),
        "soundmodem": (scores.heard_by_soundmodem, bytes.hex),
        "multimon-ng": (scores.heard_by_multimon, lambda frame: frame[16:].decode()),
    }
    missing = [it for it in ("atest", "soundmodem", "multimon-ng", "sox") if not shutil.which(it)]
    if missing:
        sys.exit(f"score_graphs.py: {', '.join(missing)} is not installed")
    programs, graphs = read(path) if os.path.exists(path) else ([], {})
    if programs != list(hears):
        graphs = {}
    with tempfile.TemporaryDirectory() as room, open(path, "w") as file:
        print("graph place " + " ".join(hears), file=file)
        for graph, place, sent, made in sounds(count):
            row = dict((it[0], it[1:]) for it in graphs.get(graph, [])).get(place)
            if row is None:
                samples = made()
                wanted = hears if graph == "noise" else BY_CLOCK
                of_each = [count_of(sent, it, tnc, samples, room) if name in wanted else 0 for name, it in hears.items()]
                row = [100 * it / count for it in of_each]
            print(graph, f"{place:g}", *(f"{it:g}" for it in row), file=file, flush=True)


def count_of(sent, hears, tnc, samples, room):
    """How many of the frames that were sent a program heard."""
    heard_by, spelled = hears
    return scores.count_of(map(spelled, sent), [], heard_by(tnc, samples, room))[0]


def read(path):
    """The kept counts: the programs, and for each graph a list of places and counts."""
    graphs = {}
    with open(path) as file:
        programs = next(file).split()[2:]
        for line in file:
            graph, *numbers = line.split()
            graphs.setdefault(graph, []).append([float(it) for it in numbers])
    return programs, graphs


class Graph:
    """Axes, and what is drawn between them."""

    LEFT, TOP, WIDE, HIGH = 64, 50, 520, 240

    def __init__(self, title, below, least, most, step):
        self.least, self.most, self.parts = least, most, []
        self.text(self.LEFT + self.WIDE / 2, 24, title, 15)
        self.text(self.LEFT + self.WIDE / 2, self.TOP + self.HIGH + 40, below, 12)
        for heard in range(0, 101, 25):
            self.line(self.LEFT, self.y(heard), self.LEFT + self.WIDE, self.y(heard), FAINT)
            self.text(self.LEFT - 8, self.y(heard) + 4, f"{heard}", 12, "end")
        at = least
        while at <= most:
            self.line(self.x(at), self.y(0), self.x(at), self.y(0) + 5, INK)
            self.text(self.x(at), self.y(0) + 19, f"{at:g}", 12)
            at += step
        turn = f' transform="rotate(-90 18 {self.TOP + self.HIGH / 2:g})"'
        self.text(18, self.TOP + self.HIGH / 2, "frames heard of 100", 12, more=turn)

    def x(self, place):
        return self.LEFT + self.WIDE * (place - self.least) / (self.most - self.least)

    def y(self, heard):
        return self.TOP + self.HIGH * (1 - heard / 100)

    def text(self, x, y, words, size, anchor="middle", ink=INK, more=""):
        made = f'<text x="{x:.0f}" y="{y:.0f}" font-size="{size}" text-anchor="{anchor}" fill="{ink}"{more}>'
        self.parts.append(f"{made}{html.escape(words)}</text>")

    def line(self, x1, y1, x2, y2, ink, more=""):
        self.parts.append(f'<line x1="{x1:.1f}" y1="{y1:.1f}" x2="{x2:.1f}" y2="{y2:.1f}" stroke="{ink}"{more}/>')

    def curve(self, points, ink, dashed=False):
        """A program's counts."""
        shown = [(self.x(place), self.y(heard)) for place, heard in points if self.least <= place <= self.most]
        places = " ".join(f"{x:.1f},{y:.1f}" for x, y in shown)
        dashes = ' stroke-dasharray="6 4"' if dashed else ""
        self.parts.append(f'<polyline points="{places}" fill="none" stroke="{ink}" stroke-width="2"{dashes}/>')
        for x, y in shown:
            self.parts.append(f'<circle cx="{x:.1f}" cy="{y:.1f}" r="2.5" fill="{ink}"/>')

    def key(self, rows):
        """Which curve is whose, below the graph."""
        for at, (name, ink, dashed) in enumerate(rows):
            column, row = at % 2, at // 2
            x, y = self.LEFT + 270 * column, self.TOP + self.HIGH + 66 + 20 * row
            self.line(x, y - 4, x + 26, y - 4, ink, ' stroke-width="2"' + (' stroke-dasharray="6 4"' if dashed else ""))
            self.text(x + 32, y, name, 12, "start")
        self.rows = (len(rows) + 1) // 2

    def write(self, path):
        height = self.TOP + self.HIGH + 60 + 20 * self.rows + 8
        with open(path, "w") as file:
            print(f'<svg xmlns="http://www.w3.org/2000/svg" viewBox="0 0 620 {height}" font-family="sans-serif">', file=file)
            print(f'<rect width="620" height="{height}" fill="#ffffff"/>', file=file)
            print("\n".join(self.parts), file=file)
            print("</svg>", file=file)


def draw(programs, graphs, folder):
    """The two pictures."""
    noise = Graph("Frames heard in white noise", "power of the tones to that of the noise in 4800 Hz, in dB", -2, 12, 2)
    for at, program in enumerate(programs):
        noise.curve([(row[0], row[1 + at]) for row in graphs["noise"]], COLOURS[program])
    noise.key([(NAMES[it], COLOURS[it], False) for it in programs])
    noise.write(f"{folder}/heard-in-noise.svg")
    clock = Graph("Frames heard from a sender whose clock is off", "the sender's clock, in parts per million", -4000, 4000, 1000)
    for octets in OCTETS:
        for at, program in ((at, it) for at, it in enumerate(programs) if it in BY_CLOCK):
            points = sorted((row[0], row[1 + at]) for row in graphs[f"clock-{octets}"])
            clock.curve(points, COLOURS[program], octets != OCTETS[0])
    clock.key([
        (f"{NAMES[it].split(' (')[0]}, {octets} octets", COLOURS[it], octets != OCTETS[0]) for it in BY_CLOCK for octets in OCTETS
    ])
    clock.write(f"{folder}/heard-by-clock.svg")


def cells_of(line):
    return [cell.strip() for cell in line.strip().strip("|").split("|")]


def draw_short_wave(table, folder):
    """The picture of short wave: of a table the rows of noise."""
    with open(table) as file:
        _, *columns = cells_of(next(file))
        rows = [cells_of(line) for line in file if line.startswith("| noise, ")]
    noise = Graph("Frames heard on short wave in white noise", "power of the tones to that of the noise in 4800 Hz, in dB", -8, 2, 1)
    for at, column in enumerate(columns):
        points = [(float(row[0].split()[1]), float(row[1 + at].split()[0])) for row in rows]
        noise.curve(sorted(points), ON_SHORT_WAVE[column][1])
    noise.key([(*ON_SHORT_WAVE[column], False) for column in columns])
    noise.write(f"{folder}/heard-on-short-wave.svg")


def draw_blocks(table, folder):
    """The picture of blocks: each cell of the table has what tnc heard and, after a stroke, what atest did."""
    with open(table) as file:
        _, *columns = cells_of(next(file))
        rows = [cells_of(line) for line in file if " dB" in line]
    fading = Graph("Frames heard of a sender that fades five times a second",
                   "power of the tones to that of the noise in 4800 Hz, in dB", 4, 22, 2)
    key = []
    for at, column in enumerate(columns):
        name = column if column == "plainly" else f"{column} check octets"
        for place, program in enumerate(("tnc", "atest")):
            points = [(float(row[0].split()[0]), float(row[1 + at].split(" / ")[place])) for row in rows]
            fading.curve(points, IN_BLOCKS[column], program == "atest")
            key.append((f"{program}, {name}", IN_BLOCKS[column], program == "atest"))
    fading.key(key)
    fading.write(f"{folder}/heard-in-blocks.svg")


def main():
    reader = argparse.ArgumentParser()
    reader.add_argument("--tnc", default=f"{scores.TOP}/bin/tnc")
    reader.add_argument("--frames", type=int, default=100)
    reader.add_argument("--draw", action="store_true")
    reader.add_argument("folder", nargs="?", default=f"{scores.TOP}/docs/pictures")
    given = reader.parse_args()
    os.makedirs(given.folder, exist_ok=True)
    counts = f"{given.folder}/heard.txt"
    if not given.draw:
        counted(given.tnc, given.frames, counts)
    draw(*read(counts), given.folder)
    table = f"{given.folder}/short-wave.txt"
    if os.path.exists(table):
        draw_short_wave(table, given.folder)
    table = f"{given.folder}/blocks.txt"
    if os.path.exists(table):
        draw_blocks(table, given.folder)


if __name__ == "__main__":
    main()
