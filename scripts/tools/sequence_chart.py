#!/usr/bin/env python3
"""Draws what two stations said to each other as a sequence chart, an SVG file, from the lines of scripts/tools/two_stations.py.

  scripts/tools/two_stations.py --times --loss 20 >lines
  scripts/tools/sequence_chart.py [--calls] <lines >chart.svg

Time goes down, a second is as far everywhere. An arrow is a frame: it begins where its sending has ended and ends where the
other station has heard it. A frame that was not heard has a short arrow with a cross. With --calls the frames say from whom
and to whom they are; without, only what they are."""
import argparse
import html
import re
import sys

WIDTH, LEFT, RIGHT = 640, 130, 510
TOP, SECOND, LEAST = 56, 34, 15  # where time begins, and how far apart a second and two frames are at least
PATIENCE = 1.0  # seconds after which a frame that was sent is not heard any more
INK, FAINT, LOSS = "#1b1f24", "#8a929c", "#c0392b"
LINE = re.compile(r"(\d+\.\d\d) ([12]) (tx|rx) (\S+) (.*)")


def events(lines):
    """The frames that were sent: when, by whom, between which calls, what, and when they were heard, or None."""
    sent, heard = [], []
    for line in lines:
        found = LINE.match(line)
        if found:
            row = (float(found[1]), int(found[2]), found[4], found[5].strip())
            (sent if found[3] == "tx" else heard).append(row)
    for when, who, calls, what in sent:
        for row in heard:
            if row[1] != who and row[2:] == (calls, what) and -0.1 <= row[0] - when <= PATIENCE:
                heard.remove(row)
                yield when, who, calls, what, row[0]
                break
        else:
            yield when, who, calls, what, None


def in_short(what):
    """A frame's text as a chart has room for it."""
    kind = what.split()[0]
    value = dict(re.findall(r"(\w+)=(\w+)", what))
    mark = " P" if value.get("p") == "1" or " cmd" in what and value.get("f") == "1" else ""
    mark = " F" if " rsp" in what and value.get("f") == "1" else mark
    if kind == "I":
        return f"I {value['ns']}, next {value['nr']}, {value['len']} octets{mark}"
    if kind in ("RR", "RNR", "REJ", "SREJ"):
        return f"{kind} {value['nr']}{mark}"
    return f"{kind}{mark}"


def text(x, y, words, anchor="middle", size=12, ink=INK, more=""):
    return f'<text x="{x}" y="{y:.0f}" text-anchor="{anchor}" font-size="{size}" fill="{ink}"{more}>{html.escape(words)}</text>'


def arrow(y, end, who, words, is_heard):
    """A frame's arrow and its words."""
    begin, goal = (LEFT, RIGHT) if who == 1 else (RIGHT, LEFT)
    if is_heard:
        yield f'<line x1="{begin}" y1="{y:.1f}" x2="{goal}" y2="{end:.1f}" stroke="{INK}" marker-end="url(#head)"/>'
    else:
        goal = begin + (goal - begin) * 2 // 3
        yield f'<line x1="{begin}" y1="{y:.1f}" x2="{goal}" y2="{y:.1f}" stroke="{LOSS}" stroke-dasharray="5 3"/>'
        for side in (-5, 5):
            yield f'<line x1="{goal - 5}" y1="{y - side:.1f}" x2="{goal + 5}" y2="{y + side:.1f}" stroke="{LOSS}" stroke-width="2"/>'
    # a white rim keeps the words apart from an arrow above them
    rim = ' stroke="#ffffff" stroke-width="3" paint-order="stroke"'
    yield text((LEFT + RIGHT) // 2, y - 4, words, ink=INK if is_heard else LOSS, more=rim)


def drawn(rows, names, with_calls):
    """The whole picture."""
    first = int(rows[0][0])
    parts, lowest = [], TOP
    for when, who, calls, what, heard in rows:
        y = max(TOP + 20 + (when - first) * SECOND, lowest + LEAST)
        end = y if heard is None else y + (heard - when) * SECOND
        words = in_short(what) + (f"  ({calls})" if with_calls else "")
        parts += arrow(y, end, who, words, heard is not None)
        parts.append(text(LEFT - 12 if who == 1 else RIGHT + 12, y + 4, f"{when - first:.1f} s", "end" if who == 1 else "start",
                          11, FAINT))
        lowest = y
    height = int(lowest + 40)
    yield f'<svg xmlns="http://www.w3.org/2000/svg" viewBox="0 0 {WIDTH} {height}" font-family="sans-serif">'
    yield '<defs><marker id="head" markerWidth="9" markerHeight="8" refX="9" refY="4" orient="auto">'
    yield f'<path d="M0,0 L9,4 L0,8 z" fill="{INK}"/></marker></defs>'
    yield f'<rect width="{WIDTH}" height="{height}" fill="#ffffff"/>'
    for x, name in zip((LEFT, RIGHT), names):
        yield text(x, 30, name, size=14, more=' font-weight="bold"')
        yield f'<line x1="{x}" y1="{TOP - 14}" x2="{x}" y2="{height - 14}" stroke="{FAINT}" stroke-width="2"/>'
    yield from parts
    yield "</svg>"


def main():
    reader = argparse.ArgumentParser()
    reader.add_argument("--calls", action="store_true")
    given = reader.parse_args()
    rows = sorted(events(sys.stdin), key=lambda row: row[0])
    if not rows:
        sys.exit("sequence_chart.py: no frame was sent")
    names = ["station 1", "station 2"]
    _, who, calls, _, _ = rows[0]
    ends = re.match(r"([^>]+)>([^,]+)", calls)
    if ends:
        names[who - 1], names[2 - who] = ends.groups()
    print("\n".join(drawn(rows, names, given.calls)))


if __name__ == "__main__":
    main()
