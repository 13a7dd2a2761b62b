"""What the station writes on standard error: a file that grows, or a pipe, read line by line."""
import asyncio
import os
import re
import sys
import threading
from pathlib import Path

NAMES = ("peak", "clipped", "busy", "heard", "sent", "dropped", "hosts", "links")
STATS = re.compile(r"stats (?P<ticks>\d+)" + "".join(rf" {it} (?P<{it}>\d+)" for it in NAMES))
NOTICE = re.compile(r"(gap|closed|dropped|dead sound|lost|tnc:)")
PAUSE = 0.2  # seconds between two looks at a file


class Measured:
    """Reads lines, and keeps what the last `stats` line told."""

    def __init__(self):
        self.ticks, self.last = 0, None

    def take(self, line):
        """Returns what a line tells a page: `stats`, a `notice`, or nothing."""
        found = STATS.fullmatch(line)
        if found is None:
            return {"notice": line} if NOTICE.match(line) else None
        told = {name: int(count) for name, count in found.groupdict().items()}
        # counts begin anew with each line, and the ticks with each start of the station
        passed = told["ticks"] - self.ticks if told["ticks"] > self.ticks else told["ticks"]
        self.ticks = told["ticks"]
        self.last = told | {"seconds": passed / 100, "share": told["busy"] / passed if passed else 0}
        return {"stats": self.last}


async def follow(name, take):
    """Hands each line to `take`: of a file as long as this goes on, of a pipe on a thread of its own."""
    if name == "-" or Path(name).is_fifo():
        # a daemon, since it may wait for the pipe when the program is to end
        words = (name, take, asyncio.get_running_loop())
        threading.Thread(target=read_pipe, args=words, daemon=True).start()
    else:
        await read_file(name, take)


def read_pipe(name, take, loop):
    """Reads to the end."""
    with sys.stdin if name == "-" else open(name, errors="replace") as pipe:
        for line in pipe:
            loop.call_soon_threadsafe(take, line.rstrip("\n"))


async def read_file(name, take):
    """Reads what is added to a file. One that was made anew, or cut, is read from its begin."""
    file, begun, rest = None, None, ""
    while True:
        try:
            now = os.stat(name)
            if file is None or (now.st_dev, now.st_ino) != begun or now.st_size < file.tell():
                if file is not None:
                    file.close()
                file, begun, rest = open(name, errors="replace"), (now.st_dev, now.st_ino), ""
            *lines, rest = (rest + file.read()).split("\n")
            for line in lines:
                take(line)
        except FileNotFoundError:
            pass
        await asyncio.sleep(PAUSE)
