"""A page to look at: who is heard, how busy the channel is, which links stand, with a form for a frame and a terminal.

  /usr/bin/python3 scripts/tools/console [--agw [HOST:]PORT] [--port N] [--report FILE]

It speaks AGWPE to `tnc serve`, or to another TNC that does, and serves http://127.0.0.1:8080/ to a browser of this
machine. With --report it reads what the station writes on standard error, from a file that grows or from a pipe (`-` is
standard input). It needs aiohttp, on Debian `apt-get install python3-aiohttp`, which is for Debian's own Python."""
import argparse
import asyncio
import sys
from pathlib import Path

sys.path.append(str(Path(__file__).resolve().parents[2] / "shared"))  # for agwpe.py

from call import Call
from heard import Heard
from report import follow
from station import Station

try:
    from server import Server
except ModuleNotFoundError as fault:
    how = "on Debian apt-get install python3-aiohttp, and call /usr/bin/python3"
    sys.exit(f"console: {sys.executable} has no {fault.name}; {how}")


def address(text):
    """Reads `[HOST:]PORT`."""
    host, _, port = text.rpartition(":")
    return host or "127.0.0.1", int(port)


async def run(given):
    """Joins the parts, and runs until it is stopped."""
    heard = Heard()
    station = Station(*given.agw)
    call = Call(station)
    server = Server(station, heard, call, given.port)
    work = [station.run()]
    if given.report:
        work.append(follow(given.report, server.take_report))
    await server.start()
    print(f"http://127.0.0.1:{given.port}/", flush=True)
    await asyncio.gather(*work)


def main():
    reader = argparse.ArgumentParser(description="A page to look at, for a TNC that speaks AGWPE.")
    reader.add_argument("--agw", type=address, default=("127.0.0.1", 8000), metavar="[HOST:]PORT",
                        help="where the station's AGWPE port is; 8000 on this machine if nothing is said")
    reader.add_argument("--port", type=int, default=8080, metavar="N",
                        help="the port of the page; 8080 if nothing is said")
    reader.add_argument("--report", metavar="FILE",
                        help="the station's standard error, as a file or a pipe; `-` is standard input")
    try:
        asyncio.run(run(reader.parse_args()))
    except KeyboardInterrupt:
        pass
    except OSError as fault:
        sys.exit(f"console: {fault.strerror or fault}")


if __name__ == "__main__":
    main()
