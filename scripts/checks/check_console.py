#!/usr/bin/python3
"""Checks scripts/tools/console on a running station that hears a recording: its frames are on the page within a second of
being heard, a frame and a call of the page go on the air, requests from elsewhere send nothing, and the page lives on
when the station is started again. With chromium, if it is installed, also as a browser shows it.

  scripts/checks/check_console.py [--tnc PROGRAM] [--pictures FOLDER]

It needs aiohttp, as the console does. With --pictures it keeps what the browser showed. It prints what failed and what
was left out, and ends with status 0 if all is well."""
import argparse
import asyncio
import base64
import json
import os
import re
import shutil
import signal
import subprocess
import sys
import tempfile
import threading
import time
from pathlib import Path

import aiohttp

sys.path.append(os.path.join(os.path.dirname(__file__), "../shared"))
from agwpe import Message, read_all as read_messages, written
from air import TICK, Air, Station, free_port, read_all

ROOT = Path(__file__).resolve().parents[2]
WAIT = 30  # seconds that anything may take
PACE = 4  # how much faster than the air the sound comes
STEP = 5  # ticks at a time
RECORDING = ROOT / "samples/direwolf-clean.raw"
STATS = "stats 1000 peak 16384 clipped 0 busy 250 heard 3 sent 1 dropped 0 hosts 2 links 1"
FRAME = {"do": "frame", "source": "N7LEM", "to": "BEACON", "via": "WIDE1-1", "text": "from a page"}


class Sounding(Station):
    """A station on ports that stay the same, which hears a recording and then silence, faster than the air."""

    def __init__(self, tnc, kiss, agw):
        self.tnc, self.kiss, self.agw = tnc, kiss, agw
        self.begin(b"")

    def begin(self, sound):
        """Starts the station."""
        words = [self.tnc, "serve", "--kiss", str(self.kiss), "--agw", str(self.agw), "--monitor"]
        pipe, self.report_file = subprocess.PIPE, tempfile.TemporaryFile()
        self.program = subprocess.Popen(words, stdin=pipe, stdout=pipe, stderr=self.report_file, bufsize=0)
        self.sound, self.times, self.is_over = sound, [], False
        self.thread = threading.Thread(target=self.carry)
        self.thread.start()

    def carry(self):
        """Lets the sound come in, some ticks at a time, and notes when each line is first seen."""
        began, ticks = time.monotonic(), 0
        while not self.is_over:
            piece, self.sound = self.sound[: STEP * TICK], self.sound[STEP * TICK :]
            self.program.stdin.write(piece.ljust(STEP * TICK, b"\0"))
            read_all(self.program.stdout, STEP * TICK)
            ticks += STEP
            self.times += [time.monotonic()] * (len(self.lines()) - len(self.times))
            time.sleep(max(0, began + ticks / 100 / PACE - time.monotonic()))

    def lines(self):
        """The whole lines that it has reported."""
        return self.report().split("\n")[:-1]

    def sent(self):
        """Whose sending has ended, of the frames."""
        return [it.split(" ")[1] for it in self.lines() if it.startswith("tx ")]

    def end(self):
        """Ends the sound, and with it the station."""
        self.is_over = True
        self.thread.join()
        return super().end()


class Console:
    """A running console, and a page of it."""

    def __init__(self, agw, *words):
        self.port = free_port()
        self.root = f"http://127.0.0.1:{self.port}"
        self.program = subprocess.Popen(["/usr/bin/python3", str(ROOT / "scripts/tools/console"), "--agw", str(agw),
                                         "--port", str(self.port), *words], stdout=subprocess.PIPE, text=True)
        if not self.program.stdout.readline():
            raise AssertionError("the console has ended")

    async def __aenter__(self):
        self.client = aiohttp.ClientSession()
        async with self.client.get(self.root) as answer:
            self.token = re.search(r'name="token" content="([\w-]+)"', await answer.text())[1]
        self.socket = await self.open()
        return self

    async def __aexit__(self, *_):
        await self.socket.close()
        await self.client.close()
        self.program.terminate()
        self.program.wait()

    def open(self, token=None, **headers):
        """Opens the WebSocket as a page of the console would, but for what is given."""
        headers = {"Origin": self.root} | {it.replace("_", "-"): what for it, what in headers.items()}
        headers = {it: what for it, what in headers.items() if what is not None}
        token = self.token if token is None else token
        return self.client.ws_connect(f"{self.root}/live?token={token}", headers=headers)

    async def told(self, what, holds):
        """Waits for an event, passes over others, and returns what it tells."""
        async def wait():
            async for message in self.socket:
                event = json.loads(message.data)
                event = event.get("everything", event)  # what a page is told first
                if what in event and holds(event[what]):
                    return event[what]
            raise AssertionError("the console has closed the page")
        try:
            return await asyncio.wait_for(wait(), WAIT)
        except asyncio.TimeoutError:
            raise AssertionError(f"waited in vain: {what}") from None

    async def connected(self):
        """Waits until the station is there."""
        await self.told("status", lambda it: it["connected"])


def same(is_so, wanted):
    if is_so != wanted:
        raise AssertionError(f"it is {is_so!r} and not {wanted!r}")


async def until(what, holds):
    """Waits until something holds, and returns it."""
    ends = time.monotonic() + WAIT
    while not (found := holds()):
        if time.monotonic() > ends:
            raise AssertionError(f"waited in vain: {what}")
        await asyncio.sleep(0.02)
    return found


async def shows_frames(station, console):
    """Each frame is on the page within a second of its line at the station, and its sender is among the stations."""
    station.sound = RECORDING.read_bytes()
    wanted, latest = RECORDING.with_suffix(".text").read_text().splitlines(), 0
    for number, line in enumerate(wanted):
        frame = await console.told("frame", lambda it: not it["sent"])
        now = time.monotonic()
        await until("the station's line", lambda: len(station.times) > number)
        latest = max(latest, now - station.times[number])
        path = ",".join([frame["to"], *([frame["via"]] if frame["via"] else [])])
        same(f"{frame['source']}>{path} {frame['kind']}", " ".join(line.split(" ")[:2]))
    same(latest < 1, True)
    print(f"{len(wanted)} frames, each on the page {max(latest, 0):.3f} s after its line or sooner")


async def sends_frames(station, console):
    """A form's frame goes on the air, and is on the page when it has; a wish that cannot be done is refused."""
    await console.socket.send_json(FRAME)
    frame = await console.told("frame", lambda it: it["sent"])
    same({it: frame[it] for it in FRAME if it != "do"}, {it: FRAME[it] for it in FRAME if it != "do"})
    same(station.sent(), ["N7LEM>BEACON,WIDE1-1"])
    for bad in ({"source": "no call"}, {"via": "A,B,C,D,E,F,G,H,I"}, {"text": "x" * 257}, {"do": "what?"}):
        await console.socket.send_json(FRAME | bad)
        await console.told("refused", lambda _: True)
    await console.socket.send_str("[")
    await console.told("refused", lambda _: True)


async def refuses_others(station, console):
    """No request sends a frame that another page, or a name of another host, could make."""
    before, far = len(station.sent()), "http://console.example"
    wrong = [{"Origin": far}, {"Origin": "null"}, {"Origin": None}, {"Origin": f"http://127.0.0.1:{console.port + 1}"},
             {"Origin": far, "Host": f"console.example:{console.port}"}, {"Host": f"console.example:{console.port}"},
             {"Origin": f"http://console.example:{console.port}", "Host": f"console.example:{console.port}"},
             {"token": ""}, {"token": "wrong"}, {"token": console.token[:-1]}]
    for how in wrong:
        try:
            socket = await console.open(**how)
            await socket.send_json(FRAME)
            raise AssertionError(f"a page is opened with {how}")
        except aiohttp.WSServerHandshakeError as refusal:
            same(refusal.status, 403)
    for path in ("/", "/live", f"/live?token={console.token}", "/frame"):
        async with console.client.post(console.root + path, json=FRAME, headers={"Origin": far}) as answer:
            same(answer.status in (403, 404, 405), True)
    async with console.client.get(console.root, headers={"Host": f"console.example:{console.port}"}) as answer:
        same((answer.status, console.token in await answer.text()), (403, False))
    await asyncio.sleep(1)
    same(len(station.sent()), before)
    await console.socket.send_json(FRAME)
    await until("the page's own frame", lambda: len(station.sent()) == before + 1)


async def outlives_the_station(station, console):
    """The page is told that the station went and that it came, and shows frames again."""
    same(station.end()[0], 0)
    await console.told("status", lambda it: not it["connected"])
    await console.socket.send_json(FRAME)
    same(await console.told("refused", lambda _: True), "the station is not there")
    station.begin(RECORDING.read_bytes())
    await console.connected()
    await console.told("frame", lambda it: not it["sent"])
    await console.socket.send_json(FRAME)
    await console.told("frame", lambda it: it["sent"])


async def reads_the_report(station, console):
    """`stats` lines of the station's report are on the page, and what it tells of faults."""
    with open(console.report, "a") as report:
        report.write(f"rx N0CALL>APRS UI\n{STATS}\ngap 1 2 3\n")
    stats = await console.told("stats", lambda _: True)
    same((stats["share"], stats["peak"], stats["dropped"], stats["seconds"]), (0.25, 16384, 0, 10))
    same(await console.told("notice", lambda _: True), "gap 1 2 3")


class Pair:
    """Two stations whose sound reaches each other, and a host of the second one that answers calls to NJ7P."""

    def __init__(self, tnc):
        self.stations = [Station(tnc, "--seed", "1"), Station(tnc, "--seed", "2")]
        for it in self.stations:
            it.connect(it.agw).close()
        self.air, self.sound, self.is_over = Air(*self.stations), b"", False
        self.thread = threading.Thread(target=self.carry)
        self.thread.start()

    async def __aenter__(self):
        self.answering = asyncio.create_task(self.answer())
        return self.stations[0].agw

    async def __aexit__(self, *_):
        self.answering.cancel()
        self.is_over = True
        self.thread.join()
        for it in self.stations:
            it.end()

    def carry(self):
        """Lets the air go on. The first station hears a recording in place of the second, if there is one."""
        began = time.monotonic()
        while not self.is_over:
            if self.sound:
                piece, self.sound = self.sound[: self.air.count], self.sound[self.air.count :]
                self.air.to_a = piece.ljust(self.air.count, b"\0")
            self.air.step()
            time.sleep(max(0, began + self.air.ticks / 100 / PACE - time.monotonic()))

    async def answer(self):
        """Greets who calls, and says again in capitals what is said."""
        reader, writer = await asyncio.open_connection("127.0.0.1", self.stations[1].agw)
        writer.write(written(Message("X", "NJ7P")))
        rest = b""
        while part := await reader.read(65536):
            messages, rest = read_messages(rest + part)
            for it in messages:
                if it.kind in "CD":
                    said = b"welcome\r" if it.kind == "C" else it.body.upper()
                    writer.write(written(Message("D", "NJ7P", it.source, said, 0xF0)))


async def calls(tnc):
    """The terminal: a call, a line each way, and its end; the link is on the page with what it carried."""
    async with Pair(tnc) as agw, Console(agw) as console:
        await console.connected()
        await console.socket.send_json({"do": "call", "own": "n7lem", "other": "NJ7P"})
        await console.told("text", lambda it: it == "*** CONNECTED With Station NJ7P\n")
        await console.told("text", lambda it: it == "welcome\n")
        await console.socket.send_json({"do": "say", "text": "hello"})
        await console.told("text", lambda it: it == "HELLO\n")
        link = await console.told("link", lambda it: [end["packets"] for end in it["ends"]] == [1, 2])
        same([(end["call"], end["octets"]) for end in link["ends"]], [("N7LEM", 6), ("NJ7P", 14)])
        await console.socket.send_json({"do": "hang up"})
        await console.told("call", lambda it: it["state"] == "idle")


class Browser:
    """A headless chromium, driven by its own protocol."""

    def __init__(self, home, client):
        words = ["--headless", "--no-sandbox", "--disable-gpu", "--remote-debugging-port=0", f"--user-data-dir={home}"]
        nowhere = {"stdout": subprocess.DEVNULL, "stderr": subprocess.DEVNULL}
        self.program = subprocess.Popen(["chromium", *words, "about:blank"], start_new_session=True, **nowhere)
        self.home, self.client, self.count = Path(home), client, 0

    async def begin(self):
        """Takes hold of its page."""
        told = self.home / "DevToolsActivePort"
        await until("chromium", lambda: told.exists() and "\n" in told.read_text())
        async with self.client.get(f"http://127.0.0.1:{told.read_text().split()[0]}/json/list") as answer:
            pages = [it for it in await answer.json() if it["type"] == "page"]
        self.socket = await self.client.ws_connect(pages[0]["webSocketDebuggerUrl"], max_msg_size=0)

    async def do(self, method, **words):
        """Has it do something, and returns what comes of it."""
        self.count += 1
        await self.socket.send_json({"id": self.count, "method": method, "params": words})
        while True:
            answer = await asyncio.wait_for(self.socket.receive_json(), WAIT)
            if answer.get("id") == self.count:
                if "error" in answer:
                    raise AssertionError(f"{method}: {answer['error']}")
                return answer["result"]

    async def value(self, script):
        """What a script comes to on the page."""
        return (await self.do("Runtime.evaluate", expression=script, returnByValue=True))["result"].get("value")

    async def shows(self, script):
        """Waits until a script holds on the page."""
        ends = time.monotonic() + WAIT
        while not await self.value(script):
            if time.monotonic() > ends:
                raise AssertionError(f"the browser never shows: {script}")
            await asyncio.sleep(0.05)

    async def picture(self, folder, name, width, height, scheme):
        """Keeps what it shows, on a screen of such a size, light or dark."""
        if folder is None:
            return
        screen = {"width": width, "height": height, "deviceScaleFactor": 1, "mobile": width < 600}
        await self.do("Emulation.setDeviceMetricsOverride", **screen)
        await self.do("Emulation.setEmulatedMedia", features=[{"name": "prefers-color-scheme", "value": scheme}])
        await asyncio.sleep(0.3)
        shot = await self.do("Page.captureScreenshot", format="png")
        (Path(folder) / name).write_bytes(base64.b64decode(shot["data"]))

    def end(self):
        os.killpg(self.program.pid, signal.SIGKILL)
        self.program.wait()


def filled(form, **fields):
    """A script that fills in a form of the page, and submits it."""
    values = "".join(f"form.elements.{it}.value = {json.dumps(what)}; " for it, what in fields.items())
    return f"(() => {{ const form = document.getElementById('{form}'); {values}form.requestSubmit(); }})()"


async def in_a_browser(tnc, folder):
    """The page in chromium: a frame from its form, a call in its terminal, what the report tells, and a filter."""
    with tempfile.TemporaryDirectory(ignore_cleanup_errors=True) as home:
        report = Path(home) / "report"
        report.touch()
        pair = Pair(tnc)
        async with pair as agw, Console(agw, "--report", str(report)) as console:
            browser = Browser(f"{home}/data", console.client)
            try:
                await browser.begin()
                await browser.do("Page.navigate", url=console.root)
                await browser.shows("document.getElementById('status')?.textContent.startsWith('connected')")
                pair.sound = RECORDING.read_bytes()
                await browser.shows("document.querySelectorAll('#frame-list li.heard').length === 16")
                await browser.value(filled("frame-form", source="N7LEM", text="<b>hello</b> all"))
                await browser.shows("document.querySelector('li.sent .text')?.textContent === '<b>hello</b> all'")
                report.write_text(f"{STATS}\n")
                await browser.shows("document.getElementById('facts').textContent.includes('25.0 % of 10 s')")
                await browser.value(filled("call-form", own="N7LEM", other="NJ7P"))
                await browser.shows("document.getElementById('terminal').textContent.includes('welcome')")
                await browser.value(filled("line-form", text="is anybody there?"))
                await browser.shows("document.getElementById('terminal').textContent.includes('IS ANYBODY THERE?')")
                await browser.shows("document.querySelectorAll('#link-list tr').length === 2")
                await browser.shows("document.querySelector('#station-list button')?.textContent === 'NJ7P'")
                await browser.picture(folder, "console-desk.png", 1200, 1100, "light")
                await browser.picture(folder, "console-dark.png", 1200, 1100, "dark")
                await browser.picture(folder, "console-telephone.png", 390, 844, "dark")
                await browser.value("document.querySelector('#station-list button').click()")
                await browser.shows("document.querySelectorAll('#frame-list li.hidden').length > 0")
            finally:
                browser.end()


async def on_one_station(tnc):
    """The checks that one station is enough for."""
    station = Sounding(tnc, free_port(), free_port())
    with tempfile.NamedTemporaryFile("w") as report:
        try:
            async with Console(station.agw, "--report", report.name) as console:
                console.report = report.name
                await console.connected()
                for check in (shows_frames, sends_frames, refuses_others, reads_the_report, outlives_the_station):
                    await run(check.__name__, check(station, console))
        finally:
            station.end()


failed = []


async def run(name, check):
    """Runs a check, and tells how it went."""
    try:
        await check
        print(f"{name}: well", flush=True)
    except (AssertionError, OSError, aiohttp.ClientError) as fault:
        print(f"FAILED: {name}: {fault}", flush=True)
        failed.append(name)


async def checks(given):
    await on_one_station(given.tnc)
    await run("calls", calls(given.tnc))
    if shutil.which("chromium"):
        await run("in_a_browser", in_a_browser(given.tnc, given.pictures))
    else:
        print("skipped: the page in a browser (chromium is not installed)")


def main():
    reader = argparse.ArgumentParser()
    reader.add_argument("--tnc", default="bin/tnc")
    reader.add_argument("--pictures")
    given = reader.parse_args()
    given.tnc = os.path.abspath(given.tnc)
    asyncio.run(checks(given))
    return 1 if failed else 0


if __name__ == "__main__":
    sys.exit(main())
