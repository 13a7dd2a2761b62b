"""The page and its WebSocket, on 127.0.0.1, for this page alone.

Any page of a browser can ask this port for something. What it must not do is send a frame, or read what was heard. So
everything goes over one WebSocket, which is opened only to a request that names this host (another's name that was made
to mean 127.0.0.1 is not it), comes from this origin, and bears a token that stands in the page, which other origins
cannot read."""
import asyncio
import hmac
import json
import re
import secrets
from pathlib import Path

from aiohttp import WSMsgType, web

from monitored import read
from report import Measured

PAGE = Path(__file__).resolve().parent / "page"
CALL = re.compile(r"[A-Z0-9]{1,6}(-([1-9]|1[0-5]))?")
LONGEST_TEXT = 256  # octets of a frame, and of a line of a call
MOST_WAITING = 2000  # events for a page that does not read; then it is closed, and comes again


class Refused(Exception):
    """What a page asked for cannot be done; the text says why."""


def call_of(text):
    """Reads a call."""
    call = str(text).strip().upper()
    if not CALL.fullmatch(call):
        raise Refused(f"“{call}” is no call")
    return call


def repeaters_of(text):
    """Reads repeaters, with commas or blanks between them."""
    calls = [call_of(it) for it in re.split(r"[\s,]+", str(text)) if it]
    if len(calls) > 8:
        raise Refused("there are at most 8 repeaters")
    return calls


def line_of(text):
    """Reads a text of one frame."""
    text = str(text)
    if len(text.encode()) > LONGEST_TEXT:
        raise Refused(f"a text has at most {LONGEST_TEXT} octets")
    return text


class Server:
    """Serves the page, tells open pages the news, and does what they ask for."""

    def __init__(self, station, heard, call, port):
        self.station, self.heard, self.call, self.port = station, heard, call, port
        self.token, self.pages, self.measured = secrets.token_urlsafe(32), set(), Measured()
        self.hosts = {f"127.0.0.1:{port}", f"localhost:{port}"}
        station.on_message, station.on_change = self.take_message, self.take_change
        call.on_change, call.on_text = self.tell_call, lambda text: self.tell({"text": text})

    async def start(self):
        """Opens the port."""
        app = web.Application(middlewares=[self.guard])
        app.add_routes([web.get("/", self.page), web.get("/live", self.live),
                        web.get("/page.js", self.file), web.get("/style.css", self.file)])
        runner = web.AppRunner(app, access_log=None)
        await runner.setup()
        await web.TCPSite(runner, "127.0.0.1", self.port).start()

    @web.middleware
    async def guard(self, request, handler):
        """Looks at Host and Origin, and has the browser keep other pages out of this one."""
        if request.headers.getall("Host", []) not in [[it] for it in self.hosts]:
            raise web.HTTPForbidden(text="not this host\n")
        if any(it != f"http://{request.host}" for it in request.headers.getall("Origin", [])):
            raise web.HTTPForbidden(text="not this origin\n")
        answer = await handler(request)
        if not answer.prepared:
            answer.headers.update({
                "Content-Security-Policy": "default-src 'none'; script-src 'self'; style-src 'self'; img-src data:; "
                f"connect-src 'self' ws://{request.host}; base-uri 'none'; form-action 'none'; frame-ancestors 'none'",
                "Cross-Origin-Resource-Policy": "same-origin", "X-Content-Type-Options": "nosniff",
                "Referrer-Policy": "no-referrer", "Cache-Control": "no-store",
            })
        return answer

    async def page(self, _):
        text = (PAGE / "index.html").read_text().replace("{{token}}", self.token)
        return web.Response(text=text, content_type="text/html")

    async def file(self, request):
        return web.FileResponse(PAGE / request.path[1:])

    async def live(self, request):
        """The WebSocket of one page. It has an Origin, as all that browsers open have, and the token."""
        token = request.query.get("token", "")
        if "Origin" not in request.headers or not hmac.compare_digest(token.encode(), self.token.encode()):
            raise web.HTTPForbidden(text="not this page\n")
        socket = web.WebSocketResponse(heartbeat=20, max_msg_size=65536)
        await socket.prepare(request)
        news = asyncio.Queue(MOST_WAITING)
        news.put_nowait(self.everything())
        self.pages.add(news)
        writing = asyncio.create_task(self.write(socket, news))
        try:
            async for message in socket:
                if message.type == WSMsgType.TEXT:
                    self.asked(message.data, news)
        finally:
            self.pages.discard(news)
            writing.cancel()
        return socket

    async def write(self, socket, news):
        """Sends a page its news. None in their place says that it read too slowly."""
        while (event := await news.get()) is not None:
            await socket.send_str(json.dumps(event))
        await socket.close()

    def everything(self):
        now = {"status": self.station.about, "stats": self.measured.last, "call": self.call.shown()}
        return {"everything": self.heard.shown() | now}

    def tell(self, event):
        """Tells all pages an event."""
        for news in list(self.pages):
            try:
                news.put_nowait(event)
            except asyncio.QueueFull:
                self.pages.discard(news)
                while not news.empty():
                    news.get_nowait()
                news.put_nowait(None)

    def tell_call(self):
        self.tell({"call": {it: what for it, what in self.call.shown().items() if it != "text"}})

    def take_change(self):
        """The station has come, gone, or told of itself."""
        if not self.station.about["connected"]:
            self.call.end("the station is gone")
        self.tell({"status": self.station.about})

    def take_message(self, message):
        """A message of the station that is not about itself."""
        if message.kind in "UIST":
            self.tell(self.heard.take(read(message)))
        else:
            self.call.take(message)

    def take_report(self, line):
        """A line of the station's standard error."""
        told = self.measured.take(line)
        if told is not None:
            self.tell(told)

    def asked(self, text, news):
        """Does what a page asks for, and tells that page why if it cannot be done."""
        try:
            wish = json.loads(text)
            if not isinstance(wish, dict):
                raise Refused("that is nothing this program does")
            self.do(wish)
        except (Refused, ValueError) as fault:
            if not news.full():
                news.put_nowait({"refused": str(fault)})

    def do(self, wish):
        """One wish of a page."""
        what = wish.get("do")
        if not self.station.about["connected"]:
            raise Refused("the station is not there")
        if what == "frame":
            source, to, via = call_of(wish.get("source")), call_of(wish.get("to")), repeaters_of(wish.get("via", ""))
            self.station.send_frame(source, to, via, line_of(wish.get("text", "")).encode())
        elif what == "call":
            self.call.begin(call_of(wish.get("own")), call_of(wish.get("other")), repeaters_of(wish.get("via", "")))
        elif what == "say":
            self.call.say(line_of(wish.get("text", "")))
        elif what == "hang up":
            self.call.hang_up()
        else:
            raise Refused("that is nothing this program does")
