"""The AGWPE side: a connection to the station that is made again whenever it is lost."""
import asyncio
import struct

from agwpe import HEAD, Message, read_all, repeaters, written

LONGEST_BODY = 65536  # a station that tells of more speaks no AGWPE
PAUSE = 0.5  # seconds between two attempts to connect
ROUND = 5  # seconds between two rounds of questions


class Station:
    """A TNC. What it says goes to `on_message`; `on_change` is told when it comes, goes, or tells more of itself."""

    def __init__(self, host, port):
        self.host, self.port = host, port
        self.on_message = self.on_change = lambda *_: None
        self.writer = None
        self.forget()

    def forget(self):
        """Nothing is known of a station that is not there."""
        self.about = {"connected": False, "version": "", "port": "", "settings": {}, "waiting": 0}

    def send(self, message):
        """Sends a message, and returns whether the station is there to get it."""
        if self.writer is None or self.writer.is_closing():
            return False
        self.writer.write(written(message))
        return True

    def send_frame(self, source, to, via, text):
        """Sends a UI frame, by way of repeaters if there are any."""
        if via:
            return self.send(Message("V", source, to, repeaters(via) + text, 0xF0))
        return self.send(Message("M", source, to, text, 0xF0))

    async def run(self):
        """Keeps the connection up."""
        while True:
            try:
                reader, self.writer = await asyncio.open_connection(self.host, self.port)
                await self.listen(reader)
            except OSError:
                pass
            finally:
                self.leave()
            await asyncio.sleep(PAUSE)

    def leave(self):
        """Closes what is left of a connection."""
        was_there = self.about["connected"]
        if self.writer is not None:
            self.writer.close()
            self.writer = None
        self.forget()
        if was_there:
            self.on_change()

    async def listen(self, reader):
        """Asks the station about itself, has it monitor, and passes on what comes until it goes."""
        for kind in "RGm":
            self.send(Message(kind))
        self.about["connected"] = True
        self.on_change()
        asking = asyncio.create_task(self.ask_again())
        try:
            rest = b""
            while part := await reader.read(65536):
                messages, rest = read_all(rest + part)
                for message in messages:
                    self.take(message)
                if len(rest) >= HEAD.size and HEAD.unpack_from(rest)[5] > LONGEST_BODY:
                    return
        finally:
            asking.cancel()

    async def ask_again(self):
        """Asks now and then for what changes."""
        while True:
            self.send(Message("g"))
            self.send(Message("y"))
            await asyncio.sleep(ROUND)

    def take(self, message):
        """Keeps what the station tells of itself, and passes the rest on."""
        readers = {"R": self.read_version, "G": self.read_ports, "g": self.read_settings, "y": self.read_waiting}
        if message.kind not in readers:
            self.on_message(message)
            return
        before = dict(self.about)
        try:
            readers[message.kind](message.body)
        except (struct.error, IndexError, ValueError):
            return  # too short: it tells nothing
        if self.about != before:
            self.on_change()

    def read_version(self, body):
        self.about["version"] = "%d.%d" % struct.unpack_from("<H2xH", body)

    def read_ports(self, body):
        fields = body.split(b"\0")[0].decode("latin-1").split(";")
        self.about["port"] = fields[1].removeprefix("Port1 ")

    def read_settings(self, body):
        txdelay, txtail, persistence, slot_time, window, links = body[2:8]
        self.about["settings"] = {"TXDELAY": 10 * txdelay, "TXtail": 10 * txtail, "persistence": persistence,
                                  "slot time": 10 * slot_time, "window": window, "links": links}

    def read_waiting(self, body):
        (self.about["waiting"],) = struct.unpack_from("<I", body)
