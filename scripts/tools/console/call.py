"""The terminal: one call over the station, from the registration of the own call to the end of the link."""
import codecs

from agwpe import Message, repeaters

KEPT = 65536  # characters of the terminal that a page opened later is shown


class Call:
    """A call and its text. `on_change` and `on_text` are told what a page has to show."""

    def __init__(self, station):
        self.station = station
        self.state, self.own, self.other, self.via, self.text = "idle", "", "", [], ""
        self.on_change = self.on_text = lambda *_: None
        self.decoder = codecs.getincrementaldecoder("utf-8")("replace")  # a character may stand in two packets

    def shown(self):
        return {"state": self.state, "own": self.own, "other": self.other, "text": self.text}

    def become(self, state):
        self.state = state
        self.on_change()

    def write(self, text):
        """Adds to what the terminal shows. CR ends a line on the air."""
        text = text.replace("\r\n", "\n").replace("\r", "\n")
        text = "".join(it if it.isprintable() or it == "\n" else "·" for it in text)
        self.text = (self.text + text)[-KEPT:]
        self.on_text(text)

    def begin(self, own, other, via):
        """Registers the own call, and calls once the station has answered that."""
        if self.state != "idle":
            return
        self.own, self.other, self.via = own, other, via
        self.decoder.reset()
        if self.station.send(Message("X", own)):
            self.become("registering")

    def say(self, line):
        """Sends a line."""
        if self.state == "connected":
            self.station.send(Message("D", self.own, self.other, line.encode() + b"\r", 0xF0))
            self.write(line + "\n")

    def hang_up(self):
        """Ends the call, or takes it back."""
        if self.state == "registering":
            self.end("not called")
        elif self.state in ("calling", "connected"):
            self.station.send(Message("d", self.own, self.other))
            self.become("ending")

    def end(self, why=""):
        """The call is over, and its call sign is given back."""
        if self.state == "idle":
            return
        self.station.send(Message("x", self.own))
        if why:
            self.write(f"*** {why}\n")
        self.become("idle")

    def take(self, message):
        """Takes what the station tells of links. Of one that is not this call's, only that it came, and it is ended."""
        if message.kind == "X":
            self.registered(message)
        elif message.kind in "CDd" and message.source == self.other and message.to == self.own and self.state != "idle":
            self.told(message)
        elif message.kind == "C":
            self.station.send(Message("d", message.to, message.source))

    def registered(self, message):
        """The station has said whether the own call is free."""
        if self.state != "registering" or message.source != self.own:
            return
        if message.body[:1] != b"\1":
            self.end(f"{self.own} is no call, or another program has it")
            return
        if self.via:
            self.station.send(Message("v", self.own, self.other, repeaters(self.via)))
        else:
            self.station.send(Message("C", self.own, self.other))
        self.become("calling")

    def told(self, message):
        """The link is up, has carried something, or has ended."""
        if message.kind == "D":
            self.write(self.decoder.decode(message.body))
        else:
            self.write(message.body.rstrip(b"\0").decode(errors="replace"))
        if message.kind == "C" and self.state == "calling":
            self.become("connected")
        elif message.kind == "d":
            self.end()
