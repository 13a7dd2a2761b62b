"""What the page remembers of frames: the last of them, the stations that were heard, and the links they belong to."""
import time
from collections import deque

from monitored import readable

FRAMES_KEPT = 500
STATIONS_KEPT = 500
LINKS_KEPT = 100


class Direction:
    """What one end of a link has sent: new packets, their octets, and packets that were sent again."""

    def __init__(self):
        self.next, self.packets, self.octets, self.again = None, 0, 0, 0

    def take(self, number, octets, modulus):
        """A packet is new unless its number lies in the half of the numbers before the next one."""
        if self.next is not None and number is not None and (number - self.next) % modulus >= modulus // 2:
            self.again += 1
            return
        self.packets, self.octets = self.packets + 1, self.octets + octets
        if number is not None:
            self.next = (number + 1) % modulus


class Link:
    """Two calls and what passes between them, as far as this station hears or sends it."""

    def __init__(self, one, other):
        self.calls, self.state, self.modulus, self.last = (one, other), "unknown", 8, 0.0
        self.sent = {one: Direction(), other: Direction()}

    def take(self, frame):
        """Follows a link by the frames that set it up, carry its packets and end it."""
        self.last = time.time()
        if frame.kind in ("SABM", "SABME"):
            self.state, self.modulus = "calling", 128 if frame.kind == "SABME" else 8
            self.sent = {it: Direction() for it in self.calls}
        elif frame.kind == "UA":
            self.state = "ended" if self.state == "ending" else "up"
        elif frame.kind == "DISC":
            self.state = "ending"
        elif frame.kind == "DM":
            self.state = "ended"
        elif frame.kind == "I":
            self.state = "up"
            self.sent[frame.source].take(frame.number("S"), len(frame.text), self.modulus)
        elif frame.kind in ("RR", "RNR", "REJ", "SREJ") and self.state == "unknown":
            self.state = "up"

    def shown(self):
        ends = [{"call": call, "packets": it.packets, "octets": it.octets, "again": it.again}
                for call, it in self.sent.items()]
        return {"ends": ends, "state": self.state, "modulus": self.modulus, "last": self.last}


class Heard:
    """The frames so far."""

    def __init__(self):
        self.frames, self.stations, self.links, self.count = deque(maxlen=FRAMES_KEPT), {}, {}, 0

    def take(self, frame):
        """Remembers a frame, and returns what is new for a page: the frame, its station and its link."""
        self.count += 1
        news = {"frame": {"number": self.count, "time": time.time(), "sent": frame.is_sent, "source": frame.source,
                          "to": frame.to, "via": frame.via, "kind": frame.kind, "details": frame.details,
                          "text": readable(frame.text)}}
        self.frames.append(news["frame"])
        if not frame.is_sent:
            news["station"] = self.station(frame)
        if frame.kind not in ("UI", "?", "XID", "TEST"):
            news["link"] = self.link(frame)
        return news

    def station(self, frame):
        """Remembers who was heard. The station that was heard longest ago makes room."""
        known = self.stations.pop(frame.source, {"call": frame.source, "count": 0})
        known |= {"count": known["count"] + 1, "time": time.time(), "to": frame.to, "via": frame.via}
        self.stations[frame.source] = known
        if len(self.stations) > STATIONS_KEPT:
            del self.stations[next(iter(self.stations))]
        return known

    def link(self, frame):
        """Remembers the link of a frame's two calls, whoever of them sent it."""
        calls = tuple(sorted((frame.source, frame.to)))
        known = self.links.pop(calls, None) or Link(*calls)
        known.take(frame)
        self.links[calls] = known
        if len(self.links) > LINKS_KEPT:
            del self.links[next(iter(self.links))]
        return known.shown()

    def shown(self):
        """All that is remembered, for a page that has just been opened."""
        return {"frames": list(self.frames), "stations": list(self.stations.values()),
                "links": [it.shown() for it in self.links.values()]}
