"""Frames in words, as AGWPE tells them to a host that monitors: how such a text is read.

 1:Fm W1AW-1 To APRS Via WIDE1-1*,WIDE2-1 <UI pid=F0 Len=5 P=0 >[00:01:07]\\rhello\\r\\0
"""
import re
from typing import NamedTuple

TEXT = re.compile(
    rb" ?\d+:Fm (?P<source>\S+) To (?P<to>\S+)(?: Via (?P<via>\S+))? "
    rb"<(?P<kind>\w+)(?P<details>[^>]*)>\[[^\]]*\]\r?(?P<text>.*)", re.S
)


class Frame(NamedTuple):
    """A frame that was heard, or that the station has sent."""

    is_sent: bool
    source: str
    to: str
    via: str
    kind: str
    details: str
    text: bytes

    def number(self, letter):
        """Returns the sequence number that the details tell after S or R, or none."""
        found = re.search(rf"(?<!\S){letter}(\d+)\b", self.details)
        return int(found[1]) if found else None


def read(message):
    """Reads the body of a message of the kinds U, I, S and T. A text in another form is shown whole."""
    is_sent = message.kind == "T"
    body = message.body.rstrip(b"\0")
    found = TEXT.fullmatch(body)
    if found is None:
        return Frame(is_sent, message.source, message.to, "", "?", "", body)
    names = ("source", "to", "via", "kind", "details")
    words = [(found[it] or b"").decode("latin-1").strip() for it in names]
    return Frame(is_sent, *words, found["text"].removesuffix(b"\r"))


def readable(octets):
    """Octets as a text to show: UTF-8 if they are that, a dot for what is not for reading, and no end of line."""
    try:
        text = octets.decode()
    except UnicodeDecodeError:
        text = octets.decode("latin-1")
    return "".join(it if it.isprintable() else "·" for it in text.rstrip("\r\n"))
