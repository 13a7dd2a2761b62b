"""Messages of AGWPE: how they are written, read, and told in words. For the checks, and for agw_log.py."""
import struct
from typing import NamedTuple

HEAD = struct.Struct("<B3xcxBx10s10sII")

FROM_HOST = {
    "C": "connect", "D": "send data", "G": "which ports?", "H": "which stations were heard?", "K": "send a raw frame",
    "M": "send a UI frame", "P": "log in", "R": "which version?", "V": "send a UI frame by way of repeaters",
    "X": "register", "Y": "how many packets of a link wait?", "c": "connect with a PID", "d": "disconnect",
    "g": "what does the port do?", "k": "raw frames on or off", "m": "monitoring on or off",
    "v": "connect by way of repeaters", "x": "end a registration", "y": "how many frames wait?",
}
TO_HOST = {
    "C": "connected", "D": "data", "G": "ports", "H": "stations heard", "I": "monitored: I", "K": "a raw frame",
    "R": "version", "S": "monitored: supervisory", "T": "monitored: own", "U": "monitored: UI", "X": "registered",
    "Y": "packets of a link that wait", "d": "disconnected", "g": "about the port", "y": "frames that wait",
}


class Message(NamedTuple):
    """A message. Its calls are the octets before the first NUL."""

    kind: str
    source: str = ""
    to: str = ""
    body: bytes = b""
    pid: int = 0
    port: int = 0
    user: int = 0


def written(message):
    """The octets of a message; the rest of a call's ten octets is NUL."""
    calls = [call.encode("latin-1") for call in (message.source, message.to)]
    kind = message.kind.encode("latin-1")
    return HEAD.pack(message.port, kind, message.pid, *calls, len(message.body), message.user) + message.body


def read_all(octets):
    """The whole messages at the front of these octets, and the octets that are left."""
    messages = []
    while len(octets) >= HEAD.size:
        port, kind, pid, *calls, length, user = HEAD.unpack_from(octets)
        end = HEAD.size + length
        if len(octets) < end:
            break
        source, to = (call.split(b"\0")[0].decode("latin-1") for call in calls)
        messages.append(Message(kind.decode("latin-1"), source, to, octets[HEAD.size : end], pid, port, user))
        octets = octets[end:]
    return messages, octets


def repeaters(calls):
    """The body of `v`, and the front of that of `V`."""
    return bytes([len(calls)]) + b"".join(call.encode().ljust(10, b"\0") for call in calls)


def in_words(message, from_host):
    """A line on a message."""
    about = (FROM_HOST if from_host else TO_HOST).get(message.kind, "of no known kind")
    calls = " ".join(
        f"{word} {call}" for word, call in (("from", message.source), ("to", message.to)) if call
    )
    pid = f"pid {message.pid:02x}" if message.pid else ""
    body = f"{len(message.body)} octets: {shown(message.body)}" if message.body else ""
    return " ".join(it for it in (message.kind, f"({about})", calls, pid, body) if it)


def shown(body, most=64):
    """Octets as text where they can be read, or as hexadecimal digits; not more than so many."""
    tail = "..." if len(body) > most else ""
    plain = body[:most].rstrip(b"\0")
    if plain and all(octet in b"\r\n\t" or 32 <= octet < 127 for octet in plain):
        return repr(plain.decode())[1:-1] + tail
    return body[:most].hex() + tail
