"""A rigctld with its dummy rig, and the sound of a station that goes out only while the rig is keyed. For the checks of
`tnc serve --ptt`."""
import shutil
import signal
import socket
import subprocess
import time

from air import TICK, connect, free_port

PATIENCE = 10  # seconds that rigctld may take for an answer
SETTLES = 0.1  # seconds after which rigctld has done what it was told


def are_there():
    """Whether the programs of hamlib are installed."""
    return bool(shutil.which("rigctld") and shutil.which("rigctl"))


class Rig:
    """A rigctld with its dummy rig."""

    def __init__(self, *words):
        self.port, self.words, self.program = free_port(), words or ("-P", "RIG"), None

    def start(self):
        words = ["rigctld", "-m", "1", *self.words, "-T", "127.0.0.1", "-t", str(self.port)]
        self.program = subprocess.Popen(words, stdin=subprocess.DEVNULL, stdout=subprocess.DEVNULL, stderr=subprocess.DEVNULL)
        connect(self.port, self.program).close()
        return self

    def state(self):
        """Whether the rig is keyed, as the daemon says and as rigctl says."""
        time.sleep(SETTLES)
        with socket.create_connection(("127.0.0.1", self.port), timeout=PATIENCE) as line:
            line.sendall(b"t\n")
            told = line.recv(64).strip()
        words = ["rigctl", "-m", "2", "-r", f"127.0.0.1:{self.port}", "t"]
        also = subprocess.run(words, capture_output=True, timeout=PATIENCE).stdout.strip()
        assert told == also, f"rigctld says {told!r}, and rigctl {also!r}"
        return int(told)

    def stop(self):
        self.program.send_signal(signal.SIGSTOP)

    def go_on(self):
        self.program.send_signal(signal.SIGCONT)

    def kill(self):
        if self.program:
            self.go_on()
            self.program.kill()
            self.program.wait()


class Transmitter:
    """What goes out of a station: its sound is played a step after it was written, as a card does, and only while the rig is
    keyed. It counts the ticks with sound that were played and those that were cut off, and how often the rig was keyed."""

    def __init__(self, rig):
        self.rig, self.waiting, self.on = rig, b"", False
        self.line = socket.create_connection(("127.0.0.1", rig.port), timeout=PATIENCE)
        self.played_count = self.cut_count = self.keyed_count = 0

    def is_keyed(self):
        self.line.sendall(b"t\n")
        told = b""
        while not told.endswith(b"\n"):
            part = self.line.recv(64)
            if not part:
                raise RuntimeError("rigctld has ended")
            told += part
        return told.strip() == b"1"

    def played(self, ticks):
        """What is on the air while the station writes these ticks."""
        on = self.is_keyed()
        self.keyed_count += on and not self.on
        self.on = on
        waiting, self.waiting = self.waiting or bytes(len(ticks)), ticks
        sounding = sum(any(waiting[at : at + TICK]) for at in range(0, len(waiting), TICK))
        if on:
            self.played_count += sounding
            return waiting
        self.cut_count += sounding
        return bytes(len(waiting))

    def end(self):
        """Ends the rig after the station has ended. Answers what is wrong."""
        self.line.close()
        wrong = []
        if not self.played_count:
            wrong.append("nothing was sent")
        if self.cut_count:
            wrong.append(f"{self.cut_count} ticks with sound were cut off")
        if self.rig.state():
            wrong.append("the rig stays keyed")
        self.rig.kill()
        return wrong
