"""Other people's programs as hosts of `tnc serve`, if they are installed. For check_hosts.py --programs."""
import os
import shutil
import subprocess
import sys
import tempfile
import time

sys.path.append(os.path.join(os.path.dirname(__file__), "../shared"))
from air import free_port
from hosts import Client, LIMIT, World, call_field, little, same, ui_frame


class Program:
    """Somebody else's program, in a fresh folder, whose print is read as it comes."""

    def __init__(self, *words, files=(), display=""):
        self.home = tempfile.TemporaryDirectory(prefix="host-")
        for name, text in files:
            with open(f"{self.home.name}/{name}", "w") as file:
                file.write(text)
        self.log = open(f"{self.home.name}/log", "w+b")
        self.program = subprocess.Popen(
            words, cwd=self.home.name, env={**os.environ, "HOME": self.home.name, "DISPLAY": display}, stdin=subprocess.PIPE,
            stdout=self.log, stderr=self.log, bufsize=0,
        )

    def say(self, line):
        self.program.stdin.write(line.encode() + b"\n")

    def text(self):
        """What it has printed so far."""
        file = self.log.fileno()
        return os.pread(file, os.fstat(file).st_size, 0).decode(errors="replace")

    def end(self):
        self.program.terminate()
        try:
            self.program.wait(5)
        except subprocess.TimeoutExpired:
            self.program.kill()
            self.program.wait()
        self.program.stdin.close()
        text = self.text()
        self.log.close()
        self.home.cleanup()
        return text


class Programs:
    """A world that goes at ten times the pace of sound, and programs in it, which are ended in any case."""

    def __init__(self, tnc, *words):
        self.world = World(tnc, *words)
        self.world.pause, self.world.limit = 0.005, 10 * LIMIT
        self.programs = []

    def __enter__(self):
        return self

    def __exit__(self, *fault):
        for program in self.programs:
            text = program.end()
            if fault[0]:
                print(text[-2000:])

    def start(self, *words, **more):
        self.programs.append(Program(*words, **more))
        return self.programs[-1]

    def until(self, program, text):
        """Goes on until a program has printed a text."""
        began = time.monotonic()
        while text not in program.text():
            if time.monotonic() - began > 60:
                raise AssertionError(f"waited in vain for {text!r} of {program.program.args[0]}")
            self.world.go(1)


def with_appserver(tnc, *words):
    """Dire Wolf's `appserver`: a caller is welcomed, asks who is there, lets it send 20 packets, and leaves."""
    with Programs(tnc, *words) as it:
        port = it.world.stations[1].agw
        server = it.start("appserver", "-h", "127.0.0.1", "-p", str(port), "BBBB")
        a = it.world.client(0, "AAAA")
        it.world.go(100)
        a.send("C", "BBBB")
        it.world.until("connected", lambda: a.take("C"))
        told = b""

        def until(text):
            nonlocal told

            def holds():
                nonlocal told
                told += b"".join(message.body for message in a.take("D"))
                return text in told

            it.world.until(text.decode(), holds)
            told = told.split(text)[1]

        until(b"Welcome!  Type ? for list of commands")
        a.send("D", "BBBB", b"who\r", 0xF0)
        until(b"AAAA")
        a.send("D", "BBBB", b"test 5 60\r", 0xF0)
        until(b"000005 abcdefgh")
        until(b"bytes/sec")
        a.send("D", "BBBB", b"bye\r", 0xF0)
        it.world.until("disconnected", lambda: a.take("d"))
        it.until(server, "End session 0")
        it.world.end()


def with_appserver_wide(tnc):
    """The same by SREJ and modulo 128."""
    with_appserver(tnc, "--mode", "srej", "--wide")


def with_aclients(tnc):
    """Dire Wolf's `aclients` at both stations: each counts and shows what its station hears."""
    with Programs(tnc) as it:
        words = [f"127.0.0.1:{station.agw}=S{at}" for at, station in enumerate(it.world.stations)]
        clients = it.start("aclients", *words)
        it.until(clients, "Client 0 now connected")
        it.until(clients, "Client 1 now connected")
        it.world.go(20)
        near, far = it.world.kiss(0), it.world.kiss(1)
        near.send(ui_frame("N0CALL-1", "APRS", b"from the first"))
        it.until(clients, "N0CALL-1>APRS:from the first")
        far.send(ui_frame("N0CALL-2", "APRS", b"from the second"))
        it.until(clients, "N0CALL-2>APRS:from the second")
        it.world.end()


def with_kissutil(tnc):
    """Dire Wolf's `kissutil` at both stations: frames and settings."""
    with Programs(tnc) as it:
        ports = [str(station.kiss) for station in it.world.stations]
        one, other = (it.start("kissutil", "-h", "127.0.0.1", "-p", port) for port in ports)
        host = it.world.client(0)
        it.world.go(100)
        for command in ("d 7", "p 128", "s 20", "t 9", "f 1"):
            one.say(command)
        it.world.until("settings", lambda: it.world.ask(host, "g").body[2:6] == bytes([7, 9, 128, 20]))
        one.say("N0CALL-1>APRS,WIDE1-1:hello")
        it.until(other, "N0CALL-1>APRS,WIDE1-1:hello")
        other.say("N0CALL-2>APRS:and back")
        it.until(one, "N0CALL-2>APRS:and back")
        it.world.end()
APRX = """mycall W1AW-1
<logging>
pidfile aprx.pid
rflog rf.log
aprxlog aprx.log
erlangfile aprx.state
</logging>
<interface>
tcp-device 127.0.0.1 {} KISS
callsign W1AW-1
tx-ok true
</interface>
<digipeater>
transmitter W1AW-1
<source>
source W1AW-1
relay-type digipeated
</source>
</digipeater>
"""


def with_aprx(tnc):
    """`aprx` as a digipeater: a frame by way of WIDE1-1 comes back repeated, and one by way of nobody does not."""
    with Programs(tnc) as it:
        aprx = it.start("aprx", "-i", "-f", "aprx.conf", files=[("aprx.conf", APRX.format(it.world.stations[1].kiss))])
        del aprx
        near = it.world.kiss(0)
        it.world.go(200)
        near.send(ui_frame("N7LEM", "APRS", b"!4903.50N/07201.75W-no way"))
        near.send(ui_frame("N7LEM", "APRS", b"!4903.50N/07201.75W-please", via=["WIDE1-1"]))
        it.world.until("a frame", lambda: near.frames())
        it.world.go(200)
        same([frame[-6:] for frame in near.frames()], [b"please"])
        same(near.frames()[0][14:20], call_field("W1AW-1")[:6])
        it.world.end()
XASTIR = """STATION_CALLSIGN:N0CALL-5
DEVICE0_TYPE:12
DEVICE0_HOST:127.0.0.1
DEVICE0_SPEED:{}
DEVICE0_UNPROTO1:WIDE1-1,WIDE2-1
DEVICE0_TXMT:1
DEVICE0_RELAY_DIGIPEAT:0
DEVICE0_RECONN:1
DEVICE0_ONSTARTUP:1
TNC_LOG_DATA:1
"""


def display(programs):
    """A screen for a program that wants one; its name."""
    screen = programs.start("Xvfb", "-displayfd", "1", "-screen", "0", "800x600x16", "-nolisten", "tcp")
    programs.until(screen, "\n")
    return ":" + screen.text().split()[0]


def with_xastir(tnc):
    """`xastir` over AGWPE, on a screen that nobody sees: its position goes out to port 255, and it logs what is heard."""
    with Programs(tnc) as it:
        screen = display(it)
        files = [("xastir.cnf", XASTIR.format(it.world.stations[0].agw))]
        xastir = it.start("sh", "-c", "mkdir config; mv xastir.cnf config; exec xastir -c .", files=files, display=screen)
        far = it.world.kiss(1)
        sent = ui_frame("N0CALL-5", "APX218", b"", via=["WIDE1-1", "WIDE2-1"])
        it.world.until("a position", lambda: far.frames())
        frame = far.frames()[0]
        same((frame[7:30], frame[30:31]), (sent[7:30], b"="))
        far.send(ui_frame("N7LEM", "APRS", b"!4903.50N/07201.75W-hello", via=["WIDE1-1"]))
        log = f"{xastir.home.name}/logs/tnc.log"

        def is_logged():
            return os.path.exists(log) and "N7LEM>APRS,WIDE1-1:!4903.50N/07201.75W-hello" in open(log).read()

        it.world.until("a line in its log", is_logged)
        it.world.end()
OTHERS = {
    "appserver": [with_appserver, with_appserver_wide],
    "aclients": [with_aclients],
    "kissutil": [with_kissutil],
    "aprx": [with_aprx],
    "xastir": [with_xastir],
}


def is_logged(tnc):
    """scripts/tools/agw_log.py between a host and the station: it passes every octet on, and lists each message in words."""
    with Programs(tnc) as it:
        station = it.world.stations[0]
        port = free_port()
        folder = os.path.join(os.path.dirname(__file__), "../tools")
        log = it.start(sys.executable, f"{folder}/agw_log.py", str(port), str(station.agw))
        direct, station.agw = station.agw, port
        host = it.world.client(0, "AAAA")
        host.send("M", "APRS", b"hello", 0xCF)
        same(it.world.ask(host, "R").body, little(1, 8))
        station.agw = direct
        lines = [
            " 1 > X (register) from AAAA", " 1 < X (registered) from AAAA 1 octets: 01",
            " 1 > M (send a UI frame) from AAAA to APRS pid cf 5 octets: hello",
            " 1 > R (which version?) from AAAA", " 1 < R (version) 8 octets: 0100000000000000",
        ]
        for line in lines:
            it.until(log, line + "\n")
        it.world.end()


def with_programs():
    """The checks with other programs than this script, those that are installed."""
    checks = [is_logged]
    os.environ["PATH"] += ":/usr/sbin"
    for program, those in OTHERS.items():
        if shutil.which(program) and (program != "xastir" or shutil.which("Xvfb")):
            checks += those
        else:
            print(f"skipped: {program} as a host ({program} is not installed)")
    return checks
