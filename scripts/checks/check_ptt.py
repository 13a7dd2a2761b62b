#!/usr/bin/env python3
"""Keys a transmitter by a real rigctld, the daemon of hamlib, with its dummy rig.

  scripts/checks/check_ptt.py [--tnc PROGRAM] [--before PROGRAM] [--only WORD] [--long]

The script is the card: it hands the station a tick of silence, takes a tick of its sound, and so knows before which tick
each command stands. It stands between the station and rigctld and sees each command and each answer, and it reads the
state of the rig back on another connection, and by rigctl. A row is a line of what is tried; --only takes the rows whose
names have the word, --long the rows of more than a minute too. With --before the samples and the report without --ptt are
compared with those of another program. It ends with status 0 if all is well, and 77 if rigctld is not installed."""
import argparse
import os
import random
import select
import shlex
import signal
import socket
import subprocess
import sys
import tempfile
import time

sys.path.append(os.path.join(os.path.dirname(__file__), "../shared"))
from air import TICK, connect, free_port
from rigs import Rig, are_there

PACE = 0.01  # seconds of a tick
PATIENCE = 10  # seconds that the station may take for a tick, and to end
SILENCE = bytes(TICK)
LIMIT = 9000  # ticks that the key may be on


class Line:
    """What stands between the station and rigctld, or is a rigctld itself if it is told how to answer. An answer is a
    function of the number of the command on its connection and of its text."""

    def __init__(self, rig=None, answer=None):
        self.rig, self.answer, self.port = rig, answer, free_port()
        self.door = self.station = self.daemon = None
        self.part, self.count = b"", 0
        # of each command: its tick, its connection, its text; and of each answer the same
        self.commands, self.answers, self.connection = [], [], 0

    def open(self):
        self.door = socket.create_server(("127.0.0.1", self.port))
        self.door.setblocking(False)
        return self

    def shut(self):
        for it in (self.door, self.station, self.daemon):
            if it:
                it.close()
        self.door = self.station = self.daemon = None

    def hang_up(self):
        for it in (self.station, self.daemon):
            if it:
                it.close()
        self.station = self.daemon = None

    def admit(self):
        try:
            station, _ = self.door.accept()
        except BlockingIOError:
            return
        self.hang_up()
        self.connection += 1
        self.station, self.part, self.count = station, b"", 0
        self.station.setblocking(False)
        if self.rig:
            try:
                self.daemon = socket.create_connection(("127.0.0.1", self.rig.port), timeout=PATIENCE)
                self.daemon.setblocking(False)
            except OSError:
                self.hang_up()

    def pump(self, tick):
        """Passes on what has come by now, before the next tick."""
        if not self.door:
            return
        self.admit()
        octets = self.read(self.station)
        if octets == b"":
            self.hang_up()
        elif octets:
            self.take(octets, tick)
        octets = self.read(self.daemon)
        if octets == b"":
            self.hang_up()
        elif octets:
            self.answers.append((tick, self.connection, octets))
            self.say(octets)

    @staticmethod
    def read(line):
        """What has come: nothing yet is None, and an end is no octet."""
        if not line:
            return None
        try:
            return line.recv(4096)
        except BlockingIOError:
            return None
        except OSError:
            return b""

    def take(self, octets, tick):
        *whole, self.part = (self.part + octets).split(b"\n")
        for text in whole:
            self.commands.append((tick, self.connection, text.decode()))
            if self.answer:
                for piece in self.answer(self.count, text.decode()):
                    if piece is None:
                        self.hang_up()
                        break
                    self.say(piece)
            self.count += 1
        if self.daemon:
            self.daemon.setblocking(True)
            self.daemon.sendall(octets)
            self.daemon.setblocking(False)

    def say(self, octets):
        if self.station:
            try:
                self.station.sendall(octets)
            except OSError:
                self.hang_up()


def frame(number=0, size=20):
    """A UI frame between two stations, as KISS has it."""
    text = bytes(octet << 1 for octet in b"NJ7P  ") + b"\xe0" + bytes(octet << 1 for octet in b"N7LEM ") + b"\x61"
    return b"\xc0\x00" + text + b"\x03\xf0" + f"{number:04}".encode() + b"a" * size + b"\xc0"


# a station that takes the channel at once: persistence 255, slot time 0, TXDELAY 100 ms
EAGER = b"\xc0\x02\xff\xc0" + b"\xc0\x03\x00\xc0" + b"\xc0\x01\x0a\xc0"
FULL = b"\xc0\x05\x01\xc0"


class Run:
    """A station with a line to a rig."""

    def __init__(self, given, line, *words, wrap="", key=True, env=None):
        self.line, self.tick, self.sounds = line, 0, []
        self.kiss, self.agw = free_port(), free_port()
        self.report_file = tempfile.TemporaryFile()
        program = [*shlex.split(given.tnc), "serve", "--kiss", str(self.kiss), "--agw", str(self.agw), "--seed", "1"]
        program += [*(["--ptt", str(line.port)] if key else []), *map(str, words)]
        if wrap:
            program = ["sh", "-c", wrap.format(shlex.join(program))]
        self.program = subprocess.Popen(program, stdin=subprocess.PIPE, stdout=subprocess.PIPE, stderr=self.report_file,
                                        bufsize=0, start_new_session=True, env=env)
        self.host = connect(self.kiss, self.program)
        self.began, self.output = time.monotonic(), b""

    def report(self):
        self.report_file.seek(0)
        return [line for line in self.report_file.read().decode().splitlines() if line != "dead sound"]

    def queue(self, *octets):
        self.host.sendall(b"".join(octets))

    def step(self):
        """A tick of silence in, a tick of sound out. Answers whether it is sound."""
        self.program.stdin.write(SILENCE)
        got, last = b"", time.monotonic() + PATIENCE
        while len(got) < TICK:
            self.line.pump(self.tick)
            if select.select([self.program.stdout], [], [], 0.001)[0]:
                more = os.read(self.program.stdout.fileno(), TICK - len(got))
                if not more:
                    raise RuntimeError(f"the station has ended: {self.report()}")
                got += more
            if time.monotonic() > last:
                raise RuntimeError("no tick")
        self.line.pump(self.tick)
        self.output += got
        self.sounds.append(any(got))
        self.tick += 1
        ahead = self.began + self.tick * PACE - time.monotonic()
        if ahead > 0:
            time.sleep(ahead)
        else:
            self.began -= ahead
        return self.sounds[-1]

    def steps(self, count):
        for _ in range(count):
            self.step()

    def until(self, what, holds, most=3000):
        for _ in range(most):
            if holds():
                return
            self.step()
        raise RuntimeError(f"never {what}: {self.report()}, {self.line.commands[-6:]}")

    def until_ready(self):
        self.until("ready", lambda: "ptt ready" in self.report())

    def until_sound(self, ticks=3):
        self.until("sound", lambda: len(self.sounds) >= ticks and all(self.sounds[-ticks:]))

    def until_rest(self, tail):
        """All was sent, and the tail is over."""
        self.until("rest", lambda: len(self.sounds) > tail + 30 and not any(self.sounds[-tail - 30:]))

    def waits(self, seconds):
        """No sound is handed in, and no tick is made."""
        last = time.monotonic() + seconds
        while time.monotonic() < last:
            self.line.pump(self.tick)
            time.sleep(0.002)

    def end(self):
        """The end of the input. Answers the status, and takes the rest of the output."""
        self.program.stdin.close()
        return self.ended()

    def ended(self):
        last = time.monotonic() + PATIENCE
        while self.program.poll() is None and time.monotonic() < last:
            self.line.pump(self.tick)
            if not self.program.stdout.closed and select.select([self.program.stdout], [], [], 0.002)[0]:
                os.read(self.program.stdout.fileno(), 4096)
        self.line.pump(self.tick)
        return self.program.poll()

    def kill(self):
        self.host.close()
        if self.program.poll() is None:
            os.killpg(self.program.pid, signal.SIGKILL)
            self.program.wait()


# ---- what holds of every run

def transmissions(sounds):
    """The first and the last tick of each stretch of sound."""
    found, began = [], None
    for tick, sound in enumerate([*sounds, False]):
        if sound and began is None:
            began = tick
        if not sound and began is not None:
            found.append((began, tick - 1))
            began = None
    return found


def alternate(line):
    """On each connection the first command is a release, and each other one does the opposite of the one before."""
    for connection in {it[1] for it in line.commands}:
        texts = [it[2] for it in line.commands if it[1] == connection]
        for count, text in enumerate(texts):
            assert text in ("T 0", "T 1", "T 3"), f"a command {text!r}"
            assert (text != "T 0") == (count % 2 == 1), f"commands {texts}"


def keyed_exactly(run, tail, keying="T 1"):
    """Each transmission has a keying command right before its first tick, and a release exactly `tail` ticks after its
    last one; there is no other command after the opening one."""
    want = [(0, "T 0")]
    for first, last in transmissions(run.sounds):
        want += [(first, keying), (last + tail + 1, "T 0")]
    got = [(tick if count else 0, text) for count, (tick, _, text) in enumerate(run.line.commands)]
    want = [it for it in want if it[0] < run.tick]
    assert got == want, f"commands {got}, and not {want}"


def silent(run):
    assert not any(run.sounds), "sound without a key"
    assert all(text == "T 0" for _, _, text in run.line.commands), f"commands {run.line.commands}"


def told(run, *lines):
    got = [line for line in run.report() if line.startswith("ptt ")]
    assert got == list(lines), f"told {got}, and not {list(lines)}"


# ---- the rows

def with_run(given, *words, rig=True, rig_words=(), answer=None, started=True, **more):
    """A rig, a line to it and a station on it."""
    rig = Rig(*rig_words) if rig else None
    if rig and started:
        rig.start()
    line = Line(rig, answer)
    if started:
        line.open()
    try:
        return rig, line, Run(given, line, *words, **more)
    except RuntimeError:
        line.shut()
        if rig:
            rig.kill()
        raise


def row(function):
    ROWS.append(function)
    return function


ROWS = []


def one_frame(given, tail, *words, keying="T 1"):
    rig, line, run = with_run(given, *words)
    yield rig, run
    run.until_ready()
    assert rig.state() == 0
    run.queue(EAGER, frame())
    run.until_sound()
    assert rig.state() == 1
    run.until_rest(tail)
    assert rig.state() == 0
    keyed_exactly(run, tail, keying)
    alternate(line)
    told(run, "ptt ready")
    assert run.end() == 0


@row
def a_frame_with_no_tail(given):
    yield from one_frame(given, 0, "--ptt-tail", 0)


@row
def a_frame_with_a_tail_of_7(given):
    yield from one_frame(given, 7, "--ptt-tail", 7)


@row
def a_frame_with_the_ordinary_tail(given):
    yield from one_frame(given, 70)


@row
def a_frame_for_the_data_socket(given):
    yield from one_frame(given, 7, "--ptt-tail", 7, "--ptt-data", keying="T 3")


@row
def many_frames_of_a_host(given):
    tail = 7
    rig, line, run = with_run(given, "--ptt-tail", tail)
    yield rig, run
    run.until_ready()
    run.queue(EAGER, *(frame(number) for number in range(30)))
    run.until_sound()
    run.until_rest(tail)
    keyed_exactly(run, tail)
    alternate(line)
    sent = transmissions(run.sounds)
    assert len(sent) >= 4, f"{len(sent)} transmissions"
    for (_, last), (first, _) in zip(sent, sent[1:]):
        assert first - last > tail, "sound within a tail"
        released = [tick for tick, _, octets in line.answers if b"RPRT 0" in octets and last + tail < tick <= first]
        assert released, "a transmission before the release was accepted"
    assert run.end() == 0


@row
def rigctld_comes_late(given):
    rig, line, run = with_run(given, "--ptt-tail", 7, started=False)
    yield rig, run
    run.queue(EAGER, frame())
    run.steps(300)
    silent(run)
    told(run, "ptt lost connect")
    rig.start()
    line.open()
    run.until_sound()
    run.until_rest(7)
    told(run, "ptt lost connect", "ptt ready")
    assert len(transmissions(run.sounds)) == 1
    alternate(line)
    assert run.end() == 0 and rig.state() == 0


@row
def rigctld_is_killed_while_keyed(given):
    rig, line, run = with_run(given, "--ptt-tail", 7)
    yield rig, run
    run.until_ready()
    run.queue(EAGER, frame(size=200))
    run.until_sound()
    assert rig.state() == 1
    rig.kill()
    line.shut()
    run.steps(20)
    assert "ptt lost ended" in run.report()
    before = len(line.commands)
    rig.start()
    line.open()
    run.until("ready again", lambda: run.report().count("ptt ready") == 2)
    assert line.commands[before][2] == "T 0", "the new one is told something else first"
    run.until_rest(7)
    run.queue(frame())
    run.until_sound()
    assert rig.state() == 1
    run.until_rest(7)
    alternate(line)
    assert run.end() == 0 and rig.state() == 0


def stopped(given, keyed):
    rig, line, run = with_run(given, "--ptt-tail", 7)
    yield rig, run
    run.until_ready()
    run.queue(EAGER, frame(size=200))
    if keyed:
        run.until_sound()
    else:
        run.until_sound()
        run.until_rest(7)
    rig.stop()
    if not keyed:
        # a keying command that has no answer
        run.queue(frame(1))
    run.until("silent", lambda: "ptt lost silent" in run.report(), 800)
    lost = run.tick
    run.until_rest(7)
    run.queue(frame(2))
    run.steps(150)
    assert not any(run.sounds[-140:]), "it begins without a key"
    rig.go_on()
    run.until("ready again", lambda: run.report()[-1] == "ptt ready", 800)
    run.until_sound()
    run.until_rest(7)
    assert any(run.sounds[lost:])
    alternate(line)
    assert run.end() == 0 and rig.state() == 0


@row
def rigctld_is_stopped_while_keyed(given):
    yield from stopped(given, True)


@row
def rigctld_is_stopped_at_rest(given):
    yield from stopped(given, False)


def refusing(given, why, *rig_words):
    rig, line, run = with_run(given, rig_words=rig_words)
    yield rig, run
    run.queue(EAGER, frame())
    run.steps(500)
    silent(run)
    told(run, f"ptt lost {why}")
    assert run.end() == 0


@row
def a_rig_without_a_key(given):
    yield from refusing(given, "refused 1", "-P", "NONE")


@row
def a_rigctld_with_a_password(given):
    yield from refusing(given, "refused 19", "-P", "RIG", "-A", "word")


@row
def a_rigctld_that_answers_in_full(given):
    yield from refusing(given, "silent", "-P", "RIG", "-o")


@row
def an_interface_that_is_not_there(given):
    yield from refusing(given, "silent", "-P", "CM108", "-p", "/dev/hidraw99")


def fake(given, answer, *lines, sounds=None):
    _, line, run = with_run(given, "--ptt-tail", 7, rig=False, answer=answer)
    yield None, run
    run.queue(EAGER, frame(), frame(1))
    run.steps(600)
    alternate(line)
    told(run, *lines)
    assert sounds is None or sounds == bool(transmissions(run.sounds)), f"sound {transmissions(run.sounds)}"
    run.end()


@row
def answers_in_single_octets(given):
    yield from fake(given, lambda count, text: [b"R", b"PRT", b" ", b"0", b"\n"], "ptt ready", sounds=True)


@row
def an_answer_that_comes_twice(given):
    """Each connection is ready, and is lost by the second answer. It is made anew at once, since a line that was ready may
    have left the key on."""
    _, line, run = with_run(given, "--ptt-tail", 7, rig=False, answer=lambda count, text: [b"RPRT 0\nRPRT 0\n"])
    yield None, run
    run.queue(EAGER, frame(), frame(1))
    run.steps(300)
    silent(run)
    alternate(line)
    got = run.report()
    assert set(got[::2]) == {"ptt ready"} and set(got[1::2]) == {"ptt lost answer"}, f"told {got[:6]}"
    run.end()


@row
def an_answer_with_no_line_feed(given):
    yield from fake(given, lambda count, text: [b"RPRT 0"], "ptt lost silent", sounds=False)


@row
def an_answer_of_10000_octets(given):
    yield from fake(given, lambda count, text: [b"x" * 10000], "ptt lost answer", sounds=False)


@row
def a_connection_that_ends_at_once(given):
    yield from fake(given, lambda count, text: [None], "ptt lost ended", sounds=False)


@row
def a_keying_command_that_is_refused(given):
    def answer(count, text):
        return [b"RPRT 0\n" if text == "T 0" else b"RPRT -9\n"]

    _, line, run = with_run(given, "--ptt-tail", 7, rig=False, answer=answer)
    yield None, run
    run.until_ready()
    run.queue(EAGER, frame(size=200))
    run.until("refused", lambda: "ptt lost refused 9" in run.report())
    run.steps(300)
    alternate(line)
    run.end()


def ends(given, how, status, *more):
    """The run ends while it is keyed, in a way. The rig is released, and at once if it was the output that ended."""
    rig, line, run = with_run(given, "--ptt-tail", 70, *more)
    yield rig, run
    run.until_ready()
    run.queue(EAGER, frame(size=200))
    run.until_sound()
    assert rig.state() == 1
    got = how(rig, run)
    assert got in status, f"status {got}: {run.report()}"
    assert rig.state() == 0, "the rig stays keyed"
    alternate(line)


@row
def the_input_ends_while_keyed(given):
    yield from ends(given, lambda rig, run: run.end(), (0,))


@row
def the_output_is_closed_while_keyed(given):
    def close(rig, run):
        run.program.stdout.close()
        for _ in range(5):
            run.program.stdin.write(SILENCE)
            run.waits(0.01)
        assert rig.state() == 0, "the rig stays keyed after the output has ended"
        return run.end()

    yield from ends(given, close, (5,))


@row
def the_end_of_a_group_with_the_trap(given):
    rig, line, run = with_run(given, "--ptt-tail", 7, wrap="trap '' INT TERM; exec {}")
    yield rig, run
    run.until_ready()
    run.queue(EAGER, frame(size=200))
    run.until_sound()
    assert rig.state() == 1
    os.killpg(run.program.pid, signal.SIGTERM)
    run.steps(2)
    status = run.end()
    assert status == 0, f"status {status}"
    assert rig.state() == 0, "the rig stays keyed"


@row
def memory_is_refused(given):
    from refusing import Refusing

    refuse = Refusing(given.tnc)
    for _ in range(10):
        call = random.randrange(200, 3000)
        try:
            rig, line, run = with_run(given, "--ptt-tail", 70, env=refuse.surroundings("memory", f"{call}+"))
        except RuntimeError:
            continue  # it has ended before it opened its ports
        yield rig, run
        try:
            run.queue(EAGER, *(frame(number, 200) for number in range(20)))
            run.steps(800)
            run.end()
        except (RuntimeError, BrokenPipeError):
            run.ended()
        assert rig.state() == 0, f"the rig stays keyed after call {call}"
        alternate(line)


@row
def no_sound_for_three_seconds_while_keyed(given):
    rig, line, run = with_run(given, "--ptt-tail", 7)
    yield rig, run
    run.until_ready()
    run.queue(EAGER, frame(size=200), frame(1, 200))
    run.until_sound()
    assert rig.state() == 1
    began = time.monotonic()
    while rig.state() == 1 and time.monotonic() - began < 4:
        run.waits(0.01)
    took = time.monotonic() - began
    assert 1.8 <= took <= 2.6, f"released after {took:.2f} s"
    told(run, "ptt ready", "ptt off sound")
    run.waits(1)
    run.began = time.monotonic() - run.tick * PACE
    run.until_rest(7)
    run.queue(frame(2))
    run.until_sound()
    assert rig.state() == 1
    run.until_rest(7)
    assert run.end() == 0 and rig.state() == 0


@row
def a_host_that_never_stops_long(given):
    rig, line, run = with_run(given, "--ptt-tail", 7)
    yield rig, run
    run.until_ready()
    run.queue(EAGER, FULL)
    number = 0
    while run.tick < LIMIT + 800 and "ptt off limit" not in run.report():
        if run.tick % 20 == 0:
            run.queue(frame(number, 200))
            number += 1
        run.step()
    assert "ptt off limit" in run.report(), f"no limit: {[line for line in run.report() if line.startswith('ptt')]}"
    assert rig.state() == 0
    on = [it for it in line.commands if it[2] == "T 1"][-1][0]
    off = [it for it in line.commands if it[2] == "T 0"][-1][0]
    assert off - on == LIMIT, f"on for {off - on} ticks"


@row
def without_the_option(given):
    """No connection, and the same samples and lines as those of another program."""
    outputs = []
    for program in filter(None, (given.tnc, given.before)):
        rig, line, run = with_run(argparse.Namespace(tnc=program), "--monitor", key=False)
        yield rig, run
        run.queue(EAGER, *(frame(number) for number in range(10)))
        run.steps(600)
        assert line.connection == 0, "a connection without the option"
        assert any(run.sounds)
        assert run.end() == 0
        first = run.sounds.index(True) * TICK
        outputs.append((run.output[first:].rstrip(b"\0"), run.report()))
    assert all(it == outputs[0] for it in outputs), "other samples or lines than before"


def tried(given, function):
    """Tries a row. Answers what is wrong."""
    made = []
    try:
        for pair in function(given):
            made.append(pair)
    except Exception as fault:  # a row that fails in any way is told, and the next one is tried
        return f"{type(fault).__name__}: {fault}"
    finally:
        for rig, run in made:
            run.kill()
            run.line.shut()
            if rig:
                rig.kill()
    return ""


def main():
    words = argparse.ArgumentParser(description=__doc__.splitlines()[0])
    words.add_argument("--tnc", default="bin/tnc")
    words.add_argument("--before", default="")
    words.add_argument("--only", default="")
    words.add_argument("--long", action="store_true")
    given = words.parse_args()
    if not are_there():
        print("rigctld or rigctl is not installed")
        return 77
    wrong = 0
    for function in ROWS:
        name = function.__name__
        if given.only not in name or (name.endswith("_long") and not given.long):
            continue
        began = time.monotonic()
        fault = tried(given, function)
        wrong += bool(fault)
        print(f"{name}: {'WRONG, ' + fault[:300] if fault else 'well'}, {time.monotonic() - began:.1f} s", flush=True)
    return 1 if wrong else 0


if __name__ == "__main__":
    sys.exit(main())
