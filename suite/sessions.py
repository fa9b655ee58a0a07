"""What tools/suite drives: a room, which is a session of `hdminet live`, and the device under test, which is a program."""

import os
import select
import subprocess
import time

# What a device may write in one answer, and how long it may take to end by itself, in seconds.
MOST_ACTIONS = 64
GRACE = 5.0
# The lines of a session itself, which no script has.
OWN = ("run", "wait", "show", "edge")
# How many lines are sent before their answers are read: fewer than fill a pipe.
FED_AT_ONCE = 200


class Fault(Exception):
    """The device has broken the protocol, or a line of a test can't be said of it."""


class Refused(Exception):
    """The command line or a test is refused."""


class Frames:
    """The texts of frames and their bytes, by `hdminet asm` and `hdminet dis`. Each is asked once."""

    def __init__(self, program):
        self.program = program
        self.bytes, self.texts = {}, {}

    def ask(self, word, line):
        ran = subprocess.run([self.program, word], input=line + "\n", capture_output=True, text=True)
        if ran.returncode != 0:
            raise Fault("no frame: %s" % line)
        return ran.stdout.rstrip("\n")

    def hex_of(self, text):
        if text not in self.bytes:
            self.bytes[text] = self.ask("asm", text)
        return self.bytes[text]

    def text_of(self, hex_bytes):
        if hex_bytes not in self.texts:
            # The remark of `dis` begins at the last ` # ` after the text in quotes.
            spelled = self.ask("dis", hex_bytes)
            quoted = spelled.rfind('"') + 1
            self.texts[hex_bytes] = spelled[:quoted] + spelled[quoted:].split(" # ")[0]
        return self.texts[hex_bytes]


class Room:
    """A session of `hdminet live`, which can be taken back to what it was before its last line."""

    def __init__(self, program, topology):
        self.program, self.topology = program, topology
        self.script, self.trace, self.now = [], [], 0
        self.live = self.opened()

    def opened(self):
        live = subprocess.Popen([self.program, "live"], stdin=subprocess.PIPE, stdout=subprocess.PIPE, stderr=subprocess.PIPE)
        live.stdin.write((self.topology + "script\n").encode())
        return live

    def close(self):
        if self.live.poll() is None:
            self.live.kill()
        self.live.communicate()

    def answer(self):
        told: list[str] = []
        while True:
            got = self.live.stdout.readline().decode()
            if not got:
                raise Refused("the session is over: %s" % self.live.stderr.read().decode().strip())
            if got[0] in "=!":
                return told, got.rstrip("\n")
            told.append(got)

    def ask(self, line):
        """Sends a line. Returns what is told for it, and the answer."""
        self.live.stdin.write((line + "\n").encode())
        self.live.stdin.flush()
        told, answer = self.answer()
        self.script.append("" if line.split(" ")[0] in OWN or answer[0] == "!" else line)
        self.trace += [line for line in told if line[0] != "~"]
        return told, answer

    def wait(self):
        """Goes on by a turn. Returns what is told, the horizon after it, and whether nothing comes."""
        told, answer = self.ask("wait")
        return told, int(answer.split()[1]), answer.endswith(" idle")

    def edge(self, until):
        """Goes on to the next edge, event or close, at most to an instant. Returns what is told."""
        told, answer = self.ask("edge %d" % until)
        self.now = int(answer.split()[1])
        return told

    def take_back(self, told):
        """Takes the last `wait` back, which told this."""
        self.begin_anew()
        self.forget(told)

    def change(self, number, line):
        """Sends another line in the place of an earlier one, which says the same of all that comes before the horizon."""
        self.script[number - 1] = line
        self.begin_anew()

    def begin_anew(self):
        """The session begins anew, and goes to the horizon."""
        self.close()
        self.live = self.opened()
        lines = self.script + ["run to %d" % self.now]
        for at in range(0, len(lines), FED_AT_ONCE):
            fed = lines[at:at + FED_AT_ONCE]
            self.live.stdin.write("".join(line + "\n" for line in fed).encode())
            self.live.stdin.flush()
            for _ in fed:
                self.answer()
        self.script.append("")

    def forget(self, told):
        del self.trace[len(self.trace) - len(told):]


class Program:
    """A device under test as a co-process: a line is written, and lines are read up to `idle`."""

    def __init__(self, command, limit):
        self.limit = limit
        self.ran = subprocess.Popen(command, stdin=subprocess.PIPE, stdout=subprocess.PIPE)
        self.rest = b""

    def line(self, until):
        while b"\n" not in self.rest:
            left = until - time.monotonic()
            if left <= 0 or not select.select([self.ran.stdout], [], [], left)[0]:
                raise Fault("no answer in %g seconds" % self.limit)
            got = os.read(self.ran.stdout.fileno(), 65536)
            if not got:
                raise Fault("its output has ended")
            self.rest += got
            if len(self.rest) > 65536:
                raise Fault("a line of more than 65536 bytes")
        line, self.rest = self.rest.split(b"\n", 1)
        # A serial line ends in CR LF.
        return line.removesuffix(b"\r").decode("utf-8", "replace")

    def ask(self, line):
        """Writes a line. Returns the lines of the answer, without `idle`."""
        until = time.monotonic() + self.limit
        if self.rest or select.select([self.ran.stdout], [], [], 0)[0]:
            # A line, or the end of its output.
            raise Fault("a line before its turn: %s" % self.line(until)[:100])
        try:
            self.ran.stdin.write((line + "\n").encode())
            self.ran.stdin.flush()
        except OSError:
            raise Fault("its input is closed") from None
        answer: list[str] = []
        while True:
            got = self.line(until)
            if got == "idle":
                return answer
            answer.append(got)
            if len(answer) > MOST_ACTIONS:
                raise Fault("more than %d lines in one answer" % MOST_ACTIONS)

    def close(self):
        """Ends the program: its input is closed, and it has some seconds to end by itself."""
        try:
            self.ran.stdin.close()
        except OSError:
            pass
        try:
            self.ran.wait(min(self.limit, GRACE))
        except subprocess.TimeoutExpired:
            self.ran.kill()
            self.ran.wait()
        self.ran.stdout.close()


class Devices:
    """Starts the device under test anew for each test, or once for all."""

    def __init__(self, command, limit, is_once):
        self.command, self.limit, self.is_once, self.device = command, limit, is_once, None

    def take(self):
        if self.device is None:
            try:
                self.device = Program(self.command, self.limit)
            except OSError as error:
                raise Refused("%s: %s" % (self.command[0], error.strerror)) from None
        return self.device

    def give_back(self, is_broken):
        if is_broken or not self.is_once:
            self.close()

    def close(self):
        if self.device is not None:
            self.device.close()
            self.device = None
