"""A room that a program drives: `hdminet live` as a co-process, and the rounds of its trace."""

import os
import subprocess
import sys

# A television, a player, and a seat for a device under test.
WITH_SEAT = """\
device tv tv 2
device p1 player 0
device dut outside 0
plug p1 tv 1
plug dut tv 2
"""


class Stopped(Exception):
    """A driver can't go on: its message says why."""


def drive(main, *words):
    """Runs a driver, `main`, over the words of its command line, the last of which may be left away where it stands in brackets. The status is
    0 where `main` returns that all is right, else 1; and 2, after a message, where there are other words, or the driver can't go on."""
    given = sys.argv[1:]
    try:
        if not len(words) - words[-1].startswith("[") <= len(given) <= len(words):
            raise Stopped("usage: %s %s" % (sys.argv[0], " ".join(words)))
        sys.exit(not main(*given))
    except (Stopped, OSError) as fault:
        print("%s: %s" % (os.path.basename(sys.argv[0]), fault), file=sys.stderr)
        sys.exit(2)


class Room:
    """An emulated room that is driven line by line."""

    def __init__(self, program, topology):
        self.program = program
        self.topology = topology
        self.script = []
        self.trace = []
        self.live = subprocess.Popen([program, "live"], stdin=subprocess.PIPE, stdout=subprocess.PIPE)
        self.send(topology + "script\n")

    def send(self, text):
        try:
            self.live.stdin.write(text.encode())
            self.live.stdin.flush()
        except OSError:
            raise self.over() from None

    def over(self):
        """The fault of a session that ended before its driver."""
        try:
            self.live.stdin.close()
        except OSError:
            # What was not taken is given up.
            pass
        return Stopped("the session is over: %s ended with status %d" % (self.program, self.live.wait()))

    def ask(self, line):
        """Sends a line. Returns the lines of the trace that came for it, with the edges among them, and the answer."""
        self.send(line + "\n")
        told = []
        while True:
            got = self.live.stdout.readline().decode()
            if not got:
                raise self.over()
            if got[0] in "=!":
                break
            told.append(got)
        is_own = line.split(" ")[0] in ("run", "wait", "show", "edge", "edges", "seats")
        self.script.append("" if is_own or got[0] == "!" else line)
        self.trace += [line for line in told if line[0] not in "~*"]
        return told, got.rstrip("\n")

    def is_of_run(self):
        """Whether `hdminet run` writes this trace of the lines that were taken."""
        lines = [self.topology + "script"] + self.script
        ran = subprocess.run([self.program, "run"], input="".join(line + "\n" for line in lines).encode(), stdout=subprocess.PIPE)
        return ran.stdout.decode() == "".join(self.trace)


class Round:
    """What a line of a trace says of a frame that was read whole."""

    def __init__(self, line):
        front, ends = line.rstrip("\n").split(" by ", 1)
        words = front.split(" ")
        self.begin, self.close = int(words[0]), int(words[1])
        self.text, self.verdict = " ".join(words[3:-1]), words[-1]
        self.senders = ends.split(" out ")[0].split(",")


def rounds(told):
    """The frames among the lines of a trace."""
    return [Round(line) for line in told if line.split(" ")[2] == "complete"]
