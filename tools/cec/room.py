"""A room of `hdminet live` with seats for programs from outside.

A `Seat` is a device of the kind `outside` (or `outside-tv`). It hands in one frame at a time, tells how each of them ended, and tells
each frame of another device. The room goes on by the wall clock, or as its user says."""

import collections
import json
import subprocess
import time
from collections.abc import Callable
from typing import Any

from linux_cec import INVALID_PHYSICAL, TX_ARB_LOST, TX_ERROR, TX_LOW_DRIVE, TX_NACK, TX_OK

# A sender that stops in these first bits of a frame has lost the arbitration (CEC 9).
INITIATOR_BITS = 4
BITS_OF_A_BLOCK = 10
# The lines of a session itself, which no script has.
OWN_LINES = ("run", "wait", "show", "edge", "edges", "seats")
# Where a device is plugged in, before that was asked.
UNKNOWN = ""


class Refused(Exception):
    """The room, or what is asked of it, is refused."""


def read_room(path, seats):
    """The topology and the lines of the script of a room. The devices named by `seats` become devices from outside."""
    topology, script, found, in_script = [], [], set(), False
    with open(path, encoding="utf-8") as file:
        for line in file.read().splitlines():
            words = line.split(" ")
            if line == "script":
                in_script = True
            elif in_script:
                if line and not line.startswith("#") and words[0] not in ("end", "expect"):
                    script.append(line)
            else:
                if words[0] == "device" and len(words) > 2 and words[1] in seats:
                    words[2] = "outside-tv" if words[2] in ("tv", "outside-tv") else "outside"
                    found.add(words[1])
                    line = " ".join(words)
                topology.append(line)
    missing = [name for name in seats if name not in found]
    if missing:
        raise Refused("no device %s in %s" % (", ".join(missing), path))
    return topology, script


class Room:
    """A session of `hdminet live --json`, with the script that comes about."""

    def __init__(self, program, topology, script=()):
        self.program, self.topology = program, topology
        self.script, self.trace, self.labels = [], [], {}
        # The next microsecond that is open, and the lines of the room's own script that are still to come.
        self.horizon, self.waiting = 0, collections.deque(script)
        self.seats = {}
        # Who is told each edge; the EDID of each port; where each device is plugged in.
        self.edge_listeners, self.edids, self.parents = [], {}, {}
        for line in topology:
            if line.startswith("plug ") and len(line.split(" ")) == 4:
                _, child, parent, port = line.split(" ")
                self.parents[child] = (parent, int(port))
        self.live = subprocess.Popen([program, "live", "--json", "--explain"], stdin=subprocess.PIPE, stdout=subprocess.PIPE, bufsize=0)
        self.unread = b""
        self.write("".join(line + "\n" for line in topology) + "script\n")
        self.ask("seats on")

    def write(self, text):
        try:
            self.live.stdin.write(text.encode())
        except OSError:
            raise Refused("hdminet live has ended") from None

    def read(self):
        """The next object that the session writes."""
        while b"\n" not in self.unread:
            more = self.live.stdout.read(65536)
            if not more:
                raise Refused("hdminet live has ended, with status %s" % self.live.wait())
            self.unread += more
        line, self.unread = self.unread.split(b"\n", 1)
        return json.loads(line)

    def ask(self, line, label=None):
        """Sends a line. Tells what comes before its answer, and returns the answer."""
        self.write(line + "\n")
        told = []
        while True:
            answer = self.read()
            if answer["line"][0] in "=!":
                break
            told.append(answer)
        words = line.split(" ")
        is_refused = answer["line"][0] == "!"
        self.script.append("" if words[0] in OWN_LINES or is_refused else line)
        if label and not is_refused:
            self.labels[len(self.script)] = label
        if words[0] == "at" and words[2] in ("plug", "unplug") and not is_refused:
            self.parents[words[3]] = (words[4], int(words[5])) if words[2] == "plug" else None
        if answer["type"] == "horizon":
            self.horizon = answer["at"]
        # Who is told may send at once, at the horizon.
        for each in told:
            self.tell(each)
        return answer

    def tell(self, told):
        if told["type"] == "edge":
            for listener in list(self.edge_listeners):
                listener(told["at"], told["level"])
            return
        if told["line"][0] != "*":
            self.trace.append(told["line"])
        if told["type"] == "port":
            self.edids[told["device"], told["port"]] = bytes.fromhex(told["edid"])
        for seat in self.seats.values():
            seat.hear(told)

    def event(self, words, label=None):
        """An event at the horizon."""
        return self.ask("at %d %s" % (self.horizon, words), label)

    def hand_in(self, name, frame, attempts):
        """A device sends a frame, with so many attempts in all."""
        return self.event("send %s attempts %d hex %s" % (name, attempts, frame.hex()))

    def go(self, until):
        """Goes on up to an instant, with the lines of the room's own script at their times."""
        while self.waiting and int(self.waiting[0].split(" ")[1]) <= until:
            at = int(self.waiting[0].split(" ")[1])
            while self.horizon < at:
                self.step(at)
            self.ask(self.waiting.popleft())
        while self.horizon < until:
            self.step(until)

    def step(self, until):
        """Goes on to where one more event or round is over, at most to an instant."""
        self.ask("wait %d" % until)
        for seat in self.seats.values():
            seat.settle()

    def end(self):
        """Ends the session at the horizon, and takes the rest of the trace."""
        if self.live.poll() is None:
            try:
                self.write("end %d\n" % (self.horizon + 1))
                self.live.stdin.close()
                rest = self.unread + self.live.stdout.read()
                self.trace += [told["line"] for told in map(json.loads, rest.splitlines()) if told["line"][0] not in "=*"]
            except (Refused, OSError, ValueError):
                self.live.kill()
        self.live.wait()
        self.live.stdout.close()

    def text(self, expectations=()):
        """The room and the script that came about: `hdminet run` writes the session's trace of it. With expectations the labels stand too."""
        lines = self.script
        if expectations:
            lines = [("label %s " % self.labels[number] if number in self.labels else "") + line for number, line in enumerate(lines, 1)]
        return "\n".join([*self.topology, "script", *lines, *expectations, "end %d" % (self.horizon + 1)]) + "\n"


class Clock:
    """The time of the programs: the room's own, or the wall clock's, by which the room goes on."""

    # In the room's time a session begins at these instants, so that each has the same trace: CLOCK_MONOTONIC and CLOCK_REALTIME, in seconds.
    MONOTONIC, REALTIME = 1_000, 1_800_000_000

    def __init__(self, room, by_wall):
        self.room, self.by_wall = room, by_wall
        self.began, self.base = float(self.MONOTONIC), 0

    def start(self, settled):
        """The devices of the room have had `settled` microseconds to find their addresses; now the programs begin."""
        self.room.go(settled)
        if self.by_wall:
            self.began, self.base = time.monotonic(), settled

    def now(self):
        """The programs' CLOCK_MONOTONIC, in seconds."""
        return time.monotonic() if self.by_wall else self.began + self.room.horizon / 1e6

    def nanoseconds(self, instant):
        """CLOCK_MONOTONIC of an instant of the room."""
        return int(self.began * 1e9) + (instant - self.base) * 1000

    def instant(self, seconds):
        """The room's instant at which CLOCK_MONOTONIC is this."""
        return self.base + round((seconds - self.began) * 1e6)

    def advance(self):
        """By the wall clock, the room goes on to now."""
        if self.by_wall:
            self.room.go(self.instant(time.monotonic()))


class Sending:
    """A frame on its way: how many attempts it has, how many of them are left, and how those that failed did."""

    def __init__(self, frame, attempts, tag):
        self.frame, self.attempts, self.left, self.tag, self.line = bytes(frame), attempts, attempts, tag, 0
        self.failed = {TX_ARB_LOST: 0, TX_NACK: 0, TX_LOW_DRIVE: 0, TX_ERROR: 0}


class Seat:
    """A device from outside. Its user sets `on_sent(tag, status, failed, at)`, `on_frame(round)` and `on_place(physical)`."""

    def __init__(self, room, name):
        self.room, self.name = room, name
        self.queue: collections.deque[Sending] = collections.deque()
        self.sending: Sending | None = None
        # Where it is plugged in, once that is known, and what its user was told.
        self.place: str | None = UNKNOWN
        self.physical = INVALID_PHYSICAL
        self.on_sent: Callable[[Any, int, dict, int], None] = lambda *_: None
        self.on_frame: Callable[[dict], None] = lambda *_: None
        self.on_place: Callable[[int], None] = lambda *_: None
        room.seats[name] = self

    def hold(self, addresses):
        self.room.event("hold %s %s" % (self.name, "+".join("%x" % each for each in addresses) or "-"))

    def send(self, frame, attempts, tag):
        self.queue.append(Sending(frame, attempts, tag))
        self.next()

    def next(self):
        if self.sending is None and self.queue:
            self.sending = self.queue.popleft()
            self.hand()

    def hand(self):
        self.sending.line = len(self.room.script) + 1
        if self.room.hand_in(self.name, self.sending.frame, self.sending.attempts)["type"] == "refusal":
            self.done(TX_ERROR, self.room.horizon)

    def done(self, status, at):
        over, self.sending = self.sending, None
        self.on_sent(over.tag, status, over.failed, at)

    def hear(self, told):
        if told["type"] == "event":
            if told["cause"] and self.sending and told["script_line"] == self.sending.line:
                self.done(TX_ERROR, told["at"])
        elif told["type"] == "moved":
            if told["device"] == self.name:
                self.place = told["physical_address"]
        elif told["type"] == "round":
            self.hear_round(told)

    def hear_round(self, told):
        is_own, is_complete = self.name in told["by"], told["ending"] == "complete"
        stopped = next((out["slot"] for out in told["out"] if out["device"] == self.name), None)
        if is_complete and not is_own:
            self.on_frame(told)
        if not self.sending or not (is_own or stopped is not None):
            return
        if is_own and is_complete and told["verdict"] in ("ack", "ok"):
            self.done(TX_OK, told["close"])
        else:
            self.attempt_failed(self.why_failed(told, is_own, stopped), told["close"])

    def why_failed(self, told, is_own, stopped):
        """Why an attempt failed: a block that nobody took, the arbitration that is lost, or a line that another one held low."""
        if is_own and told["ending"] == "complete" or stopped and stopped % BITS_OF_A_BLOCK == 0 and told["ending"] == "silent":
            return TX_NACK
        if stopped is not None and stopped <= INITIATOR_BITS:
            return TX_ARB_LOST
        return TX_LOW_DRIVE

    def attempt_failed(self, why, at):
        sending = self.sending
        sending.failed[why] += 1
        sending.left -= 1
        if not sending.left:
            self.done(why, at)

    def settle(self):
        """After a step: what can't be said while the session answers."""
        self.look()
        self.next()

    def look(self):
        """Tells the device where it is plugged in, where that is new. At first it asks."""
        if self.place is UNKNOWN:
            self.place = self.room.ask("show " + self.name)["physical_address"]
        physical = INVALID_PHYSICAL if self.place in (None, "f.f.f.f") else int(self.place.replace(".", ""), 16)
        if physical != self.physical:
            self.physical = physical
            self.on_place(physical)
