"""A device that hands frames to a sender, by pin: what it hands over is laid on the line bit by bit. The two below drive the line: the one of
pinned.py over the library, the one of bitbanged.py by itself."""

import heapq
import os
import sys

sys.path.insert(0, os.path.join(os.path.dirname(os.path.realpath(__file__)), "../../examples/suite"))
from dut import Dut  # noqa: E402

NEVER = float("inf")
BROADCAST = 15


class ByPin(Dut):
    """Frames of `inner` wait in `queue`, and it acknowledges to `held`. An interrupt of the pin comes `latency` microseconds after its edge, with
    the level from there on: they wait in `interrupts`. A class below has `renew`, which makes its receiver and sender new, `due`, the instant
    at which it has something to do, and `step`, which does what is due."""

    by_pin = True

    def __init__(self, inner, latency):
        super().__init__()
        self.inner, self.latency = inner, latency

    def begin(self):
        """It has its power, or another place."""
        self.interrupts, self.queue, self.tried, self.held = [], [], 0, []
        self.renew()

    def say(self, what):
        """Says a line to the device, and notes what it asks for."""
        verb, _, rest = what.partition(" ")
        for line in self.inner.answer("%s %d%s" % (verb, self.now, " " + rest if rest else ""))[:-1]:
            _, after, *words = line.split(" ")
            heapq.heappush(self.asked, (self.now + int(after), self.count, words))
            self.count += 1

    def do(self, words):
        """Does what the device has asked for, for now."""
        if words[0] == "send":
            self.queue.append(bytes.fromhex(words[1]))
        elif words[0] == "hold":
            self.held = [int(address, 16) for address in words[1].replace("-", "").split("+") if address]
        elif words[0] == "drop":
            self.queue = self.queue[:1] if self.is_sending() else []
        else:
            self.say("wake")

    def report(self, verb, frame, is_high):
        """Says that a frame was on the line: `frame` of another device, `sent` of its own; whether the last acknowledge was high."""
        verdict = ("ok" if is_high else "refused") if frame[0] % 16 == BROADCAST else ("nack" if is_high else "ack")
        self.say("%s %x>%x %s %s" % (verb, frame[0] >> 4, frame[0] & 15, frame.hex(), verdict))

    def wake(self):
        self.step()
        while self.asked and self.asked[0][0] <= self.now:
            self.do(heapq.heappop(self.asked)[2])
        self.step()

    def answer(self, line):
        verb, time, *rest = line.split(" ")
        self.now, self.actions = int(time), []
        if verb == "start":
            self.actions.append("by pin")
            self.asked, self.count, self.woken_at = [], 0, NEVER
            self.begin()
            self.say("start " + rest[0])
        elif verb == "address":
            self.begin()
            self.asked = sorted(asked for asked in self.asked if asked[2] == ["wake"])
            self.say("address " + rest[0])
        elif verb == "line":
            self.interrupts.append((self.now + self.latency, rest[0] == "0"))
        elif verb == "wake":
            self.wake()
        elif verb in ("press", "release"):
            self.say(" ".join([verb] + rest))
        due = max(self.now + 1, min(self.due(), self.interrupts[0][0] if self.interrupts else NEVER, self.asked[0][0] if self.asked else NEVER))
        if self.woken_at <= self.now:
            self.woken_at = NEVER
        if due < self.woken_at:
            self.woken_at = due
            self.wake_up(due - self.now)
        return self.actions + ["idle"]
