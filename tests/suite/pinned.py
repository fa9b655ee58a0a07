#!/usr/bin/env python3
"""pinned.py LATENCY: the device of examples/suite/reference.py by pin, over the receiver and the sender of the library's Python
module (PYTHONPATH, HDMINET_LIBRARY). An interrupt of the pin comes LATENCY microseconds after its edge. It is examples/c/pin.c for
devices of every kind."""

import sys

from by_pin import NEVER, ByPin
from hdminet import Receiver, Sender
from reference import Reference

BIT, ZERO, TOO_EARLY = 2400, 1500, 3600
FREE_AGAIN, FREE_NEW, FREE_NEXT = 3, 5, 7
ATTEMPTS = 6


class Pinned(ByPin):
    def renew(self):
        # What it is told of the line is what its interrupts tell, late as they are, so a slot is sampled where it should be.
        self.receiver, self.is_low = Receiver(), False
        self.heard_at, self.free, self.sender, self.pulls_at = self.now, FREE_NEW, None, NEVER

    def is_sending(self):
        return self.sender is not None

    def begins_at(self):
        is_low = self.interrupts[-1][1] if self.interrupts else self.is_low
        if not self.queue or self.sender or self.receiver.state.place or self.receiver.state.is_low or is_low:
            return NEVER
        return self.heard_at + self.free * BIT

    def wakes_at(self):
        wake = self.receiver.wakes_at()
        return NEVER if wake is None else wake

    def due(self):
        return min(self.wakes_at(), self.begins_at(), self.pulls_at)

    def transmit(self):
        self.sender = self.sender or Sender(self.queue[0], self.now)
        self.pulls_at = NEVER
        if self.sender.pulls(self.now):
            rise = self.sender.next_change(self.now)
            self.pull(rise - self.now)
            fall = self.sender.next_change(rise)
            self.pulls_at = NEVER if fall is None else fall

    def attempt_over(self, fate, reading):
        """What became of an attempt."""
        is_over = fate == "delivered" or (len(self.queue[0]) == 1 and reading.ending == "complete")
        self.sender, self.pulls_at = None, NEVER
        self.free = FREE_NEXT if is_over else FREE_AGAIN
        self.tried += 1
        if is_over or self.tried == ATTEMPTS:
            del self.queue[0]
            self.tried = 0
        if reading.ending == "complete":
            self.report("sent", reading.frame(), reading.bits[-1])
        else:
            self.say("failed")

    def is_to_acknowledge(self):
        """Whether the slot that has just begun is that of its acknowledge."""
        state = self.receiver.state
        if state.place != 3 or state.fall != self.now or state.count % 10 != 9 or self.sender and self.sender.is_sending():
            return False
        return sum(bit << 3 - at for at, bit in enumerate(state.bits[4:8])) in self.held

    def hear(self):
        if self.is_low != self.receiver.state.is_low:
            self.heard_at = self.now
        reading = self.receiver.hear(self.now, self.is_low)
        if self.sender:
            self.sender.hear(self.receiver.heard, self.now)
        if self.is_to_acknowledge():
            # It hears of the fall late, and lets the line go when it should.
            self.pull(ZERO - self.latency)
        if reading is not None:
            self.heard(reading)

    def heard(self, reading):
        """A reading is over."""
        fate = self.sender.fate(reading) if self.sender else "lost"
        if fate != "lost":
            self.attempt_over(fate, reading)
            return
        self.sender, self.pulls_at, self.free = None, NEVER, FREE_NEW
        if reading.ending == "short":
            self.pull(TOO_EARLY)
        if reading.ending == "complete":
            self.report("frame", reading.frame(), reading.bits[-1])

    def step(self):
        is_heard = self.wakes_at() <= self.now
        while self.interrupts and self.interrupts[0][0] <= self.now:
            self.is_low, is_heard = self.interrupts.pop(0)[1], True
        if is_heard:
            self.hear()
        if min(self.begins_at(), self.pulls_at) <= self.now:
            self.transmit()


if __name__ == "__main__":
    Pinned(Reference(), int(sys.argv[1])).serve()
