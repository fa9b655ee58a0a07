#!/usr/bin/env python3
"""bitbanged.py LATENCY [FAULT]: the device of examples/suite/reference.py, which drives its pin bit by bit, with a receiver and a sender of its
own, and perhaps one fault of the wire. An interrupt of its pin comes LATENCY microseconds after the edge. `--list` writes the faults, each
with the tests that it fails."""

import dataclasses
import sys

from by_pin import BROADCAST, NEVER, ByPin
from reference import Reference

BITS_OF_A_BLOCK, EOM_BIT, ACK_BIT = 10, 8, 9


@dataclasses.dataclass
class Timing:
    """What it goes by: CEC 5.2, 7.1, 7.4 and 9.1, in microseconds and periods. A fault is one of these that is wrong."""

    start_low: int = 3700
    start: int = 4500
    zero: int = 1500
    one: int = 600
    bit: int = 2400
    sample: int = 1050
    acknowledge: int = 1500
    too_early: int = 3600
    attempts: int = 6
    free_again: int = 3
    free_new: int = 5
    free_next: int = 7
    # How far into a frame it looks whether another one pulls the line, in bits; which block it acknowledges first, and whether
    # those of its own frames too.
    looks_for: float = NEVER
    first_block: int = 0
    takes_its_own: bool = False
    # What is still taken of others (CEC 5.2, with a margin).
    start_lows: tuple = (3300, 4100)
    starts: tuple = (4100, 4900)
    bits: tuple = (1950, 2850)
    longest_low: int = 2300


# Each fault, and the tests that it fails: first the one that is named after it.
FAULTS = {
    "samples-early": (Timing(sample=700), "wire-windows"),
    "samples-late": (Timing(sample=1400), "wire-windows"),
    "no-arbitration": (Timing(looks_for=-1), "wire-arbitration wire-collision"),
    "no-look-for-collisions": (Timing(looks_for=4), "wire-collision"),
    "no-repetition": (Timing(attempts=1), "wire-attempts"),
    "six-repetitions": (Timing(attempts=7), "wire-attempts"),
    "twenty-repetitions": (Timing(attempts=21), "wire-attempts"),
    "free-for-one": (Timing(free_again=1, free_new=1, free_next=1), "wire-free-times"),
    "free-for-three": (Timing(free_new=3, free_next=3), "wire-free-times"),
    "free-for-five": (Timing(free_again=5, free_next=5), "wire-free-times"),
    "new-and-present-exchanged": (Timing(free_new=7, free_next=5), "wire-free-times"),
    "short-start": (Timing(start_low=3300, start=4100), "wire-widths"),
    "short-periods": (Timing(bit=2000), "wire-widths"),
    "long-periods": (Timing(bit=2800), "wire-widths"),
    "long-one": (Timing(one=900), "wire-widths"),
    "long-zero": (Timing(zero=1850), "wire-widths"),
    "short-zero": (Timing(zero=1200), "wire-widths"),
    "long-acknowledge": (Timing(acknowledge=2000), "wire-widths"),
    "acknowledges-the-next-block": (Timing(first_block=1), "wire-blocks"),
    "acknowledges-its-own": (Timing(takes_its_own=True), "wire-others wire-attempts"),
    "no-low-drive": (Timing(too_early=0), "wire-low-drive"),
    "short-low-drive": (Timing(too_early=2000), "wire-low-drive"),
}


def bits_of(frame):
    """The bits of a frame as its sender pulls them: eight of data, whether it ends, and a 1 in which others acknowledge."""
    bits = []
    for at, byte in enumerate(frame):
        bits += [byte >> shift & 1 for shift in range(7, -1, -1)] + [int(at == len(frame) - 1), 1]
    return bits


class Sending:
    """A frame on its way: when it began, which of its bits comes next, and whether it still pulls."""

    def __init__(self, frame, at):
        self.frame, self.bits, self.began, self.at, self.is_on = frame, bits_of(frame), at, -1, True


class BitBanged(ByPin):
    def __init__(self, latency, timing, inner=None):
        super().__init__(inner or Reference(), latency)
        self.timing = timing

    def renew(self):
        self.is_low = False
        self.sending, self.pulls_at, self.free, self.rested_at = None, NEVER, self.timing.free_new, self.now
        self.listen()

    def is_sending(self):
        return self.sending is not None and self.sending.is_on

    # The receiver.

    def listen(self):
        """It waits for the next start bit."""
        self.fall, self.is_start, self.bits, self.samples_at, self.ends_at, self.is_passed = None, False, [], NEVER, NEVER, False

    def edge(self, is_low):
        if is_low == self.is_low:
            return
        self.is_low = is_low
        if is_low:
            self.falls()
        else:
            self.rested_at = self.now
            self.rises()

    def falls(self):
        since = None if self.fall is None else self.now - self.fall
        if since is None:
            self.fall, self.is_start, self.ends_at = self.now, True, self.now + self.timing.starts[1]
        elif self.is_start:
            if since < self.timing.starts[0]:
                self.error()
                return
            self.is_start = False
            self.begin_bit()
        elif since < self.timing.bits[0]:
            self.error()
            if not self.is_sending() and self.timing.too_early:
                self.pull(self.timing.too_early)
        else:
            self.begin_bit()

    def begin_bit(self):
        self.fall, self.samples_at, self.ends_at = self.now, self.now + self.timing.sample, self.now + self.timing.bits[1]
        if len(self.bits) % BITS_OF_A_BLOCK == ACK_BIT and self.is_to_acknowledge():
            # It hears of the fall late, and lets the line go when it should.
            self.pull(self.timing.acknowledge - self.latency)

    def is_to_acknowledge(self):
        to = self.value(0) & 15
        if self.is_sending():
            return self.timing.takes_its_own and self.held != [] and to != BROADCAST
        return to in self.held and len(self.bits) // BITS_OF_A_BLOCK >= self.timing.first_block

    def rises(self):
        if self.fall is None:
            return
        low = self.now - self.fall
        if self.is_start and not self.timing.start_lows[0] <= low <= self.timing.start_lows[1] or not self.is_start and low > self.timing.longest_low:
            self.error()

    def value(self, block):
        return int("".join(map(str, self.bits[10 * block:10 * block + 8])), 2)

    def error(self):
        """What comes is no frame."""
        if self.sending:
            self.attempt_over(False)
        else:
            self.free = self.timing.free_new
        self.listen()

    def sample(self):
        self.samples_at = NEVER
        bit = int(not self.is_low)
        self.bits.append(bit)
        at = len(self.bits) - 1
        if self.is_sending() and at % BITS_OF_A_BLOCK == ACK_BIT:
            is_refused = bit == int(self.value(0) & 15 != BROADCAST)
            if is_refused or self.bits[-2]:
                self.attempt_over(not is_refused, bit)
                self.listen()
                return
        elif self.is_sending() and at < self.timing.looks_for and bit != self.sending.bits[at]:
            self.gives_way()
        if len(self.bits) % BITS_OF_A_BLOCK == 0 and self.bits[-2]:
            self.whole_frame(bit)
            self.listen()

    def gives_way(self):
        """Somebody else pulls the line: it stops, and listens on."""
        self.sending.is_on, self.pulls_at = False, NEVER

    def frame(self):
        return bytes(self.value(block) for block in range(len(self.bits) // BITS_OF_A_BLOCK))

    def whole_frame(self, last):
        """A frame of another device is over."""
        self.sending, self.pulls_at, self.free = None, NEVER, self.timing.free_new
        self.report("frame", self.frame(), last)

    # The sender.

    def begins_at(self):
        if not self.queue or self.sending or self.fall is not None or self.is_low:
            return NEVER
        return self.rested_at + self.free * self.timing.bit

    def transmit(self):
        if self.sending is None:
            self.sending = Sending(self.queue[0], self.now)
        sending, timing = self.sending, self.timing
        if not sending.is_on:
            self.pulls_at = NEVER
            return
        is_start = sending.at < 0
        self.pull(timing.start_low if is_start else timing.one if sending.bits[sending.at] else timing.zero)
        sending.at += 1
        self.pulls_at = self.now + (timing.start if is_start else timing.bit) if sending.at < len(sending.bits) else NEVER

    def attempt_over(self, is_taken, last=None):
        """An attempt of the first frame is over: it was taken, or it comes again. Of one that was sent to its end `last` is the last acknowledge."""
        is_poll, was_on = len(self.queue[0]) == 1, self.is_sending()
        is_whole = last is not None and self.bits[-2]
        self.sending, self.pulls_at = None, NEVER
        if not was_on:
            # It has lost the line, which is no attempt.
            self.free = self.timing.free_new
            return
        self.tried += 1
        is_over = is_taken or is_poll
        self.free = self.timing.free_next if is_over else self.timing.free_again
        if is_over or self.tried >= self.timing.attempts:
            del self.queue[0]
            self.tried = 0
        if is_whole:
            self.report("sent", self.frame(), last)
        else:
            self.say("failed")

    # Its time.

    def due(self):
        return min(self.samples_at, self.ends_at, self.pulls_at, self.begins_at())

    def step(self):
        """Does what is due now: edges that were heard, a sample, the end of a frame that stops, a pull."""
        while self.interrupts and self.interrupts[0][0] <= self.now:
            self.edge(self.interrupts.pop(0)[1])
        if self.samples_at <= self.now:
            self.sample()
        if self.ends_at <= self.now:
            self.error()
        if min(self.pulls_at, self.begins_at()) <= self.now:
            self.transmit()


if __name__ == "__main__":
    if sys.argv[1:] == ["--list"]:
        print("\n".join("%s %s" % (name, seen_by) for name, (_, seen_by) in FAULTS.items()))
    else:
        BitBanged(int(sys.argv[1]), FAULTS[sys.argv[2]][0] if len(sys.argv) > 2 else Timing()).serve()
