#!/usr/bin/env python3
"""A device under test whose firmware follows the line bit by bit, by its own pin: it hears of each edge some microseconds later,
samples each bit, and pulls the acknowledge bits of a frame to its address.

    examples/live/pin.py ./hdminet 300

prints the line of the frame's round. The number is how late interrupts come, in microseconds: with 300 the frame is acknowledged; with
500 the firmware samples a 1 before it hears that the line is high, and the frame is not its own. The status is 0 where `hdminet run`
writes the same trace of the lines that were sent."""

import heapq

from room import WITH_SEAT, Room, Stopped, drive

ADDRESS = 8
FRAME = "4>8 give-osd-name"
BEGIN, END = 1000000, 1060000

# CEC 5.2: how long the start bit is low and lasts, how long other bits last, when they are sampled, and how long a 0 is low.
START_LOW, START = range(3500, 3901), range(4300, 4701)
BIT, SAMPLE, LOW = range(2050, 2751), 1050, 1500


class Timers:
    """What the firmware does later, in the order of its instants. The room's clock is the only one."""

    def __init__(self):
        self.waiting, self.count = [], 0

    def at(self, instant, act, *values):
        self.count += 1
        heapq.heappush(self.waiting, (instant, self.count, act, values))

    def next(self, end):
        """The instant of the next one, at most the end."""
        return min(self.waiting[0][0], end) if self.waiting else end

    def run_to(self, now):
        """Does what is due."""
        while self.waiting and self.waiting[0][0] <= now:
            instant, _, act, values = heapq.heappop(self.waiting)
            act(max(instant, now), *values)


class Follower:
    """Firmware that follows the frames of a line. An interrupt has the instant of its edge, and the level after it."""

    def __init__(self, timers, pin):
        self.timers, self.pin = timers, pin
        self.level, self.fall = 1, 0
        self.bits = None  # those of the frame that is on

    def interrupt(self, now, instant, level):
        self.level = level
        if level == 1:
            if self.bits is None and instant - self.fall in START_LOW:
                self.bits = []
            return
        since, self.fall = instant - self.fall, instant
        if self.bits is None or since not in (BIT if self.bits else START):
            self.bits = None
            return
        if len(self.bits) % 10 == 9 and self.bits[4:8] == [ADDRESS >> n & 1 for n in (3, 2, 1, 0)]:
            self.pin(now, 0)
            self.timers.at(instant + LOW, self.pin, 1)
        self.timers.at(instant + SAMPLE, self.sample)

    def sample(self, now):
        if self.bits is None:
            return
        self.bits.append(self.level)
        if len(self.bits) % 10 == 0 and self.bits[-2] == 1:
            self.bits = None  # the end of the message


def main(program, late):
    if not late.isdecimal():
        raise Stopped("LATENCY is a number of microseconds, and not %s" % late)
    latency = int(late)
    room = Room(program, WITH_SEAT)
    timers = Timers()
    follower = Follower(timers, lambda now, level: room.ask("pin %d %d" % (now, level)))
    room.ask("at %d send p1 %s" % (BEGIN, FRAME))
    room.ask("run to %d" % BEGIN)
    now = BEGIN
    while now < END:
        told, answer = room.ask("edge %d" % max(now, timers.next(END)))
        now = int(answer.split()[1])
        for line in told:
            if line[0] == "~":
                _, instant, level = line.split()
                timers.at(int(instant) + latency, follower.interrupt, int(instant), int(level))
            elif line.split()[1] != "event":
                print(line, end="")
        timers.run_to(now)
    room.ask("end %d" % END)
    return room.is_of_run()


drive(main, "PROGRAM", "LATENCY")
