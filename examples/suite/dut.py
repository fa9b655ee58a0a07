"""A device under test in Python: the lines that pass between it and tools/suite (docs/suite.md).

A device is a class below `Dut`, which overrides what it acts on, and ends its program with `Device().serve()`:

    class Deaf(Dut):
        def address(self, physical):
            self.send([0x44])

One that pulls the line itself sets `by_pin`: it is told each edge of the line, by `line`, and no frames, and has `pull` or
`pin`, and `wake_up` alone:

    class Stuck(Dut):
        by_pin = True

        def line(self, is_low):
            if is_low:
                self.pull(3600)
"""

import sys


class Dut:
    """A device under test. Times are microseconds of emulated time; `now` is the instant of the line that is answered."""

    by_pin = False

    def __init__(self):
        self.now, self.kind, self.actions = 0, "", []

    # What a device does. Each may come later, by `after`, and all happen in the order of their times.

    def send(self, data, after=0):
        """Sends a frame of these bytes, the header first."""
        self.actions.append("after %d send %s" % (after, bytes(data).hex()))

    def hold(self, addresses, after=0):
        """Acknowledges these logical addresses from then on, two at most."""
        self.actions.append("after %d hold %s" % (after, "+".join("%x" % address for address in addresses) or "-"))

    def drop(self, after=0):
        """Gives up all frames that wait to be sent."""
        self.actions.append("after %d drop" % after)

    def wake_up(self, after):
        """Asks for a call of `wake`, a millisecond from now or later; by pin a microsecond."""
        self.actions.append("after %d wake" % after)

    def pull(self, width, after=0):
        """Pulls the line low by its pin: a microsecond after an edge at the soonest."""
        self.actions.append("after %d pull %d" % (after, width))

    def pin(self, level, after=0):
        """Sets the level of its pin, 0 or 1, in place of `pull`: low until it is 1 again."""
        self.actions.append("after %d pin %d" % (after, level))

    # What comes. Each does nothing here.

    def start(self, kind):
        """The device has its power: it is new, and forgets all."""

    def address(self, physical):
        """It is plugged in, at a physical address such as 0x2000; or unplugged, None."""

    def frame(self, data, acknowledged):
        """A frame of another device was on the wire, for this one or not. Of a broadcast: nobody refused it."""

    def sent(self, data, acknowledged):
        """A frame of its own was on the wire."""

    def failed(self):
        """An attempt of the first frame that waits has failed. It is made again by itself, six attempts in all; a poll is made once."""

    def line(self, is_low):
        """An edge of the line, by pin: the device's own pulls have some too. It is high at first."""

    def press(self, key):
        """Somebody presses a key of the device."""

    def release(self, key):
        """Somebody releases it."""

    def wake(self):
        """The time of `wake_up` has come."""

    def answer(self, line):
        """The lines with which it answers a line of tools/suite."""
        verb, time, *rest = line.split(" ")
        self.now, self.actions = int(time), []
        if verb == "start":
            if self.by_pin:
                self.actions.append("by pin")
            self.kind = rest[0]
            self.start(self.kind)
        elif verb == "address":
            self.address(None if rest[0] == "-" else int(rest[0].replace(".", ""), 16))
        elif verb in ("frame", "sent"):
            (self.frame if verb == "frame" else self.sent)(bytes.fromhex(rest[1]), rest[2] in ("ack", "ok"))
        elif verb == "line":
            self.line(rest[0] == "0")
        elif verb in ("press", "release"):
            (self.press if verb == "press" else self.release)(" ".join(rest))
        elif verb in ("failed", "wake"):
            (self.failed if verb == "failed" else self.wake)()
        return self.actions + ["idle"]

    def serve(self):
        """Answers each line of the input until it ends."""
        for line in sys.stdin:
            print("\n".join(self.answer(line.rstrip("\n"))), flush=True)
