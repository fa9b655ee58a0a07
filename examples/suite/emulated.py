#!/usr/bin/env python3
"""A device of a second emulated room as a device under test:

    tools/suite --dut 'examples/suite/emulated.py release/hdminet' --kind player
    tools/suite --dut 'examples/suite/emulated.py release/hdminet combo' --kind player

The second room has a television, the device `own`, which is emulated (and is the television where one is under test), and seats for
the rest of the world: `hears` hands it what the first room says, and holds the address that a frame comes from, so that an answer is
taken, and those of a player and an amplifier where a television has a key; `taken` and `more` hold the addresses that
were acknowledged in the first room. What `own` says there is said in the first room. No device of the emulator waits for
anything, so the second room is at rest after each line, and its times are its own."""

import os
import subprocess
import sys

sys.path.append(os.path.join(os.path.dirname(os.path.realpath(__file__)), "../live"))
from dut import Dut  # noqa: E402
from room import Room, Stopped, drive  # noqa: E402

BROADCAST, TELEVISION = 15, 0
PLAYER_AND_AMPLIFIER = "4+5"


class Emulated(Dut):
    def __init__(self, program, emulated=None):
        """The kind that is emulated is the one under test, where no other is named."""
        super().__init__()
        self.program, self.emulated, self.room, self.spelled = program, emulated, None, {}

    def spell(self, word, line):
        """The bytes of a frame's text, by `asm`, or the text of bytes, by `dis`."""
        if (word, line) not in self.spelled:
            ran = subprocess.run([self.program, word], input=line + "\n", capture_output=True, text=True)
            if ran.returncode != 0:
                raise Stopped("%s %s ended with status %d" % (self.program, word, ran.returncode))
            got = ran.stdout.rstrip("\n")
            quoted = got.rfind('"') + 1
            self.spelled[word, line] = got[:quoted] + got[quoted:].split(" # ")[0]
        return self.spelled[word, line]

    # The second room.

    def close(self):
        if self.room is not None:
            self.room.ask("end %d" % (self.at + 1))
            self.room.live.communicate()
        self.room = None

    def open(self):
        """A new room, in which the addresses of `self.taken` are taken. Its device has settled."""
        self.close()
        digits = [digit for digit in "%04x" % self.physical if digit != "0"]
        above = root = "tv" if digits else "own"
        lines = ["device %s tv 15" % root, "device hears outside 0", "device taken outside 0", "device more outside 0"]
        free = [port for port in range(1, 16) if not digits or port != int(digits[0], 16)]
        lines += ["plug %s %s %d" % (seat, root, port) for seat, port in zip(("hears", "taken", "more"), free)]
        for level, digit in enumerate(digits, 1):
            is_last = level == len(digits)
            name = "own" if is_last else "box%d" % level
            kind, ports = (self.emulated or self.kind, 2) if is_last else ("outside", 15)
            lines += ["device %s %s %d" % (name, kind, ports), "plug %s %s %d" % (name, above, int(digit, 16))]
            above = name
        self.room = Room(self.program, "\n".join(lines) + "\n")
        self.at = 0
        for seat, addresses in (("taken", self.taken[:2]), ("more", self.taken[2:])):
            if addresses:
                self.room.ask("at 0 hold %s %s" % (seat, "+".join("%x" % address for address in addresses)))
        self.later = self.said()

    def said(self):
        """What the device says until the room is at rest: the bytes of its frames."""
        frames = []
        while True:
            told, answer = self.room.ask("wait")
            self.at = int(answer.split()[1])
            for line in told:
                words = line.rstrip("\n").split(" by ")
                if len(words) == 2 and words[0].split(" ")[2] == "complete" and "own" in words[1].split(" out ")[0].split(","):
                    frames.append(bytes.fromhex(self.spell("asm", " ".join(words[0].split(" ")[3:-1]))))
            if answer.endswith(" idle"):
                return frames

    def do(self, line):
        """Something happens in the second room, and what the device says of it is said in the first one."""
        self.room.ask("at %d %s" % (self.at, line))
        for frame in self.said():
            self.send(frame)

    # The seat in the first room.

    def start(self, kind):
        self.close()

    def address(self, physical):
        self.close()
        self.physical, self.taken, self.free, self.polled, self.is_settled = physical, [], [], None, False
        if physical is not None:
            self.settle()

    def settle(self):
        """Polls in the first room the first address that the device has polled in the second one, and not yet in the first."""
        self.open()
        polls = [frame[0] & 15 for frame in self.later if len(frame) == 1]
        self.polled = next((address for address in polls if address not in self.taken + self.free), None)
        if self.polled is not None:
            self.send([self.polled * 0x11])
            return
        self.is_settled = True
        self.hold(self.free)
        for frame in self.later:
            if len(frame) > 1:
                self.send(frame)

    def sent(self, data, acknowledged):
        if self.room is not None and not self.is_settled and data == bytes([self.polled * 0x11]):
            self.drop()
            (self.taken if acknowledged else self.free).append(self.polled)
            self.settle()

    def frame(self, data, acknowledged):
        initiator, to = data[0] >> 4, data[0] & 15
        if self.room is None or not self.is_settled or len(data) == 1 or not acknowledged or to not in self.free + [BROADCAST]:
            return
        if initiator not in (TELEVISION, BROADCAST):
            self.room.ask("at %d hold hears %x" % (self.at, initiator))
        self.do("send hears " + self.spell("dis", data.hex()))

    def use(self, line):
        """A key, whose frames are taken by those that a television speaks to."""
        if self.room is None:
            return
        if self.kind == "tv":
            self.room.ask("at %d hold hears %s" % (self.at, PLAYER_AND_AMPLIFIER))
        self.do(line)

    def press(self, key):
        self.use("press own " + key)

    def release(self, key):
        self.use("release own " + key)


def main(program, emulated=None):
    device = Emulated(program, emulated)
    device.serve()
    device.close()
    return True


if __name__ == "__main__":
    drive(main, "PROGRAM", "[KIND]")
