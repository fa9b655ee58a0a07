#!/usr/bin/env python3
"""A television under test at the root of the room: it takes address 0, is woken by a player that begins to play, asks it for its name,
answers what the player asks, and sends all to sleep.

    examples/live/television.py ./hdminet

prints the trace. Its status is 0 where all of that came about, and `hdminet run` writes the same trace of the lines that were
sent."""

import os

from dut import DeviceUnderTest
from room import Room, drive

EDID = os.path.join(os.path.dirname(os.path.realpath(__file__)), "..", "living-room.edid")

# The television, and two players in its ports, which have its EDID.
TOPOLOGY = """\
device dut outside-tv 2
device p1 player 0
device p2 player 0
plug p1 dut 1
plug p2 dut 2
edid %s
"""

# The logical addresses of a television, in the order in which it looks for one (CEC 10.2.1).
TELEVISION = "0e"


class Television(DeviceUnderTest):
    """Firmware of a television. Its inputs are the physical addresses of its ports."""

    def __init__(self, room):
        super().__init__(room)
        self.is_on, self.shown, self.names = False, None, {}

    def hear(self, heard):
        """Does what the standard has a television do with a frame to it or to all."""
        head, _, message = heard.text.partition(" ")
        initiator, destination = head.split(">")
        word, _, operands = message.partition(" ")
        if "dut" in heard.senders or destination not in (self.address, "f"):
            return
        if word in ("image-view-on", "text-view-on"):
            self.is_on = True
        elif word == "active-source":
            self.shown = operands
            self.send("%s>%s give-osd-name" % (self.address, initiator))
        elif word == "set-osd-name":
            self.names[initiator] = operands
        elif word == "give-device-power-status":
            self.send("%s>%s report-power-status %s" % (self.address, initiator, "on" if self.is_on else "standby"))
        elif word == "get-menu-language":
            self.send("%s>f set-menu-language eng" % self.address)

    def serve(self):
        """Hears what comes, up to the end of all that happens by itself. Returns the texts of the frames that it sent."""
        said = []
        while (heard := self.next_round()) is not None:
            if "dut" in heard.senders and heard.verdict in ("ack", "ok"):
                said.append(heard.text)
            self.hear(heard)
        return said


def main(program):
    with open(EDID, "rb") as file:
        room = Room(program, TOPOLOGY % file.read().hex())
    tv = Television(room)
    tv.now = 500000
    tv.claim(TELEVISION)
    tv.send("%s>f report-physical-address 0.0.0.0 tv" % tv.address)
    said = tv.serve()
    room.ask("at 1500000 press p1 play")
    said += tv.serve()
    room.ask("at 3000000 send p1 4>0 give-device-power-status")
    room.ask("at 3000000 send p1 4>0 get-menu-language")
    said += tv.serve()
    tv.send("%s>f standby" % tv.address)
    said += tv.serve()
    asleep = [room.ask("show " + name)[1].split(" ")[6] for name in ("p1", "p2")]
    room.ask("end %d" % (tv.now + 100000))
    print("".join(room.trace), end="")
    is_right = (
        said == ["0>f report-physical-address 0.0.0.0 tv", "0>4 give-osd-name", "0>4 report-power-status on", "0>f set-menu-language eng", "0>f standby"]
        and (tv.address, tv.is_on, tv.shown, tv.names) == ("0", True, "1.0.0.0", {"4": '"p1"'})
        and asleep == ["standby", "standby"]
    )
    return is_right and room.is_of_run()


drive(main, "PROGRAM")
