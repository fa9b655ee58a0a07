#!/usr/bin/env python3
"""A device under test in the room: it looks for a logical address by polls, claims it, reports where it is plugged in, and answers
the question for its name within a second.

    examples/live/dut.py ./hdminet

prints the trace. Its status is 0 where the answer came in time, and `hdminet run` writes the same trace of the lines that were
sent."""

from room import WITH_SEAT, Room, Stopped, drive, rounds

# The logical addresses of a playback device, in the order in which it looks for one (CEC 10.2.1).
PLAYBACK = "48b"

# How long the device under test takes to answer, in microseconds, and how long it may take (CEC 9.2).
THINKS = 40000
ALLOWED = 1000000


class DeviceUnderTest:
    """Firmware stands here: frames come in, frames go out, and `hold` says which address it acknowledges."""

    def __init__(self, room):
        self.room, self.now, self.address = room, 0, None

    def send(self, text):
        self.room.ask("at %d send dut %s" % (self.now, text))

    def next_round(self):
        """Goes on to the next frame on the wire, or to the end of all that happens by itself."""
        while True:
            told, answer = self.room.ask("wait")
            self.now = int(answer.split()[1])
            heard = rounds(told)
            if heard or answer.endswith(" idle"):
                return heard[0] if heard else None

    def claim(self, addresses):
        """Polls each address until nobody acknowledges one, and holds that. Each poll is made once."""
        for address in addresses:
            poll = "%s>%s" % (address, address)
            self.send(poll)
            while (heard := self.next_round()) is not None and (heard.text != poll or "dut" not in heard.senders):
                pass
            if heard is None:
                raise Stopped("the poll %s did not go out" % poll)
            if heard.verdict == "nack":
                self.room.ask("at %d drop dut" % self.now)
                self.room.ask("at %d hold dut %s" % (self.now, address))
                self.address = address
                return

    def hear(self, heard):
        """Answers what it knows."""
        if heard.text == "0>%s give-osd-name" % self.address:
            self.now += THINKS
            self.send("%s>0 set-osd-name \"DUT\"" % self.address)


def main(program):
    room = Room(program, WITH_SEAT)
    dut = DeviceUnderTest(room)
    dut.now = 400000
    dut.claim(PLAYBACK)
    dut.send("%s>f report-physical-address 2.0.0.0 playback" % dut.address)
    room.ask("at 1000000 send tv 0>%s give-osd-name" % dut.address)
    asked = answered = None
    while (heard := dut.next_round()) is not None:
        if heard.text.endswith(" give-osd-name"):
            asked = heard.close
        if " set-osd-name " in heard.text and "dut" in heard.senders:
            answered = heard.begin
        dut.hear(heard)
    room.ask("end %d" % (dut.now + 100000))
    print("".join(room.trace), end="")
    in_time = asked is not None and answered is not None and answered - asked <= ALLOWED
    return in_time and room.is_of_run()


if __name__ == "__main__":
    drive(main, "PROGRAM")
