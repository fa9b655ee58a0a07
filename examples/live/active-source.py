#!/usr/bin/env python3
"""Reacts to an Active Source: as soon as a device says that it is the source to show, the television asks it for its name.

    examples/live/active-source.py ./hdminet

prints the trace. Its status is 0 where `hdminet run` writes the same trace of the lines that were sent."""

from room import Room, drive, rounds

TOPOLOGY = """\
device tv tv 2
device p1 player 0
device p2 player 0
plug p1 tv 1
plug p2 tv 2
"""


def react(room):
    """Goes from turn to turn until nothing comes any more, and asks each source for its name. Returns the horizon."""
    while True:
        told, answer = room.ask("wait")
        horizon = int(answer.split()[1])
        if answer.endswith(" idle"):
            return horizon
        for heard in rounds(told):
            if " active-source " in heard.text:
                room.ask("at %d send tv 0>%s give-osd-name" % (horizon, heard.text[0]))


def main(program):
    room = Room(program, TOPOLOGY)
    room.ask("at 1000000 press p1 play")
    react(room)
    room.ask("at 2500000 press p2 play")
    room.ask("end %d" % (react(room) + 100000))
    print("".join(room.trace), end="")
    return room.is_of_run()


drive(main, "PROGRAM")
