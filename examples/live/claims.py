#!/usr/bin/env python3
"""A device under test that claims a logical address that another device holds, and what the room does.

    examples/live/claims.py ./hdminet

prints the trace. Its status is 0 where the room did so, and `hdminet run` writes the same trace of the lines that were sent."""

from room import WITH_SEAT, Room, drive, rounds


def main(program):
    room = Room(program, WITH_SEAT)
    # The player has looked for its address by now, and holds 4. The device under test acknowledges what goes to 4 too.
    room.ask("run to 400000")
    room.ask("at 500000 hold dut 4")
    # The television's question is acknowledged by both, and the player answers it.
    room.ask("at 600000 send tv 0>4 give-osd-name")
    # The player is plugged in anew: its poll of 4 is acknowledged now, so it takes the next address of its kind.
    room.ask("at 1000000 unplug p1")
    room.ask("at 1100000 plug p1 tv 1")
    room.ask("end 2000000")
    print("".join(room.trace), end="")
    heard = rounds(line for line in room.trace if " by " in line)
    answers = [r for r in heard if r.text.startswith("4>0 set-osd-name ")]
    polls = [(r.text, r.verdict) for r in heard if r.begin > 1000000 and r.text in ("4>4", "8>8")]
    right = len(answers) == 1 and answers[0].senders == ["p1"] and polls == [("4>4", "ack"), ("8>8", "nack")]
    return right and room.is_of_run()


drive(main, "PROGRAM")
