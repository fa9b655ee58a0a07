#!/usr/bin/env python3
"""linux_dut.py COMMAND ..: a Linux CEC program as the device under test of tools/suite, whose lines it speaks (docs/suite.md):

    tools/suite --linux 'cec-follower -d0' --kind player

At each `start` /dev/cec0 is configured by cec-ctl as a device of that kind, and COMMAND runs anew; it lives in the suite's time. A key of
the device is a command of cec-ctl."""

import os
import shlex
import shutil
import subprocess
import sys
import tempfile
import time

HERE = os.path.dirname(os.path.realpath(__file__))
sys.path.insert(0, HERE)

from programs import built_shim, end_group  # noqa: E402
from room import Clock, Refused  # noqa: E402
from server import SHARED_CLOCK, Server  # noqa: E402

SEAT = "dut"
# How cec-ctl makes /dev/cec0 a device of HDMI 1.4 of each kind.
KINDS = {"tv": "--tv", "player": "--playback", "recorder": "--record", "tuner": "--tuner", "amp": "--audio", "switch": "--switch"}
CONFIGURE = "cec-ctl -d0 -s %s --cec-version-1.4 --osd-name DUT --vendor-id 0x001582"
# What cec-ctl sends for a key that is pressed and for one that is released; {pa} is the device's physical address, {menu} whether it shows its menu.
# Any other key does nothing.
SENDS = {
    "player play": "-t0 --image-view-on --active-source phys-addr={pa}", "player power": "-t0 --inactive-source phys-addr={pa}",
    "player menu": "-t0 --menu-status menu-state={menu}", "tv power": "-t15 --standby", "tv watch PA": "--set-stream-path phys-addr={0}",
    "tv audio on": "-t5 --system-audio-mode-request phys-addr=0.0.0.0", "tv audio off": "-t5 --system-audio-mode-request phys-addr=f.f.f.f",
    "tv remote": "-t{0} --user-control-pressed ui-cmd={1}", "tv volume-up": "-t5 --user-control-pressed ui-cmd=volume-up",
}
SENDS_AT_RELEASE = {"tv remote": "-t{0} --user-control-released", "tv volume-up": "-t5 --user-control-released"}
# How long, in seconds of the machine, a program may go without waiting.
STALL = 50
# The suite takes a `wake` of a millisecond or more, and of a minute at most.
LEAST_WAKE, MOST_WAKE = 1_000, 60_000_000


class SeatOfSuite:
    """What a seat asks of a room, in the suite's lines: events are what the device does, and time goes on as the suite says."""

    def __init__(self):
        self.horizon, self.script, self.seats, self.edge_listeners = 0, [], {}, []
        self.physical, self.does = None, []

    def hand_in(self, name, frame, attempts):
        return self.event("send %s %s attempts %d" % (name, frame.hex(), attempts))

    def event(self, words, label=None):
        verb, _, *rest = words.split(" ")
        if self.physical is None:
            # What an unplugged device asks for is dropped.
            return {"type": "refusal"}
        self.does.append(" ".join(["after 0", verb, *rest]))
        return {"type": "horizon"}

    def ask(self, line, label=None):
        return {"physical_address": self.physical}


class LinuxDevice:
    """COMMAND over the seat: what the suite says goes to its adapter, and what the programs do goes to the suite."""

    def __init__(self, command, folder):
        self.command, self.folder, self.shim = command, folder, built_shim(folder)
        self.server, self.programs = None, []

    def start(self, kind):
        self.close()
        self.kind, self.room, self.shows_menu = kind, SeatOfSuite(), False
        path, clock = os.path.join(self.folder, "socket"), os.path.join(self.folder, "clock")
        self.server = Server(self.room, Clock(self.room, False), [SEAT], path, STALL)
        self.server.share_clock(clock)
        self.environment = dict(os.environ, LD_PRELOAD=self.shim, HDMINET_CEC=path, HDMINET_CEC_SEATS="1", HDMINET_CEC_CLOCK=clock)
        # The commands that are still to be run, in turn; COMMAND, once it runs, and the command of cec-ctl that runs now; when the suite comes again.
        self.waiting, self.main, self.at_work, self.wakes = [shlex.split(CONFIGURE % KINDS[kind]), self.command], None, None, []

    def run_next(self):
        """Starts the next command. Each one but COMMAND ends before the next begins."""
        command = self.waiting.pop(0)
        try:
            program = subprocess.Popen(command, env=self.environment, stdin=subprocess.DEVNULL, stdout=subprocess.DEVNULL, stderr=subprocess.DEVNULL, start_new_session=True)
        except OSError as error:
            raise Refused("%s: %s" % (command[0], error.strerror)) from None
        self.programs.append(program)
        if command is self.command:
            self.main = program
        else:
            self.at_work = program

    def key(self, table, key):
        """A key, as the command of cec-ctl that stands for it."""
        name, *values = key.split(" ")
        kind = "player" if self.kind == "recorder" else self.kind
        self.shows_menu ^= key == "menu" and table is SENDS
        sends = next((table[words] for words in ("%s %s" % (kind, key), "%s %s PA" % (kind, name), "%s %s" % (kind, name)) if words in table), None)
        if sends:
            self.waiting.append(["cec-ctl", "-d0", "-s", *sends.format(*values, pa=self.room.physical, menu="activated" if self.shows_menu else "deactivated").split(" ")])

    @property
    def seat(self):
        return self.room.seats[SEAT]

    def answer(self, line):
        """Takes a line of the suite, and returns what the device does."""
        verb, at, *rest = line.split(" ")
        if verb == "start":
            self.start(rest[0])
        room = self.room
        room.horizon, room.does = int(at), []
        SHARED_CLOCK.pack_into(self.server.shared, 0, Clock.MONOTONIC * 10**9, Clock.REALTIME * 10**9, room.horizon)
        if verb == "address":
            room.physical = None if rest[0] == "-" else rest[0]
            self.seat.place = room.physical
        elif verb in ("frame", "sent"):
            self.seat.hear({"type": "round", "ending": "complete", "by": [SEAT] if verb == "sent" else ["another"], "out": [],
                            "bytes": rest[1], "verdict": rest[2], "close": room.horizon})
        elif verb == "failed":
            # The suite does not say why: a block was not acknowledged, or broken.
            self.seat.hear({"type": "round", "ending": "silent", "by": [], "out": [{"device": SEAT, "slot": 10}], "close": room.horizon})
        elif verb in ("press", "release"):
            self.key(SENDS if verb == "press" else SENDS_AT_RELEASE, " ".join(rest))
        self.seat.settle()
        self.until_all_wait()
        self.wake_up()
        return [*room.does, "idle"]

    def until_all_wait(self):
        """Hands on what the programs do until each of them waits for something that the suite says, or for its time."""
        until = time.monotonic() + STALL
        self.hand_on()
        while not self.is_at_rest():
            for key, _ in self.server.selector.select(0 if self.server.answers else 0.002):
                key.data()
            self.hand_on()
            if time.monotonic() > until:
                raise Refused("%s has not waited for %d seconds" % (self.server.at_work() or shlex.join(self.command), STALL))

    def hand_on(self):
        self.server.time_out()
        self.server.seat_who_wait()
        self.server.deliver()
        self.seat.settle()

    def is_at_rest(self):
        """Whether each program that runs has its device open and waits. The next command begins where the one before has ended."""
        is_busy = self.at_work is not None and self.at_work.poll() is None
        if not is_busy and self.waiting:
            self.run_next()
            return False
        if self.server.working or self.server.answers or is_busy and self.at_work.pid not in self.server.seated():
            return False
        others = [pid for pid in self.server.seated() if self.at_work is None or pid != self.at_work.pid]
        return self.main is None or self.main.poll() is not None or bool(others)

    def wake_up(self):
        """Asks the suite to come again when somebody's time is over."""
        timer = self.server.next_timer()
        self.wakes = [wake for wake in self.wakes if wake > self.room.horizon]
        if timer is None:
            return
        wake = self.room.horizon + min(MOST_WAKE, max(LEAST_WAKE, self.server.clock.instant(timer) - self.room.horizon))
        if not any(asked <= wake for asked in self.wakes):
            self.wakes.append(wake)
            self.room.does.append("after %d wake" % (wake - self.room.horizon))

    def close(self):
        """Ends the programs and their server."""
        for program in self.programs:
            end_group(program)
        self.programs = []
        if self.server:
            self.server.close()
            self.server = None


def main():
    folder = tempfile.mkdtemp(prefix="hdminet-cec.")
    device = None
    try:
        device = LinuxDevice(sys.argv[1:], folder)
        for line in sys.stdin:
            print("\n".join(device.answer(line.rstrip("\n"))), flush=True)
        return 0
    except Refused as refused:
        print("linux_dut: %s" % refused, file=sys.stderr)
        return 2
    finally:
        if device:
            device.close()
        shutil.rmtree(folder, ignore_errors=True)


if __name__ == "__main__":
    sys.exit(main())
