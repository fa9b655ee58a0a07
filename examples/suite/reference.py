#!/usr/bin/env python3
"""A television, a player, a recorder, a tuner, an amplifier or a switch that keeps HDMI 1.4, CEC, as a device under test:

    tools/suite --dut examples/suite/reference.py --kind player
    tools/suite --dut 'examples/suite/reference.py record timers tuner' --kind recorder --with record --with timers --with tuner

It takes 20 ms to answer. What it does on a frame are its methods `on_XX`, by the opcode in hex."""

import sys
from collections import namedtuple

from dut import Dut

# The logical addresses of each kind in the order in which it polls them (CEC 10.2), and its device type (CEC 17).
ADDRESSES = {"tv": (0, 14), "player": (4, 8, 11), "recorder": (1, 2, 9), "tuner": (3, 6, 7, 10), "amp": (5,), "switch": ()}
TYPES = {"tv": 0, "player": 4, "recorder": 1, "tuner": 3, "amp": 5, "switch": 6}
UNREGISTERED = BROADCAST = 15
TELEVISION, AUDIO_SYSTEM = 0, 5

# Times in microseconds: how long it thinks, how often a held key acts, and when a press that is not repeated counts as released (CEC 13.13).
THINKS, REPEATS, RELEASES = 20_000, 300_000, 550_000

UNRECOGNIZED, WRONG_MODE, INVALID_OPERAND, REFUSED = 0, 1, 3, 4
DECK_PLAY, DECK_STILL, DECK_FAST, DECK_NO_MEDIUM, DECK_STOP = 0x11, 0x14, 0x17, 0x19, 0x1A
# Codes of a remote control (CEC table 27), by the words of the keys that a television has for them.
CODES = {"volume-up": 0x41, "volume-down": 0x42, "mute": 0x43, "play": 0x44, "stop": 0x45, "pause": 0x46}
MODES = {0x24: DECK_PLAY, 0x25: DECK_STILL, 5: DECK_FAST, 6: DECK_FAST, 7: DECK_FAST, 9: 0x18, 10: 0x18, 11: 0x18}
CONTROLS = {1: 0x1B, 2: 0x1C, 3: DECK_STOP, 4: DECK_NO_MEDIUM}

# How many operands a message has at least, whether it comes to one device, to all, or either way (CEC 15), and who obeys it. Another
# kind refuses it as unrecognized, as it does what is not here.
Message = namedtuple("Message", "least way kinds")
DIRECT, TO_ALL, BOTH = "direct", "to all", "both"
DECKS, AMP, TV = ("player", "recorder"), ("amp",), ("tv",)
ALL = tuple(ADDRESSES)
MESSAGES = {
    0x00: Message(2, DIRECT, ALL),  # Feature Abort
    0x04: Message(0, DIRECT, TV),  # Image View On
    0x0D: Message(0, DIRECT, TV),  # Text View On
    0x1A: Message(1, DIRECT, DECKS),  # Give Deck Status
    0x1B: Message(1, DIRECT, TV),  # Deck Status
    0x32: Message(3, TO_ALL, ALL),  # Set Menu Language
    0x36: Message(0, BOTH, ALL),  # Standby
    0x41: Message(1, DIRECT, DECKS),  # Play
    0x42: Message(1, DIRECT, DECKS),  # Deck Control
    0x44: Message(1, DIRECT, DECKS + AMP + TV),  # User Control Pressed
    0x45: Message(0, DIRECT, DECKS + AMP + TV),  # User Control Released
    0x46: Message(0, DIRECT, ALL),  # Give OSD Name
    0x47: Message(1, DIRECT, ALL),  # Set OSD Name
    0x64: Message(1, DIRECT, TV),  # Set OSD String
    0x70: Message(0, DIRECT, AMP),  # System Audio Mode Request
    0x71: Message(0, DIRECT, AMP),  # Give Audio Status
    0x72: Message(1, BOTH, ALL),  # Set System Audio Mode
    0x7A: Message(1, DIRECT, TV),  # Report Audio Status
    0x7D: Message(0, DIRECT, AMP),  # Give System Audio Mode Status
    0x7E: Message(1, DIRECT, ALL),  # System Audio Mode Status
    0x80: Message(4, TO_ALL, ALL),  # Routing Change
    0x81: Message(2, TO_ALL, ALL),  # Routing Information
    0x82: Message(2, TO_ALL, ALL),  # Active Source
    0x83: Message(0, DIRECT, ALL),  # Give Physical Address
    0x84: Message(3, TO_ALL, ALL),  # Report Physical Address
    0x85: Message(0, TO_ALL, ALL),  # Request Active Source
    0x86: Message(2, TO_ALL, ALL),  # Set Stream Path
    0x87: Message(3, TO_ALL, ALL),  # Device Vendor ID
    0x8C: Message(0, DIRECT, ALL),  # Give Device Vendor ID
    0x8D: Message(1, DIRECT, DECKS),  # Menu Request
    0x8E: Message(1, DIRECT, TV),  # Menu Status
    0x8F: Message(0, DIRECT, ALL),  # Give Device Power Status
    0x90: Message(1, DIRECT, ALL),  # Report Power Status
    0x91: Message(0, DIRECT, TV),  # Get Menu Language
    0x9D: Message(2, DIRECT, TV),  # Inactive Source
    0x9E: Message(1, DIRECT, ALL),  # CEC Version
    0x9F: Message(0, DIRECT, ALL),  # Get CEC Version
    0xC0: Message(0, DIRECT, TV),  # Initiate ARC
    0xC1: Message(0, DIRECT, AMP),  # Report ARC Initiated
    0xC2: Message(0, DIRECT, AMP),  # Report ARC Terminated
    0xC3: Message(0, DIRECT, AMP),  # Request ARC Initiation
    0xC4: Message(0, DIRECT, AMP),  # Request ARC Termination
    0xC5: Message(0, DIRECT, TV),  # Terminate ARC
    0xFF: Message(0, DIRECT, ALL),  # Abort
}
# What a device obeys that has a feature beside: it records, has timers, or a tuner.
RECORDERS = ("recorder", "tuner")
FEATURES = {
    "record": {
        0x09: Message(1, DIRECT, RECORDERS),  # Record On
        0x0B: Message(0, DIRECT, RECORDERS),  # Record Off
    },
    "timers": {
        0x97: Message(10, DIRECT, RECORDERS),  # Set Digital Timer
        0x99: Message(10, DIRECT, RECORDERS),  # Clear Digital Timer
    },
    "tuner": {
        0x05: Message(0, DIRECT, RECORDERS),  # Tuner Step Increment
        0x06: Message(0, DIRECT, RECORDERS),  # Tuner Step Decrement
        0x08: Message(1, DIRECT, RECORDERS),  # Give Tuner Device Status
        0x93: Message(7, DIRECT, RECORDERS),  # Select Digital Service
    },
}
# CEC 17: the displays of Set OSD String, and the codes that mute and that restore the volume.
DISPLAYS = (0x00, 0x40, 0x80)
MUTE, MUTE_FUNCTION, RESTORE_FUNCTION = 0x43, 0x65, 0x66
RECORDS_SOURCE, RECORD_STOPPED, TIMER_SET, TIMER_CLEARED = 0x01, 0x1A, 0x18, 0x80


class Reference(Dut):
    # How long it thinks before it answers, and what it has beside what each device of its kind has.
    thinks = THINKS
    has = ()

    def start(self, kind):
        self.candidates, self.la, self.physical = [], None, None
        self.renew()

    def renew(self):
        self.on, self.active, self.deck, self.menu, self.notified = True, False, DECK_STOP, False, None
        self.audio, self.volume, self.mute = False, 20, False
        self.held, self.by, self.pressed_at, self.acts_at = None, None, 0, 0
        self.port = 1

    def is_deck(self):
        return self.kind in DECKS

    # What it says.

    def say(self, to, opcode, *operands):
        """To one device, or to all; nothing to the unregistered one."""
        if to != UNREGISTERED:
            self.send([self.la << 4 | to, opcode, *operands], after=self.thinks)

    def say_all(self, opcode, *operands):
        self.send([self.la << 4 | BROADCAST, opcode, *operands], after=self.thinks)

    def refuse(self, to, opcode, reason):
        self.say(to, 0x00, opcode, reason)

    def bytes_of(self, physical):
        return physical >> 8, physical & 0xFF

    def report_physical(self):
        self.say_all(0x84, *self.bytes_of(self.physical), TYPES[self.kind])

    def report_audio(self, to):
        self.say(to, 0x7A, self.mute << 7 | self.volume)

    def set_deck(self, deck):
        changed, self.deck = self.deck != deck, deck
        if changed and self.notified is not None:
            self.say(self.notified, 0x1B, deck)

    # Its address (CEC 10.2.1).

    def address(self, physical):
        self.hold([])
        self.la, self.physical = None, physical
        self.renew()
        if physical is not None:
            self.candidates = list(ADDRESSES[self.kind])
            self.poll()

    def poll(self):
        if self.candidates:
            self.send([self.candidates[0] * 0x11])
        else:
            self.la = UNREGISTERED
            if self.kind == "switch":
                self.report_physical()

    def sent(self, data, acknowledged):
        if self.la is None and len(data) == 1:
            address = self.candidates.pop(0)
            if acknowledged:
                self.poll()
            else:
                self.drop()
                self.la = address
                self.hold([address])
                self.report_physical()

    # What it obeys.

    def frame(self, data, acknowledged):
        initiator, to = data[0] >> 4, data[0] & 15
        if self.la is None or len(data) == 1 or to not in (self.la, BROADCAST) or not acknowledged:
            return
        if self.la == UNREGISTERED and self.kind != "switch":
            return
        self.obey(initiator, to != BROADCAST, data[1], data[2:])

    def obey(self, initiator, is_direct, opcode, operands):
        known = MESSAGES.get(opcode)
        for feature in self.has:
            known = FEATURES[feature].get(opcode, known)
        if known is None or self.kind not in known.kinds:
            if is_direct:
                self.refuse(initiator, opcode, UNRECOGNIZED)
            return
        if len(operands) < known.least or known.way not in (BOTH, DIRECT if is_direct else TO_ALL):
            return
        reason = getattr(self, "on_%02x" % opcode, lambda *_: None)(initiator, operands)
        if reason is not None and is_direct:
            self.refuse(initiator, opcode, reason)

    def on_ff(self, initiator, operands):
        return UNRECOGNIZED

    def on_04(self, initiator, operands):
        self.on = True

    def on_0d(self, initiator, operands):
        self.on = True

    def on_1a(self, initiator, operands):
        if operands[0] not in (1, 2, 3):
            return INVALID_OPERAND
        self.notified = {1: initiator, 2: None, 3: self.notified}[operands[0]]
        if operands[0] != 2:
            self.say(initiator, 0x1B, self.deck)

    def on_41(self, initiator, operands):
        if operands[0] not in MODES:
            return INVALID_OPERAND
        if self.deck == DECK_NO_MEDIUM:
            return WRONG_MODE
        self.on = True
        self.set_deck(MODES[operands[0]])

    def on_42(self, initiator, operands):
        if operands[0] not in CONTROLS:
            return INVALID_OPERAND
        ejects = operands[0] == 4
        if not ejects and (not self.on or self.deck == DECK_NO_MEDIUM):
            return WRONG_MODE
        self.on = self.on or ejects
        self.set_deck(CONTROLS[operands[0]])

    def on_46(self, initiator, operands):
        self.say(initiator, 0x47, *b"DUT")

    def on_64(self, initiator, operands):
        return None if operands[0] in DISPLAYS else INVALID_OPERAND

    def on_83(self, initiator, operands):
        self.report_physical()

    def on_8c(self, initiator, operands):
        self.say_all(0x87, 2, 0, 0)

    def on_8d(self, initiator, operands):
        if operands[0] > 2:
            return INVALID_OPERAND
        if not self.on:
            return WRONG_MODE
        self.menu = {0: True, 1: False, 2: self.menu}[operands[0]]
        self.say(initiator, 0x8E, 0 if self.menu else 1)

    def on_8f(self, initiator, operands):
        self.say(initiator, 0x90, 0 if self.on else 1)

    def on_91(self, initiator, operands):
        self.say_all(0x32, *b"eng")

    def on_9f(self, initiator, operands):
        self.say(initiator, 0x9E, 5)

    # Standby, and who is shown.

    def on_36(self, initiator, operands):
        self.on, self.active, self.menu, self.held, self.notified = False, False, False, None, None
        if self.deck != DECK_NO_MEDIUM:
            self.deck = DECK_STOP
        if self.audio and self.kind == "amp":
            self.say_all(0x72, 0)
        self.audio = False

    def on_80(self, initiator, operands):
        self.active = False
        self.routed(operands[2] << 8 | operands[3])

    def on_81(self, initiator, operands):
        self.active = False
        self.routed(operands[0] << 8 | operands[1])

    def routed(self, physical):
        if self.kind == "switch" and physical == self.physical:
            self.say_all(0x81, *self.bytes_of(self.below(self.port)))

    def below(self, port):
        """The physical address of a port."""
        shift = next(shift for shift in (12, 8, 4, 0) if self.physical >> shift & 15 == 0)
        return self.physical | port << shift

    def leads(self, physical):
        """A switch selects the port that leads to an address (CEC 13.2)."""
        for port in (1, 2):
            shift = next(shift for shift in (12, 8, 4, 0) if self.physical >> shift & 15 == 0)
            if self.kind == "switch" and physical >> shift == self.below(port) >> shift:
                self.port = port

    def on_82(self, initiator, operands):
        self.active = False
        self.leads(operands[0] << 8 | operands[1])

    def on_85(self, initiator, operands):
        if self.on and self.active:
            self.say_all(0x82, *self.bytes_of(self.physical))

    def on_86(self, initiator, operands):
        physical = operands[0] << 8 | operands[1]
        self.leads(physical)
        self.active = physical == self.physical and self.kind != "switch"
        if self.active:
            self.on = True
            self.say_all(0x82, *self.bytes_of(self.physical))

    # A remote control (CEC 13.13).

    def on_44(self, initiator, operands):
        code = operands[0]
        if not self.on:
            self.on = code in (0x40, 0x6D)
            return
        if code in (0x40, 0x6C):
            self.on_36(initiator, b"")
            return
        self.pressed_at = self.now
        if self.held != code:
            self.held, self.by, self.acts_at = code, initiator, self.now
            self.act(code)
            if self.kind == "amp":
                self.wake_up(REPEATS)

    def on_45(self, initiator, operands):
        self.held = None

    def act(self, code):
        if self.is_deck() and self.deck != DECK_NO_MEDIUM and code in (0x44, 0x45, 0x46):
            self.set_deck({0x44: DECK_PLAY, 0x45: DECK_STOP, 0x46: DECK_STILL}[code])
        elif self.kind == "amp" and code in (0x41, 0x42, MUTE, MUTE_FUNCTION, RESTORE_FUNCTION):
            self.mute = {MUTE: not self.mute, MUTE_FUNCTION: True, RESTORE_FUNCTION: False}.get(code, self.mute)
            self.volume = max(0, min(100, self.volume + {0x41: 1, 0x42: -1}.get(code, 0)))
            if self.audio:
                self.report_audio(self.by)

    def is_released(self):
        return self.now - self.pressed_at >= RELEASES

    def wake(self):
        if self.is_released():
            self.held = None
        if self.held in (0x41, 0x42):
            self.act(self.held)
            self.wake_up(REPEATS)

    # Sound (CEC 13.15, 13.17).

    def on_70(self, initiator, operands):
        self.audio = len(operands) >= 2
        self.on = self.on or self.audio
        self.say_all(0x72, 1 if self.audio else 0)

    def on_71(self, initiator, operands):
        self.report_audio(initiator)

    def on_72(self, initiator, operands):
        if self.kind == "tv":
            self.audio = operands[0] == 1

    def on_7d(self, initiator, operands):
        self.say(initiator, 0x7E, 1 if self.audio else 0)

    def on_c0(self, initiator, operands):
        self.say(initiator, 0xC1)

    def on_c5(self, initiator, operands):
        self.say(initiator, 0xC2)

    def on_c3(self, initiator, operands):
        if initiator != TELEVISION:
            return REFUSED
        self.say(initiator, 0xC0)

    def on_c4(self, initiator, operands):
        if initiator != TELEVISION:
            return REFUSED
        self.say(initiator, 0xC5)

    # What a device has beside: it records, has timers or a tuner (CEC 13.4, 13.5, 13.8).

    def on_09(self, initiator, operands):
        if operands[0] not in (1, 2, 3, 4, 5):
            return INVALID_OPERAND
        self.say(initiator, 0x0A, RECORDS_SOURCE)

    def on_0b(self, initiator, operands):
        self.say(initiator, 0x0A, RECORD_STOPPED)

    def on_97(self, initiator, operands):
        self.say(initiator, 0x35, TIMER_SET)

    def on_99(self, initiator, operands):
        self.say(initiator, 0x43, TIMER_CLEARED)

    def on_08(self, initiator, operands):
        if operands[0] not in (1, 2, 3):
            return INVALID_OPERAND
        if operands[0] != 2:
            # It shows a digital tuner, and its service.
            self.say(initiator, 0x07, 0, 0, 0, 0, 0, 0, 0, 0)

    # Its own keys.

    def press(self, key):
        if self.la is None:
            return
        if self.kind == "tv":
            self.press_of_television(*key.split(" "))
        elif key == "play" and self.is_deck():
            self.on = self.active = True
            self.say(TELEVISION, 0x04)
            self.say_all(0x82, *self.bytes_of(self.physical))
            if self.deck != DECK_NO_MEDIUM:
                self.set_deck(DECK_PLAY)
        elif key == "stop" and self.is_deck() and self.deck != DECK_NO_MEDIUM:
            self.set_deck(DECK_STOP)
        elif key == "menu" and self.is_deck():
            self.menu = not self.menu
            self.say(TELEVISION, 0x8E, 0 if self.menu else 1)
        elif key == "power" and self.on:
            if self.active:
                self.say(TELEVISION, 0x9D, *self.bytes_of(self.physical))
            self.on_36(TELEVISION, b"")
        elif key == "power":
            self.on = True
        elif key.startswith("port ") and self.kind == "switch" and self.port != int(key[5:]):
            old, self.port = self.port, int(key[5:])
            self.say_all(0x80, *self.bytes_of(self.below(old)), *self.bytes_of(self.below(self.port)))

    def press_of_television(self, key, *values):
        if key == "power" and self.on:
            self.say_all(0x36)
            self.on_36(TELEVISION, b"")
        elif key == "power":
            self.on = True
        elif key == "watch":
            self.say_all(0x86, *bytes.fromhex(values[0].replace(".", "")))
        elif key == "audio":
            self.say(AUDIO_SYSTEM, 0x70, *(b"\0\0" if values[0] == "on" else b""))
        elif key == "remote":
            self.say(int(values[0], 16), 0x44, CODES[values[1]])
        elif key in CODES and self.audio:
            self.say(AUDIO_SYSTEM, 0x44, CODES[key])

    def release(self, key):
        if self.la is None or self.kind != "tv":
            return
        key, *values = key.split(" ")
        if key == "remote":
            self.say(int(values[0], 16), 0x45)
        elif key in CODES and self.audio:
            self.say(AUDIO_SYSTEM, 0x45)


if __name__ == "__main__":
    device = Reference()
    device.has = sys.argv[1:]
    device.serve()
