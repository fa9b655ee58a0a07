"""Devices with one slip each, as in faulty.py: those that err in what a device has beside, in what it takes and refuses, and in standby."""

from faulty import slip
from faulty_features import InTransition
from reference import MUTE_FUNCTION, RESTORE_FUNCTION, Reference


# What is known, and what is refused

@slip("player")
class ForgetsVersion(Reference):
    """Says its version once, and refuses to say it again as if it did not know the opcode."""

    def start(self, kind):
        super().start(kind)
        self.has_said = False

    def on_9f(self, initiator, operands):
        if self.has_said:
            return 0
        self.has_said = True
        return super().on_9f(initiator, operands)


@slip("amp")
class LearnsOpcodes(Reference):
    """Refuses an opcode that it does not know once, and takes it from then on."""

    def start(self, kind):
        super().start(kind)
        self.refused = set()

    def refuse(self, to, opcode, reason):
        if opcode not in self.refused:
            super().refuse(to, opcode, reason)
        if opcode == 0xE5:
            self.refused.add(opcode)


@slip("player")
class VersionFf(Reference):
    """Says that its version is ff, which no standard has."""

    def on_9f(self, initiator, operands):
        self.say(initiator, 0x9E, 0xFF)


@slip("tuner")
class NulInName(Reference):
    """Ends its name with a NUL."""

    def on_46(self, initiator, operands):
        self.say(initiator, 0x47, *b"DUT\0")


@slip("recorder")
class ControlInName(Reference):
    """Has a line feed in its name."""

    def on_46(self, initiator, operands):
        self.say(initiator, 0x47, *b"D\nT")


@slip("player")
class SaysLatency(Reference):
    """Says its latency where another device is asked for it."""

    def obey(self, initiator, is_direct, opcode, operands):
        if opcode == 0xA7:
            self.say_all(0xA8, *operands[:2], 1, 0)
        else:
            super().obey(initiator, is_direct, opcode, operands)


@slip("recorder")
class RefusesMode(Reference):
    """Sends Feature Abort for Set System Audio Mode to all."""

    def on_72(self, initiator, operands):
        self.refuse(initiator, 0x72, 0)


@slip("player")
class RefusesSoundStatus(Reference):
    """Sends Feature Abort for System Audio Mode Status."""

    def on_7e(self, initiator, operands):
        return 0


@slip("amp")
class TogglesMute(Reference):
    """Takes the keys that mute and that restore the volume for the one that toggles."""

    def act(self, code):
        super().act(0x43 if code in (MUTE_FUNCTION, RESTORE_FUNCTION) else code)


@slip("amp")
class HasNoFunctions(Reference):
    """Does nothing for the keys that mute and that restore the volume, as it may."""

    def act(self, code):
        if code not in (MUTE_FUNCTION, RESTORE_FUNCTION):
            super().act(code)


# What a device has beside

@slip("tuner")
class RecordsAnything(Reference):
    """Records from a source that is none."""
    has = ("record",)

    def on_09(self, initiator, operands):
        return super().on_09(initiator, b"\x01")


@slip("recorder")
class TunerStays(Reference):
    """Refuses to go to the next service."""
    has = ("tuner",)

    def on_05(self, initiator, operands):
        return 4


# Standby

@slip("player")
class SaysTheWrongWay(InTransition):
    """Says that it comes on where it goes to standby."""
    takes = 3_000_000

    def on_8f(self, initiator, operands):
        is_over = self.changed_at is None or self.now - self.changed_at >= self.takes
        self.say(initiator, 0x90, (0 if self.on else 1) if is_over else 2)


@slip("amp")
class SaysOffForOn(InTransition):
    """Says that it goes to standby where it comes on."""
    takes = 3_000_000

    def on_8f(self, initiator, operands):
        is_over = self.changed_at is None or self.now - self.changed_at >= self.takes
        self.say(initiator, 0x90, (0 if self.on else 1) if is_over else 3)


@slip("tuner")
class NamelessInStandby(Reference):
    """Does not say its name in standby."""

    def on_46(self, initiator, operands):
        if self.on:
            super().on_46(initiator, operands)


@slip("player")
class TakesAllInStandby(Reference):
    """Refuses nothing in standby."""

    def refuse(self, to, opcode, reason):
        if self.on:
            super().refuse(to, opcode, reason)


@slip("recorder")
class WokenBySource(Reference):
    """Comes on where another device says that it is the active source."""

    def on_82(self, initiator, operands):
        super().on_82(initiator, operands)
        self.on = True


@slip("player")
class PlaysInStandby(Reference):
    """Plays, and stays in standby."""

    def on_41(self, initiator, operands):
        was_on = self.on
        refused = super().on_41(initiator, operands)
        self.on = was_on
        return refused


@slip("recorder")
class EjectsNothingInStandby(Reference):
    """Refuses to eject in standby, as it may."""

    def on_42(self, initiator, operands):
        return super().on_42(initiator, operands) if self.on else 1


# Televisions

@slip("tv")
class HasNoScreen(Reference):
    """Refuses text."""

    def on_64(self, initiator, operands):
        return 4


@slip("tv")
class RefusesNames(Reference):
    """Does not take the name of a device."""

    def on_47(self, initiator, operands):
        return 0


@slip("tv")
class DeafToMode(Reference):
    """Ignores Set System Audio Mode to all."""

    def obey(self, initiator, is_direct, opcode, operands):
        if opcode != 0x72 or is_direct:
            super().obey(initiator, is_direct, opcode, operands)


@slip("tv")
class DeafToDirectMode(Reference):
    """Ignores Set System Audio Mode to itself."""

    def obey(self, initiator, is_direct, opcode, operands):
        if opcode != 0x72 or not is_direct:
            super().obey(initiator, is_direct, opcode, operands)


@slip("tv")
class TelevisionWokenBySource(Reference):
    """Comes on where a device says that it is the active source."""

    def on_82(self, initiator, operands):
        super().on_82(initiator, operands)
        self.on = True


@slip("tv")
class KeepsThePicture(Reference):
    """Says that it is the active source whenever somebody asks."""

    def on_85(self, initiator, operands):
        self.say_all(0x82, 0, 0)
