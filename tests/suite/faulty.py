"""Devices with one slip each, which the tests of suite/ have to see. `SLIPS` has them by name, with their kind. Here stand those
that err in times, addresses, refusals and frames, in faulty_opcodes.py those that leave out one message, in faulty_televisions.py
televisions, and in faulty_features.py and faulty_messages.py the others.

Each is the device of examples/suite/reference.py but for what stands here; tests/suite/faulty.txt says which tests each fails."""

import os
import sys

sys.path.insert(0, os.path.join(os.path.dirname(os.path.realpath(__file__)), "../../examples/suite"))
from reference import INVALID_OPERAND, MESSAGES, UNREGISTERED, Reference  # noqa: E402

SLIPS = {}


def slip(kind):
    """Notes a device by its name: LateAnswers is `late-answers`."""
    def note(device):
        name = "".join("-" + letter.lower() if letter.isupper() else letter for letter in device.__name__).lstrip("-")
        SLIPS[name] = (kind, device)
        return device
    return note


def passed_over(_device, _initiator, _operands):
    """A message that is neither obeyed nor answered."""


# Times

@slip("player")
class AnswersLate(Reference):
    """Takes a second and a half."""
    thinks = 1_500_000


@slip("player")
class AnswersSlowly(Reference):
    """Takes half a second, as it may."""
    thinks = 500_000


# Addresses

@slip("player")
class ClaimsTaken(Reference):
    """Takes its first address though somebody acknowledges it."""

    def sent(self, data, acknowledged):
        super().sent(data, acknowledged and self.la is not None)


@slip("amp")
class ClaimsTakenAmp(ClaimsTaken):
    """The same of an amplifier."""


@slip("recorder")
class PollsNothing(Reference):
    """Takes its first address without a poll."""

    def poll(self):
        self.la = self.candidates[0]
        self.hold([self.la])
        self.report_physical()


@slip("recorder")
class PollsOnce(Reference):
    """Gives up where its first address is taken."""

    def sent(self, data, acknowledged):
        self.candidates = self.candidates[:1]
        super().sent(data, acknowledged)


@slip("tuner")
class PollsNothingAnew(Reference):
    """Keeps its address when it is plugged in again."""

    def start(self, kind):
        super().start(kind)
        self.kept = None

    def poll(self):
        if self.kept is None:
            super().poll()
            return
        self.la = self.kept
        self.hold([self.la])
        self.report_physical()

    def sent(self, data, acknowledged):
        super().sent(data, acknowledged)
        self.kept = self.la


@slip("player")
class TakesTheLast(Reference):
    """Takes the last address of its kind where all are taken."""

    def sent(self, data, acknowledged):
        super().sent(data, acknowledged and len(self.candidates) > 1)


@slip("player")
class HoldsTwo(Reference):
    """Acknowledges the next address of its kind too."""

    def hold(self, addresses, after=0):
        super().hold(addresses + self.candidates[:1] if addresses else [], after)


@slip("player")
class AcknowledgesAll(Reference):
    """Acknowledges frames to another address."""

    def hold(self, addresses, after=0):
        super().hold(addresses + [14] if addresses else [], after)


@slip("recorder")
class DeafInStandby(Reference):
    """Acknowledges nothing in standby."""

    def on_36(self, initiator, operands):
        super().on_36(initiator, operands)
        self.hold([])


@slip("player")
class LetsGo(Reference):
    """Gives its address up when it is polled."""

    def frame(self, data, acknowledged):
        super().frame(data, acknowledged)
        if len(data) == 1 and data[0] & 15 == self.la:
            self.hold([])


@slip("player")
class WrongAddress(Reference):
    """Reports another physical address than its own."""

    def report_physical(self):
        self.say_all(0x84, 0x30, 0x00, 4)


@slip("amp")
class WrongType(Reference):
    """Reports that it is a television."""

    def report_physical(self):
        self.say_all(0x84, *self.bytes_of(self.physical), 0)


@slip("player")
class OldAddress(Reference):
    """Reports the physical address that it had first."""

    def start(self, kind):
        super().start(kind)
        self.first = None

    def report_physical(self):
        self.first = self.first or self.physical
        self.say_all(0x84, *self.bytes_of(self.first), 4)


@slip("switch")
class ReportsNothing(Reference):
    """Does not report its physical address."""

    def report_physical(self):
        pass


# Refusals

@slip("player")
class RefusesNothing(Reference):
    """Never sends Feature Abort."""

    def refuse(self, to, opcode, reason):
        pass


@slip("player")
class RefusesBroadcasts(Reference):
    """Sends Feature Abort for a broadcast that it does not know."""

    def obey(self, initiator, is_direct, opcode, operands):
        if not is_direct and (opcode not in MESSAGES or opcode == 0xFF):
            self.refuse(initiator, opcode, 0)
        super().obey(initiator, is_direct, opcode, operands)


@slip("player")
class RefusesRefusals(Reference):
    """Answers Feature Abort with Feature Abort."""

    def on_00(self, initiator, operands):
        return 0


@slip("player")
class RefusesTwice(Reference):
    """Sends each Feature Abort twice."""

    def refuse(self, to, opcode, reason):
        super().refuse(to, opcode, reason)
        super().refuse(to, opcode, reason)


@slip("player")
class WrongReason(Reference):
    """Refuses an operand as if it did not know the opcode."""

    def refuse(self, to, opcode, reason):
        super().refuse(to, opcode, 0 if reason == INVALID_OPERAND else reason)


@slip("tuner")
class IgnoresAbort(Reference):
    """Does not refuse Abort."""

    def on_ff(self, initiator, operands):
        return None


# Which way a message comes, and from whom

@slip("player")
class AnswersBroadcasts(Reference):
    """Answers a direct question that comes to all."""

    def obey(self, initiator, is_direct, opcode, operands):
        super().obey(initiator, is_direct or opcode in (0x46, 0x8F), opcode, operands)


@slip("player")
class ObeysDirect(Reference):
    """Obeys a message for all that comes to it alone."""

    def obey(self, initiator, is_direct, opcode, operands):
        super().obey(initiator, is_direct and opcode != 0x86, opcode, operands)


@slip("player")
class AnswersUnregistered(Reference):
    """Sends answers to address 15."""

    def say(self, to, opcode, *operands):
        self.send([self.la << 4 | to, opcode, *operands], after=self.thinks)


@slip("amp")
class IgnoresUnregistered(Reference):
    """Obeys nothing that comes from address 15."""

    def obey(self, initiator, is_direct, opcode, operands):
        if initiator != UNREGISTERED:
            super().obey(initiator, is_direct, opcode, operands)


# Frames

@slip("player")
class ObeysShort(Reference):
    """Takes operands that are not there for 0."""

    def obey(self, initiator, is_direct, opcode, operands):
        missing = MESSAGES[opcode].least - len(operands) if opcode in MESSAGES else 0
        super().obey(initiator, is_direct, opcode, operands + bytes(max(missing, 0)))


@slip("recorder")
class IgnoresLong(Reference):
    """Ignores a frame with too many operands."""

    def obey(self, initiator, is_direct, opcode, operands):
        if opcode not in MESSAGES or len(operands) <= MESSAGES[opcode].least or opcode in (0x64, 0x70):
            super().obey(initiator, is_direct, opcode, operands)


@slip("player")
class SendsForever(Reference):
    """Hands in again what nobody acknowledges."""

    def say(self, to, opcode, *operands):
        super().say(to, opcode, *operands)
        self.said = [self.la << 4 | to, opcode, *operands]

    def failed(self):
        self.send(self.said)


@slip("player")
class AnswersOnce(Reference):
    """Says its name once."""

    def start(self, kind):
        super().start(kind)
        self.has_said = False

    def on_46(self, initiator, operands):
        if not self.has_said:
            super().on_46(initiator, operands)
        self.has_said = True


@slip("amp")
class AnswersTwice(Reference):
    """Says its name twice."""

    def on_46(self, initiator, operands):
        super().on_46(initiator, operands)
        super().on_46(initiator, operands)


@slip("tuner")
class AnswersTelevision(Reference):
    """Answers the television, whoever asks."""

    def say(self, to, opcode, *operands):
        super().say(to if to == UNREGISTERED else 0, opcode, *operands)


@slip("player")
class AnswersTheLast(Reference):
    """Forgets a question when the next one comes."""

    def on_46(self, initiator, operands):
        # Its name waits until nothing has come for a while.
        self.waits = True
        self.asked_by = initiator
        self.wake_up(100_000)

    def frame(self, data, acknowledged):
        self.waits = False
        super().frame(data, acknowledged)

    def wake(self):
        if self.waits:
            self.say(self.asked_by, 0x47, *b"DUT")


@slip("tuner")
class WrongVersion(Reference):
    """Refuses to say its version."""

    def on_9f(self, initiator, operands):
        return 4


@slip("player")
class VendorToOne(Reference):
    """Says its vendor to who asks, and not to all."""

    def on_8c(self, initiator, operands):
        self.say(initiator, 0x87, 2, 0, 0)


@slip("player")
class AnswersLanguage(Reference):
    """Says the language again that the television has set."""

    def on_32(self, initiator, operands):
        self.say_all(0x32, *operands[:3])
