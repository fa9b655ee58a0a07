"""Devices with one slip each, as in faulty.py: those that err in a feature of CEC 13."""

from faulty import passed_over, slip
from reference import DECK_PLAY, DECK_STOP, Reference


# The active source

@slip("player")
class AlwaysActive(Reference):
    """Says that it is the active source whenever somebody asks."""

    def on_85(self, initiator, operands):
        self.say_all(0x82, *self.bytes_of(self.physical))


@slip("recorder")
class AnyPath(Reference):
    """Takes any path for its own."""

    def on_86(self, initiator, operands):
        super().on_86(initiator, bytes(self.bytes_of(self.physical)))


@slip("player")
class WrongSource(Reference):
    """Says that the active source is at 0.0.0.0."""

    def say_all(self, opcode, *operands):
        super().say_all(opcode, *((0, 0) if opcode == 0x82 else operands))


@slip("player")
class ShowsItself(Reference):
    """Says that it is the active source when it starts."""

    def report_physical(self):
        super().report_physical()
        if not self.active:
            self.say_all(0x82, *self.bytes_of(self.physical))


# Standby

@slip("player")
class IgnoresStandbyToAll(Reference):
    """Ignores Standby to all."""

    def obey(self, initiator, is_direct, opcode, operands):
        if opcode != 0x36 or is_direct:
            super().obey(initiator, is_direct, opcode, operands)


@slip("player")
class ActiveInStandby(Reference):
    """Says in standby that it is the active source."""

    def on_36(self, initiator, operands):
        was_active = self.active
        super().on_36(initiator, operands)
        self.active = was_active

    def on_85(self, initiator, operands):
        if self.active:
            self.say_all(0x82, *self.bytes_of(self.physical))


@slip("tuner")
class WakesForStandby(Reference):
    """Wakes for Standby where it is in standby."""

    def on_36(self, initiator, operands):
        was_on = self.on
        super().on_36(initiator, operands)
        self.on = not was_on


@slip("player")
class SleepsOn(Reference):
    """Does nothing for its key in standby."""

    def press(self, key):
        if self.on:
            super().press(key)


@slip("amp")
class AlwaysOn(Reference):
    """Says that it is on in standby."""

    def on_8f(self, initiator, operands):
        self.say(initiator, 0x90, 0)


@slip("recorder")
class AlwaysOff(Reference):
    """Says that it is in standby where it is on."""

    def on_8f(self, initiator, operands):
        self.say(initiator, 0x90, 1)


class InTransition(Reference):
    """Says that it is in transition for a time after it was put to standby or woken."""
    takes = 4_300_000
    changed_at = None
    is_on = True

    @property
    def on(self):
        return self.is_on

    @on.setter
    def on(self, is_on):
        if is_on != self.is_on:
            self.changed_at = self.now
        self.is_on = is_on

    def renew(self):
        super().renew()
        self.changed_at = None

    def on_8f(self, initiator, operands):
        is_over = self.changed_at is None or self.now - self.changed_at >= self.takes
        self.say(initiator, 0x90, (0 if self.on else 1) if is_over else 2 if self.on else 3)


@slip("player")
class SettlesSlowly(InTransition):
    """Is in transition for six seconds, as it may."""
    takes = 6_000_000


@slip("recorder")
class SettlesLate(InTransition):
    """Is in transition for more than a minute."""
    takes = 61_000_000


@slip("player")
class NeverSettles(InTransition):
    """Says that it is in transition for ever."""
    takes = float("inf")


@slip("amp")
class NeverSettlesAmp(NeverSettles):
    """The same of an amplifier."""


@slip("tv")
class NeverSettlesTelevision(NeverSettles):
    """The same of a television."""


# Decks

@slip("recorder")
class SaysNothing(Reference):
    """Does not say what the deck does to who asks once."""

    def on_1a(self, initiator, operands):
        if operands[0] != 3:
            return super().on_1a(initiator, operands)


@slip("player")
class StopsNever(Reference):
    """Does not stop for Deck Control."""

    def on_42(self, initiator, operands):
        if operands[0] != 3:
            return super().on_42(initiator, operands)


@slip("recorder")
class MenuSilent(Reference):
    """Does not say whether its menu is shown."""

    def on_8d(self, initiator, operands):
        if operands[0] != 2:
            return super().on_8d(initiator, operands)


@slip("player")
class NotifiesNobody(Reference):
    """Reports no change of the deck."""

    def set_deck(self, deck):
        self.deck = deck


@slip("player")
class NotifiesTelevision(Reference):
    """Reports changes to the television, whoever asked."""

    def set_deck(self, deck):
        self.notified = None if self.notified is None else 0
        super().set_deck(deck)


@slip("recorder")
class KeyUnsaid(Reference):
    """Does not report a change that its key has made."""

    def press(self, key):
        notified, self.notified = self.notified, None
        super().press(key)
        self.notified = notified


@slip("recorder")
class PlaysSlowly(Reference):
    """Plays forward where it is to play fast."""

    def on_41(self, initiator, operands):
        return super().on_41(initiator, b"\x24" if operands[0] in (5, 6, 7) else operands)


@slip("player")
class MenuAny(Reference):
    """Takes each request of its menu for a query."""

    def on_8d(self, initiator, operands):
        return super().on_8d(initiator, bytes([min(operands[0], 2)]))


@slip("tuner")
class RecordsNothing(Reference):
    """Takes Record On and timers, and does nothing."""

    def refuse(self, to, opcode, reason):
        if opcode not in (0x09, 0x97):
            super().refuse(to, opcode, reason)


@slip("recorder")
class NotifiesAlways(Reference):
    """Goes on to report changes to who does not want them."""

    def on_1a(self, initiator, operands):
        if operands[0] != 2:
            return super().on_1a(initiator, operands)


@slip("player")
class PlaysNothing(Reference):
    """Plays without a medium."""

    def on_41(self, initiator, operands):
        if self.deck != 0x19:
            return super().on_41(initiator, operands)
        self.set_deck(DECK_PLAY)


@slip("player")
class SaysStop(Reference):
    """Says that it stands still whenever somebody asks."""

    def on_1a(self, initiator, operands):
        deck, self.deck = self.deck, DECK_STOP
        refused = super().on_1a(initiator, operands)
        self.deck = deck
        return refused


@slip("player")
class MenuReversed(Reference):
    """Says that its menu is shown where it is hidden."""

    def on_8d(self, initiator, operands):
        self.menu = {0: False, 1: True}.get(operands[0], self.menu)
        return super().on_8d(initiator, b"\x02" if operands[0] < 3 else operands)


@slip("player")
class MenuKeyUnsaid(Reference):
    """Does not say that its key has shown its menu."""

    def press(self, key):
        if key != "menu":
            super().press(key)


# The remote control

@slip("amp")
class NeverReleases(Reference):
    """Goes on with a key for ever."""

    on_45 = passed_over

    def is_released(self):
        return False


@slip("amp")
class NoTimeOut(Reference):
    """Goes on with a key whose release is lost."""

    def is_released(self):
        return False


@slip("amp")
class ActsOnce(Reference):
    """Acts on the first press of a key alone."""

    def wake(self):
        pass


@slip("amp")
class IgnoresVolume(Reference):
    """Does nothing for the keys of the volume."""

    def act(self, code):
        pass


# Sound

@slip("amp")
class NeverMute(Reference):
    """Does not turn the sound off."""

    def act(self, code):
        if code != 0x43:
            super().act(code)


@slip("amp")
class SleepsWithSound(Reference):
    """Takes the sound in standby, and stays there."""

    def on_70(self, initiator, operands):
        was_on = self.on
        super().on_70(initiator, operands)
        self.on = was_on


@slip("amp")
class ModeStays(Reference):
    """Does not give the sound back."""

    def on_70(self, initiator, operands):
        if len(operands) >= 2:
            super().on_70(initiator, operands)


@slip("amp")
class ChannelForAll(Reference):
    """Begins the audio return channel for any device."""

    def on_c3(self, initiator, operands):
        self.say(initiator, 0xC0)


# Switches

@slip("switch")
class SwitchSilent(Reference):
    """Says nothing of the path."""

    def routed(self, physical):
        pass


@slip("switch")
class SwitchAny(Reference):
    """Takes any path for its own."""

    def routed(self, physical):
        super().routed(self.physical)


@slip("switch")
class SwitchKeyUnsaid(Reference):
    """Does not say that its key has selected another port."""

    def press(self, key):
        self.port = int(key[5:])
