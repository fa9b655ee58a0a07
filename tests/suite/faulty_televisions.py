"""Televisions with one slip each, as the devices in faulty.py."""

from faulty import AcknowledgesAll, RefusesBroadcasts, RefusesNothing, ReportsNothing, slip
from reference import Reference


# Addresses

@slip("tv")
class TakesTheSecond(Reference):
    """Takes address 14, though it is the root and 0 is free."""

    def poll(self):
        self.candidates = self.candidates[-1:]
        super().poll()


@slip("tv")
class HoldsFourteen(AcknowledgesAll):
    """Holds 14 beside 0."""


@slip("tv")
class IsNoTelevision(Reference):
    """Reports that it is a recorder."""

    def report_physical(self):
        self.say_all(0x84, *self.bytes_of(self.physical), 1)


@slip("tv")
class ComesSilently(ReportsNothing):
    """Does not report its physical address."""


# Refusals

@slip("tv")
class TakesAll(RefusesNothing):
    """Never sends Feature Abort."""


@slip("tv")
class RefusesToAll(RefusesBroadcasts):
    """Sends Feature Abort for a broadcast that it does not know."""


# On and off

@slip("tv")
class StaysOn(Reference):
    """Does not obey Standby."""

    def on_36(self, initiator, operands):
        if initiator == 0:
            super().on_36(initiator, operands)


# Keys, and sound

@slip("tv")
class HasNoKeys(Reference):
    """Passes no key on, and shows no device."""

    def press_of_television(self, key, *values):
        if key not in ("watch", "remote"):
            super().press_of_television(key, *values)


@slip("tv")
class KeepsItsKeys(Reference):
    """Does not say that a key of the remote control is released."""

    def release(self, key):
        if not key.startswith("remote "):
            super().release(key)


@slip("tv")
class KeepsItsSound(Reference):
    """Asks no amplifier for system audio mode."""

    def press_of_television(self, key, *values):
        if key != "audio":
            super().press_of_television(key, *values)
