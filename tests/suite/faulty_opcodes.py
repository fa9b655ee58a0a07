"""Devices with one slip each, as in faulty.py: each leaves out one message that it hears or says. A row has the kind of the device, its
name, the opcode and what the device does otherwise, and perhaps a feature that it has (`has` of tools/suite)."""

from faulty import passed_over, slip
from reference import Reference


def deaf(opcode):
    """Neither obeys a message nor answers it."""
    return type("Deaf", (Reference,), {"on_%02x" % opcode: passed_over})


def blind(opcode):
    """Does not see a message: it does not refuse it either."""
    class Blind(Reference):
        def obey(self, initiator, is_direct, heard, operands):
            if heard != opcode:
                super().obey(initiator, is_direct, heard, operands)
    return Blind


def silent(opcode):
    """Does not say a message to one device."""
    class Silent(Reference):
        def say(self, to, said, *operands):
            if said != opcode:
                super().say(to, said, *operands)
    return Silent


def silent_to_all(opcode):
    """Does not say a message to all."""
    class SilentToAll(Reference):
        def say_all(self, said, *operands):
            if said != opcode:
                super().say_all(said, *operands)
    return SilentToAll


ROWS = {
    deaf: [
        # The active source
        ("player", "KeepsActive", 0x82, "Does not see that another device is the active source."),
        ("recorder", "NotRouted", 0x80, "Does not see that the picture is routed away."),
        ("player", "IgnoresPath", 0x86, "Ignores Set Stream Path."),
        # Keys, and sound
        ("player", "IgnoresRemote", 0x44, "Does nothing for User Control Pressed."),
        ("amp", "LoudnessUnsaid", 0x71, "Does not say how loud it is."),
        ("amp", "NoChannel", 0xc3, "Does not begin the audio return channel."),
        ("amp", "ChannelStays", 0xc4, "Does not end the audio return channel."),
        # Switches
        ("switch", "SwitchStays", 0x86, "Does not select the port of the path."),
        ("switch", "SwitchBlind", 0x82, "Does not select the port of the active source."),
        # What few devices have
        ("recorder", "RecordsSilently", 0x09, "Does not say that it records.", "record"),
        ("recorder", "StopsSilently", 0x0b, "Does not say that it records no more.", "record"),
        ("recorder", "TimersUnsaid", 0x97, "Does not say what became of a timer.", "timers"),
        ("tuner", "TimersStay", 0x99, "Does not say that a timer is gone.", "timers"),
        ("tuner", "TunerSilent", 0x08, "Does not say what its tuner shows.", "tuner"),
        # Televisions
        ("tv", "AnyDisplay", 0x64, "Shows text on a display that is none."),
        ("tv", "HasNoVersion", 0x9f, "Does not answer Get CEC Version."),
        ("tv", "HasNoLanguage", 0x91, "Does not answer Get Menu Language."),
        ("tv", "HasNoStatus", 0x8f, "Does not answer Give Device Power Status."),
        ("tv", "IgnoresPictures", 0x04, "Is not woken by Image View On."),
        ("tv", "WaitsForPictures", 0x0d, "Is not woken by Text View On."),
        ("tv", "HasNoReturnChannel", 0xc0, "Does not answer Initiate ARC."),
    ],
    blind: [
        ("player", "ShowsText", 0x64, "Takes text for a screen that it does not have."),
        ("player", "IgnoresStandby", 0x36, "Ignores Standby."),
        ("tuner", "AnyRate", 0x9a, "Takes an audio rate that is none."),
        ("amp", "SilentOnDescriptors", 0xa4, "Neither answers Request Short Audio Descriptor nor refuses it."),
    ],
    silent: [
        ("player", "NoViewOn", 0x04, "Plays without Image View On."),
        ("player", "NoInactive", 0x9d, "Says nothing when its key puts it into standby, as it may."),
    ],
    silent_to_all: [
        ("amp", "ModeUnsaid", 0x72, "Does not say that it has the sound."),
        ("tv", "SleepsAlone", 0x36, "Goes to standby without Standby to all."),
    ],
}

for made, rows in ROWS.items():
    for kind, name, opcode, what, *features in rows:
        slip(kind)(type(name, (made(opcode),), {"__doc__": what, **({"has": tuple(features)} if features else {})}))
