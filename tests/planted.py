#!/usr/bin/env python3
"""tests/planted.py [PROGRAM..]: plants faults in a conformant EDID, one at a time, and reads the findings of `edid --check`.

The EDID is a television's, made here of its parts, without a finding. A row of PLANTS has the clause that the fault breaks, the change, and
the lines that `edid --check` is to write: those and no others, so that no fault is silent and none has another's name. FINE has changes that
break no clause, which have no finding. Checksums are made right after each change.

PROGRAM is crates/hdminet/out/hdminet, and what Rattle's own compiler makes of the same sources, hdminet.by-rattle beside it, where none
is given. The last line is 'planted: N passed, M failed', and the status is 0 where M is 0."""
import subprocess
import sys

from built import programs, told

AUDIO, VIDEO, VENDOR, SPEAKERS, EXTENDED = 1, 2, 3, 4, 7
UNUSED = "000000100000000000000000000000000000"
FHD, UHD = "023a801871382d40582c4500baa84200001e", "08e80030f2705a80b0588a00baa84200001e"
HD = "011d007251d01e206e285500baa84200001e"
NAME, LIMITS = "000000fc004c4f554e474520344b2054560a", "000000fd00184b0f8c3c000a202020202020"


class Tv:
    """The parts of the television's EDID."""

    def __init__(self):
        self.front = bytearray.fromhex("00ffffffffffff004c2d6712010000000c1a0103807944780a8271a75244b0260c50542108008180d1c0010101010101010101010101")
        self.descriptors = [bytearray.fromhex(part) for part in (UHD, FHD, NAME, LIMITS)]
        self.flags = 0xF1
        self.revision = 3
        self.blocks = [
            (VIDEO, bytearray.fromhex("61605f5e5d62101f20041305140312")),
            (AUDIO, bytearray.fromhex("090707150750")),
            (SPEAKERS, bytearray.fromhex("010000")),
            (VENDOR, bytearray.fromhex("030c000000b83c20008001020304")),
            (VENDOR, bytearray.fromhex("d85dc401788000")),
            (EXTENDED, bytearray.fromhex("00cf")),
            (EXTENDED, bytearray.fromhex("05e000")),
            (EXTENDED, bytearray.fromhex("060501735a14")),
        ]
        self.timings = [bytearray.fromhex(HD)]
        # What stands after the timings, how the extension counts where they begin, and a change of the bytes at last.
        self.tail = b""
        self.begin = None
        self.last = []
        # The data blocks of a DisplayID extension, and a block map before it, where there is one.
        self.section = None

    def extension(self):
        blocks = b"".join(bytes([tag << 5 | len(payload)]) + payload for tag, payload in self.blocks)
        begin = 4 + len(blocks) if self.begin is None else self.begin
        body = bytes([2, self.revision, begin, self.flags]) + blocks + b"".join(self.timings) + self.tail
        return body + bytes(127 - len(body))

    def displayid(self):
        section = bytes([0x20, len(self.section), 3, 0]) + self.section
        body = b"\x70" + section + bytes([-sum(section) % 256])
        return body + bytes(127 - len(body))

    def bytes(self):
        made = []
        others = [self.extension()] if self.section is None else [b"\xf0\2\x70" + bytes(124), self.extension(), self.displayid()]
        for block in [self.front + b"".join(self.descriptors) + bytes([len(others)])] + others:
            block = bytearray(block)
            assert len(block) == 127, len(block)
            for number, at, value in self.last:
                if number == len(made):
                    block[at] = value
            made.append(bytes(block) + bytes([-sum(block) % 256]))
        return b"".join(made)


def front(at, *values):
    def change(tv):
        tv.front[at : at + len(values)] = bytes(values)

    return change


def descriptor(number, part):
    def change(tv):
        tv.descriptors[number] = bytearray.fromhex(part)

    return change


def within(number, at, *values):
    """Bytes of a descriptor."""

    def change(tv):
        tv.descriptors[number][at : at + len(values)] = bytes(values)

    return change


def block(number, part):
    """Another payload of a data block."""

    def change(tv):
        tv.blocks[number] = (tv.blocks[number][0], bytearray.fromhex(part))

    return change


def more(tag, part, at=None):
    """A data block more."""

    def change(tv):
        tv.blocks.insert(len(tv.blocks) if at is None else at, (tag, bytearray.fromhex(part)))

    return change


def without(number):
    def change(tv):
        del tv.blocks[number]

    return change


def flags(value):
    def change(tv):
        tv.flags = value

    return change


def tail(part):
    def change(tv):
        tv.tail = bytes.fromhex(part)

    return change


def section(part):
    """A DisplayID extension with these data blocks."""

    def change(tv):
        tv.section = bytes.fromhex(part)

    return change


def last(number, at, value):
    def change(tv):
        tv.last.append((number, at, value))

    return change


def both(*changes):
    def change(tv):
        for one in changes:
            one(tv)

    return change


def revision_1_4(tv):
    """The same as an EDID of 1.4: digital, eight bits, HDMI a; the preferred timing is the native one."""
    tv.front[19] = 4
    tv.front[20] = 0xA2


# The clause of DisplayID, a format above 140 kHz or 75 Hz, and the data block that has it. Those of types I, II, VI and VII have 2200 pixels a
# line and 310.2 MHz, which are 141 kHz; 3840x2160 at 64 Hz has 142.46 kHz by reduced blanking of version 2.
DISPLAYID = [
    ("1.3 4.4.1", "a timing of type I", "030014" + "2b790004" + "7f07170157802b003704890303800400"),
    ("1.3 4.4.2", "a timing of type II", "04000b" + "2b790000ef445337042c24"),
    ("1.3 4.4.3", "1600x1200 at 120 Hz by a timing of type III", "050003" + "02c777"),
    ("1.3 4.4.4", "the DMT code of 182.9 kHz", "060001" + "4b"),
    ("1.3 4.4.4", "the video code of 100 Hz", "064001" + "40"),
    ("1.3 4.4.5", "3840x2160 at 64 Hz by a timing of type V", "110007" + "0000ff0e6f083f"),
    ("1.3 4.4.6", "a timing of type VI", "13000e" + "b7bb047f073704172f011f2c0204"),
    ("2.1 4.3.1", "a timing of type VII", "220014" + "b7bb0404" + "7f07170157802b0037042c0003800400"),
    ("2.1 4.3.2", "the DMT code of 182.9 kHz", "230001" + "4b"),
    ("2.1 4.3.3", "3840x2160 at 64 Hz by a timing of type IX", "240006" + "02ff0e6f083f"),
    ("2.1 4.3.4", "3840x2160 at 64 Hz by a timing of type X", "2a0006" + "02ff0e6f083f"),
]

# The clause, the change, and the findings.
PLANTS = [
    # The base block.
    ("E-EDID A 3.6.4: 1.3 says that the first timing is the preferred one", front(24, 0x08), ["fail first-timing-not-preferred"]),
    ("E-EDID A 3.10: the first descriptor is the preferred timing", both(descriptor(0, NAME), descriptor(2, UHD)), ["fail no-preferred-timing"]),
    ("E-EDID A 3.10.3.4: 1.3 has a name", descriptor(2, UNUSED), ["fail no-name"]),
    ("E-EDID A 3.10.3.3: 1.3 has range limits", descriptor(3, UNUSED), ["fail no-range-limits"]),
    ("E-EDID A 3.10.3.3: the least field rate is not above the greatest", within(3, 5, 76), ["fail limits-reversed"]),
    ("E-EDID A 3.10.3.3: the least line rate is not above the greatest", within(3, 7, 141), ["fail limits-reversed"]),
    ("E-EDID A 3.4.4: a week of 54", front(16, 54), ["fail week-of-1.4"]),
    ("E-EDID A 3.4.4: a week of 55 to 254", front(16, 99), ["fail week-reserved"]),
    ("E-EDID A 3.4.4: a year that is to come", front(17, 2060 - 1990), ["warn year-late"]),
    ("E-EDID A 3.6.4: sRGB has its own chromaticities", front(24, 0x0E), ["fail srgb"]),
    ("E-EDID A 3.6.1: reserved bits of a digital input", front(20, 0x90), ["fail input-reserved"]),
    ("E-EDID 1.4 3.6.1: a reserved depth", both(revision_1_4, front(20, 0xF2), front(24, 0x0B)), ["warn hdmi-of-1.3", "fail input-reserved"]),
    ("E-EDID A 3.10.3: a descriptor of zeros", descriptor(2, "00" * 18), ["fail no-name", "fail empty-descriptor"]),
    ("E-EDID A 3.9: an unused standard timing is 01 01", front(42, 0, 0), ["fail standard-unused-form"]),
    ("E-EDID A 3.10.3.4: a name ends with a line feed and then spaces", descriptor(2, "000000fc004c4f554e474520344b0a54560a"), ["fail text-form"]),
    ("E-EDID A 3.10.3.4: characters of a name are printable", descriptor(2, "000000fc00" + "4c4f4107474520344b2054560a"[:26]), ["fail text-form"]),
    ("E-EDID A 3.10.3.3: range limits without a formula have a line feed", within(3, 11, 0x0B), ["warn descriptor-reserved"]),
    ("E-EDID A 3.10.3.3: spaces follow it", within(3, 17, 0x00), ["warn descriptor-reserved"]),
    ("E-EDID A 3.10.3.3: the high bits of byte 4 are clear", within(3, 4, 0x10), ["warn descriptor-reserved"]),
    ("E-EDID A 3.10.3: a tag of 11 to F6 is reserved", within(2, 3, 0x11), ["fail no-name", "warn descriptor-reserved"]),
    # Detailed timings.
    ("E-EDID A 3.10.2: a clock below 10 MHz", descriptor(1, "e703" + FHD[4:]), ["fail timing 2 clock", "fail timing 2 out-of-range"]),
    ("E-EDID A 3.10.2: a sync width of 0", within(1, 9, 0x00), ["fail timing 2 timing-zero"]),
    ("E-EDID A 3.10.2: no back porch across", within(1, 8, 0xEC), ["fail timing 2 h-back-porch"]),
    ("E-EDID A 3.10.2: no back porch down", within(1, 10, 0x85, 0x08), ["fail timing 2 v-back-porch"]),
    ("E-EDID A 3.10.2: an image without a size", within(1, 12, 0, 0, 0), ["fail timing 2 size-missing"]),
    ("E-EDID A 3.10.2: an image that is larger than the display", within(1, 12, 0xFF, 0xA8, 0x42), ["fail timing 2 size-differs"]),
    (
        "E-EDID A 3.10.3.3: field rates above the limits",
        within(3, 6, 50),
        ["fail out-of-range"] + [f"fail timing {number} out-of-range" for number in (1, 2, 3)],
    ),
    ("E-EDID A 3.10.3.3: a clock above the limits", within(3, 9, 30), ["fail out-of-range", "fail timing 1 out-of-range"]),
    # The extension.
    ("CTA-861 7.3: 640x480 at 60 Hz is asked of each display", front(35, 0x01), ["fail no-640x480"]),
    ("CTA-861 7.5.1: a video code stands once", block(0, "61605f5e5d62101f2004130514031f"), ["fail vic-twice"]),
    ("CTA-861 7.5: more native timings than timings", flags(0xF8), ["fail native-count", "fail native-mixed"]),
    ("CTA-861 7.5: native formats have one size", block(0, "61605f5e5d62901f20841305140312"), ["fail native-mixed"]),
    ("CTA-861 7.5: a display that underscans nothing by itself", flags(0x71), ["warn overscan"]),
    ("CTA-861 7.5.2: audio without basic audio", flags(0xB1), ["fail no-basic-audio"]),
    ("CTA-861 7.5.3: more than two channels without speakers", both(block(1, "0f0707150750"), without(2)), ["fail speakers"]),
    ("CTA-861 7.5.3: a speaker block has three bytes", both(block(1, "0f0707150750"), block(2, "4f00")), ["fail speakers"]),
    ("CTA-861 7.5: zeros fill an extension", last(1, 120, 1), ["fail padding"]),
    ("CTA-861 7.5.6: RGB quantization is selectable", block(5, "008f"), ["warn rgb-quantization"]),
    ("CTA-861 7.5.6: YCC quantization is selectable", block(5, "004f"), ["warn ycc-quantization"]),
    ("CTA-861 7.5.6: a display has a video capability block", without(5), ["warn no-video-capability"]),
    ("HDMI 1.4b 8.3.2: a clock above 340 MHz", block(3, "030c000000b84520008001020304"), ["fail tmds-clock"]),
    ("HDMI 1.4b 8.7: an address without a place above", block(3, "030c000100b83c20008001020304"), ["fail address"]),
    ("HDMI 1.4b 8.3.2: one HDMI block", more(VENDOR, "030c000000b83c"), ["warn hdmi-twice"]),
    ("HDMI 2.1 10.3.2: the HDMI block stands before the Forum's", both(without(3), more(VENDOR, "030c000000b83c20008001020304")), ["fail hdmi-forum-first"]),
    ("HDMI 1.4b 8.2.3.1: a format of HDMI's own has its video code too", block(0, "6160225e5d62101f20041305140312"), ["fail hdmi-vic-without-vic"]),
    ("HDMI 1.4b 8.2.3.1: a reserved format of HDMI's own", block(3, "030c000000b83c20008001020307"), ["fail hdmi-vic-reserved"]),
    ("HDMI 1.4b 8.3.2: sound that is late", block(3, "030c000000b83ca00815008001020304"), ["warn latency-order"]),
    ("HDMI 2.1 10.3.2: a clock of 340 MHz at most is the HDMI block's", block(4, "d85dc4013c8000"), ["fail forum-clock", "fail link-clock", "fail timing 1 link-clock"]),
    ("HDMI 2.1 10.3.2: a clock above 600 MHz", block(4, "d85dc401798000"), ["fail forum-clock"]),
    ("HDMI 2.1 10.3.2: a fixed rate link has SCDC", block(4, "d85dc401780030"), ["fail forum-scdc"]),
    ("HDMI 2.1 10.3.2: VRR_max is 100 or more", block(4, "d85dc401788000003050"), ["fail forum-vrr"]),
    ("CTA-861 7.5.2: an audio block has three bytes a format", block(1, "09070715"), ["fail block-length"]),
    ("CTA-861 7.5.2: audio format 0 is reserved", block(1, "010707150750"), ["fail audio-reserved"]),
    ("CTA-861 7.5.13: reserved bits of transfer functions", block(7, "061501735a14"), ["warn hdr-reserved"]),
    ("CTA-861 7.5.13: an HDR block has two bytes", block(7, "0605"), ["fail block-length"]),
    ("CTA-861 7.5.1: a reserved video code", block(0, "61605f5e5d62101f200413051403fa"), ["warn vic-reserved"]),
    ("CTA-861 7.5: a block stands once", more(EXTENDED, "05c000"), ["fail block-twice"]),
    ("CTA-861 7.5: tag 0 is reserved", more(0, "00"), ["warn tag-reserved"]),
    ("HDMI 2.1 10.3.7: the override stands first", more(EXTENDED, "7802"), ["fail eeodb-place"]),
    ("CTA-861 7.5.11: a map of a code that is not there", more(EXTENDED, "0f000080"), ["fail map-past-codes"]),
    ("CTA-861 7.5.10: a code in 4:2:0 that is slow", more(EXTENDED, "0e10"), ["warn ycc420-slow"]),
    ("CTA-861 7.5.2: a reserved bit of an audio format", block(1, "098707150750"), ["warn reserved"]),
    ("CTA-861 7.5.3: a reserved bit of the speakers", block(2, "0100f0"), ["warn reserved"]),
    ("CTA-861 7.5.6: a byte after the video capability", block(5, "00cf00"), ["warn length"]),
    ("CTA-861 7.5.1: a video code of no format", block(0, "61605f5e5d62101f20041305140380"), ["warn reserved"]),
    ("CTA-861 7.5: an extension of another revision", lambda tv: setattr(tv, "revision", 4), ["warn cta-revision"]),
    ("CTA-861 7.5: data blocks that do not end where byte 2 says", lambda tv: setattr(tv, "begin", 50), ["fail cta-overrun"]),
    ("E-EDID A 3.11: an extension of no known kind", last(1, 0, 0x33), ["warn unknown-extension"]),
    ("HDMI 1.4b 8.3.2: a link of 165 MHz and a timing of 594 MHz", both(block(3, "030c000000b8"), without(4)), ["fail link-clock", "fail timing 1 link-clock"]),
    ("HDMI 1.4b 8.3.2: a link of 300 MHz and a timing of 594 MHz", without(4), ["fail link-clock", "fail timing 1 link-clock"]),
    # Formats of DisplayID, in a CTA block and in a DisplayID extension: the limits are 140 kHz and 600 MHz.
    (
        "HDMI 2.1 10.3.2: a link of 600 MHz and a timing of type VII of 605 MHz",
        more(EXTENDED, "2202473b0904ff0e2f02af8057006f08590007800900"),
        ["fail link-clock"],
    ),
    (
        "CTA-861-I 7.5.17, E-EDID A 3.10.3.3: a timing of type VII of 151.25 kHz",
        more(EXTENDED, "220247270904ff0ebf00af8057006f08590007800900"),
        ["fail out-of-range"],
    ),
    ("CTA-861-I 7.5.18, E-EDID A 3.10.3.3: the DMT code of 182.9 kHz in a block of type VIII", more(EXTENDED, "23004b"), ["fail out-of-range"]),
    ("CTA-861-I 7.5.19, CVT 1.2: a timing of type X of 603.44 MHz and 153.9 kHz", more(EXTENDED, "2a0002ff0e6f0844"), ["fail out-of-range", "fail link-clock"]),
] + [
    (f"DisplayID {clause}, E-EDID A 3.10.3.3: {what}", section(part), ["fail out-of-range"])
    for clause, what, part in DISPLAYID
]

# Changes that break nothing.
FINE = [
    ("another serial number", front(12, 7)),
    ("the first week", front(16, 1)),
    ("all of the colorimetry of CTA-861-I", block(6, "05fff0")),
    ("no serial number", front(12, 0)),
    ("a standard timing more", front(42, 0x71, 0x4F)),
    ("the greatest clock that an HDMI block may have", block(3, "030c000000b84420008001020304")),
    ("a Forum's block with the greatest clock", block(4, "d85dc401788000")),
    ("one audio format", block(1, "090707")),
    ("no audio", both(without(1), without(1), flags(0xB1))),
    ("no HDR", without(7)),
    ("no colorimetry", without(6)),
    ("a block of another maker", more(VENDOR, "123456aabb")),
    ("a format in 4:2:0 that no video block lists", more(EXTENDED, "0e66")),
    ("a timing of type VII with the greatest clock", more(EXTENDED, "2202bf270904ff0e2f02af8057006f08590007800900")),
    ("a DMT code of a block of type VIII", more(EXTENDED, "230052")),
    ("a timing of type X within the limits", more(EXTENDED, "2a0002ff0e6f083b")),
    ("a video code of 100 Hz in a block of type VIII, where codes are of DMT", more(EXTENDED, "234040")),
    ("a timing of type X by a formula that is not known", more(EXTENDED, "2a0007ff0e6f0844")),
    ("a DisplayID extension without timings", section("")),
    ("a timing of type I of 140.9 kHz", section("030014" + "16790004" + "7f07170157802b003704890303800400")),
    ("a timing of type II of 69 kHz", section("04000b" + "4b3b0000ef445337042c24")),
    ("1600x1200 at 60 Hz by a timing of type III", section("050003" + "02c73b")),
    ("a DMT code and a video code", section("060001" + "52" + "064001" + "61")),
    ("3840x2160 at 60 Hz by a timing of type V", section("110007" + "0000ff0e6f083b")),
    ("a timing of type VI of 69 kHz, and the size of its image", section("130011" + "f750427f073704172f011f2c0204" + "000000")),
    ("two timings of type VII", section("220028" + "f7500204" + "7f07170157802b0037042c0003800400" + "f7500204" + "7f07170157802b0037042c0003800400")),
    ("3840x2160 at 60 Hz by timings of types IX and X", section("240006" + "02ff0e6f083b" + "2a1007" + "02ff0e6f083b00")),
]


def main():
    rows = [("nothing", lambda tv: None, [])] + PLANTS + [(what, change, []) for what, change in FINE]
    passed, failed = 0, []
    for program in programs():
        for clause, change, wanted in rows:
            tv = Tv()
            change(tv)
            ran = subprocess.run([program, "edid", "--check"], input=tv.bytes(), capture_output=True)
            found = ran.stdout.decode().splitlines()
            if found == wanted:
                passed += 1
            else:
                failed.append(f"{clause}: {found} in the place of {wanted} {ran.stderr.decode()!r}")
    return told("planted", passed, failed)


if __name__ == "__main__":
    sys.exit(main())
