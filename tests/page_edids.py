"""What the page is to show of an EDID, byte by byte: objects of `edid --json` (docs/json.md) and places of lines, by hand from
E-EDID 3 and CTA-861 7.5. Nothing here is taken from view/."""
import json
import os
import re

# A part: its first byte in the first extension, how many bytes it has, lacks and has left over, its name. Below it its fields: byte,
# highest and lowest bit, value, what is found, name | meaning.
VIDEO_CAPABILITY = """field 25 7 7 0 - QY |
field 25 6 6 1 - QS | RGB range selectable
field 25 5 4 0 - S_PT |
field 25 3 2 3 - S_IT | over- or underscanned
field 25 1 0 3 - S_CE | over- or underscanned
"""
LIVING_ROOM = """part 4 5 0 0 Video Data Block
field 4 7 5 2 - Tag Code | video
field 4 4 0 4 - Length |
field 5 7 0 144 - SVD | native
field 6 7 0 4 - SVD |
field 7 7 0 3 - SVD |
field 8 7 0 1 - SVD |
part 9 4 0 0 Audio Data Block
field 9 7 5 1 - Tag Code | audio
field 9 4 0 3 - Length |
field 10 7 7 0 - F17 |
field 10 6 3 1 - Audio Format Code | linear PCM
field 10 2 0 1 - channels | 2
field 11 7 7 0 - F27 |
field 11 6 6 0 - 192 kHz |
field 11 5 5 0 - 176.4 kHz |
field 11 4 4 0 - 96 kHz |
field 11 3 3 0 - 88.2 kHz |
field 11 2 2 1 - 48 kHz | 48 kHz
field 11 1 1 1 - 44.1 kHz | 44.1 kHz
field 11 0 0 1 - 32 kHz | 32 kHz
field 12 7 3 0 - F37 |
field 12 2 2 1 - 24 bits | 24 bits
field 12 1 1 1 - 20 bits | 20 bits
field 12 0 0 1 - 16 bits | 16 bits
part 13 4 0 0 Speaker Allocation Data Block
field 13 7 5 4 - Tag Code | speakers
field 13 4 0 3 - Length |
field 14 7 7 0 - FLw FRw |
field 14 6 6 0 - RLC RRC |
field 14 5 5 0 - FLc FRc |
field 14 4 4 0 - BC |
field 14 3 3 0 - BL BR |
field 14 2 2 0 - FC |
field 14 1 1 0 - LFE |
field 14 0 0 1 - FL FR | FL FR
field 15 7 0 0 - payload |
field 16 7 0 0 - payload |
part 17 6 0 0 HDMI Vendor-Specific Data Block
field 17 7 5 3 - Tag Code | vendor
field 17 4 0 5 - Length |
field 18 7 0 3 - IEEE OUI |
field 19 7 0 12 - IEEE OUI |
field 20 7 0 0 - IEEE OUI |
field 21 7 4 0 - A |
field 21 3 0 0 - B |
field 22 7 4 0 - C |
field 22 3 0 0 - D |
part 23 3 0 0 Video Capability Data Block
field 23 7 5 7 - Tag Code | extended
field 23 4 0 2 - Length |
field 24 7 0 0 - Extended Tag Code | Video Capability Data Block
""" + VIDEO_CAPABILITY
# A video code that is reserved, a byte left over, and a byte too few
ODD_BLOCKS = bytes.fromhex("4180" "e3004f11" "e178")
ODD = """part 4 2 0 0 Video Data Block
field 4 7 5 2 - Tag Code | video
field 4 4 0 1 - Length |
field 5 7 0 128 reserved SVD | reserved
part 6 4 0 1 Video Capability Data Block
field 6 7 5 7 - Tag Code | extended
field 6 4 0 3 - Length |
field 7 7 0 0 - Extended Tag Code | Video Capability Data Block
""" + VIDEO_CAPABILITY.replace("25", "8") + """field 9 7 0 17 left left over |
part 10 2 1 0 HDMI Forum EDID Extension Override Data Block
field 10 7 5 7 - Tag Code | extended
field 10 4 0 1 - Length |
field 11 7 0 120 - Extended Tag Code | HDMI Forum EDID Extension Override Data Block
"""
ODD_FOUND = {"fail eeodb-place": [138, 139], "warn ycc-quantization": [134, 135, 136, 137], "warn reserved": [133], "warn length": [137]}

# What is put into examples/living-room.edid, and which bytes each rule that is then broken is of
WRONG = [
    (16, 60), (17, 70),  # week 60 of 2060
    (20, 0x82),  # a reserved bit of a digital input of 1.3
    (23, 100),  # gamma 2.0, with sRGB
    (42, 0), (43, 0),  # the third standard timing is unused in another form
    (72, 0xe0), (73, 0x03),  # the second timing has a clock of 9.92 MHz
    (99, 0x07),  # the name has a bell
    (126, 2),
    (131, 0x71),  # the flags of the first extension lack bit 7
    (135, 4),  # video code 4 stands twice
    (136, 63),  # a code of 297 MHz, on a link of 165
    (149, 0x10), (150, 0x20),  # a port after a 0
]
WRONG_FOUND = {
    "fail standard-unused-form": [42, 43], "fail vic-twice": [134, 135], "warn overscan": [128, 129, 130, 131],
    "fail out-of-range": [136], "fail link-clock": [136],
    "fail address": [*range(145, 151)], "warn unknown-extension": [*range(256, 383)], "fail text-form": [*range(90, 108)],
    "fail week-reserved": [16, 17], "warn year-late": [16, 17], "warn srgb-gamma": [23], "fail input-reserved": [20],
    "warn ycc-quantization": [151, 152, 153], "fail timing 2 clock": [*range(72, 90)], "fail timing 2 out-of-range": [*range(72, 90)],
}
LIVING_ROOM_FOUND = {"warn ycc-quantization": [151, 152, 153]}

# The lines of the base block, in the order of the text, with their first and last byte (E-EDID 3)
BASE_LINES = [
    (18, 19), (8, 9), (10, 11), (12, 15), (16, 17), (20, 20), (21, 22), (23, 23), (24, 24), (25, 34), (35, 37),
    (38, 39), (40, 41), (42, 43), (44, 45), (46, 47), (48, 49), (50, 51), (52, 53), (54, 71), (72, 89), (90, 107), (108, 125),
]


def mended(data):
    """The same bytes with the checksum of each block."""
    data = bytearray(data)
    for block in range(0, len(data), 128):
        data[block + 127] = -sum(data[block:block + 127]) % 256
    return bytes(data)


def example_edid(name="living-room"):
    folder = os.path.join(os.path.dirname(os.path.dirname(os.path.realpath(__file__))), "examples")
    with open(os.path.join(folder, f"{name}.edid"), "rb") as file:
        return file.read()


def odd_edid():
    front = bytes([2, 3, 4 + len(ODD_BLOCKS), 0xf1]) + ODD_BLOCKS
    return mended(example_edid()[:128] + front + bytes(128 - len(front)))


def moved_edid():
    """A living room's EDID with its audio and its speakers exchanged, and its rows."""
    data = example_edid()
    data = data[:137] + data[141:145] + data[137:141] + data[145:]
    parts = re.split("^(?=part )", LIVING_ROOM, flags=re.M)[1:]
    move = {at: at + 4 for at in range(9, 13)} | {at: at - 4 for at in range(13, 17)}
    moved = [re.sub(r"^(part|field) (\d+)", lambda one: f"{one[1]} {move.get(int(one[2]), int(one[2]))}", part, flags=re.M) for part in parts]
    return data, "".join([moved[0], moved[2], moved[1], *moved[3:]])


def wrong_edid():
    data = bytearray(example_edid() + bytes([0x99]) + bytes(127))
    for at, byte in WRONG:
        data[at] = byte
    return mended(data)


class Field:
    """A field of the rows above, in bytes of the EDID: its value is that of the bits."""

    def __init__(self, line, data):
        told, self.meaning = line.split(" |")
        at, self.high, self.low, value, found, self.name = told.split(" ", 6)[1:]
        self.at, self.high, self.low = 128 + int(at), int(self.high), int(self.low)
        self.meaning, self.found = self.meaning.strip(), None if found == "-" else found
        self.value = data[self.at] >> self.low & (1 << self.high - self.low + 1) - 1
        self.written = int(value)

    def object(self):
        return {"type": "field", "block": 1, "byte": self.at - 128, "high": self.high, "low": self.low, "name": self.name,
                "value": self.value, "meaning": self.meaning, "found": self.found}

    def row(self):
        """What the page has of it below the map."""
        bits = f"bit {self.high}" if self.high == self.low else f"bits {self.high}..{self.low}"
        return [bits, f"{self.value:0{self.high - self.low + 1}b}", self.name, str(self.value), self.said()]

    def said(self):
        return self.meaning or self.found or ""


class Part:
    def __init__(self, line):
        at, count, cut, left, self.name = line.split(" ", 5)[1:]
        self.at, self.count, self.cut, self.left = 128 + int(at), int(count), int(cut), int(left)
        self.fields = []


class Edid:
    """An EDID: its bytes, its lines with what they mean, its parts, what is found."""

    def __init__(self, data, rows, meaning):
        self.data, self.meaning, self.parts = data, meaning, []
        for line in rows.splitlines():
            if line.startswith("part "):
                self.parts.append(Part(line))
            else:
                self.parts[-1].fields.append(Field(line, data))
        self.fields = [field for part in self.parts for field in part.fields]
        self.lines, self.meanings = [], []
        for line in meaning.splitlines():
            if line.startswith(" "):
                self.meanings[-1].append(line.strip())
            else:
                self.lines.append(line)
                self.meanings.append([])
        self.stretches = self.stretches_of()

    def objects(self):
        """The objects of `edid --json`."""
        told = []
        for part in self.parts:
            own = self.data[part.at:part.at + part.count]
            told.append({"type": "part", "block": 1, "byte": part.at - 128, "bytes": own.hex(), "name": part.name, "cut": part.cut,
                         "left": part.left})
            told += [field.object() for field in part.fields]
        return "".join(json.dumps(one, separators=(",", ":")) + "\n" for one in told)

    def stretches_of(self):
        """(first byte, the byte after the last, number of its line or None, its name), in the order of the bytes."""
        found = [(first, last + 1, i, "") for i, (first, last) in enumerate(BASE_LINES)]
        block, at = 0, 0
        for i, line in enumerate(self.lines[len(BASE_LINES):], len(BASE_LINES)):
            word = line.split(" ")[0]
            if word in ("ext", "cta", "cta-none"):
                block += 128
                at = block
            size = {"ext": 127, "cta": 4, "cta-none": 4, "timing": 18, "tail": block + 127 - at}.get(word)
            size = 1 + self.data[at] % 32 if size is None else size
            name = [part.name for part in self.parts if part.at == at and size > 0]
            found.append((at, at + size, i, name[0] if name else ""))
            at += size
        found += [(0, 8, None, "header of an EDID"), (126, 127, None, "number of extensions")]
        found += [(end - 1, end, None, "checksum of the block") for end in range(128, len(self.data) + 1, 128)]
        return sorted(found, key=lambda one: one[:2])

    def stretch_at(self, at):
        return next(one for one in self.stretches if one[0] <= at < one[1])

    def title(self, stretch):
        return self.lines[stretch[2]] if stretch[2] is not None else stretch[3]

    def about(self, at, findings):
        """What the page has below the map of a byte: `findings` are pairs of what is said of one, and its bytes."""
        byte = self.data[at]
        bits = f"{byte:08b}"
        head = f"{at:03x} block {at // 128} byte {at % 128}: {byte:02x} = {byte} = {bits[:4]} {bits[4:]} "
        rows = [field.row() for field in self.fields if field.at == at]
        return [head.strip(), self.title(self.stretch_at(at)), rows, [". ".join(said) for said, where in findings if at in where]]

    def label(self, at, findings):
        """The name of a byte for a screen reader."""
        fields = [f"{field.name} {field.value}" + (f": {field.said()}" if field.said() else "") for field in self.fields if field.at == at]
        return "; ".join([f"byte {at:03x}, {self.data[at]:02x}", self.title(self.stretch_at(at)), *fields,
                          *(said[0] for said, where in findings if at in where)])

    def classes(self, at, findings):
        """How the cell of a byte looks."""
        first, _, line, _ = self.stretch_at(at)
        said = [said[0] for said, where in findings if at in where]
        return sorted(word for word, is_so in [
            ("first", at == first or at % 16 == 0), ("own", line is None), ("fails", any(one.startswith("fail") for one in said)),
            ("warns", bool(said) and not any(one.startswith("fail") for one in said)),
            ("odd", any(field.found for field in self.fields if field.at == at))] if is_so)

    def nodes(self, findings):
        """What the side panel has of each stretch: its place, its line or name, and all texts below."""
        nodes = []
        for first, end, line, name in self.stretches:
            place = f"{first:03x}..{end - 1:03x}" if end - first > 1 else f"{first:03x}" if end > first else ""
            part = next((one for one in self.parts if one.at == first and end > first), None)
            below = ([name] if part else []) + (self.meanings[line] if line is not None else [])
            if part and part.cut:
                below.append(f"{part.cut} byte too few")
            below += [": ".join(said[:2]) for said, where in findings if set(where) & set(range(first, end))]
            rows = [[f"{field.at:03x} " + field.row()[0], *field.row()[2:]] for field in part.fields] if part else []
            nodes.append([place, self.title((first, end, line, name)), below, rows])
        return nodes


def findings_of(explained, places):
    """Of what `edid --check --explain` says: what is said of each rule, and its bytes."""
    found = []
    for line in explained.splitlines():
        if re.match("(fail|warn) ", line):
            found.append(([line], places.get(line, [])))
        elif line.startswith("  ") and found:
            found[-1][0].append(line.strip())
    return found
