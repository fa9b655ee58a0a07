#!/usr/bin/env python3
"""tests/turned_bits.py [PROGRAM..]: each bit of the payloads of CTA data blocks, turned alone: a value that a standard reserves is found.

The EDIDs are those of examples/, the television of tests/planted.py, and two that are made here of the blocks that those do not have. Of each
bit `edid --check` has a finding of RULES where the turned block has a reserved value, and none where it has not. The readings here, which
say so of a payload, are a model of their own, by hand from CTA-861-I (7.5), HDMI 1.4b (8.3.2 and appendix H) and HDMI 2.1 (10.3.2). They leave
open (None) blocks of other makers, the third byte of some audio formats, bits that say which table is due, details of 3D, video references to
lists of formats, and bits of gamut metadata.

PROGRAM is crates/hdminet/out/hdminet, and what Rattle's own compiler makes of the same sources, hdminet.by-rattle beside it, where none
is given. The last line is 'turned bits: N passed, M failed', and the status is 0 where M is 0."""
import concurrent.futures
import glob
import os
import subprocess
import sys

import planted
from built import TOP, programs, told

AUDIO, VIDEO, VENDOR, SPEAKERS, EXTENDED = 1, 2, 3, 4, 7
RULES = {"reserved", "audio-reserved", "hdr-reserved", "vic-reserved", "hdmi-vic-reserved"}
HDMI, FORUM = b"\x03\x0c\x00", b"\xd8\x5d\xc4"


def of_any(parts):
    """Whether one is reserved: None where none is and one is open."""
    parts = list(parts)
    return True if True in parts else None if None in parts else False


def is_no_code(svd):
    """A short video descriptor: 1 to 127, 129 to 192 native, 193 to 219 (table 11)."""
    return svd in (0, 128) or svd > 219


def of_references(data):
    """Short video references: codes, timings by their place, the first of type VIII (7.5.12)."""
    for svr in data:
        yield True if svr in (0, 128, 255) or 176 <= svr <= 192 else None if 161 <= svr <= 175 or 220 <= svr <= 253 else False


def of_audio(data):
    for at in range(0, len(data) // 3 * 3, 3):
        first, second, third = data[at : at + 3]
        code = first >> 3 & 15
        if code == 15:
            yield None
            continue
        yield code == 0 or first > 127 or second > 127
        # Linear PCM, the greatest bit rate, Enhanced AC-3 and MAT, WMA Pro (tables 34 to 37); of others the format says it.
        yield third > 7 if code == 1 else False if 2 <= code <= 8 else third > 3 if code in (10, 12) else third > 7 if code == 14 else None


def of_hdmi(data):
    # What stands after the fields is reserved.
    if len(data) > 5:
        yield bool(data[5] & 0x06)
    if len(data) <= 7:
        return
    present = data[7]
    yield bool(present & 0x10)
    # I_Latency_Fields_Present stands with Latency_Fields_Present alone.
    if present & 0xC0 == 0x40:
        yield None
        return
    latencies = 2 * (present >> 7) + 2 * (present >> 6 & 1)
    # A latency is (ms / 2) + 1, at most 251, or 0 or 255.
    yield any(252 <= it <= 254 for it in data[8 : 8 + latencies])
    at = 8 + latencies
    if not present & 0x20:
        yield any(data[at:])
        return
    if at + 1 >= len(data):
        yield None
        return
    yield bool(data[at] & 0x07)
    several, codes, shapes = data[at] >> 5 & 3, data[at + 1] >> 5, data[at + 1] & 31
    if data[at] & 0x60 == 0x60 or at + 2 + codes + shapes > len(data):
        yield None
        return
    yield any(it == 0 or it > 4 for it in data[at + 2 : at + 2 + codes])
    rest = data[at + 2 + codes : at + 2 + codes + shapes]
    if several:
        if len(rest) < 2 * several:
            yield None
            return
        # 3D_Structure_ALL: 0 to 6, 8 and 15.
        yield bool((rest[0] << 8 | rest[1]) & 0x7E80)
        rest = rest[2 * several :]
    while rest:
        shape = rest[0] & 15
        yield shape == 7 or shape > 8
        if shape == 8:
            # 3D_Detail, whose bits 3 to 0 are reserved; which details there are is left open, and a structure without one.
            yield True if len(rest) > 1 and rest[1] & 15 else None
            if len(rest) == 1:
                return
        rest = rest[2:] if shape >= 8 else rest[1:]
    yield any(data[at + 2 + codes + shapes :])


def of_forum(data):
    yield False if data[3] == 1 else None
    data = data.ljust(13, b"\0")
    yield data[6] >> 4 > 6
    yield data[11] >> 4 > 6 or data[11] & 15 > 7
    yield data[12] > 63


def is_reserved(tag, data):
    """Whether a payload has a reserved value; None where it is left open."""
    if tag == AUDIO:
        return of_any(of_audio(data))
    if tag == VIDEO:
        return any(map(is_no_code, data))
    if tag == SPEAKERS:
        return len(data) == 3 and data[2] > 31
    if tag == VENDOR:
        return of_any(of_hdmi(data)) if data[:3] == HDMI else of_any(of_forum(data)) if data[:3] == FORUM else None
    readers = {
        0x00: lambda: False,
        # The bits of gamut metadata are left open.
        0x05: lambda: None if data[2] & 15 else False,
        0x06: lambda: data[1] > 15 or data[2] > 1,
        0x0D: lambda: of_any(of_references(data[1:])),
        0x0E: lambda: any(map(is_no_code, data[1:])),
        0x0F: lambda: False,
        0x78: lambda: False,
    }
    return readers.get(data[0], lambda: None)() if tag == EXTENDED else None


def first_bit(tag, data):
    """The first byte that is turned: those before it say which block it is."""
    return 3 if tag == VENDOR else 1 if tag == EXTENDED else 0


def blocks_of(edid):
    """The data blocks of the first extension: the place of the payload, its tag and its bytes."""
    at = 132
    while at < 128 + edid[130]:
        count = edid[at] & 31
        yield at + 1, edid[at] >> 5, edid[at + 1 : at + 1 + count]
        at += 1 + count


def block(tag, part):
    return tag, bytearray.fromhex(part)


def further(blocks):
    """The television of tests/planted.py with other data blocks, and no timing after them."""
    tv = planted.Tv()
    tv.blocks, tv.timings = [block(*it) for it in blocks], []
    return tv.bytes()


# Each audio format; and latencies, 3D, all of the HDMI Forum's block, and lists of codes.
SOUND = [
    (VIDEO, "9004031f"),
    (AUDIO, "0f7f07 150750 1d0728 250728 2d0750 350750 3d1ec0 451ec0"),
    (AUDIO, "4f0200 577f03 5f7f01 677f01 6f0200 770607"),
    (SPEAKERS, "ffff1f"),
    (VENDOR, "030c001000b83c"),
    (EXTENDED, "00cf"),
]
SIGHT = [
    (VIDEO, "6160105d5f04"),
    (VENDOR, "030c00 1000b83c ef 0c140c14 c027 01 0141 000f 00 0810"),
    (VENDOR, "d85dc4 0178ff6bff7078ff6609"),
    (EXTENDED, "00cf"),
    (EXTENDED, "05fff0"),
    (EXTENDED, "060f01735a14"),
    (EXTENDED, "0d105c9184"),
    (EXTENDED, "0e6660"),
    (EXTENDED, "0f3f"),
]


def samples():
    for path in sorted(glob.glob(os.path.join(TOP, "examples/*.edid"))):
        with open(path, "rb") as file:
            yield os.path.basename(path), file.read()
    yield "television of tests/planted.py", planted.Tv().bytes()
    yield "sound", further(SOUND)
    yield "sight", further(SIGHT)


def found(program, edid):
    """The rules of RULES that are found."""
    ran = subprocess.run([program, "edid", "--check"], input=edid, capture_output=True, timeout=60)
    if ran.returncode not in (0, 5):
        return ran.stderr.decode()
    return sorted(RULES & {line.split()[-1] for line in ran.stdout.decode().splitlines()})


def turns(name, edid):
    """Each bit: what it is, the EDID with it turned, and whether that has a reserved value."""
    every = list(blocks_of(edid))
    for at, tag, data in every:
        others = of_any(is_reserved(*it[1:]) for it in every if it[0] != at)
        for byte in range(first_bit(tag, data), len(data)):
            for bit in range(8):
                turned = bytearray(edid)
                turned[at + byte] ^= 1 << bit
                turned[255] = (turned[255] + edid[at + byte] - turned[at + byte]) % 256
                mine = is_reserved(tag, bytes(turned[at : at + len(data)]))
                yield "%s, %d %s, byte %d bit %d" % (name, tag, data.hex(), byte, bit), bytes(turned), True if mine or others else mine


def main():
    passed, failed = 0, []
    every, plain = [], []
    for name, edid in samples():
        plain.append((name, edid, of_any(is_reserved(*it[1:]) for it in blocks_of(edid))))
        every += turns(name, edid)
    for program in programs():
        with concurrent.futures.ThreadPoolExecutor(os.cpu_count()) as pool:
            asked = [it for it in plain + every if it[2] is not None]
            for (what, _, due), rules in zip(asked, pool.map(lambda it: found(program, it[1]), asked)):
                good = isinstance(rules, list) and bool(rules) == due
                passed += good
                if not good:
                    failed.append("%s: %s, and %s" % (what, rules, "reserved" if due else "not reserved"))
    if not passed:
        failed.append("there is no program: ./hdminet builds it")
    return told("turned bits", passed, failed)


if __name__ == "__main__":
    sys.exit(main())
