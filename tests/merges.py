#!/usr/bin/env python3
"""tests/merges.py [PROGRAM..]: merges random EDIDs with random links, and those of examples/, and reads what the answers offer.

A display's EDID and a receiver's are made with random video codes, codes in 4:2:0 alone, maps, formats of HDMI's own, detailed timings,
greatest clocks, fixed rates and DSC: 100 pairs, as the numbers 0 to 99 give them. Each pair goes through `edid --merge` three times: without
a row, with `video=keep` and with `video=link`. The readings here, of the link and of the formats, are a model of their own; the clocks of
video codes are those of tools/model. Of each answer by the link

    no format needs more than the link carries, and `edid --check` says nothing of `link-clock`
    each format that the link carries is there, in its place and with its mark in the map
    the preferred timing is the one of `video=keep`, or of those that the link carries the one with the greatest picture

and without a row the answer is the one by the link where the receiver has no block of the HDMI Forum, else the one of `video=keep`.

PROGRAM is crates/hdminet/out/hdminet, and what Rattle's own compiler makes of the same sources, hdminet.by-rattle beside it, where none
is given. The last line is 'merges: N passed, M failed', and the status is 0 where M is 0."""
import collections
import glob
import os
import random
import subprocess
import sys

from built import TOP, programs, told

sys.path.insert(0, os.path.join(TOP, "tools/model"))
from check import HDMI_CODES, PACE_OF, WIDTH_OF

PAIRS = 100
# Bits of a pixel and of a pixel in 4:2:0, and the least after DSC; of 18 bits of a fixed rate link 16 are payload.
FULL, HALVED, COMPRESSED = 24, 12, 6
# Lanes and gigabits a second of each by Max_FRL_Rate (HDMI 2.1, section 10.3.2).
LANES = {1: (3, 3), 2: (3, 6), 3: (4, 6), 4: (4, 8), 5: (4, 10), 6: (4, 12)}
UNUSED = bytes([0, 0, 0, 0x10]) + bytes(14)

# A format: what it is, its clock in kHz, the pixels of a line that are shown and all of them, and whether it is in 4:2:0 alone.
Need = collections.namedtuple("Need", "what clock width pixels halved")


# ---------------------------------------------------------------- reading
def is_hdmi(tag, data):
    return tag == 3 and len(data) >= 5 and data[:3] == b"\x03\x0c\x00"


def is_forum(tag, data):
    return tag == 3 and data[:3] == b"\xd8\x5d\xc4" or tag == 7 and data[:1] == b"\x79"


def extension_of(edid):
    """The data blocks of the extension that has some, and its timings."""
    for at in range(128, len(edid), 128):
        ext = edid[at : at + 128]
        if ext[0] == 2 and ext[1] == 3 and ext[2] > 4:
            blocks, place = [], 4
            while place < ext[2]:
                blocks.append((ext[place] >> 5, ext[place + 1 : place + 1 + ext[place] % 32]))
                place += 1 + ext[place] % 32
            timings = []
            while place + 18 <= 127 and ext[place : place + 2] != b"\0\0":
                timings.append(ext[place : place + 18])
                place += 18
            return blocks, timings
    return [], []


def descriptors_of(edid):
    return [edid[at : at + 18] for at in range(54, 126, 18)]


def is_timing(descriptor):
    return descriptor[:2] != b"\0\0"


def timings_of(edid):
    return [it for it in descriptors_of(edid) if is_timing(it)] + extension_of(edid)[1]


def sizes_of(timing):
    """The pixels of a line that are shown, all of them, and the lines."""
    width, lines = timing[2] | timing[4] >> 4 << 8, timing[5] | timing[7] >> 4 << 8
    return width, width + (timing[3] | timing[4] % 16 << 8), lines


def area(timing):
    width, _, lines = sizes_of(timing)
    return width * lines


def need_of_timing(timing):
    width, pixels, _ = sizes_of(timing)
    return Need(timing, (timing[0] | timing[1] << 8) * 10, width, pixels, False)


def need_of_code(svd, halved):
    code = svd - 128 if 129 <= svd <= 192 else svd
    clock, pixels, _ = PACE_OF.get(code, (0, 0, 0))
    return Need((svd, halved), clock, WIDTH_OF.get(code, 0), pixels, halved)


def own_codes(data):
    """HDMI's own codes in its block (HDMI 1.4b, section 8.3.2)."""
    if len(data) < 8 or not data[7] & 32:
        return b""
    place = 8 + 2 * (data[7] >> 7) + 2 * (data[7] >> 6 & 1)
    return data[place + 2 : place + 2 + (data[place + 1] >> 5)] if place + 1 < len(data) else b""


def marks_of(blocks):
    """Whether the map marks each byte of the video blocks, by its place; None of all where there is no map."""
    maps = [data[1:] for tag, data in blocks if tag == 7 and data[:1] == b"\x0f"]
    svds = [svd for tag, data in blocks if tag == 2 for svd in data]
    return [(svd, any(place < 8 * len(it) and it[place // 8] >> place % 8 & 1 for it in maps)) for place, svd in enumerate(svds)]


def needs_of(edid):
    """What an EDID offers."""
    for tag, data in extension_of(edid)[0]:
        if tag == 2:
            yield from (need_of_code(svd, False) for svd in data)
        elif tag == 7 and data[:1] == b"\x0e":
            yield from (need_of_code(svd, True) for svd in data[1:])
        elif is_hdmi(tag, data):
            yield from (need_of_code(HDMI_CODES.get(code, 0), False) for code in own_codes(data))
    yield from (need_of_timing(it) for it in timings_of(edid))


def carries(edid, need):
    """Whether the link of an EDID carries a format; without an HDMI block there is none to ask."""
    blocks = extension_of(edid)[0]
    if not any(is_hdmi(*it) for it in blocks):
        return True
    for tag, data in blocks:
        known = data + bytes(12)
        if is_hdmi(tag, data):
            rate = (known[6] * 5000 or 165000) * (1 + known[5] % 2)
        elif is_forum(tag, data):
            rate = known[4] * 5000
            fixed = known[6] >> 4
            bits = COMPRESSED if known[10] >= 128 else HALVED if need.halved else FULL
            lanes, each = LANES.get(fixed, (0, 0))
            if fixed > 6 or fixed and need.clock * need.width * bits * 18 <= lanes * each * 10**6 * 16 * need.pixels:
                return True
        else:
            continue
        if need.clock // (2 if need.halved else 1) <= rate:
            return True
    return False


# ---------------------------------------------------------------- making
def mended(block):
    return block[:127] + bytes([-sum(block[:127]) % 256])


def block(tag, data):
    return bytes([tag << 5 | len(data)]) + bytes(data)


def timing(r):
    """A detailed timing with a clock up to 655 MHz."""
    clock, width, lines = r.choice([(14850, 1920, 1080), (29700, 3840, 2160), (59400, 3840, 2160), (r.randrange(2500, 65536), r.randrange(64, 4096), r.randrange(64, 4096))])
    across, down = r.randrange(80, 600), r.randrange(20, 200)
    return bytes([clock % 256, clock // 256, width % 256, across % 256, width // 256 << 4 | across // 256, lines % 256, down, lines // 256 << 4,
                  20, 20, 0x22, 0, 0xA0, 0x5A, 0, 0, 0, 0x1E])


def hdmi_block(r):
    """An HDMI block, with latencies and formats or without."""
    said = bytes([r.choice([0, 0x38, 0xB8, 1]), r.choice([0, 27, 33, 45, 60, 68, 120])])
    if r.random() < 0.5:
        own = r.sample(range(1, 5), r.randrange(4))
        latencies = r.choice([0, 0x80, 0xC0])
        shapes = bytes([r.randrange(256) for _ in range(r.randrange(4))])
        said += bytes([latencies | r.choice([0x20, 0x2F])]) + bytes(2 * (latencies.bit_count())) + bytes([r.choice([0, 0x20, 0x80]), len(own) << 5 | len(shapes)]) + bytes(own) + shapes
    return block(3, b"\x03\x0c\x00\x10\x00" + (said if r.random() < 0.9 else b""))


def forum_block(r):
    said = bytes([1, r.choice([0, 68, 80, 118, 120]), 0x80, r.randrange(8) << 4 | 3, 0, 0, 0, r.choice([0, 0x80])])[: r.choice([4, 5, 8])]
    return block(3, b"\xd8\x5d\xc4" + said) if r.random() < 0.8 else block(7, b"\x79\0\0" + said)


def edid(r, base, with_forum):
    """An EDID of two blocks."""
    fast = [code for code, pace in PACE_OF.items() if pace[0] >= 150000]
    svds = [r.choice([16, 4, 31, r.randrange(1, 220), r.choice(fast), 0x80 | r.randrange(1, 65)]) for _ in range(r.randrange(1, 20))]
    parts = [block(2, svds[:9]), block(2, svds[9:]) if svds[9:] else b"", block(1, b"\x09\x07\x07"), hdmi_block(r)]
    if r.random() < 0.4:
        parts.append(block(7, bytes([0x0E] + [r.choice(fast) for _ in range(r.randrange(1, 5))])))
    if r.random() < 0.6:
        parts.append(block(7, bytes([0x0F] + [r.randrange(256) for _ in range(r.randrange(4))])))
    if with_forum:
        parts.append(forum_block(r))
    blocks = b"".join(parts)
    ext = bytes([2, 3, 4 + len(blocks), 0xF0 | r.randrange(4)]) + blocks
    while len(ext) + 18 < 127 and r.random() < 0.6:
        ext += timing(r)
    places = [timing(r)] + [r.choice([timing(r), UNUSED, b"\0\0\0\xfc\0NAME\n        "]) for _ in range(3)]
    return mended(base[:54] + b"".join(places) + b"\1\0") + mended(ext.ljust(128, b"\0"))


def pairs():
    """Each pair: its name, a display's EDID and a receiver's."""
    known = {os.path.basename(it): it for it in glob.glob(os.path.join(TOP, "examples/*.edid"))}
    read = {name: open(path, "rb").read() for name, path in sorted(known.items())}
    full = [name for name, data in read.items() if extension_of(data)[0]]
    for shown in full:
        for own in full:
            yield "%s %s" % (shown, own), read[shown], read[own]
    for number in range(PAIRS):
        r = random.Random(number)
        base = read["living-room.edid"]
        yield "pair %d" % number, edid(r, base, r.random() < 0.5), edid(r, base, r.random() < 0.4)


# ---------------------------------------------------------------- what is asked
def faults_of(kept, linked):
    """What is wrong with an answer by the link, beside the one that keeps all."""
    for need in needs_of(linked):
        if not carries(linked, need):
            yield "offers %s, which its link does not carry" % (need.what,)
    for need in needs_of(kept):
        if carries(kept, need) != carries(linked, need):
            yield "has another link"
    (before, after) = (collections.Counter(need.what for need in needs_of(it) if need.clock and carries(it, need)) for it in (kept, linked))
    lost = before - after
    # HDMI's own formats go with one of them that goes.
    own = [code for tag, data in extension_of(kept)[0] if is_hdmi(tag, data) for code in own_codes(data)]
    for what in lost:
        if what not in [need_of_code(HDMI_CODES.get(code, 0), False).what for code in own]:
            yield "lacks %s" % (what,)
    if after - before:
        yield "has more than it had"
    left = [it for it in marks_of(extension_of(kept)[0]) if not need_of_code(it[0], False).clock or carries(kept, need_of_code(it[0], False))]
    if left != marks_of(extension_of(linked)[0]):
        yield "has other marks in its map"
    first, then = descriptors_of(kept)[0], descriptors_of(linked)[0]
    if not is_timing(first) or carries(kept, need_of_timing(first)):
        if then != first:
            yield "prefers another timing"
    else:
        areas = [area(it) for it in timings_of(kept) if carries(kept, need_of_timing(it))]
        if areas and (not is_timing(then) or area(then) != max(areas)) or not areas and is_timing(then):
            yield "does not prefer the timing with the greatest picture"


def main():
    passed, failed, changed, every = 0, [], 0, list(pairs())
    for program in programs():
        def ran(words, data):
            return subprocess.run([program, "edid", *words], input=data, capture_output=True, timeout=60)

        for name, display, own in every:
            plain, kept, linked = (ran(["--merge", "--raw", *rows], display + own) for rows in ([], ["--rows", "video=keep"], ["--rows", "video=link"]))
            if [it.returncode for it in (plain, kept, linked)] != [0, 0, 0]:
                faults = ["is refused: %s" % it.stderr.decode().strip() for it in (plain, kept, linked) if it.returncode][:1]
            else:
                faults = list(faults_of(kept.stdout, linked.stdout))
                has_forum = any(is_forum(*it) for it in extension_of(own)[0])
                if plain.stdout != (kept if has_forum else linked).stdout:
                    faults.append("is another one without a row")
                if b"link-clock" in ran(["--check"], linked.stdout).stdout:
                    faults.append("breaks link-clock")
                changed += kept.stdout != linked.stdout
            failed += ["%s: the answer %s" % (name, it) for it in faults[:1]]
            passed += not faults
    if programs() and not changed:
        failed.append("no answer by the link differs")
    if not programs():
        failed.append("there is no program: ./hdminet builds it")
    return told("merges", passed, failed)


if __name__ == "__main__":
    sys.exit(main())
