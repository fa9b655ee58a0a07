#!/usr/bin/env python3
"""tests/edits.py [PROGRAM..]: the edits of docs/edid.md ("Ten edits"), and the same jobs on four full televisions.

Of the section each bold title is an edit. Its commands run in a shell, in a folder with `hdminet` and `examples`, after those that stand above
the first title. They write what WRITTEN has and then the lines that stand below `difference is` or `write`, and no more. Standard error has
what SAID has, and for each `--diff` that the EDIDs differ.

The televisions are the LG of examples/ and three that are made here of the one of tests/planted.py: one with Dolby Vision; one with an
override of the count of extensions (HF-EEODB) and three extensions, of which the last is of DisplayID; one of E-EDID 1.4 with a DisplayID
extension. Each job is a change of the text. The difference and the rules that are broken anew are written by hand.

PROGRAM is crates/hdminet/out/hdminet, and what Rattle's own compiler makes of the same sources, hdminet.by-rattle beside it, where none
is given. The last line is 'edits: N passed, M failed', and the status is 0 where M is 0."""
import collections
import os
import re
import subprocess
import sys
import tempfile

import planted
from built import TOP, fails_told

SECTION = "## Ten edits\n"
# What `--diff` says on standard error where there is a difference.
DIFFER = "hdminet: the EDIDs differ"
# What an edit of the section writes before the lines that stand there, and what else hdminet says on standard error. A mode by reduced
# blanking has the numbers of CVT 1.2; the timings of an older link are those of the codes 16 and 4 (CTA-861-I, 4).
WRITTEN = {
    "A mode of a formula": """block 0 base used 122 left 6 free-descriptors 0 free-standards 3 free-established 13
block 1 cta blocks 89 timings 18 tail 0 used 112 left 16 free-timings 0
block 1 line 34 timing clock 8550 | 24150
block 1 line 34 timing h-active 1360 | 2560
block 1 line 34 timing h-blanking 432 | 160
block 1 line 34 timing v-active 768 | 1440
block 1 line 34 timing v-blanking 27 | 41
block 1 line 34 timing h-sync-offset 64 | 48
block 1 line 34 timing h-sync-width 112 | 32
block 1 line 34 timing v-sync-width 6 | 5
block 1 line 34 timing flags 1e | 1a
""",
    "An older link": """block 0 line 20 timing clock 59400 | 14850
block 0 line 20 timing h-active 3840 | 1920
block 0 line 20 timing h-blanking 560 | 280
block 0 line 20 timing v-active 2160 | 1080
block 0 line 20 timing v-blanking 90 | 45
block 0 line 20 timing h-sync-offset 176 | 88
block 0 line 20 timing h-sync-width 88 | 44
block 0 line 20 timing v-sync-offset 8 | 4
block 0 line 20 timing v-sync-width 10 | 5
block 0 line 21 timing clock 14850 | 7425
block 0 line 21 timing h-active 1920 | 1280
block 0 line 21 timing h-blanking 280 | 370
block 0 line 21 timing v-active 1080 | 720
block 0 line 21 timing v-blanking 45 | 30
block 0 line 21 timing h-sync-offset 88 | 110
block 0 line 21 timing h-sync-width 44 | 40
block 0 line 21 timing v-sync-offset 4 | 5
block 1 line 25 video 6160101f0413051403021220212215015d5e5f6566626364 | 101f0413051403021220212215015d5e5f626364
block 1 line 28 - vendor d85dc401788003
block 1 line 32 - extended 0f030018
fail srgb
fail out-of-range
""",
}
SAID = {
    "An older link": ["hdminet: edid: a rule fails"],
    "A byte that another tool set": ["hdminet: mended base checksum"],
}

DOLBY_VISION = "0146d00024180900ad5244a9230c"
# 2560x1440 at 60 Hz by reduced blanking (VESA CVT 1.2), as types I and VII of DisplayID have it: the clock less one, in 10 kHz and in kHz.
TYPE_I = "030014 555e00 84 ff09 9f00 2f80 1f00 9f05 2800 0280 0400"
TYPE_VII = "220014 5baf03 88 ff09 9f00 2f80 1f00 9f05 2800 0280 0400"

# A television: its EDID, the flags with which it is read, the numbers of lines in its text, and the sides of its images in mm; where a timing
# has no room, the first word and field of the one that gives its own.
Tv = collections.namedtuple("Tv", "name data flags lines sides replaced")


def summed(block):
    block = block.ljust(128, b"\0")
    return block[:127] + bytes([-sum(block[:127]) % 256])


def cta(blocks):
    return summed(bytes([2, 3, 4 + len(blocks), 0xF1]) + blocks)


def display_id(version, use, block):
    """An extension with a section of one data block (DisplayID 1.3 and 2.1, 2.1)."""
    payload = bytes.fromhex(block)
    section = bytes([version, len(payload), use, 0]) + payload
    return summed(b"\x70" + section + bytes([-sum(section) % 256]))


def lounge(*changes):
    tv = planted.Tv()
    for change in changes:
        change(tv)
    return tv.bytes()


def televisions():
    with open(os.path.join(TOP, "examples/lg-oled55b6v.edid"), "rb") as file:
        yield Tv("lg", file.read(), "", dict(name=23, video=25, audio=26, hdmi=27, dolby=33, mode=34), "1600 900", "timing 8550")
    dolby = planted.more(planted.EXTENDED, DOLBY_VISION)
    yield Tv("lounge", lounge(dolby), "", dict(name=22, video=25, audio=26, hdmi=28, dolby=33, mode=35), "1210 680", None)
    override = planted.more(planted.EXTENDED, "7803", 0)
    second = cta(bytes([planted.EXTENDED << 5 | len(DOLBY_VISION) // 2]) + bytes.fromhex(DOLBY_VISION))
    four = lounge(override) + second + display_id(0x20, 2, TYPE_VII)
    yield Tv("four", four, "--eeodb", dict(name=22, video=26, audio=27, hdmi=29, dolby=37, mode=35), "1210 680", None)
    limits = planted.within(3, 10, 1)
    base, ext = lounge(planted.revision_1_4, limits, dolby)[:128], lounge(dolby)[128:]
    three = summed(base[:126] + b"\2") + ext + display_id(0x13, 3, TYPE_I)
    yield Tv("three", three, "", dict(name=22, video=25, audio=26, hdmi=28, dolby=33, mode=35), "1210 680", None)


# A mode's words, and the numbers of its timing: CTA-861 code 19, VESA DMT 52, CVT 1.2 and GTF 1.1 by the standards' own sheets.
MODES = [
    ("vic 19", "7425 1280 700 720 30 440 40 5 5", "1e"),
    ("dmt 52", "14850 1920 280 1080 45 88 44 4 5", "1e"),
    ("cvt 1920 1200 60", "19325 1920 672 1200 45 136 200 3 6", "1c"),
    ("cvt-rb 2560 1440 60", "24150 2560 160 1440 41 48 32 3 5", "1a"),
    ("gtf 1280 1024 85", "15936 1280 464 1024 51 96 136 1 3", "1c"),
]
FIELDS = "clock h-active h-blanking v-active v-blanking h-sync-offset h-sync-width v-sync-offset v-sync-width".split()
# Field rates within the range limits of each television.
RATES = {"lg": range(58, 63), "lounge": range(24, 76), "four": range(24, 76), "three": range(24, 76)}
# The timing of the LG that a mode takes the place of.
OLD_MODE = "8550 1360 432 768 27 64 112 3 6"
VIDEO = {"lg": "6160101f0413051403021220212215015d5e5f6566626364"}
AUDIO = {"lg": "3d06c0150750095707"}
NAME, SERIAL, ADDRESS = {"lg": "LG TV"}, {"lg": "16843009"}, {"lg": "1.0.0.0"}
DOLBY_BLOCK = {"four": 2}


def jobs(tv):
    """Each job: its name, a command that changes `tv.txt` to `new.txt`, the difference, and the rules that are broken anew: rates outside the
    range limits, of 58 to 62 Hz of the LG, and of 24 to 75 Hz of the others."""
    at, outside = tv.lines, "warn" if tv.name == "three" else "fail"
    mode = "%s timing %d out-of-range" % (outside, 3 if tv.replaced else 4)
    video, audio = VIDEO.get(tv.name, "61605f5e5d62101f20041305140312"), AUDIO.get(tv.name, "090707150750")
    for words, numbers, flags in MODES:
        line = "timing %s %s" % (words, tv.sides)
        if tv.replaced:
            names = zip(FIELDS + ["flags"], (OLD_MODE + " 1e").split(), (numbers + " " + flags).split())
            due = ["block 1 line %d timing %s %s | %s" % (at["mode"], *it) for it in names if it[1] != it[2]]
            change = "sed 's/^%s .*/%s/' tv.txt > new.txt" % (tv.replaced, line)
        else:
            due = ["block 1 line %d + timing %s %s 0 0 %s" % (at["mode"], numbers, tv.sides, flags)]
            change = "awk '/^tail/ && !seen++ { print \"%s\" } { print }' tv.txt > new.txt" % line
        rate = int(words.split()[-1]) if words.count(" ") == 3 else {"vic 19": 50, "dmt 52": 60}[words]
        yield "timing " + words, change, due, [] if rate in RATES[tv.name] else [mode]
    due = ["block 1 line %d video %s | %s3f" % (at["video"], video, video)]
    yield "a video code more", "sed 's/^video .*/&3f/' tv.txt > new.txt", due, [] if tv.name == "lg" else [outside + " out-of-range"]
    due = ["block %d line %d - extended %s" % (DOLBY_BLOCK.get(tv.name, 1), at["dolby"], DOLBY_VISION)]
    yield "no Dolby Vision", "sed '/^extended 0146d000/d' tv.txt > new.txt", due, []
    due = ["block 1 line %d audio %s | 090707" % (at["audio"], audio)]
    yield "stereo alone", "sed 's/^audio .*/audio pcm 2 32,44.1,48 16,20,24/' tv.txt > new.txt", due, []
    due = ['block 0 line %d name "%s" | "BEDROOM TV"' % (at["name"], NAME.get(tv.name, "LOUNGE 4K TV"))]
    yield "another name", "sed 's/^name .*/name \"BEDROOM TV\"/' tv.txt > new.txt", due, []
    yield "no serial number", "sed 's/^serial .*/serial 0/' tv.txt > new.txt", ["block 0 line 4 serial %s | 0" % SERIAL.get(tv.name, "1")], []
    due = ["block 1 line %d hdmi address %s | 2.0.0.0" % (at["hdmi"], ADDRESS.get(tv.name, "0.0.0.0"))]
    yield "another address", "./hdminet edid $flags --address 2.0.0.0 tv.edid > new.txt", due, []
    yield "nothing", "cp tv.txt new.txt", [], []


ROOMS = {
    "lg": """block 0 base used 122 left 6 free-descriptors 0 free-standards 3 free-established 13
block 1 cta blocks 89 timings 18 tail 0 used 112 left 16 free-timings 0
""",
    "lounge": """block 0 base used 116 left 12 free-descriptors 0 free-standards 6 free-established 14
block 1 cta blocks 79 timings 18 tail 0 used 102 left 26 free-timings 1
""",
    "four": """block 0 base used 116 left 12 free-descriptors 0 free-standards 6 free-established 14
block 1 cta blocks 67 timings 18 tail 0 used 90 left 38 free-timings 2
block 2 cta blocks 15 timings 0 tail 0 used 20 left 108 free-timings 6
block 3 ext used 128 left 0
""",
    "three": """block 0 base used 116 left 12 free-descriptors 0 free-standards 6 free-established 14
block 1 cta blocks 79 timings 18 tail 0 used 102 left 26 free-timings 1
block 2 ext used 128 left 0
""",
}


def shell(folder, script, **values):
    ran = subprocess.run(["sh", "-c", script], cwd=folder, capture_output=True, text=True, timeout=60, env={**os.environ, **values})
    return ran.stdout, ran.stderr


def folder_of(program, folder):
    os.symlink(program, os.path.join(folder, "hdminet"))
    os.symlink(os.path.join(TOP, "examples"), os.path.join(folder, "examples"))
    return folder


def section():
    """The commands above the first title, and of each edit its title, its commands and the lines that it writes."""
    with open(os.path.join(TOP, "docs/edid.md")) as file:
        text = file.read().split(SECTION)[1].split("\n## ")[0]
    above, edits = [], []
    into, written = above, None
    for part in text.strip().split("\n\n"):
        title = re.match(r"\*\*(.*?)\.\*\*", part)
        if title:
            edits.append((title[1], [], []))
            into = edits[-1][1]
        if part.startswith("    "):
            (written if written is not None else into).append(re.sub("^    ", "", part, flags=re.M))
        written = edits[-1][2] if edits and re.search(r"(difference is|write)$", part) else None
    return above, edits


def page_fails(program):
    """Edits of the section that write something else."""
    above, edits = section()
    yield len(edits) >= 10 or "docs/edid.md: %d edits" % len(edits)
    for title, commands, written in edits:
        with tempfile.TemporaryDirectory() as folder:
            folder_of(program, folder)
            out, err = shell(folder, "\n".join(above + commands))
        due = WRITTEN.get(title, "") + "".join(it + "\n" for it in written)
        heard = [it for it in err.splitlines() if it.startswith("hdminet: ")]
        said = SAID.get(title, []) + [DIFFER] * "\n".join(commands).count("edid --diff")
        yield bool(due) and out == due and sorted(heard) == sorted(said) or "docs/edid.md, %s: %r in the place of %r, %r" % (title, out, due, err)


# The two EDIDs that are compared: of an override with byte 126 as the blocks are, since `--diff` takes no --eeodb.
COMPARED = """
for it in tv new; do ./hdminet edid $flags $it.edid | ./hdminet edid --text --raw > $it.all; done
./hdminet edid --diff tv.all new.all
"""


def jobs_fail(program):
    """Jobs on televisions that have another outcome."""
    for tv in televisions():
        with tempfile.TemporaryDirectory() as folder:
            folder_of(program, folder)
            path = lambda name: os.path.join(folder, name)
            with open(path("tv.edid"), "wb") as file:
                file.write(tv.data)

            def ran(script):
                return shell(folder, script, flags=tv.flags)

            _, said = ran("./hdminet edid $flags tv.edid > tv.txt && ./hdminet edid $flags tv.txt --raw | cmp - tv.edid")
            yield not said or "%s does not come back: %s" % (tv.name, said)
            rules, _ = ran("./hdminet edid --check $flags tv.edid")
            for name, change, due, broken in jobs(tv):
                _, said = ran(change + "\n./hdminet edid new.txt $flags --raw > new.edid")
                out, more = ran(COMPARED)
                now, _ = ran("./hdminet edid --check $flags new.edid")
                worse = [it for it in now.splitlines() if it not in rules.splitlines()]
                good = (out.splitlines(), said, more, worse) == (due, "", DIFFER + "\n" if due else "", broken)
                yield good or "%s, %s: %s in the place of %s, %s %r" % (tv.name, name, out.splitlines(), due, worse, said + more)
            out, said = ran("./hdminet edid --room $flags tv.edid")
            yield (out, said) == (ROOMS[tv.name], "") or "%s, room: %s%s" % (tv.name, out, said)
            # Another year, without its sum: the byte before the last of the base block is 1 still, and the sum is short by the years.
            data = bytearray(tv.data)
            data[17] += 8
            with open(path("new.edid"), "wb") as file:
                file.write(data)
            out, said = ran("./hdminet edid --mend $flags --raw new.edid > mended.edid")
            data[127] = (data[127] - 8) % 256
            with open(path("mended.edid"), "rb") as file:
                yield file.read() == data and said == "hdminet: mended base checksum\n" or "%s, --mend: %r" % (tv.name, said)
            for form in ("c", "xml", "firmware"):
                back = {"firmware": ""}.get(form, "--hex")
                _, said = ran("./hdminet edid $flags --as %s tv.edid > it && ./hdminet edid %s $flags --raw it | cmp - tv.edid" % (form, back))
                yield not said or "%s, --as %s: %s" % (tv.name, form, said)


def main():
    return fails_told("edits", [page_fails, jobs_fail])


if __name__ == "__main__":
    sys.exit(main())
