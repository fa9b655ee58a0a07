#!/usr/bin/env python3
"""tests/modes.py [PROGRAM..]: timings by VESA's formulas, against what edid-decode works out for the same modes.

There are 22 pictures of usual sizes at 11 rates, and others by random numbers, 500 modes for each of `cvt`, `cvt-rb` and `gtf`. Each stands
as a line of an EDID's text, which `edid --words` takes to bytes; the 18 bytes of the timing are read here. What edid-decode has is the same
but for the clock, which a descriptor has in 10 kHz: of `gtf` it is the nearest. A mode that the program refuses is one for which a
descriptor has no room.

PROGRAM is crates/hdminet/out/hdminet, and what Rattle's own compiler makes of the same sources, hdminet.by-rattle beside it, where none
is given. Without edid-decode nothing is compared, which is said. The last line is 'modes: N passed, M failed', and the status is 0 where
M is 0."""
import os
import random
import re
import shutil
import subprocess
import sys

from built import TOP, programs, told

MODES = 500
SIZES = [(640, 480), (720, 480), (720, 576), (800, 600), (1024, 768), (1280, 720), (1280, 768), (1280, 800), (1280, 1024), (1360, 768),
         (1440, 900), (1600, 900), (1600, 1200), (1680, 1050), (1920, 1080), (1920, 1200), (2048, 1152), (2560, 1080), (2560, 1440),
         (2560, 1600), (3440, 1440), (3840, 2160)]
RATES = [24, 25, 30, 50, 60, 72, 75, 85, 100, 120, 144]
FORMULAS = {"cvt": ("--cvt", ""), "cvt-rb": ("--cvt", ",rb=1"), "gtf": ("--gtf", "")}
PARTS = re.compile(r"Hfront\s+(-?\d+) Hsync\s+(-?\d+) Hback\s+(-?\d+) Hpol (.).*Vfront\s+(-?\d+) Vsync\s+(-?\d+) Vback\s+(-?\d+) Vpol (.)", re.S)
# An EDID's text with the line in the place of its timing.
DISPLAY = os.path.join(TOP, "examples/living-room.edid.txt")


def modes():
    """The modes: the usual ones, and random ones whose lines have whole cells."""
    drawn = random.Random(5)
    usual = [(width, height, rate) for width, height in SIZES for rate in RATES]
    more = [(drawn.randrange(8, 4089, 8), drawn.randrange(1, 2400), drawn.choice(RATES + [165, 200])) for _ in range(MODES - len(usual))]
    return usual + more


def worked_out(formula, mode):
    """What edid-decode has: the clock in kHz, and the other numbers in the order of a descriptor's."""
    flag, more = FORMULAS[formula]
    text = subprocess.run(["edid-decode", flag, "w=%d,h=%d,fps=%d" % mode + more], capture_output=True, text=True).stdout
    clock = round(float(re.search(r"([\d.]+) MHz", text).group(1)) * 1000)
    across, h_sync, h_back, h_positive, down, v_sync, v_back, v_positive = PARTS.search(text).groups()
    h, v = [int(n) for n in (across, h_sync, h_back)], [int(n) for n in (down, v_sync, v_back)]
    flags = 0x18 | (h_positive == "P") * 2 | (v_positive == "P") * 4
    return clock, [mode[0], sum(h), mode[1], sum(v), h[0], h[1], v[0], v[1], flags]


def has_room(clock, numbers):
    """Whether a descriptor has room for them, a clock of 0 is none, and the sync stands within the blanking."""
    _, h_blank, _, v_blank, h_offset, h_sync, v_offset, v_sync, _ = numbers
    within = 0 < h_offset <= 1023 and 0 < h_sync <= 1023 and v_offset <= 63 and v_sync <= 63
    return within and 0 < clock < 655355 and h_blank <= 4095 and v_blank <= 4095 and h_offset + h_sync <= h_blank and v_offset + v_sync <= v_blank


def descriptor(d):
    """The clock in 10 kHz and the other numbers of a descriptor's 18 bytes."""
    clock = d[0] + 256 * d[1]
    h_offset, h_sync = d[8] + (d[11] >> 6) * 256, d[9] + (d[11] >> 4 & 3) * 256
    v_offset, v_sync = (d[10] >> 4) + (d[11] >> 2 & 3) * 16, (d[10] & 15) + (d[11] & 3) * 16
    return clock, [d[2] + (d[4] >> 4) * 256, d[3] + (d[4] & 15) * 256, d[5] + (d[7] >> 4) * 256, d[6] + (d[7] & 15) * 256, h_offset, h_sync, v_offset, v_sync, d[17]]


def made(program, display, formula, mode):
    """The descriptor that a mode is made to; None where it is refused."""
    text = re.sub(r"^timing .*$", "timing %s %d %d %d" % ((formula,) + mode), display, count=1, flags=re.M)
    ran = subprocess.run([program, "edid", "--words"], input=text.encode(), capture_output=True)
    return descriptor(bytes.fromhex(ran.stdout.decode())[54:72]) if ran.returncode == 0 else None


def is_alike(program, display, formula, mode):
    """Whether both have the same timing, or there is none."""
    clock, numbers = worked_out(formula, mode)
    mine = made(program, display, formula, mode)
    if mine is None:
        return not has_room(clock, numbers)
    return mine[1] == numbers and abs(10 * mine[0] - clock) <= 5


def compared(program, display):
    """How many modes are alike, and those that are not."""
    passed, failed = 0, []
    for formula in FORMULAS:
        for mode in modes():
            if is_alike(program, display, formula, mode):
                passed += 1
            else:
                failed.append("%s %d %d %d" % ((formula,) + mode))
    return passed, failed


def main():
    if not shutil.which("edid-decode"):
        print("modes: edid-decode is not installed, so that nothing is compared")
        return told("modes", 0, [])
    display = open(DISPLAY).read()
    results = [compared(program, display) for program in programs()]
    return told("modes", sum(passed for passed, _ in results), [it for _, failed in results for it in failed])


sys.exit(main())
