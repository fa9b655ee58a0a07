#!/usr/bin/env python3
"""Holds the rules of EDIDs in check.py against another program: decode.py COUNT START FILE.. ; it needs edid-decode.

Each FILE is an EDID that can be read. It and COUNT changed ones of it, with mended checksums, go through both. A pair of an
EDID and a rule on which they differ is printed, with what was changed; the last line has the counts. Not asked are `address`,
`clock`, `speakers`, `hdmi-twice` and `link-clock`, for which edid-decode has no line or reads no further, and `padding` and
`out-of-range`, for which it looks at more: descriptors after the timings, and the greatest clock and the other timings."""
import os
import random
import re
import subprocess
import sys
import tempfile

sys.path.insert(0, os.path.dirname(os.path.realpath(__file__)))
from check import findings
from edid import check_edid, mend, read_ext

# the rules that edid-decode has, and a word of its line
RULES = {
    'first-timing-not-preferred': 'requires that the first detailed timing is the preferred',
    'no-preferred-timing': 'Missing preferred timing',
    'no-name': 'Missing Display Product Name',
    'no-range-limits': 'Missing Display Range Limits',
    'gtf-fixed': "can't be combined with non-continuous frequencies",
    'limits-reversed': 'Min (vertical rate|horizontal freq) > max',
    'week-of-1.4': 'EDID 1.3 does not support week',
    'srgb': 'sRGB is signaled, but the chrom|match sRGB, but sRGB',
    'empty-descriptor': 'Use Dummy Descriptor instead of all zeroes',
    'standard-unused-form': 'Use 0x0101 as the invalid Standard',
    'block-map': 'requires a Block Map Extension in Block 1 ',
    'hdmi-of-1.3': 'The HDMI Specification requires EDID 1.3',
    'two-serials': 'so the Serial Number in the Base EDID should be 0',
    'no-640x480': 'Required 640x480p60 timings are missing',
    'vic-twice': 'Duplicate VIC',
    'native-count': 'There are more Native DTDs',
    'native-mixed': 'Native (progressive|interlaced) timings are a mix',
    'overscan': 'normally this should be underscanned',
    'no-basic-audio': 'indicates no Basic Audio',
    'no-video-capability': 'Missing VCDB',
    'rgb-quantization': r'(?<!needed for )Set Selectable RGB Quantization',
    'tmds-clock': 'HDMI VSDB Max TMDS rate is > 340',
    'hdmi-vic-without-vic': 'HDMI VIC Codes must have',
    'hdmi-forum-first': 'HDMI Forum VSDB did not immediately follow',
    'block-length': '(?:Video Capability|Colorimetry|HDR Static Metadata) Data Block: Empty Data Block|'
                    'Broken CTA-861 audio block|Extended tag cannot have zero',
    'eeodb-place': 'Block starts at a wrong offset',
    'tag-reserved': r'Unknown CTA-861 Data Block \(tag 0x00',
    'audio-reserved': 'Audio Format Code 0x00 is reserved',
    'vic-reserved': 'Video Data Block: Unknown VIC',
    'hdmi-vic-reserved': 'Unknown HDMI VIC',
    'forum-clock': 'Max TMDS rate is > 0 and <= 340 or > 600',
    'map-past-codes': r'Max index \d+ > \d+',
    'ycc420-slow': 'Some YCbCr 4:2:0 timings are invalid for HDMI 2.1',
    'ycc-quantization': 'Set Selectable YCbCr Quantization',
    'latency-order': r'latency \+ 20 < ',
    'week-reserved': 'Invalid week',
    'srgb-gamma': 'sRGB is signaled, but the gamma',
    'input-reserved': 'Color Bit Depth set to reserved|Digital Video Interface Standard set to reserved',
    'displayid-checksum': 'Invalid checksum',
    'forum-vrr': "VRRmin > 48|VRRmin == 0, but VRRmax|VRRmax < 100",
}
TIMING_RULES = {
    'timing-zero': 'Detailed Timing Descriptor #\\d+: 0 values in the video timing',
    'h-back-porch': 'Detailed Timing Descriptor #\\d+: 0 or negative horizontal back porch',
    'v-back-porch': 'Detailed Timing Descriptor #\\d+: 0 or negative vertical back porch',
    'size-missing': 'image size is not set',
    'size-differs': 'Mismatch of image size \\d+x',
}


def decoded_text(bytes_):
    """what `edid-decode --check` writes of an EDID"""
    with tempfile.NamedTemporaryFile() as file:
        file.write(bytes_)
        file.flush()
        return subprocess.run(['edid-decode', '--check', file.name], capture_output=True).stdout.decode('latin-1')


def decoded(bytes_):
    """the lines of warnings and failures of edid-decode, or None where it breaks off"""
    text = decoded_text(bytes_)
    place = re.search(r'^(Warnings|Failures):$', text, re.M)
    return text[place.start():] if place else '' if 'EDID conformity' in text else None


def ours(e):
    """the rules that the model finds, those of timings without their number"""
    lines = findings(e)
    return {l.split(' ')[1] for l in lines if ' timing ' not in l} | {l.split(' ')[3] for l in lines if ' timing ' in l}


def changed(e, dice):
    """an EDID with some bytes changed, and what was changed"""
    e, told = bytearray(e), []
    for _ in range(dice.randint(1, 3)):
        place = dice.choice([dice.randrange(16, 126), dice.randrange(12, 26), 24, 35, dice.randrange(54, 126),
                             dice.randrange(130, 175) if len(e) > 128 else 24])
        value = dice.choice([0, 1, 255, dice.randrange(256), e[place] ^ 1 << dice.randrange(8)])
        if place in (18, 126) or place == 19 and value not in (3, 4):
            continue
        e[place] = value
        told.append('%d=%02x' % (place, value))
    for i in range(0, len(e), 128):
        e[i:i + 128] = mend(bytes(e[i:i + 128]))
    return bytes(e), ' '.join(told)


def is_alike(e):
    """edid-decode takes the same parts: each extension of CTA is read here too, and no timing has a clock below 10 MHz,
    after which it reads no further"""
    exts = [e[i:i + 128] for i in range(128, len(e), 128)]
    return all(x[0] != 2 or read_ext(x) is not None for x in exts) and 'clock' not in ours(e)


def main():
    count, start, files = int(sys.argv[1]), int(sys.argv[2]), sys.argv[3:]
    asked = broken = unlike = edids = broken_off = 0
    for name in files:
        with open(name, 'rb') as file:
            first = file.read()
        for number in range(start, start + count + 1):
            dice = random.Random('%s %d' % (os.path.basename(name), number))
            e, told = (first, 'as it is') if number == start else changed(first, dice)
            if check_edid(e) or not is_alike(e):
                continue
            here, there = ours(e), decoded(e)
            if there is None:
                broken_off += 1
                continue
            edids += 1
            for rule, words in list(RULES.items()) + list(TIMING_RULES.items()):
                asked += 1
                seen = re.search(words, there, re.I) is not None
                broken += rule in here
                if (rule in here) != seen:
                    unlike += 1
                    print('%s, %s: %s %s' % (name, told, rule, 'here' if rule in here else 'there'))
    print('%d EDIDs, %d pairs, %d broken here, %d unlike; %d on which edid-decode breaks off' % (edids, asked, broken, unlike, broken_off))
    return 1 if unlike else 0


if __name__ == '__main__':
    sys.exit(main())
