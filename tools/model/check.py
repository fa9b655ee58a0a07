"""The rules that an EDID is to keep, and the other ways in which `edid` writes one: a plain model."""
import collections
import math
from fractions import Fraction

import blocks as tables
import merge

from edid import check_edid, edid_text, first_hdmi, hdmi_place, is_hdmi, port_edid, read_ext
from wire import pa_text, parse_pa

SRGB = (655, 338, 307, 614, 154, 61, 320, 337)
HDMI_CODES = {1: 95, 2: 94, 3: 93, 4: 98}
# the tags of extensions (E-EDID Release A, section 2.2.1)
EXTENSIONS = (0x02, 0x10, 0x40, 0x50, 0x60, 0x70, 0xF0, 0xFF)
# video codes by their pixel clock in kHz, pixels of a line and half lines of a field (CTA-861, table 2)
PACES = {
    (25175, 800, 1050): [1],
    (27000, 858, 1050): [2, 3],
    (74250, 1650, 1500): [4, 69],
    (74250, 2200, 1125): [5],
    (27000, 1716, 525): [6, 7],
    (27000, 1716, 524): [8, 9],
    (54000, 3432, 525): [10, 11],
    (54000, 3432, 524): [12, 13],
    (54000, 1716, 1050): [14, 15],
    (148500, 2200, 2250): [16, 76],
    (27000, 864, 1250): [17, 18],
    (74250, 1980, 1500): [19, 68],
    (74250, 2640, 1125): [20],
    (27000, 1728, 625): [21, 22],
    (27000, 1728, 624): [23, 24],
    (54000, 3456, 625): [25, 26],
    (54000, 3456, 624): [27, 28],
    (54000, 1728, 1250): [29, 30],
    (148500, 2640, 2250): [31, 75],
    (74250, 2750, 2250): [32, 72],
    (74250, 2640, 2250): [33, 73],
    (74250, 2200, 2250): [34, 74],
    (108000, 3432, 1050): [35, 36],
    (108000, 3456, 1250): [37, 38],
    (72000, 2304, 1250): [39],
    (148500, 2640, 1125): [40],
    (148500, 1980, 1500): [41, 70],
    (54000, 864, 1250): [42, 43],
    (54000, 1728, 625): [44, 45],
    (148500, 2200, 1125): [46],
    (148500, 1650, 1500): [47, 71],
    (54000, 858, 1050): [48, 49],
    (54000, 1716, 525): [50, 51],
    (108000, 864, 1250): [52, 53],
    (108000, 1728, 625): [54, 55],
    (108000, 858, 1050): [56, 57],
    (108000, 1716, 525): [58, 59],
    (59400, 3300, 1500): [60, 65, 79],
    (74250, 3960, 1500): [61, 66],
    (74250, 3300, 1500): [62, 67],
    (297000, 2200, 2250): [63, 78],
    (297000, 2640, 2250): [64, 77],
    (59400, 3168, 1500): [80],
    (59400, 2640, 1500): [81],
    (82500, 2200, 1500): [82],
    (99000, 2200, 1500): [83],
    (165000, 2000, 1650): [84],
    (198000, 2000, 1650): [85],
    (99000, 3750, 2200): [86],
    (90000, 3200, 2250): [87],
    (118800, 3520, 2250): [88],
    (185625, 3300, 2250): [89],
    (198000, 3000, 2200): [90],
    (371250, 2970, 2500): [91],
    (495000, 3300, 2500): [92],
    (297000, 5500, 4500): [93, 98, 103],
    (297000, 5280, 4500): [94, 99, 104],
    (297000, 4400, 4500): [95, 100, 105],
    (594000, 5280, 4500): [96, 101, 106],
    (594000, 4400, 4500): [97, 102, 107],
    (90000, 2500, 1500): [108, 109],
    (99000, 2750, 1500): [110],
    (148500, 2750, 2250): [111, 112],
    (198000, 3750, 2200): [113],
    (594000, 5500, 4500): [114, 115, 116],
    (1188000, 5280, 4500): [117, 119, 218],
    (1188000, 4400, 4500): [118, 120, 219],
    (396000, 7500, 4400): [121],
    (396000, 7200, 4400): [122],
    (396000, 6000, 4400): [123],
    (742500, 6250, 4950): [124],
    (742500, 6600, 4500): [125],
    (742500, 5500, 4500): [126],
    (1485000, 6600, 4500): [127],
    (1485000, 5500, 4500): [193],
    (1188000, 11000, 9000): [194, 202],
    (1188000, 10800, 8800): [195, 203],
    (1188000, 9000, 8800): [196, 204],
    (2376000, 11000, 9000): [197, 205],
    (2376000, 10800, 8800): [198, 206],
    (2376000, 9000, 8800): [199, 207],
    (4752000, 10560, 9000): [200, 208],
    (4752000, 8800, 9000): [201, 209],
    (1485000, 12500, 9900): [210],
    (1485000, 13500, 8800): [211],
    (1485000, 11000, 9000): [212],
    (2970000, 12500, 9900): [213],
    (2970000, 13500, 8800): [214],
    (2970000, 11000, 9000): [215],
    (5940000, 13200, 9000): [216],
    (5940000, 11000, 9000): [217],
}
PACE_OF = {code: pace for pace, codes in PACES.items() for code in codes}
# established timings: byte, bit, and the same three
ESTABLISHED = [
    (35, 7, 28320, 900, 898),
    (35, 6, 35500, 900, 898),
    (35, 5, 25175, 800, 1050),
    (35, 4, 30240, 864, 1050),
    (35, 3, 31500, 832, 1040),
    (35, 2, 31500, 840, 1000),
    (35, 1, 36000, 1024, 1250),
    (35, 0, 40000, 1056, 1256),
    (36, 7, 50000, 1040, 1332),
    (36, 6, 49500, 1056, 1250),
    (36, 5, 57284, 1152, 1334),
    (36, 4, 44900, 1264, 817),
    (36, 3, 65000, 1344, 1612),
    (36, 2, 75000, 1328, 1612),
    (36, 1, 78750, 1312, 1600),
    (36, 0, 135000, 1688, 2132),
    (37, 7, 100000, 1456, 1830),
]
DUMMY = b'\0\0\0\x10' + bytes(14)
# the video codes of 1 to 64, by width, lines and whether there are two fields (CTA-861, table 3)
SIZES = {
    (640, 480, False): [1],
    (720, 480, False): [2, 3, 48, 49, 56, 57],
    (720, 576, False): [17, 18, 42, 43, 52, 53],
    (1280, 720, False): [4, 19, 41, 47, 60, 61, 62],
    (1440, 240, False): [8, 9],
    (1440, 288, False): [23, 24],
    (1440, 480, False): [14, 15],
    (1440, 576, False): [29, 30],
    (1920, 1080, False): [16, 31, 32, 33, 34, 63, 64],
    (2880, 240, False): [12, 13],
    (2880, 288, False): [27, 28],
    (2880, 480, False): [35, 36],
    (2880, 576, False): [37, 38],
    (1440, 480, True): [6, 7, 50, 51, 58, 59],
    (1440, 576, True): [21, 22, 44, 45, 54, 55],
    (1920, 1080, True): [5, 20, 39, 40, 46],
    (2880, 480, True): [10, 11],
    (2880, 576, True): [25, 26],
}


# the pixels of a line of the codes above 64 (CTA-861, table 3)
WIDTHS = {
    1280: [*range(65, 72), 108, 109], 1680: [*range(79, 86), 110], 1920: [*range(72, 79), 111, 112], 2560: [*range(86, 93), 113],
    3840: [*range(93, 98), *range(103, 108), 114, 116, *range(117, 121)], 4096: [*range(98, 103), 115, 218, 219],
    5120: [*range(121, 128), 193], 7680: [*range(194, 210)], 10240: [*range(210, 218)],
}
WIDTH_OF = {code: width for width, codes in WIDTHS.items() for code in codes} | {code: size[0] for size, codes in SIZES.items() for code in codes}


def chroma(b):
    low = [b[25] >> 6, b[25] >> 4 & 3, b[25] >> 2 & 3, b[25] & 3, b[26] >> 6, b[26] >> 4 & 3, b[26] >> 2 & 3, b[26] & 3]
    return tuple(b[27 + i] << 2 | low[i] for i in range(8))


class Timing:
    def __init__(self, t):
        self.clock = t[0] | t[1] << 8
        self.h_active, self.h_blank = t[2] | (t[4] >> 4) << 8, t[3] | (t[4] & 15) << 8
        self.v_active, self.v_blank = t[5] | (t[7] >> 4) << 8, t[6] | (t[7] & 15) << 8
        self.h_offset, self.h_width = t[8] | (t[11] >> 6) << 8, t[9] | (t[11] >> 4 & 3) << 8
        self.v_offset, self.v_width = t[10] >> 4 | (t[11] >> 2 & 3) << 4, t[10] & 15 | (t[11] & 3) << 4
        self.width, self.height = t[12] | (t[14] >> 4) << 8, t[13] | (t[14] & 15) << 8
        self.h_border, self.v_border, self.flags = t[15], t[16], t[17]
        self.interlaced = self.flags >= 128


def limits(b, four):
    """(least, greatest, whether no rate is above it) of fields a second and of thousands of lines a second, and the greatest clock, of each
    range descriptor"""
    for i in range(4):
        d = b[54 + 18 * i:72 + 18 * i]
        if d[:3] == b'\0\0\0' and d[3] == 0xFD:
            bits_v, bits_h = (d[4] & 3, d[4] >> 2 & 3) if four else (0, 0)
            up = lambda bits, low, high: (low + 255 * (bits == 3), high + 255 * (bits >= 2), not four and high == 255)
            yield up(bits_v, d[5], d[6]), up(bits_h, d[7], d[8]), d[9]


def begins_with_override(ext):
    """the first data block of an extension is the HDMI Forum's override of the count of extensions"""
    if ext is None or not ext['d'] or not ext['blocks']:
        return False
    _, tag, data = ext['blocks'][0]
    return tag == 7 and bytes(data[:1]) == b'\x78'


def is_outside(span, count, per):
    """a rate of count / per is a unit and more outside"""
    if per == 0 or span[1] == 0 or span[1] < span[0]:
        return False
    return count <= (span[0] - 1) * per or not span[2] and count >= (span[1] + 1) * per


def is_pace_outside(b, four, clock, pixels, half_lines):
    for fields, lines, most in limits(b, four):
        if is_outside(fields, clock * 2000, pixels * half_lines) or is_outside(lines, clock, pixels):
            return True
        if 0 < most < 255 and clock >= 10000 * (most + 1):
            return True
    return False


def out_of_range(b, four, t):
    return is_pace_outside(b, four, t.clock * 10, t.h_active + t.h_blank, 2 * (t.v_active + t.v_blank) + t.interlaced)


def is_standard_outside(b, four, first, second):
    if first < 2:
        return False
    width, rate = 8 * (first + 31), 60 + (second & 63)
    height = width * (10, 3, 4, 9)[second >> 6] // (16, 4, 5, 16)[second >> 6]
    return any(is_outside(fields, rate, 1) or lines[0] <= lines[1] != 0 and not lines[2] and height * rate >= 1000 * (lines[1] + 1)
               for fields, lines, _ in limits(b, four))


# of each code of VESA's monitor timings (DMT 1.13) that has no fields the clock in kHz, the pixels shown, those of a line, and the lines
DMT = {
    0x01: (31500, 640, 832, 445), 0x02: (31500, 640, 832, 445), 0x03: (35500, 720, 936, 446), 0x04: (25175, 640, 800, 525),
    0x05: (31500, 640, 832, 520), 0x06: (31500, 640, 840, 500), 0x07: (36000, 640, 832, 509), 0x08: (36000, 800, 1024, 625),
    0x09: (40000, 800, 1056, 628), 0x0a: (50000, 800, 1040, 666), 0x0b: (49500, 800, 1056, 625), 0x0c: (56250, 800, 1048, 631),
    0x0d: (73250, 800, 960, 636), 0x0e: (33750, 848, 1088, 517), 0x10: (65000, 1024, 1344, 806), 0x11: (75000, 1024, 1328, 806),
    0x12: (78750, 1024, 1312, 800), 0x13: (94500, 1024, 1376, 808), 0x14: (115500, 1024, 1184, 813), 0x15: (108000, 1152, 1600, 900),
    0x55: (74250, 1280, 1650, 750), 0x16: (68250, 1280, 1440, 790), 0x17: (79500, 1280, 1664, 798), 0x18: (102250, 1280, 1696, 805),
    0x19: (117500, 1280, 1712, 809), 0x1a: (140250, 1280, 1440, 813), 0x1b: (71000, 1280, 1440, 823), 0x1c: (83500, 1280, 1680, 831),
    0x1d: (106500, 1280, 1696, 838), 0x1e: (122500, 1280, 1712, 843), 0x1f: (146250, 1280, 1440, 847), 0x20: (108000, 1280, 1800, 1000),
    0x21: (148500, 1280, 1728, 1011), 0x22: (175500, 1280, 1440, 1017), 0x23: (108000, 1280, 1688, 1066), 0x24: (135000, 1280, 1688, 1066),
    0x25: (157500, 1280, 1728, 1072), 0x26: (187250, 1280, 1440, 1084), 0x27: (85500, 1360, 1792, 795), 0x28: (148250, 1360, 1520, 813),
    0x51: (85500, 1366, 1792, 798), 0x56: (72000, 1366, 1500, 800), 0x29: (101000, 1400, 1560, 1080), 0x2a: (121750, 1400, 1864, 1089),
    0x2b: (156000, 1400, 1896, 1099), 0x2c: (179500, 1400, 1912, 1105), 0x2d: (208000, 1400, 1560, 1112), 0x2e: (88750, 1440, 1600, 926),
    0x2f: (106500, 1440, 1904, 934), 0x30: (136750, 1440, 1936, 942), 0x31: (157000, 1440, 1952, 948), 0x32: (182750, 1440, 1600, 953),
    0x53: (108000, 1600, 1800, 1000), 0x33: (162000, 1600, 2160, 1250), 0x34: (175500, 1600, 2160, 1250), 0x35: (189000, 1600, 2160, 1250),
    0x36: (202500, 1600, 2160, 1250), 0x37: (229500, 1600, 2160, 1250), 0x38: (268250, 1600, 1760, 1271), 0x39: (119000, 1680, 1840, 1080),
    0x3a: (146250, 1680, 2240, 1089), 0x3b: (187000, 1680, 2272, 1099), 0x3c: (214750, 1680, 2288, 1105), 0x3d: (245500, 1680, 1840, 1112),
    0x3e: (204750, 1792, 2448, 1394), 0x3f: (261000, 1792, 2456, 1417), 0x40: (333250, 1792, 1952, 1423), 0x41: (218250, 1856, 2528, 1439),
    0x42: (288000, 1856, 2560, 1500), 0x43: (356500, 1856, 2016, 1473), 0x52: (148500, 1920, 2200, 1125), 0x44: (154000, 1920, 2080, 1235),
    0x45: (193250, 1920, 2592, 1245), 0x46: (245250, 1920, 2608, 1255), 0x47: (281250, 1920, 2624, 1262), 0x48: (317000, 1920, 2080, 1271),
    0x49: (234000, 1920, 2600, 1500), 0x4a: (297000, 1920, 2640, 1500), 0x4b: (380500, 1920, 2080, 1523), 0x54: (162000, 2048, 2250, 1200),
    0x4c: (268500, 2560, 2720, 1646), 0x4d: (348500, 2560, 3504, 1658), 0x4e: (443250, 2560, 3536, 1672), 0x4f: (505250, 2560, 3536, 1682),
    0x50: (552750, 2560, 2720, 1694), 0x57: (556744, 4096, 4176, 2222), 0x58: (556188, 4096, 4176, 2222),
}
ASPECTS = ((1, 1), (5, 4), (4, 3), (15, 9), (16, 9), (16, 10), (64, 27), (256, 135))
SYNC_LINES = {(4, 3): 4, (16, 9): 5, (16, 10): 6, (5, 4): 7, (15, 9): 7}
# the bytes of a timing by its tag: types I to III, V to VII, IX and X
TYPED_LENGTHS = {0x03: 20, 0x04: 11, 0x05: 3, 0x11: 7, 0x13: 14, 0x22: 20, 0x24: 6, 0x2a: 6, 0x32: 6}


def cvt(version, width, height, rate):
    """clock, pixels shown, pixels of a line and lines of a mode by CVT 1.2: with the blanking of a tube, 0, or with reduced blanking of version 1
    or 2; None of another, and of 0 and 1 where a detailed timing has no room"""
    sync = next((lines for (a, b), lines in SYNC_LINES.items() if width * b == height * a), 10)
    if version == 2:
        lines = height + max(460 * rate * height // (10**6 - 460 * rate) + 1, 15)
        return rate * lines * (width + 80) // 1000, width, width + 80, lines
    if version > 1 or width % 8 or not 0 < width < 4096 or not 0 < height < 4096 or rate > 500:
        return None
    if version == 1:
        blank = max(460 * rate * height // (10**6 - 460 * rate) + 1, 10 + sync)
        clock, across = 250 * (rate * (height + blank) * (width + 160) // 250000), 160
    else:
        period = Fraction(10**6 - 550 * rate, rate * (height + 3))
        if period <= 0:
            return None
        blank = 3 + max(math.floor(550 / period) + 1, sync + 7)
        share = max(30 - 3 * period / 10, 20)
        across = math.floor(width * share / (100 - share) / 16) * 16
        clock = 250 * math.floor(4 * (width + across) / period)
        pulse = (width + across) // 100 * 8
        if not 0 < pulse < 1024 or not 0 < across // 2 - pulse < 1024:
            return None
    return (clock, width, width + across, height + blank) if 0 < clock < 655360 and across < 4096 and blank < 4096 else None


def typed_one(tag, q):
    """clock, pixels shown, pixels of a line and lines of the timing with these bytes, and whether it is of two fields; None where it is not known"""
    two = lambda i: int.from_bytes(q[i:i + 2], 'little') + 1
    if tag in (0x03, 0x22):
        return (int.from_bytes(q[:3], 'little') + 1) * (10 if tag == 3 else 1), two(4), two(4) + two(6), two(12) + two(14), q[3] >> 4 & 1
    if tag == 0x04:
        across, down = two(4) - 1, two(7) - 1
        width = 8 * (across % 512 + 1)
        return (int.from_bytes(q[:3], 'little') + 1) * 10, width, width + 8 * (across // 512 + 1), down % 4096 + q[9] + 2, q[3] >> 4 & 1
    if tag == 0x13:
        width, height = (two(3) - 1) % 16384 + 1, (two(5) - 1) % 16384 + 1
        clock = int.from_bytes(q[:3], 'little') % 2**22 + 1
        return clock, width, width + q[7] + q[9] % 16 * 256 + 1, height + q[11] + 1, q[13] >> 7
    if tag == 0x05:
        width = 8 * (q[1] + 1)
        aspect = ASPECTS[q[0] & 15] if q[0] & 15 < 8 else None
        known = aspect and not q[2] & 128 and q[0] >> 4 & 7 < 2
        mode = known and (q[0] >> 4 & 7, width, width * aspect[1] // aspect[0], (q[2] & 127) + 1)
    elif tag == 0x11:
        mode = q[0] % 4 == 0 and (2, two(2), two(4), q[6] + 1)
    else:
        mode = (q[0] & 7, two(1), two(3), q[5] + (q[6] & 3 if len(q) > 6 else 0) * 256 + 1)
    made = cvt(*mode) if mode else None
    return made and made + (0,)


def typed_list(tag, revision, body):
    """the timings that a data block lists, and its video codes"""
    if tag in (0x06, 0x23):
        known = not (tag == 0x23 and revision & 8)
        made = [DMT[c] + (0,) for c in body if c in DMT] if known and revision < 64 else []
        return made, (list(body) if known and 64 <= revision < 128 else [])
    made = []
    while tag in TYPED_LENGTHS:
        size = TYPED_LENGTHS[tag] + (revision >> 4 & 7 if tag in (0x22, 0x2a, 0x32) else 0)
        size += 3 if tag == 0x13 and len(body) > 2 and body[2] & 64 else 0
        if len(body) < size:
            break
        made.append(typed_one(tag, body[:size]))
        body = body[size:]
    return [it for it in made if it], []


def section_blocks(raw):
    """tag, byte after it and payload of each data block of a DisplayID extension"""
    data = bytes(raw[5:5 + min(raw[2], 121)]) if raw[0] == 0x70 else b''
    while len(data) >= 3 and len(data) >= 3 + data[2]:
        yield data[0], data[1], data[3:3 + data[2]]
        data = data[3 + data[2]:]


def tagged_lists(tag, data):
    """what a CTA block with an extended tag lists: type VII, monitor timings of type VIII, type X"""
    listed = len(data) >= 1 and (tag in (34, 42) or tag == 35 and data[0] < 64)
    return typed_list(tag, data[0], bytes(data[1:])) if listed else ([], [])


def typed_formats(raws, tagged):
    """the timings and video codes in the form of DisplayID: of its extensions, and of CTA blocks with extended tags"""
    lists = [tagged_lists(tag, data) for tag, data in tagged] + [typed_list(*it) for raw in raws for it in section_blocks(raw)]
    return [it for timings, _ in lists for it in timings], [code for _, codes in lists for code in codes]


def typed_paces(typed):
    """clock, pixels of a line and half lines of a picture of each that is progressive"""
    timings, codes = typed
    for clock, _, pixels, lines, fields in timings:
        if not fields and clock < 2**32 and pixels < 65536 and lines < 32768:
            yield clock, pixels, 2 * lines
    yield from (PACE_OF[code] for code in codes if code in PACE_OF)


def typed_needs(typed):
    """of each clock, pixels shown and pixels of a line"""
    timings, codes = typed
    for clock, width, pixels, _, _ in timings:
        if clock < 2**32 and width < 65536 and pixels < 65536:
            yield clock, width, pixels, False
    yield from ((PACE_OF[code][0], WIDTH_OF.get(code, 0), PACE_OF[code][1], False) for code in codes if code in PACE_OF)


def has_format_outside(b, four, codes, typed):
    paces = list(typed) + [PACE_OF[c] for c in codes if c in PACE_OF] + [pace for byte, bit, *pace in ESTABLISHED if b[byte] >> bit & 1]
    pairs = [(b[38 + 2 * i], b[39 + 2 * i]) for i in range(8)]
    return any(is_pace_outside(b, four, *pace) for pace in paces) or any(is_standard_outside(b, four, *pair) for pair in pairs)


def is_of_hdmi(b):
    """a digital input; in 1.4 its interface is HDMI or not defined"""
    return b[20] >= 128 and (b[19] == 3 or b[20] & 15 in (0, 2, 3))


def is_beyond(blocks, clock, width, pixels, halved):
    """an HDMI block stands there, and no block of HDMI's gives a link for this: characters of TMDS, or a fixed rate for the pixels that are
    shown of a line"""
    hdmi = [bytes(data) + bytes(2) for tag, data in blocks if is_hdmi(tag, data)]
    forums = [bytes(data[3:]) + bytes(8) for tag, data in blocks if sort_of(tag, data) == 'forum']
    rates = [(5000 * data[6] or 165000) * (1 + (data[5] & 1)) for data in map(lambda d: d + bytes(7), hdmi)] + [5000 * q[1] for q in forums]
    if not hdmi or clock // (1 + halved) <= max(rates):
        return False
    for q in forums:
        bits = 6 if q[7] & 128 else 12 if halved else 24
        lanes = {1: (3, 3), 2: (3, 6), 3: (4, 6), 4: (4, 8), 5: (4, 10), 6: (4, 12)}.get(q[3] >> 4)
        if q[3] >> 4 > 6 or lanes and clock * width * bits * 18 <= lanes[0] * lanes[1] * 10**6 * 16 * pixels:
            return False
    return True


def code_needs(blocks):
    """of each code the clock in kHz, the pixels of a line that are shown and all of them, and whether it is in 4:2:0 alone"""
    plain = lambda c: c - 128 if 129 <= c <= 192 else c
    for tag, data in blocks:
        codes = []
        if tag == 2:
            codes = [(plain(c), False) for c in data]
        elif tag == 7 and bytes(data[:1]) == b'\x0e':
            codes = [(plain(c), True) for c in data[1:]]
        elif is_hdmi(tag, data):
            codes = [(HDMI_CODES.get(c, 0), False) for c in hdmi_video_codes(data)]
        for code, halved in codes:
            if code in PACE_OF:
                clock, pixels, _ = PACE_OF[code]
                yield clock, WIDTH_OF.get(code, 0), pixels, halved


def is_text(d):
    """13 characters that can be printed, or fewer, a line feed and spaces"""
    text, feed, rest = d[5:].partition(b'\n')
    return d[2] == d[4] == 0 and all(32 <= c <= 126 for c in text) and (bool(feed) or len(text) == 13) and not rest.strip(b' ')


def latencies_late(data):
    """audio more than 20 ms above video, where both are told"""
    data = bytes(data) + bytes(12)
    told = lambda i: 0 < data[i] < 252 and 0 < data[i + 1] < 252 and data[i + 1] > data[i] + 10
    return bool(data[7] & 128) and (told(8) or bool(data[7] & 64) and told(10))


def timing_findings(b, t, blocks):
    four = b[19] == 4
    zeros = (t.h_active, t.h_blank, t.h_offset, t.h_width, t.v_active, t.v_blank, t.v_width)
    if t.clock < 1000:
        yield 'fail', 'clock'
    if 0 in zeros or t.v_offset == 0 and not t.interlaced:
        yield 'fail', 'timing-zero'
    if t.h_blank <= t.h_offset + t.h_width + 2 * t.h_border:
        yield 'fail', 'h-back-porch'
    if t.v_blank <= t.v_offset + t.v_width + 2 * t.v_border:
        yield 'fail', 'v-back-porch'
    if b[21] and b[22]:
        if not t.width or not t.height:
            yield 'fail', 'size-missing'
        width, height = 10 * b[21], 10 * b[22]
        larger = t.width > width + 9 or t.height > height + 9
        smaller = t.width < width - 9 and t.height < height - 9
        if (t.width or t.height) and (larger or smaller):
            yield 'fail', 'size-differs'
    if out_of_range(b, four, t):
        yield ('warn' if four else 'fail'), 'out-of-range'
    if is_of_hdmi(b) and is_beyond(blocks, 10 * t.clock, t.h_active, t.h_active + t.h_blank, False):
        yield 'fail', 'link-clock'


def off_tree(high, low):
    places = (high >> 4, high & 15, low >> 4, low & 15)
    return (high, low) == (255, 255) or any(a == 0 and b for a, b in zip(places, places[1:]))


def hdmi_video_codes(data):
    """the codes of HDMI's own formats in the payload of an HDMI block"""
    if len(data) < 8 or not data[7] & 0x20:
        return b''
    place = 8 + 2 * (data[7] >> 7) + 2 * (data[7] >> 6 & 1)
    if len(data) < place + 2:
        return b''
    return data[place + 2:place + 2 + (data[place + 1] >> 5)]


def multichannel(data):
    return any(data[i] >> 3 & 15 == 1 and data[i] & 7 > 1 for i in range(0, len(data) - 2, 3))


def is_sound(tag, data):
    """audio, speakers, or one of the extended tags that tell of audio"""
    return tag in (1, 4) or tag == 7 and len(data) > 0 and 17 <= data[0] <= 20


def is_mixed(count, timings, native_codes):
    """the first timings and the native codes are of several sizes, with one field or with two"""
    sizes = {(t.h_active, t.v_active * (1 + t.interlaced), t.interlaced) for t in timings[:count]}
    sizes |= {size for size, codes in SIZES.items() if set(codes) & set(native_codes)}
    return any(len([s for s in sizes if s[2] == interlaced]) > 1 for interlaced in (False, True))


def is_padding(tail):
    """whole dummy descriptors, and then zeros"""
    while tail[:18] == DUMMY:
        tail = tail[18:]
    return not any(tail)


def sort_of(tag, data):
    """the sort of block of which a CTA block has one at most, or None"""
    if tag == 7 and len(data):
        return {0: 'capability', 5: 'colorimetry', 6: 'hdr', 15: 'map', 0x79: 'forum'}.get(data[0])
    return 'speakers' if tag == 4 else 'forum' if tag == 3 and bytes(data[:3]) == b'\xd8\x5d\xc4' else None


def names_reserved(tag, data):
    """a rule of its own names a reserved value of the block"""
    if tag == 1:
        return any(data[i] >> 3 & 15 == 0 for i in range(0, len(data) - 2, 3))
    if tag == 2 or tag == 7 and data[:1] == b'\x0e':
        return any(c > 219 for c in data)
    if tag == 7 and data[:1] == b'\x06':
        return (data + b'\0')[1] > 15 or (data + b'\0\0')[2] > 1
    return is_hdmi(tag, data) and any(c not in HDMI_CODES for c in hdmi_video_codes(data))


def names_length(tag, data):
    """a rule of its own names the length of the block"""
    least = {0: 2, 5: 3, 6: 3}
    return tag == 1 and len(data) % 3 or tag == 4 and len(data) != 3 or tag == 7 and len(data) < (least.get(data[0], 1) if data else 1)


def edid_findings(e, is_port):
    b = e[:128]
    four = b[19] == 4
    descriptors = [b[54 + 18 * i:72 + 18 * i] for i in range(4)]
    shown = [d for d in descriptors if not d[0] and not d[1]]
    tags = [d[3] for d in shown]
    features = b[24]
    raws = [e[128 * i:128 * i + 128] for i in range(1, len(e) // 128)]
    exts = [read_ext(x) for x in raws]
    ctas = [x for x in exts if x is not None]
    full = [x for x in ctas if x['d']]
    blocks = blocks_of(e)
    timings = timings_of(e)
    codes = [c - 128 if 129 <= c <= 192 else c for tag, data in blocks if tag == 2 for c in data]
    hdmi = [data for tag, data in blocks if is_hdmi(tag, data)]

    if not four and not features & 2:
        yield 'fail', 'first-timing-not-preferred'
    if (four or features & 2) and not (b[54] or b[55]):
        yield 'fail', 'no-preferred-timing'
    if 0xFC not in tags:
        yield 'fail', 'no-name'
    if (not four or features & 1) and 0xFD not in tags:
        yield 'fail', 'no-range-limits'
    if four and not features & 1 and any(d[2] == 0 and d[3] == 0xFD and d[10] in (0, 2, 4) for d in shown):
        yield 'fail', 'gtf-fixed'
    if any(span[1] < span[0] for *spans, _ in limits(b, four) for span in spans):
        yield 'fail', 'limits-reversed'
    if not four and b[16] in (54, 255):
        yield 'fail', 'week-of-1.4'
    if bool(features & 4) != (chroma(b) == SRGB):
        yield 'fail', 'srgb'
    if any(not any(d) for d in descriptors):
        yield 'fail', 'empty-descriptor'
    pairs = [(b[38 + 2 * i], b[39 + 2 * i]) for i in range(8)]
    if any(x < 2 and (x, y) != (1, 1) for x, y in pairs):
        yield 'fail', 'standard-unused-form'
    if not four and len(raws) > 1 and raws[0][0] != 0xF0 and not begins_with_override(exts[0]):
        yield 'fail', 'block-map'
    if four and hdmi:
        yield 'warn', 'hdmi-of-1.3'
    if any(b[12:16]) and ctas and 0xFF in tags:
        yield 'warn', 'two-serials'
    if ctas and not b[35] & 0x20 and not any(tag == 2 and {1, 129} & set(data) for tag, data in blocks):
        yield 'fail', 'no-640x480'
    formats = [c for c in codes if c]
    if len(set(formats)) < len(formats):
        yield 'fail', 'vic-twice'
    if any(x['flags'] & 15 > len(timings) for x in full):
        yield 'fail', 'native-count'
    native_codes = [c - 128 for tag, data in blocks if tag == 2 for c in data if 129 <= c <= 192]
    if any(is_mixed(x['flags'] & 15 if x['d'] else 0, timings, native_codes) for x in exts if x is not None):
        yield 'fail', 'native-mixed'
    if any(x['flags'] < 128 for x in full):
        yield 'warn', 'overscan'
    if any(not x['flags'] & 0x40 and any(is_sound(tag, data) for _, tag, data in x['blocks']) for x in full):
        yield 'fail', 'no-basic-audio'
    speakers = [data for tag, data in blocks if tag == 4]
    many = any(multichannel(data) for tag, data in blocks if tag == 1)
    if many and not speakers or any(len(data) != 3 for data in speakers):
        yield 'fail', 'speakers'
    if any(not is_padding(bytes(x['tail'])) for x in full):
        yield 'fail', 'padding'
    capabilities = [data for tag, data in blocks if tag == 7 and data[:1] == b'\0']
    if ctas and not capabilities:
        yield 'warn', 'no-video-capability'
    if any(len(data) > 1 and not data[1] & 0x40 for data in capabilities):
        yield 'warn', 'rgb-quantization'
    if any(len(data) > 6 and data[6] > 68 for data in hdmi):
        yield 'fail', 'tmds-clock'
    if any(off_tree(data[3], data[4]) or is_port and not data[3] and not data[4] for data in hdmi):
        yield 'fail', 'address'
    if len(hdmi) > 1:
        yield 'warn', 'hdmi-twice'
    if any(HDMI_CODES.get(c, 0) not in [0] + codes for data in hdmi for c in hdmi_video_codes(data)):
        yield 'fail', 'hdmi-vic-without-vic'
    for x in full:
        kinds = ['hdmi' if is_hdmi(tag, data) else 'forum' for _, tag, data in x['blocks']
                 if is_hdmi(tag, data) or tag == 3 and bytes(data[:3]) == b'\xd8\x5d\xc4']
        if kinds[:1] == ['forum']:
            yield 'fail', 'hdmi-forum-first'
            break
    kept = [raw for raw, x in zip(raws, exts) if x is None]
    if any(raw[0] == 2 and raw[1] == 3 for raw in kept):
        yield 'fail', 'cta-overrun'
    if any(raw[0] == 2 and raw[1] != 3 for raw in kept):
        yield 'warn', 'cta-revision'
    if any(raw[0] not in EXTENSIONS for raw in kept):
        yield 'warn', 'unknown-extension'
    tagged = [(data[0], data[1:]) for tag, data in blocks if tag == 7 and data]
    least = {0: 1, 5: 2, 6: 2}
    if any(tag == 1 and len(data) % 3 or tag == 7 and not data for tag, data in blocks) or any(len(data) < least.get(tag, 0) for tag, data in tagged):
        yield 'fail', 'block-length'
    if any(max(collections.Counter(sort_of(tag, data) for _, tag, data in x['blocks'] if sort_of(tag, data)).values(), default=0) > 1 for x in full):
        yield 'fail', 'block-twice'
    places = [(i, n) for i, x in enumerate(exts) if x is not None and x['d'] for n, (_, tag, data) in enumerate(x['blocks'])
              if tag == 7 and bytes(data[:1]) == b'\x78']
    if [p for p in places if p != (0, 0)]:
        yield 'fail', 'eeodb-place'
    if (0, 0) in places:
        data = exts[0]['blocks'][0][2]
        count = data[1] if len(data) > 1 else 0
        if count == 0 or count < b[126]:
            yield 'fail', 'eeodb-count'
    if any(tag == 0 for tag, _ in blocks):
        yield 'warn', 'tag-reserved'
    if any(data[i] >> 3 & 15 == 0 for tag, data in blocks if tag == 1 for i in range(0, len(data) - 2, 3)):
        yield 'fail', 'audio-reserved'
    if any(tag == 6 and ((data + b'\0')[0] > 15 or (data + b'\0\0')[1] > 1) for tag, data in tagged):
        yield 'warn', 'hdr-reserved'
    if any(c > 219 for c in codes + [c for tag, data in tagged if tag == 14 for c in data]):
        yield 'warn', 'vic-reserved'
    if any(c not in HDMI_CODES for data in hdmi for c in hdmi_video_codes(data)):
        yield 'fail', 'hdmi-vic-reserved'
    forums = [(bytes(data[3:]) + bytes(7)) for tag, data in blocks if sort_of(tag, data) == 'forum']
    if any(0 < q[1] <= 68 or q[1] > 120 for q in forums):
        yield 'fail', 'forum-clock'
    if any(q[3] >> 4 and not q[2] & 128 for q in forums):
        yield 'fail', 'forum-scdc'
    rates = [(q[5] & 63, (q[5] >> 6) << 8 | q[6]) for q in forums]
    if any(low > 48 or high and (high < 100 or not low) for low, high in rates):
        yield 'fail', 'forum-vrr'
    maps = [[i for i in range(8 * len(data)) if data[i // 8] >> i % 8 & 1] for tag, data in tagged if tag == 15]
    if any(i >= len(codes) for places in maps for i in places):
        yield 'fail', 'map-past-codes'
    taken = [codes[i] for places in maps for i in places if i < len(codes)]
    taken += [c - 128 if 129 <= c <= 192 else c for tag, data in tagged if tag == 14 for c in data]
    if any(c in PACE_OF and PACE_OF[c][0] < 590000 for c in taken):
        yield 'warn', 'ycc420-slow'
    if any(x['flags'] & 48 and tag == 7 and bytes(data[:1]) == b'\0' and len(data) > 1 and data[1] < 128 for x in full for _, tag, data in x['blocks']):
        yield 'warn', 'ycc-quantization'
    if any(latencies_late(data) for data in hdmi):
        yield 'warn', 'latency-order'
    typed = typed_formats(kept, tagged)
    if has_format_outside(b, four, codes, typed_paces(typed)):
        yield ('warn' if four else 'fail'), 'out-of-range'
    if is_of_hdmi(b) and any(is_beyond(blocks, *need) for need in [*code_needs(blocks), *typed_needs(typed)]):
        yield 'fail', 'link-clock'
    if any(d[3] in (0xFC, 0xFE, 0xFF) and not is_text(d) for d in shown):
        yield 'fail', 'text-form'
    if 54 < b[16] < 255:
        yield 'fail', 'week-reserved'
    if 1990 + b[17] > 2050:
        yield 'warn', 'year-late'
    if features & 4 and b[23] != 120:
        yield 'warn', 'srgb-gamma'
    if b[20] & 128 and (b[20] >> 4 & 7 == 7 or b[20] & 15 > 5 if four else b[20] & 126):
        yield 'fail', 'input-reserved'
    if any(tables.judge(tag, data)[0] and not names_reserved(tag, data) for tag, data in blocks):
        yield 'warn', 'reserved'
    if any(tables.judge(tag, data)[1] and not names_length(tag, data) for tag, data in blocks):
        yield 'warn', 'length'
    if any(raw[0] == 0x70 and sum(raw[1:raw[2] + 6]) % 256 for raw in kept):
        yield 'fail', 'displayid-checksum'
    if any(has_reserved_value(d) for d in shown):
        yield 'warn', 'descriptor-reserved'


def has_reserved_limit(d):
    """range limits have a value that E-EDID A 3.10.3.3 reserves"""
    kind = d[10]
    ill = d[4] & 0xF0 or d[4] >> 2 & 3 == 1 or d[4] & 3 == 1 or 0 in d[5:10] or kind not in (0, 1, 2, 4)
    if kind in (0, 1):
        return bool(ill or d[11] != 10 or set(d[12:18]) != {32})
    if kind == 2:
        return bool(ill or d[11])
    return bool(ill or kind == 4 and (d[14] & 7 or d[15] >> 5 > 4 or d[15] & 7 or d[16] & 15 or not d[17]))


def has_reserved_value(d):
    """a display descriptor but that of a text has a value that E-EDID A 3.10.3 reserves"""
    tag = d[3]
    if tag in (0xFC, 0xFE, 0xFF):
        return False
    if d[2] or 0x11 <= tag <= 0xF6:
        return True
    if tag < 0x10:
        return False
    if tag == 0xFD:
        return has_reserved_limit(d)
    ill = {
        0x10: any(d[5:]),
        0xF7: d[5] != 10 or d[11] & 15 or any(d[12:]),
        0xF8: d[5] != 1 or any(d[i + 1] & 3 or d[i + 2] & 128 for i in range(6, 18, 3)),
        0xF9: d[5] != 3,
        0xFA: 0 in d[5:17:2] or d[17] != 10,
        0xFB: d[6] & 0xF0 or d[11] & 0xF0 or bytes(d[15:]) != b'\n  ',
    }
    return bool(d[4] or ill[tag])


def blocks_of(e):
    """the tag and the bytes of each data block"""
    exts = [read_ext(e[128 * i:128 * i + 128]) for i in range(1, len(e) // 128)]
    return [(tag, bytes(data)) for x in exts if x is not None and x['d'] for _, tag, data in x['blocks']]


def timings_of(e):
    b = e[:128]
    found = [Timing(b[54 + 18 * i:72 + 18 * i]) for i in range(4) if b[54 + 18 * i] or b[55 + 18 * i]]
    for i in range(1, len(e) // 128):
        x = read_ext(e[128 * i:128 * i + 128])
        if x is not None and x['d']:
            found += [Timing(t) for t in x['timings']]
    return found


def findings(e, is_port=False):
    out = ['%s %s' % f for f in edid_findings(e, is_port)]
    for n, t in enumerate(timings_of(e), 1):
        out += ['%s timing %d %s' % (how, n, rule) for how, rule in timing_findings(e[:128], t, blocks_of(e))]
    return out


def has_failure(lines):
    return any(line.startswith('fail') for line in lines)


# ---------------------------------------------------------------- as a program
def own_address(e):
    """the address in the first HDMI block, or None"""
    i = first_hdmi(e)
    if i is None:
        return None
    x = e[128 * i:128 * i + 128]
    p = hdmi_place(x)
    return x[p] << 8 | x[p + 1]


def in_port(address, port):
    """the port in the first place that is 0, and none after it"""
    for shift in (12, 8, 4, 0):
        if address >> shift & 15 == 0:
            return (address >> shift | port) << shift
    return 0xFFFF


def recounted(e, count):
    """the bytes with another count in byte 126, and their checksum"""
    b = bytearray(e)
    b[127] = (b[127] + b[126] - count) % 256
    b[126] = count
    return bytes(b)


def override(e):
    """the count of extensions by the HDMI Forum's override where the first one begins with it, else byte 126"""
    if e[126] and len(e) >= 256 and e[128] == 2 and e[129] >= 3 and e[130] >= 7 and e[132:134] == b'\xe2\x78' and e[134]:
        return e[134]
    return e[126]


def mended(e, overridden):
    """the bytes with right sums and a right count, and what is said of each that is another"""
    b, count = bytearray(e), len(e) // 128 - 1
    if overridden and len(e) >= 256 and e[128] == 2 and e[129] >= 3 and e[130] >= 7 and e[132:134] == b'\xe2\x78' and e[134]:
        b[126], b[134] = 1, count
    else:
        b[126] = count
    for block in range(0, len(b), 128):
        b[block + 127] = -sum(b[block:block + 127]) % 256
    said = {126: 'base count', 127: 'base checksum', 134: 'ext 1 override', 255: 'ext 1 checksum', 383: 'ext 2 checksum', 511: 'ext 3 checksum'}
    return bytes(b), ['mended ' + said[place] for place in sorted(said) if place < len(b) and b[place] != e[place]]


def room(e):
    """what is used and left of each block, a line each"""
    free = [sum(e[p:p + 18] == b'\0\0\0\x10' + bytes(14) for p in range(54, 126, 18)), sum(e[p:p + 2] == b'\1\1' for p in range(38, 54, 2))]
    left = 18 * free[0] + 2 * free[1]
    shown = 17 - bin(e[35] << 9 | e[36] << 1 | e[37] >> 7).count('1')
    yield 'block 0 base used %d left %d free-descriptors %d free-standards %d free-established %d' % (128 - left, left, *free, shown)
    for number in range(1, len(e) // 128):
        ext = read_ext(e[128 * number:128 * number + 128])
        if ext is None or ext['d'] == 0:
            yield 'block %d %s used 128 left 0' % (number, 'ext' if ext is None else 'cta-none')
            continue
        parts = [ext['d'] - 4, 18 * len(ext['timings']), len(ext['tail'].rstrip(b'\0'))]
        left = 123 - sum(parts)
        yield 'block %d cta blocks %d timings %d tail %d used %d left %d free-timings %d' % (number, *parts, 128 - left, left, left // 18)


def value_of(args, flag):
    return args[args.index(flag) + 1] if flag in args else None


def edid_way(args, data):
    """(status, output, lines of standard error) of `edid` with --merge, --rows R, --mend and what else given_way has"""
    if '--mend' in args and len(data) in (128, 256, 384, 512):
        made, notes = mended(data, '--eeodb' in args)
        status, output, fault = given_way(args, made)
        return status, output, '\n'.join(notes + [fault] * bool(fault))
    if '--merge' not in args:
        return given_way(args, data)
    data, cause, notes = merge.merge(*merge.halves(data), merge.rows_of(value_of(args, '--rows')))
    if cause:
        return 1, b'', 'merge: ' + cause
    status, output, fault = given_way(args, data)
    return status, output, '\n'.join(notes + [fault] * bool(fault))


def given_way(args, data):
    """(status, output, fault) of `edid` with --eeodb, --check, --address A, --port N, --below amp, --speakers own, --only-address, --room or --raw"""
    port, address = value_of(args, '--port'), value_of(args, '--address')
    kept = None
    if '--eeodb' in args and len(data) in (128, 256, 384, 512):
        kept = data[126]
        data = recounted(data, override(data))
    fault = check_edid(data)
    if fault:
        return 1, b'', 'edid: ' + ' '.join(str(x) for x in fault)
    own = own_address(data)
    if own is None and (port or address or '--only-address' in args):
        return 1, b'', 'edid: no-hdmi-block'
    if port or address:
        place = in_port(own, int(port)) if port else parse_pa(address.encode())
        data = port_edid(data, place, '--below' in args)
        own = own_address(data)
    if '--speakers' in args:
        data = merge.with_speakers(data)
        if data is None:
            return 1, b'', 'edid: no-room'
    if '--only-address' in args:
        return 0, (pa_text(own) + '\n').encode(), ''
    if '--check' in args:
        lines = findings(data if kept is None else recounted(data, kept), bool(port or address))
        fails = has_failure(lines)
        return 5 if fails else 0, ''.join(l + '\n' for l in lines).encode(), 'edid: a rule fails' if fails else ''
    if '--room' in args:
        return 0, ''.join(line + '\n' for line in room(data)).encode(), ''
    if '--raw' in args:
        return 0, data if kept is None else recounted(data, kept), ''
    return 0, edid_text(data), ''
