"""EDIDs and frames of tools/bytes_cases.py that go through tables: blocks with each bit flipped; data blocks, descriptors and sections with
each of their codes; those that stand in texts of tests, each half of a byte with each value; and opcodes with each operand."""
import itertools
import re

# The tags of data blocks, by the words before their payloads in rows of tests.
TAGS = {'audio': 1, 'video': 2, 'vendor': 3, 'speakers': 4, 'extended': 7}
HDMI_MAKER, HDMI_ADDRESS = b'\x03\x0c\x00', b'\x10\x00'
# Tags of descriptors, the last of which is a dummy.
DESCRIPTORS = (0xf7, 0xf8, 0xf9, 0xfa, 0xfb, 0xfc, 0xfd, 0xfe, 0xff, 0x10)
# The tags of blocks of DisplayID 1.3 and 2.1.
DISPLAYID_TAGS = (*range(0x14), *range(0x20, 0x2c), 0x7e, 0x7f, 0x81)
AUDIO_THIRD = [0, 1, 2, 3, 4, 8, 16, 32, 64, 128, 255]
# How long a data block is at most, and data blocks of an extension together, with room for their heads.
LONGEST, ROOM = 31, 118
# Bytes of a base block of which each value is tried: week, input, features, a standard timing; and an extension's tag.
PLACES = (16, 20, 24, 39, 128)


def mended(data):
    """an EDID with right sums"""
    data = bytearray(data)
    for at in range(0, len(data) - 127, 128):
        data[at + 127] = -sum(data[at:at + 127]) % 256
    return bytes(data)


def with_extension(base, extension):
    """the base block of an EDID, and after it one extension of 127 bytes at most"""
    return mended(base[:126] + b'\x01\x00' + bytes(extension)[:127].ljust(128, b'\0'))


def with_blocks(base, blocks):
    """an EDID with these data blocks, each a tag and a payload"""
    body = b''.join(bytes([tag << 5 | len(payload)]) + payload for tag, payload in blocks)
    return with_extension(base, bytes([2, 3, 4 + len(body), 0xf0]) + body)


def with_descriptors(base, descriptors):
    """an EDID of one block with three descriptors at most"""
    return mended(base[:72] + b''.join(descriptors).ljust(54, b'\0') + b'\0\0')


def with_bits(data):
    """the bytes, each bit flipped in turn"""
    for at in range(8 * len(data)):
        changed = bytearray(data)
        changed[at // 8] ^= 1 << at % 8
        yield bytes(changed)


def with_nibbles(data):
    """the bytes, each half of a byte of each value in turn"""
    for at, value in itertools.product(range(len(data)), range(16)):
        for byte in (data[at] & 0xf0 | value, data[at] & 0x0f | value << 4):
            yield data[:at] + bytes([byte]) + data[at + 1:]


def packed(blocks, room):
    """blocks one after another, as many together as have room"""
    some, length = [], 0
    for block in blocks:
        if some and length + len(block[1]) + 1 > room:
            yield some
            some, length = [], 0
        some.append(block)
        length += len(block[1]) + 1
    if some:
        yield some


# ---------------------------------------------------------------- data blocks
def audio_formats():
    """short audio descriptors of each format, and of each extended format"""
    for form, (channels, rates), third in itertools.product(range(1, 15), ((1, 0x7f), (0x80, 0x80)), AUDIO_THIRD):
        yield bytes([form << 3 | channels, rates, third])
    for extension, channels, low in itertools.product(range(32), (1, 0x82), range(8)):
        yield bytes([15 << 3 | channels, 7, extension << 3 | low])


def blocks_of_codes():
    """data blocks with each video code, each format of audio, each bit of speakers, and each extended tag"""
    for first in range(0, 256, LONGEST):
        yield 2, bytes(range(first, min(first + LONGEST, 256)))
    formats = list(audio_formats())
    for first in range(0, len(formats), LONGEST // 3):
        yield 1, b''.join(formats[first:first + LONGEST // 3])
    for payload in [b'\xff\xff\xff', b'\0\0\0'] + list(with_bits(b'\0\0\0')):
        yield 4, payload
    for tag, payload in itertools.product(range(256), (b'', b'\xff' * 8, bytes(range(1, 20)))):
        yield 7, bytes([tag]) + payload


def payloads_of(texts):
    """of each row of tests what it is of, a tag of data blocks, `displayid` or `descriptor`, and the payload"""
    for text in texts:
        for word, digits in re.findall(r'\b([a-z]+) ((?:[0-9a-f]{2})+)\b', text):
            payload = bytes.fromhex(digits)
            if word == 'hdmi':
                payload, word = HDMI_MAKER + HDMI_ADDRESS + payload, 'vendor'
            if word in TAGS and len(payload) <= LONGEST:
                yield TAGS[word], payload
            elif word == 'displayid' and len(payload) < 128:
                yield 'displayid', payload
            elif len(payload) == 18:
                yield 'descriptor', payload


def head_of(kind, payload):
    """how many bytes of a payload say what it is: the maker, the tag, the four bytes before a descriptor's own"""
    if kind == 7:
        return 4 if payload[:1] in (b'\x01', b'\x11') else 1
    return {3: 3, 'descriptor': 5}.get(kind, 0)


def varied(rows):
    """the longest payload of each kind, each half of a byte after its head of each value"""
    longest = {}
    for kind, payload in rows:
        key = kind, payload[:head_of(kind, payload)]
        if kind in (3, 4, 7, 'descriptor') and len(payload) > len(longest.get(key, b'')):
            longest[key] = payload
    for (kind, head), payload in longest.items():
        for changed in with_nibbles(payload[len(head):]):
            yield kind, head + changed


def sections(rows):
    """extensions of DisplayID: those of rows, the two longest varied, and each block filled with one byte"""
    found = [payload for kind, payload in rows if kind == 'displayid']
    yield from found
    for payload in sorted(found, key=len)[-2:]:
        yield from with_nibbles(payload[:32])
    for tag, version, filled in itertools.product(DISPLAYID_TAGS, (0x12, 0x20), range(0, 256, 17)):
        yield bytes([0x70, version, 26, filled % 16, 0, tag, 0, 23]) + bytes([filled]) * 23


def descriptors():
    """a descriptor of each tag: of zeros, of ones, with an empty text, and with each bit"""
    fillings = [b'\0' * 13, b'\xff' * 13, b'\x0a' + b' ' * 12] + list(with_bits(b'\0\x0a' + b'\0' * 11))
    for tag, filled in itertools.product(DESCRIPTORS, fillings):
        yield bytes([0, 0, 0, tag, 0]) + filled


def edids_of_tables(base, texts):
    """EDIDs with all these, as many data blocks or descriptors each as have room"""
    rows = list(dict.fromkeys(payloads_of(texts)))
    parts = list(dict.fromkeys(rows + list(blocks_of_codes()) + list(varied(rows))))
    for some in packed([part for part in parts if part[0] in TAGS.values()], ROOM):
        yield with_blocks(base, some)
    forms = [payload for kind, payload in parts if kind == 'descriptor'] + list(descriptors())
    for at in range(0, len(forms), 3):
        yield with_descriptors(base, forms[at:at + 3])
    for payload in sections(rows):
        yield with_extension(base, payload)


# ---------------------------------------------------------------- cases
def edids_of_bits(data):
    """an EDID with each bit flipped, by what it means and by the rules that it breaks in turn; and some bytes of each value"""
    for at, changed in enumerate(with_bits(data)):
        yield ['edid', ('--meaning', '--check')[at % 2]], mended(changed)
    for place, byte in itertools.product(PLACES, range(256)):
        if place < len(data):
            yield ['edid', '--meaning'], mended(data[:place] + bytes([byte]) + data[place + 1:])


def frames_of_opcodes():
    """frames of each opcode with each operand, to one, to all, and between any two"""
    rests = ['', ' 10 00', ' 10 00 20 00', ' 01 02 03 04 05 06 07'] + [' %02x' % byte for byte in range(256)]
    for opcode in range(256):
        for front in ('40', '4f', '%02x' % (opcode % 16 * 17)):
            yield ['dis', '--meaning'], '\n'.join('%s %02x%s' % (front, opcode, rest) for rest in rests).encode()


def of_tables(known, texts):
    """cases: EDIDs that go through tables, the bits of known EDIDs, and frames of each opcode"""
    for data in dict.fromkeys(edids_of_tables(known[0], texts)):
        yield ['edid', '--meaning'], data
    for data in known:
        yield from edids_of_bits(data)
    yield from frames_of_opcodes()
