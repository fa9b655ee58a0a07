#!/usr/bin/env python3
"""tests/legal_lines.py [PROGRAM..]: 100,000 frames of legal lines, of which an audit has no remark, and the verdict is `fine`.

The devices of a living room talk as HDMI 1.4 CEC allows, each slot at a width of its own within the windows of CEC 5.2, often at a border.
Each message of CEC 13 comes from and to whom it is for, with as many operands as it has; requests are answered within a second, by their
answer or by Feature Abort, or asked again (CEC 9.2, 12.3). Each device has one name, version, vendor, place and type, and refuses as unknown what no version of the
standard has alone. Frames end in each way that is lawful: taken; not taken at any block, or
refused by one of all, and tried again, six times at most (CEC 6.1.2, 7.1); lost to a smaller address (CEC 7.2); a poll that nobody or
somebody takes (CEC 7.3, 10.2.1). Free times are as short as may be, or longer (CEC 9.1). Each third line begins within a frame, and each
second one ends within one.

Of a line `mon --audit` reads the frames that were sent, each bit of them, and has no remark; the word of `mon --verdict` is `fine`, or
`mid-frame` where the line begins within a frame; and `mon --report` has no fault and no note of what a device says. PROGRAM is crates/hdminet/out/hdminet, and what Rattle's own compiler makes of the same
sources, hdminet.by-rattle beside it, where none is given; all but the first take each tenth line. A program without `--verdict` is asked
for no verdict and no report. The last line is 'legal lines: N passed, M failed', and the status is 0 where M is 0."""
import random
import sys

from built import objects, programs, ran, told
from line_maker import NEW_INITIATOR, PRESENT_INITIATOR, RETRY, SAMPLE, Slots, WINDOWS, edge_file, is_to_all, middle, over

LINES, FRAMES = 40, 2_600
SECOND = 1_000_000
MOST_ATTEMPTS = 6
# Who is in the room: television, recorder, tuner, two players, amplifier, by logical address, and where each is (CEC 10.2, 8.7).
PLACES = {0x0: '0000', 0x1: '2000', 0x3: '3000', 0x4: '1100', 0x5: '1000', 0x8: '1200'}
# What each says of itself: its device type (CEC 10.2), its name and its version.
TYPES = {0x0: '00', 0x1: '01', 0x2: '01', 0x3: '03', 0x4: '04', 0x5: '05', 0x6: '03', 0x7: '03', 0x8: '04', 0x9: '01', 0xa: '03', 0xb: '04'}
NAMES = {0x0: '5456', 0x1: '5265636f72646572', 0x3: '7e', 0x4: '504c41594552', 0x5: '4142434445464748494a4b4c4d4e', 0x8: '20'}
VERSIONS = {0x0: '05', 0x1: '04', 0x3: '05', 0x4: '04', 0x5: '05', 0x8: '06'}
# Addresses that nobody has.
ABSENT = (0x2, 0x6, 0x7, 0x9, 0xa, 0xb)
# The letters of the tables below: who sends, and to whom.
ROLES = {'T': (0x0,), 'R': (0x1,), 'N': (0x3,), 'P': (0x4, 0x8), 'A': (0x5,), 'S': (0x1, 0x4, 0x8), '*': tuple(PLACES)}
# Messages to one device that ask for nothing: opcode and operands (CEC 13).
TO_ONE = '''
S>T 04 0d 9d1100 640048656c6c6f 6440 0a01 0a1f 8e00 8e01 1b11 1b1f 4300 4301 3590 35900130
T>R 0b 67426f6e64
T>N 05 06 9202138801 9302000100020003 0802
N>T 070200138801 070202000100020003
T>S 4124 4105 4203 4201 4401 4443 445600 45 1a02
A>T 7a32 7ab2 7a7f 7e00 7e01 7201
T>A 9a00 9a06 4441 4442 4443 45
*>* 47NN 9000 9001 9002 9003 9eVV 36 8b 8a15 89aabbcc a00010fa01
*>* 89000102030405060708090a0b0c0d a00010fa0102030405060708090a0b
'''
# The same to all. PP, TT, NN and VV stand for the physical address, device type, name and version of who sends.
TO_ALL = '''
*>f 36 84PPTT 870010fa a00010fa0102 8b 8a15 9000 a6068000PP f8PP1120 a7PP a8PP3201
T>f 8010002000 80PP1000 82PP 85 861100 32656e67
S>f 82PP
A>f 7200 7201 81PP 80PP1100
'''
# Requests to one device, with what answers them: back, or, with `all`, to all. What has no answer here, and what no version of the
# standard has, gets Feature Abort (CEC 12.3).
REQUESTS = '''
*>* 46:47NN 8f:9000 8f:9002 9f:9eVV 8c:870010fa:all 83:84PPTT:all a5:a606800000:all ff e0 6a01
*>T 91:32656e67:all
T>S 8d02:8e00 8d00:8e00 8d01:8e01 1a03:1b14
*>A 71:7a20 7d:7e01
S>A 701100:7201:all 701200:7201 70:7200:all
T>A c3:c0 c4:c5
A>T c0:c1 c5:c2
T>N 0803:070200138801
R>T 0f:0901
T>R 0901:0a01 330a01140001000000138801:4300 340a01140001000000138801:3590 970a01140001000002000100020003:35900130
T>R 990a01140001000002000100020003:4301 a10a0114000100000401:4302 a20a011400010000051000:3590
'''


def rows(table):
    """each message of a table: who may send it, who may get it, and its words"""
    for line in table.split('\n'):
        for word in line.split()[1:]:
            yield ROLES[line[0]], ROLES.get(line[2], (0xf,)), word.split(':')


def blocks(word, sender):
    """opcode and operands that a word stands for"""
    for letters, own, other in (('PP', PLACES, '3100'), ('TT', TYPES, '04'), ('NN', NAMES, '4e'), ('VV', VERSIONS, '05')):
        word = word.replace(letters, own.get(sender, other))
    return bytes.fromhex(word)


class Talk:
    """a line, told frame by frame: its stretches, and the frames that were sent whole"""

    def __init__(self, number):
        self.drawn = random.Random(number)
        self.stretches, self.sent, self.frames = [], [], 0
        # The fall of the last slot, and who sent it.
        self.last, self.who = 60_000 - NEW_INITIATOR, None
        self.to_one, self.to_all, self.requests = list(rows(TO_ONE)), list(rows(TO_ALL)), list(rows(REQUESTS))

    def width(self, kind):
        """a width of a kind, a fifth of them at a border of its window"""
        least, most = WINDOWS[kind]
        share = self.drawn.random() * 1.25 - 0.125
        return min(max(least + int(share * (most - least + 1)), least), most)

    def begin(self, sender, is_retry=False, is_prompt=False):
        """when a frame may begin, or a little later; without a pause of five bit periods where it is prompt"""
        due = RETRY if is_retry else PRESENT_INITIATOR if sender == self.who else NEW_INITIATOR
        return self.last + due + self.drawn.choice((0, 0, 1, 50, 600, 2_400) if is_prompt else (0, 0, 1, 50, 600, 2_400, 7_200, 20_000))

    def note(self, slots, made, fall, sender):
        self.stretches += made
        self.last, self.who = fall, sender
        self.frames += 1
        if slots.ends_whole:
            self.sent.append((slots.frame.hex(), slots.verdict()))

    def send(self, frame, pulled=None, is_retry=False, at=None, is_prompt=False):
        """a frame, and whether it was taken"""
        slots, sender = Slots(frame, pulled), frame[0] >> 4
        begin = self.begin(sender, is_retry, is_prompt)
        made, fall = slots.stretches(begin if at is None else max(at, begin), self.width)
        self.note(slots, made, fall, sender)
        return slots.is_taken

    def several(self, frame, pulled):
        """up to six attempts that fail alike, and perhaps one in their place that does not (CEC 7.1)"""
        count = self.drawn.choice((1, 1, 2, 3, 5, 6))
        for attempt in range(count):
            self.send(frame, pulled, attempt > 0)
        if count < MOST_ATTEMPTS and frame[0] % 16 not in ABSENT:
            self.send(frame, None, True)

    def header(self, senders, receivers):
        """two devices, of whom one sends to the other"""
        return self.drawn.choice([(one, other) for one in senders for other in receivers if one != other])

    def message(self, to_all):
        senders, receivers, (word,) = self.drawn.choice(self.to_all if to_all else self.to_one)
        sender, receiver = self.header(senders, receivers)
        return bytes([sender << 4 | receiver]) + blocks(word, sender)

    def failed_at(self, frame):
        """which acknowledge slots are pulled where one block is not taken, or refused"""
        place = self.drawn.randrange(len(frame))
        return [(at == place) == is_to_all(frame) for at in range(len(frame))]

    # What happens on a line.
    def taken(self):
        self.send(self.message(self.drawn.random() < 0.3))

    def failed(self):
        """a block that is not taken, or that one of all refuses"""
        frame = self.message(self.drawn.random() < 0.4)
        self.several(frame, self.failed_at(frame))

    def to_nobody(self):
        sender = self.drawn.choice(list(PLACES))
        frame = bytes([sender << 4 | self.drawn.choice(ABSENT)]) + blocks(self.drawn.choice(('46', '8f', '9000', '4401', '83')), sender)
        self.several(frame, [False] * len(frame))

    def poll(self):
        sender, receiver = self.header(tuple(PLACES), tuple(PLACES) + ABSENT)
        if not self.send(bytes([sender << 4 | receiver]), [receiver in PLACES]) and self.drawn.random() < 0.5:
            self.send(bytes([sender << 4 | receiver]), [False], True)

    def allocates(self):
        """a device looks for an address, the first of which may be another one's, and tells all where it is (CEC 10.2.1)"""
        if self.drawn.random() < 0.5:
            self.send(bytes([0x44]), [True])
        address = self.drawn.choice(ABSENT)
        self.send(bytes([address * 0x11]), [False])
        self.send(bytes([address << 4 | 0xf]) + blocks('84PPTT', address))

    def asks(self):
        """a request and its answer, of which the first attempt begins within a second of the end of the request (CEC 9.2)"""
        senders, receivers, words = self.drawn.choice(self.requests)
        sender, receiver = self.header(senders, receivers)
        ask = bytes([sender << 4 | receiver]) + blocks(words[0], sender)
        back = bytes([receiver << 4 | sender])
        if len(words) == 1 or self.drawn.random() < 0.15:
            answer = back + bytes([0x00, ask[1], self.drawn.randrange(len(words) > 1, 6)])
        else:
            answer = (bytes([receiver << 4 | 0xf]) if words[-1] == 'all' else back) + blocks(words[1], receiver)
        if self.drawn.random() < 0.15:
            self.send(ask, self.failed_at(ask))
            self.send(ask, None, True)
        else:
            self.send(ask)
        ended = self.last + SAMPLE
        if self.drawn.random() < 0.1:
            self.send(ask, at=ended + self.drawn.choice((100_000, 500_000)))
        if self.drawn.random() < 0.2:
            self.between(sender, receiver)
        wait = self.drawn.choice((0, 0, 10_000, 200_000, SECOND - 1, SECOND))
        begin = max(self.begin(receiver), min(ended + wait, ended + SECOND))
        slots = Slots(answer, self.failed_at(answer) if self.drawn.random() < 0.2 else None)
        made, fall = slots.stretches(begin, self.width)
        self.note(slots, made, fall, receiver)
        if not slots.is_taken:
            # Where nobody took the header, what it was is known by the next attempt.
            self.send(answer, None, True, is_prompt=True)

    def between(self, *others):
        """a frame of somebody else"""
        sender = self.drawn.choice([it for it in PLACES if it not in others])
        self.send(bytes([sender << 4 | 0xf, 0x36]))

    def tries_later(self):
        """between two attempts another one sends"""
        sender = self.drawn.choice(list(PLACES))
        frame = bytes([sender << 4 | self.drawn.choice(ABSENT), 0x46])
        self.send(frame, [False, False])
        self.between(sender)
        self.send(frame, [False, False], True)

    def meet(self):
        """two begin at once; the smaller address has the line, and the other one tries again (CEC 7.2)"""
        winner, loser = sorted(self.drawn.sample(list(PLACES), 2))
        first, second = bytes([winner << 4 | 0xf, 0x36]), bytes([loser << 4 | 0xf, 0x36])
        lost = next(slot for slot in range(1, 5) if (winner ^ loser) >> 4 - slot & 1)
        begin = max(self.begin(winner), self.begin(loser))
        made, fall = Slots(first).stretches(begin + self.drawn.randrange(30), middle)
        beside, _ = Slots(second).stretches(begin + self.drawn.randrange(30), middle, stop=lost)
        self.note(Slots(first), over(made, beside), fall, winner)
        self.send(second, None, True)

    def gives_way(self):
        """a frame that stops after a zero within the four bits of its initiator, which begins once more (CEC 7.2)"""
        frame = self.message(False)
        zeros = [slot for slot in range(1, 5) if not frame[0] >> 8 - slot & 1]
        slots = Slots(frame)
        if not zeros:
            return
        made, fall = slots.stretches(self.begin(frame[0] >> 4), self.width, stop=self.drawn.choice(zeros))
        slots.ends_whole = False
        self.note(slots, made, fall, frame[0] >> 4)
        self.send(frame, None, True)

    def has_no_address(self):
        """a device without an address asks where the television is, which tells all (CEC 12.2)"""
        self.send(bytes([0xf0, 0x83]))
        self.send(bytes([0x0f]) + blocks('84PP00', 0x0))

    def sleeps(self):
        self.last += self.drawn.choice((SECOND, 60 * SECOND, 3_600 * SECOND))


HAPPENS = ([Talk.taken] * 8 + [Talk.asks] * 6 + [Talk.failed] * 3 + [Talk.to_nobody, Talk.poll, Talk.allocates, Talk.tries_later, Talk.meet, Talk.gives_way,
           Talk.has_no_address, Talk.sleeps])


def line_of(number):
    """a line, and its end; of each third one the begin is cut within a frame, and of each second one the end"""
    talk = Talk(number)
    if number % 3 == 2:
        made, fall = Slots(talk.message(False)).stretches(0, talk.width)
        cut = talk.drawn.randrange(2, len(made))
        since = made[cut][0] - talk.drawn.randrange(1, 900)
        talk.stretches += [(it - since, rise - since) for it, rise in made[cut:]]
        talk.last = fall - since
    while talk.frames < FRAMES:
        talk.drawn.choice(HAPPENS)(talk)
    end = talk.stretches[-1][1] + 30_000
    if number % 2:
        frame = talk.message(False)
        made, fall = Slots(frame).stretches(talk.begin(frame[0] >> 4), talk.width, stop=talk.drawn.randrange(1, 10 * len(frame) - 1))
        talk.stretches += made
        talk.frames += 1
        end = talk.drawn.randrange(made[-1][1], fall + WINDOWS['total'][1])
    return talk, end


def fault_of(program, number, talk, text, has_verdict):
    """what is not as it should be, or nothing"""
    told_of, status = objects(program, ['mon', '--json', '--from', 'edges', '--audit', '--strict'], text)
    remarks = [it['line'].strip() for it in told_of if it['type'] == 'remark']
    if status or remarks:
        return 'status %d, %d remarks: %s' % (status, len(remarks), '; '.join(remarks[:3]))
    read = [(it['bytes'], it['verdict']) for it in told_of if it['type'] == 'reading' and it['ending'] == 'complete']
    if read != talk.sent:
        differs = next((at for at, (one, other) in enumerate(zip(read, talk.sent)) if one != other), min(len(read), len(talk.sent)))
        return '%d frames are read, and not %d; frame %d differs: %s' % (len(read), len(talk.sent), differs, (read + [None])[differs])
    if has_verdict:
        word = 'mid-frame' if number % 3 == 2 else 'fine'
        (verdict,), _ = objects(program, ['mon', '--json', '--from', 'edges', '--verdict'], text)
        if verdict['word'] != word:
            return 'no verdict %s: %s' % (word, verdict['line'])
        told_of, status = objects(program, ['mon', '--json', '--from', 'edges', '--report', '--strict'], text)
        broken = [it['line'].strip() for it in told_of if it['type'] == 'content']
        if status or broken:
            return 'status %d of a report: %s' % (status, '; '.join(broken[:3]))
    return None


def main():
    passed, failed, frames = 0, [], 0
    runs = programs()
    has_verdict = {it: '--verdict' in ran(it, ['mon', '--help'], '')[0] for it in runs}
    for number in range(LINES):
        talk, end = line_of(number)
        text = edge_file(talk.stretches, end)
        frames += talk.frames
        for program in runs if number % 10 == 0 else runs[:1]:
            fault = fault_of(program, number, talk, text, has_verdict[program])
            if fault:
                failed.append('line %d: %s' % (number, fault))
            else:
                passed += 1
    print('legal lines: %d frames' % frames)
    if frames < 100_000:
        failed.append('less than 100,000 frames')
    return told('legal lines', passed, failed)


if __name__ == '__main__':
    sys.exit(main())
