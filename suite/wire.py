"""The tests of the wire (CEC 5, 6.1, 7 and 9), for a device that pulls the line itself. tools/suite runs them beside the files of suite/.

A test runs scenes: a room with the device, a television and a peer that says nothing by itself, with frames that are sent in it and lows
that are laid on its line. It returns what is wrong, a sentence each; nothing where all is right."""

import collections
import re

# When a device has found its address, and how long it may take to answer a question (CEC 9.2: a second) and to say so, in microseconds.
SETTLED, ANSWERED = 3_000_000, 1_100_000
# CEC 5.2, nominal: a start bit, a data bit, and how long a 0 and a 1 are low.
START_LOW, START, BIT, ZERO, ONE = 3_700, 4_500, 2_400, 1_500, 600
BITS_OF_A_BLOCK, ACK_BIT, BITS_OF_AN_ADDRESS = 10, 9, 4
# CEC 7.4: a low drive.
LOW_DRIVE = range(3_360, 3_841)
# CEC 7.1: how often a frame is sent in all.
LEAST_ATTEMPTS, MOST_ATTEMPTS = 2, 6
# An address that the peer may hold, and one that nobody holds.
TELEVISION, PEER, NOBODY, BROADCAST = 0, 14, 12, 15
# How long the line rests between two frames that are laid on it.
BETWEEN = 50_000
# By how much another frame begins before or after its own.
SHIFTS = (-200, -20, 0, 20, 200)
# How long before the device would answer another question comes: a sender that tries again waits for two periods less (CEC 9.1).
BEFORE_ITS_ANSWER = 3_000
GIVE_OSD_NAME, GIVE_POWER_STATUS, VENDOR_COMMAND = 0x46, 0x8F, 0x89
TOPOLOGY = "device tv tv 4\ndevice dut outside 2\ndevice peer outside 0\nplug dut tv {port}\nplug peer tv {other}\nscript\n"

class WireTest(collections.namedtuple("WireTest", "name title section level required run")):
    """A test of the wire: `run(bench)` returns what is wrong. It has the head of a file of suite/."""

    @property
    def head(self):
        return {"section": [self.section], self.level: [self.required]}

    def kinds(self):
        return KINDS

    def features(self):
        return ()

    def lacked(self):
        return ()


class Round:
    """A line of the trace that is a round."""

    def __init__(self, line):
        words = line.split(" by ")[0].split(" ")
        self.begin, self.close, self.ending = int(words[0]), int(words[1]), words[2]
        self.text, self.verdict = " ".join(words[3:]), words[-1]
        self.way = words[3] if self.ending == "complete" else ""
        self.bits = words[3] if self.ending != "complete" and re.fullmatch("[01]+", words[3]) else ""

    def begins_with(self, initiator, destination):
        """Whether its header, as far as it was read, has these addresses."""
        if self.ending == "complete":
            return self.way == "%x>%x" % (initiator, destination)
        return self.bits.startswith(format(initiator << 4 | destination, "08b"))


class Scene:
    """What came of a scene: its rounds, and what the device pulled, as pairs of begin and width."""

    def __init__(self, run):
        self.run = run
        self.rounds = [Round(line) for line in run.room.trace if " by " in line]
        self.pulls = run.own_pulls

    def pulls_in(self, begin, end):
        return [(at, width) for at, width in self.pulls if begin < at < end]

    def said(self, words, begin=0):
        """The rounds that are whole and have these words, from an instant on."""
        return [each for each in self.rounds if each.ending == "complete" and words in each.text and each.begin >= begin]


class Bench:
    """Runs scenes over a device, and knows the address that it takes."""

    def __init__(self, suite, run_scene):
        self.suite, self.run_scene, self.known = suite, run_scene, None

    def scene(self, end, events=(), lows=()):
        lines = [*events, *("pull %d %d" % low for low in lows)]
        lines.sort(key=lambda line: int(line.split(" ")[1]))
        return Scene(self.run_scene(TOPOLOGY + "".join(line + "\n" for line in lines) + "end %d\n" % end))

    def settled(self):
        """The traffic with which the device comes."""
        return self.scene(SETTLED)

    @property
    def address(self):
        """The device's logical address, and the round in which it answers for its name."""
        if self.known is None:
            scene = self.scene(SETTLED + ANSWERED, [ask(SETTLED, "give-osd-name")])
            self.known = int(scene.run.held("its address is asked for"), 16), next(iter(scene.said("set-osd-name")), None)
        return self.known[0]

    @property
    def answer(self):
        return self.known[1] if self.address is not None else None


def ask(at, words, by="tv", initiator=TELEVISION):
    return "at %d send %s %x>{la} %s" % (at, by, initiator, words)


def bits_of(frame, last_eom=1):
    """The bits of a frame; what is acknowledged is left to those who hear it."""
    bits = []
    for at, byte in enumerate(frame):
        bits += [byte >> shift & 1 for shift in range(7, -1, -1)] + [last_eom if at == len(frame) - 1 else 0, 1]
    return bits


def laid(at, frame, start_low=START_LOW, start=START, zero=ZERO, one=ONE, bit=BIT, widths=None, most=None):
    """The lows of a frame with these widths, and the instant at which it ends. `widths` has the time from a slot's fall to the next one of some slots,
    from 1 on; `most` is how many slots there are."""
    lows = [(at, start_low)]
    at += start
    for slot, value in enumerate(bits_of(frame)[:most], 1):
        lows.append((at, one if value else zero))
        at += (widths or {}).get(slot, bit)
    return lows, at


def to_device(bench, *operands, initiator=TELEVISION):
    return bytes([initiator << 4 | bench.address, *operands])


# What the audit says of a device's own frames.

CLEAN = ("give-osd-name", "get-cec-version", "give-device-power-status", "give-physical-address", "give-device-vendor-id")


def audited(bench, pattern):
    """Remarks of the audit over clean traffic, in which the device polls, reports, answers, sends two frames in a row, and is not acknowledged. Of
    one that nobody can read it is the traffic with which it comes."""
    scene = bench.settled()
    if scene.run.last_held is not None and bench.answer is not None:
        events = [ask(SETTLED + at * ANSWERED, words) for at, words in enumerate(CLEAN)]
        end = SETTLED + len(CLEAN) * ANSWERED
        # Asked by two others, one after the other, it has two frames to send.
        begin = end + bench.answer.begin - SETTLED - BEFORE_ITS_ANSWER
        lows, _ = laid(begin, to_device(bench, GIVE_POWER_STATUS, initiator=PEER))
        events += ["at %d hold peer %x" % (end - 1, PEER), ask(end, "give-osd-name"), ask(end + 2 * ANSWERED, "give-osd-name", "peer", NOBODY)]
        scene = bench.scene(end + 7 * ANSWERED, events, lows)
    return [line.strip() for line in bench.suite.audit(scene.run.kept()[0]).split("\n") if re.match(r"  (%s)" % pattern, line) and " mean " not in line]


def widths(bench):
    remarks = audited(bench, r"start low|start total|slot|low drive|free")
    # A start bit that comes too soon ends the last bit of the frame before it, which is of the free time alone.
    soon = {" total %s " % remark.split(" ")[1] for remark in remarks if remark.startswith("free")}
    return [remark for remark in remarks if not remark.startswith("free") and not any(total in remark for total in soon)]


def free_times(bench):
    return audited(bench, r"free")


def attempts(bench):
    bench.address
    scene = bench.scene(SETTLED + 10 * ANSWERED, [ask(SETTLED, "give-osd-name", "peer", NOBODY)])
    made = [each for each in scene.rounds if each.begin >= SETTLED and each.begins_with(bench.address, NOBODY)]
    if LEAST_ATTEMPTS <= len(made) <= MOST_ATTEMPTS:
        return []
    return ["an answer that nobody acknowledges is sent %d times, not %d to %d" % (len(made), LEAST_ATTEMPTS, MOST_ATTEMPTS)]


# Who has the line.

def contended(bench, name, frame, words, most=None):
    """A frame that begins about when the device's answer does: it is read, unless it gives way, and the answer comes once."""
    wrong, begin = [], bench.answer.begin
    for shift in SHIFTS:
        lows, _ = laid(begin + shift, frame, most=most)
        scene = bench.scene(SETTLED + 3 * ANSWERED, [ask(SETTLED, "give-osd-name")], lows)
        count = len(scene.said("set-osd-name", begin - 1_000))
        if not scene.said(words, begin - 1_000):
            wrong.append("%s that begins %+d of its answer is not read" % (name, shift))
        elif count != 1:
            wrong.append("beside %s that begins %+d of it its answer comes %d times" % (name, shift, count))
    return wrong


def arbitration(bench):
    """A frame of another initiator begins with the device's answer: that of a smaller address goes through whole, and the answer comes after it; that
    of a greater address gives way."""
    if bench.answer is None:
        return ["it does not answer for its name"]
    # The television asks all who is the source: nobody answers, and nobody acknowledges.
    wrong = contended(bench, "a frame of address 0", bytes([TELEVISION << 4 | BROADCAST, 0x85]), "request-active-source")
    # An initiator of a greater address stops once it reads the device's 0 in the place of its own 1.
    return wrong + contended(bench, "a frame of address %x" % PEER, bytes([PEER << 4 | BROADCAST, 0x85]), "", first_difference(bench.address, PEER))


def first_difference(one, other):
    """How many bits of an address are sent up to the first one in which two differ."""
    return next(count for count in range(1, BITS_OF_AN_ADDRESS + 1) if one >> (4 - count) != other >> (4 - count))


def collision(bench):
    """Somebody lays a 0 over a 1 of its second block, or sends a frame of its address that has one there: it stops there, and its answer comes again."""
    if bench.answer is None:
        return ["it does not answer for its name"]
    begin = bench.answer.begin
    # Set OSD Name is 47: the second bit of that block is a 1.
    fall = begin + START + (BITS_OF_A_BLOCK + 1) * BIT
    scene = bench.scene(SETTLED + 3 * ANSWERED, [ask(SETTLED, "give-osd-name")], [(fall, ZERO)])
    wrong = []
    if scene.pulls_in(fall + BIT - 200, fall + BIT + 200):
        wrong.append("it goes on after a bit that it did not send")
    if not scene.said("set-osd-name", fall):
        wrong.append("its answer does not come again")
    # A frame of its own address that begins with its answer, and has the first 0 in the place of a 1: a refusal, whose opcode is 00.
    frame = bytes([bench.address << 4 | TELEVISION, 0x00, 0x8C, 0x00])
    return wrong + contended(bench, "another one's frame of its address", frame, "feature-abort 8c")


# What it reads.

WINDOWS = {
    "the shortest start bit": {"start_low": 3_500, "start": 4_300}, "the longest start bit": {"start_low": 3_900, "start": 4_700},
    "a start bit that is low for 3,500": {"start_low": 3_500}, "a start bit that is low for 3,900": {"start_low": 3_900},
    "a 0 that is low for 1,300": {"zero": 1_300}, "a 0 that is low for 1,700": {"zero": 1_700},
    "a 1 that is low for 400": {"one": 400}, "a 1 that is low for 800": {"one": 800},
    "bits of 2,050": {"bit": 2_050}, "bits of 2,750": {"bit": 2_750},
    "the shortest bits": {"zero": 1_300, "one": 400, "bit": 2_050}, "the longest bits": {"zero": 1_700, "one": 800, "bit": 2_750},
    "the longest lows in the shortest bits": {"zero": 1_700, "one": 800, "bit": 2_050},
}


def windows(bench):
    """Frames with each width that is allowed are acknowledged and answered."""
    wrong, frame = [], to_device(bench, GIVE_OSD_NAME)
    lows, spans = [], {}
    for at, (name, shape) in enumerate(WINDOWS.items()):
        begin = SETTLED + at * 2 * ANSWERED
        more, end = laid(begin, frame, **shape)
        lows += more
        spans[name] = (begin, end)
    scene = bench.scene(max(end for _, end in spans.values()) + 2 * ANSWERED, (), lows)
    for name, (begin, end) in spans.items():
        acknowledged = len(scene.pulls_in(begin, end))
        if acknowledged != len(frame):
            wrong.append("of a frame with %s it acknowledges %d of %d blocks" % (name, acknowledged, len(frame)))
        elif not [each for each in scene.said("set-osd-name", end) if each.begin < end + 2 * ANSWERED]:
            wrong.append("a frame with %s is not answered" % name)
    return wrong


def refused_windows(bench):
    """A start bit that is none and a bit that comes too late: nothing is acknowledged after them, and the next frame is answered."""
    wrong, frame = [], to_device(bench, GIVE_OSD_NAME)
    late = BITS_OF_A_BLOCK + 3
    rows: tuple[tuple[str, dict, int], ...]
    rows = (("a start bit that is low for 2,800", {"start_low": 2_800, "start": 3_600}, 0), ("a start bit that is low for 4,600", {"start_low": 4_600, "start": 5_400}, 0),
            ("a bit of 3,400", {"widths": {late: 3_400}}, late))
    for name, shape, slot in rows:
        lows, end = laid(SETTLED, frame, **shape)
        scene = bench.scene(end + 3 * ANSWERED, [ask(end + ANSWERED, "give-osd-name")], lows)
        if scene.pulls_in(SETTLED + START + slot * BIT, end):
            wrong.append("it acknowledges a frame with %s" % name)
        if len(scene.said("set-osd-name", SETTLED)) != 1:
            wrong.append("after a frame with %s it answers %d times, and once is right" % (name, len(scene.said("set-osd-name", SETTLED))))
    return wrong


def low_drive(bench):
    """A bit that comes after 1,800: who does not send holds the line low for 1.4 to 1.6 bits."""
    slot = BITS_OF_A_BLOCK + 4
    lows, end = laid(SETTLED, to_device(bench, GIVE_OSD_NAME), widths={slot: 1_800}, most=slot + 1)
    scene = bench.scene(end + ANSWERED, (), lows)
    long = [width for _, width in scene.pulls_in(SETTLED + START + slot * BIT - 700, end + 4_000) if width > ZERO]
    if not long:
        return ["it pulls no low drive after a bit of 1,800"]
    return [] if all(width in LOW_DRIVE for width in long) else ["its low drive is %d, not %d to %d" % (long[0], LOW_DRIVE[0], LOW_DRIVE[-1])]


def blocks(bench):
    """It acknowledges each block that comes to its address, up to sixteen."""
    wrong = []
    for count in (1, 2, 16):
        frame = to_device(bench, *[VENDOR_COMMAND, *[0x55] * 14][:count - 1])
        lows, end = laid(SETTLED, frame)
        scene = bench.scene(end + ANSWERED, (), lows)
        falls = {SETTLED + START + (block * BITS_OF_A_BLOCK + ACK_BIT) * BIT for block in range(count)}
        pulled = scene.pulls_in(SETTLED, end)
        taken = {fall for fall in falls if any(fall <= at <= fall + 400 for at, _ in pulled)}
        if len(pulled) != count or taken != falls:
            wrong.append("of %d blocks it acknowledges %d" % (count, len(taken)) + (", and pulls %d times" % len(pulled) if len(pulled) != len(taken) else ""))
    return wrong


def others(bench):
    """It leaves frames to others and to all alone, and those of its own."""
    wrong, ways = [], [(initiator, destination) for destination in range(BROADCAST + 1) for initiator in (TELEVISION, PEER)
                       if destination not in (initiator, TELEVISION, bench.address)]
    # (the television answers what comes to it: that is the last)
    lows, spans, at = [], [], SETTLED
    for initiator, destination in [*ways, (PEER, TELEVISION)]:
        more, end = laid(at, bytes([initiator << 4 | destination, GIVE_OSD_NAME]))
        lows += more
        spans.append((initiator, destination, at, end))
        at = end + BETWEEN
    scene = bench.scene(end + 10_000, (), lows)
    wrong += ["it pulls in a frame %x>%x" % (initiator, destination) for initiator, destination, begin, end in spans if scene.pulls_in(begin, end)]
    scene = bench.scene(SETTLED + 10 * ANSWERED, [ask(SETTLED, "give-osd-name", "peer", NOBODY)])
    if [each for each in scene.rounds if each.way == "%x>%x" % (bench.address, NOBODY) and each.verdict == "ack"]:
        wrong.append("it acknowledges a frame of its own")
    return wrong


def stops(bench):
    """A frame that stops in the middle is forgotten."""
    wrong = []
    for slots in (5, BITS_OF_A_BLOCK, BITS_OF_A_BLOCK + 3):
        lows, end = laid(SETTLED, to_device(bench, GIVE_OSD_NAME), most=slots)
        scene = bench.scene(end + 3 * ANSWERED, [ask(end + ANSWERED, "give-osd-name")], lows)
        if len(scene.said("set-osd-name", SETTLED)) != 1:
            wrong.append("after a frame that stops behind bit %d it answers %d times, and once is right" % (slots, len(scene.said("set-osd-name", SETTLED))))
    return wrong


def held_line(bench):
    """While the line is held low it sends nothing, and afterwards what waits goes out."""
    if bench.answer is None:
        return ["it does not answer for its name"]
    begin, length = bench.answer.begin - 4_000, 600_000
    scene = bench.scene(SETTLED + length + 3 * ANSWERED, [ask(SETTLED, "give-osd-name")], [(begin, length)])
    wrong = ["it pulls a line that is held low"] if scene.pulls_in(begin + 1_000, begin + length) else []
    return wrong if len(scene.said("set-osd-name", begin)) == 1 else wrong + ["its answer does not come once the line is let go"]


TESTS = [
    WireTest("wire-widths", "The widths of its bits are in their windows", "CEC 5.2", "required", "Each start bit and data bit that it pulls is as wide as CEC 5.2 allows", widths),
    WireTest("wire-free-times", "It waits for the signal free time", "CEC 9.1", "required", "3 periods before it tries again, 5 after another's frame, 7 after one of its own", free_times),
    WireTest("wire-attempts", "An answer that nobody acknowledges is sent again", "CEC 7.1", "required", "At least once and at most five times", attempts),
    WireTest("wire-arbitration", "Who has the smaller address has the line", "CEC 7.2, 9.1", "required", "It gives way to a smaller address, sends again, and goes on beside a greater one", arbitration),
    WireTest("wire-collision", "It stops where the line is not what it sends", "CEC 7.2", "required", "It pulls no bit after one that another device has made a 0", collision),
    WireTest("wire-windows", "It reads each width that is allowed", "CEC 5.2", "required", "A frame with the shortest and longest widths is acknowledged and answered", windows),
    WireTest("wire-refused-windows", "It does not read what is no bit", "CEC 5.2", "required", "Nothing is acknowledged after a start bit or a bit out of its window, and the next frame is read", refused_windows),
    WireTest("wire-low-drive", "A bit that comes too early is an error", "CEC 7.4", "required", "It holds the line low for 3,360 to 3,840 microseconds", low_drive),
    WireTest("wire-blocks", "It acknowledges each block to its address", "CEC 6.1.2", "required", "Each of up to sixteen blocks is acknowledged", blocks),
    WireTest("wire-others", "It leaves frames to others alone", "CEC 6.1.2", "required", "It acknowledges no frame to another address or to all, and none of its own", others),
    WireTest("wire-stops", "A frame that stops is forgotten", "CEC 6.1", "required", "The next frame is answered", stops),
    WireTest("wire-held", "A line that is held low is not used", "CEC 9.1", "required", "Nothing is sent while the line is low; what waits goes out afterwards", held_line),
]


def is_unread(bench):
    scene = bench.settled()
    return scene.run.last_held is None and bool(scene.pulls)


def is_unasked(bench):
    if bench.settled().run.last_held is None:
        return False
    scene = bench.scene(SETTLED + ANSWERED, [ask(SETTLED, "give-osd-name")])
    asked = [each for each in scene.rounds if each.begin >= SETTLED and each.begins_with(TELEVISION, bench.address)]
    return bool(asked) and not any(each.verdict == "ack" for each in asked)


# Where other tests can't judge a device: the test that says why, if it fails, and the reason.
GROUNDS = (("wire-widths", is_unread, "nobody reads its frames"), ("wire-blocks", is_unasked, "it acknowledges no question"))
# The kinds that they are for: those that have an address, and are below a television.
KINDS = ("player", "recorder", "tuner", "amp")
