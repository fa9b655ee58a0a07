#!/usr/bin/env python3
"""tests/suite.py [PROGRAM]: the tests of suite/ over devices that keep the standard, and over devices with one slip each, which
fail exactly the tests that tests/suite/faulty.txt names. The last line is 'suite: N passed, M failed'."""
import importlib.machinery
import importlib.util
import os
import signal
import subprocess
import sys
import tempfile
from concurrent.futures import ProcessPoolExecutor

from built import TOP, tests_told

sys.dont_write_bytecode = True
sys.path.insert(0, os.path.join(TOP, "tests/suite"))
sys.path.insert(0, os.path.join(TOP, "examples/suite"))

from bitbanged import FAULTS, BitBanged, Timing  # noqa: E402
from faulty import SLIPS  # noqa: E402
import faulty_features  # noqa: E402
import faulty_messages  # noqa: E402, F401
import faulty_opcodes  # noqa: E402, F401
import faulty_televisions  # noqa: E402, F401
from dut import Dut  # noqa: E402
from emulated import Emulated  # noqa: E402
from reference import Reference  # noqa: E402

loader = importlib.machinery.SourceFileLoader("runner", os.path.join(TOP, "tools/suite"))
runner = importlib.util.module_from_spec(importlib.util.spec_from_loader("runner", loader))
sys.modules["runner"] = runner
loader.exec_module(runner)

PROGRAM = os.path.realpath(sys.argv[1]) if len(sys.argv) > 1 else runner.found_program()
REFERENCE = os.path.join(TOP, "examples/suite/reference.py")
# What the kinds of the emulator fail, and where they have a remark. A box of a recorder and a player is tested as a player.
KNOWN = {
    ("player", "player"): ([], ["active-woken", "deck-wakes"]),
    ("recorder", "recorder"): ([], ["active-woken", "deck-wakes"]),
    ("combo", "player"): ([], ["active-woken", "deck-wakes"]),
    ("amp", "amp"): ([], ["audio-standby", "remote-functions"]),
    ("switch", "switch"): ([], []),
    ("tv", "tv"): ([], []),
}
# The frames that were spelled by now; each process has its own.
FRAMES = runner.Frames(PROGRAM)
TESTS = [test for test in runner.tests_of(runner.TESTS, []) if isinstance(test, runner.Test)]
WIRE_TESTS = runner.wire.TESTS
# How late an interrupt of a right device's pin comes, in microseconds.
LATENCIES = (1, 20, 100, 150, 300)
# At which of them it goes through all tests of a player.
WHOLE = [int(latency) for latency in os.environ.get("HDMINET_LATENCIES", "20 300").split()]


class Here:
    """A device of this process: it answers as its program would."""

    def __init__(self, device):
        self.device = device

    def ask(self, line):
        return self.device.answer(line)[:-1]


def failures(kind, device, port=2):
    """The tests that a device fails, and those that have a remark of what is recommended."""
    suite = runner.Suite(PROGRAM, kind, port, 60)
    suite.frames = FRAMES
    failed, remarked = [], []
    for test in TESTS:
        if runner.skipped(test, kind, [], getattr(device, "has", ())) is None:
            result = suite.test(test, Here(device))
            if not result.holds:
                failed.append(test.name)
            elif result.below:
                remarked.append(test.name)
    return failed, remarked


def of_slip(name):
    kind, device = SLIPS[name]
    return failures(kind, device())


class Full(Reference):
    """Has all that a device may have beside."""
    has = runner.OPTIONAL


def of_reference(case):
    kind, port, device = case
    return failures(kind, device(), port)


def expected():
    """What faulty.txt says: the tests of each device."""
    with open(os.path.join(TOP, "tests/suite/faulty.txt")) as file:
        lines = [line.rstrip("\n").split(":") for line in file if not line.startswith("#")]
    return {name: sorted(tests.split()) for name, tests in lines}


def of_emulated(kinds):
    emulated, kind = kinds
    device = Emulated(PROGRAM, emulated)
    got = failures(kind, device)
    device.close()
    return got


def keeps_the_standard(pool):
    """The device of the example passes as each kind, in each input of the television."""
    cases = [(kind, 2, Reference) for kind in sorted(runner.KINDS)] + [("player", 1, Reference), ("amp", 4, Reference), ("recorder", 2, Full), ("tuner", 3, Full)]
    right = True
    for case, got in zip(cases, pool.map(of_reference, cases)):
        if got != ([], []):
            print("suite: the reference as %s at %d: %s" % (*case[:2], got))
            right = False
    return right


def emulated_kinds(pool):
    """The kinds of the emulator pass, but for what this profile does otherwise (docs/behaviour.md)."""
    right = True
    for kind, got in zip(KNOWN, pool.map(of_emulated, KNOWN)):
        if got != KNOWN[kind]:
            print("suite: the emulated %s: %s" % (kind[0], got))
            right = False
    return right


def suite_of(command, *words):
    """What tools/suite writes over a device that is a program."""
    return subprocess.run([os.path.join(TOP, "tools/suite"), "--program", PROGRAM, "--dut", command, *words], capture_output=True, text=True)


class Multiplies(Dut):
    """Asks for more calls at each call."""

    def start(self, kind):
        self.wake()

    def wake(self):
        for after in range(1000, 1063):
            self.wake_up(after)


class Turns(Dut):
    """Asks for a thousand calls every millisecond."""

    def start(self, kind):
        self.wake_up(1000)
        self.left = 1000

    def wake(self):
        self.wake_up(1000)
        if self.left:
            self.wake_up(1000)
            self.left -= 1


class Floods(Reference):
    """Hands in twenty frames at once."""

    def on_46(self, initiator, operands):
        for _ in range(20):
            self.say(initiator, 0x47, *b"DUT")


def greedy_devices(pool):
    """A device that asks for more than there is fails, and the test comes to its end."""
    suite = runner.Suite(PROGRAM, "player", 2, 60)
    suite.frames = FRAMES
    test = next(test for test in TESTS if test.name == "osd-name")
    right = True
    cases = [
        (Multiplies(), "more than 1024 lines are due"),
        (Turns(), "more than 100000 lines in one test"),
        (Floods(), "refused queue-full"),
    ]
    for device, fault in cases:
        result = suite.test(test, Here(device))
        if result.holds or not any(fault in line for line in result.below):
            print("suite: no fault: %s" % fault)
            right = False
    return right


class Always:
    """Gives one device of this process to each scene, which makes it new."""

    def __init__(self, device):
        self.device = Here(device)

    def take(self):
        return self.device

    def give_back(self, is_broken):
        pass


def of_the_wire(latency_and_fault):
    """The tests that a player by pin fails, with what they say: those of the wire, and of one at latencies that are asked for all of its kind."""
    latency, fault = latency_and_fault
    kind = ByLevels if fault == "by levels" else BitBanged
    suite = runner.Suite(PROGRAM, "player", 2, 60)
    suite.frames = FRAMES
    devices = Always(kind(latency, FAULTS[fault][0] if fault in FAULTS else Timing()))
    tests = WIRE_TESTS + [test for test in TESTS if latency in WHOLE and fault is None and runner.skipped(test, "player", []) is None]
    names, failed = {test.name for test in tests}, {}
    for test in tests:
        why, result = suite.tried(test, devices, names)
        if why is None and not result.holds:
            failed[test.name] = result.below
    return failed


def faults_of_the_wire_are_seen(pool):
    """Each fault of the wire fails the test that is named after it, and no other but those that stand beside it; a right device fails none."""
    cases = [(latency, None) for latency in LATENCIES] + [(20, fault) for fault in FAULTS] + [(20, "by levels"), (150, "by levels")]
    right = True
    for (latency, fault), got in zip(cases, pool.map(of_the_wire, cases)):
        want = set(FAULTS[fault][1].split()) if fault in FAULTS else set()
        if set(got) != want:
            print("suite: %s at %d: fails %s" % (fault or "a right device", latency, got))
            right = False
    return right


def of_attempts(attempts):
    """Whether a device by pin that sends a frame so often passes `given-up`."""
    suite = runner.Suite(PROGRAM, "player", 2, 60)
    suite.frames = FRAMES
    test = next(test for test in TESTS if test.name == "given-up")
    return suite.test(test, Here(BitBanged(20, Timing(attempts=attempts)))).holds


def attempts_are_counted(pool):
    """A frame that nobody acknowledges is sent again at least once, and six times at most in all (CEC 7.1)."""
    counts = (1, 2, 6, 7, 21)
    wrong = [attempts for attempts, holds in zip(counts, pool.map(of_attempts, counts)) if holds != (2 <= attempts <= 6)]
    if wrong:
        print("suite: given-up takes or refuses %s attempts" % wrong)
    return not wrong


class SleepsOver(Reference):
    """Says its name two seconds after it was asked."""
    thinks = 2_000_000


HEAD = "# A test\n# section: own\n# for: player\n"
SEAT = "device tv tv 4\ndevice dut outside 2\nplug dut tv {port}\nscript\n"
ASK = "at 6000000 send tv 0>{la} give-osd-name\n"
AGAIN = "at 6500000 unplug dut\nat 7000000 plug dut tv {port}\n"
SILENT = "expect none from 0 to 15000000 {la}>0 set-osd-name\nend 15000000\n"


def written(directory, name, text):
    path = os.path.join(directory, name + ".test")
    with open(path, "w") as file:
        file.write(text)
    return path


def settling_devices(pool):
    """A device that is in transition for less than five seconds passes without a remark. It is asked again half a second after each answer that says
    so, until a minute after it was asked first; later lines of the test come so much later, and the label stands at the last question."""
    cases = [(kind, faulty_features.InTransition()) for kind in ("player", "amp", "tv")]
    right = True
    for kind, device in cases:
        got = failures(kind, device)
        if got != ([], []):
            print("suite: a %s in transition for 4.3 seconds: %s" % (kind, got))
            right = False
    text = SEAT + "at 3000000 send tv 0>f standby\nlabel ask at 7000000 settle tv 0>{la}\nat 8000000 send tv 0>{la} give-osd-name\nend 9000000\n"
    # An answer is over 147,000 after its question comes: a frame of two blocks, 20,000 of thinking and a frame of three. So it is asked every 647,000,
    # 93 times in a minute.
    for device, times in ((faulty_features.InTransition(), 2), (faulty_features.SettlesSlowly(), 5), (faulty_features.NeverSettles(), 93)):
        run, script = run_of(device, text)
        lines = [line.split(" ") for line in script.split("\n")]
        asked = [int(words[words.index("at") + 1]) for words in lines if words[-1] == "give-device-power-status"]
        named = [int(words[words.index("at") + 1]) for words in lines if words[-1] == "give-osd-name"]
        labels = [words for words in lines if words[:2] == ["label", "ask"]]
        steps = {after - before for before, after in zip(asked, asked[1:])}
        answers = [line.split(" ")[4:-5] for line in run.room.trace if "4>0 report-power-status" in line]
        right_times = asked[0] == 7_000_000 and asked[-1] <= 67_000_000 and named == [asked[-1] + 1_000_000] and run.end == asked[-1] + 2_000_000
        if run.fault or not right_times or len(labels) != 1 or str(asked[-1]) not in labels[0] or any(not 640_000 < step < 660_000 for step in steps) \
                or len(asked) != times or len(answers) != times:
            print("suite: in transition: %s asked %d at %s, then %s, labels %s, steps %s, end %d" % (run.fault, len(asked), asked[-1], named, labels, steps, run.end))
            right = False
    return right


def unplugged_devices(pool):
    """What a device has asked for is dropped where it is unplugged, and comes where it is not."""
    suite = runner.Suite(PROGRAM, "player", 2, 60)
    suite.frames = FRAMES
    with tempfile.TemporaryDirectory() as room:
        paths = [written(room, "stays", HEAD + SEAT + ASK + SILENT), written(room, "leaves", HEAD + SEAT + ASK + AGAIN + SILENT)]
        leaves, stays = (suite.test(test, Here(SleepsOver())).holds for test in runner.tests_of(room, paths))
    return leaves and not stays


class Pin(Dut):
    """A device that pulls the line itself, and notes the edges that it is told."""
    by_pin = True

    def start(self, kind):
        self.edges = []
        self.wake_up(5_000_000)

    def line(self, is_low):
        self.edges.append("%d %d" % (self.now, not is_low))


class Overlaps(Pin):
    """Pulls while it pulls."""

    def wake(self):
        for after, width in ((100, 600), (300, 600), (400, 50), (1000, 100)):
            self.pull(width, after)


class Levels(Pin):
    """Sets its pin low twice, and high twice."""

    def wake(self):
        for after, level in ((100, 0), (300, 0), (900, 1), (950, 1), (1000, 0), (1100, 1)):
            self.pin(level, after)


class Leaves(Pin):
    """Sets its pin low, and leaves it so."""

    def wake(self):
        self.pin(0, 100)


class BothWays(Pin):
    """Pulls by a width, and then by levels."""

    def wake(self):
        self.pull(600, 100)
        self.pin(0, 1000)


class ByLevels(BitBanged):
    """The right player, which sets the level of its pin in place of pulling for a width."""

    def pull(self, width, after=0):
        self.pin(0, after)
        self.pin(1, after + width)


class Touches(Pin):
    """Pulls for the last time where the pull before ends."""

    def wake(self):
        for after, width in ((100, 600), (700, 50), (750, 1)):
            self.pull(width, after)


class Leans(Pin):
    """Pulls for longer than one pull may be, and then pulls on where it hears that the line has risen."""

    def wake(self):
        self.pull(10_000_000)
        self.pull(10_000_000, 5_000_000)

    def line(self, is_low):
        super().line(is_low)
        if self.now == 20_000_000:
            self.pull(100)


class Hasty(Pin):
    """Pulls at once where the line rises first."""

    def line(self, is_low):
        super().line(is_low)
        if len(self.edges) == 2:
            self.pull(400)


class Chatters(Pin):
    """Pulls without an end, a microsecond wide."""

    def wake(self):
        for number in range(63):
            self.pull(1, 4 * number)
        self.wake_up(252)


class Blind(Pin):
    """Lays a poll and its physical address on the line, and hears nothing."""

    def lay(self, data, after):
        self.pull(3700, after)
        bits = "".join(format(byte, "08b") + ("11" if at + 1 == len(data) else "01") for at, byte in enumerate(data))
        for slot, bit in enumerate(bits):
            self.pull(600 if bit == "1" else 1500, after + 4500 + 2400 * slot)

    def address(self, physical):
        if physical is not None:
            self.lay([0x44], 300_000)
            self.lay([0x4f, 0x84, physical >> 8, physical & 0xff, 0x04], 400_000)


PLAIN = SEAT + "%send 7000000\n"
PIN_CASES = [
    # Pulls that overlap or touch are one low.
    (Overlaps, PLAIN % "", ["5000100 0", "5000900 1", "5001000 0", "5001100 1"], None),
    (Overlaps, PLAIN % "pulse 5000200 1000\n", ["5000100 0", "5001200 1"], None),
    (Overlaps, PLAIN % "pull 5000900 50\n", ["5000100 0", "5000950 1", "5001000 0", "5001100 1"], None),
    (Overlaps, PLAIN % "pull 5000901 98\n", ["5000100 0", "5000900 1", "5000901 0", "5000999 1", "5001000 0", "5001100 1"], None),
    (Overlaps, PLAIN % "pull 5000050 2000\n", ["5000050 0", "5002050 1"], None),
    (Overlaps, PLAIN % "at 5000100 ask press play\nat 5000300 ask release play\n", ["5000100 0", "5000900 1", "5001000 0", "5001100 1"], None),
    (Touches, PLAIN % "", ["5000100 0", "5000751 1"], None),
    # By levels a low ends where the pin is 1 and the test pulls no more.
    (Levels, PLAIN % "", ["5000100 0", "5000900 1", "5001000 0", "5001100 1"], None),
    (Levels, PLAIN % "pulse 5000200 1000\n", ["5000100 0", "5001200 1"], None),
    (Levels, PLAIN % "pull 5000900 50\n", ["5000100 0", "5000950 1", "5001000 0", "5001100 1"], None),
    (Levels, PLAIN % "pull 5000901 98\n", ["5000100 0", "5000900 1", "5000901 0", "5000999 1", "5001000 0", "5001100 1"], None),
    (Levels, PLAIN % "pull 5000050 2000\n", ["5000050 0", "5002050 1"], None),
    (Levels, PLAIN % "pull 5000050 100\n", ["5000050 0", "5000900 1", "5001000 0", "5001100 1"], None),
    (Levels, PLAIN % "pull 5000200 100\npull 5000850 100\npull 5001050 10\n", ["5000100 0", "5000950 1", "5001000 0", "5001100 1"], None),
    (Leans, PLAIN.replace("7000000", "30000000") % "", ["5000000 0", "20000000 1", "20000001 0", "20000101 1"], None),
    # An edge is told a microsecond after it. The television polls at 12,000, its start bit rises at 15,700, and it polls again.
    (Hasty, PLAIN % "", ["15701 0", "16101 1"], []),
    # While it is unplugged it hears and pulls nothing.
    (Overlaps, PLAIN % ("at 4900000 unplug dut\nat 5000050 send tv 0>f standby\nat 6000000 plug dut tv {port}\n"), [], []),
    (Overlaps, PLAIN % ("at 5000050 unplug dut\nat 6000000 plug dut tv {port}\n"), [], []),
]


def run_of(device, text):
    """A run of a device over a test that is text, and the script with its expectations."""
    suite = runner.Suite(PROGRAM, "player", 2, 60)
    suite.frames = FRAMES
    run = runner.Run(suite, runner.Test("own", HEAD + text, "own"), Here(device))
    run.whole()
    return run, run.kept()[0]


def edges_of(text):
    """The edges of a script, but for its end."""
    plain = subprocess.run([PROGRAM, "check", "--plain"], input=text, capture_output=True, text=True).stdout
    edges = subprocess.run([PROGRAM, "run", "--edges"], input=plain, capture_output=True, text=True).stdout
    return edges.split("\n")[:-2]


def pins_are_exact(pool):
    """A device by pin pulls at the instants that it names, and is told each edge of the line once, and all in its order."""
    right = True
    for kind, text, lows, late in PIN_CASES:
        device = kind()
        run, script = run_of(device, text)
        got = [line[len("pin "):] for line in script.split("\n") if line.startswith("pin ")]
        of_run = edges_of(script)
        is_plugged = "unplug" not in text
        heard = [edge for edge in device.edges if int(edge.split(" ")[0]) >= 5_000_000]
        instants = [int(line.split(" ")[2]) for line in run.talk if line.startswith("> ")]
        is_heard = heard == (lows if late is None else late) and (not is_plugged or device.edges == of_run) and set(device.edges) <= set(of_run)
        if run.fault or got != lows or not is_heard or instants != sorted(instants):
            print("suite: a device by pin: %s %s %s %s" % (kind.__name__, run.fault, got, heard))
            right = False
    run, _ = run_of(BothWays(), PLAIN % "")
    right = right and run.fault == "both pull and pin in one test"
    # A pin that is left low keeps the line low to the end.
    device = Leaves()
    run, script = run_of(device, PLAIN % "")
    right = right and run.fault is None and [line for line in script.split("\n") if line.startswith("pin 5")] == ["pin 5000100 0"]
    right = right and [edge for edge in device.edges if int(edge.split(" ")[0]) >= 5_000_000] == ["5000100 0"]
    most, runner.MOST_PULLS = runner.MOST_PULLS, 300
    run, _ = run_of(Chatters(), PLAIN % "")
    runner.MOST_PULLS = most
    return right and most == 16384 and run.fault == "more than 300 pulls in one test"


def pins_are_judged(pool):
    """What a pin lays on the line is a frame of the device: its address is the one of its poll, and its rounds are by nobody."""
    suite = runner.Suite(PROGRAM, "player", 2, 60)
    suite.frames = FRAMES
    want = {
        "address-first": ["# fails: expect within 200000 of call 0>4 ack"],
        "osd-name": ["# fails: label asked expect within 500000 of ask 0>4 give-osd-name ack", "# fails: expect once within 3000000 of asked 4>0 set-osd-name",
                     "# fails: expect none within 3000000 of asked 4>0 set-osd-name :*"],
    }
    right = True
    for name, fails in want.items():
        result = suite.test(next(test for test in TESTS if test.name == name), Here(Blind()))
        got = [line for line in result.below if line.startswith("# fails: ")]
        if got != fails or not result.is_by_pin or result.is_broken:
            print("suite: a pin that hears nothing: %s %s" % (name, got))
            right = False
    return right


def ill_formed_tests(pool):
    """A test that is none is refused with status 2, by its line or by what the program says of it."""
    cases = [
        (SEAT + ASK + SILENT, "a title, a section, kinds and an end are needed"),
        (HEAD + SEAT + ASK, "a title, a section, kinds and an end are needed"),
        (HEAD + SEAT + "at x send tv 0>4\nend 9000000\n", "line 8: a number or a word is missing"),
        (HEAD + SEAT + "label a\nend 9000000\n", "line 8: a number or a word is missing"),
        (HEAD + SEAT + "frob\nend 9000000\n", "line 8: no such line"),
        (HEAD + SEAT + "at 3000000 settle\nend 9000000\n", "line 8: who asks whom is missing"),
        (HEAD + SEAT + "at 3000000 settle tv 0\nend 9000000\n", "line 8: who asks whom is missing"),
        (HEAD + SEAT + "at 3000000 send tv 0>{fourth} give-osd-name\nend 9000000\n", "no place {fourth} for a player"),
        (HEAD + SEAT + "at 3000000 send tv 0>4 give-osd-nam\nend 9000000\n", "frame name"),
        (HEAD + SEAT + "expect within 500 of nothing 0>4\nend 9000000\n", "the test is refused: hdminet: script line "),
        (HEAD + SEAT.replace("tv 4", "tv 16") + ASK + SILENT, "topology line 1: number"),
    ]
    right = True
    with tempfile.TemporaryDirectory() as room:
        for number, (text, fault) in enumerate(cases):
            ran = suite_of(REFERENCE, "--kind", "player", written(room, "test%d" % number, text))
            if ran.returncode != 2 or fault not in ran.stderr or not ran.stderr.startswith("suite: "):
                print("suite: %d: %s %s" % (ran.returncode, fault, ran.stderr))
                right = False
    return right


def broken_devices(pool):
    """A device that breaks the protocol fails each test with what it did, and nothing waits for ever."""
    answers = "sh -c 'while read line; do printf \"%s\\nidle\\n\"; done'"
    pins = "sh -c 'read line; printf \"by pin\\n%s\\nidle\\n\"; while read line; do echo idle; done'"
    cases = [
        ("sh -c 'cat > /dev/null'", 1, "no answer in 1 seconds"),
        ("sh -c 'printf half; cat > /dev/null'", 1, "no answer in 1 seconds"),
        ("sh -c 'read line; echo idle'", 60, "its "),
        ("true", 60, "its "),
        ("sh -c 'while read line; do seq 100; done'", 60, "more than 64 lines in one answer"),
        (answers % "idle", 60, "a line before its turn: idle"),
        (answers % "frob", 60, "no such line: frob"),
        (answers % "after 0 send 4", 60, "no such line: after 0 send 4"),
        (answers % "after 0  send 44", 60, "no such line: after 0  send 44"),
        (answers % "after 07 send 44", 60, "no such line: after 07 send 44"),
        (answers % ("after 0 send " + "44" * 17), 60, "no such line: after 0 send " + "44" * 17),
        (answers % "after 0 hold 4+8+b+0+1", 60, "no such line: after 0 hold 4+8+b+0+1"),
        (answers % "after 0 hold f", 60, "no such line: after 0 hold f"),
        (answers % "after 0 wake", 60, "no such line: after 0 wake"),
        (answers % "after 0 pull 100", 60, "no such line: after 0 pull 100"),
        (answers % "after 99999999 wake", 60, "no such line: after 99999999 wake"),
        (answers % "by pin", 60, "no such line: by pin"),
        (pins % "after 0 send 44", 60, "no such line: after 0 send 44"),
        (pins % "after 0 hold 4", 60, "no such line: after 0 hold 4"),
        (pins % "after 0 drop", 60, "no such line: after 0 drop"),
        (pins % "after 0 pull 0", 60, "no such line: after 0 pull 0"),
        (pins % "after 0 pull 0100", 60, "no such line: after 0 pull 0100"),
        (pins % "after 0 pull 10000001", 60, "no such line: after 0 pull 10000001"),
        (pins % "after 0 pull", 60, "no such line: after 0 pull"),
        (pins % "after 0 wake", 60, "no such line: after 0 wake"),
        (pins % "by pin", 60, "no such line: by pin"),
        (pins % "after 0 pin 2", 60, "no such line: after 0 pin 2"),
        (pins % "after 0 pin 0 1", 60, "no such line: after 0 pin 0 1"),
        (answers % "after 0 pin 0", 60, "no such line: after 0 pin 0"),
        ("sh -c 'while read line; do printf \"idle\\r\\n\"; done'", 60, "it holds no logical address: send tv 0>{la} give-osd-name"),
        ("sh -c 'while read line; do echo idle; done'", 60, "it holds no logical address: send tv 0>{la} give-osd-name"),
    ]
    right = True
    ran = [(command, fault, pool.submit(suite_of, command, "--kind", "player", "--limit", str(limit), "osd-name", "version")) for command, limit, fault in cases]
    for command, fault, got in ran:
        got = got.result()
        # (what holds no address is named by the line that asks it)
        is_named = got.stdout.count("# the device under test: " + fault) == (1 if "{la}" in fault else 2)
        if got.returncode != 1 or not is_named or "not ok 1 - osd-name" not in got.stdout or "not ok 2 - version" not in got.stdout:
            print("suite: %s: %s %s" % (command, got.stdout, got.stderr))
            right = False
    for words in (["--kind", "combo"], ["--kind", "player", "no-such-test"], [], ["--kind", "player", "--port", "5"]):
        right = right and suite_of("true", *words).returncode == 2
    return right and suite_of("/no/such/program", "--kind", "player").returncode == 2


def programs_are_driven(pool):
    """A device that is a program: the report, what is kept, and the command that runs a test again."""
    right = True
    with tempfile.TemporaryDirectory() as kept:
        ran = suite_of(REFERENCE, "--kind", "amp", "--keep", kept, "osd-name", "remote-lost", "deck-play")
        lines = ran.stdout.split("\n")
        right = right and ran.returncode == 0 and lines[0] == "TAP version 13" and lines[1].startswith("ok 1 - deck-play: ")
        right = right and lines[-3:] == ["# passed 2, failed 0, skipped 1, with remarks 0", "1..3", ""]
        right = right and lines[1].endswith(" # SKIP for player recorder")
        right = right and lines[2].startswith("ok 2 - osd-name: ") and lines[3].startswith("ok 3 - remote-lost: ")
        files = [name + end for name in ("osd-name", "remote-lost") for end in (".report", ".talk", ".test")]
        right = right and sorted(os.listdir(kept)) == files
        for name in ("osd-name", "remote-lost"):
            with open(os.path.join(kept, name + ".test")) as test, open(os.path.join(kept, name + ".report")) as report:
                checked = subprocess.run([PROGRAM, "check", "--trace"], stdin=test, capture_output=True, text=True)
                right = right and checked.returncode == 0 and checked.stdout == report.read()
        with tempfile.TemporaryDirectory() as anew:
            suite_of(REFERENCE, "--kind", "amp", "--keep", anew, "osd-name", "remote-lost")
            ran = subprocess.run(["diff", "-r", kept, anew], capture_output=True, text=True)
            right = right and ran.returncode == 0
        again = suite_of(REFERENCE, "--kind", "amp", "--once", "--port", "3", os.path.join(TOP, "suite/osd-name.test"))
        right = right and again.returncode == 0 and again.stdout.startswith("TAP version 13\nok 1 - osd-name: ")
        failing = suite_of("sh -c 'while read line; do echo idle; done'", "--kind", "recorder", "--port", "1", "address-first")
        command = "# again: tools/suite --dut 'sh -c '\"'\"'while read line; do echo idle; done'\"'\"'' --kind recorder --port 1 --program %s address-first\n" % PROGRAM
        right = right and failing.stderr == "suite: failed tests 1\n"
        right = right and failing.returncode == 1 and command in failing.stdout and "\n# trace\n# " in failing.stdout
        without = suite_of(REFERENCE, "--kind", "player", "--without", "menu", "menu-query")
        right = right and without.returncode == 0 and "# SKIP without menu" in without.stdout
    return right


class Ticking(Reference):
    """A device that is called every 7 ms, and says at these calls what it has to say."""
    thinks = 0

    def start(self, kind):
        super().start(kind)
        self.waiting = []
        self.wake_up(7000)

    def send(self, data, after=0):
        self.waiting.append(data)

    def wake(self):
        waiting, self.waiting = self.waiting, []
        for data in waiting:
            super().send(data)
        self.wake_up(7000)


def ticking_devices(pool):
    """A device with a tick passes: it acts in the middle of rounds too, and is asked a thousand times."""
    got = failures("player", Ticking())
    if got != ([], []):
        print("suite: the device with a tick: %s %s" % got)
    return got == ([], [])


def table_is_whole(pool):
    """docs/suite.md has each test in the row of its first section, in the order of sections and names, and no other."""
    def section(test):
        return test.head["section"][0].split(",")[0]

    def place(test):
        return [int(number) for number in section(test).split(" ")[1].split(".")], test.name
    want = {}
    for test in sorted(TESTS, key=place):
        want.setdefault(section(test), []).append("`%s`" % test.name)
    with open(os.path.join(TOP, "docs/suite.md")) as file:
        text = file.read()
    table = [[cell.strip() for cell in line.split("|")[1:-1]] for line in text.splitlines() if line.startswith("| CEC ")]
    rows = [(section, " ".join(tests)) for section, tests in want.items()]
    is_whole = [(row[0].split(",")[0], row[-1]) for row in table] == rows and "Each of %d devices with one slip" % len(SLIPS) in text
    if not is_whole:
        print("suite: the rows of docs/suite.md are to be:\n" + "".join("| %s, .. | %s |\n" % row for row in rows), end="")
    return is_whole


def of_talk(name):
    """Whether what a device said in each test came at the instants that it named, and its trace is the one of `hdminet run`."""
    kind, device = SLIPS.get(name, ("player", Ticking))
    suite = runner.Suite(PROGRAM, kind, 2, 60)
    suite.frames = FRAMES
    right = True
    for test in TESTS:
        if runner.skipped(test, kind, []) is not None:
            continue
        run = runner.Run(suite, test, Here(device()))
        run.whole()
        taken = {line.split(" ")[1] + " " + line.split(" ")[2] for line in run.room.script if " dut" in line and line.startswith("at ")}
        # What a device was about to do when it is unplugged goes nowhere.
        now, is_unplugged = 0, "unplug" in " ".join(run.room.script)
        for line in run.talk:
            words = line.split(" ")
            if words[0] == ">":
                now = int(words[2])
            elif words[1] == "after" and words[3] in ("send", "hold") and not is_unplugged:
                at = now + int(words[2])
                right = right and (at >= run.end or "%d %s" % (at, words[3]) in taken)
        text, _ = run.kept()
        plain = subprocess.run([PROGRAM, "check", "--plain"], input=text, capture_output=True, text=True).stdout
        trace = subprocess.run([PROGRAM, "run"], input=plain, capture_output=True, text=True).stdout
        if not trace.startswith("".join(run.room.trace)):
            print("suite: %s in %s: another trace than that of run" % (name, test.name))
            right = False
    return right


def instants_are_kept(pool):
    """What a device does comes at the instant that it says, to the microsecond, and runs give the same trace each time."""
    return all(pool.map(of_talk, ["answers-late", "answers-slowly", "no-time-out", "ticking"]))


def slips_are_seen(pool):
    """Each device with a slip fails the tests that it has to, and no other."""
    want = expected()
    right = sorted(want) == sorted(SLIPS)
    if not right:
        print("suite: faulty.py and faulty.txt differ: %s" % sorted(set(want) ^ set(SLIPS)))
    for name, (failed, remarked) in zip(want, pool.map(of_slip, want)):
        if failed != want[name] or (not failed and not remarked):
            print("suite: %s fails %s and not %s" % (name, " ".join(failed) or "nothing", " ".join(want[name]) or "nothing, with a remark"))
            right = False
    return right


def every_test_fails_once(pool):
    """For each test there is a device that fails it."""
    never = {test.name for test in TESTS} - {name for tests in expected().values() for name in tests}
    if never:
        print("suite: no device fails %s" % " ".join(sorted(never)))
    return not never


WHAT = [
    keeps_the_standard,
    emulated_kinds,
    slips_are_seen,
    every_test_fails_once,
    table_is_whole,
    ticking_devices,
    instants_are_kept,
    greedy_devices,
    settling_devices,
    unplugged_devices,
    pins_are_exact,
    pins_are_judged,
    faults_of_the_wire_are_seen,
    attempts_are_counted,
    ill_formed_tests,
    broken_devices,
    programs_are_driven,
]


def main():
    if not os.access(PROGRAM, os.X_OK):
        sys.exit("suite: no program at %s" % PROGRAM)
    signal.alarm(900)
    with ProcessPoolExecutor(min(4, os.cpu_count() or 2)) as pool:
        sys.exit(tests_told("suite", WHAT, pool))


if __name__ == "__main__":
    main()
