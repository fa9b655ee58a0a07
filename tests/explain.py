#!/usr/bin/env python3
"""tests/explain.py [PROGRAM..]: what the program says of faults with `--explain`, and of command lines that are refused.

Each file of tests/explain/ is a table of rows written by hand, and its ending says how they are read:

    .cases   a command line, an input, and after `=> ` what is said of it, after `hdminet: `; a line `--` parts the cases
    .rows    a front: a command line, and an input in which `%` stands for a line; below `--` rows of that line, the words of it that
             are marked, and a line of the explanation, parted by `|`
    .never   the same front, and rows of a line and of what is never suggested for it; the line is refused
    .legal   the same front, and lines of which nothing is said
    .says    a command line, an input with `;` for each line feed, and a part of what is said; or a front, a command line and a text,
             and below `--` a part of the text, what stands in its place, and a part of what is said
    .flags   command lines with an empty input: of taken.flags no value is named; the others are refused, and with the last line of what
             is said (meant.flags), a value that its flag does not take and what it has to be (values.flags), a flag that lacks its
             value, and what that has to be (missing.flags), or the rules that they break, parted by `|` (rules.flags)

`\\r`, `\\t`, `\\\\` and `\\u{..}` stand for these characters. PROGRAM is crates/hdminet/out/hdminet, and what Rattle's own compiler makes of
the same sources, hdminet.by-rattle beside it, where none is given. The last line is 'explain: N passed, M failed', and the status is 0
where M is 0."""
import collections
import concurrent.futures
import os
import re
import subprocess
import sys

from built import TOP, programs, told

TABLES = os.path.join(TOP, "tests/explain")
SIGNS = {"r": "\r", "t": "\t", "\\": "\\"}
HELP = "For more information, try '--help'."
VALUE = "error: a value is none of its flag\n\n%s\n  %s\n"
RULES = "error: flags do not go together\n\n  %s\n\n%s\n"

Answer = collections.namedtuple("Answer", "status out err")


class Explained:
    """The tests over one program."""

    def __init__(self, program):
        self.program, self.passed, self.failed = program, 0, []

    def ran(self, line, data=""):
        """What the program answers to the words of a line, with a text or bytes as its input."""
        given = data if isinstance(data, bytes) else data.encode()
        done = subprocess.run([self.program, *line.split()], input=given, capture_output=True, timeout=60)
        return Answer(done.returncode, done.stdout, done.stderr.decode(errors="replace"))

    def expect(self, right, what):
        self.passed += right
        if not right:
            self.failed.append("%s: %s" % (os.path.basename(self.program), what))


def read(name):
    """The text of a table, with its signs."""
    with open(os.path.join(TABLES, name), encoding="ascii") as file:
        text = file.read()
    return re.sub(r"\\(u\{([0-9a-f]+)\}|.)", lambda it: chr(int(it[2], 16)) if it[2] else SIGNS[it[1]], text)


def rows_of(text):
    """The rows of a table: its lines end with a line feed alone."""
    return [row for row in text.split("\n") if row]


def fronted(text):
    """The command line of a front, its input, and the rows below it."""
    front, rows = text.split("\n--\n", 1)
    command, whole = front.split("\n", 1)
    return command, whole + "\n", rows_of(rows)


def is_marked(err, marked):
    """Whether a line of marks has these words of the line above it."""
    lines = err.split("\n")
    for above, line in zip(lines, lines[1:]):
        begin = line.find("^")
        if begin >= 0 and "`" not in line and above[begin : len(line)] == marked:
            return True
    return False


def test_cases(tests, text, name):
    """The input of a case is refused, and explained in whole lines."""
    for case in text.split("--\n"):
        line, rest = case.split("\n", 1)
        data, want = rest.split("=> ", 1)
        tests.expect(tests.ran(line, data) == Answer(1, b"", "hdminet: " + want), case)


def test_rows(tests, text, name):
    """A line of a row is explained, and its words are marked."""
    command, whole, rows = fronted(text)
    for row in rows:
        line, marked, said = row.split("|", 2)
        err = tests.ran(command, whole.replace("%", line, 1)).err
        tests.expect("  " + said in err.split("\n") and is_marked(err, marked), "%s: %s" % (command, row))


def test_never(tests, text, name):
    """A line is refused, and what would be refused in its place is not suggested."""
    command, whole, rows = fronted(text)
    for row in rows:
        line, said = row.split("|", 1)
        err = tests.ran(command, whole.replace("%", line, 1)).err
        tests.expect("^" in err and said not in err, "%s: %s" % (command, row))


def test_legal(tests, text, name):
    """Of what is read nothing is said."""
    command, whole, rows = fronted(text)
    for line in rows:
        err = tests.ran(command, whole.replace("%", line, 1)).err
        tests.expect("^" not in err and "did you mean" not in err, "%s: %s" % (command, line))


def test_says(tests, text, name):
    """A part of what is said. Nothing else changes with `--explain`: standard output, the status and the first line of the fault.

    The numbers are those of docs/command-line.md, docs/run.md and of the standards' fields: of E-EDID they have 8, 10, 16 and 32 bits, a descriptor has 13
    characters (3.10.3), and the length of a data block five bits (CTA-861-D, 7.5), of which an HDMI block uses 5 bytes for its number
    and the address."""
    if "\n--\n" in text:
        command, whole, rows = fronted(text)
        every = [(command, whole, *row.split(" => ", 2)) for row in rows]
        every = [(command, whole.replace(old.replace(";", "\n"), new.replace(";", "\n")), said) for command, whole, old, new, said in every]
    else:
        every = [(command, data.replace(";", "\n"), said) for command, data, said in (row.split(" => ", 2) for row in rows_of(text))]
    for command, data, said in every:
        plain, explained = tests.ran(command, data), tests.ran(command + " --explain", data)
        is_added = explained[:2] == plain[:2] and explained.err.startswith(plain.err)
        begins = name != "added.says" or explained.err[len(plain.err) :].startswith(said + "\n") and not plain.out
        tests.expect(is_added and said in explained.err and begins, "%s: %r: %s" % (command, data, said))


def test_flags(tests, text, name):
    """Command lines that are refused, or of which no value is named."""
    for row in rows_of(text):
        line, *rest = row.split(" => ")
        answer = tests.ran(line)
        refused = answer.status == 2 and not answer.out
        if name == "taken.flags":
            right = answer.status != 2
        elif name == "meant.flags":
            right = refused and answer.err.splitlines()[-1] == rest[0]
        elif name == "unknown.flags":
            right = refused and rest[0] in answer.err.splitlines()
        elif name == "values.flags":
            right = refused and answer.err == VALUE % (HELP, rest[0].replace("|", "\n"))
        elif name == "rules.flags":
            right = refused and answer.err == RULES % (rest[0].replace("|", "\n  "), HELP)
        else:
            flag, takes = rest
            lacks = "  `%s` lacks its value: %s\n" % (flag.split()[0], takes)
            right = refused and answer.err == "error: a value is required for '%s' but none was supplied\n\n%s\n%s" % (flag, HELP, lacks)
        tests.expect(right, row)


# A carriage return within a line, and at its end; and what is said of it.
RETURNS = [
    ("at 5 press p1 plya\r", "`plya`: did you mean `play`?"),
    ("at 5 press p1 play\r", "this line ends with a carriage return before its line feed; lines end with a line feed alone"),
    ("at 5 press p1\rplay stop", "a carriage return stands within this line; lines end with a line feed"),
]
# Sessions whose topology is at fault, besides those of topologies.rows.
TOPOLOGIES = [
    "device p1 player 0\nscript\nend 9\n",
    "device tv tv 4\nedid 00ff\nscript\nend 9\n",
    "device tv tv 4\nScript\nend 9\n",
    "device tv tv 4\nat 5 press tv power\n",
    "\n",
]
# A session with lines that come too late, and what is said of them.
LATE = "device tv tv 4\nscript\nrun to 500\nat 5 press tv power\nrun to 499\nend 600\n"
TOO_LATE = """hdminet: script line 2: past
  line 4 of the input: at 5 press tv power
                          ^
  T is the horizon or later: the number after `=` in the last answer
hdminet: script line 3: past
  line 5 of the input: run to 499
                              ^^^
  T is the horizon or later: the number after `=` in the last answer
"""


def test_others(tests):
    """Sessions, carriage returns, and inputs that are long."""
    _, whole, rows = fronted(read("topologies.rows"))
    for data in TOPOLOGIES + [whole.replace("%", row.split("|")[0], 1) for row in rows]:
        run, live = tests.ran("run --explain", data), tests.ran("live --explain", data)
        plain, objects = tests.ran("live", data), tests.ran("live --json --explain", data)
        is_alike = live.err == run.err == objects.err != "" and live.status == run.status == plain.status and not live.out
        tests.expect(is_alike and live.err.startswith(plain.err), "a session explains its topology as a run does: %r" % data)
    for line, said in RETURNS:
        err = tests.ran("run --explain", whole.split("%")[0] + "script\n%s\nend 9\n" % line).err
        tests.expect(said in err and "play." not in err and "1.play" not in err, said)
    plain, explained = tests.ran("live", LATE), tests.ran("live --explain", LATE)
    tests.expect(explained.err == TOO_LATE and plain == explained._replace(err=""), "lines of the past")
    # Pulses 25,000 microseconds apart.
    pulses = "".join("pulse %d 1\n" % (number * 25_001) for number in range(4_097))
    # Four data blocks of 31 bytes have 128 bytes with their headers; an extension of 128 bytes has 123 for them (CTA-861-D, 7.5).
    block = "vendor 01020304050607080102030405060708010203040506070801020304050607\n"
    _, television, _ = fronted(read("fields.says"))
    for command, data, said in [
        ("run", "device tv tv 1\nscript\n%send 200000000\n" % pulses, "a script has at most 16384 pulses and pulls, and a pulse stands after fewer than 4096"),
        ("run", "#" * 1_048_577, "standard input has at most 1048576 bytes, a capture with `--from` 67108864"),
        ("edid --hex", b"\x00" + b"\xff" * 6 + b"\x00", "these are the bytes of an EDID, which `edid` reads without `--hex`"),
        ("edid --hex", "00ffffffffffff00".encode("utf-16"), "this looks like UTF-16; a dump has one byte a character, as `iconv -f utf-16 -t utf-8` writes it"),
        ("live", "device tv tv 1\nscript\n" + "#" * 4_097, "a line of a session has at most 4096 bytes"),
        (
            "edid --text",
            television.replace("video 900403\n", block * 4),
            "an extension has 123 bytes for data blocks and timings: the lines above have 96, and this one 32 more",
        ),
    ]:
        tests.expect("  %s\n" % said in tests.ran(command + " --explain", data).err, said)
    answer = tests.ran("tv.net --explain")
    tests.expect(answer.status == 2 and not answer.out and "tv.net" in answer.err and answer.err.endswith("as `hdminet run FILE`\n"), "a file with no subcommand")


KINDS = {".cases": test_cases, ".rows": test_rows, ".never": test_never, ".legal": test_legal, ".says": test_says, ".flags": test_flags}


def tested(program):
    """The tests over one program."""
    tests = Explained(program)
    for name in sorted(os.listdir(TABLES)):
        KINDS[os.path.splitext(name)[1]](tests, read(name), name)
    test_others(tests)
    return tests


def main():
    taken = programs()
    with concurrent.futures.ThreadPoolExecutor(len(taken) or 1) as pool:
        every = list(pool.map(tested, taken))
    failed = [it for tests in every for it in tests.failed]
    if not taken:
        failed.append("there is no program: ./hdminet builds it")
    return told("explain", sum(it.passed for it in every), failed)


if __name__ == "__main__":
    sys.exit(main())
