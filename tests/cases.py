#!/usr/bin/env python3
"""tests/cases.py [PROGRAM..]: runs the program over the cases of tests/cases/, and compares what it writes.

A file there has the cases of a subject, and is written by hand:

    == a line on which nothing happens
    What stands between the name and the command line is for readers.
    $ run --edges
    device tv tv 1
    script
    end 12000
    -- out
    12000 end

The words after `$` are a command line, quoted as in a shell; of several, one below the other, each is tried. The lines below are
standard input, up to the next one that begins with `-- ` or `== `. An empty line right above `== ` is for readers. Of the sections

    -- in           goes on with standard input
    -- out, -- err  are the whole of standard output and standard error; where there is none, nothing is written there
    -- status 1     is the status, 0 where none is given
    -- only RE      compares those lines of standard output alone in which this pattern (of Python's re) is found
    -- turns        is a dialogue: each line after `> ` is sent once that is written which stands below the one above, and no more
    -- file NAME    is a file in the folder in which the program runs; before the first case, for all cases
    -- fronts 9     says that each front of the input, the empty one and the whole one too, is taken in silence or refused with status 1,
                    a fault and no output, and that so many of them are taken
    -- rows         makes a case of each line: its fields, parted by ` => `, stand for %1, %2 and so on in the command line and in the
                    other sections, and `;` in a field for a line feed; `rows above` has the rows of the case above
    -- each         makes a case of each word, which stands for %1

Words after a section's name say how it is read:

    bare            without the line feed at its end
    hex             bytes in hex, parted as one likes; `126=02` puts a byte at a place, `..128` cuts to so many bytes
    digits          the same, as a line of digits
    slots           the edge file of a line on which words are sent: `@T` waits up to an instant, `=4f36` is a frame whose blocks are all
                    taken, `S` a start bit, `0` and `1` are bits, and `1500/900` is a low and a high part in microseconds; 20,000 after
                    the last word the file ends, or there, where that word is `|`
    pulls           the same as the lines `pull` of a script
    has             the text of the section stands in what is written; `begins`, `ends`: there
    lines           the lines of the section stand in what is written, in this order
    any             whatever is written
    with A => B     the first A of the section is B
    of COMMAND      is what the program writes for this command line of the section, or of standard input where the section is empty

`{NAME}` stands for a file of tests/cases/files or of examples/ without its last line feed, and `{TEXT*9}` for a text nine times; inner ones come first.

PROGRAM is crates/hdminet/out/hdminet, and what Rattle's own compiler makes of the same sources, hdminet.by-rattle beside it, where none
is given. The last line is 'cases: N passed, M failed', and the status is 0 where M is 0."""
import collections
import difflib
import glob
import multiprocessing
import os
import re
import shlex
import subprocess
import sys
import tempfile
import threading

from built import TOP, programs, told

CASES = os.path.join(TOP, "tests/cases")
SECTIONS = ("in", "out", "err", "status", "only", "turns", "file", "fronts", "rows", "each")
# How long one run may take, in seconds, and how many lines of a difference are shown.
LIMIT, SHOWN = 60, 24
# The low and the high part of a start bit and of bits (CEC 5.2), and how long a line is high at the end of slots, in microseconds.
PARTS = {"S": (3_700, 800), "0": (1_500, 900), "1": (600, 1_800)}
TAIL = 20_000

# A section: its name, the words after that, and its text, or of rows its lines with their numbers.
Section = collections.namedtuple("Section", "name words text")
# A case: its file, line and name, its command lines, and its sections.
Case = collections.namedtuple("Case", "file line name commands sections")
Answer = collections.namedtuple("Answer", "status out err")


class Fault(Exception):
    """Why a case fails."""


# ---------------------------------------------------------------- files of cases
def files_of(folder=CASES):
    """The files of cases."""
    return sorted(glob.glob(os.path.join(folder, "*.txt")))


def read(path):
    with open(path, encoding="utf-8", newline="") as file:
        return file.read()


class Reader:
    """The cases of a file, line by line."""

    def __init__(self, path):
        self.name, self.cases, self.shared = os.path.relpath(path, TOP), [], []
        # The name and the words of the section that is being read, and its lines.
        self.section, self.lines = None, []
        for number, line in enumerate(read(path).removesuffix("\n").split("\n"), 1):
            self.take(number, line)
        self.end_section()

    def take(self, number, line):
        if line.startswith("== "):
            if self.lines and not self.lines[-1][1]:
                self.lines.pop()
            self.end_section()
            self.cases.append(Case(self.name, number, line[3:], [], list(self.shared)))
        elif line.startswith("-- "):
            self.end_section()
            self.section = (line[3:] + " ").split(" ", 1)
            if self.section[0] not in SECTIONS:
                raise Fault("%s:%d: no section is named `%s`" % (self.name, number, self.section[0]))
        elif self.cases and line[:2] in ("$ ", "$") and not self.lines and self.section in (None, ["in", ""]):
            self.cases[-1].commands.append(line[2:])
            self.section = ["in", ""]
        elif self.section:
            self.lines.append((number, line))

    def end_section(self):
        if self.section:
            name, words = self.section
            text = self.lines if name in ("rows", "each") else "".join(line + "\n" for _, line in self.lines)
            (self.cases[-1].sections if self.cases else self.shared).append(Section(name, words.removesuffix(" "), text))
        self.section, self.lines = None, []


def fields_of(row):
    """The fields of a row."""
    row = row + " " if row.endswith(" =>") else row
    return [field.replace(";", "\n") for field in row.split(" => ")]


def filled(case, line, row):
    """A case of a row: its fields in the place of their numbers."""
    fields = fields_of(row)

    def put(text):
        return re.sub(r"%([1-9])", lambda found: fields[int(found[1]) - 1], text)
    try:
        sections = [Section(it.name, put(it.words), put(it.text)) for it in case.sections if it.name not in ("rows", "each")]
        return Case(case.file, line, "%s: %s" % (case.name, row), [put(it) for it in case.commands], sections)
    except IndexError:
        raise Fault("%s:%d: a row has too few fields" % (case.file, line)) from None


def rows_of(case, above):
    """The lines of rows of a case, which are those of the case above where it has none of its own."""
    for table in case.sections:
        if table.name in ("rows", "each"):
            rows = [row for row in table.text if row[1]]
            if table.name == "each":
                rows = [(line, word) for line, words in rows for word in words.split()]
            if not rows and not (above and table.words == "above"):
                raise Fault("%s:%d: `%s` has no rows" % (case.file, case.line, case.name))
            return rows or above
    return []


def cases_of(path):
    """All cases of a file, one for each row and each command line."""
    rows = []
    for case in Reader(path).cases:
        rows = rows_of(case, rows)
        if not case.commands:
            raise Fault("%s:%d: `%s` has no command line" % (case.file, case.line, case.name))
        for one in [filled(case, line, row) for line, row in rows] or [case]:
            yield from (one._replace(commands=[command]) for command in one.commands)


# ---------------------------------------------------------------- what sections stand for
def whole(text):
    """A text with what stands in braces."""
    def known(found):
        if found[1]:
            paths = [os.path.join(folder, found[1]) for folder in (os.path.join(CASES, "files"), os.path.join(TOP, "examples"))]
            return read(next(filter(os.path.isfile, paths), paths[0])).removesuffix("\n")
        return found[2] * int(found[3])
    known_text = re.sub(r'\{(?:([\w.-]+)|([^{}"]+)\*(\d+))\}', known, text)
    return text if known_text == text else whole(known_text)


def bytes_of(text):
    """The bytes of a section in hex."""
    data = bytearray()
    for word in text.split():
        if word.startswith(".."):
            del data[int(word[2:]) :]
        elif "=" in word:
            place, byte = word.split("=")
            data[int(place)] = int(byte, 16)
        else:
            data += bytes.fromhex(word)
    return bytes(data)


def slots_of(digits):
    """The slots of a frame whose blocks are all taken: each is acknowledged, and none of a frame to all is refused."""
    data = bytes.fromhex(digits)
    taken = "1" if data[0] % 16 == 15 else "0"
    blocks = [format(byte, "08b") + ("1" if at == len(data) else "0") + taken for at, byte in enumerate(data, 1)]
    return ["S"] + list("".join(blocks))


def lows_of(text):
    """Each low of a section of slots, where it begins and how long it is, and where the last word ends."""
    lows, at = [], 0
    for word in text.split():
        if word.startswith("@"):
            at = int(word[1:])
            continue
        for slot in slots_of(word[1:]) if word.startswith("=") else [] if word == "|" else [word]:
            low, high = PARTS[slot] if slot in PARTS else map(int, slot.split("/"))
            lows.append((at, low))
            at += low + high
    return lows, at


def edges_of(text):
    """The edge file of a section of slots."""
    lows, end = lows_of(text)
    end = end if text.split()[-1:] == ["|"] else end + TAIL
    return ("".join("%d 0\n%d 1\n" % (at, at + low) for at, low in lows) + "%d end\n" % end).encode()


def pulls_of(text):
    """The pulls of a section of slots."""
    return "".join("pull %d %d\n" % low for low in lows_of(text)[0]).encode()


def parts_of(words):
    """The words after a section's name: those of its ways, and what comes after `of` or `with`, if one stands there."""
    ways, how, rest = re.fullmatch(r"(.*?)(?:(?:^|(?<= ))(of|with)(?: (.*))?)?", words, re.DOTALL).groups()
    return ways.split(), how, rest or ""


# How the text of a section is read, and how it is compared with what is written.
FORMS = {"hex": bytes_of, "digits": lambda text: bytes_of(text).hex().encode() + b"\n", "slots": edges_of, "pulls": pulls_of}
FITS = {
    "has": lambda text, written: text in written,
    "begins": lambda text, written: written.startswith(text),
    "ends": lambda text, written: written.endswith(text),
    "lines": lambda text, written: have_lines(text.splitlines(), iter(written.splitlines())),
    "any": lambda text, written: True,
}


def have_lines(lines, written):
    """Whether lines are found in what is written, one after the other."""
    return all(line in written for line in lines)


def differing(want, got):
    """The difference of two texts, `-` what is wanted and `+` what is written, as far as it is shown."""
    def lines(data):
        return data.decode("utf-8", "backslashreplace").splitlines()
    found = list(difflib.unified_diff(lines(want), lines(got), lineterm="", n=1))[2:]
    return "\n".join("    " + line for line in found[:SHOWN] or ["they differ in the ends of their lines"])


class Run:
    """A case over a program."""

    def __init__(self, program, case, folder):
        self.program, self.case, self.folder = program, case, folder
        self.input = b"".join(self.data(it) for it in self.named("in"))

    def named(self, name):
        return [it for it in self.case.sections if it.name == name]

    def ran(self, command, data):
        """What the program answers to a command line and an input."""
        words = [self.program, *shlex.split(command)]
        done = subprocess.run(words, input=data, capture_output=True, cwd=self.folder, timeout=LIMIT, check=False)
        return Answer(done.returncode, done.stdout, done.stderr)

    def data(self, section):
        """What a section stands for."""
        words, how, rest = parts_of(section.words)
        text = whole(section.text)
        if how == "with":
            text = text.replace(*fields_of(rest), 1)
        data = next((FORMS[it](text) for it in words if it in FORMS), text.encode())
        if how == "of":
            data = self.written(rest, data or self.input)
        return data.removesuffix(b"\n") if "bare" in words else data

    def written(self, command, data):
        """What the program writes where it names no fault."""
        answer = self.ran(command, data)
        # The verdict of a line that is not fine is no fault.
        if answer.status or any(not line.startswith(b"hdminet: verdict ") for line in answer.err.splitlines()):
            raise Fault("`%s` ends with status %d, and says: %s" % (command, answer.status, answer.err.decode()))
        return answer.out

    def compare(self, name, written):
        """Compares what is written with the sections of this name."""
        wanted, parts = b"", []
        for section in self.named(name):
            ways = [it for it in parts_of(section.words)[0] if it in FITS]
            if ways:
                parts.append((ways[0], self.data(section)))
            else:
                wanted += self.data(section)
        faults = [(way, data) for way, data in parts if not FITS[way](data, written)]
        if not parts and wanted != written:
            faults.append(("whole", wanted))
        for way, data in faults:
            raise Fault("standard %s is not as wanted (%s)\n%s" % ({"out": "output", "err": "error"}[name], way, differing(data, written)))

    def kept(self, written):
        """The lines of what is written that are compared."""
        lines = written.splitlines(keepends=True)
        for section in self.named("only"):
            lines = [line for line in lines if re.search(section.words.encode(), line)]
        return b"".join(lines)

    def take_fronts(self, count):
        """Tries each front of the input, of which so many are taken."""
        taken = 0
        for length in range(len(self.input) + 1):
            answer = self.ran(self.case.commands[0], self.input[:length])
            is_taken = answer.status == 0 and not answer.err
            if not is_taken and not (answer.status == 1 and not answer.out and answer.err.startswith(b"hdminet: ")):
                raise Fault("the front of %d bytes is neither taken nor refused: status %d, %r" % (length, answer.status, answer.err))
            taken += is_taken
        if taken != count:
            raise Fault("%d fronts are taken, and not %d" % (taken, count))

    def talk(self, text):
        """Sends the lines of a dialogue in turn, and answers as if they had come together."""
        said, turns = [], re.findall(r"> (.*\n)((?:(?!> ).*\n)*)", text)
        words = [self.program, *shlex.split(self.case.commands[0])]
        with subprocess.Popen(words, stdin=subprocess.PIPE, stdout=subprocess.PIPE, stderr=subprocess.PIPE, cwd=self.folder) as live:
            timer = threading.Timer(LIMIT, live.kill)
            timer.start()
            try:
                for sent, answers in turns:
                    live.stdin.write(sent.encode())
                    live.stdin.flush()
                    said.append("> " + sent + "".join(live.stdout.readline().decode() for _ in answers.splitlines()))
            except BrokenPipeError:
                said.append("it reads no more\n")
            rest, err = live.communicate()
            timer.cancel()
        if "".join(said) + rest.decode() != text:
            raise Fault("the dialogue is another one\n%s" % differing(text.encode(), "".join(said).encode() + rest))
        return Answer(live.returncode, b"", err)

    def judge(self):
        """Runs the program, and raises what is wrong."""
        for section in self.named("fronts"):
            return self.take_fronts(int(section.words))
        turns = self.named("turns")
        answer = self.talk(whole(turns[0].text)) if turns else self.ran(self.case.commands[0], self.input)
        self.compare("err", answer.err)
        self.compare("out", self.kept(answer.out))
        status = ([int(it.words) for it in self.named("status")] or [0])[-1]
        if answer.status != status:
            raise Fault("the status is %d, and not %d" % (answer.status, status))
        return None


# ---------------------------------------------------------------- all of them
def put_files(case, folder):
    """Writes the files of a case into a folder."""
    for section in case.sections:
        if section.name == "file":
            name, *ways = shlex.split(section.words)
            with open(os.path.join(folder, name), "wb") as file:
                text = whole(section.text)
                file.write(next((FORMS[way](text) for way in ways if way in FORMS), text.encode()))


def fault_of(job):
    """The fault of a case over a program, or nothing."""
    program, case = job
    try:
        with tempfile.TemporaryDirectory() as folder:
            put_files(case, folder)
            Run(program, case, folder).judge()
    except subprocess.TimeoutExpired:
        fault = "it runs longer than %d seconds" % LIMIT
    except (ValueError, IndexError, OSError) as error:
        fault = "the case is written wrong: %s" % error
    except Fault as error:
        fault = str(error)
    else:
        return ""
    return "%s:%d: %s\n    %s %s\n    %s" % (case.file, case.line, case.name, os.path.basename(program), case.commands[0], fault)


def main():
    taken, every, failed = programs(), [], []
    try:
        every = [case for path in files_of() for case in cases_of(path)]
    except Fault as fault:
        failed.append(str(fault))
    jobs = [(program, case) for program in taken for case in every]
    with multiprocessing.Pool() as pool:
        faults = list(filter(None, pool.map(fault_of, jobs, chunksize=8)))
    if not taken:
        failed.append("there is no program: ./hdminet builds it")
    return told("cases", len(jobs) - len(faults), failed + faults)


if __name__ == "__main__":
    sys.exit(main())
