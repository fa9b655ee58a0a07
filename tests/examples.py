#!/usr/bin/env python3
"""tests/examples.py [PROGRAM..]: each file of examples/ with what the program writes of it, to the byte.

The ending of an output says which command writes it, and of which input (OUTPUTS, below). The program reads each input from standard
input, and once more from the file that it names. What is written of an EDID is also written where no flag says that its file has
a text, and of a file with its hex dump. The text of an EDID that has no bytes beside it comes back from the bytes that are
made of it. A file of examples/ that is neither an input nor an output fails. PROGRAM is
crates/hdminet/out/hdminet, and what Rattle's own compiler makes of the same sources, hdminet.by-rattle beside it, where none is given.
The last line is 'examples: N passed, M failed', and the status is 0 where M is 0."""
import collections
import concurrent.futures
import glob
import os
import subprocess
import sys

from built import TOP, programs, told

EXAMPLES = os.path.join(TOP, "examples")

# An ending of outputs, the command that writes them, and the ending of its input. A name that begins with `capture` stands for every
# capture of that ending.
Output = collections.namedtuple("Output", "ending command source")
OUTPUTS = [
    Output(".trace", "run", ".net"),
    Output(".line", "run --edges", ".net"),
    Output(".drives.vcd", "run --edges --as vcd --drives", ".net"),
    Output(".objects", "run --json", ".net"),
    Output(".room", "run --json --room", ".net"),
    Output(".stepped", "step", ".steps"),
    Output(".report", "check", ".test"),
    Output(".failures", "check", ".test"),
    Output(".traced", "check --trace", ".test"),
    Output(".plain", "check --plain", ".test"),
    Output(".stretches", "check", ".sweep"),
    Output("frames.hex", "asm", "frames.txt"),
    Output(".frames", "dis", ".log"),
    Output(".meant", "dis --meaning", ".log"),
    Output(".pulls", "lay", ".lay"),
    Output(".edid", "edid --text --raw", ".edid.txt"),
    Output(".edid", "edid --words --raw", ".words"),
    Output(".edid.txt", "edid", ".edid"),
    Output(".meaning", "edid --meaning", ".edid"),
    Output(".findings", "edid --check", ".edid"),
    Output(".readings", "mon", ".edges"),
    Output(".audit", "mon --audit", ".edges"),
    Output("capture.joined", "mon", "capture.*"),
    Output("capture.readings", "mon --from-start", "capture.*"),
]
# How long one run may take, in seconds.
LIMIT = 60
# The captures that are no edge file.
CAPTURES = (".vcd", ".pin", ".csv")
# Inputs that are read by two, and files that are for readers.
OTHERS = ("README.md", "edid-decode.LICENSE", "cec-programs.yml", "capture.expect", "capture.tested")


def read(name):
    """The bytes of a file of examples/."""
    with open(os.path.join(EXAMPLES, name), "rb") as file:
        return file.read()


def fault_of(command, out):
    """The status of a run that writes this, and what it says on standard error."""
    lines = out.decode(errors="replace").splitlines()
    if command == "edid --check" and any(line.startswith("fail") for line in lines):
        return 5, "hdminet: edid: a rule fails\n"
    failed = sum(line.startswith("not ok ") for line in lines)
    if command == "check" and failed:
        return 1, "hdminet: failed tests %d\n" % failed
    if command == "check" and any("not-ok" in line.split() for line in lines):
        return 1, "hdminet: failed tests in the range\n"
    return 0, ""


def cases():
    """Each case: its command, its inputs, and the file of its output."""
    names = sorted(os.listdir(EXAMPLES))
    dumps = [it for it in names if it.startswith("capture.") and it.endswith(CAPTURES) and ".drives" not in it]
    for output in OUTPUTS:
        for name in names:
            if not name.endswith(output.ending):
                continue
            front = name[: -len(output.ending)]
            sources = dumps if output.source == "capture.*" else [front + output.source]
            for source in sources:
                if source in names:
                    yield output.command, [source], name
    for source in dumps + [it for it in names if it.endswith(".edges")]:
        yield "check --capture", ["capture.expect", "capture\n", source], "capture.tested"
    for name in names:
        if name.endswith(".edid.txt") and name[: -len(".txt")] not in names:
            yield None, [name], name
    yield "edid --merge", ["lg-oled55b6v.edid", "denon-avr-x2300w.edid"], "denon-avr-x2300w.merged"
    yield "edid --merge", ["lg-oled55b6v.edid", "living-room.edid"], "living-room.merged"


def dump(data):
    """The hex dump of some bytes, sixteen a line."""
    return b"".join(b"%s\n" % data[at : at + 16].hex(" ").encode() for at in range(0, len(data), 16))


def main():
    taken = programs()
    passed, failed, used = 0, [], set(OTHERS)

    def ran(program, words, data):
        try:
            done = subprocess.run([program, *words], input=data, capture_output=True, cwd=EXAMPLES, timeout=LIMIT)
        except subprocess.TimeoutExpired:
            return None, b"", "%d seconds" % LIMIT
        # The verdict of a line that is not fine is no fault.
        told = "".join(line for line in done.stderr.decode(errors="replace").splitlines(True) if not line.startswith("hdminet: verdict "))
        return done.returncode, done.stdout, told

    def comes_back(program, name):
        """The faults of a text, which is written again of its bytes."""
        _, made, _ = ran(program, ["edid", "--text", "--raw"], read(name))
        return [] if ran(program, ["edid"], made) == (0, read(name), "") else ["%s of its bytes" % name]

    def tried(case):
        """The faults of a case."""
        program, command, sources, output = case
        if command is None:
            return comes_back(program, output)
        want = read(output)
        status, fault = fault_of(command, want)
        said = "%s %s: %s" % (os.path.basename(program), command, " ".join(it.strip() for it in sources))
        files = [it for it in sources if not it.endswith("\n")]
        data = b"".join(it.encode() if it.endswith("\n") else read(it) for it in sources)
        words = command.split()
        ways = [ran(program, words, data)]
        if len(files) == len(sources):
            ways.append(ran(program, words + files, b""))
        if command in ("edid --text --raw", "edid --words --raw"):
            ways.append(ran(program, ["edid", "--raw"] + files, b""))
        if files[0].endswith(".edid") and "--merge" not in words:
            ways.append(ran(program, words + ["/dev/stdin"], dump(data)))
        return [said for way in ways if way != (status, want, fault)]

    every = list(cases())
    for _, sources, output in every:
        used.update(sources + [output])
    with concurrent.futures.ThreadPoolExecutor(os.cpu_count()) as pool:
        for faults in pool.map(tried, [(program, *case) for program in taken for case in every]):
            passed += not faults
            failed += faults[:1]
    for path in glob.glob(os.path.join(EXAMPLES, "*")):
        name = os.path.basename(path)
        if os.path.isfile(path) and name not in used:
            failed.append("%s is neither an input nor an output" % name)
    if not taken:
        failed.append("there is no program: ./hdminet builds it")
    return told("examples", passed, failed)


if __name__ == "__main__":
    sys.exit(main())
