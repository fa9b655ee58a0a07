#!/usr/bin/env python3
"""real_programs.py [PROGRAM]: Linux's CEC programs in emulated rooms, by tools/cec-device and tools/cec-adapter.

cec-ctl, cec-compliance and cec-follower of Debian's v4l-utils and cec-client of cec-utils are run as they are. Where they are not
installed, what needs them is left out, and said so."""

import concurrent.futures
import glob
import os
import re
import shutil
import subprocess
import sys
import tempfile
import time

TOP = os.path.dirname(os.path.dirname(os.path.realpath(__file__)))
ROOMS = os.path.join(TOP, "tests/real-programs")
DEVICE, ADAPTER, INSIDE = (os.path.join(TOP, "tools", name) for name in ("cec-device", "cec-adapter", "cec-room"))
# How many tests of each of cec-compliance's runs there are.
ADAPTER_TESTS, TWO_SEATS_TESTS = 11, 85
# How long one command may take, in seconds, on a loaded machine.
PATIENCE = 300
# The tries of what goes by the wall clock.
TRIES = 3
# What is kept of a session.
KEPT = ("session.net", "session.trace", "session.talk")


class Tests:
    """What has held, and what has not."""

    def __init__(self):
        self.held, self.failed = 0, []

    def expect(self, what, holds, shown=""):
        if holds:
            self.held += 1
        else:
            self.failed.append(what)
            print("real programs: fails: %s\n%s" % (what, shown))


class Ran:
    """cec-device over a room, as it has ended."""

    def __init__(self, program, room, seats, command, *flags, **environment):
        self.kept = tempfile.mkdtemp(prefix="real-programs.")
        words = [DEVICE, os.path.join(ROOMS, room + ".net"), "--program", program, "--keep", self.kept, *flags]
        for seat in seats:
            words += ["--as", seat]
        ran = subprocess.run([*words, "--", *command], capture_output=True, text=True, timeout=PATIENCE, env=dict(os.environ, **environment))
        self.status, self.out, self.err = ran.returncode, ran.stdout, ran.stderr

    def text(self, name):
        path = os.path.join(self.kept, name)
        if not os.path.exists(path):
            return None
        with open(path, encoding="utf-8") as file:
            return file.read()

    def is_replayed(self, program):
        """Whether `hdminet run` writes the session's trace of its script."""
        ran = subprocess.run([program, "run"], input=self.text("session.net"), capture_output=True, text=True)
        return ran.returncode == 0 and ran.stdout == self.text("session.trace")

    def total(self):
        """How many tests of cec-compliance there were, and how many of them held."""
        found = re.search(r"^Total .*: (\d+), Succeeded: (\d+), Failed: (\d+)", self.out, re.M)
        return (int(found[1]), int(found[2])) if found else None

    def failures(self):
        """The tests of cec-compliance that fail, by the address that is tested."""
        found, address = {}, ""
        for line in self.out.splitlines():
            tested = re.match(r"testing CEC local LA \d+ \(.*\) to remote LA (\d+)", line)
            failed = re.match(r"\s+(\S.*): FAIL", line)
            if tested:
                address = tested[1]
            elif failed:
                found.setdefault(address, []).append(failed[1])
        return found

    def forget(self):
        shutil.rmtree(self.kept)


def compliance(program, room, seat, kind, flags):
    """cec-compliance as one device of a room, beside cec-follower, which answers as that device."""
    command = 'cec-ctl --%s >/dev/null; "%s" beside cec-follower >/dev/null; exec cec-compliance %s -s' % (kind, INSIDE, flags)
    return Ran(program, room, [seat], ["bash", "-c", command])


def kept_verdicts():
    """The table of tests/real-programs/verdicts.txt: each room with its counts and failures, and the reason of each test that fails."""
    rooms, reasons = {}, {}
    with open(os.path.join(ROOMS, "verdicts.txt"), encoding="utf-8") as file:
        for line in file.read().splitlines():
            head = re.fullmatch(r"(\w+) as (\w+), (\w+): (\d+) of (\d+)", line)
            if head:
                failures = {}
                rooms[head[1], head[2], head[3]] = (int(head[5]), int(head[4])), failures
            elif re.match(r"\d+: ", line):
                address, names = line.split(": ", 1)
                failures[address] = names.split(", ")
            elif " = " in line:
                name, reason = line.split(" = ", 1)
                reasons[name] = reason
    return rooms, reasons


def test_rooms(tests, program):
    """What cec-compliance finds in each room is what the table has, and docs/behaviour.md says each failure on purpose."""
    rooms, reasons = kept_verdicts()
    with open(os.path.join(TOP, "docs/behaviour.md"), encoding="utf-8") as file:
        behaviour = file.read()
    for name, reason in reasons.items():
        tests.expect("docs/behaviour.md says: %s" % reason, reason in behaviour)
    with concurrent.futures.ThreadPoolExecutor(2) as pool:
        ran = {key: pool.submit(compliance, program, *key, "-r") for key in rooms}
    for key, (total, failures) in rooms.items():
        result, what = ran[key].result(), "cec-compliance in %s as %s" % key[:2]
        tests.expect(what, result.total() == total and result.failures() == failures, "%s %s %s" % (result.total(), result.failures(), result.err))
        tests.expect(what + ": each failure has its reason", all(name in reasons for names in failures.values() for name in names))
        tests.expect(what + ": the script gives the trace", result.is_replayed(program))
        result.forget()


# The Python of these tools, each file with the folders of its modules.
TYPED = (
    ("tools/cec/linux_dut.py", ["tools/cec"]),
    ("tools/cec-device", ["tools/cec"]),
    ("tools/cec-adapter", ["tools/cec"]),
    ("tools/cec-room", ["tools/cec"]),
    ("tools/suite", ["suite", "tools"]),
)


def test_types(tests):
    """Debian's mypy finds no type at fault, where it is installed."""
    if not shutil.which("mypy"):
        print("real programs: types are not checked: there is no mypy")
        return
    for name, folders in TYPED:
        modules = os.pathsep.join(os.path.join(TOP, folder) for folder in folders)
        words = ["mypy", "--check-untyped-defs", "--no-strict-optional", "--cache-dir", os.devnull, os.path.join(TOP, name)]
        ran = subprocess.run(words, env=dict(os.environ, MYPYPATH=modules), capture_output=True, text=True)
        tests.expect("the types of %s" % name, ran.returncode == 0, ran.stdout + ran.stderr)


# Whether an adapter can be written to by `poll` and by `select`, and by `select` of a second descriptor, which outlives the first one.
DESCRIPTORS = """import fcntl, os, select
device = os.open("/dev/cec0", os.O_RDWR | os.O_NONBLOCK)
other = fcntl.fcntl(device, fcntl.F_DUPFD_CLOEXEC, 0)
asked = select.poll()
asked.register(device, select.POLLOUT)
print(asked.poll(100) != [], select.select([], [device], [], 0.1)[1] != [], select.select([], [other], [], 0.1)[1] != [])
os.close(device)
print(len(fcntl.ioctl(other, 0xC04C6100, bytes(76))))
"""


# Sleeps before and after it has the device, waits by epoll for what does not come and for the event that waits, and says how late it is.
WAITS = """import os, select, time
time.sleep(0.01)
device = os.open("/dev/cec0", os.O_RDWR | os.O_NONBLOCK)
begin = time.monotonic()
time.sleep(30)
epoll = select.epoll()
epoll.register(device, select.EPOLLIN)
print(epoll.poll(20), round(time.monotonic() - begin, 3))
epoll.modify(device, select.EPOLLPRI)
print(epoll.poll(20) == [(device, select.EPOLLPRI)], round(time.monotonic() - begin, 3))
"""


def test_waits(tests, program):
    """A program that sleeps and waits does so in the room's time: 30 seconds, and 20 more."""
    begin = time.monotonic()
    ran = Ran(program, "play", ["dut"], ["python3", "-c", WAITS])
    tests.expect("a program that waits in the room's time", ran.out == "[] 50.0\nTrue 50.0\n" and time.monotonic() - begin < 45, ran.out + ran.err)
    ran.forget()


# How long each way to wait of tests/real-programs/threads.c takes, in milliseconds of the room: the longest of three sleeps, the limit, or when another thread acts.
# The lock is held for 60; three threads read at once for 10 what is written for 65; the thread that is joined sleeps for 80.
THREADS = {
    "early": 90, "sleep": 300, "timedwait": 150, "clockwait": 160, "signal": 70, "broadcast": 40, "in-time": 35, "lock": 60, "rwlock": 65 + 10, "semaphore": 50, "join": 80,
    "cancel": 75, "futex": 45, "yield": 5, "read": 55, "poll": 33, "select": 36, "epoll": 42, "receive": 500, "c": 85,
}


def test_threads(tests, program):
    """A program of several threads in the room's time, twice with one trace; by the clock on the wall; and one that opens no device, for which the room stands."""
    with tempfile.TemporaryDirectory() as folder:
        built = os.path.join(folder, "threads")
        subprocess.run(["cc", "-O2", "-Wall", "-Wextra", "-Werror", "-pthread", "-o", built, os.path.join(ROOMS, "threads.c")], check=True)
        command = ["bash", "-c", "cec-ctl --playback >/dev/null; exec " + built]
        first, second = (Ran(program, "play", ["dut"], command) for _ in range(2))
        by_wall = Ran(program, "play", ["dut"], command, "--clock", "wall")
        outside = Ran(program, "play", ["dut"], [built, "outside"])
    tests.expect("threads wait in the room's time", first.out == "".join("%s %d\n" % way for way in THREADS.items()), first.out + first.err)
    tests.expect("two runs of threads are one", all(first.text(name) == second.text(name) for name in KEPT) and first.out == second.out, second.out + second.err)
    tests.expect("the script of threads gives the trace", first.is_replayed(program))
    for what, ran in (("by the clock on the wall", by_wall), ("of a program without a device", outside)):
        # On a loaded machine one thread may come too late for another; each way ends all the same.
        tests.expect("threads " + what, ran.status == 0 and re.findall(r"(?m)^([a-z-]+) \d+$", ran.out) == list(THREADS), ran.out + ran.err)
    for ran in (first, second, by_wall, outside):
        ran.forget()


# cec-client beside: a key of the television's remote control, a scan, and one more after it is plugged in elsewhere. Its lines come from a pipe.
LIBCEC = """mkfifo "$0/lines"; exec 3<>"$0/lines"
"$1" beside cec-client -t p -d 31 Linux <&3
"$1" wait 8000000; "$1" press tv remote 8 play; "$1" wait 200000; "$1" release tv remote 8 play; "$1" wait 1000000
echo scan >&3; "$1" wait 9000000
"$1" unplug dut; "$1" plug dut amp 2; "$1" wait 3000000
echo scan >&3; "$1" wait 3000000
echo q >&3; "$1" wait 3000000
"""


def test_libcec_in_room_time(tests, program):
    """cec-client over /dev/cec0 in the room's time, twice: it says the same, and has one trace."""
    ran = []
    for _ in range(2):
        with tempfile.TemporaryDirectory() as folder:
            ran.append(Ran(program, "edid", ["dut"], ["bash", "-c", LIBCEC, folder, INSIDE]))
    first, second = ran
    room = ("osd string:    TV", "osd string:    amp", "osd string:    rec", "osd string:    p1", "address:       1.1.0.0")
    before, _, after = first.out.partition("physical address changed from 3000 to 1200")
    missing = [words for words in (*room, ">> 08:44:44", "address:       3.0.0.0") if words not in before]
    missing += [words for words in (*room, "address:       1.2.0.0") if words not in after]
    tests.expect("cec-client in the room's time", not missing and first.status == 0, "missing: %s\n%s%s" % (missing, first.out, first.err))
    tests.expect("two runs of cec-client are one", all(first.text(name) == second.text(name) for name in KEPT) and first.out == second.out, second.err)
    tests.expect("the script of cec-client gives the trace", first.is_replayed(program))
    first.forget()
    second.forget()


def test_descriptors(tests, program):
    """Two descriptors are one handle, which can be written to once the adapter has an address; a CDC message says where it comes from."""
    for clock in ("room", "wall"):
        with tempfile.TemporaryDirectory() as folder:
            path = os.path.join(folder, "descriptors.py")
            with open(path, "w", encoding="utf-8") as file:
                file.write(DESCRIPTORS)
            command = "python3 {0}; cec-ctl --playback >/dev/null; python3 {0}; cec-ctl --cdc-hec-discover >/dev/null".format(path)
            ran = Ran(program, "play", ["dut"], ["bash", "-c", command], "--clock", clock)
        tests.expect("descriptors by the clock of the %s" % clock, ran.out == "False False False\n76\nTrue True True\n76\n", ran.out + ran.err)
        tests.expect("a CDC message by the clock of the %s" % clock, " 8>f op-f8 :300006 ok by dut out -\n" in ran.text("session.trace"), ran.text("session.trace"))
        ran.forget()


def test_workflow(tests, program):
    """The lines of examples/cec-programs.yml, as a server of tests runs them, but for its packages and its clone; from a folder that has the tools alone."""
    with open(os.path.join(TOP, "examples/cec-programs.yml"), encoding="utf-8") as file:
        lines = re.findall(r"(?m)^      - run: (hdminet/.*)$", file.read())
    with tempfile.TemporaryDirectory() as folder:
        installed = os.path.join(folder, "hdminet")
        os.makedirs(os.path.join(installed, "tools"))
        for name in ("tools/cec-device", "tools/cec-room", "tools/cec-adapter", "tools/page"):
            shutil.copy(os.path.join(TOP, name), os.path.join(installed, name))
        for name in ("tools/cec", "view"):
            shutil.copytree(os.path.join(TOP, name), os.path.join(installed, name))
        shutil.copy(os.path.join(ROOMS, "play.net"), folder)
        shutil.copy(os.path.join(ROOMS, "key.expect"), os.path.join(folder, "film.expect"))
        with open(os.path.join(folder, "film.sh"), "w", encoding="utf-8") as file:
            file.write("cec-ctl --playback > /dev/null\nhdminet/tools/cec-room label film press p1 play\nhdminet/tools/cec-room wait 1000000\n")
        environment = dict(os.environ, HDMINET=program)
        for line in lines:
            ran = subprocess.run(line, shell=True, cwd=folder, env=environment, capture_output=True, text=True)
            tests.expect("a line of the workflow: %s" % line, ran.returncode == 0, ran.stdout + ran.stderr)
        kept = sorted(os.listdir(os.path.join(folder, "kept"))) if lines else []
        wanted = ["session.html", "session.net", "session.report", "session.talk", "session.test", "session.trace"]
        tests.expect("what the workflow keeps", len(lines) == 2 and kept == wanted, str(kept))


def test_adapter_itself(tests, program):
    """In a room without an amplifier, as cec-compliance wants an address of each of four types, one of them that of audio systems."""
    ran = Ran(program, "alone", ["dut"], ["bash", "-c", "cec-ctl --playback >/dev/null; exec cec-compliance -A -s"])
    tests.expect("cec-compliance of the adapter itself", ran.total() == (ADAPTER_TESTS, ADAPTER_TESTS), ran.out[-2000:] + ran.err)
    ran.forget()


def test_several_addresses(tests, program):
    """An adapter of three types has an address of each: of players the second, as another one has the first."""
    command = 'cec-ctl --playback --tuner --processor >/dev/null; "{0}" show dut'.format(INSIDE)
    ran = Ran(program, "play", ["dut"], ["bash", "-c", command])
    state = re.search(r"^= state dut .*$", ran.out, re.M)
    tests.expect("an adapter of three types holds three addresses", state and sorted(state[0].split()[4].split("+")) == ["3", "8", "e"], ran.out + ran.err)
    tests.expect("the script of three addresses gives the trace", ran.is_replayed(program))
    ran.forget()


def test_two_seats(tests, program):
    """cec-follower is the television, cec-compliance a player, and the amplifier between is emulated; twice, with one trace."""
    command = """cec-ctl -d0 --tv >/dev/null; cec-ctl -d1 --playback >/dev/null
        "{0}" beside cec-follower -d0 -w >/dev/null; "{0}" beside cec-follower -d1 >/dev/null; exec cec-compliance -d1 -r0 -s""".format(INSIDE)
    first, second = (Ran(program, "two", ["tv", "dut"], ["bash", "-c", command]) for _ in range(2))
    tests.expect("a follower as television, a player that tests it", first.total() == (TWO_SEATS_TESTS, TWO_SEATS_TESTS), first.out[-2000:] + first.err)
    tests.expect("two runs have one trace", first.text("session.trace") == second.text("session.trace"))
    tests.expect("two runs have one script", first.text("session.net") == second.text("session.net"))
    tests.expect("the script of two seats gives the trace", first.is_replayed(program))
    first.forget()
    second.forget()


def test_events(tests, program):
    """Events from inside, with a label, and expectations of the script that came about."""
    expectations = os.path.join(ROOMS, "key.expect")
    command = 'cec-ctl --playback >/dev/null; "{0}" label film press p1 play; "{0}" show tv; "{0}" press p9 play; "{0}" wait 1000000'.format(INSIDE)
    ran = Ran(program, "play", ["dut"], ["bash", "-c", command], "--check", expectations)
    lines = ran.out.splitlines()
    tests.expect("an event is taken", len(lines) > 3 and lines[0].startswith("= ") and lines[1].startswith("= state tv "), ran.out)
    tests.expect("an event of no device is refused", len(lines) > 3 and re.fullmatch(r"! \d+ name", lines[2]), ran.out)
    tests.expect("expectations are judged", ran.status == 0 and "ok 1 " in ran.out and "not ok" not in ran.out, ran.out + ran.err)
    ran.forget()


# One of two threads waits for a signal.
SIGNALLED = """import os, signal, threading, time
os.open("/dev/cec0", os.O_RDWR)
threading.Thread(target=lambda: signal.sigwait([signal.SIGUSR1]), daemon=True).start()
time.sleep(1)
"""


def test_bad_input(tests, program):
    """Each fault has its message and its status, and nothing is left."""
    rows = [
        ("no such device", ["nobody"], ["true"], [], 2, "no device nobody"),
        ("a status", ["dut"], ["false"], [], 1, ""),
        ("a command that is killed", ["dut"], ["bash", "-c", "kill -9 $$"], [], 137, ""),
        ("a command that hangs", ["dut"], ["sleep", "100"], ["--clock", "wall", "--limit", "1"], 3, "has not ended in 1 seconds"),
        ("a thread that waits for what the room does not see", ["dut"], ["python3", "-c", SIGNALLED], ["--stall", "1"], 3, "`--clock wall` takes what"),
        ("a program that never waits", ["dut"], ["python3", "-c", "import os; os.open('/dev/cec0', os.O_RDWR)\nwhile True: pass"], ["--stall", "1"], 3, "has not waited for 1 seconds"),
        ("no such command", ["dut"], ["no-such-command"], [], 3, "no-such-command: "),
        ("a program beside that ends", ["dut"], ["true"], ["--beside", "false"], 3, "false has ended, with status 1"),
    ]
    with tempfile.TemporaryDirectory() as folder:
        for what, seats, command, flags, status, message in rows:
            ran = Ran(program, "play", seats, command, *flags, TMPDIR=folder)
            tests.expect(what, ran.status == status and message in ran.err and (message or not ran.err), "%d %s" % (ran.status, ran.err))
            ran.forget()
        tests.expect("no folder is left", not os.listdir(folder), str(os.listdir(folder)))
    fight = "import fcntl, os, struct\nfirst, second = (os.open('/dev/cec0', os.O_RDWR) for _ in range(2))\n" \
            "fcntl.ioctl(first, 0x40046109, struct.pack('I', 2))\ntry: fcntl.ioctl(second, 0x40046109, struct.pack('I', 2))\nexcept OSError as error: print(error.errno)"
    ran = Ran(program, "play", ["dut"], ["python3", "-c", fight])
    tests.expect("two programs that both want to send alone", ran.out == "16\n", ran.out + ran.err)
    ran.forget()
    with tempfile.NamedTemporaryFile("w", suffix=".net") as room:
        room.write("device tv tv 4\ndevice dut playr 0\nscript\n")
        room.flush()
        ran = subprocess.run([DEVICE, room.name, "--program", program, "--as", "tv", "--", "true"], capture_output=True, text=True, timeout=PATIENCE)
        tests.expect("a room that is refused", ran.returncode == 2 and "topology line 2: word" in ran.stderr, ran.stderr)


def test_libcec(tests, program):
    """cec-client at the pseudo-terminal of an adapter finds the room, and its own place by the EDID; a key passes; and so again after a replug."""
    for _ in range(TRIES):
        missing = try_libcec(program)
        if not missing:
            break
    tests.expect("cec-client finds the room, and again after a replug", not missing, "missing: %s" % missing)


def cec_client(terminal, environment, keys):
    """What cec-client says of a scan, once it has opened the adapter and these keys have come."""
    client = subprocess.Popen(["cec-client", "-t", "p", "-d", "31", terminal], stdin=subprocess.PIPE, stdout=subprocess.PIPE, stderr=subprocess.STDOUT,
                              text=True, env=environment)
    try:
        time.sleep(5)
        keys()
        client.stdin.write("scan\n")
        client.stdin.flush()
        time.sleep(5)
        return client.communicate("q\n", timeout=60)[0]
    except (OSError, subprocess.TimeoutExpired) as error:
        return str(error)
    finally:
        client.kill()
        client.wait()


def try_libcec(program):
    """What is not seen of what is wanted."""
    with tempfile.TemporaryDirectory() as folder:
        drm, shim = os.path.join(folder, "drm"), os.path.join(folder, "shim.so")
        sources = glob.glob(os.path.join(TOP, "tools/cec/*.c"))
        subprocess.run(["cc", "-O2", "-Wall", "-Wextra", "-Werror", "-shared", "-fPIC", "-pthread", "-o", shim, *sources, "-ldl"], check=True)
        adapter = subprocess.Popen([ADAPTER, os.path.join(ROOMS, "edid.net"), "--as", "dut", "--drm", drm, "--program", program], stdin=subprocess.PIPE,
                                   stdout=subprocess.PIPE, text=True)
        environment = dict(os.environ, LD_PRELOAD=shim, HDMINET_CEC_DRM=drm)
        terminal = adapter.stdout.readline().strip()

        def events(*lines):
            for line in lines:
                adapter.stdin.write(line + "\n")
                adapter.stdin.flush()
                time.sleep(0.5)
        missing = []
        room = ("osd string:    amp", "osd string:    rec", "osd string:    p1", "address:       1.1.0.0")
        for place in ("3.0.0.0", "1.2.0.0"):
            said = cec_client(terminal, environment, lambda: events("press tv remote 8 play", "release tv remote 8 play"))
            missing += ["%s at %s" % (words, place) for words in (*room, "address:       " + place, ">> 08:44:44") if words not in said]
            events("unplug dut", "plug dut amp 2")
        adapter.stdin.close()
        adapter.wait(PATIENCE)
        return missing


def suite_of_follower(program, kind, without):
    """The tests of suite/ that cec-follower fails as a device of a kind, and what tools/suite writes."""
    words = [os.path.join(TOP, "tools/suite"), "--program", program, "--linux", "cec-follower -d0", "--kind", kind]
    for feature in without:
        words += ["--without", feature]
    ran = subprocess.run(words, capture_output=True, text=True)
    return re.findall(r"(?m)^not ok \d+ - ([a-z-]+): ", ran.stdout), ran.stdout + ran.stderr


def followers():
    """What tests/real-programs/suite.txt says: of each kind the features that it is tested without, and the tests that fail."""
    with open(os.path.join(ROOMS, "suite.txt"), encoding="utf-8") as file:
        rows = [re.fullmatch(r"([a-z]+)(?:, without ([a-z ]+))?: ?([a-z -]*)\n", line) for line in file if not line.startswith("#")]
    return [(row.group(1), (row.group(2) or "").split(), row.group(3).split()) for row in rows]


def test_suite(tests, started):
    """cec-follower as a device under test of the suite fails what it does otherwise, and nothing else; the document has a line for each."""
    with open(os.path.join(TOP, "docs/real-programs.md"), encoding="utf-8") as file:
        document = file.read()
    for (kind, _, want), run in started:
        failed, written = run.result()
        tests.expect("the suite over cec-follower as %s: fails %s" % (kind, " ".join(failed)), failed == want, written)
        missing = [name for name in want if "`%s`" % name not in document]
        tests.expect("a line of docs/real-programs.md for %s" % " ".join(want), not missing, " ".join(missing))


def test_suite_of_programs(tests, program):
    """Two runs of the suite over a program say the same; a program that is none is named, and one device alone is tested."""
    words = [os.path.join(TOP, "tools/suite"), "--program", program, "--kind", "amp"]
    with tempfile.TemporaryDirectory() as folder:
        kept = [os.path.join(folder, name) for name in ("one", "two")]
        for each in kept:
            subprocess.run([*words, "--linux", "cec-follower -d0", "--keep", each, "osd-name", "standby-one", "audio-on"], capture_output=True)
        ran = subprocess.run(["diff", "-r", *kept], capture_output=True, text=True)
        tests.expect("two runs of the suite over a program", ran.returncode == 0 and len(os.listdir(kept[0])) == 9, ran.stdout + ran.stderr)
    ran = subprocess.run([*words, "--linux", "no-such-command", "osd-name"], capture_output=True, text=True)
    tests.expect("the suite over no such command", ran.returncode == 1 and "linux_dut: no-such-command: " in ran.stderr and "its output has ended" in ran.stdout, ran.stderr)
    ran = subprocess.run([*words, "--linux", "true", "--dut", "true", "osd-name"], capture_output=True, text=True)
    tests.expect("the suite over two devices", ran.returncode == 2 and "one of --dut and --linux" in ran.stderr, ran.stderr)


def main():
    program = os.path.realpath(sys.argv[1] if len(sys.argv) > 1 else os.path.join(TOP, "release/hdminet"))
    tests = Tests()
    if not shutil.which("cec-compliance") or not shutil.which("cc"):
        print("real programs: cec-compliance of v4l-utils is not installed, so nothing is run")
        return 0
    # The suite and libcec wait more than they work: they run beside the others.
    pool = concurrent.futures.ThreadPoolExecutor(6)
    beside = [pool.submit(test_types, tests), pool.submit(test_threads, tests, program)]
    if shutil.which("cec-client"):
        beside.append(pool.submit(test_libcec, tests, program))
        beside.append(pool.submit(test_libcec_in_room_time, tests, program))
    else:
        print("real programs: cec-client of cec-utils is not installed, so libcec is not run")
    started = [(row, pool.submit(suite_of_follower, program, row[0], row[1])) for row in followers()] if shutil.which("cec-follower") else []
    test_bad_input(tests, program)
    test_events(tests, program)
    test_waits(tests, program)
    test_descriptors(tests, program)
    test_workflow(tests, program)
    test_adapter_itself(tests, program)
    test_several_addresses(tests, program)
    test_two_seats(tests, program)
    test_rooms(tests, program)
    test_suite(tests, started)
    test_suite_of_programs(tests, program)
    for each in beside:
        each.result()
    print("real programs: %d hold, %d fail" % (tests.held, len(tests.failed)))
    return 1 if tests.failed else 0


if __name__ == "__main__":
    sys.exit(main())
