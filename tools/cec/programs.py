"""What the tools around programs need: the hdminet that they drive, the library that programs load first, how programs are ended, and what is kept
of a session."""

import os
import shutil
import signal
import subprocess
import time

from room import Refused

HERE = os.path.dirname(os.path.realpath(__file__))
TOP = os.path.dirname(os.path.dirname(HERE))
# How long the devices of the room have to find their addresses before a program begins, in microseconds.
SETTLED = 1_500_000
# How long a program that is asked to end may take, in seconds.
GRACE = 2
# The parts of the library that programs load first.
SHIM = ("shim.c", "waits.c", "threads.c")


def found_program():
    """The program that HDMINET names, the released one, one that was installed, or the one that was built here."""
    for path in (os.environ.get("HDMINET"), os.path.join(TOP, "release/hdminet"), shutil.which("hdminet"), os.path.join(TOP, "crates/hdminet/out/hdminet")):
        if path and os.access(path, os.X_OK):
            return path
    raise Refused("no hdminet is found; HDMINET names one")


def built_shim(folder):
    """The library that the programs load first: one that stands beside its source, or one that is compiled now."""
    beside = os.path.join(HERE, "shim.so")
    if os.path.exists(beside):
        return beside
    built = os.path.join(folder, "shim.so")
    command = [os.environ.get("CC", "cc"), "-O2", "-Wall", "-Werror", "-shared", "-fPIC", "-pthread", "-o", built, *[os.path.join(HERE, name) for name in SHIM], "-ldl"]
    try:
        ran = subprocess.run(command, capture_output=True, text=True)
    except OSError as error:
        raise Refused("%s: %s; a compiler of C makes tools/cec/shim.so" % (command[0], error.strerror)) from None
    if ran.returncode != 0:
        raise Refused("tools/cec/shim.so is not compiled: %s" % ran.stderr.strip())
    return built


def end_group(program):
    """Ends a program and all that it has started: first by asking, and after a time at once."""
    for number in (signal.SIGTERM, signal.SIGKILL):
        until = time.monotonic() + GRACE
        while time.monotonic() < until:
            try:
                os.killpg(program.pid, number)
            except ProcessLookupError:
                program.wait()
                return
            # One that has ended counts no more once it is waited for.
            program.poll()
            time.sleep(0.01)


def keep(folder, name, text):
    """Keeps a text in a folder, where one is given."""
    if folder:
        os.makedirs(folder, exist_ok=True)
        with open(os.path.join(folder, name), "w", encoding="utf-8") as file:
            file.write(text)


def keep_session(folder, room):
    """Keeps the script that came about, as `hdminet run` takes it, and its trace."""
    keep(folder, "session.net", room.text())
    keep(folder, "session.trace", "".join(line + "\n" for line in room.trace))
