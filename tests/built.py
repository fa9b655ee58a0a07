"""The programs that tests run, and the last lines that they print."""
import json
import os
import subprocess
import sys

TOP = os.path.dirname(os.path.dirname(os.path.realpath(__file__)))
# As LLVM builds it, and as Rattle's own compiler does.
BUILT = [os.path.join(TOP, "crates/hdminet/out", name) for name in ("hdminet", "hdminet.by-rattle")]


def programs():
    """The programs that the command line names, or else those that `rt ci` left."""
    return [os.path.realpath(it) for it in sys.argv[1:]] or [it for it in BUILT if os.path.exists(it)]


def program():
    """The program that the command line names first, or else the one that `rt ci` left."""
    return os.path.realpath(sys.argv[1]) if sys.argv[1:] else BUILT[0]


def ran(it, words, given):
    """What a program writes of a text or bytes: its standard output and standard error, and its status."""
    done = subprocess.run([it, *words], input=given if isinstance(given, bytes) else given.encode(), capture_output=True, check=False)
    return done.stdout.decode(), done.stderr.decode(), done.returncode


def objects(it, words, given):
    """The objects that it writes, and its status."""
    out, _, status = ran(it, words, given)
    return [json.loads(line) for line in out.splitlines()], status


def told(what, passed, failed):
    """Prints what failed and the count, and returns the status."""
    for it in failed:
        print("%s: fails: %s" % (what, it))
    print("%s: %d passed, %d failed" % (what, passed, len(failed)))
    return 1 if failed else 0


class Count:
    """How many cases of a test passed, and how many failed, which are printed as they come."""

    def __init__(self, what):
        self.what, self.passed, self.failed = what, 0, 0

    def note(self, what, is_right):
        self.passed += bool(is_right)
        self.failed += not is_right
        if not is_right:
            print("%s: %s" % (self.what, what))

    def told(self):
        """Prints the count, and returns the status."""
        print("%s: %d passed, %d failed" % (self.what, self.passed, self.failed))
        return 1 if self.failed else 0


def tests_told(what, tests, *given):
    """Runs tests, each of which says of what it is given whether it passes; prints those that fail, and the count, and returns the status."""
    count = Count(what)
    for test in tests:
        count.note("failed: %s" % test.__name__, test(*given))
    return count.told()


def rows_told(what, kinds, fault):
    """Tries the rows of some kinds, each of a name, a text and what is due, over each program, and tells how many pass; `fault` says of a
    program, a kind, a text and what is due why it is not so."""
    passed, failed = 0, []
    for program in programs():
        for kind in kinds:
            for name, text, due in kind():
                why = fault(program, kind, text, due)
                if why:
                    failed.append("%s: %s: %s" % (kind.__name__.replace("_", " "), name, why))
                else:
                    passed += 1
    return told(what, passed, failed)


def fails_told(what, kinds):
    """Tries some kinds over each program, each of which yields True of a case that is right and else how it is not, and tells how many
    pass."""
    passed, failed = 0, []
    for program in programs():
        for fails in kinds:
            for it in fails(program):
                passed += it is True
                if it is not True:
                    failed.append(it)
    if not passed:
        failed.append("there is no program: ./hdminet builds it")
    return told(what, passed, failed)
