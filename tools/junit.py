#!/usr/bin/env python3
"""junit.py -o FILE TEST..: checks files of hdminet, and writes a report of JUnit's form, which servers of tests read: a suite for each
file, a test for each expectation, or of a sweep for each stretch. HDMINET_PROGRAM names the program. The status is 0 where all hold, 1
where one does not, 2 where a file or the command line is refused. `tools/suite --junit FILE` writes the same form."""

import argparse
import json
import os
import subprocess
import sys
import xml.etree.ElementTree as ElementTree

TOP = os.path.dirname(os.path.dirname(os.path.realpath(__file__)))


def xml_text(text):
    """A text without the characters that XML 1.0 has not."""
    return "".join(letter if letter in "\t\n" or " " <= letter < "\ufffe" else "?" for letter in text)


def write(path, suites):
    """Writes suites: pairs of a name and cases, each a name, 'passed', 'failed' or 'skipped', and what is said of it."""
    root = ElementTree.Element("testsuites")
    for name, cases in suites:
        count = {kind: sum(case[1] == kind for case in cases) for kind in ("failed", "skipped")}
        suite = ElementTree.SubElement(root, "testsuite", name=xml_text(name), tests=str(len(cases)), failures=str(count["failed"]),
                                       skipped=str(count["skipped"]), errors="0")
        for title, kind, said in cases:
            case = ElementTree.SubElement(suite, "testcase", classname=xml_text(name), name=xml_text(title))
            if kind == "failed":
                ElementTree.SubElement(case, "failure", message=xml_text(said.split("\n", 1)[0])).text = xml_text(said)
            elif kind == "skipped":
                ElementTree.SubElement(case, "skipped", message=xml_text(said))
    ElementTree.ElementTree(root).write(path, encoding="utf-8", xml_declaration=True)


def cases_of(objects):
    """The cases of a report's objects."""
    cases = []
    for one in objects:
        if one["type"] == "test":
            title = "line %d: %s" % (one["script_line"], one["expectation"] or "refused " + one["refused"])
            cases.append([title, "passed" if one["holds"] else "failed", ""])
        elif one["type"] == "stretch":
            held = "\n".join("test %d %s" % (number, "holds" if holds else "fails") for number, holds in enumerate(one["holds"], 1))
            cases.append(["%d..%d" % (one["from"], one["to"]), "passed" if all(one["holds"]) else "failed", held])
        elif cases and one["type"] not in ("version", "plan"):
            cases[-1][2] += one["line"].removeprefix("# ") + "\n"
    return cases


def checked(program, path):
    with open(path, "rb") as file:
        ran = subprocess.run([program, "check", "--json"], stdin=file, stdout=subprocess.PIPE, stderr=subprocess.PIPE, check=False)
    if ran.returncode not in (0, 1) or not ran.stdout:
        raise ValueError("%s: %s" % (path, ran.stderr.decode("latin-1").strip()))
    return cases_of([json.loads(line) for line in ran.stdout.decode("latin-1").splitlines()])


def main():
    parser = argparse.ArgumentParser(prog="junit", description="Checks files of hdminet, and writes a report of JUnit's form.")
    parser.add_argument("-o", dest="path", required=True, metavar="FILE", help="where the report is to stand")
    parser.add_argument("tests", nargs="+", metavar="TEST", help="files of `hdminet check`")
    words = parser.parse_args()
    program = os.environ.get("HDMINET_PROGRAM") or os.path.join(TOP, "release", "hdminet")
    try:
        suites = [(path, checked(program, path)) for path in words.tests]
        write(words.path, suites)
    except (ValueError, OSError) as refused:
        print("junit: %s" % refused, file=sys.stderr)
        return 2
    return int(any(case[1] == "failed" for _, cases in suites for case in cases))


if __name__ == "__main__":
    sys.exit(main())
