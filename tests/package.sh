#!/usr/bin/env bash
# package.sh: the folder of tools/package, as pip installs it offline into an environment of its own: the commands that it makes, the
# module, its plugin of pytest, reports of JUnit's form, and with a type checker its types. What is not here, venv, pytest or mypy, is
# left out, and named. $PYTHON is the Python, one that has pytest where there is one. The last line is 'package: N passed, M failed'.
set -u
tests=package
source "$(dirname "${BASH_SOURCE[0]}")/counted.bash"

# What a command writes, and its status.
gives() { local status=$1; shift; "$@" > "$room/out" 2> "$room/err"; [ $? = "$status" ] || { cat "$room/out" "$room/err"; return 1; }; }
has() { grep -qxF -- "$1" "$room/out" || { cat "$room/out"; return 1; }; }

python=${PYTHON:-}
for one in python3 /usr/bin/python3; do
  [ -n "$python" ] || ! "$one" -c 'import pytest' 2> /dev/null || python=$one
done
python=${python:-python3}

line "reports of JUnit's form of files" gives 1 "$top/tools/junit.py" -o "$room/files.xml" "$top"/examples/{film,wrong-film}.test "$top/examples/race.sweep"
line "whose failures they count" grep -q 'wrong-film.test" tests="3" failures="2" skipped="0"' "$room/files.xml"
line "and each stretch of a sweep" grep -q 'race.sweep" tests="4" failures="4"' "$room/files.xml"
line "a file that is refused" gives 2 "$top/tools/junit.py" -o "$room/none.xml" "$top/examples/first-path.trace"
line "and nothing is written" [ ! -e "$room/none.xml" ]
line "a report of the suite" gives 0 "$top/tools/suite" --program "$top/release/hdminet" --dut "$top/examples/suite/reference.py" --kind player --junit "$room/suite.xml" osd-name arc-start
line "with what is skipped" grep -q 'tests="2" failures="0" skipped="1"' "$room/suite.xml"
line "and of a test that fails" gives 1 "$top/tools/suite" --program "$top/release/hdminet" --dut true --kind player --junit "$room/suite.xml" osd-name
line "with what is said of it" grep -q '<failure message="# the device under test: its' "$room/suite.xml"

line "no folder that is another one's" gives 2 "$top/tools/package" "$room"
line "a folder for pip" gives 0 "$top/tools/package" "$room/made"
line "made once more" gives 0 "$top/tools/package" "$room/made"
"$python" -m venv --system-site-packages "$room/venv" > "$room/log" 2>&1 || { echo "package: there is no venv here"; end; }
bin=$room/venv/bin
line "pip takes it offline" gives 0 env PIP_NO_INDEX=1 PIP_DISABLE_PIP_VERSION_CHECK=1 "$bin/pip" install --no-index "$room/made"
rm -rf "$room/made"
mkdir "$room/elsewhere" && cd "$room/elsewhere" || exit 1
home=$("$bin/python" -c 'import hdminet.homes; print(hdminet.homes.home())')
line "its files are in the environment" [ "${home#"$room/venv"}" != "$home" ]

# The jobs of README.md, without a checkout.
line "a room" gives 0 "$bin/hdminet" run < "$home/examples/first-path.net"
line "and its trace" cmp "$room/out" "$top/examples/first-path.trace"
line "a capture" gives 0 "$bin/hdminet" mon --audit < "$home/examples/capture.sigrok.vcd"
line "a page" gives 0 env HDMINET_OPEN=true TMPDIR="$room" "$bin/hdminet-look" "$home/examples/two-decks.test"
line "a test" gives 1 "$bin/hdminet" check < "$home/examples/wrong-film.test"
line "a session" gives 0 "$bin/hdminet" live < <(cat "$home/examples/first-path.net")
line "a device under test" gives 0 "$bin/hdminet-suite" --dut "$home/examples/suite/reference.py" --kind player osd-name
line "a wrong device" gives 1 "$bin/hdminet-suite" --dut true --kind player osd-name
line "a report of JUnit's form" gives 0 "$bin/hdminet-junit" -o "$room/film.xml" "$home/examples/film.test"
line "an EDID" gives 0 "$bin/hdminet" edid --check < "$home/examples/living-room.edid"
line "a CEC program's tool" gives 0 "$bin/python" "$home/tools/cec-device" --help

# The module.
cat > "$room/module.py" << 'PY'
import sys
import hdminet
with open(sys.argv[1], encoding="latin-1") as file:
    text = file.read()
report = hdminet.check(text, "--trace")
assert not report.holds and [test.script_line for test in report.failed] == [3, 4], report
assert report.failed[0].expectation == "expect none within 200000 of film 4>f active-source" and report.failed[1].refused == "not-for-kind"
assert [one["type"] for one in report.failed[0].below] == ["window", "round"] and report.failed[0].below[1]["initiator"] == "4"
assert report.trace[-1]["type"] == "end" and report.trace[-1]["at"] == 2000000
with open(sys.argv[2], encoding="latin-1") as file:
    sweep = hdminet.check(file.read())
assert not sweep.holds and (sweep.stretches[0].first, sweep.stretches[0].last, sweep.stretches[0].holds) == (4840000, 4931550, [False, True])
try:
    hdminet.check("device tv tv 4\nscript\nexpect frob\nend 5\n")
except hdminet.Refused as refused:
    assert (refused.line, refused.cause) == (1, "word"), (refused.line, refused.cause)
else:
    raise AssertionError("taken")

# Each number of a room is taken up to its most, and refused by its name past it.
MOST = {"time": 10 ** 12, "level": 1, "port": 15, "pulse_width": 10_000, "pull_width": 10_000_000}
ROOM = "device tv tv 4\ndevice p1 player 0\nplug p1 tv 1\n"
with hdminet.Room(ROOM) as room:
    for call, given in ((room.press, {"time": 0, "name": "p1", "key": "play"}), (room.release, {"time": 0, "name": "p1", "key": "play"}),
                        (room.plug, {"time": 0, "name": "p1", "parent": "tv", "port": 2}), (room.unplug, {"time": 0, "name": "p1"}),
                        (room.pulse, {"time": 0, "pulse_width": 1}), (room.pull, {"time": 0, "pull_width": 1}), (room.pin, {"time": 0, "level": 0}),
                        (room.edge, {"time": 0}), (room.go_to, {"time": 0}), (room.run_to, {"time": 0}), (room.end, {"time": 0}),
                        (room.send, {"time": 0, "name": "p1", "frame": b"\x44"}), (room.say, {"time": 0, "name": "p1", "text": "4>4"})):
        for name in given.keys() & MOST.keys():
            for value, kind in ((-1, ValueError), (MOST[name] + 1, ValueError), (2 ** 64 + 7, ValueError), (1.5, TypeError), (None, TypeError)):
                try:
                    call(**{**given, name: value})
                except (ValueError, TypeError) as error:
                    assert type(error) is kind and str(error).startswith(name + " "), (call, name, value, error)
                else:
                    raise AssertionError("%s %s=%r is taken" % (call, name, value))
    for wrong in (lambda: room.ask("wait\n"), lambda: room.ask("a" * 4097), lambda: room.press(0, "p\n1", "play"), lambda: room.press(0, 1, "play")):
        try:
            wrong()
        except (ValueError, TypeError):
            pass
        else:
            raise AssertionError("taken")
    try:
        room.ask("frob")
    except hdminet.LineRefused as refused:
        assert (refused.line, refused.cause, refused.word) == (1, "word", "frob"), refused
    else:
        raise AssertionError("taken")
    # The session of docs/live.md, and the first edges of docs/run.md.
    edges = list(room.run_to(20_000))
    assert edges[:2] == [(12_000, 0), (15_700, 1)] and room.horizon == 20_000, edges
    room.press(1_000_000, "p1", "play")
    room.go_to(400_000)
    assert room.wait() and room.trace[-1].startswith("1000000 event ") and room.trace[-1].endswith(" ok"), room.trace
    assert room.state("p1").startswith("state p1 player 4 1.0.0.0 on ")
    trace = room.end(1_200_000)
    assert "1000000 1051150 complete 4>0 image-view-on ack by p1 out -" in trace and trace[-1] == "1200000 end", trace
with hdminet.Room("device tv tv 4\n") as room:
    room.go_to(1_000_000)
    room.pin(1_026_400, 0)
    assert room.edge(1_030_000) == [(1_026_400, 0)] and room.horizon == 1_026_401
try:
    hdminet.Room("device tv tv 4\nfrob\n")
except hdminet.Error as refused:
    assert (refused.line, refused.code) == (2, 60), refused
else:
    raise AssertionError("taken")
PY
line "reports as objects, and rooms" gives 0 "$bin/python" "$room/module.py" "$home/examples/wrong-film.test" "$home/examples/race.sweep"

if "$bin/python" -c 'import pytest' 2> /dev/null; then
  cp "$top"/examples/{film,wrong-film}.test "$room/elsewhere" && cp "$top/examples/race.sweep" "$room/elsewhere/race.test"
  cp "$top/suite/osd-name.test" "$room/elsewhere"
  line "pytest takes a folder of tests" gives 1 "$bin/python" -m pytest -p no:cacheprovider
  line "each expectation as one" grep -q '6 failed, 5 passed' "$room/out"
  line "with what was seen" has '> 1068400 1167550 complete 4>f active-source 1.0.0.0 ok by p1 out -'
  line "and what was before" has '  224105 347255 complete 4>f report-physical-address 1.0.0.0 playback ok by p1 out -'
  line "and how to run it alone" has "again: pytest 'wrong-film.test::line 3'"
  line "which does" gives 1 "$bin/python" -m pytest -q -p no:cacheprovider 'wrong-film.test::line 3'
  printf 'device tv tv 4\nfrob\nscript\nend 5\n' > wrong.test
  line "a file that is refused" gives 2 "$bin/python" -m pytest -q -p no:cacheprovider wrong.test
  line "says why" grep -q 'topology line 2: word' "$room/out"
  mkdir none && cd none || exit 1
  line "the suite over a device" gives 0 "$bin/python" -m pytest -q -p no:cacheprovider --hdminet-dut "$home/examples/suite/reference.py" --kind player -k 'osd-name or arc-start'
  line "with what is skipped" grep -q '1 passed, 1 skipped' "$room/out"
  line "over a wrong one" gives 1 "$bin/python" -m pytest -q -p no:cacheprovider --hdminet-dut true --kind player -k osd-name
  line "says what it did" grep -q '^# the device under test: its' "$room/out"
  printf 'def test_wakes(room):\n    living = room("device tv tv 4\\ndevice p1 player 0\\nplug p1 tv 1\\n")\n    living.press(1_000_000, "p1", "play")\n    living.go_to(1_200_000)\n    assert any("4>0 image-view-on ack" in line for line in living.trace)\n' > test_room.py
  line "the fixture room" gives 0 "$bin/python" -m pytest -q -p no:cacheprovider test_room.py
  line "and wants its kind" gives 4 "$bin/python" -m pytest -q -p no:cacheprovider --hdminet-dut true
  cd ..
else
  echo "package: there is no pytest here"
fi
if command -v mypy > /dev/null; then
  # The plugin has the types of pytest, where the Python of mypy has it.
  types=(-p hdminet)
  if ! "$(sed -n '1s/^#! *//p' "$(command -v mypy)")" -c 'import pytest' 2> /dev/null; then
    echo "package: mypy has no pytest: the types of the plugin are left out"
    types=(-m hdminet)
    for one in "$top"/python/hdminet/[!_p]*.py; do types+=(-m "hdminet.$(basename "$one" .py)"); done
  fi
  line "the types of the module" gives 0 env MYPYPATH="$top/python" mypy --strict --python-version 3.9 --cache-dir "$room/types" "${types[@]}"
else
  echo "package: there is no mypy here"
fi
end
