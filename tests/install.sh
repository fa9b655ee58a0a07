#!/usr/bin/env bash
# install.sh: tools/install into a folder of its own; the installed program and check-room from another folder, the manual by man,
# the completions in bash, zsh and fish, and the library by C and Python. What is not here, a shell, a C compiler or a released
# library, is left out, and named. The last line is
# 'installed: N passed, M failed'.
set -u
tests=installed
source "$(dirname "${BASH_SOURCE[0]}")/counted.bash"
dir=$room/else\ where
mkdir "$room/home" "$room/elsewhere"
# Shells write nothing into the home of who runs this.
export HOME=$room/home XDG_CONFIG_HOME=$room/home XDG_DATA_HOME=$room/home XDG_CACHE_HOME=$room/home TERM=dumb

# Runs a command from a folder that is neither the checkout nor the one installed into.
start() {
  (cd "$room/elsewhere" && "$@") > "$room/out" 2> "$room/err"
  status=$?
}
ended() { [ "$status" = "$1" ]; }
wrote() { grep -qxF -- "$1" "$room/out"; }
refused() { [ "$status" = 2 ] && [ ! -s "$room/out" ] && grep -qF -- "$1" "$room/err"; }
files_of() { find "$1" -type f -printf '%P %m\n' | LC_ALL=C sort; }

FILES='bin/check-room 755
bin/hdminet 755
bin/join-room 755
share/bash-completion/completions/hdminet 644
share/fish/vendor_completions.d/hdminet.fish 644
share/man/man1/hdminet.1 644
share/zsh/site-functions/_hdminet 644
share/hdminet/hdminet 755
bin/hdminet-suite 755
bin/hdminet-look 755
bin/hdminet-junit 755
bin/hdminet-cec-device 755
bin/hdminet-cec-adapter 755'
# What works together outside of a checkout, with the modes that it has there, and the Python module.
FILES+=$'\n'$(cd "$top" && find tools/{suite,look,page,page-live,check-room,join-room,junit.py,cec-device,cec-adapter} tools/{cec,model/objects.py,model/wire.py} suite view examples tests/real-programs \
  release/view.html -type f ! -name '*.pyc' -printf 'share/hdminet/%p %m\n')
FILES+=$'\n'$(cd "$top/python" && find hdminet -type f ! -name '*.pyc' -printf 'python/%p 644\n')
FILES=$(LC_ALL=C sort <<< "$FILES")
LIBRARY='include/hdminet.h 644
include/hdminet_wire.h 644
lib/libhdminet.a 644
lib/libhdminet.so 644
lib/libhdminet_wire.a 644
lib/pkgconfig/hdminet.pc 644
lib/pkgconfig/hdminet_wire.pc 644'
PROGRAM_FILES=$FILES
both() { printf '%s\n' "$PROGRAM_FILES" "$LIBRARY" | LC_ALL=C sort; }
[ ! -d "$top/release/lib" ] || FILES=$(both)

# What stands in for a toolchain, and tells that it was called.
mkdir "$room/kit"
printf '#!/bin/sh\n: > "%s"\n' "$room/called" | tee "$room/kit/rt" "$room/kit/rustc" "$room/kit/cc" > /dev/null
chmod +x "$room/kit"/*
start env PATH="$room/kit:$PATH" "$top/tools/install" "$dir"
check "it installs" ended 0
check "and calls no toolchain" [ ! -e "$room/called" ]
check "each file, with its mode" [ "$(files_of "$dir")" = "$FILES" ]
check "and names each" [ "$(grep -c "^install: $dir/" "$room/out")" = "$(wc -l <<< "$FILES")" ]
check "the program is the released one" cmp -s "$top/release/hdminet" "$dir/bin/hdminet"
check "the manual is the one that stands here" cmp -s "$top/hdminet.1" "$dir/share/man/man1/hdminet.1"

start "$dir/bin/hdminet" --version
check "the installed program starts" wrote "$("$top/release/hdminet" --version)"
start "$dir/bin/check-room" "$top/examples/film.test"
check "check-room finds it" ended 0
check "and hands the test over" wrote "1..4"
ln -s "$dir/bin/check-room" "$room/elsewhere/link"
start ./link "$top/examples/wrong-film.test"
check "a link to check-room finds it too, and its status is that of check" ended 1
start "$top/tools/check-room" "$top/examples/film.test"
check "the check-room of a checkout finds the program there" ended 0

start "$dir/bin/check-room" "$top/examples/race.sweep"
check "check-room has a test for each stretch of a sweep" [ "$(cat "$room/out")" = $'TAP version 13\nnot ok 1 - 4840000..4931550\n# test 1 fails\nnot ok 2 - 4931600..4945250\n# test 2 fails\nnot ok 3 - 4945300..4999950\n# test 1 fails\n# test 2 fails\nnot ok 4 - 5000000..5000000\n# test 2 fails\n1..4' ]
check "with the status of check" ended 1
sed 's/4840000.*50 press/4840000..4850000\/5000 press/; /60000 of key/d' "$top/examples/race.sweep" > "$room/elsewhere/holds.sweep"
start "$dir/bin/check-room" "$room/elsewhere/holds.sweep"
check "one that holds is ok" [ "$(cat "$room/out")" = $'TAP version 13\nok 1 - 4840000..4850000\n1..1' ]
check "with status 0" ended 0

# A room without a script, and a test that is only a script; the room's last line has no line feed.
printf '# one television\ndevice tv tv 1' > "$room/elsewhere/one.room"
printf '# the poll\nexpect once from 0 to 60000 0>0 nack\nend 200000\n' > "$room/elsewhere/poll=.test"
printf 'TAP version 13\nok 1 - line 2: expect once from 0 to 60000 0>0 nack\n1..1\n' > "$room/report"
start "$dir/bin/join-room" one.room poll=.test
check "join-room joins a topology and a script" [ "$(cat "$room/out")" = $'# one television\ndevice tv tv 1\nscript\n# the poll\nexpect once from 0 to 60000 0>0 nack\nend 200000' ]
start "$dir/bin/check-room" one.room poll=.test
check "check-room takes a room and a test" cmp -s "$room/report" "$room/out"
check "with the status of check" ended 0
for file in "$top"/examples/*.net "$top"/examples/*.test "$top"/examples/*.sweep; do
  start "$top/tools/join-room" "$file" "$file"
  check "$(basename "$file") joined with itself is that file" cmp -s "$file" "$room/out"
done
start "$dir/bin/join-room" "$top/examples/wrong-film.test" poll=.test
check "of a file with both, the room is what stands above script" [ "$(cat "$room/out")" = "$(sed '/^script$/q' "$top/examples/wrong-film.test"; cat "$room/elsewhere/poll=.test")" ]
start "$dir/bin/check-room" "$top/examples/film.test" "$top/examples/wrong-film.test"
check "a test that fails in a room has status 1" ended 1
start "$dir/bin/check-room" one.room missing.test
check "a test that is not there is refused" refused "join-room: no file missing.test"
start "$dir/bin/join-room" one.room
check "so is one word" refused "join-room: usage"
if command -v prove > /dev/null; then
  start env PATH="$dir/bin:$PATH" prove -e check-room "$top/examples/film.test"
  check "prove takes check-room by its name" ended 0
  start env PATH="$dir/bin:$PATH" prove -e check-room "$top/examples/film.test" "$top/examples/wrong-film.test"
  check "and fails where a test does" [ "$status" != 0 ]
  start env PATH="$dir/bin:$PATH" prove -v -e check-room "$room/elsewhere/holds.sweep" "$top/examples/film.test"
  check "and takes the stretches of a sweep as tests" grep -q 'Files=2, Tests=5' "$room/out"
  start env PATH="$dir/bin:$PATH" prove -e 'check-room one.room' poll=.test
  check "prove takes check-room with a room" ended 0
  # Ten tests of a room, each of whose lines holds, and beside it one that does not (docs/testing.md); `\n` for a line feed.
  TESTS='expect within 60000 of film 4>0 image-view-on ack|expect within 5000 of film 4>0 image-view-on ack
expect once within 200000 of film 4>f active-source 1.0.0.0 ok|expect once within 200000 of film 4>f active-source 2.0.0.0 ok
expect none from 0 to 2000000 short|expect none within 200000 of film 4>f active-source
expect within 200000 of film *>f active-source|expect within 200000 of film *>f standby
expect within 60000 of film 4>0 image-view-on *|expect within 60000 of film 4>0 text-view-on *
expect within 60000 of film @p1>@tv image-view-on|expect within 60000 of film @tv>@p1 image-view-on
expect from 1000000 to 1200000 4>f active-source|expect from 1200000 to 1400000 4>f active-source
expect state 1500000 tv not standby|expect state 1500000 tv standby
at 1500000 press tv eject\nexpect refused not-for-kind|at 1500000 press tv eject
label slip at 1500000 press tv eject\nexpect refused slip not-for-kind|label slip at 1500000 press tv eject\nexpect refused slip off-wire'
  printf 'device tv tv 4\ndevice p1 player 0\nplug p1 tv 1\n' > "$room/elsewhere/ten.room"
  mkdir "$room/elsewhere/holds" "$room/elsewhere/fails"
  number=0
  while IFS='|' read -r holds fails; do
    number=$((number + 1))
    for what in holds fails; do
      printf 'label film at 1000000 press p1 play\n%b\nend 2000000\n' "${!what}" > "$room/elsewhere/$what/$number.test"
    done
  done <<< "$TESTS"
  start env PATH="$dir/bin:$PATH" prove -e 'check-room ten.room' "$room"/elsewhere/holds/*.test
  check "ten tests of a room hold" ended 0
  check "and prove counts ten" grep -q '^Files=10, Tests=10, ' "$room/out"
  start env PATH="$dir/bin:$PATH" prove -e 'check-room ten.room' "$room"/elsewhere/fails/*.test
  check "each with a slip fails" [ "$(grep -c 'Tests: 1 Failed: 1)' "$room/out")" = 10 ]
fi
# The jobs of README.md from what is installed.
at=$dir/share/hdminet
start "$dir/bin/hdminet-suite" --dut "'$at/examples/suite/reference.py'" --kind player osd-name
check "the suite works from there" ended 0
check "and says so" wrote "ok 1 - osd-name: Give OSD Name is answered with the name (CEC 13.11)"
start env HDMINET_OPEN=true TMPDIR="$room/home" "$dir/bin/hdminet-look" "$at/examples/two-decks.test"
check "so does the page" ended 0
start env HDMINET_OPEN=true TMPDIR="$room/home" "$dir/bin/hdminet-look" "$at/examples/first-path.trace"
check "and that of a plain trace" ended 0
start "$dir/bin/hdminet-junit" -o "$room/home/film.xml" "$at/examples/film.test"
check "and a report of JUnit's form" ended 0
start "$dir/bin/hdminet-cec-device" --help
check "and the tools for CEC programs" ended 0
start "$dir/bin/hdminet-cec-adapter" --help
check "of both kinds" ended 0
start env PYTHONDONTWRITEBYTECODE=1 PYTHONPATH="$dir/python" python3 -c 'import hdminet; print(hdminet.check(open(hdminet.reports.homes.home() + "/examples/film.test").read()).holds)'
check "and the Python module" wrote True
if command -v man > /dev/null; then
  start env MANWIDTH=80 LC_ALL=C man -l "$dir/share/man/man1/hdminet.1"
  check "man shows the manual" ended 0
  check "with its name" grep -q 'hdminet.*emulate a living-room HDMI network' "$room/out"
  start env MANWIDTH=80 MANPATH="$dir/share/man" man -w hdminet
  check "and finds it by its name" wrote "$dir/share/man/man1/hdminet.1"
else
  echo "installed: there is no man here"
fi

# The tests of the library, over the one that is installed.
. "$top/tools/sources.bash"
if [ ! -d "$top/release/lib" ]; then
  echo "installed: there is no released library here"
elif ! is_library_of_these_sources "$top"; then
  echo "installed: the released library was built of other sources"
elif ! command -v cc > /dev/null || ! command -v pkg-config > /dev/null; then
  echo "installed: there is no cc or pkg-config here"
else
  start "$top/tools/install" "$room/calls"
  check "the library is installed" ended 0
  start env HDMINET_FRAMES=2000 "$top/tests/library.sh" "$room/calls" "$room/calls/bin/hdminet"
  check "and its tests hold" ended 0
fi

# What a shell is asked, and what it is to offer. A line that ends with a space asks for the next word.
ROWS='hdminet | run check step live asm dis lay mon edid
hdminet r| run
hdminet zzz|
hdminet --v| --version
hdminet mon --fr| --from --from-start --from-idle
hdminet mon --from | edges vcd pin csv
hdminet mon --from e| edges
hdminet check --from | edges vcd pin csv
hdminet run --edges --as | vcd pin csv
hdminet run --edges --as=| vcd pin csv
hdminet run --edges --as=v| vcd
hdminet edid --port 2 --below | amp
hdminet mon --signal |
hdminet asm --from|
hdminet --explain run --str| --strict
hdminet run < fi| film.test
hdminet run fi| film.test
hdminet live fi|'
# The flags of each subcommand are those of its help.
for command in run check step live asm dis lay mon edid; do
  ROWS+=$'\n'"hdminet $command --| $("$dir/bin/hdminet" "$command" --help | sed -n '/^Options:$/,/^$/p' | grep -oE '^ +(-h, )?--[a-z-]+' | grep -oE -- '--[a-z-]+' | tr '\n' ' ')"
done
: > "$room/elsewhere/film.test"

# The words for each line, as `LINE|WORD` in order, from those that a shell offers: the values of `--flag=` without it, a flag that
# takes one without its `=`. At the first row some shells offer the flags too.
words_offered() {
  awk '/^\? / { line = substr($0, 3); next } { sub(/ *$/, ""); sub(/=$/, ""); sub(/^--[a-z-]*=/, "") }
    $0 != "" && !(line == "hdminet " && /^-/) { print line "|" $0 }' | LC_ALL=C sort -u
}
words_expected() {
  local line words word
  while IFS='|' read -r line words; do for word in $words; do printf '%s|%s\n' "$line" "$word"; done; done <<< "$ROWS" | LC_ALL=C sort -u
}
# Reads such words into an array, by their lines.
by_line() {
  local -n into=$1
  local line word
  into=()
  while IFS='|' read -r line word; do into[$line]+=" $word"; done
}

offered_by_bash() {
  bash --norc -c '
    . "$1"
    complete -p hdminet | grep -q -- "-F _hdminet" || exit 1
    while IFS= read -r line; do
      printf "? %s\n" "$line"
      # The words as bash parts them; `=` is one of its own.
      read -ra COMP_WORDS <<< "${line//=/ = }"
      [[ $line != *" " ]] || COMP_WORDS+=("")
      COMP_CWORD=$((${#COMP_WORDS[@]} - 1))
      _hdminet hdminet
      printf "%s\n" "${COMPREPLY[@]}"
    done' bash "${1:-$dir/share/bash-completion/completions/hdminet}"
}

offered_by_zsh() { zsh -f "$top/tests/complete.zsh" "${dir// /\\ }/share/zsh/site-functions" "$room/home"; }

offered_by_fish() {
  fish --no-config -c '
    source $argv[1]
    while read -l line
      printf "? %s\n" $line
      complete -C $line | string replace -r "\t.*" ""
    end' "$dir/share/fish/vendor_completions.d/hdminet.fish"
}

declare -A expected offered
by_line expected < <(words_expected)
for shell in bash zsh fish; do
  command -v $shell > /dev/null || { echo "installed: there is no $shell here"; continue; }
  start offered_by_$shell < <(sed 's/|.*//' <<< "$ROWS")
  check "$shell takes its completions" ended 0
  check "and says nothing of them" [ ! -s "$room/err" ]
  by_line offered < <(words_offered < "$room/out")
  while IFS='|' read -r line _; do
    printf '%s\n' "offered:${offered[$line]-}" "expected:${expected[$line]-}" > "$room/out"
    check "$shell: $line" [ "${offered[$line]-}" = "${expected[$line]-}" ]
  done <<< "$ROWS"
done

# Completions of another program: what its help says, and which of those words it takes.
mkdir "$room/made"
cat > "$room/painter" << 'END'
#!/bin/sh
case "$*" in
  --help) printf 'Commands:\n  paint  Paints a wall\n\nOptions:\n  -h, --help  Print help\n' ;;
  'paint --help') printf "Options:\n      --wall <WALL>  The wall's name: north, or [any]\n      --when <WHEN>  Paints always or never\n" ;;
  'paint --wall'* | 'paint --when always' | 'paint --when never') ;;
  *) exit 2 ;;
esac
END
chmod +x "$room/painter"
start "$top/tools/completions" "$room/painter" "$room/made"
check "completions are made of any help" ended 0
start offered_by_bash "$room/made/hdminet" <<< $'hdminet \nhdminet paint --\nhdminet paint --when \nhdminet paint --wall '
check "with its words and no others" [ "$(words_offered < "$room/out" | tr '\n' ' ')" = "hdminet paint --when |always hdminet paint --when |never hdminet paint --|--wall hdminet paint --|--when hdminet |paint " ]
rm "$room/made"/*
sed -i 's/  paint  Paints/  Paint  Paints/' "$room/painter"
start "$top/tools/completions" "$room/painter" "$room/made"
check "a help of another form is refused" refused "completions: no command:   Paint  Paints a wall"
check "and nothing is written" [ -z "$(ls "$room/made")" ]

# A checkout of other sources than those of its released program.
mkdir "$room/checkout"
cp -R "$top"/{tools,release,suite,view,examples,python,include,hdminet.1} "$room/checkout" && mkdir "$room/checkout/tests" && cp -R "$top/tests/real-programs" "$room/checkout/tests"
echo 'hdminet:' > "$room/checkout/crates.txt"
echo old > "$dir/bin/hdminet"
start "$room/checkout/tools/install" "$dir/"
check "a second run replaces the first" [ "$(files_of "$dir")" = "$FILES" ]
check "with the released program" cmp -s "$top/release/hdminet" "$dir/bin/hdminet"
check "and says that the sources are other ones" grep -qxF "install: the released program was built of other sources than those beside it" "$room/err"
check "which refuses nothing" ended 0

# One with a library that is a stand-in for one.
rm -rf "$room/checkout/release"/{lib,include,library*}
with_library() {
  local file
  for file in "${LIBRARY_FILES[@]}"; do
    mkdir -p "$room/checkout/release/$(dirname "$file")"
    echo "stands for $file" > "$room/checkout/release/$file"
    (cd "$room/checkout/release" && sha256sum "$file")
  done > "$room/sums"
  mv "$room/sums" "$room/checkout/release/library.sha256"
}
start "$room/checkout/tools/install" "$room/without"
check "with no library the program is installed" [ "$(files_of "$room/without")" = "$PROGRAM_FILES" ]
with_library
start "$room/checkout/tools/install" "$room/with"
check "a released library is installed" [ "$(files_of "$room/with")" = "$(both)" ]
check "its files are the released ones" cmp -s "$room/checkout/release/lib/libhdminet.a" "$room/with/lib/libhdminet.a"
check "and say so where the sources are other ones" grep -qxF "install: the released library was built of other sources than those beside it" "$room/err"
check "pkg-config is told the folder" grep -qxF "prefix=$room/with" "$room/with/lib/pkgconfig/hdminet_wire.pc"
check "and the version of its calls" grep -qxF "Version: 0.0" "$room/with/lib/pkgconfig/hdminet.pc"
check "a link has the major one" [ "$(readlink "$room/with/lib/libhdminet.so.0")" = libhdminet.so ]
check "an older library than the headers here is named" grep -qE '^install: the released library has version 0.0, and its headers here [1-9]' "$room/err"
start "$room/checkout/tools/install" relative
check "and of a folder from here its whole name" grep -qxF "prefix=$room/elsewhere/relative" "$room/elsewhere/relative/lib/pkgconfig/hdminet.pc"
start "$room/checkout/tools/install" --remove "$room/with"
check "--remove takes the library away" [ -z "$(files_of "$room/with")" ]
for file in lib/libhdminet.so include/hdminet.h; do
  echo other >> "$room/checkout/release/$file"
  start "$room/checkout/tools/install" "$room/new"
  check "another $file than the released one is refused" refused "install: the released library does not have the sums that stand beside it"
  check "and nothing is installed" [ ! -e "$room/new" ]
  with_library
  rm "$room/checkout/release/$file"
  start "$room/checkout/tools/install" "$room/new"
  check "and so is a library without $file" refused "install: the released library does not have the sums that stand beside it"
  with_library
done

# One whose released program is not the one that its sum is of.
echo >> "$room/checkout/release/hdminet"
start "$room/checkout/tools/install" "$room/new"
check "another program than the released one is refused" refused "install: the released program does not have the sum that stands beside it"
check "and nothing is installed" [ ! -e "$room/new" ]
rm -r "$room/checkout/release"
start "$room/checkout/tools/install" "$room/new"
check "so is a checkout without one" refused "install: there is no released program"
: > "$room/file"
start "$top/tools/install" "$room/file"
check "and a folder that can't be made" refused "can't be written"
for words in "" "-x" "a b"; do
  # shellcheck disable=SC2086
  start "$top/tools/install" $words
  check "and the words '$words'" refused "install: usage"
done

: > "$dir/bin/other"
links=$(find "$dir" -type l | wc -l)
start "$top/tools/install" --remove "$dir"
check "--remove takes the files away" [ "$(files_of "$dir" | cut -d' ' -f1)" = bin/other ]
check "and names each, and its links" [ "$(grep -c '^install: removed ' "$room/out")" = "$(($(wc -l <<< "$FILES") + ${links}))" ]
start "$top/tools/install" --remove "$dir"
check "and says where there is nothing" wrote "install: nothing of hdminet is in $dir"

end
