#!/usr/bin/env bash
# start-script.sh [KIT]: tests the start script and tools/release with a stand-in for rt, in a checkout of its own. KIT is the
# kit of the toolchain whose words the stand-in takes, 13b or 13f; with none all is tested with each of them. The last line is
# 'start script: N passed, M failed'.
set -u
tests="start script"
source "$(dirname "${BASH_SOURCE[0]}")/counted.bash"
if [ $# = 0 ]; then
  "$top/tests/start-script.sh" 13b > "$room/13b" &
  "$top/tests/start-script.sh" 13f > "$room/13f"
  wait
  for kit in 13b 13f; do
    grep -v '^start script: [0-9]* passed' "$room/$kit"
    counts=$(sed -n 's/^start script: \([0-9]*\) passed, \([0-9]*\) failed$/\1 \2/p' "$room/$kit")
    # (a run that came to no end has failed)
    read -r well badly <<< "${counts:-0 1}"
    passed=$((passed + well))
    failed=$((failed + badly))
  done
  end
fi

# A stand-in for rt. It refuses sources that have the word 'broken', notes its calls, and links a program that prints its
# sources and its arguments. It takes as many seconds as the file $SLOW says. `rt ci` runs at the top of a repository that has
# nothing of an earlier run, and links the same program, or another one where there is a file $OTHER. `rt all test` runs where
# a developer's checks have left work. The words that the kit $KIT lacks are refused as rt does, with its usage and status 2;
# where there is a file $REFUSING all are.
mkdir -p "$room/bin"
cat > "$room/bin/rt" << 'RT'
#!/usr/bin/env bash
if [ "$*" = version ]; then
  echo "kit 1 of this test"
  exit
fi
echo "$*" >> "$CALLS"
refuse() {
  cat "$USAGE" >&2
  exit 2
}
[ ! -f "$REFUSING" ] || refuse
case $KIT:$* in
  13b:ci | 13f:ci | 13f:ci\ --anew | *:all\ test*) ;;
  *) refuse ;;
esac
prove() {
  echo "== $1"
  if grep -q broken "$crates/$1"/src/*; then
    echo "error: the sources of $1 are broken"
    return 1
  fi
  echo "fn $1::f: proved"
  echo "logic=proved functions=3 sum=0"
}
link() {
  mkdir -p "$crates/hdminet/out"
  { echo '#!/bin/sh'; echo "echo '$(cat "$crates/hdminet/src/main.rt")$1' \"\$@\""; } > "$crates/hdminet/out/hdminet"
  chmod +x "$crates/hdminet/out/hdminet"
}
sleep "$(cat "$SLOW" 2> /dev/null || echo 0)"
if [ "$1" = ci ]; then
  crates=$PWD/crates
  [ -d .git ] && [ -f HANDLES ] && [ -f crates/hdminet/stdin ] && ! ls -d crates/*/{out,must-fail,wrong-bodies} 2> /dev/null || exit 1
  [ "$(cut -d: -f1 crates.txt | sort | tr '\n' ' ')" = "hdminet low " ] && [ "$(ls crates | tr '\n' ' ')" = "hdminet low " ] || exit 1
  if grep -q unreadable "$crates"/low/src/*; then
    printf 'rt: nothing can be read\n0 passed, 1 failed\n'
    exit 2
  fi
  for crate in low hdminet; do
    if ! prove "$crate"; then
      printf 'rt: %s NOT PROVED\nrt: another NOT PROVED: its library %s failed\n0 passed, 2 failed\n' "$crate" "$crate"
      exit 1
    fi
    echo "rt: $crate proved"
  done
  link "$(cat "$OTHER" 2> /dev/null)"
  printf 'rt: ok; handles allowed: none\n2 passed, 0 failed\n'
  exit
fi
[ "$1 $2 $(basename "$PWD")" = "all test hdminet" ] || exit 1
crates=..
for crate in low hdminet; do
  if ! prove "$crate"; then
    printf '== summary\n%s: failed (1)\n' "$crate"
    for _ in {1..20}; do echo "another: not run, since $crate failed"; done
    exit 1
  fi
done
link ""
printf '== summary\nlow: ok\nhdminet: ok\n'
RT
chmod +x "$room/bin/rt"
export CALLS="$room/calls" OTHER="$room/other" SLOW="$room/slow" REFUSING="$room/refusing" TMPDIR="$room/tmp"
# The usage of rt in a kit without --anew.
export KIT=$1 USAGE="$top/tests/rt-usage.txt"
# What is asked of rt for a proof from nothing.
case $KIT in
  13b) anew=$'ci --anew\nci' ;;
  13f) anew='ci --anew' ;;
  *) echo "start script: no kit $KIT" >&2 && exit 2 ;;
esac
mkdir "$TMPDIR"
PATH="$room/bin:$PATH"

# A new checkout of a program that prints 'one', a crate below it, and a crate of tests.
checkout() {
  rm -rf "$room/checkout" "$CALLS" "$OTHER" "$SLOW" "$REFUSING"
  mkdir -p "$room/checkout/crates/low/src" "$room/checkout/crates/hdminet/src" "$room/checkout/crates/low_tests/src" "$room/checkout/tools"
  cp "$top/hdminet" "$room/checkout/hdminet"
  cp "$top/tools/release" "$top/tools/sources.bash" "$top/tools/kit.bash" "$room/checkout/tools"
  printf '# a comment\nlow: arrayvec\nlow_tests: low\nhdminet: low arrayvec\n' > "$room/checkout/crates.txt"
  echo 'Handles allowed: none.' > "$room/checkout/HANDLES"
  echo law > "$room/checkout/crates/low/src/lib.rt"
  echo test > "$room/checkout/crates/low_tests/src/lib.rt"
  echo input > "$room/checkout/crates/hdminet/stdin"
  source_is one
}

# Writes the program's source, later than the last build.
source_is() { sleep 0.02; echo "$1" > "$room/checkout/crates/hdminet/src/main.rt"; }

# Runs a command, and keeps its status and what it writes.
start() {
  "$@" > "$room/out" 2> "$room/err"
  status=$?
}

# Refused with one line, which says that the sources changed, and with no call of rt.
changed() {
  refused "hdminet: the sources changed since the program was built: ./hdminet --prove proves and builds them" && lines_of_err 1 &&
    [ "$(calls)" = "${1-}" ]
}

calls() { grep -c . "$CALLS" 2> /dev/null || true; }

# A new checkout with a release of its program, and nothing that was built in it.
released() {
  checkout
  (cd "$room/checkout/crates/hdminet" && rt all test > /dev/null)
  "$room/checkout/tools/release" > /dev/null
  rm -rf "$room/checkout"/crates/*/out "$CALLS"
}

fails() { failed=$((failed + 1)); echo "start script: kit $KIT: failed: $1"; }
wrote() { [ "$status" = 0 ] && [ "$(cat "$room/out")" = "$1" ]; }
# Refused with status 2 and nothing on standard output, and standard error has this text.
refused() { [ "$status" = 2 ] && [ ! -s "$room/out" ] && grep -qF -- "$1" "$room/err"; }
says() { grep -qF -- "$1" "$room/err"; }
lines_of_err() { [ "$(grep -c . "$room/err")" = "$1" ]; }
# Refused since rt takes none of these words, and nothing of its usage is shown.
refused_by_rt() {
  refused "hdminet: not built, since rt refused its own arguments: rt $1" &&
    says "hdminet: No proof failed: this kit, kit 1 of this test, takes other ones. Its usage is in the log" &&
    [ "$(grep -vc '^hdminet: ' "$room/err")" = 0 ]
}

# A path with what the script needs, and no rt.
without_rt=$(mktemp -d "$room/path.XXXX")
for tool in bash sh dirname readlink find awk nproc mkdir rm mv cat grep sleep tail flock sort xargs sha256sum; do
  ln -s "$(command -v $tool)" "$without_rt/$tool"
done

checkout
start "$room/checkout/hdminet" run x
check "the first start builds and starts" wrote "one run x"
check "it tells the minutes before" says "about "
check "it tells each crate" says "crate 2 of 2 is proved: hdminet (6 functions so far"
check "it tells that the program may be copied" says "It needs the C library alone and may be copied."
check "it builds once" [ "$(calls)" = 1 ]
check "from nothing" [ "$(cat "$CALLS")" = ci ]
check "and leaves nothing of that" [ -z "$(ls -A "$TMPDIR")" ]
start "$room/checkout/hdminet" again
check "the second start builds nothing" wrote "one again"
check "and says nothing" lines_of_err 0
check "and calls no rt" [ "$(calls)" = 1 ]
start "$room/checkout/hdminet" check --explain
check "what is on no terminal has no progress" wrote "one check --explain"
if command -v script > /dev/null; then
  start script -qec "$room/checkout/hdminet check" /dev/null
  check "a test on a terminal says how far it is, and faults are explained" wrote $'one --explain check --progress\r'
  start script -qec "$room/checkout/hdminet check --trace" /dev/null
  check "one with a trace is explained alone" wrote $'one --explain check --trace\r'
  start script -qec "$room/checkout/hdminet run --explain x" /dev/null
  check "the flag stands once" wrote $'one run --explain x\r'
fi

source_is two
start "$room/checkout/hdminet" run x
check "after a change of a source nothing starts, and nothing is built" changed 1
start env PATH="$without_rt" "$room/checkout/hdminet" run x
check "nor without rt" changed 1
start "$room/checkout/hdminet" --prove
check "--prove builds the changed source" says "hdminet: built"
rm "$CALLS"
start "$room/checkout/hdminet"
check "which starts then" wrote "two"
rm "$room/checkout/crates/low/src/lib.rt"
echo law > "$room/checkout/crates/low/src/other.rt"
start "$room/checkout/hdminet"
check "a source under another name is a change" changed
start "$room/checkout/hdminet" --prove
check "--prove builds it too" says "hdminet: built"
rm "$CALLS"

sleep 0.02
echo broken > "$room/checkout/crates/low_tests/src/lib.rt"
start "$room/checkout/hdminet" x
check "a changed test is none of the program's sources" wrote "two x"
check "and builds nothing" [ "$(calls)" = "" ]

source_is "broken"
start "$room/checkout/hdminet" x
check "a broken source is a change" changed
check "and the old program stays" [ -e "$room/checkout/crates/hdminet/out/hdminet" ]
start "$room/checkout/hdminet" --prove
check "a broken source is refused" refused "error: the sources of hdminet are broken"
check "and it says which crate failed" says "hdminet: not built, since the crate hdminet failed."
check "the old program is gone" [ ! -e "$room/checkout/crates/hdminet/out/hdminet" ]
start "$room/checkout/hdminet"
check "a broken source is refused again" refused "error: the sources of hdminet are broken"
echo unreadable > "$room/checkout/crates/low/src/other.rt"
start "$room/checkout/hdminet"
check "what fails before any proof is refused" refused "rt: nothing can be read"
check "and it says that nothing was built" says "hdminet: not built. The log ends with:"
echo law > "$room/checkout/crates/low/src/other.rt"
source_is three
start "$room/checkout/hdminet"
check "a mended source is built, where nothing is" wrote "three"

checkout
mkdir -p "$room/checkout/crates/low/out/incremental"
start "$room/checkout/hdminet" x
check "where a developer's checks have left work it is built over that" wrote "one x"
check "by one call" [ "$(cat "$CALLS")" = "all test --jobs $(cut -d' ' -f4 "$CALLS")" ]
source_is "broken"
start "$room/checkout/hdminet" x
check "there a change builds nothing" changed 1
rm "$room/checkout/crates/hdminet/out/hdminet"
start "$room/checkout/hdminet"
check "there a broken source is refused" refused "error: the sources of hdminet are broken"
check "and it says which crate failed" says "hdminet: not built, since the crate hdminet failed."
source_is three
start "$room/checkout/hdminet"
check "and a mended one is built" wrote "three"

ln -s "$room/checkout/hdminet" "$room/link"
ln -s "$room/link" "$room/second-link"
start "$room/second-link" x
check "a symbolic link starts it" wrote "three x"
checkout
start "$room/second-link" x
check "a symbolic link builds it" wrote "one x"
check "in the checkout" [ -x "$room/checkout/crates/hdminet/out/hdminet" ]
check "and nowhere else" [ ! -e "$room/crates" ]
mkdir -p "$room/else where"
cp "$room/checkout/hdminet" "$room/else where/hdminet"
start "$room/else where/hdminet"
check "a copy without sources is refused" refused "no sources in $room/else where"

checkout
cd "$room/else where" || exit 1
start ../checkout/hdminet y
check "another folder builds and starts it" wrote "one y"
start ../checkout/hdminet z
check "another folder starts it" wrote "one z"
cd "$top" || exit 1

checkout
start env PATH="$without_rt" "$room/checkout/hdminet"
check "no rt is refused" refused "hdminet: not built yet, and there is no rt to build it: rt is the command of Rattle"
check "in one line" lines_of_err 1
start "$room/checkout/hdminet"
start env PATH="$without_rt" "$room/checkout/hdminet" built
check "a built program needs no rt" wrote "one built"

checkout
# A file in the place of the folder can't be written into, whoever runs this.
echo > "$room/checkout/crates/hdminet/out"
start "$room/checkout/hdminet"
check "a checkout that can't be written is refused" refused "hdminet: not built yet, and $room/checkout/crates/hdminet/out can't be written"
check "in one line of its own" lines_of_err 1
check "and calls no rt" [ "$(calls)" = "" ]

checkout
echo 2 > "$SLOW"
"$room/checkout/hdminet" first > "$room/first" 2> "$room/first.err" &
first=$!
until [ -s "$CALLS" ]; do sleep 0.1; done
start "$room/checkout/hdminet" second
check "a start beside another build waits" says "hdminet: another start builds it; waiting for that"
check "and starts what that built" wrote "one second"
wait $first
check "as the other does" [ "$(cat "$room/first")" = "one first" ]
check "and it is built once" [ "$(calls)" = 1 ]

checkout
echo 1 > "$SLOW"
source_is "broken"
"$room/checkout/hdminet" first > "$room/first" 2> "$room/first.err" &
first=$!
until [ -s "$CALLS" ]; do sleep 0.1; done
start "$room/checkout/hdminet" second
check "a start beside a build that fails is refused too" refused "hdminet: not built, since"
wait $first
check "as the other is" [ $? = 2 ]

released
start "$room/checkout/hdminet" run x
check "a released program starts" wrote "one run x"
check "and says nothing" lines_of_err 0
check "and calls no rt" [ "$(calls)" = "" ]
check "and writes when the sums were right, and nothing else" [ "$(ls "$room/checkout/crates/hdminet/out")" = released.seen ]
start env PATH="$without_rt" "$room/checkout/hdminet" x
check "it needs no rt" wrote "one x"
check "and says nothing of that" lines_of_err 0
start "$room/second-link" x
check "a symbolic link starts it" wrote "one x"
find "$room/checkout" -exec touch {} +
start "$room/checkout/hdminet" x
check "new times change nothing" wrote "one x"
cp -R "$room/checkout" "$room/else where/copy"
start env LC_ALL=C.UTF-8 "$room/else where/copy/hdminet" x
check "nor does another place or language" wrote "one x"
echo more > "$room/checkout/crates/low_tests/src/lib.rt"
printf 'hdminet: low arrayvec\n\nlow: arrayvec\nlow_tests: low arrayvec\n' > "$room/checkout/crates.txt"
start "$room/checkout/hdminet" x
check "nor do tests, or the order of crates.txt" wrote "one x"
check "all that calls no rt" [ "$(calls)" = "" ]
start "$room/checkout/hdminet" --prove x
check "--prove with another word is the program's" wrote "one --prove x"

source_is two
start env PATH="$without_rt" "$room/checkout/hdminet" x
check "a released program of other sources is not started" changed
start "$room/checkout/hdminet" run x
check "and nothing is built in its place" changed
mkdir -p "$room/checkout/crates/low/out/incremental"
start "$room/checkout/hdminet" run x
check "nor over a developer's checks" changed
rm -r "$room/checkout/crates/low/out" "$room/checkout/crates/hdminet/out"
echo > "$room/checkout/crates/hdminet/out"
start "$room/checkout/hdminet" run x
check "which it says where nothing can be written too" changed
rm "$room/checkout/crates/hdminet/out"
start "$room/checkout/hdminet" --prove
check "--prove builds it" says "hdminet: the released program was built of other sources"
rm "$CALLS"
start "$room/checkout/hdminet" x
check "what it built is started" wrote "two x"
check "without a build" [ "$(calls)" = "" ]
check "and says nothing then" lines_of_err 0
source_is one
rm -rf "$room/checkout/crates/hdminet/out"
start "$room/checkout/hdminet" x
check "the sources as they were start it again" wrote "one x"
source_is two
touch -d 2001-01-01 "$room/checkout/crates/hdminet/src/main.rt"
start env PATH="$without_rt" "$room/checkout/hdminet" x
check "a changed source with an old time is seen after that" changed
source_is one
start "$room/checkout/hdminet" x
check "and the source as it was too" wrote "one x"
check "without a build" [ "$(calls)" = "" ]
for change in "crates/low/src/new.rt" "crates/low/specs/Lib.antt" "crates/hdminet/proofs/f/Proof.antt"; do
  released
  mkdir -p "$(dirname "$room/checkout/$change")"
  echo more > "$room/checkout/$change"
  start "$room/checkout/hdminet" x
  check "a new file $change is a change" changed
done
released
mv "$room/checkout/crates/low/src/lib.rt" "$room/checkout/crates/low/src/other.rt"
start "$room/checkout/hdminet" x
check "so is a file under another name" changed
released
sed -i 's/^low: arrayvec/low: arrayvec hex/' "$room/checkout/crates.txt"
start "$room/checkout/hdminet" x
check "and another line of a crate" changed

released
source_is two
echo 2 > "$SLOW"
"$room/checkout/hdminet" --prove > "$room/first" 2> "$room/first.err" &
first=$!
until [ -s "$CALLS" ]; do sleep 0.1; done
start "$room/checkout/hdminet" x
check "a start beside --prove waits" says "hdminet: another start builds it; waiting for that"
check "and starts what that built" wrote "two x"
wait $first

released
start "$room/checkout/hdminet" x
echo 'echo wrong' >> "$room/checkout/release/hdminet"
start "$room/checkout/hdminet" x
check "a program with a wrong sum is never started" wrote "one x"
check "and it says why" says "hdminet: the released program is not started: it does not have the sum that stands beside it"
for file in hdminet.sha256 built-of; do
  released
  : > "$room/checkout/release/$file"
  start "$room/checkout/hdminet" x
  check "nor is one with an empty $file" [ "$(calls)" = 1 ]
  rm "$room/checkout/release/$file"
  rm -rf "$room/checkout/crates/hdminet/out"
  start "$room/checkout/hdminet" x
  check "nor is one without" [ "$(calls)" = 2 ]
done
released
chmod -x "$room/checkout/release/hdminet"
start "$room/checkout/hdminet" x
check "nor is one that may not be executed" says "hdminet: the released program is not started: it may not be executed here"
released
start env OSTYPE=linux-musl "$room/checkout/hdminet" x
check "nor on another system" says "hdminet: the released program is not started: it is for Linux on x86-64"

released
start "$room/checkout/hdminet" --prove
check "--prove gives the released program" [ "$status" = 0 ]
check "and says so" says "hdminet: it is the released program to the byte: SHA-256 $(sha256sum < "$room/checkout/release/hdminet" | cut -d' ' -f1)"
check "and tells each crate" says "crate 2 of 2 is proved: hdminet (6 functions so far"
check "it proves from nothing" [ "$(cat "$CALLS")" = "$anew" ]
check "and leaves nothing of that" [ -z "$(ls -A "$TMPDIR")" ]
start "$room/checkout/hdminet" x
check "what it built starts" wrote "one x"
check "and says nothing" lines_of_err 0
start "$room/second-link" --prove
check "--prove proves again what is built" [ "$(cat "$CALLS")" = "$anew"$'\n'"$anew" ]
check "through a link too" [ "$status" = 0 ]

echo ' of another kit' > "$OTHER"
start "$room/checkout/hdminet" --prove
check "--prove gives another program" [ "$status" = 1 ]
check "and says so" says "hdminet: it is not the released program. Their SHA-256 are"
check "with its own sum" says "$(sha256sum < "$room/checkout/crates/hdminet/out/hdminet" | cut -d' ' -f1)  $room/checkout/crates/hdminet/out/hdminet"
check "and the released one's" says "$(sha256sum < "$room/checkout/release/hdminet" | cut -d' ' -f1)  $room/checkout/release/hdminet"
start "$room/checkout/hdminet" x
check "what was proved here goes before what was released" wrote "one of another kit x"
start "$room/checkout/tools/release" --check
check "a check of the release finds the other program" [ "$status" = 1 ]
start "$room/checkout/tools/release" --check "$room/checkout/release/hdminet"
check "and takes the same one" wrote "release: its program is the one that was built"
sed -i 's/kit 1/kit 0/' "$room/checkout/release/built-of"
start "$room/checkout/hdminet" --prove
check "--prove names another toolchain" says "hdminet: the released program was built by another toolchain, kit 0 of this test"
start "$room/checkout/tools/release" --check
check "a check of the release finds another program of another toolchain" [ "$status" = 1 ]
check "and names that" grep -q ', and was built by another toolchain, kit 0 of this test$' "$room/out"
start "$room/checkout/tools/release" --check "$room/checkout/release/hdminet"
check "and takes the same one of another toolchain" wrote "release: its program is the one that was built"
rm "$OTHER"

source_is broken
start "$room/checkout/hdminet" --prove
check "--prove refuses a broken source" refused "error: the sources of hdminet are broken"
check "and says which crate failed" says "hdminet: not built, since the crate hdminet failed."
source_is two
start "$room/checkout/hdminet" --prove
check "other sources give another program" [ "$status" = 1 ]
check "and it says that they are others" says "hdminet: the released program was built of other sources"
start "$room/checkout/tools/release" --check
check "a check of the release takes other sources" wrote "release: it was built of other sources"
start env PATH="$without_rt" "$room/checkout/hdminet" --prove
check "--prove needs an rt" refused "hdminet: not proved, and there is no rt to build it"

checkout
start "$room/checkout/hdminet" --prove
check "--prove without a release" [ "$status" = 1 ]
check "says that there is none" says "hdminet: there is no released program in $room/checkout/release"
start "$room/checkout/tools/release" --check
check "a check takes that there is none" wrote "release: there is none"
start "$room/checkout/tools/release"
check "a release is made of what was built" [ "$status" = 0 ]
start "$room/checkout/tools/release" --check
check "and is that to the byte" wrote "release: its program is the one that was built"
check "with its toolchain" grep -qx "toolchain kit 1 of this test" "$room/checkout/release/built-of"
check "and a sum that sha256sum takes" eval '(cd "$room/checkout/release" && sha256sum --status -c hdminet.sha256)'
echo wrong >> "$room/checkout/release/hdminet"
start "$room/checkout/tools/release" --check
check "a check finds a wrong sum" [ "$status" = 1 ]
source_is two
start "$room/checkout/tools/release"
check "no release is made of an older program" [ "$status" = 2 ]

checkout
touch "$REFUSING"
start "$room/checkout/hdminet" x
check "a first start says that rt refused its arguments" refused_by_rt ci
start "$room/checkout/hdminet" --prove
check "so does --prove" refused_by_rt ci
check "and leaves nothing of that" [ -z "$(ls -A "$TMPDIR")" ]
mkdir -p "$room/checkout/crates/low/out/incremental"
start "$room/checkout/hdminet" x
check "so does a start over a developer's checks" refused_by_rt "all test --jobs"
rm "$REFUSING"
start "$room/checkout/hdminet" x
check "once rt takes them it is built" wrote "one x"

end
