#!/usr/bin/env bash
# library.sh DIR [PROGRAM]: tests what tools/library has installed under DIR, over C and Python, and with PROGRAM, the
# program as it is built, that traces, edges, readings, reports and texts are the program's. The last line is
# 'library: N passed, M failed'. With no DIR it tests what needs no library: the headers, that the C files compile, and what
# tools/library asks of rt and installs, and what tools/release makes of it, with a stand-in for the toolchain that takes the words
# of one kit or of another.
#
# $CC is the C compiler, cc where there is none. $HDMINET_RUN is what stands before a program that it has built, as
# 'qemu-aarch64 -L /usr/aarch64-linux-gnu' for CC=aarch64-linux-gnu-gcc; nothing is called from Python then.
# $HDMINET_FRAMES is how many random frames are taken, $HDMINET_SESSIONS how many random sessions, $HDMINET_KINDS which kinds of device a pin in Python is tested as.
set -u
tests=library
source "$(dirname "${BASH_SOURCE[0]}")/counted.bash"
count=${HDMINET_FRAMES:-200000}
cc=${CC:-cc}
run=${HDMINET_RUN:-}
kinds=${HDMINET_KINDS:-tv switch}

# A line of the test, and the figures that its command prints.
figures() { line "$@"; grep -E '(each|bytes|of stack)$' "$room/log"; }

compiles() { $cc -std=c11 -Wall -Wextra -Werror -fsyntax-only -I "$top/include" "$1"; }

line "headers, exports and Python" "$top/tools/library-matches"
# examples/c/gpio.c is for Linux from 5.10 on.
has_pins() { echo 'struct gpio_v2_line_event event;' | $cc -include linux/gpio.h -fsyntax-only -x c - 2> /dev/null; }
for file in "$top"/examples/c/*.c "$top"/tests/library*.c "$top"/tools/library*.c; do
  [[ $file == *gpio.c ]] && ! has_pins || line "$(basename "$file") compiles" compiles "$file"
done

# What the room says of the frame to examples/c/follower.c, whose interrupts come so late.
follows() {
  $cc -std=c11 -O2 -Wall -Wextra -Werror -o "$room/follower" "$top/examples/c/follower.c" && HDMINET="$top/release/hdminet" $run "$room/follower" "$1" \
    < "$top/examples/c/follower.net" > "$room/written" && grep '^1000000 ' "$room/written" | grep -F -- "$2"
}
if [ -z "$run" ]; then
  line "follower.c, whose interrupts are 300 late, acknowledges" follows 300 'complete 4>8 give-osd-name ack by p1 out -'
  line "follower.c, whose interrupts are 700 late, breaks the frame" follows 700 'short 010010000 by p1 out -'
fi

# A library of another major version, or with none, is refused by its version; one of a lesser minor version has no sessions.
of_version() {
  local number=$1 said=$2
  echo "unsigned hdminet_version(void) { return $number; }" > "$room/version.c"
  [ -n "$number" ] || echo 'unsigned hdminet_other(void) { return 0; }' > "$room/version.c"
  $cc -shared -fPIC -o "$room/version.so" "$room/version.c" &&
    [ "$(HDMINET_LIBRARY="$room/version.so" PYTHONDONTWRITEBYTECODE=1 PYTHONPATH="$top/python" python3 - 2>&1 << 'PY'
try:
    import hdminet
except ImportError as old:
    print("%s: %s" % (type(old).__name__, str(old).rpartition(" has ")[2]))
else:
    print(hdminet.library_version(), hdminet.calls.has_sessions())
PY
    )" = "$said" ]
}
if [ -z "$run" ]; then
  here=$(sed -n 's/^#define HDMINET_VERSION //p' "$top/include/hdminet_wire.h")
  for number in '' 999 2000 1999999; do
    line "a library of version ${number:-0} is refused" of_version "$number" "OldLibrary: version ${number:-0}, and this module is of version $here"
  done
  line "one without sessions is taken" of_version 1000 '1000 False'
fi

# A checkout with the two crates of exports, and one below them.
make_checkout() {
  local here=$room/checkout crate
  mkdir -p "$here/tools" "$here/crates/low_tests/src" "$here/crates/cli_command/src"
  cp "$top/tools/library" "$top"/tools/*.bash "$here/tools" && cp -R "$top/include" "$top/python" "$here" || return 1
  # (a line of its own compares the headers with the crates)
  printf '#!/bin/sh\n' > "$here/tools/library-matches"
  chmod +x "$here/tools/library-matches"
  echo 'Handles allowed: none.' > "$here/HANDLES"
  printf 'low: arrayvec\nlow_tests: low\nhdminet_wire staticlib: low\nhdminet_c staticlib: hdminet_wire low\nhdminet_command: low\n' > "$here/crates.txt"
  echo '    .version("1.0.0")' > "$here/crates/cli_command/src/choice.rt"
  for crate in low hdminet_wire hdminet_c; do
    mkdir -p "$here/crates/$crate/src" "$here/crates/$crate/must-fail"
    echo law > "$here/crates/$crate/src/lib.rt"
  done
}

# A stand-in for the toolchain: `rt ci` proves whatever it is given, or nothing where there is a file $BROKEN, and its compiler
# makes an archive with one function. It notes what rt is asked. The words that the kit $KIT lacks are refused as rt does, with its
# usage and status 2; where there is a file $REFUSING all are.
make_kit() {
  local kit=$room/kit
  mkdir -p "$kit/bin" "$kit/c" "$kit/toolchain/bin" "$room/tmp"
  cat > "$kit/bin/rt" << 'RT'
#!/usr/bin/env bash
case $1 in
  version) echo "kit 1 of this test" && exit ;;
  doc) echo "$(dirname "$(dirname "$0")")/START-HERE.md" && exit ;;
esac
echo "$*" >> "$CALLS"
case $KIT:$* in
  13b:ci | 13f:ci | 13f:ci\ --anew) [ ! -f "$REFUSING" ] ;;
  *) false ;;
esac || { cat "$USAGE" >&2; exit 2; }
[ -d .git ] && [ -f HANDLES ] && ! ls -d crates/*/{out,must-fail,wrong-bodies} 2> /dev/null &&
  [ "$(ls crates | tr '\n' ' ')" = "hdminet_c hdminet_wire low " ] && [ "$(sed 's/[ :].*//' crates.txt | sort)" = "$(ls crates)" ] || exit 2
if [ -f "$BROKEN" ]; then
  printf 'rt: line_wave NOT PROVED\n0 passed, 1 failed\n'
  exit 1
fi
[ "$KIT" = 13b ] || kept='; done in this run: 1 of the proofs'
echo "rt: ok; handles allowed: none$kept"
RT
  cat > "$kit/bin/rattle" << 'RATTLE'
#!/usr/bin/env bash
while [ $# -gt 0 ]; do
  case $1 in
    --crate-name) crate=$2 ;;
    --target) target=$2 ;;
    -o) made=$2 ;;
  esac
  shift
done
echo "int $crate(void) { return 0; }" > "$crate.c"
$STUB_CC -fPIC -c -o "$crate.o" "$crate.c" && ar rcs "$made" "$crate.o" && echo "logic=proved functions=1 target=$target sum=0"
RATTLE
  printf '#!/bin/sh\nexec ar "$@"\n' > "$kit/toolchain/bin/llvm-ar"
  chmod +x "$kit"/bin/* "$kit/toolchain/bin/llvm-ar"
  echo 'int heap(void) { return 0; }' > "$room/heap.c"
  $cc -fPIC -c -o "$room/heap.o" "$room/heap.c" && ar rcs "$kit/c/liblibc_c.a" "$room/heap.o"
}

# Runs tools/library with that stand-in, and with these words before its folder.
ask_library() {
  rm -rf "$room/installed" "$CALLS"
  PATH="$room/kit/bin:$PATH" TMPDIR="$room/tmp" "$room/checkout/tools/library" "$@" "$room/installed" > "$room/said" 2> "$room/said.err"
}

# Whether it installs a library, asks rt for no more than this, and says this of the proofs.
installs() {
  local asked=$1 proofs=$2
  shift 2
  ask_library "$@" && [ "$(cat "$CALLS")" = "$asked" ] &&
    [ "$(head -n 1 "$room/said")" = "library: rt ci over 3 crates: $proofs" ] &&
    cmp "$top/include/hdminet.h" "$room/installed/include/hdminet.h" && [ -s "$room/installed/lib/libhdminet_wire.a" ] &&
    [ -s "$room/installed/lib/libhdminet.a" ] && [ -s "$room/installed/lib/libhdminet.so" ] && [ -z "$(ls -A "$room/tmp")" ]
}

# Whether it stops with these lines on standard error, and installs nothing.
stops() {
  local said=$1
  shift
  ! ask_library "$@" && [ "$(cat "$room/said.err")" = "$said" ] && [ ! -e "$room/installed/lib" ] && [ -z "$(ls -A "$room/tmp")" ]
}

export CALLS="$room/calls" BROKEN="$room/broken" REFUSING="$room/refusing" STUB_CC="$cc" USAGE="$top/tests/rt-usage.txt" KIT
line "a checkout and a stand-in for the toolchain" eval 'make_checkout && make_kit'
for KIT in 13b 13f; do
  proofs=passed anew=$'ci --anew\nci'
  [ $KIT = 13b ] || { proofs='done in this run: 1 of the proofs' && anew='ci --anew'; }
  line "tools/library with the words of kit $KIT" installs ci "$proofs"
  line "tools/library --anew with the words of kit $KIT" installs "$anew" "$proofs" --anew
  touch "$BROKEN"
  for flag in "" --anew; do
    line "tools/library $flag where a crate is not proved, with the words of kit $KIT" \
      stops $'rt: line_wave NOT PROVED\n0 passed, 1 failed\nlibrary: the crates were not proved' $flag
  done
  rm "$BROKEN"
  touch "$REFUSING"
  for flag in "" --anew; do
    line "tools/library $flag where rt refuses its arguments, with the words of kit $KIT" \
      stops "library: rt refused its own arguments: rt ci. No proof failed: this kit, kit 1 of this test, takes other ones" $flag
  done
  rm "$REFUSING"
done

# Runs tools/release in that checkout, of a program that is a stand-in, with these words.
ask_release() {
  PATH="$room/kit/bin:$PATH" TMPDIR="$room/tmp" "$room/checkout/tools/release" "$@" > "$room/said" 2> "$room/said.err"
}
# Whether it says these two lines of a release, after a program of its own, with this status.
finds() {
  local status=$1 of_program=$2 of_library=$3
  shift 3
  ask_release --check "$room/program" "$@"
  [ $? = "$status" ] && [ "$(cat "$room/said")" = "release: $of_program"$'\n'"release: $of_library" ]
}
# A library that tools/library has installed, of the same checkout, is the released one.
releases() {
  cp "$top/tools/release" "$room/checkout/tools" && grep -q '^hdminet:' "$room/checkout/crates.txt" ||
    { echo 'hdminet: low' >> "$room/checkout/crates.txt" && mkdir -p "$room/checkout/crates/hdminet/src" && cp "$(type -P true)" "$room/program"; } || return 1
  rm -rf "$room/checkout/release" "$CALLS"
  ask_release "$room/program" && [ "$(cat "$CALLS")" = ci ] && (cd "$room/checkout/release" && sha256sum --status -c library.sha256 hdminet.sha256) &&
    [ "$(cd "$room/checkout/release" && find . -type f | LC_ALL=C sort | tr '\n' ' ')" = "$RELEASED" ] &&
    [ "$(stat -c %a "$room/checkout/release/lib/libhdminet.so")" = 644 ] && [ -z "$(ls -A "$room/tmp")" ] &&
    finds 0 "$SAME" "its library was built of these sources" && ask_library && finds 0 "$SAME" "its library is the one in $room/installed" "$room/installed"
}
# A folder's library is released as it stands, and rt is asked for nothing.
releases_a_folder() {
  rm -rf "$room/checkout/release" "$CALLS"
  ask_release "$room/program" "$room/installed" && [ ! -e "$CALLS" ] && finds 0 "$SAME" "its library is the one in $room/installed" "$room/installed" &&
    ! ask_release "$room/program" "$room/kit" && [ "$(cat "$room/said.err")" = "release: there is no lib/libhdminet_wire.a in $room/kit" ] && [ -d "$room/checkout/release/lib" ]
}
# What else differs is found, and told apart.
finds_others() {
  local here=$room/checkout
  echo >> "$room/installed/lib/libhdminet.a"
  finds 1 "$SAME" "its lib/libhdminet.a is not the one in $room/installed" "$room/installed" || return 1
  sed -i 's/kit 1/kit 0/' "$here/release/library-built-of"
  finds 1 "$SAME" "its lib/libhdminet.a is not the one in $room/installed, and was built by another toolchain, kit 0 of this test" "$room/installed" || return 1
  echo >> "$here/include/hdminet.h"
  finds 1 "$SAME" "its include/hdminet.h is not the one that stands here" || return 1
  echo changed >> "$here/crates/low/src/lib.rt"
  finds 0 "it was built of other sources" "its library was built of other sources" || return 1
  echo >> "$here/release/include/hdminet_wire.h"
  finds 1 "it was built of other sources" "its library does not have the sums that stand beside it" || return 1
  rm -r "$here/release/lib"
  finds 0 "it was built of other sources" "there is no library" || return 1
  cp "$top/include/hdminet.h" "$here/include"
}
# Where the library is not proved, the release stays as it was.
releases_nothing() {
  cp -R "$room/checkout/release" "$room/before" && touch "$BROKEN"
  ask_release "$room/program" && return 1
  rm "$BROKEN"
  [ "$(tail -n 1 "$room/said.err")" = "release: no library was made: nothing is released" ] && diff -r "$room/before" "$room/checkout/release" && rm -r "$room/before"
}
SAME="its program is the one that was built"
RELEASED="./built-of ./hdminet ./hdminet.sha256 ./include/hdminet.h ./include/hdminet_wire.h ./lib/libhdminet.a ./lib/libhdminet.so ./lib/libhdminet_wire.a ./library-built-of ./library.sha256 "
for KIT in 13b 13f; do
  line "tools/release with the words of kit $KIT" releases
  line "tools/release of a library that is given, with the words of kit $KIT" releases_a_folder
  line "tools/release where no library is proved, with the words of kit $KIT" releases_nothing
  line "tools/release --check of what differs, with the words of kit $KIT" finds_others
done

# Links a program with libhdminet_wire.a, or with libhdminet.a.
link() {
  local name=$1 library=$2
  shift 2
  $cc -std=c11 -O2 -Wall -Wextra -ffunction-sections -I "$at/include" -o "$room/$name" "$@" -L "$at/lib" -Wl,--gc-sections \
    -Wl,-Bstatic "$library" -Wl,-Bdynamic -lpthread
}

# The names that an archive or a shared library gives, or of an archive those that it asks for.
given() { nm -g --defined-only "$@" | sed -n 's/^[0-9a-f]* [TDBR] //p' | sort -u; }
asked() { comm -23 <(nm -g --undefined-only "$1" | sed -n 's/^ *U //p' | sort -u) <(given "$1"); }
declared() { sed -n 's/^[a-z].* \**\(hdminet_[a-z_]*\)(.*/\1/p' "$@" | sort -u; }
# Whether two lists have the same names, and whether the second has none that the first has not.
same() { diff <(printf '%s\n' $1 | sort -u) <(printf '%s\n' $2 | sort -u); }
within() { ! comm -13 <(printf '%s\n' $1 | sort -u) <(printf '%s\n' $2 | sort -u) | grep .; }
wire_names() {
  same "$(declared "$at/include/hdminet_wire.h")" "$(given "$at/lib/libhdminet_wire.a")" &&
    within "memcpy memmove memset" "$(asked "$at/lib/libhdminet_wire.a")"
}
all_names() {
  local names
  names=$(declared "$at/include/hdminet_wire.h" "$at/include/hdminet.h")
  same "$names rattle_alloc rattle_realloc rattle_dealloc" "$(given "$at/lib/libhdminet.a")" &&
    within "memcpy memmove memset malloc realloc free" "$(asked "$at/lib/libhdminet.a")" &&
    same "$names rattle_alloc rattle_realloc rattle_dealloc" "$(given -D "$at/lib/libhdminet.so")"
}

small() {
  strip=${cc%gcc}strip
  command -v "$strip" > /dev/null || strip=strip
  "$strip" -o "$room/stripped" "$room/receiver" && local size && size=$(stat -c %s "$room/stripped") &&
    echo "receiver.c with the library, stripped: $size bytes" && [ "$size" -lt 200000 ]
}

bare() {
  $cc -O2 -ffreestanding -nostdlib -static -fno-stack-protector -I "$at/include" -o "$room/bare" "$top/examples/c/bare.c" \
    -L "$at/lib" -lhdminet_wire && [ "$($run "$room/bare")" = "4>f active-source 1.0.0.0" ]
}

# A program that finds the library by pkg-config, and the shared one at its start.
packaged() {
  local words
  words=$(PKG_CONFIG_PATH="$at/lib/pkgconfig" pkg-config --cflags --libs hdminet) &&
    $cc -std=c11 -O2 -o "$room/shared" "$top/examples/c/emulate.c" $words &&
    LD_LIBRARY_PATH="$at/lib" "$room/shared" < "$top/examples/first-path.net" | cmp - "$top/examples/first-path.trace" &&
    words=$(PKG_CONFIG_PATH="$at/lib/pkgconfig" pkg-config --cflags --libs hdminet_wire) &&
    $cc -std=c11 -O2 -o "$room/packaged" "$top/examples/c/receiver.c" $words &&
    "$room/packaged" < "$top/examples/capture.edges" | cmp - "$top/examples/capture.readings"
}

# What a program writes and the file, or what the second program writes, are the same. The status of a report with a test
# that failed is 1.
writes() { local file=$1; shift; "$@" > "$room/written"; [ $? -le 1 ] && cmp "$room/written" "$file"; }
writes_as_program() {
  local input=$1 word=$2 status
  shift 2
  $run "$room/emulate" "$word" < "$input" > "$room/written"
  status=$?
  "$program" "$@" < "$input" > "$room/due"
  [ $? = $status ] && [ -s "$room/due" ] && cmp "$room/written" "$room/due"
}

# The readings of the edges of an example, by examples/c/receiver.c, and by examples/c/gpio.c, which prints no bits and
# not what is open at the end, at instants of a clock.
readings() {
  "$program" run --edges < "$1" > "$room/edges" && "$program" mon < "$room/edges" > "$room/readings" && [ -s "$room/readings" ] &&
    $run "$room/receiver" < "$room/edges" | cmp - "$room/readings"
}
at_the_clock() {
  $run "$room/gpio" "$1" 17 > "$room/written"
  [ $? = 1 ] && [ -s "$room/written" ] && diff <(awk '{ $2 -= $1; $1 = $1 - 3600000000; print }' "$room/written") \
    <(awk '$3 != "open" { if ($3 != "complete") NF = 3; $2 -= $1; print }' "$2")
}

# The program reads the texts of the random frames as the library has written them, in parts that it takes at once.
frames_of_the_program() {
  local part
  split -l 9000 "$room/texts" "$room/texts." && split -l 9000 "$room/dumps" "$room/dumps." && [ -s "$room/texts.aa" ] || return 1
  for part in "$room"/texts.??; do
    "$program" asm < "$part" > "$room/written" && cmp "$room/written" "${part/texts/dumps}" || return 1
    # (`dis` has a remark after raw operands that the standard has words for)
    "$program" dis < "${part/texts/dumps}" > "$room/written" && sed 's/ # [a-z0-9.-]*$//' "$room/written" | cmp - "$part" || return 1
  done
}

# The tests of suite/ over examples/c/pin.c, whose interrupts come so late, by four programs at a time.
over_pin() { local latency=$1; shift; "$top/tools/suite" --program "$program" --dut "$run $room/pin $latency" --kind player --without deck --without menu --without remote "$@"; }
all_over_pin() {
  export -f over_pin
  export top program run room
  "$top/tools/suite" --list | cut -f 1 | xargs -P 4 -n 30 bash -c 'over_pin "$@"' over_pin "$1"
}
# The reference device by its pin, over the Python module.
python_pin() {
  "$top/tools/suite" --list | cut -f 1 | PYTHONDONTWRITEBYTECODE=1 PYTHONPATH="$at/python" HDMINET_LIBRARY="$at/lib/libhdminet.so" \
    xargs -P 4 -n 30 "$top/tools/suite" --program "$program" --dut "$top/tests/suite/pinned.py 100" --kind "$1"
}
# The firmware of follower.c by sessions of the library has the trace that it has by those of the program.
follower_of_library() {
  link follower-library -lhdminet "$top/examples/c/follower.c" -DCEC_LIBRARY && $cc -std=c11 -O2 -o "$room/follower" "$top/examples/c/follower.c" || return 1
  local latency
  for latency in 1 300 500 700; do
    HDMINET=$program $run "$room/follower" $latency < "$top/examples/c/follower.net" > "$room/due" && [ -s "$room/due" ] &&
      $run "$room/follower-library" $latency < "$top/examples/c/follower.net" | cmp - "$room/due" || return 1
  done
}
# Valgrind finds no fault in the calls of sessions, and no memory that is lost.
is_clean() { valgrind -q --error-exitcode=9 --leak-check=full --show-leak-kinds=all "$room/library-live" 3; }
acknowledges() { over_pin "$1" "$top/tests/suite/two-players.test"; }
# Who acknowledges a 1 that is low for 600 begins before it rises: later it is another bit, which comes too early.
breaks_the_acknowledge() {
  ! over_pin "$1" "$top/tests/suite/two-players.test" poll-acknowledged > "$room/written" && [ "$(grep -c '^not ok' "$room/written")" = 2 ] &&
    ! grep '^# the device under test' "$room/written" && [ "$(grep -c '^# [0-9 ]* short 000001001 by tv out -$' "$room/written")" -gt 10 ]
}

. "$top/tools/home.bash"
if [ $# -ge 1 ] && [ "$(library_version "$1")" != "$(library_version "$top")" ]; then
  echo "library: the library in $1 has version $(library_version "$1"), and its headers here $(library_version "$top"): it is left out"
elif [ $# -ge 1 ]; then
  at=$(cd "$1" && pwd) || exit 2
  program=${2:-}
  line "what libhdminet_wire.a gives and asks for" wire_names
  line "what libhdminet.a and libhdminet.so give and ask for" all_names
  line "library.c links" link library -lhdminet_wire "$top/tests/library.c"
  figures "library.c" $run "$room/library" "$top/examples/living-room.edid" "$top/examples/living-room.edid.txt" "$count" "$room/texts" "$room/dumps"
  line "library-run.c links" link library-run -lhdminet "$top/tests/library-run.c" -Wl,--wrap={malloc,realloc}
  line "library-run.c" $run "$room/library-run" "$top"/examples/lg-oled55b6v.{edid,edid.txt,findings,meaning}
  line "library-live.c links" link library-live -lhdminet "$top/tests/library-live.c" -Wl,--wrap={malloc,realloc}
  line "library-live.c" $run "$room/library-live"
  [ -n "$run" ] || ! command -v valgrind > /dev/null || line "library-live.c under valgrind" is_clean
  line "library-stack.c links" link library-stack -lhdminet "$top/tests/library-stack.c"
  figures "library-stack.c" $run "$room/library-stack" "$top/examples/living-room.edid"
  line "receiver.c links" link receiver -lhdminet_wire "$top/examples/c/receiver.c"
  figures "its size" small
  line "receiver.c on capture.edges" writes "$top/examples/capture.readings" $run "$room/receiver" < "$top/examples/capture.edges"
  if has_pins; then
    line "gpio.c links" link gpio -lhdminet_wire "$top/examples/c/gpio.c" "$top/tests/library-gpio.c" -Wl,--wrap={open,ioctl,poll,read,clock_gettime}
    line "gpio.c on capture.edges" at_the_clock "$top/examples/capture.edges" "$top/examples/capture.readings"
  fi
  line "bare.c, with no C library" bare
  line "emulate.c links" link emulate -lhdminet "$top/examples/c/emulate.c"
  for net in "$top"/examples/*.net; do
    line "the trace of $(basename "$net")" writes "${net%.net}.trace" $run "$room/emulate" trace < "$net"
  done
  for test in "$top"/examples/*.report "$top"/examples/*.failures; do
    line "$(basename "$test")" writes "$test" $run "$room/emulate" check < "${test%.*}.test"
  done
  if [ -z "$run" ]; then
    line "by pkg-config" packaged
    figures "library.py" env HDMINET_RECEIVER="$room/receiver" PYTHONPATH="$at/python" HDMINET_LIBRARY="$at/lib/libhdminet.so" \
      python3 "$top/tests/library.py" "$top" "$count" "$program"
    line "watch.py" writes "$top/examples/capture.readings" env PYTHONPATH="$at/python" python3 "$top/examples/python/watch.py" < "$top/examples/capture.edges"
  fi
  if [ -n "$program" ] && [ -z "$run" ]; then
    for kind in $kinds; do line "a pin in Python, as a $kind" python_pin "$kind"; done
    line "random sessions, as the program's" "$top/tests/sessions.py" "${HDMINET_SESSIONS:-200}" "$at" "$program"
    line "follower.c by the library's sessions" follower_of_library
  fi
  if [ -n "$program" ]; then
    line "dut.c links" link dut -lhdminet_wire "$top/examples/c/dut.c"
    line "dut.c, a device under test" "$top/tools/suite" --program "$program" --dut "$run $room/dut" --kind player --without deck --without menu --without remote
    line "pin.c links" link pin -lhdminet_wire "$top/examples/c/pin.c"
    for latency in 1 20 100 150 300; do
      line "pin.c, whose interrupts are $latency late, a device under test" all_over_pin $latency
    done
    for latency in 1 100 300 600; do line "pin.c, whose interrupts are $latency late, and a player" acknowledges $latency; done
    for latency in 601 700; do line "pin.c, whose interrupts are $latency late, breaks the acknowledge" breaks_the_acknowledge $latency; done
    line "the random frames, read by the program" frames_of_the_program
    for net in "$top"/examples/*.net; do
      name=$(basename "$net")
      line "the program's trace of $name" writes_as_program "$net" trace run
      line "the program's edges of $name" writes_as_program "$net" edges run --edges
      line "the program's report of $name" writes_as_program "$net" check check
      line "the readings of $name" readings "$net"
      ! has_pins || line "the readings of $name at a clock" at_the_clock "$room/edges" "$room/readings"
    done
    for test in "$top"/examples/*.test; do line "the program's report of $(basename "$test")" writes_as_program "$test" check check; done
  fi
fi
end
