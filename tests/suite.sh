#!/usr/bin/env bash
# suite.sh [PROGRAM]: the tests of suite/ over devices that keep the standard, over the emulator's own, and over devices with one
# slip each (tests/suite.py), over a pin where there is a C compiler, and by `prove` where there is one. The last line is
# 'suite: N passed, M failed'.
set -u
tests=suite
source "$(dirname "${BASH_SOURCE[0]}")/counted.bash"
program=$(readlink -f "${1:-$top/crates/hdminet/out/hdminet}")
[ -x "$program" ] || { echo "suite: no program at $program: ./hdminet --prove builds it" >&2; exit 2; }

# The recipe of docs/suite.md for servers of tests: a test that holds, one that is skipped, and one that fails.
proved() {
  printf '#!/bin/sh\nexec "%s/tools/suite" --program "%s" --dut "%s" --kind player "$1"\n' "$top" "$program" "$top/examples/suite/reference.py" > "$room/dut.sh"
  printf '#!/bin/sh\nexec "%s/tools/suite" --program "%s" --dut true --kind player "$1"\n' "$top" "$program" > "$room/none.sh"
  chmod +x "$room/dut.sh" "$room/none.sh"
  prove -e "$room/dut.sh" "$top/suite/osd-name.test" "$top/suite/arc-start.test" && ! prove -e "$room/none.sh" "$top/suite/osd-name.test"
}

# examples/c/pin.c over the released library, an interrupt of whose pin comes 100 microseconds late: by four programs at a time.
by_pin() {
  cc -std=c11 -O2 -I "$top/release/include" -o "$room/pin" "$top/examples/c/pin.c" -L "$top/release/lib" -l:libhdminet_wire.a &&
    "$top/tools/suite" --list | cut -f 1 | xargs -P 4 -n 30 "$top/tools/suite" --program "$program" --dut "$room/pin 100" \
      --kind player --without deck --without menu --without remote
}

line "the devices" "$top/tests/suite.py" "$program"
[ ! -f "$top/release/lib/libhdminet_wire.a" ] || ! command -v cc > /dev/null || line "a pin in C" by_pin
! command -v prove > /dev/null || line "by prove" proved
end
