#!/usr/bin/env bash
# progress.sh [PROGRAM]: tests what `check --progress` writes on standard error while a sweep runs, and that its standard output and its
# status are those without the flag. PROGRAM is crates/hdminet/out/hdminet where none is given, as `rt ci` builds it. The last line is
# 'progress: N passed, M failed'.
set -u
tests=progress
source "$(dirname "${BASH_SOURCE[0]}")/counted.bash"
program=${1:-$top/crates/hdminet/out/hdminet}
[ -x "$program" ] || { echo "progress: no program at $program" >&2; exit 2; }

# A test whose key is pressed in each microsecond from 5000000 on, so many later at most: the frame begins as the key is pressed, and
# its last acknowledge is sampled 4500 + 19 * 2400 + 1050 later, so the expectation holds up to 5001500.
swept() {
  printf '%s\n' 'device tv tv 4' 'device p1 player 0' 'plug p1 tv 1' script "at 5000000..$((5000000 + $1)) press p1 play" \
    'expect from 5000000 to 5052650 4>0 image-view-on ack' 'end 6000000'
}

# Whether a sweep writes this on standard error, and in the rest does as without the flag, with this status.
says() {
  local status=$1 due=$2 quiet
  "$program" check < "$room/test" > "$room/plain" 2> /dev/null
  quiet=$?
  "$program" check --progress < "$room/test" > "$room/out" 2> "$room/err"
  [ $? = "$status" ] && [ "$quiet" = "$status" ] && cmp -s "$room/plain" "$room/out" && [ "$(grep 'instants' "$room/err")" = "$due" ]
}

told() { echo "hdminet: instants $1 of $2, stretches $3"; }

swept 3200 > "$room/test"
check "after each thousand instants" says 1 "$(told 1000 3201 1; told 2000 3201 2; told 3000 3201 2)"
swept 1000 > "$room/test"
check "as long as there are more" says 0 "$(told 1000 1001 1)"
swept 999 > "$room/test"
check "a thousand and no more" says 0 ""

# Where standard error takes none the sweep goes on.
goes_on() {
  "$program" check < "$room/test" > "$room/plain" 2> /dev/null
  "$program" check --progress < "$room/test" > "$room/out" 2> /dev/full
  [ $? = 1 ] && cmp -s "$room/plain" "$room/out"
}
swept 3200 > "$room/test"
check "where standard error is full" goes_on

end
