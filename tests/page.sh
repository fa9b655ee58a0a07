#!/usr/bin/env bash
# page.sh [PROGRAM [TEST..]]: tests the page (view/, tools/page, tools/look) in a real browser: Debian's chromium, headless.
# Where it is not there it is installed by apt-get; where that can't be, or python3 is not there, this says so and leaves the
# tests out. PROGRAM is the one whose output is shown: crates/hdminet/out/hdminet where it is built, else the released one. The
# last line is 'page: N passed, M failed'. Nothing is left behind but the installed browser, and nothing is asked of a network.
set -u
top=$(cd "$(dirname "${BASH_SOURCE[0]}")/.." && pwd)

leave_out() { echo "page: left out: $*"; exit 0; }

find_browser() { command -v chromium || command -v chromium-browser || command -v google-chrome; }

# Debian's chromium, where this user may install it.
install_browser() {
  [ "$(id -u)" = 0 ] && command -v apt-get > /dev/null || return 1
  echo "page: installs chromium" >&2
  # Where there is no way to a mirror, it ends soon.
  local patience=(-qq -o Acquire::Retries=1 -o Acquire::http::Timeout=20 -o Acquire::https::Timeout=20 -o DPkg::Lock::Timeout=120)
  local install=(timeout 400 apt-get "${patience[@]}" install -y --no-install-recommends chromium)
  export DEBIAN_FRONTEND=noninteractive
  "${install[@]}" > /dev/null 2>&1 ||
    { timeout 200 apt-get "${patience[@]}" update > /dev/null 2>&1 && "${install[@]}" > /dev/null 2>&1; }
}

program=${1:-}
if [ -z "$program" ]; then
  program=$top/crates/hdminet/out/hdminet
  [ -x "$program" ] || program=$top/release/hdminet
fi
[ -x "$program" ] || leave_out "there is no program at $program"
command -v python3 > /dev/null || leave_out "there is no python3"
# The faults that tests/page-faults.py plants stand in view/.
"$top/tests/page-faults.py" --apply || exit 1
# Types: Debian's node-typescript, where it is installed.
if command -v tsc > /dev/null; then
  tsc -p "$top/tests/page.tsconfig.json" || { echo "page: the types of view/ are at fault" >&2; exit 1; }
else
  echo "page: types are not checked: there is no tsc (node-typescript)"
fi
browser=$(find_browser) || { install_browser && browser=$(find_browser); } ||
  leave_out "there is no chromium, and it can't be installed here"

room=$(mktemp -d)
tests=
# Where this is stopped, the tests are too, and they end their browser.
stop() {
  [ -z "$tests" ] || { kill "$tests" 2> /dev/null; wait "$tests"; }
  rm -rf "$room"
}
trap stop EXIT
trap 'exit 130' INT
trap 'exit 143' TERM
limit=900 # seconds
[ -z "${HDMINET_MANY:-}" ] || limit=7200
TMPDIR=$room HDMINET=$program PYTHONDONTWRITEBYTECODE=1 timeout "$limit" python3 "$top/tests/page.py" "$browser" "$room" "${@:2}" &
tests=$!
wait "$tests"
status=$?
tests=
exit $status
