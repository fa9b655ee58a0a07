# What the tests in bash share, for the scripts that read this file once they have set `tests`, the word before each of their lines: the
# top of the checkout, a folder `room`, which goes at the end, and the count of what passed and of what failed.
top=$(cd "$(dirname "${BASH_SOURCE[0]}")/.." && pwd)
room=$(mktemp -d)
trap 'rm -rf "$room"' EXIT
passed=0
failed=0

# Notes a test that failed.
fails() { failed=$((failed + 1)); echo "$tests: failed: $1"; }

# Counts a test: a name, and a command, whose last lines are shown where it fails.
line() {
  local what=$1
  shift
  if "$@" > "$room/log" 2>&1; then passed=$((passed + 1)); else fails "$what"; tail -n 40 "$room/log"; fi
}

# Counts a test: a name, and a condition that held. Where it did not, what the last command wrote is shown.
check() {
  local name=$1
  shift
  if "$@"; then passed=$((passed + 1)); return; fi
  fails "$name${status:+ (status $status)}"
  sed 's/^/  out: /' "$room/out"
  sed 's/^/  err: /' "$room/err"
}

# Prints the last line, and ends.
end() { echo "$tests: $passed passed, $failed failed"; [ "$failed" = 0 ]; exit; }
