#!/usr/bin/env bash
# A room as a co-process of the shell: examples/live/room.sh ./hdminet
# Goes on until the player says that it is the source to show, and then asks for the state of the television. The status is 2, after
# a message, where the session ends before that.
set -u
stop() { printf 'room.sh: %s\n' "$1" >&2; exit 2; }
[ $# = 1 ] || stop "usage: $0 PROGRAM"
coproc ROOM { exec "$1" live; }
# Bash forgets ROOM when the session is over, before its last lines are read.
{ exec {to}>&"${ROOM[1]-}" {from}<&"${ROOM[0]-}"; } 2> /dev/null || stop "the session is over"
# A line to a session that is over is a write that fails.
trap '' PIPE

send() { printf '%s\n' "$@" 2> /dev/null >&"$to" || stop "the session is over"; }
# Sends a line, and prints what comes for it, up to its answer.
ask() {
  local line
  send "$1"
  while IFS= read -r line <&"$from"; do
    printf '%s\n' "$line"
    case $line in [=!]*) return ;; esac
  done
  stop "the session is over"
}

send 'device tv tv 4' 'device p1 player 0' 'plug p1 tv 1' script
ask 'at 1000000 press p1 play'
while got=$(ask wait) || exit; do
  printf '%s\n' "$got"
  case $got in
    *active-source*) break ;;
    *idle) stop "nothing comes any more, and the player has not said that it is the source" ;;
  esac
done
ask 'show tv'
ask 'end 2000000'
