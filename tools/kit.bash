# How rt is asked, for the scripts that read this file: a kit of the toolchain may lack words that another has.
#
#   rattle-kit-13f    `rt ci` takes what an earlier one on this machine proved of the same files, and with --anew it takes nothing;
#                     with names of crates it goes through those and the ones below them
#   rattle-kit-13b    `rt ci` proves everything in each run, keeps nothing for the next one, and takes no word more
#
# Words that a kit lacks are refused at once: rt ends with status 2 and its usage, and judges nothing.

# What rt was asked last, where it refused these words; else nothing.
refused=

# Runs rt in a folder, and writes what it says into a file: run_rt FOLDER FILE WORD..
run_rt() {
  local folder=$1 file=$2 status
  shift 2
  refused=
  (cd "$folder" && rt "$@") < /dev/null > "$file" 2>&1
  status=$?
  [ "$status" != 2 ] || ! grep -q '^usage: rt ' "$file" || refused="rt $*"
  return "$status"
}

# Proves each crate of a repository in this run, whatever was proved before: prove_anew FOLDER FILE. Where the kit lacks --anew,
# its `rt ci` does that by itself.
prove_anew() {
  local status
  run_rt "$1" "$2" ci --anew
  status=$?
  [ -n "$refused" ] || return "$status"
  run_rt "$1" "$2" ci
}
