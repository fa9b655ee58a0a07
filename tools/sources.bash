# What the program is built of, for the scripts that read this file. Each function takes the top of a checkout.

# Lists the crates that the program is built of, as their lines of crates.txt: hdminet, or the crates that are named after the
# top, and what has a line and stands below them.
needed_lines() {
  local -A below=() kind=() needed=()
  local -a left=("${@:2}")
  local name names
  [ ${#left[@]} -gt 0 ] || left=(hdminet)
  for name in "${left[@]}"; do needed[$name]=1; done
  while IFS=: read -r name names; do
    [[ $name != [a-z]* ]] || { below[${name%% *}]=$names && kind[${name%% *}]=$name; }
  done < "$1/crates.txt"
  while [ ${#left[@]} -gt 0 ]; do
    names=${below[${left[0]}]-}
    left=("${left[@]:1}")
    for name in $names; do
      # What crates.txt has no line of is a library of the toolchain.
      if [[ -v below[$name] && ! -v needed[$name] ]]; then
        needed[$name]=1
        left+=("$name")
      fi
    done
  done
  for name in "${!needed[@]}"; do printf '%s:%s\n' "${kind[$name]-$name}" "${below[$name]-}"; done
}

# Lists the names of those crates.
needed_crates() {
  local name names
  while IFS=: read -r name names; do printf '%s\n' "${name%% *}"; done < <(needed_lines "$@")
}

# The sum over what the program is built of, or the crates that are named after the top: the lines of its crates, and the sum and
# the name of each file of src/, specs/ and proofs/ in them that the toolchain reads. Times, the place of the checkout and the
# order of crates.txt do not count.
sources_sum() (
  export LC_ALL=C
  cd "$1" || exit 1
  lines=$(needed_lines . "${@:2}" | sort)
  folders=()
  while IFS=: read -r name _; do
    folders+=("crates/$name/src" "crates/$name/specs" "crates/$name/proofs")
  done <<< "$lines"
  {
    printf '%s\n' "$lines"
    find "${folders[@]}" -type f \( -name '*.rt' -o -name '*.antt' \) -print0 2> /dev/null | sort -z | xargs -0 -r sha256sum
  } | sha256sum | { read -r sum _ && printf '%s\n' "$sum"; }
)

# The SHA-256 of a file.
sum_of() {
  local sum
  read -r sum _ < <(sha256sum < "$1") && printf '%s\n' "$sum"
}

# What release/built-of, or another file of release/, says under this word: `sources`, the sum over the sources, or `toolchain`,
# the line of `rt version`.
built_of() {
  local word rest
  while read -r word rest; do
    [ "$word" != "$2" ] || printf '%s\n' "$rest"
  done 2> /dev/null < "$1/release/${3:-built-of}"
}

# Whether the released program has the sum that stands beside it.
is_whole_release() {
  local sum
  read -r sum _ 2> /dev/null < "$1/release/hdminet.sha256" && [ "$(sum_of "$1/release/hdminet")" = "$sum" ]
}

# Whether the sources are those that the released program was built of.
is_of_these_sources() {
  local sum
  sum=$(built_of "$1" sources)
  [ -n "$sum" ] && [ "$(sources_sum "$1")" = "$sum" ]
}

# The crates of the library for C and Python that export its calls, and what of it is released.
LIBRARY_CRATES=(hdminet_wire hdminet_c)
LIBRARY_FILES=(lib/libhdminet_wire.a lib/libhdminet.a lib/libhdminet.so include/hdminet_wire.h include/hdminet.h)

# Whether each file of the released library has the sum that stands beside it.
is_whole_library() {
  local file sum name
  local -A sums=()
  while read -r sum name; do sums[$name]=$sum; done 2> /dev/null < "$1/release/library.sha256"
  for file in "${LIBRARY_FILES[@]}"; do
    [ -f "$1/release/$file" ] && [ "$(sum_of "$1/release/$file")" = "${sums[$file]-}" ] || return 1
  done
}

# Whether the sources are those that the released library was built of.
is_library_of_these_sources() {
  local sum
  sum=$(built_of "$1" sources library-built-of)
  [ -n "$sum" ] && [ "$(sources_sum "$1" "${LIBRARY_CRATES[@]}")" = "$sum" ]
}
