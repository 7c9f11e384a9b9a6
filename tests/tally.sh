# shellcheck shell=bash
# Sourced by the test scripts: a tally of what passed and what failed. Each script ends with `finish`, so that its last line
# is 'N passed, M failed'.
passed=0
failed=0

count() { # count NAME STATUS: one check
  if [ "$2" -eq 0 ]; then
    passed=$((passed + 1))
    echo "$1: ok"
  else
    failed=$((failed + 1))
    echo "$1: FAILED"
  fi
}

# add NAME STATUS LOG: the checks of a command, by the last line of what it wrote; one that counted nothing, or failed
# uncounted, has failed
add() {
  local last good=0 bad=0
  last=$(tail -n 1 "$3")
  if [[ $last =~ ^([0-9]+)\ passed,\ ([0-9]+)\ failed$ ]]; then
    good=${BASH_REMATCH[1]}
    bad=${BASH_REMATCH[2]}
  fi
  passed=$((passed + good))
  failed=$((failed + bad))
  if [ "$bad" -eq 0 ] && { [ "$good" -eq 0 ] || [ "$2" -ne 0 ]; }; then
    count "$1 (status $2, $good passed)" 1
  fi
}

add_cargo() { # add_cargo NAME STATUS LOG: the tests of `cargo test`, by its lines 'test result: ..'
  sed -n 's/^test result: .* \([0-9]*\) passed; \([0-9]*\) failed.*/\1 \2/p' "$3" |
    awk '{ good += $1; bad += $2 } END { printf "%d passed, %d failed\n", good, bad }' >"$3.sum"
  add "$1" "$2" "$3.sum"
  rm -f "$3.sum"
}

# library CRATE..: their static libraries as the sources have them now; where SOCKETLEMON_LIB names a folder, those there
library() {
  [ -n "${SOCKETLEMON_LIB:-}" ] && return
  local log crate
  log=$(mktemp)
  for crate in "$@"; do
    if ! tools/build library "$crate" >"$log" 2>&1; then
      tail -n 3 "$log"
      count "static library of $crate" 1
    fi
  done
  rm -f "$log"
}

program() { # program NAME: the program as the sources have it now, target/bin/NAME
  local log
  log=$(mktemp)
  if ! tools/build program "$1" >"$log" 2>&1; then
    tail -n 3 "$log"
    count "program $1" 1
  fi
  rm -f "$log"
}

finish() {
  echo "$passed passed, $failed failed"
  [ "$failed" -eq 0 ] && [ "$passed" -gt 0 ]
}
