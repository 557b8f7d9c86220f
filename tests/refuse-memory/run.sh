#!/usr/bin/env bash
# Refuses each allocation in turn, of each command on some examples: the program must do what it does with ample
# memory, or say that there is none and write nothing, or, where an object found no room, write a first part of what
# it writes with ample memory and say so. Not part of the gate, since it wants a C compiler.
set -u
cd "$(dirname "$0")/../.." || exit 2
work=$(mktemp -d) || exit 2
trap 'rm -rf "$work"' EXIT
cc -O2 -shared -fPIC -o "$work/refuse.so" tests/refuse-memory/refuse.c -ldl || exit 2
./arcc check examples/forty-two.m >/dev/null || exit 2
program=$PWD/crates/arcc/out/arcc

passed=0
failed=0

# Whether what was written is a first part of what is written with ample memory; a trace says at its end that there
# was no room.
is_front() {
  local size last
  case "$1" in trace) last=noheap$'\n' ;; *) last= ;; esac
  size=$(($(stat -c %s "$work/output") - ${#last}))
  [ "$size" -ge 0 ] || return 1
  cmp -s <(tail -c +$((size + 1)) "$work/output") <(printf %s "$last") || return 1
  # the last byte of that part ends a line that goes on where there is room
  cmp -s -n "$size" "$work/output" "$work/ample" || cmp -s -n $((size > 0 ? size - 1 : 0)) "$work/output" "$work/ample"
}

# Refuses the allocation of this number: counts whether the answer was a right one, and fails where all was as with
# ample memory.
refuse() {
  local errors status
  REFUSE=$1 LD_PRELOAD="$work/refuse.so" "$program" "$2" "$3" <"$work/input" >"$work/output" 2>"$work/errors"
  status=$?
  errors=$(cat "$work/errors")
  if [ "$status" -eq "$ample_status" ] && cmp -s "$work/output" "$work/ample" && [ "$errors" = "$ample_errors" ]; then
    passed=$((passed + 1))
    return 1
  fi
  case "$status $errors" in
    '102 arcc: no memory') [ ! -s "$work/output" ] && { passed=$((passed + 1)); return 0; } ;;
    '104 arcc: no heap') is_front "$2" && { passed=$((passed + 1)); return 0; } ;;
  esac
  failed=$((failed + 1))
  echo "$2 $3, allocation $1: status $status, $errors"
  cat "$work/output"
  return 0
}

# Refuses each allocation of a command until 50 in a row change nothing.
refuse_each() {
  local whole=0 n
  "$program" "$1" "$2" <"$work/input" >"$work/ample" 2>"$work/errors"
  ample_status=$?
  ample_errors=$(cat "$work/errors")
  for n in $(seq 1 2000); do
    if refuse "$n" "$1" "$2"; then whole=0; else whole=$((whole + 1)); fi
    [ "$whole" -ge 50 ] && return
  done
  failed=$((failed + 1))
  echo "$1 $2: there are more than 2000 allocations"
}

printf 'abc' >"$work/input"
for example in forty-two objects echo-three division-by-zero; do
  for command in check code run trace; do
    refuse_each "$command" "examples/$example.m"
  done
done
echo "$passed passed, $failed failed"
[ "$failed" -eq 0 ]
