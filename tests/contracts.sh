#!/usr/bin/env bash
# Fails for each public function of a library that has no `ensures`, and for each public call that no mutant
# turns. A public call is a public function of a public module, but for the laws, which have no body to turn,
# and for `From` and `Default`. tests/contracts.txt names the mutants of each. The functions of arc_scope are called by arc_judge
# and arc_resolve alone, those of arc_cells, arc_steps and arc_turns by one another and by arc_machine: each has to have an
# `ensures`, and none is a public call.
# Each library is checked over what earlier checks kept. The last line is `N passed, M failed`.
set -u
cd "$(dirname "$0")/.." || exit 2
passed=0 failed=0
rows=$(mktemp) || exit 2
trap 'rm -f "$rows"' EXIT

pass() {
  ((passed += 1))
}

fail() {
  echo "$1"
  ((failed += 1))
}

# The mutants of each call, by `CRATE CALL`.
declare -A mutants
while read -r crate call names; do
  [[ $crate != '#'* ]] && mutants["$crate ${call%:}"]=$names
done <tests/contracts.txt

# Prints the public calls of a crate, from rows as `untested  src/heap.rt:56 <PlainStore as Store>::take()`.
public_calls() {
  local row='^[a-z-]+ +src/([a-z_]+)\.rt:[0-9]+ (.*)\(\)' line module call
  while read -r line; do
    [[ $line =~ $row ]] || continue
    module=${BASH_REMATCH[1]} call=${BASH_REMATCH[2]}
    grep -qsx "pub mod $module;" "crates/$1/src/lib.rt" || continue
    [[ $module == law || $call == *' as From<'* || $call == *' as Default>'* ]] && continue
    sed -E 's/^<(.*) as .*>::/\1::/; s/<[^:]*>::/::/; s/^([a-z_]+::)+//' <<<"$call"
  done <"$rows"
}

check_call() {
  local name crate names=${mutants["$1 $2"]-}
  unset "mutants[$1 $2]"
  [[ -n $names ]] || { fail "$1 $2: tests/contracts.txt names no mutant"; return; }
  [[ $names == none ]] && { pass; return; }
  for name in $names; do
    [[ $name == */* ]] && crate=${name%/*} || crate=$1
    grep -qsx "mutant: ${name#*/}" "crates/$crate/must-fail"/*.edit || { fail "$1 $2: there is no mutant $name"; return; }
  done
  pass
}

check_crate() {
  local call
  (cd "crates/$1" && rt plant --max 0 --minutes 0) >"$rows" 2>&1
  grep -q "^plants crate=$1 " "$rows" || { fail "$1: rt plant judged nothing: $(tail -n 3 "$rows")"; return; }
  if grep '^no-ensures' "$rows"; then fail "$1: functions without ensures"; else pass; fi
  [[ $1 =~ ^arc_(scope|cells|steps|turns)$ ]] && return
  while read -r call; do check_call "$1" "$call"; done < <(public_calls "$1")
}

# arc_unit_tests and arc_tests have only tests.
while IFS=': ' read -r crate _; do
  [[ -f crates/$crate/src/lib.rt && $crate != *_tests ]] && check_crate "$crate"
done <crates.txt
for call in "${!mutants[@]}"; do fail "$call: tests/contracts.txt names it, and it is no public call"; done
echo "$passed passed, $failed failed"
[ "$failed" = 0 ]
