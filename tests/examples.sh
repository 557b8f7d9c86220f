#!/usr/bin/env bash
# Runs each program of examples/ on its `.in`, if it has one, and compares what it prints with its `.out`. Prints a line
# for each that differs, and at last how many passed and failed.
set -u
cd "$(dirname "${BASH_SOURCE[0]}")/.." || exit 2
./arcc check examples/forty-two.m >/dev/null || exit 2
passed=0
failed=0
for source in examples/*.m; do
  name=${source%.m}
  input=/dev/null
  [ -f "$name.in" ] && input=$name.in
  if crates/arcc/out/arcc run "$source" <"$input" 2>/dev/null | cmp -s - "$name.out"; then
    passed=$((passed + 1))
  else
    failed=$((failed + 1))
    echo "$source prints something else than $name.out"
  fi
done
echo "$passed passed, $failed failed"
[ "$failed" -eq 0 ]
