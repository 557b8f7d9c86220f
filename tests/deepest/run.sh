#!/usr/bin/env bash
# Runs the deepest and the longest sources that the limits allow, and those that are one past a limit, by the
# real program on a stack of 8 MiB. Not part of the gate, since it wants python3 and takes minutes.
# Words: parts of the names of the cases that are run; without words all are.
set -u
cd "$(dirname "$0")/../.." || exit 2
./arcc check examples/forty-two.m >/dev/null || exit 2
exec python3 tests/deepest/deepest.py crates/arcc/out/arcc "$@"
