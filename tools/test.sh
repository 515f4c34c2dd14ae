#!/usr/bin/env bash
# Passes the tests: sees that the compiler refuses the edits of the compile-refused folders, proves every crate of
# crates.txt from nothing, tries the must-fail edits, runs the programs and the #[test] functions, and then the
# examples, of which it says something only where one answers otherwise.
# The very last line is rt's own verdict; anything but 'N passed, 0 failed' fails, and so does a must-fail edit that
# could not be tried.
set -u
cd "$(dirname "$0")/.." || exit 1
# A slip could be leaked by unsafe code, which no crate has.
if grep -rnw unsafe crates/*/src; then
    echo "unsafe code: none is allowed" >&2
    exit 1
fi
tools/refused-by-compiler.py || exit 1
log=$(mktemp)
trap 'rm -f "$log"' EXIT
rt ci 2>&1 | tee "$log"
status=${PIPESTATUS[0]}
[ "$status" -eq 0 ] || exit "$status"
tail -n 1 "$log" | grep -Eq '^[1-9][0-9]* passed, 0 failed$' || exit 1
if grep -E '^rt: ok\b.*, [1-9][0-9]* bad' "$log" >&2; then
    echo "a must-fail edit could not be tried" >&2
    exit 1
fi
tools/examples.sh > /dev/null
