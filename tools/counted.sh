#!/usr/bin/env bash
# tools/counted.sh LOG STATUS: of what `rt ci` printed and its exit status, two numbers: what passed and what failed. A must-fail edit that is bad, which shows nothing of a contract and fails nothing there, counts
# as failed here.
set -u
read -r passed failed < <(sed -nE 's/^([0-9]+) passed, ([0-9]+) failed$/\1 \2/p' "$1" | tail -n 1) || { passed=0; failed=1; }
bad=$(sed -nE 's/^rt: ok; .*must-fail edits: .*, ([0-9]+) bad[;,].*/\1/p; s/^rt: note: bad must-fail edits, as told above: ([0-9]+)\..*/\1/p' "$1" | tail -n 1)
failed=$((failed + ${bad:-0}))
[ "$2" = 0 ] || [ "$failed" != 0 ] || failed=1
echo "$passed $failed"
