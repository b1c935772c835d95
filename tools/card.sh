#!/usr/bin/env bash
# tools/card.sh OUT: the card reader mantelorris-card (examples/reader) as OUT, over the library in dist/.
set -eu
case $1 in /*) out=$1 ;; *) out=$PWD/$1 ;; esac
cd "$(dirname "$0")/.."
command -v cc >/dev/null || { echo "no C compiler, cc: $1 is not made" >&2; exit 1; }
mkdir -p "$(dirname "$out")"
cc -std=c11 -O3 -Idist examples/reader/*.c dist/libmantelorris.a -o "$out"
echo "$1: prints what is on a card; --help says how"
