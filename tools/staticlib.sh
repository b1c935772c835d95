#!/usr/bin/env bash
# tools/staticlib.sh [--target aarch64] [NAME..]: the static libraries of these crates, target/staticlib/libNAME.a, or for 64-bit Arm target/staticlib/aarch64/libNAME.a (tools/built.py); without names, of all
# that libmantelorris.a has.
set -eu
cd "$(dirname "$0")/.."
target=x86-64
if [ "${1:-}" = --target ]; then
  target=$2
  shift 2
fi
[ $# != 0 ] || set -- client_exports chamber_c kernel
tools/kit.sh >/dev/null || [ $? = 1 ]
tools/built.py --target "$target" lib "$@"
