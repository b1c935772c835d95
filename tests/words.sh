#!/usr/bin/env bash
# What goes wrong is said in words: without rt on the PATH, with another kit, with folders that are not there, with schedules that no editor shows to be wrong. Nothing is proved here.
set -eu
cd "$(dirname "$0")/.."
top=$PWD
work=$(mktemp -d)
trap 'rm -rf "$work"' EXIT
cases=0

# due STATUS WORDS COMMAND..: ends with this status (0, or any other for 1), says these words, and shows no traceback
due() {
  local status=$1 words=$2 have=0
  shift 2
  "$@" >"$work/said" 2>&1 || have=1
  if [ "$have" = "$status" ] && grep -qF -- "$words" "$work/said" && ! grep -q Traceback "$work/said"; then
    cases=$((cases + 1))
    return 0
  fi
  cat "$work/said"
  echo "$*: due was status $status, '$words' and no traceback"
  exit 1
}

# the tools that the scripts call, and no rt
mkdir "$work/bin" "$work/other"
for tool in ar awk bash cat cc chmod cmp cp cut date df dirname env git grep head ls make mkdir mktemp nm paste rm sed seq sh sort tail tr wc; do
  ln -s "$(command -v $tool)" "$work/bin/$tool"
done
ln -s "$(python3 -c 'import sys; print(sys.executable)')" "$work/bin/python3"
without() { PATH=$work/bin make --no-print-directory "$@"; }
for target in check edits lib card 'install PREFIX=/there' dist demo run 'picture SCHEDULE=tests/yard/move.in' bench test; do
  due 1 'rt is not on the PATH: install the Rattle kit' without $target OUT="$work/x.svg"
done
sqlite=1
echo '#include <sqlite3.h>' | cc -E -x c - >/dev/null 2>&1 || sqlite=0
due $sqlite "$([ $sqlite = 1 ] && echo 'rt is not on the PATH' || echo skipped)" without bench-peer
[ ! -e /there ]

# another kit
printf '#!/bin/sh\necho some other kit\n' >"$work/other/rt"
chmod +x "$work/other/rt"
due 1 "and here is 'some other kit'" env PATH="$work/other:$work/bin" tools/kit.sh

# where nothing can be written
due 1 'make install PREFIX=/usr/local' make --no-print-directory install
due 1 "PREFIX is 'here': it must begin with /" make --no-print-directory install PREFIX=here
due 1 'there is no folder /nonexistent' make --no-print-directory picture SCHEDULE=tests/yard/move.in OUT=/nonexistent/x.svg
due 1 'make picture SCHEDULE=path' make --no-print-directory picture
due 1 "$work/no/x.svg: No such file" tools/picture.py tests/yard/move.in tests/yard/move.out "$work/no/x.svg"

# schedules: line ends, blanks, tabs
printf 'y 0\r\ny 0 \n y 0\ny\t0\nhello\ny 0\n' >"$work/odd.in"
printf '1 1 0 0\n2 1 0 0\n3 1 0 0\n4 1 0 0\n5 1 0 0\n6 0 0 0\n' >"$work/odd.out"
for hint in 'it ends in CR LF' 'a blank at its end' 'a blank at its front' 'fields are parted by one blank' 'not a line of a schedule'; do
  due 0 "1 malformed: $hint" tools/schedule.py "$work/odd.in" "$work/odd.out"
done

# make alone names every target
for target in $(sed -nE 's/^\.PHONY: help (.*)/\1/p' Makefile); do due 0 "  $target " make --no-print-directory -C "$top"; done
echo "$cases cases in words"
