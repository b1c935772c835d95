#!/usr/bin/env bash
# tools/yard.sh: proves and builds the program `yard`, and shows its way.
# tools/yard.sh SCHEDULE ANSWERS: runs it on a schedule too.
set -eu
here=$PWD
cd "$(dirname "$0")/.."
within() { case $1 in /*) echo "$1" ;; *) echo "$here/$1" ;; esac; }
if [ $# -gt 0 ]; then
  schedule=$(within "$1")
  [ -e "$schedule" ] || { echo "no schedule: there is no file $1" >&2; exit 2; }
  [ -f "$schedule" ] && [ -r "$schedule" ] || { echo "no schedule: $1 is not a file that can be read" >&2; exit 2; }
fi
echo "== proving the program yard, and what it rests on"
tools/kit.sh >/dev/null || [ $? = 1 ]
tools/built.py program yard
[ $# -eq 0 ] || target/bin/yard <"$schedule" >"$(within "$2")"
