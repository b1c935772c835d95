#!/usr/bin/env bash
# tools/picture.sh SCHEDULE [OUT.svg]: the picture of a schedule, from its lines and the answers of the proved program yard. OUT.svg stands in
# the current folder under the schedule's name if it is not given.
set -eu
[ -n "${1:-}" ] || { echo "usage: make picture SCHEDULE=path [OUT=path.svg]" >&2; exit 2; }
name=${1##*/}
out=${2:-}
[ -n "$out" ] || out=${name%.*}.svg
[ -d "$(dirname "$out")" ] || { echo "no picture: there is no folder $(dirname "$out")" >&2; exit 2; }
tools=$(cd "$(dirname "$0")" && pwd)
answers=$(mktemp)
trap 'rm -f "$answers"' EXIT
"$tools/yard.sh" "$1" "$answers"
"$tools/picture.py" "$1" "$answers" "$out"
echo "wrote $out"
