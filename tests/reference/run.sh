#!/usr/bin/env bash
# Builds the example host and line and lets two desks talk to them that use nothing of the library: trial.py, by somebody who had the reference and its formats alone, and desk.py, which
# tries every op, refusal and place and reads the card. Each ends with 'N passed, M failed'.
# MANTELORRIS_DIST names a folder with archive and headers; without it `make lib` makes dist/.
set -eu
cd "$(dirname "$0")/../.."
dist=${MANTELORRIS_DIST:-dist}
[ "$dist" != dist ] || tools/lib.sh >/dev/null
work=$(mktemp -d)
trap 'rm -rf "$work"' EXIT
cc -std=gnu11 -O1 -Wall -Wextra -Werror -I"$dist" examples/host.c examples/card.c "$dist/libmantelorris.a" -o "$work/host"
cc -std=gnu11 -O1 -Wall -Wextra -Werror examples/relay.c -o "$work/relay"
timeout 120 python3 tests/reference/trial.py "$work/host" "$work/relay"
timeout 120 python3 tests/reference/desk.py "$work/host" "${PORT:-$((24000 + $$ % 20000))}" "$work/card"
