#!/usr/bin/env bash
# The example of a lock (examples/lock.c), built as a lock maker builds it and run with 60 seeds: fenced, and unfenced, where both gates must open each time; with a crew that takes a new
# lease for each of its first commands, it ends in words. And the schedule of tests/c/fence.c, whose picture must be the stored one.
set -eu
cd "$(dirname "$0")/../.."
tools/lib.sh >/dev/null
work=$(mktemp -d)
trap 'rm -rf "$work"' EXIT
cc -std=c11 -O2 -Wall -Wextra -Werror -Idist examples/lock.c dist/libmantelorris.a -o "$work/lock"
failed() { cat "$work/said"; echo "$1"; exit 1; }
for seed in $(seq 1 60); do
  timeout 60 "$work/lock" 5 "$seed" >"$work/said" || failed "seed $seed: exit $?"
  [ "$(grep -c 'command arrives late: lease ended$' "$work/said")" = 3 ] || failed "seed $seed: not three late commands refused"
  [ "$(grep -c "another client's notice$" "$work/said")" = 1 ] || failed "seed $seed: no controller that the cabinet does not know"
  [ "$(grep -c 'not safe$' "$work/said")" = 11 ] || failed "seed $seed: not one refusal 20 at the start, two a cycle but for the first, and one by hand"
  [ "$(grep -c 'by a level that was entered: not safe$' "$work/said")" = 1 ] || failed "seed $seed: a level by hand opens a gate"
  tail -n 1 "$work/said" >"$work/last"
  status=0
  timeout 60 "$work/lock" 5 "$seed" unfenced >"$work/said" || status=$?
  [ $status = 1 ] && [ "$(tail -n 1 "$work/said")" = 'lock: both gates are open' ] || failed "seed $seed, unfenced: exit $status"
done
cat "$work/last"
sed 's/if (desk.client == 0) desk = new_desk(LEASE);/now += LEASE, desk = new_desk(LEASE);/; s/i < 3; i++) crew(.*);/i < 40; i++) crew(MANTELORRIS_REPORT, LEVEL2, 0);/' examples/lock.c >"$work/crowd.c"
! cmp -s examples/lock.c "$work/crowd.c"
cc -std=c11 -O2 -Wall -Wextra -Werror -Idist -Iexamples "$work/crowd.c" dist/libmantelorris.a -o "$work/crowd"
status=0
timeout 60 "$work/crowd" >"$work/said" || status=$?
[ $status = 1 ] && grep -q '^lock: the cabinet knows 32 clients' "$work/said" || failed "a full table of clients: exit $status"
echo "60 seeds fenced and unfenced; a full table of clients ends in words"
MANTELORRIS_DIST=dist tools/fence_picture.py --check
