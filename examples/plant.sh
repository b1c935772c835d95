#!/usr/bin/env bash
# A plant for a few seconds: two cabinets, a lease manager and desks, a point that moves between the cabinets. Every 0.3 s one of the three is killed and started again.
# Prints what the desks saw, and what cards and file have in the end. demo.sh runs it.
set -eu
cd "$(dirname "$0")/.."
steps=${STEPS:-120}
port=${PORT:-$((21000 + $$ % 20000))}
work=$(mktemp -d)
bg=()
trap 'exec 2>/dev/null; kill -9 "${bg[@]}" || true; rm -rf "$work"' EXIT
for p in leases pair_desk pair; do
  cc -std=gnu11 -O2 -Wall -Wextra -DSPAN=2 -Idist examples/$p.c $([ $p != pair ] || echo examples/card.c) dist/libmantelorris.a -o "$work/$p"
done

# run NUMBER: 0 and 1 the cabinets, 2 the lease manager
run() {
  case $1 in
    2) "$work/leases" "$work/book" $((port + 2)) $port $((port + 1)) & ;;
    *) "$work/pair" "$work/card$1" "$1" $((port + $1)) $((port + 2)) $((port + 1 - $1)) & ;;
  esac
  running[$1]=$!
  bg+=($!)
}

"$work/leases" --found "$work/book"
for i in 0 1; do "$work/pair" --found "$work/card$i" $i; done
running=()
for i in 0 1 2; do run $i; done
"$work/pair_desk" $((port + 2)) $port $((port + 1)) "$steps" 8 >"$work/desk" & desk=$!
bg+=("$desk")
kills=0
while kill -0 "$desk" 2>/dev/null; do
  sleep 0.3
  i=$((kills % 3))
  { kill -9 "${running[$i]}" || { echo "$i has ended by itself"; exit 1; }; wait "${running[$i]}" || true; } 2>/dev/null
  run $i
  kills=$((kills + 1))
done
wait "$desk"
tail -n 1 "$work/desk"
until "$work/leases" "$work/book" | grep -q ', 0 desks'; do sleep 0.2; done
echo "cabinets and lease manager: killed with SIGKILL $kills times; every notice is answered: $("$work/leases" "$work/book")"
for i in 0 1; do "$work/pair" "$work/card$i"; done
