#!/usr/bin/env bash
# make demo: a host with a file as its card, a desk, and a line between them that loses, repeats and delays; the host is killed and started again
# while commands are under way. Its log may have 2000 bytes: then a checkpoint replaces it, and the card stays small. Prints what was sent, lost, repeated
# and carried out, and what the card has. Then a plant of two cabinets and a lease manager (plant.sh), and a lock with its controller.
set -eu
cd "$(dirname "$0")/.."
commands=${COMMANDS:-600}
limit=${LIMIT:-2000}
port=${PORT:-$((21000 + $$ % 20000))}
work=$(mktemp -d)
bg=()
trap 'kill -9 "${bg[@]}" 2>/dev/null || true; rm -rf "$work"' EXIT
cc -std=gnu11 -O2 -Wall -Wextra -Idist examples/host.c examples/card.c dist/libmantelorris.a -o "$work/host"
for p in desk relay lock; do cc -std=gnu11 -O2 -Wall -Wextra -Idist examples/$p.c dist/libmantelorris.a -o "$work/$p"; done
"$work/relay" "$port" $((port + 1)) >"$work/line" & relay=$!
bg+=("$relay")
"$work/desk" "$port" "$commands" >"$work/desk.out" & desk=$!
bg+=("$desk")
"$work/host" --found "$work/card" >/dev/null
starts=0
while kill -0 "$desk" 2>/dev/null; do
  "$work/host" "$work/card" $((port + 1)) "$limit" & host=$!
  bg+=("$host")
  starts=$((starts + 1))
  sleep 0.3
  kill -9 "$host" 2>/dev/null || { echo "the host has ended by itself"; exit 1; }
  wait "$host" 2>/dev/null || true
done
wait "$desk"
kill "$relay"
wait "$relay" || true
cat "$work/desk.out" "$work/line"
card=$("$work/host" "$work/card")
echo "host: killed with SIGKILL $starts times; the log's limit is $limit bytes, so the card has $(wc -c <"$work/card") where the whole log would have $((8 + 32 * (commands + 1))) and more: $card"
echo
echo "a plant: a point moves between two cabinets, a lease manager keeps its file, each is killed again and again"
examples/plant.sh
echo
echo "a lock: its controller fills, opens, closes and empties the chamber, is lost on the way, and has a successor"
"$work/lock"
