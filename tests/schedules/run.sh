#!/usr/bin/env bash
# The proved simulator against the second program's. In one process: tests/yard, every short schedule over an alphabet, random ones. Then the
# programs themselves, target/bin/yard and second's, on tests/yard, on random schedules and on odd input; and the pictures of those.
set -eu
cd "$(dirname "$0")/../.."
random=300
tools/yard.sh
tools/staticlib.sh simulator_c
cargo build --release --quiet --offline --manifest-path second/Cargo.toml --bin yard
cargo build --release --quiet --offline --manifest-path tests/schedules/Cargo.toml
tests/schedules/target/release/schedules compare

folder=$(mktemp -d)
trap 'rm -rf "$folder"' EXIT
tests/schedules/target/release/schedules write "$folder" "$random"
tools/picture.py --try "$folder"
cp tests/yard/*.in tests/yard/*.out tests/schedules/longest.in tests/schedules/longest.out "$folder"
: >"$folder/empty.in"
printf 'y 0' >"$folder/no-line-feed.in"
printf 'y 0\r\ny 0\r\n' >"$folder/carriage-returns.in"
printf '\n%.0s' $(seq 100) >"$folder/line-feeds.in"
head -c 50000 /dev/zero >"$folder/zeros.in"
seq 100000 | sed 's/.*/y 0/' >"$folder/long.in"
for schedule in "$folder"/*.in; do
  second/target/release/yard <"$schedule" >"$folder/second"
  target/bin/yard <"$schedule" >"$folder/proved"
  cmp -s "$folder/second" "$folder/proved" || { echo "${schedule##*/}: target/bin/yard and second's yard differ:"; diff "$folder/second" "$folder/proved" || true; exit 1; }
  [ ! -f "${schedule%.in}.out" ] || cmp "${schedule%.in}.out" "$folder/proved"
done
head -c 70000 /dev/zero | tr '\0' 'y' >"$folder/too-long"
target/bin/yard <"$folder/too-long" >"$folder/proved" 2>"$folder/said"
[ ! -s "$folder/proved" ] && grep -q 'more than 65536 bytes' "$folder/said" || { echo "first 60 lines of 70,000 bytes: not refused"; exit 1; }
echo "the programs yard: equal on $(ls "$folder"/*.in | wc -l) inputs"

# a schedule that is not there is named; a picture of one's own is written where asked
for tool in run.sh picture.sh; do
  said=$(tools/$tool "$folder/nosuch.txt" 2>&1) && { echo "$tool: a schedule that is not there is taken"; exit 1; }
  case $said in *"there is no file $folder/nosuch.txt"*) ;; *) echo "$tool says of a schedule that is not there: $said"; exit 1 ;; esac
done
tools/picture.sh tests/yard/move.in "$folder/move.svg"
grep -q '</svg>' "$folder/move.svg"
tools/run.sh tests/yard/move.in >"$folder/said"
grep -q '7 not synced' "$folder/said"
