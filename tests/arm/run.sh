#!/usr/bin/env bash
# The library for 64-bit Arm (`make lib TARGET=aarch64`), on an emulated processor: the programs of tests/c and examples/lock.c, logs of earlier versions, the guide's figures, the archive as a maker links
# it and as it is delivered; the example host behind its desks, and killed again and again; and calls of compare/, recorded on x86-64 and made again, every byte equal. Where the cross compiler or the emulator is missing, the
# library is made all the same, and one line says what is skipped.
set -eu -o pipefail
cd "$(dirname "$0")/../.."
tools/lib.sh >/dev/null
tools/lib.sh --target aarch64 >/dev/null
work=$(mktemp -d)
# what runs in the background ends by itself
trap 'wait; rm -rf "$work"' EXIT

skip() {
  echo "skipped: the library for aarch64 is made and not tried, $1"
  exit 0
}
command -v aarch64-linux-gnu-gcc >/dev/null || skip "aarch64-linux-gnu-gcc is missing (package gcc-aarch64-linux-gnu)"
command -v qemu-aarch64 >/dev/null || skip "qemu-aarch64 is missing (package qemu-user)"
echo 'int main(void) { return 0; }' >"$work/try.c"
aarch64-linux-gnu-gcc -static "$work/try.c" -o "$work/try" 2>/dev/null || skip "aarch64-linux-gnu-gcc has no C library (package libc6-dev-arm64-cross)"

# a folder that goes before the PATH: with it cc compiles for Arm, and what it makes is a script that runs the program in the emulator
mkdir "$work/bin"
cat >"$work/bin/cc" <<'CC'
#!/bin/sh
aarch64-linux-gnu-gcc -static "$@" || exit
while [ $# != 0 ] && [ "$1" != -o ]; do shift; done
[ $# != 0 ] || exit 0
mv "$2" "$2.arm"
printf '#!/bin/sh\nexec qemu-aarch64 "$0.arm" "$@"\n' >"$2"
chmod +x "$2"
CC
chmod +x "$work/bin/cc"
for name in size nm; do ln -s "$(command -v aarch64-linux-gnu-$name)" "$work/bin/$name"; done
on_arm() { PATH=$work/bin:$PATH MANTELORRIS_DIST=dist/aarch64 "$@"; }
flags='-std=gnu11 -O1 -Wall -Wextra -Werror -Idist/aarch64'
library=dist/aarch64/libmantelorris.a

# trial NAME COMMAND..: in the background; ended NAME: what it said last, or all of it where it failed
trial() {
  local name=$1
  shift
  (if "$@" >"$work/$name.said" 2>&1; then echo ended; else echo failed; fi >"$work/$name.status") &
}
ended() {
  [ "$(cat "$work/$1.status")" = ended ] || { cat "$work/$1.said"; echo "on Arm: $1 failed"; exit 1; }
  echo "$1: $(tail -n 1 "$work/$1.said")"
}

# The host of the examples with a file and with raw sectors as its card, killed at any moment and inside its calls on the card: what strikes there is loaded into the emulated program. Desk and line are
# programs of x86-64.
killed() { # NAME CARD [WORDS]
  local program=$work/$1 card=$2
  shift 2
  aarch64-linux-gnu-gcc $flags examples/host.c "examples/$card" "$library" -o "$program.arm"
  printf '#!/bin/sh\nunset LD_PRELOAD\nexec qemu-aarch64 -L /usr/aarch64-linux-gnu -E LD_PRELOAD="%s" "$0.arm" "$@"\n' "$work/power.so" >"$program"
  chmod +x "$program"
  POWER_KILLS=50 MANTELORRIS_DIST=$PWD/dist tests/c/power.py "$@" --serve "$program {card} {port} 400" --found "$program --found {card}" >"$program.trial" || { cat "$program.trial"; return 1; }
}
aarch64-linux-gnu-gcc $flags -shared -fPIC tests/c/power.c -o "$work/power.so" -ldl
killed_on_both() { killed file card.c && killed sectors card_raw.c --sectors && echo "a file and raw sectors as its card, 50 kills of each host, every command carried out once"; }
trial kills killed_on_both
trial reference on_arm tests/reference/run.sh

# both NAME SOURCE: the program for Arm, and as NAME_x86 the one for x86-64; alike NAME WORDS..: they say the same
both() {
  on_arm cc $flags "$2" "$library" -o "$work/$1"
  cc -std=gnu11 -O1 -Idist "$2" dist/libmantelorris.a -o "$work/$1_x86"
}
alike() {
  local program
  for program in "$1" "$1_x86"; do "$work/$program" "${@:2}" >"$work/$program.said" || echo "exit $?" >>"$work/$program.said"; done
  cmp "$work/$1.said" "$work/$1_x86.said" || { cat "$work/$1.said"; echo "on Arm: $* says something else than on x86-64"; exit 1; }
}
for name in client helpers host; do
  both $name tests/c/$name.c
  alike $name
  tail -n 1 "$work/$name.said" | grep -q '^[0-9]* passed, 0 failed$' || { cat "$work/$name.said"; exit 1; }
  echo "tests/c/$name.c, as on x86-64: $(tail -n 1 "$work/$name.said")"
done
if command -v aarch64-linux-gnu-g++ >/dev/null; then
  aarch64-linux-gnu-g++ -static -std=c++11 -O1 -Wall -Wextra -Werror -Iinclude -x c++ tests/c/helpers.c -x none "$library" -o "$work/helpers.arm"
  "$work/helpers" >/dev/null
fi
both lock examples/lock.c
for seed in 1 2 3 4 5 6 7 8 9 10; do
  alike lock 5 $seed
  alike lock 5 $seed unfenced
done
both recover tests/logs/recover.c
for folder in tests/logs/*/; do
  alike recover "$folder"
  cmp "$work/recover.said" "$folder/results"
done
echo "examples/lock.c: 20 runs as on x86-64; logs of earlier versions are recovered"
on_arm tools/fence_picture.py --check
on_arm tests/c/link.sh aarch64
tar -C "$work" -xzf "$(tools/dist.sh aarch64 | sed -n 's/, SHA-256 .*//p')"
(
  cd "$work"/mantelorris-*-aarch64
  sha256sum --quiet --strict -c MANIFEST
  on_arm cc examples/host.c examples/card.c -Iinclude -Llib -lmantelorris -o "$work/delivered"
  "$work/delivered" --found "$work/card" | grep -q '^server 0, log 8 bytes,'
)
on_arm tests/c/guide.py >"$work/said" || { cat "$work/said"; exit 1; }
echo "the guide's figures on Arm: $(grep '^code' "$work/said"), $(tail -n 1 "$work/said")"

# The calls of compare/ go through record.c. A short run, so not each class of answers is met and some of its tests say that; compare's own run in the gate is the judge of those. What counts here is a tape
# that is whole and has every call.
cc -std=gnu11 -O2 -Wall -Wextra -Werror -fPIC -Iinclude -c tests/arm/record.c -o "$work/record.o"
nm -g --defined-only "$work/record.o" | awk '$2 == "T" { print $3, "real_" $3 }' >"$work/names"
in_headers=$(grep -ohE '^(uint64_t|struct \w+) mantelorris_\w+\(' include/*.h | grep -oE 'mantelorris_\w+\(' | tr -d '(' | sort -u)
[ "$in_headers" = "$(cut -d ' ' -f 1 "$work/names" | sort)" ] || { echo "tests/arm/calls.h does not have the calls of the headers"; exit 1; }
mkdir -p target/arm/lib
for name in kernel client_exports chamber_c; do
  objcopy --redefine-syms="$work/names" "target/staticlib/lib$name.a" "$work/lib$name.a"
  [ $name != kernel ] || ar r "$work/lib$name.a" "$work/record.o"
  cmp -s "$work/lib$name.a" "target/arm/lib/lib$name.a" || cp "$work/lib$name.a" target/arm/lib/
done
RECORD_TAPE=$work/tape RECORD_ONE_IN=10 COMPARE_RUNS=100000 MANTELORRIS_STATICLIB=$PWD/target/arm/lib CARGO_TARGET_DIR=$PWD/target/arm \
  timeout 300 cargo test --release --quiet --offline --manifest-path compare/Cargo.toml >"$work/said" 2>&1 || :
[ -s "$work/tape" ] || { cat "$work/said"; echo "no call was recorded"; exit 1; }
on_arm cc -std=gnu11 -O2 -Wall -Wextra -Werror -Idist/aarch64 tests/arm/replay.c "$library" -o "$work/replay"
timeout 300 "$work/replay" "$work/tape" >"$work/said" || { cat "$work/said"; exit 1; }
calls=$(sed -nE 's/^([0-9]+) calls:.*/\1/p' "$work/said")
[ "$calls" -ge 100000 ] || { echo "only $calls calls on the tape"; exit 1; }
# one byte of what the last call left, changed: the difference is found (on x86-64, where it takes a second)
cc -std=gnu11 -O2 -Idist tests/arm/replay.c dist/libmantelorris.a -o "$work/replay_x86"
"$work/replay_x86" "$work/tape" >/dev/null
python3 -c 'import sys; f = open(sys.argv[1], "r+b"); f.seek(-17, 2); b = f.read(1)[0]; f.seek(-17, 2); f.write(bytes([b ^ 1]))' "$work/tape"
! "$work/replay_x86" "$work/tape" >/dev/null || { echo "a changed tape is not found"; exit 1; }
rm "$work/tape"
echo "recorded calls of compare/: $calls, each with the same answer and the same bytes on Arm"

wait
ended kills
ended reference
