#!/usr/bin/env bash
# link.sh [TARGET]: the archive of `make lib` as a maker links it: every call of the headers is there, nothing but memcpy and memset is missing, and a program without
# a C library that supplies just these two links and runs. `make install` into an empty folder gives a library that pkg-config's line finds.
set -eu
cd "$(dirname "$0")/../.."
target=${1:-}
dist=dist${target:+/$target}
tools/lib.sh --target "$target" >/dev/null
work=$(mktemp -d)
trap 'rm -rf "$work"' EXIT
missing=$(nm "$dist/libmantelorris.a" | awk '$1 == "U" { print $2 }' | sort -u | paste -sd ' ')
[ "$missing" = 'memcpy memset' ] || { echo "undefined symbols: $missing"; exit 1; }
for name in $(grep -ohE '^(uint64_t|uint32_t|struct \w+) mantelorris_\w+\(' include/*.h | grep -oE 'mantelorris_\w+\(' | tr -d '('); do
  nm "$dist/libmantelorris.a" | grep -qE " T $name$" || { echo "the headers have $name, the archive has not"; exit 1; }
done
cat >"$work/bare.c" <<'C'
#include "mantelorris.h"
#include "mantelorris_client.h"
void *memcpy(void *to, const void *from, size_t n) { for (size_t i = 0; i < n; i++) ((volatile unsigned char *)to)[i] = ((const unsigned char *)from)[i]; return to; }
void *memset(void *to, int c, size_t n) { for (size_t i = 0; i < n; i++) ((volatile unsigned char *)to)[i] = (unsigned char)c; return to; }
static uint8_t state[MANTELORRIS_STATE_SIZE], log_space[64], plan[MANTELORRIS_PLAN_SIZE];
#if defined(__aarch64__)
static void end(long code) { register long status __asm__("x0") = code, call __asm__("x8") = 93; __asm__ volatile("svc 0" : : "r"(status), "r"(call)); for (;;) { } }
void _start(void) {
#else
static void end(long code) { __asm__ volatile("syscall" : : "a"(60L), "D"(code) : "rcx", "r11"); for (;;) { } }
__attribute__((force_align_arg_pointer)) void _start(void) {
#endif
    struct mantelorris_lease_manager m = mantelorris_leases();
    struct mantelorris_lease_reply grant = mantelorris_open(&m, 1, 100);
    struct mantelorris_start_reply s = mantelorris_start(grant.packet, grant.length);
    struct mantelorris_send_reply q = mantelorris_issue(&s.client, MANTELORRIS_SET, 5, 0);
    uint8_t out[MANTELORRIS_REPLY_SIZE];
    uint64_t a = mantelorris_found(state, sizeof state, log_space, sizeof log_space, plan, sizeof plan, 0);
    if (a) end(1);
    a = mantelorris_request(state, sizeof state, log_space, sizeof log_space, q.packet, q.length, out, sizeof out);
    end(a != MANTELORRIS_OK || mantelorris_quality(state, 5) != MANTELORRIS_BY_HAND);
}
C
cc -std=c11 -O2 -Wall -Wextra -ffreestanding -nostdlib -static -fno-stack-protector -I"$dist" "$work/bare.c" "$dist/libmantelorris.a" -o "$work/bare"
"$work/bare" || { echo "the freestanding program: $?"; exit 1; }
make --no-print-directory install TARGET="$target" PREFIX="$work/there" >/dev/null
printf '#include <mantelorris_client.h>\nint main(void) { return mantelorris_leases().time != 0; }\n' >"$work/user.c"
flags="-I$work/there/include -L$work/there/lib -lmantelorris"
if command -v pkg-config >/dev/null; then flags=$(PKG_CONFIG_PATH="$work/there/lib/pkgconfig" pkg-config --cflags --libs mantelorris); fi
cc "$work/user.c" $flags -o "$work/user"
"$work/user"
echo "undefined symbols: $missing; freestanding program and installed library link and run"
