#!/usr/bin/env bash
# The whole check: the kit's identity, the format; that documents cite what is there, that stored pictures are what is drawn, and that entry points have no `requires`; then the
# toolchain's own gate, `rt ci`: every crate from nothing, every must-fail edit by itself, every program; then the tests of the second program, the comparison of both, the
# simulator's too, the C programs, the library for Arm, `make run`.
# Prints seconds per part, and what rt says of each crate and edit; the last line is 'N passed, M failed' over all; any failure exits non-zero.
set -u
cd "$(dirname "$0")/.." || exit 2
began=$SECONDS
passed=0
failed=0
logs=$(mktemp -d)
trap 'rm -rf "$logs"' EXIT

# part NAME: runs the command that follows, and says how it went; its output is kept in $logs/NAME and shown if it fails
part() {
  local name=$1 start=$SECONDS
  shift
  if "$@" >"$logs/$name" 2>&1; then
    echo "== $name: ok, $((SECONDS - start)) s"
    return 0
  fi
  { echo "== $name"; cat "$logs/$name"; echo "   FAILED: $name, $((SECONDS - start)) s"; } | cat
  return 1
}

count() { if [ "$1" = 0 ]; then passed=$((passed + 1)); else failed=$((failed + 1)); fi; }

part kit tools/kit.sh; count $?
command -v rt >/dev/null || { echo "0 passed, 1 failed"; exit 1; }
part format tools/format.sh; count $?
part simulator-cases tools/simulator_cases.py --check; count $?
part pictures tools/picture.py --check; count $?
part guide-pictures tools/guide_pictures.py --check; count $?
part progress tests/progress.sh; count $?
part planted-faults tests/gate.sh; count $?
part claims tools/claims.py; count $?
part claims-tool tests/claims.sh; count $?
part edit-table tools/edit_table.py --check; count $?
part entry-points tools/entry_points.py; count $?
part callers tools/callers.py; count $?
part house tools/house.py --check; count $?
part layout tools/layout.py; count $?
part layout-tool tests/layout.sh; count $?
part changelog tools/changelog.py --check; count $?
part page tools/page.py --check; count $?
part words tests/words.sh; count $?

# the toolchain's verdict, its lines as they come; what it counted is counted here, a bad must-fail edit as a failure, and it fails with its exit status too
echo "== rt ci"
start=$SECONDS
rt ci 2>&1 | tee "$logs/rt-ci" | tools/progress.py ci
verdict=${PIPESTATUS[0]}
read -r good bad < <(tools/counted.sh "$logs/rt-ci" "$verdict")
echo "   $([ "$verdict" = 0 ] && [ "$bad" = 0 ] && echo ok || echo FAILED: rt ci), $((SECONDS - start)) s"
passed=$((passed + good))
failed=$((failed + bad))
part edit-reasons tools/edit_table.py --log "$logs/rt-ci"; count $?
# what it proved and left is taken below, and not proved once more
[ "$verdict" != 0 ] || tools/built.py --passed

# tests PACKAGE WORDS..: the tests of a cargo package, each counted; one that hangs fails
tests() {
  local package=$1 status ran bad
  shift
  part "$package" timeout 600 cargo test --release --quiet --offline --manifest-path "$package/Cargo.toml" "$@"
  status=$?
  ran=$(grep -oE '[0-9]+ passed' "$logs/$package" | awk '{ s += $1 } END { print s + 0 }')
  bad=$(grep -oE '[0-9]+ failed' "$logs/$package" | awk '{ s += $1 } END { print s + 0 }')
  passed=$((passed + ran))
  failed=$((failed + bad))
  [ "$status" = 0 ] || [ "$bad" != 0 ] || failed=$((failed + 1))
  [ "$ran" != 0 ] || failed=$((failed + 1))
}

# both at once, on two cores: the second program and what is compared with it; programs in C over the libraries
part static-libraries tools/staticlib.sh; count $?

compared() {
  tests second
  tests compare -- --nocapture
  sed -nE 's/^\.*(compare [^:]*: seed [0-9]+, [0-9]+ in [0-9.]+ s):.*/   \1/p' "$logs/compare"
  part schedules tests/schedules/run.sh; count $?
  grep -E '^(all schedules|random schedules|schedules of|[0-9]+ schedules|the programs)' "$logs/schedules" | sed -E 's/( s): .*/\1/; s/^/   /'
}

in_c() {
  part client-in-c tests/c/client.sh; count $?
  part helpers-in-c tests/c/helpers.sh; count $?
  part link-in-c tests/c/link.sh; count $?
  part delivery tests/dist.sh; count $?
  part lock-in-c tests/c/lock.sh; count $?
  part earlier-logs tests/logs/run.sh; count $?
  part power-cuts tests/c/power.py; count $?
  grep -E '^(seed|[0-9]+ starts|line:)' "$logs/power-cuts" | sed 's/^/   /'
  part plant tests/c/plant.py; count $?
  grep -E '^(seed|starts)' "$logs/plant" | sed 's/^/   /'
  part guide tests/c/guide.py; count $?
  part reference tests/reference/run.sh; count $?
  part arm tests/arm/run.sh; count $?
  grep -E '^(skipped|recorded calls)' "$logs/arm" | sed 's/^/   /'
  # the simulator's case, and the host program in C
  part run tools/run.sh; count $?
}

# lane NAME: this function in a shell of its own; what it counted is in $logs/NAME
lane() { passed=0; failed=0; "$1"; echo "$passed $failed" >"$logs/$1"; }
for name in compared in_c; do lane $name & done
wait
for name in compared in_c; do
  read -r more wrong <"$logs/$name" || { more=0; wrong=1; }
  passed=$((passed + more))
  failed=$((failed + wrong))
done

# with nothing beside it: it holds the reader to a second of processor time
part card-reader tests/c/reader.py; count $?

echo "== all: $((SECONDS - began)) s"
# for make dist: what was said last, and of which commit
[ ! -d target ] || printf '%s\n%s passed, %s failed\n' "$(tools/commit.sh)" "$passed" "$failed" >target/verdict
echo "$passed passed, $failed failed"
[ "$failed" = 0 ]
