#!/usr/bin/env bash
# tools/run.sh: what the product does: the simulator's whole case, answered by the proved program and compared; then a host
# program in C over the proved server and client: two servers, two clients, a poor line, power cuts, a point that moves. Where nothing is proved yet, the case is
# first run without proof, to have something to read.
# tools/run.sh SCHEDULE: a schedule of one's own, each line beside its answer.
set -eu
here=$PWD
cd "$(dirname "$0")/.."
answers=$(mktemp)
trap 'rm -f "$answers"' EXIT

if [ -n "${1:-}" ]; then
  schedule=$1
  case $schedule in /*) ;; *) schedule=$here/$schedule ;; esac
  tools/yard.sh "$schedule" "$answers"
  echo "== $1: answers by the proved program yard; the words beside them by tools/schedule.py, which is not proved"
  tools/schedule.py "$schedule" "$answers"
  exit
fi

if [ ! -e target/bin/yard ]; then
  tools/kit.sh >/dev/null || [ $? = 1 ] # words if there is no rt
  echo "== the paper's case, tried in seconds and with no proof: rt runs the program yard on the interpreter and compiled"
  (cd crates/yard && rt try <stdin)
  cmp -s crates/yard/stdout tests/yard/paper.out && tools/schedule.py tests/yard/paper.in tests/yard/paper.out
  echo
  echo "Now the same by the program as it is proved: all crates that it rests on are proved first, for minutes. Later runs start at once."
fi
tools/yard.sh tests/yard/paper.in "$answers"
echo "== the paper's case: answers by the proved program yard; the words beside them by tools/schedule.py, which is not proved"
tools/schedule.py tests/yard/paper.in "$answers"
if ! cmp -s "$answers" tests/yard/paper.out; then
  echo "NOT as in the paper; expected:"
  cat tests/yard/paper.out
  exit 1
fi
echo "as in the paper"
echo
echo "== proving the C libraries of server, client and lease manager"
tools/staticlib.sh client_exports kernel
echo "== a host in C (tests/c/host.c, not proved) over these libraries (proved): line, memory card and clock are the host's"
tests/c/host.sh
