#!/usr/bin/env bash
# tools/edits.sh [NAME..]: tries the must-fail edits of these crates, or of all, by rt itself, over what was proved before. No verdict: `make test` is.
set -u
cd "$(dirname "$0")/.." || exit 2
tools/progress.py rt check "$@" || exit
rt must-fail "$@" 2>&1 | tools/progress.py must-fail "$@"
status=${PIPESTATUS[0]}
echo "no verdict: what was proved before was not proved again; make test is the verdict"
exit "$status"
