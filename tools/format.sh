#!/usr/bin/env bash
# tools/format.sh: whether every file of code, definitions and proofs is laid out as `rt fmt` lays it out; names those that are not, and writes nothing. The gate's rt ci refuses such a file too.
set -eu -o pipefail
cd "$(dirname "$0")/.."
find crates -path '*/out' -prune -o \( -name '*.rt' -o -name '*.antt' \) -print0 | LC_ALL=C sort -z | xargs -0 "$(tools/kit.sh --home)/bin/rattle" fmt --check >/dev/null
echo "every file is laid out"
