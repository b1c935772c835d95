#!/usr/bin/env bash
# Recovers the logs and checkpoints of earlier versions (tests/logs/VERSION, written by write.c with the library of that version: first 1.0, second 1.3,
# third 1.5, fourth 1.6) with today's libraries: the servers must hold the results and values that they held then, and go on behind them (recover.c).
# run.sh --write FOLDER writes such a folder with today's libraries.
set -euo pipefail
cd "$(dirname "$0")/../.."
tools/staticlib.sh >/dev/null
built() { cc -std=c11 -O1 -Wall -Wextra -Werror -Iinclude "tests/logs/$1.c" target/staticlib/libkernel.a target/staticlib/libclient_exports.a -o "target/${1}_logs"; }
if [ "${1:-}" = --write ]; then
  built write
  mkdir "$2"
  target/write_logs "$2"
  exit
fi
built recover
for folder in tests/logs/*/; do
  target/recover_logs "$folder" | cmp - "$folder/results"
  echo "$folder: recovered as it was written"
done
