#!/usr/bin/env bash
# Builds tests/c/client.c with the static library client_exports and runs it. The last line is 'N passed, M failed'.
set -eu
cd "$(dirname "$0")/../.."
tools/staticlib.sh client_exports >/dev/null
cc -std=c11 -O1 -Wall -Wextra -Werror -Iinclude tests/c/client.c target/staticlib/libclient_exports.a -o target/client_test
target/client_test
