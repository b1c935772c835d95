#!/usr/bin/env bash
# Builds tests/c/host.c with the static libraries kernel and client_exports and runs it; its headers are compiled as C++ too. The last line is
# 'N passed, M failed'.
set -eu
cd "$(dirname "$0")/../.."
tools/staticlib.sh client_exports kernel >/dev/null
if command -v c++ >/dev/null; then
  printf '#include "mantelorris.h"\n#include "mantelorris_client.h"\n' | c++ -std=c++11 -Wall -Wextra -Werror -Iinclude -fsyntax-only -x c++ -
fi
cc -std=c11 -O1 -Wall -Wextra -Werror -Iinclude tests/c/host.c target/staticlib/libkernel.a target/staticlib/libclient_exports.a -o target/host_test
target/host_test
