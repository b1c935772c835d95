#!/usr/bin/env bash
# Builds tests/c/helpers.c with the static libraries kernel and client_exports and runs it, as C and as C++ where there is one: the headers' inline functions against the library. The last line is
# 'N passed, M failed'.
set -eu
cd "$(dirname "$0")/../.."
tools/staticlib.sh client_exports kernel >/dev/null
libraries="target/staticlib/libkernel.a target/staticlib/libclient_exports.a"
if command -v c++ >/dev/null; then
  c++ -std=c++11 -O1 -Wall -Wextra -Werror -Iinclude -x c++ tests/c/helpers.c -x none $libraries -o target/helpers_test
  target/helpers_test >/dev/null
fi
cc -std=c11 -O1 -Wall -Wextra -Werror -fsanitize=undefined -fno-sanitize-recover=undefined -Iinclude tests/c/helpers.c $libraries -o target/helpers_test
target/helpers_test
