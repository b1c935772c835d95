#!/usr/bin/env bash
# tools/lib.sh: dist/ with libmantelorris.a (server, client, lease manager and lock chamber controller in one archive), the headers and a pkg-config file. The archive is made of the
# proved crates' own static libraries.
# tools/lib.sh --target aarch64: the same in dist/aarch64/, for 64-bit Arm: the same proved crates, built for that processor by the kit's own compiler.
# tools/lib.sh [--target TARGET] install PREFIX [DESTDIR]: and copies them below DESTDIR and PREFIX, with files for pkg-config and CMake that find what lies beside them: the tree may be moved.
set -eu
here=$PWD
cd "$(dirname "$0")/.."
target=x86-64
if [ "${1:-}" = --target ]; then
  target=${2:-x86-64}
  shift 2
fi
case $target in
  x86-64) dist=dist compiler=cc ;;
  aarch64) dist=dist/aarch64 compiler=aarch64-linux-gnu-gcc ;;
  *) echo "TARGET is '$target': there are x86-64, which is meant without TARGET, and aarch64; none of 32 bits and none that is big-endian (docs/GUIDE.md, 64-bit Arm)" >&2; exit 2 ;;
esac
if [ "${1:-}" = install ]; then
  prefix=${2:-}
  case $prefix in
    /*) ;;
    '') echo "where to? make install PREFIX=/usr/local, or with DESTDIR=folder to put the tree below a folder" >&2; exit 2 ;;
    *) echo "PREFIX is '$prefix': it must begin with /, as in make install PREFIX=$here/$prefix" >&2; exit 2 ;;
  esac
  into=${3:-}
  case $into in /* | '') ;; *) into=$here/$into ;; esac
fi
# 1: another kit: said, and the library is made and proved by that one
tools/kit.sh >/dev/null || [ $? = 1 ] || exit 1
libraries='kernel client_exports chamber_c'
tools/staticlib.sh --target "$target" $libraries
case $target in
  x86-64) from=target/staticlib archiver=ar ;;
  aarch64) from=target/staticlib/aarch64 archiver=$(tools/kit.sh --home)/toolchain/bin/llvm-ar ;;
esac
version=$(sed -nE 's/^#define MANTELORRIS_VERSION_(MAJOR|MINOR) ([0-9]+)$/\2/p' include/mantelorris.h | paste -sd .)
mkdir -p "$dist"
# made beside the old one and renamed: a program that is being linked finds an archive at every moment
made=$dist/made.$$.a
trap 'rm -f "$made"' EXIT

{
  echo "CREATE $made"
  for name in $libraries; do echo "ADDLIB $from/lib$name.a"; done
  printf 'SAVE\nEND\n'
} | "$archiver" -M
mv -f "$made" "$dist/libmantelorris.a"
cp include/*.h "$dist/"

pc() { # PREFIX INCLUDE LIB, from where the file stands
  printf 'prefix=${pcfiledir}%s\n\nName: mantelorris\nDescription: command kernel of control cabinets: server, client, lease manager, lock chamber controller\nVersion: %s\n' "$1" "$version"
  printf 'Cflags: -I${prefix}%s\nLibs: -L${prefix}%s -lmantelorris\n' "$2" "$3"
}

cmake_files() { # FOLDER
  cat >"$1/mantelorris-config.cmake" <<'CMAKE'
# find_package(mantelorris) and target_link_libraries(host mantelorris::mantelorris)
get_filename_component(mantelorris_PREFIX "${CMAKE_CURRENT_LIST_DIR}/../../.." ABSOLUTE)
if(NOT TARGET mantelorris::mantelorris)
  add_library(mantelorris::mantelorris STATIC IMPORTED)
  set_target_properties(mantelorris::mantelorris PROPERTIES
    IMPORTED_LOCATION "${mantelorris_PREFIX}/lib/libmantelorris.a"
    INTERFACE_INCLUDE_DIRECTORIES "${mantelorris_PREFIX}/include")
endif()
CMAKE
  cat >"$1/mantelorris-config-version.cmake" <<CMAKE
# a version with the same major number that is not older than the one asked for
set(PACKAGE_VERSION "$version")
if(PACKAGE_FIND_VERSION VERSION_GREATER PACKAGE_VERSION OR (PACKAGE_FIND_VERSION AND NOT PACKAGE_FIND_VERSION_MAJOR EQUAL ${version%%.*}))
  set(PACKAGE_VERSION_COMPATIBLE FALSE)
else()
  set(PACKAGE_VERSION_COMPATIBLE TRUE)
  if(PACKAGE_FIND_VERSION VERSION_EQUAL PACKAGE_VERSION)
    set(PACKAGE_VERSION_EXACT TRUE)
  endif()
endif()
CMAKE
}

pc '' '' '' >"$dist/mantelorris.pc"
echo "$dist/libmantelorris.a $(wc -c <"$dist/libmantelorris.a") bytes, version $version; link: $compiler examples/host.c examples/card.c -I$dist -L$dist -lmantelorris -o host"
if [ "${1:-}" = install ]; then
  to=$into${prefix%/}
  mkdir -p "$to/lib/pkgconfig" "$to/lib/cmake/mantelorris" "$to/include" || { echo "not installed: $to cannot be written" >&2; exit 1; }
  cp "$dist/libmantelorris.a" "$to/lib/"
  cp "$dist"/*.h "$to/include/"
  pc /../.. /include /lib >"$to/lib/pkgconfig/mantelorris.pc"
  cmake_files "$to/lib/cmake/mantelorris"
  echo "installed below ${to:-/}"
fi
