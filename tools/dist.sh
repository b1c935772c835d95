#!/usr/bin/env bash
# tools/dist.sh: dist/mantelorris-VERSION.tar.gz, with library, headers, files for pkg-config and CMake, examples, the trial of a host under power cuts, the documents for makers as one page, and MANIFEST: version, commit, kit, what the
# gate said last of this commit, and the SHA-256 of each file (sha256sum -c MANIFEST). The same commit and kit give the same bytes.
# tools/dist.sh aarch64: dist/aarch64/mantelorris-VERSION-aarch64.tar.gz, the same for 64-bit Arm.
set -eu -o pipefail
cd "$(dirname "$0")/.."
target=${1:-}
[ "$target" != x86-64 ] || target=
kit=$(tools/kit.sh)
version=$(sed -nE 's/^#define MANTELORRIS_VERSION_(MAJOR|MINOR) ([0-9]+)$/\2/p' include/mantelorris.h | paste -sd .)
name=mantelorris-$version${target:+-$target}
into=dist${target:+/$target}
stage=$(mktemp -d)
trap 'rm -rf "$stage"' EXIT
to=$stage/$name
mkdir -p "$to/examples" "$to/tests/c"
tools/lib.sh --target "$target" install / "$to" | sed '/^installed below/d'
cp examples/*.c examples/*.h "$to/examples/"
cp tests/c/power.py tests/c/power.c "$to/tests/c/"
cp -r examples/reader "$to/examples/"
cp CHANGELOG.md LICENSE SECURITY.md "$to/"
tools/page.py "$to/guide.html" >/dev/null
commit=$(tools/commit.sh)
said='not run on this commit'
if [ -f target/verdict ] && [ "${commit%, with changes}" = "$commit" ] && [ "$(head -n 1 target/verdict)" = "$commit" ]; then said=$(tail -n 1 target/verdict); fi
(
  cd "$to"
  find . -type f | sed 's,^\./,,' | LC_ALL=C sort >"$stage/files"
  { printf '# mantelorris %s%s\n# commit %s\n# kit %s\n# make test: %s\n' "$version" "${target:+ for $target}" "$commit" "$kit" "$said"; xargs -d '\n' sha256sum <"$stage/files"; } >MANIFEST
)
find "$to" -type d -exec chmod 755 {} + -o -type f -exec chmod 644 {} +
chmod 755 "$to/tests/c/power.py"
tar --format=ustar --sort=name --mtime="@$(git log -1 --format=%ct 2>/dev/null || echo 0)" --owner=0 --group=0 --numeric-owner -C "$stage" -cf - "$name" | gzip -9n >"$into/$name.tar.gz"
echo "$into/$name.tar.gz, SHA-256 $(sha256sum "$into/$name.tar.gz" | cut -d ' ' -f 1)"
if grep -q 'FILLED IN BY THE OWNER' LICENSE; then echo "LICENSE and SECURITY.md are not filled in: the owner must do so before this is given to anybody"; fi
