#!/usr/bin/env bash
# What `make dist` packs: the same bytes from two folders, each file as MANIFEST says and none beside them, a page without a lost picture; unpacked anywhere, the example host is built by pkg-config's
# line and by CMake, which refuses a later version, and tried under power cuts. `make install` with DESTDIR.
set -eu
cd "$(dirname "$0")/.."
top=$PWD
work=$(mktemp -d)
trap 'rm -rf "$work"' EXIT
tools/dist.sh >"$work/said"
archive=$(ls dist/mantelorris-*.tar.gz)
cp "$archive" "$work/here.tar.gz"

# the same files elsewhere, the proved static libraries with them: rt has nothing to do there
git clone -q --shared . "$work/a folder"
git ls-files -z | xargs -0 cp --parents -t "$work/a folder"
git ls-files -z --others --exclude-standard | xargs -0r cp --parents -t "$work/a folder"
mkdir "$work/a folder/target" "$work/bin"
cp -r target/staticlib "$work/a folder/target"
[ ! -f target/verdict ] || cp target/verdict "$work/a folder/target"
printf '#!/bin/sh\n[ "$1" != version ] || echo "%s"\n' "$(rt version)" >"$work/bin/rt"
chmod +x "$work/bin/rt"
(umask 077; PATH=$work/bin:$PATH "$work/a folder/tools/dist.sh" >/dev/null)
cmp "$work/here.tar.gz" "$work/a folder/$archive" || { echo "two folders give two archives"; exit 1; }

mkdir "$work/moved"
tar -C "$work/moved" -xzf "$archive"
cd "$work/moved/"*
sha256sum --quiet --strict -c MANIFEST
[ "$(grep -c '^[0-9a-f]' MANIFEST)" = "$(find . -type f ! -name MANIFEST | wc -l)" ] || { echo "MANIFEST does not list every file"; exit 1; }
for word in mantelorris commit kit 'make test:'; do grep -q "^# $word ." MANIFEST || { echo "MANIFEST lacks $word"; exit 1; }; done
python3 - <<'PYTHON'
import html.parser, re
class Balanced(html.parser.HTMLParser):
    def __init__(self):
        super().__init__(convert_charrefs=True)
        self.open, self.pictures, self.words = [], 0, []
    def handle_starttag(self, tag, attributes):
        self.pictures += tag == 'img'
        if tag not in ('meta', 'img'):
            self.open.append(tag)
    def handle_endtag(self, tag):
        assert self.open and self.open[-1] == tag, (tag, self.open, self.getpos())
        self.open.pop()
    def handle_data(self, data):
        if not {'code', 'pre', 'style'} & set(self.open):
            self.words.append(data)
page = Balanced()
page.feed(open('guide.html', encoding='utf-8').read())
left = re.findall(r'.{0,30}(?:\*\*|\]\(|```|\n\|).{0,30}', ''.join(page.words))
assert not page.open and page.pictures >= 6 and not left, (page.open, page.pictures, left)
PYTHON
flags="-Iinclude -Llib -lmantelorris"
if command -v pkg-config >/dev/null; then flags=$(PKG_CONFIG_PATH=$PWD/lib/pkgconfig pkg-config --cflags --libs mantelorris); fi
cc examples/host.c examples/card.c $flags -o "$work/host"
"$work/host" >/dev/null 2>&1 && exit 1 # it asks for a card
# and by the guide's line
$(sed -nE 's/^    (cc examples\/host.c .* -Llib .*)$/\1/p' "$top/docs/GUIDE.md")
# a maker's trial of it, with what is in the delivery and no kit
PATH=/usr/local/bin:/usr/bin:/bin POWER_KILLS=12 tests/c/power.py --serve './host {card} {port} 400' --found './host --found {card}' >"$work/power" 2>&1 || { cat "$work/power"; exit 1; }
rm host
# the card reader, by the guide's line
bash -c "$(sed -nE 's/^    (cc examples\/reader.* -Llib .*)$/\1/p' "$top/docs/GUIDE.md")"
./mantelorris-card --hex '06 00 00 00 01 00 00 00 58 02 00 00' | grep -q 'client 1: lease end 600'
rm mantelorris-card
if command -v cmake >/dev/null; then
  printf 'cmake_minimum_required(VERSION 3.5)\nproject(user C)\nfind_package(mantelorris 1.0 REQUIRED)\nfind_package(mantelorris 2.0 QUIET)\nif(mantelorris_FOUND)\n  message(FATAL_ERROR "2.0")\nendif()\n' >"$work/CMakeLists.txt"
  printf 'add_executable(user %s/examples/host.c %s/examples/card.c)\ntarget_link_libraries(user mantelorris::mantelorris)\n' "$PWD" "$PWD" >>"$work/CMakeLists.txt"
  cmake -S "$work" -B "$work/build" -DCMAKE_PREFIX_PATH="$PWD" >"$work/cmake" 2>&1 && cmake --build "$work/build" >>"$work/cmake" 2>&1 || { cat "$work/cmake"; exit 1; }
  "$work/build/user" >/dev/null 2>&1 && exit 1
fi
cd "$top"
make --no-print-directory install PREFIX=/usr DESTDIR="$work/root" >/dev/null
[ -f "$work/root/usr/lib/libmantelorris.a" ] && [ -f "$work/root/usr/include/mantelorris.h" ]
"$work/root/usr/bin/mantelorris-card" --help | grep -q 'never writes'
echo "one archive from two folders: $(sha256sum <"$archive" | cut -d ' ' -f 1)"
