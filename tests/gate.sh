#!/usr/bin/env bash
# The toolchain's gate on a small repository: it passes; then it fails on a crate that crates.txt does not list, on a Rattle file that no listed crate has, on a file that is not laid out, on a function that is
# not proved and on a must-fail edit that the prover takes. What tools/test.sh takes for the verdict, exit status and what tools/counted.sh counts, says so each time; a bad edit, which rt ci itself
# lets pass, is counted as a failure.
set -eu
cd "$(dirname "$0")/.."
top=$PWD
folder=$(mktemp -d)
trap 'rm -rf "$folder"' EXIT
cd "$folder"
tried=0

# due STATUS CLOSING COUNTED WORDS: rt ci ends so, is counted so, and says these words
due() {
  local have=0
  rt ci >said 2>&1 || have=$?
  tried=$((tried + 1))
  if [ "$have" = "$1" ] && [ "$(tail -n 1 said)" = "$2" ] && [ "$("$top/tools/counted.sh" said "$have")" = "$3" ] && grep -qF -- "$4" said; then return 0; fi
  cat said
  echo "rt ci: status $have, counted $("$top/tools/counted.sh" said "$have"); due: $1, '$2' as its last line, counted $3, and '$4'"
  exit 1
}

# answers NUMBER [BLANKS]: the crate's one function, which is to answer 7
answers() { printf '#![tactic(auto)]\n\nghost use Rattle.std.specs.Prelude.{◌≡◌};\n\npub fn seven() -> usize\n    ensures { result ≡ 7 }\n{\n    %s%s\n}\n' "${2:-}" "$1" >crates/small/src/lib.rt; }

# edit OLD NEW: the crate's one must-fail edit
edit() { printf '# six\nfile: src/lib.rt\nold:     %s\nnew:     %s\n' "$1" "$2" >crates/small/must-fail/six.edit; }

mkdir -p crates/small/src crates/small/must-fail
echo 'small:' >crates.txt
answers 7
edit 7 6
due 0 '2 passed, 0 failed' '2 0' 'must-fail small/six.edit: refused'

edit 8 6
due 0 '1 passed, 0 failed' '1 1' 'must-fail small/six.edit: BAD EDIT'
edit 7 7
due 0 '1 passed, 0 failed' '1 1' 'must-fail small/six.edit: BAD EDIT'
rm -r crates/small/must-fail

mkdir -p crates/unlisted/src
cp crates/small/src/lib.rt crates/unlisted/src
due 2 '0 passed, 1 failed' '0 1' 'crates/unlisted/src/lib.rt'
rm -r crates/unlisted

cp crates/small/src/lib.rt crates/small/extra.rt
due 2 '0 passed, 1 failed' '0 1' 'extra.rt'
rm crates/small/extra.rt

answers 7 '  '
due 1 '0 passed, 1 failed' '0 1' 'small NOT PROVED'

answers '3 + 4'
mkdir crates/small/must-fail
edit '3 + 4' '4 + 3'
due 1 '1 passed, 1 failed' '1 1' 'must-fail small/six.edit: NOT REFUSED'
rm -r crates/small/must-fail

answers 8
due 1 '0 passed, 1 failed' '0 1' 'small NOT PROVED'
echo "rt ci: $tried cases"
