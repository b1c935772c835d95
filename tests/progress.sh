#!/usr/bin/env bash
# tools/progress.py on what rt prints, by a program of that name: rt's lines on crates and edits with their number of how many, the prover's words only where something is not
# proved, rt's exit status.
set -eu
cd "$(dirname "$0")/.."
folder=$(mktemp -d)
trap 'rm -rf "$folder"' EXIT
mkdir -p "$folder/bin" "$folder/tools" "$folder/crates/a" "$folder/crates/b/must-fail" "$folder/crates/c"
cp tools/progress.py tools/kit-id "$folder/tools"
printf '# two crates\na:\nb staticlib: a io\nc: a\n' >"$folder/crates.txt"
: >"$folder/crates/b/must-fail/one.edit"
: >"$folder/crates/b/must-fail/two.edit"
tried=0

# says STATUS: what rt is to print comes from standard input; with it come the words and the folder that it was run with
says() {
  cat >"$folder/said"
  printf '#!/bin/sh\necho "$(basename "$PWD")" "$@" >>%s\ncat %s\nexit %s\n' "$folder/asked" "$folder/said" "$1" >"$folder/bin/rt"
  chmod +x "$folder/bin/rt"
  : >"$folder/asked"
}

# due STATUS WORDS..: progress.py with these words gives this status; its output is due on standard input
due() {
  local status=$1 have=0
  shift
  if [ "$1" = rt ]; then PATH=$folder/bin:$PATH "$folder/tools/progress.py" "$@" >"$folder/have" || have=$?; else "$folder/tools/progress.py" "$@" <"$folder/said" >"$folder/have" || have=$?; fi
  cat >"$folder/due"
  [ "$have" = "$status" ] || { echo "$*: status $have, not $status"; exit 1; }
  diff "$folder/due" "$folder/have" || { echo "$*: not as due"; exit 1; }
  tried=$((tried + 1))
}

# asked WORDS: rt was run so
asked() { [ "$(cat "$folder/asked")" = "$1" ] || { echo "rt was run with: $(cat "$folder/asked"); due: $1"; exit 1; }; }

says 0 <<'END'
only=0 proved=0
rt: chose --jobs 2 for b
fn b::f: proved
logic=proved functions=1
END
due 0 rt check b <<'END'
1/2 b proved (0 s)
2/2 1 unchanged
END
asked 'b check'

says 0 </dev/null
due 0 rt check a <<'END'
1/1 1 unchanged
END
asked 'a lib'

says 0 </dev/null
due 0 rt lib b --target somewhere <<'END'
2/2 2 unchanged
END
asked 'b lib --target somewhere'

says 1 <<'END'
rt: chose --jobs 2 for a
fn a::f: proved
logic=proved functions=1
rt: chose --jobs 2 for b
src/lib.rt:3:1: error: it is not so
logic=not-proved
END
due 1 rt check b <<'END'
1/2 a proved (0 s)
src/lib.rt:3:1: error: it is not so
logic=not-proved
2/2 b NOT PROVED
END

says 1 <<'END'
rt: chose 2 at a time
only=0 proved=0
== a
== b
rt: chose --jobs 1 for b
src/lib.rt:3:1: error: it is not so
logic=not-proved
== c
rt: chose --jobs 1 for c
logic=proved functions=1
== summary
a: ok
b: failed (1)
c: ok
2 of 3 crates ok
END
due 1 rt check <<'END'
1/3 1 unchanged
rt: chose --jobs 1 for b
src/lib.rt:3:1: error: it is not so
logic=not-proved
2/3 b NOT PROVED
3/3 c proved
b: failed (1)
2 of 3 crates ok
END
asked "$(basename "$folder") all check"

says 1 <<'END'
src/lib.rt:3:1: error[unexpected-token]: expected item
rt: mend these first: no library was built
END
due 1 rt check c <<'END'
src/lib.rt:3:1: error[unexpected-token]: expected item
rt: mend these first: no library was built
END

says 1 <<'END'
== a
fn a::f: proved
logic=proved functions=1
rt: a proved
== b
src/lib.rt:3:1: error: it is not so
rt: b NOT PROVED
rt: c is kept: an earlier run on this machine proved the same files over the same libraries
rt: must-fail b/one.edit: refused, as it must be: src/lib.rt:1:1: error
rt: must-fail b/two.edit: NOT REFUSED: the crate is still proved with this edit
rt: FAILED: b/two.edit
4 passed, 1 failed
END
due 0 ci <<'END'
1/3 rt: a proved
== b
src/lib.rt:3:1: error: it is not so
2/3 rt: b NOT PROVED
3/3 rt: c is kept: an earlier run on this machine proved the same files over the same libraries
1/2 rt: must-fail b/one.edit: refused, as it must be: src/lib.rt:1:1: error
2/2 rt: must-fail b/two.edit: NOT REFUSED: the crate is still proved with this edit
rt: FAILED: b/two.edit
4 passed, 1 failed
END

# of many crates it says about how long is left; of those that were proved before nothing
seq 60 | sed 's/.*/d&: a/; 1i a:' >"$folder/crates.txt"
says 0 <<'END'
== a
fn a::f: proved
logic=proved functions=1
== d1
== summary
a: ok
d1: ok
61 of 61 crates ok
END
due 0 rt check <<'END'
1/61 a proved, about 8 min left
2/61 1 unchanged
61 of 61 crates ok
END

# a sum is of the crate's files, those that it rests on and their lines, and of no other's
says 0 </dev/null
mkdir -p "$folder/crates/d1/src" "$folder/crates/d2/src"
sum() { PATH=$folder/bin:$PATH "$folder/tools/progress.py" --sum d1; }
was=$(sum)
echo other >"$folder/crates/d2/src/lib.rt"
[ "$(sum)" = "$was" ] || { echo "the sum of d1 changes with d2"; exit 1; }
mkdir "$folder/crates/a/specs"
echo other >"$folder/crates/a/specs/Lib.antt"
[ "$(sum)" != "$was" ] || { echo "the sum of d1 does not change with a"; exit 1; }
echo "progress.py: $tried cases"
