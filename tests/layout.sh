#!/usr/bin/env bash
# tools/layout.py on a small repository: it passes there, and with a planted fault it fails and names the place: a long line of code, of a definition, a chain in a proof, an import
# that nothing uses, a parameter of one letter that has another letter's type, a letter that stands for no type.
set -eu
cd "$(dirname "$0")/.."
tool=$PWD/tools/layout.py
folder=$(mktemp -d)
trap 'rm -rf "$folder"' EXIT
cd "$folder"
mkdir -p tools crates/small/src crates/small/specs crates/small/proofs/first
cp "$tool" tools/layout.py

# line LENGTH SIGN: so many signs
line() { printf "%*s" "$1" '' | tr ' ' "$2"; }

cat >crates/small/src/lib.rt <<CODE
// $(line 117 c)
ghost use Rattle.std.specs.Prelude.{◌<◌, length$(line 100 ' ')};

pub fn first<'a>(s: &'a [u8], mut k: usize, d: &mut Client, other: [u8; 4]) -> u8
    requires { k < length s.now }
{
    s[k]
}

fn second(
    v: u32,
    b: u8,
) -> u32 {
    v
}
CODE
printf -- '-- %s\nuse Rattle.std.specs.Prelude.{◌+◌, length}\n\ntwice s = length s + length s\n' "$(line 197 c)" >crates/small/specs/Lib.antt
printf 'returns c = c%s .pre\n' "$(for _ in 1 2 3 4 5 6 7 8 9; do printf ' .before'; done)" >crates/small/proofs/first/Proof.antt
tools/layout.py >said || { cat said; echo "layout.py fails without an edit"; exit 1; }
tried=0

# due WORDS FILE SED: with this edit layout.py fails and says these words, and nothing else is a fault
due() {
  cp "$2" kept
  sed -i -E "$3" "$2"
  ! cmp -s kept "$2" || { echo "the edit $3 does not fit $2"; exit 1; }
  if tools/layout.py >said; then echo "layout.py passes with $3 in $2"; exit 1; fi
  if ! grep -qxF -- "$2$1" said || ! grep -qF ' files, 1 faults' said; then cat said; echo "layout.py with $3 in $2: '$2$1' alone is due"; exit 1; fi
  cp kept "$2"
  tried=$((tried + 1))
}

code=crates/small/src/lib.rt
due ':1: 121 characters' $code '1s/c$/cc/'
due ':1: 201 characters' crates/small/specs/Lib.antt '1s/c$/cc/'
due ':1: ten or more .before in a row' crates/small/proofs/first/Proof.antt 's/ .pre/ .before&/'
due ': length of Rattle.std.specs.Prelude is not used' crates/small/specs/Lib.antt 's/length s/size s/g'
due ': ◌+◌ of Rattle.std.specs.Prelude is not used' crates/small/specs/Lib.antt 's/ \+ / - /'
due ':4: first: k is u32; the letter is usize' $code 's/mut k: usize/mut k: u32/'
due ':4: first: s is [u32]; the letter is [u8]' $code "s/'a \[u8\]/'a [u32]/"
due ':4: first: d is Chamber; the letter is Client' $code 's/mut Client/mut Chamber/'
due ':4: first: o is [u8; 4]; the letter stands for no type' $code 's/other:/o:/'
due ':10: second: b is u32; the letter is u8' $code 's/ b: u8/ b: u32/'
echo "$tried edits, each found"
