#!/usr/bin/env bash
# tools/claims.py on a copy of the repository: it passes there, and fails with the right words for a wrong figure, a mark that names nothing, something counted that no document
# states, and a name, crate or file that is not there. tools/figures.py --write mends a figure.
set -eu
cd "$(dirname "$0")/.."
folder=$(mktemp -d)
trap 'rm -rf "$folder"' EXIT
tar -c --exclude=target --exclude=dist --exclude=out --exclude=.git . | tar -x -C "$folder"
cd "$folder"
tools/claims.py >/dev/null || { echo "claims.py fails without an edit"; exit 1; }
tried=0

# edited FILE SED: the file with this edit; what it was is kept
edited() {
  cp "$1" kept
  sed -i -E "$2" "$1"
  ! cmp -s kept "$1" || { echo "the edit $2 does not fit $1"; exit 1; }
}

# due WORDS FILE SED: with this edit claims.py fails and says these words
due() {
  local said
  edited "$2" "$3"
  if said=$(tools/claims.py); then echo "claims.py passes with $3 in $2"; exit 1; fi
  grep -qF -- "$1" <<<"$said" || { echo "claims.py with $3 in $2: '$1' is due, and it says: $said"; exit 1; }
  cp kept "$2"
  tried=$((tried + 1))
}

due 'docs/SAFETY.md: 7 of events, and there are' docs/SAFETY.md 's/[0-9]+<!--=events-->/7<!--=events-->/'
due 'docs/REFERENCE.md: five of versions.part, and there are' docs/REFERENCE.md 's/\w+<!--=versions.part-->/five<!--=versions.part-->/'
due 'docs/DECISIONS.md: eleven of server-calls, and there are' docs/DECISIONS.md 's/\w+<!--=server-calls-->/eleven<!--=server-calls-->/'
due 'docs/SAFETY.md: nothing counts happenings' docs/SAFETY.md 's/<!--=events-->/<!--=happenings-->/'
due 'docs/SAFETY.md: a mark without a figure' docs/SAFETY.md 's/[0-9]+<!--=events-->/ <!--=events-->/'
due 'lock-events: there are' docs/SAFETY.md 's/<!--=lock-events-->//'
due 'versions.report: there are 2, and no document says so' crates/model/specs/Versions.antt 's/eqb op step_op/eqb op report_op/'
due 'of events, and there are' crates/proof_sanity/specs/Moved.antt 's/^    ∷ store 1$/&\n&/'
due 'of libraries, and there are' tools/staticlib.sh 's/\|\| set -- /&simulator_c /'
due 'of exceptions, and there are' tools/callers.py 's/"leases::renew", //'
due 'docs/SAFETY.md: no crate command' docs/SAFETY.md 's/^\| `format_commands` \|/| `command` |/'
due 'docs/SERVER.md: no file crates/lent/proofs/Settled' docs/SERVER.md 's,`server_memory/proofs/,`lent/proofs/,'
due 'docs/DECISIONS.md: Calls.call-alike is not there' docs/DECISIONS.md 's/`Called.call-alike`/`Calls.call-alike`/'
due 'README.md: its table lacks the crate chamber' README.md 's/^\| chamber \|/| leases |/'

edited docs/SAFETY.md 's/[0-9]+<!--=events-->/7<!--=events-->/'
tools/figures.py --write >/dev/null
cmp kept docs/SAFETY.md || { echo "figures.py --write: not as it was"; exit 1; }
echo "$tried edits, each found; a figure mended"
