#!/usr/bin/env bash
# tools/kit.sh: the identity of the installed kit, where tools/kit-id has it; else says in words what is lacking, and fails: 1 another kit, 2 no rt.
# tools/kit.sh --home: the kit's folder.
set -u
cd "$(dirname "$0")/.." || exit 2
command -v rt >/dev/null || { echo "rt is not on the PATH: install the Rattle kit ($(head -n 1 tools/kit-id))" >&2; exit 2; }
if [ "${1:-}" = --home ]; then
  echo "${RATTLE_HOME:-$(dirname "$(dirname "$(readlink -f "$(command -v rt)")")")}"
  exit
fi
have=$(rt version) || { echo "rt version does not answer: install the Rattle kit ($(head -n 1 tools/kit-id))" >&2; exit 2; }
grep -qxF "$have" tools/kit-id || {
  { echo "this repository was checked with the kits"; sed 's/^/    /' tools/kit-id; echo "and here is '$have': install one of those, or, if make test passes but for this, add this one to tools/kit-id."; } >&2
  exit 1
}
echo "$have"
