#!/usr/bin/env bash
# tools/commit.sh: the commit that stands here, and whether files differ from it.
cd "$(dirname "$0")/.." || exit 2
commit=$(git rev-parse HEAD 2>/dev/null) || { echo 'unknown: no git repository'; exit; }
[ -z "$(git status --porcelain 2>/dev/null)" ] || commit="$commit, with changes"
echo "$commit"
