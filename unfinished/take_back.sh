#!/usr/bin/env bash
# Puts the unfinished work back into crates/ and docs/. Run it on the commit that brought it here, on a branch of its own.
set -eu
cd "$(dirname "$0")/.."
git apply --index unfinished/landed.patch
(cd unfinished/crates && find . -type f) | while read -r file; do
    to="crates/${file#./}"
    to="${to%.txt}"
    mkdir -p "$(dirname "$to")"
    cp "unfinished/crates/$file" "$to"
done
git rm -rq unfinished
git add crates
echo "The unfinished work stands in crates/ and docs/ again, and unfinished/ is gone: rt ci, then commit."
