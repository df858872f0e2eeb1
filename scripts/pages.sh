#!/usr/bin/env bash
# The pages name what is there: docs/MAP.md has a line for each crate, docs/PROOF.md its size, and every file that a page names or links to exists.
set -euo pipefail
cd "$(dirname "$0")/.."

missing=0
for crate in $(sed -nE 's/^([a-z_]+)( staticlib)?:.*/\1/p' crates.txt); do
    grep -qE "^\| .*\`$crate\`" docs/MAP.md || { echo "docs/MAP.md has no line for $crate" >&2; missing=1; }
    grep -qE "^\| $crate \|" docs/PROOF.md || { echo "docs/PROOF.md has no size of $crate" >&2; missing=1; }
done
for file in $(grep -ohE '\b[a-z_]+/(specs|proofs|src|must-fail)/[A-Za-z_/]+\.(antt|rt|edit)' README.md docs/*.md | sort -u); do
    [ -e "crates/$file" ] || { echo "no file crates/$file, which a page names" >&2; missing=1; }
done
for file in $(grep -ohE '\b(docs|examples|include|scripts|host/tests)/[A-Za-z_/]+\.(md|c|h|py|listing|sh|js|rs)\b' README.md CHANGELOG.md docs/*.md | sort -u); do
    [ -e "$file" ] || { echo "no file $file, which a page names" >&2; missing=1; }
done
for page in README.md CHANGELOG.md docs/*.md; do
    for link in $(grep -oE '\]\([^)#]+' "$page" | sed 's/^](//'); do
        [ -e "$(dirname "$page")/$link" ] || { echo "$page links to $link, which isn't there" >&2; missing=1; }
    done
done
exit $missing
