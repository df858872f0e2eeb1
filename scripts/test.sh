#!/usr/bin/env bash
# Every test. `rt ci` proves everything, so it comes first; its verdict is said last.
set -euo pipefail
cd "$(dirname "$0")/.."
mkdir -p build

rt ci | tee build/ci.log
# A must-fail edit that is bad refuses nothing, and `rt ci` passes all the same.
grep '^rt: ok' build/ci.log > build/ci.ok
if grep -E ', [1-9][0-9]* bad' build/ci.ok; then
    echo "a must-fail edit is bad: build/ci.log names it" >&2
    exit 1
fi
scripts/list_rests.sh
scripts/pages.sh

scripts/lib.sh
scripts/header_test.sh
scripts/example.sh
scripts/search_test.sh
scripts/install_test.sh
scripts/release_test.sh
scripts/lint.sh
cargo test --offline --release --quiet --manifest-path host/Cargo.toml
cargo run --offline --release --quiet --manifest-path host/Cargo.toml --bin compare
scripts/valgrind.sh
scripts/stack.sh
scripts/report_test.sh

tail -n 1 build/ci.log
