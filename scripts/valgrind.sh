#!/usr/bin/env bash
# Some thousand calls of the library under valgrind: fails where a byte beside a buffer or one without a value is used.
set -euo pipefail
cd "$(dirname "$0")/.."
if ! command -v valgrind > /dev/null; then
    echo "valgrind is not installed: left out"
    exit 0
fi
cargo build --offline --release --quiet --manifest-path host/Cargo.toml --bin memcheck
valgrind --quiet --error-exitcode=1 host/target/release/memcheck "$@"
