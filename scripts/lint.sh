#!/usr/bin/env bash
# The layout of host/ and the warnings of its code, where cargo fmt and cargo clippy are installed.
set -euo pipefail
cd "$(dirname "$0")/.."
if cargo fmt --version > /dev/null 2>&1; then
    cargo fmt --check --manifest-path host/Cargo.toml
else
    echo "cargo fmt is not installed: left out"
fi
if cargo clippy --version > /dev/null 2>&1; then
    cargo clippy --offline --release --quiet --all-targets --manifest-path host/Cargo.toml -- -D warnings
else
    echo "cargo clippy is not installed: left out"
fi
