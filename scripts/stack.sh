#!/usr/bin/env bash
# The most stack that a call of the checker, of the tally, of a join, of the translation and of the block list takes; fails where a header promises less.
set -euo pipefail
cd "$(dirname "$0")/.."
cargo run --offline --release --quiet --manifest-path host/Cargo.toml --bin stack
