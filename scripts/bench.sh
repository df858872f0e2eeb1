#!/usr/bin/env bash
# The proved calls against plain Rust: instructions and time, as tables in markdown.
set -euo pipefail
cd "$(dirname "$0")/.."
mkdir -p build/bench
scripts/tool.sh bench build/bench
