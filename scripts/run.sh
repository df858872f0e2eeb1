#!/usr/bin/env bash
# Proves and builds the bench program, if that is not done yet, and runs it on its sample: a routine that reverses a list.
set -euo pipefail
cd "$(dirname "$0")/.."
scripts/progress.sh judge build/run.log rt run
cd crates/judge/data
../out/judge
