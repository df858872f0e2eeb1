#!/usr/bin/env bash
# scripts/release.sh FOLDER: judges each folder below FOLDER that holds a job.bin, with its cert.bin, and prints the release sheet as the last line. A certificate
# that is missing counts as empty. Proves and builds the release program first, if that is not done yet.
set -euo pipefail
folder=$(realpath -- "${1:-}" 2> /dev/null) || folder=
if [ ! -d "$folder" ]; then
    echo "usage: make release FOLDER=folder, in which each routine has a folder with job.bin and cert.bin" >&2
    exit 2
fi
cd "$(dirname "$0")/.."
scripts/progress.sh release build/release.log rt run
program=$PWD/crates/release/out/release

cd "$folder"
pairs=()
while IFS= read -r -d '' job; do
    pairs+=("$job" "${job%job.bin}cert.bin")
done < <(find . -mindepth 2 -maxdepth 2 -name job.bin -printf '%P\0' | sort -z)
if [ ${#pairs[@]} -eq 0 ]; then
    echo "$folder: no folder in it has a job.bin" >&2
    exit 2
fi
"$program" "${pairs[@]}"
