#!/usr/bin/env bash
# scripts/tool.sh NAME ARGUMENTS...: builds a tool of host/, if that is not done yet, and runs it. Its exit status is the tool's.
set -euo pipefail
cd "$(dirname "$0")/.."
name=$1
shift
tool=host/target/release/$name
log=build/tools.log

mkdir -p build
if [ ! -e "$tool" ] || [ -n "$(find host/src host/Cargo.toml target/staticlib/libvorruda.a target/staticlib/libvorruda_list.a -newer "$tool" -print -quit)" ]; then
    echo "building $tool" >&2
fi
if ! cargo build --offline --release --quiet --manifest-path host/Cargo.toml --bin "$name" > "$log" 2>&1; then
    echo "$tool can't be built; $log has all that was said, at its end:" >&2
    tail -n 5 "$log" >&2
    exit 3
fi
exec "$tool" "$@"
