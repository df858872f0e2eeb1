#!/usr/bin/env bash
# Builds and runs the examples in C, each with its own library.
set -euo pipefail
cd "$(dirname "$0")/.."
mkdir -p build
flags=(-Wall -Wextra -Werror -O2 -Iinclude)
gcc -std=c11 "${flags[@]}" examples/host.c target/staticlib/libvorruda.a -o build/host
gcc -std=c11 "${flags[@]}" examples/join.c target/staticlib/libvorruda.a -o build/join
gcc -std=c11 "${flags[@]}" examples/block_list.c target/staticlib/libvorruda_list.a -o build/block_list
build/host
sample=(crates/judge/data/job.bin crates/judge/data/cert.bin)
build/host "${sample[@]}" | tail -n 1 | grep -x 'share 1/1 covers [0-9]*/1'
build/block_list
# A load routine and an edit routine of the corpus: joined where the first ends, refused elsewhere and the other way round.
mkdir -p build/joined
scripts/tool.sh try load_insert.first then load_insert.second build/joined > build/joined/told
first=(build/joined/job1.bin build/joined/cert1.bin)
second=(build/joined/job2.bin build/joined/cert2.bin)
state=$(sed -n 's/^Owed at the hand-over.*(state \([0-9]*\)).*/\1/p' build/joined/told)
build/join "${first[@]}" "${second[@]}" "$state" | grep '^joined first bads [0-9]* .* second bads [0-9]* '
refused() {
    local wanted=$1
    shift
    { build/join "$@" || [ $? -eq 1 ]; } | grep "^refused $wanted"
}
refused '24: the hand-over is no state of the first job' "${first[@]}" "${second[@]}" 64
refused '26: the first job has a transition from the hand-over' "${first[@]}" "${second[@]}" 0
refused '8: the empty heap satisfies a member at the start state, pair 1 at' "${second[@]}" "${first[@]}" 0
refused '3: .*, pair 2 at 1' "${first[@]}" <(printf '\1') "${second[1]}" "$state"
