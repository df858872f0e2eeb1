#!/usr/bin/env bash
# The block list sees of the stepper only its promise: the crates of the list cite the stepper's definitions and none of its proofs, stand on no crate of the
# checker, make no heap of their own and write to no part of one. Fails where that isn't so, and shows the line.
set -euo pipefail
cd "$(dirname "$0")/.."

# none WHAT PATTERN FILES..: no line of the files fits
none() {
    local what=$1 pattern=$2
    shift 2
    if grep -nE "$pattern" "$@"; then
        echo "in the block list: $what" >&2
        exit 1
    fi
}

mapfile -t proofs < <(find crates/blocklist crates/list_calls -name '*.antt')
none "a proof of the stepper is cited" 'Rattle\.(stepper|kinds)\.proofs' "${proofs[@]}"
none "a heap is made, or a part of one is written" 'Heap64 \{|\.(variables|vars|used|links|values)(\[[^]]*\])? = ' crates/blocklist/src/lib.rt crates/list_calls/src/lib.rt
none "the list stands on another crate than these" '^blocklist: .*' <(sed 's/^blocklist: lists heap place stepper$//' crates.txt)
none "the calls stand on the checker" '^list_calls staticlib:.* (jobreader|verdict|reader|checker|covering|format)( |$)' crates.txt
