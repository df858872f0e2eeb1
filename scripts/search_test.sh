#!/usr/bin/env bash
# examples/search.py, written after docs/FORMAT.md: the reversal of a list that it writes is accepted by the host in C, which scripts/example.sh builds; a copy of the
# certificate with one byte changed is refused; and for a reversal that closes a ring it finds none.
set -euo pipefail
cd "$(dirname "$0")/.."
if ! command -v python3 > /dev/null; then
    echo "python3 is not installed: the search tool is not tried"
    exit 0
fi
# said WORDS FILE: a line of the file is made of these words
said() {
    grep -qxE "$1" "$2" || { echo "$2 doesn't say: $1" && cat "$2" && exit 1; }
}
rm -rf build/search
mkdir -p build/search/wrong
python3 examples/search.py build/search
build/host build/search/job.bin build/search/cert.bin > build/search/said
said 'build/search/cert.bin: accepted members [1-9][0-9]* covers [1-9][0-9]*' build/search/said

cd build/search
# The last number is an image of the last cover.
python3 -c '
from pathlib import Path
certificate = Path("cert.bin").read_bytes()
Path("wrong/cert.bin").write_bytes(certificate[:-1] + bytes([certificate[-1] ^ 1]))
job = Path("job.bin").read_bytes()
ring = job.replace(bytes([5, 3, 3, 2, 6]), bytes([5, 3, 3, 1, 6]))  # t := x in place of t := y
assert ring != job
Path("wrong/job.bin").write_bytes(ring)
'
../host job.bin wrong/cert.bin > wrong/said
said 'wrong/cert.bin: refused (7|9) at [0-9]+: .*' wrong/said
rm wrong/cert.bin
if python3 ../../examples/search.py wrong/job.bin wrong/cert.bin 2> wrong/said; then
    echo "a ring is certified"
    exit 1
fi
said 'no certificate found: .*' wrong/said
[ ! -e wrong/cert.bin ]
