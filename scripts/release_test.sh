#!/usr/bin/env bash
# The release program and `make release`: the lines of the verdicts are those of the bench program, the sheet is the last line, files that are missing count as empty.
set -euo pipefail
cd "$(dirname "$0")/.."
scripts/progress.sh judge build/run.log rt run
scripts/progress.sh release build/release.log rt run
release=$PWD/crates/release/out/release judge=$PWD/crates/judge/out/judge
rm -rf build/release
mkdir -p build/release/folder/sample build/release/folder/without build/release/none
cp -r crates/release/data/p1 crates/release/data/p2 build/release/folder
cp crates/judge/data/job.bin crates/judge/data/cert.bin build/release/folder/sample
cp crates/judge/data/job.bin build/release/folder/without

cd build/release
for routine in p1 p2 sample without; do
    echo "$routine/job.bin: $(cd "folder/$routine" && "$judge")"
done > wanted
echo "share 1/2 covers 184/1" >> wanted
../../scripts/release.sh folder > got
diff wanted got

# Files that are missing: both are empty, so 1.
(cd folder && "$release" p1/job.bin p1/cert.bin no/job.bin no/cert.bin) > got
printf '%s\n' "p1/job.bin: accepted bads 1 members 1 covers 1 links 0" "no/job.bin: refused 1 at 0" "share 1/2 covers 1/1" | diff - got
# An odd number of names, or none: how it is used.
for names in "" "folder/p1/job.bin" "a b c"; do
    # shellcheck disable=SC2086
    "$release" $names > got 2> said
    [ ! -s got ] && grep -q '^usage: release JOB CERTIFICATE' said
done
# No folder, and one without a job.
! ../../scripts/release.sh > got 2> said && grep -q '^usage: make release' said
! ../../scripts/release.sh none > got 2> said && grep -q 'no folder in it has a job.bin' said
