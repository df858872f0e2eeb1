#!/usr/bin/env bash
# Writes the static libraries of the proved calls, target/staticlib/libvorruda.a and libvorruda_list.a, unless they are there and made of the same crates by
# the same kit. A static library of Rattle has the functions of its own crate: the first is put together from those of all crates call_*, the second is
# that of list_calls. rt leaves each in the folder of its crate.
set -euo pipefail
cd "$(dirname "$0")/.."
folder=target/staticlib
made_of=$folder/libvorruda.sum

sum=$({ rt version; find crates crates.txt -name out -prune -o -type f -print0 | sort -z | xargs -0 sha256sum; } | sha256sum)
if [ -e "$folder/libvorruda.a" ] && [ -e "$folder/libvorruda_list.a" ] && [ -e "$made_of" ] && [ "$(cat "$made_of")" = "$sum" ]; then
    exit 0
fi
rm -f "$made_of" "$folder/libvorruda.a" "$folder/libvorruda_list.a"
mapfile -t calls < <(sed -n -E 's/^(call_[a-z_]+) staticlib:.*/\1/p' crates.txt)
for crate in "${calls[@]}" list_calls; do
    scripts/progress.sh "$crate" "build/$crate.log" rt lib
done
mkdir -p "$folder"
{
    echo "create $folder/libvorruda.a"
    for crate in "${calls[@]}"; do echo "addlib crates/$crate/out/lib$crate.a"; done
    echo save
    echo end
} | ar -M
cp crates/list_calls/out/liblist_calls.a "$folder/libvorruda_list.a"
echo "$sum" > "$made_of"
