#!/usr/bin/env bash
# Installs below build/installed, with and without DESTDIR. With the installed files alone: the command certifies a routine, explains a refusal and has a man page
# without warnings; the examples in C are built and run with what pkg-config says, which tells the version that the headers have.
set -euo pipefail
cd "$(dirname "$0")/.."
rm -rf build/installed
PREFIX=$PWD/build/installed/usr scripts/install.sh > /dev/null
PREFIX=/usr DESTDIR=$PWD/build/installed/staged scripts/install.sh > /dev/null
routines=$(find host/corpus -name '*.routine' -o -name '*.listing' | wc -l)

cd build/installed
(cd usr && find . -type f | sort) > files
(cd staged/usr && find . -type f | sort) | cmp - files
grep -q '^prefix=/usr$' staged/usr/lib/pkgconfig/vorruda.pc
grep -q '^prefix=/usr$' staged/usr/lib/pkgconfig/vorruda_list.pc
pages=(FORMAT.md LICENSE ROUTINES.md examples/block_list.c examples/host.c examples/join.c examples/reverse.listing examples/search.py)
printf './share/doc/vorruda/%s\n' "${pages[@]}" | sort | diff - <(grep '^./share/doc/' files)
[ "$(grep -c '^./share/vorruda/corpus/.*\.\(routine\|listing\)$' files)" = "$routines" ]

# said STATUS WORDS FILE: the last command, whose status is given, ended so, and a line of the file begins with the words
said() {
    [ "$status" = "$1" ] || { echo "exit status $status in place of $1" && cat "$3" && exit 1; }
    grep -q "^$2" "$3" || { echo "$3 doesn't say: $2" && cat "$3" && exit 1; }
}
# vorruda FILE ARGUMENTS..: runs the installed command where nothing but it is known; what it says goes to the file
vorruda() {
    local into=$PWD/$1
    shift
    status=0
    (cd bench && env -i "$OLDPWD/usr/bin/vorruda" "$@") > "$into" 2>&1 || status=$?
}
mkdir bench
vorruda told new mine
said 0 'mine.listing: ' told
vorruda told try mine.listing -o out
said 0 'accepted bads ' told
said 0 'No run of mine.listing, on lists of any length, comes to this: at mark 0 ' told
vorruda told check out/job.bin out/cert.bin
said 0 'accepted bads ' told
head -c -1 bench/out/cert.bin > bench/cut.bin
vorruda told check mine.listing cut.bin
said 1 'refused 6 at [0-9]' told
said 1 '1 cover left to write. Owed next is cover [0-9]*:' told
number=$(sed -n 's/^refused \([0-9]*\) at .*/\1/p' told)
vorruda told explain "$number"
said 0 "$number: a number of the certificate can't be read" told
vorruda told list
said 0 '  reverse  ' told
[ "$(grep -c '^  [a-z]' told)" = "$routines" ]
rm usr/share/vorruda/corpus/walk.routine
vorruda told try walk
said 2 'walk: neither a file nor a routine of the corpus' told
vorruda told try wrong_reverse_ring
said 1 'Wrong: a run of ' told
vorruda told report mine.listing
said 0 'report/mine.html' told
[ -s bench/report/mine.html ]
if command -v groff > /dev/null; then
    LC_ALL=C.UTF-8 groff -man -Tutf8 -ww usr/share/man/man1/vorruda.1 > page 2> warnings
    [ ! -s warnings ] || { cat warnings && exit 1; }
    # Bold letters are struck twice, with a backspace between.
    sed 's/.\x08//g' page | grep '^SUBCOMMANDS$' > /dev/null
fi

if ! command -v pkg-config > /dev/null; then
    echo "pkg-config is not installed: the installed library is not tried"
    exit 0
fi
export PKG_CONFIG_PATH=$PWD/usr/lib/pkgconfig
# built EXAMPLE LIBRARY
built() {
    local flags
    read -r -a flags <<< "$(pkg-config --cflags --libs "$2")"
    gcc -std=c11 -Wall -Wextra -Werror -O2 "usr/share/doc/vorruda/examples/$1.c" "${flags[@]}" -o "$1"
    "./$1" | tail -n 1 | grep -q '^As expected\.$'
    grep -qF "#define VORRUDA_VERSION \"$(pkg-config --modversion "$2")\"" "usr/include/$2.h"
}
built host vorruda
built block_list vorruda_list
./host bench/out/job.bin bench/out/cert.bin | grep '^bench/out/cert.bin: accepted ' > /dev/null
