#!/usr/bin/env bash
# Puts the command with its man page and the routines that it knows by name, the headers, the static libraries with a pkg-config file for each, and the pages that
# a host's programmer needs, below PREFIX; DESTDIR, if set, stands before every path that is written.
set -euo pipefail
cd "$(dirname "$0")/.."
prefix=${PREFIX:-/usr/local}
case $prefix in
/*) ;;
*) echo "PREFIX has to begin with /: $prefix" >&2 && exit 2 ;;
esac
into=${DESTDIR:-}$prefix
version=$(sed -n 's/^version = "\(.*\)"$/\1/p' host/Cargo.toml)

# install_library NAME DESCRIPTION
install_library() {
    install -m 644 "include/$1.h" "$into/include/$1.h"
    install -m 644 "target/staticlib/lib$1.a" "$into/lib/lib$1.a"
    cat > "$into/lib/pkgconfig/$1.pc" << END
prefix=$prefix
includedir=\${prefix}/include
libdir=\${prefix}/lib

Name: $1
Description: $2
Version: $version
Cflags: -I\${includedir}
Libs: -L\${libdir} -l$1
END
    chmod 644 "$into/lib/pkgconfig/$1.pc"
    echo "installed include/$1.h, lib/lib$1.a and lib/pkgconfig/$1.pc below $into"
}

install -d "$into/bin" "$into/include" "$into/lib/pkgconfig" "$into/share/man/man1" "$into/share/doc/vorruda/examples" "$into/share/vorruda/corpus/joined"
mkdir -p build
scripts/tool.sh vorruda --man > build/vorruda.1
install -s -m 755 host/target/release/vorruda "$into/bin/vorruda"
install -m 644 build/vorruda.1 "$into/share/man/man1/vorruda.1"
install -m 644 host/corpus/README.md host/corpus/*.routine "$into/share/vorruda/corpus"
install -m 644 host/corpus/joined/*.listing "$into/share/vorruda/corpus/joined"
echo "installed bin/vorruda, share/man/man1/vorruda.1 and, in share/vorruda/corpus, the routines that it knows by name below $into"
install_library vorruda "Proved checker of certificates for linked-list routines"
install_library vorruda_list "Proved list of pattern blocks for a loom box"
install -m 644 include/vorruda_text.h "$into/include/vorruda_text.h"
install -m 644 LICENSE docs/FORMAT.md docs/ROUTINES.md "$into/share/doc/vorruda"
install -m 644 examples/*.c examples/*.listing examples/*.py "$into/share/doc/vorruda/examples"
echo "installed include/vorruda_text.h and, in share/doc/vorruda, FORMAT.md, ROUTINES.md, LICENSE and the examples below $into"
