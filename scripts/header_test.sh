#!/usr/bin/env bash
# The headers compile in strict C99 and in C++, each alone and all together, and so do the examples; every refusal that vorruda.h and vorruda_list.h name has a text in
# vorruda_text.h, and no other number has one.
set -euo pipefail
cd "$(dirname "$0")/.."
mkdir -p build
strict=(-std=c99 -Wall -Wextra -pedantic -Werror -Iinclude)

# compiles FILE: in strict C99, and in C++ where that is installed
compiles() {
    gcc "${strict[@]}" -fsyntax-only "$1"
    if command -v g++ > /dev/null; then
        g++ -std=c++11 -Wall -Wextra -pedantic -Werror -Iinclude -fsyntax-only -x c++ "$1"
    fi
}
headers=(vorruda.h vorruda_list.h vorruda_text.h)
: > build/headers.c
for header in "${headers[@]}"; do
    printf '#include "%s"\nint main(void) { return 0; }\n' "$header" > build/header.c
    compiles build/header.c
    printf '#include "%s"\n' "$header" >> build/headers.c
done
echo 'int main(void) { return 0; }' >> build/headers.c
compiles build/headers.c
gcc "${strict[@]}" -fsyntax-only examples/*.c

# Which macros are no refusals: versions, limits and lengths; places of a heap and of a tally; codes; kinds; rules.
others='H|VERSION|MOST_.*|.*_OUT|MARKS|NO_MARK|HEAP_(BYTES|CELLS|VARIABLES|MARKS|LINKS)|TALLY_(NUMBERS|VERDICTS|ACCEPTED|MEMBERS|COVERS|REFUSAL)|REPORT_BYTES'
others+='|NULL|DANGLING|CELL|EQUAL|DIFFERENT|ASSIGN|LOAD|STORE|NEW|DELETE|EQUAL_VALUE|BELOW_VALUE|COPY|LARGER|SMALLER|READ|BLOCKED|RULE_.*|LIST_H'
cat include/vorruda.h include/vorruda_list.h | sed -nE 's/^#define VORRUDA_([A-Z_]+)(\([a-z]\))? *([^ ]*).*/\1 \3/p' | grep -vE "^($others) " > build/refusals
awk '{ print $2 }' build/refusals | sort -nu > build/named

cat > build/texts.c << 'END'
#include <stdio.h>
#include "vorruda_text.h"
int main(void)
{
    for (uint32_t number = 0; number < 70000; number++) {
        if (vorruda_text(number) != NULL) {
            printf("%u %s\n", (unsigned)number, vorruda_text(number));
        }
    }
    return vorruda_text(UINT32_MAX) != NULL;
}
END
gcc "${strict[@]}" build/texts.c -o build/texts
build/texts > build/told
cut -d ' ' -f 1 build/told | diff build/named - || { echo "numbers that the headers name (<) and that have a text (>) differ" && exit 1; }
[ "$(cut -d ' ' -f 2- build/told | sort | uniq -d | wc -l)" = 0 ] || { echo "two numbers have one text" && exit 1; }
