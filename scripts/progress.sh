#!/usr/bin/env bash
# scripts/progress.sh CRATE LOG COMMAND...: runs a command of rt in the folder of a crate, which proves it and what it depends on. One line tells which crate is
# being proved; everything that rt prints goes to the log, whose name is told where it fails. Nothing is printed where nothing is left to prove.
set -euo pipefail
crate=$1 log=$2
shift 2

# The crates in the order in which rt proves them: each behind those that it depends on, as crates.txt names them.
in_order() {
    awk -v wanted="$crate" '
        function visit(name,    names, count, k) {
            if (name in seen) return
            seen[name] = 1
            count = split(needs[name], names, " ")
            for (k = 1; k <= count; k++) if (names[k] in needs) visit(names[k])
            print name
        }
        { sub(/#.*/, "") }
        /:/ { at = index($0, ":"); split(substr($0, 1, at - 1), words, " "); needs[words[1]] = substr($0, at + 1) }
        END { visit(wanted) }' crates.txt
}

# The crate that the log tells of last: rt says how many jobs it takes when it begins with one that isn't kept.
told() {
    sed -n -E 's/^rt: chose --jobs [0-9]+ for ([A-Za-z0-9_]+)$/\1/p' "$log" | tail -n 1
}

mapfile -t crates < <(in_order)
declare -A place
for at in "${!crates[@]}"; do place[${crates[$at]}]=$((at + 1)); done
mkdir -p "$(dirname "$log")"
: > "$log"
if [ -t 2 ]; then before=$'\r\e[K' after=''; else before='' after=$'\n'; fi

(cd "crates/$crate" && exec "$@") > "$log" 2>&1 &
running=$!
shown='' last=''
while sleep 1 && kill -0 "$running" 2> /dev/null; do
    at=$(told)
    # A crate of which little is left to prove takes no second.
    if [ -n "$at" ] && [ "$at" = "$last" ] && [ "$at" != "$shown" ]; then
        printf '%sproving %d of %d: %s%s' "$before" "${place[$at]:-1}" "${#crates[@]}" "$at" "$after" >&2
        shown=$at
    fi
    last=$at
done
status=0
wait "$running" || status=$?
if [ -n "$shown" ]; then printf '%s' "$before" >&2; fi
if [ "$status" -ne 0 ]; then
    echo "$crate is not proved; $log has all that was said, at its end:" >&2
    tail -n 5 "$log" >&2
fi
exit "$status"
