#!/usr/bin/env bash
# Opens the pages of the corpus in a headless Chromium, wide, narrow and as printed, in light and dark: the pictures are there, and nothing overlaps or is cut off.
set -euo pipefail
cd "$(dirname "$0")/.."
browser=''
for name in chromium chromium-browser google-chrome; do
    if command -v "$name" > /dev/null; then browser=$name && break; fi
done
if [ -z "$browser" ]; then
    echo "Chromium is not installed: the pages are not opened"
    exit 0
fi
folder=build/report_test
rm -rf "$folder"
scripts/tool.sh report "$PWD/host/corpus" "$folder" > /dev/null

# The page that opens the others and says what is wrong with them.
{
    echo '<!DOCTYPE html><title>test</title><body><script>'
    echo "const pages = ["
    (cd "$folder" && printf '"%s",\n' *.html)
    echo "];"
    cat scripts/report_test.js
    echo '</script></body>'
} > build/report_test.html

flags=(--headless --disable-gpu --allow-file-access-from-files --virtual-time-budget=1000000 "--user-data-dir=$PWD/build/chromium")
if [ "$(id -u)" = 0 ]; then flags+=(--no-sandbox); fi
for scheme in 0 1; do
    timeout 600 "$browser" "${flags[@]}" "--blink-settings=preferredColorScheme=$scheme" --dump-dom "file://$PWD/build/report_test.html" \
        2> build/chromium.log | sed -n 's/.*<pre>\(.*\)/\1/; /^said: /p' > "build/report_test.$scheme"
    grep -v '^said: ok' "build/report_test.$scheme" && exit 1
    grep -q '^said: ok' "build/report_test.$scheme" || { echo "Chromium said nothing; build/chromium.log has why" && exit 1; }
done
if cmp -s build/report_test.0 build/report_test.1; then
    echo "light and dark are the same"
    exit 1
fi
