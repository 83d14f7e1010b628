#!/usr/bin/env bash
# Tests the tests of florin: puts one fault at a time from faults.txt into a copy of its sources, and requires that run.sh fails.
# Takes FLORINWICK_ARCHIVE as run.sh does, else the archive that run.sh has left; some minutes.
set -uo pipefail

here=$(cd "$(dirname "${BASH_SOURCE[0]}")" && pwd)
repo=$(cd "$here/../.." && pwd)
export FLORINWICK_ARCHIVE=${FLORINWICK_ARCHIVE:-$repo/target/staticlib/libflorinwick.a}
export FLORIN_TEST_OUT=${FLORIN_TEST_OUT:-$repo/build/florin-faults}
export FLORIN_TEST_SOURCE=$FLORIN_TEST_OUT/source

if [ ! -f "$FLORINWICK_ARCHIVE" ]; then
    echo "$0: no $FLORINWICK_ARCHIVE; run tests/florin/run.sh first" >&2
    exit 1
fi
# Copies what differs, so that only the file with a fault, and the one with the fault before, are compiled again.
restore() {
    local file
    (cd "$repo" && find CMakeLists.txt NOTICE cmake include examples tools -type f) | while read -r file; do
        mkdir -p "$(dirname "$FLORIN_TEST_SOURCE/$file")"
        cmp --quiet "$repo/$file" "$FLORIN_TEST_SOURCE/$file" || cp "$repo/$file" "$FLORIN_TEST_SOURCE/$file"
    done
}

rm -rf "$FLORIN_TEST_OUT"
shown=0 missed=0
while IFS='|' read -r part file name script; do
    restore
    faulty=$FLORIN_TEST_SOURCE/tools/florin/$file
    sed -i -e "$script" "$faulty"
    if cmp --quiet "$repo/tools/florin/$file" "$faulty"; then
        missed=$((missed + 1))
        echo "MISSED  $name: the script changes nothing in $file"
        continue
    fi
    FLORIN_TEST_FIRST=1 FLORIN_TEST_PARTS=$part timeout 300 bash "$here/run.sh" < /dev/null > "$FLORIN_TEST_OUT/found" 2>&1
    status=$?
    if [ $status -ne 0 ] && grep -q 'FAILED  ' "$FLORIN_TEST_OUT/found"; then
        shown=$((shown + 1))
        echo "shown   $name: $(grep 'FAILED  ' "$FLORIN_TEST_OUT/found" | head -n 1 | sed 's/.*FAILED  //' | cut -c-140)"
    else
        missed=$((missed + 1))
        echo "MISSED  $name: $(tail -n 1 "$FLORIN_TEST_OUT/found")"
    fi
done < <(grep -v '^#' "$here/faults.txt")
echo "$shown faults shown, $missed missed"
[ "$missed" -eq 0 ]
