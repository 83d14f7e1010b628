#!/usr/bin/env bash
# Tests the fuzzer: does one thing at a time from faults.txt behind each call, as a faulty library would, and requires that it is shown.
# Needs run.sh to have built the archive.
set -euo pipefail

cd "$(dirname "${BASH_SOURCE[0]}")/../.."
out=build/fuzz-faults
rm -rf "$out"
mkdir -p "$out"
shown=0 missed=0
while IFS='|' read -r name fault; do
    sed "s@^        MEDDLE;@        $fault;@" tests/fuzz/calls.h > "$out/calls.h"
    cp tests/fuzz/{entries,lent,page}.h tests/fuzz/fuzz.cpp "$out/"
    clang++ -std=c++17 -Iinclude -O1 -DMEDDLE -fsanitize=fuzzer -fno-sanitize-coverage=trace-cmp,indirect-calls -o "$out/fuzz" "$out/fuzz.cpp" target/staticlib/libflorinwick.a
    rm -rf "$out/corpus"
    cp -r tests/fuzz/corpus "$out/corpus"
    if "$out/fuzz" -runs=100000 -seed=1 -max_len=400 -entropic=0 -artifact_prefix="$out/" "$out/corpus" > "$out/log" 2>&1; then
        missed=$((missed + 1))
        echo "MISSED  $name"
    else
        shown=$((shown + 1))
        echo "shown   $name: $(grep -m 1 -oE "NOT ALLOWED: .*|SEGV on unknown address" "$out/log")"
    fi
done < <(grep -v '^#' tests/fuzz/faults.txt)
echo "$shown faults shown, $missed missed"
[ "$missed" -eq 0 ]
