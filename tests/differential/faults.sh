#!/usr/bin/env bash
# Tests the comparison: puts one fault at a time from faults.txt into the expected side, or into the bytes beside a lent
# slice, and requires that it is shown. Needs run.sh to have run; takes some minutes.
set -euo pipefail

home=$(cd "$(dirname "${BASH_SOURCE[0]}")" && pwd)
repo=$(cd "$home/../.." && pwd)
# shellcheck disable=SC2034
here=$repo/tests/oracle
sound=$repo/build/oracle
out=$repo/build/differential-faults
flags=(-C opt-level=1 -C debug-assertions=on -C overflow-checks=on -C codegen-units=1)
# shellcheck source=../oracle/steps.sh
source "$repo/tests/oracle/steps.sh"
cd "$repo"

if [ ! -x build/differential/differential ]; then
    echo "$0: no build/differential/differential; run tests/differential/run.sh first" >&2
    exit 1
fi

# The file of a fault, in its copy.
file_of() {
    case $1 in
        history | library | store | model | reader | names | orders | main) echo "$out/differential/$1.rs" ;;
        damage | wrong | breaking | laying | reading) echo "$out/differential/history/$1.rs" ;;
        node) echo "$out/harness/node.rs" ;;
        *) rust_file "$1" ;;
    esac
}

shown=0 missed=0
while IFS='|' read -r file name script; do
    rm -rf "$out"
    mkdir -p "$out"
    cp -r "$sound/source" "$sound"/*.rlib tests/oracle/harness tests/archive.rs "$home" "$out/"
    put_fault "$(file_of "$file")" "$script" "$file"
    case $file in
        htree | datom)
            build_noblit patched
            build_harness "$out/harness" ;;
        heap | node | size) build_harness "$out/harness" ;;
    esac
    rustc --edition 2021 --crate-name differential --cap-lints allow -o "$out/program" "${flags[@]}" -L "$out" --extern harness -L target/staticlib -l static=florinwick \
        "$out/differential/main.rs"
    if "$out/program" 10000 1 > "$out/found" 2>&1; then
        missed=$((missed + 1))
        echo "MISSED  $name"
    elif grep -q '^DIFFERENCE: ' "$out/found"; then
        shown=$((shown + 1))
        echo "shown   $name: $(sed -n 's/^DIFFERENCE: //p' "$out/found" | cut -c1-150)"
    else
        missed=$((missed + 1))
        echo "MISSED  $name: $(tail -1 "$out/found")"
    fi
done < <(grep -v '^#' "$home/faults.txt")
echo "$shown faults shown, $missed missed"
[ "$missed" -eq 0 ]
