#!/usr/bin/env bash
# Tests the recorded answers: builds the patched oracle, or the model that names faults, with one fault at a time from faults.txt
# and requires that the replay refuses it. Needs build.sh to have run; takes some minutes.
set -euo pipefail

here=$(cd "$(dirname "${BASH_SOURCE[0]}")" && pwd)
repo=$(cd "$here/../.." && pwd)
sound=$repo/build/oracle
recorded=$repo/crates/replay/stdin
out=$repo/build/oracle-faults
flags=(-C opt-level=0 -C debug-assertions=on -C overflow-checks=on -C codegen-units=1)
# shellcheck source=steps.sh
source "$here/steps.sh"

need_rustc
[ -x "$sound/oracle" ] || lacks "no $sound/oracle: tests/oracle/build.sh makes it"

# The file of a fault, in its copy.
file_of() {
    case $1 in
        node) echo "$out/harness/node.rs" ;;
        model | names) echo "$out/tests/differential/$1.rs" ;;
        judge | replay) echo "$out/tests/oracle/driver/$1.rs" ;;
        *) rust_file "$1" ;;
    esac
}

refused=0 missed=0
while IFS='|' read -r file name script; do
    rm -rf "$out"
    mkdir -p "$out/tests/oracle"
    cp -r "$sound/source" "$sound"/*.rlib "$here/harness" "$out/"
    # The driver takes the model from the directory beside its own.
    cp -r "$here/driver" "$out/tests/oracle/"
    cp -r "$here/../differential" "$out/tests/"
    put_fault "$(file_of "$file")" "$script" "$file"
    case $file in
        htree)
            build_noblit patched
            build_harness "$out/harness" ;;
        datom | heap | node | size) build_harness "$out/harness" ;;
    esac
    here=$out/tests/oracle build_driver
    if "$out/oracle" replay "$recorded" > "$out/replay" 2>&1; then
        missed=$((missed + 1))
        echo "MISSED   $name"
    else
        refused=$((refused + 1))
        echo "refused  $name"
    fi
done < <(grep -v '^#' "$here/faults.txt")
echo "$refused faults refused, $missed missed"
[ "$missed" -eq 0 ]
