#!/usr/bin/env bash
# Builds the Rust oracle, plain and patched, and its driver, without cargo or network.
#
#   build.sh             into build/oracle, with the Rust's debug assertions on
#   build.sh --release   into build/oracle-release, with them off, for benchmarks
#
# noblit's source is taken from ../shared beside the repository, or from $FLORINWICK_SHARED. Where something is missing an oracle that is
# there stays.
set -euo pipefail

here=$(cd "$(dirname "${BASH_SOURCE[0]}")" && pwd)
repo=$(cd "$here/../.." && pwd)
# shellcheck source=steps.sh
source "$here/steps.sh"

case "${1:-}" in
    '')
        out=$repo/build/oracle
        flags=(-C opt-level=2 -C debug-assertions=on -C overflow-checks=on) ;;
    --release)
        out=$repo/build/oracle-release
        flags=(-C opt-level=3 -C debug-assertions=off -C overflow-checks=off) ;;
    *)
        echo "usage: $0 [--release]" >&2
        exit 2 ;;
esac
# One unit keeps the build on one core.
flags+=(-C codegen-units=1)

# Copies the tree's modules and the shims into $out/source/NAME, and proves the modules unchanged.
copy_source() {
    local copy=$out/source/$1 file
    mkdir -p "$copy"
    while read -r _ file; do
        cp --no-preserve=mode "$noblit/$file" "$copy/$file"
    done < "$here/noblit.sha256"
    (cd "$copy" && sha256sum --quiet --strict --check "$here/noblit.sha256")
    cp "$here"/shims/*.rs "$copy/"
}

need_oracle
rm -rf "$out"
copy_source plain
build_noblit plain
copy_source patched
patch --quiet --fuzz=0 --directory="$out/source/patched" --strip=1 < "$here/remainder.patch"
build_noblit patched
build_harness "$here/harness"
build_driver
echo "built $out/oracle"
