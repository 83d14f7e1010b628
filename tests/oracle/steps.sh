# shellcheck shell=bash disable=SC2154
# The compilations, for scripts that set $here (this directory), $out and the array $flags; and what they need.

# shellcheck source=../needs.sh
source "$(dirname "${BASH_SOURCE[0]}")/../needs.sh"
# From ../shared beside the repository, or from $FLORINWICK_SHARED.
noblit=${FLORINWICK_SHARED:-$(cd "$(dirname "${BASH_SOURCE[0]}")/../.." && pwd)/../shared}/docs/src/noblit/src

need_oracle() {
    need_rustc
    need patch 'Debian has it in patch'
    [ -d "$noblit" ] || lacks "no noblit source at $noblit: set FLORINWICK_SHARED to the directory that holds docs/src/noblit (docs/ORACLE.md)"
}

# Noblit's own warnings are its authors' matter.
build_noblit() {
    rustc --edition 2015 --crate-type rlib --crate-name "noblit_$1" --cap-lints allow \
        "${flags[@]}" -L "$out" --out-dir "$out" "$out/source/$1/lib.rs"
}

# From the harness's own directory or a copy of it.
build_harness() {
    rustc --edition 2021 --crate-type rlib --crate-name harness -D warnings \
        "${flags[@]}" -L "$out" --extern noblit_plain --extern noblit_patched --out-dir "$out" "$1/lib.rs"
}

build_driver() {
    rustc --edition 2021 --crate-type bin --crate-name oracle -D warnings \
        "${flags[@]}" -L "$out" --extern harness --out-dir "$out" "$here/driver/main.rs"
}

# A test program NAME over the archive of a crate and the harness: its archive, both builds of the Rust, then the program, in
# build/NAME. To be called in the repository.
build_against() {
    local crate=$1 name=$2
    need_rt
    need_oracle
    bash cmake/archive.sh "$crate"
    bash tests/oracle/build.sh
    mkdir -p "build/$name"
    rustc --edition 2021 --crate-name "$name" -D warnings -C opt-level=2 -C debug-assertions=on -C overflow-checks=on \
        -C codegen-units=1 -L build/oracle --extern harness -L target/staticlib -l "static=$crate" \
        --out-dir "build/$name" "tests/$name/main.rs"
}

# Where the Rust and the harness lie in a copy that gets a fault; nothing for another name.
rust_file() {
    case $1 in
        htree) echo "$out/source/patched/htree.rs" ;;
        datom | heap) echo "$out/harness/$1.rs" ;;
        size) echo "$out/harness/page_size_8192.rs" ;;
    esac
}

# Applies a sed script to the file with the fault, and fails if there is none or that changes nothing.
put_fault() {
    local file=$1 script=$2 name=$3
    if [ -z "$file" ]; then
        echo "$0: faults.txt names an unknown file $name" >&2
        exit 1
    fi
    cp "$file" "$out/before"
    sed -i -e "$script" "$file"
    if cmp --quiet "$out/before" "$file"; then
        echo "$0: \`$script\` changes nothing in $name" >&2
        exit 1
    fi
}
