#!/usr/bin/env bash
# Times the proved page code on a full page of 4096 bytes. Needs run.sh to have run.
set -euo pipefail

here=$(cd "$(dirname "${BASH_SOURCE[0]}")" && pwd)
repo=$(cd "$here/../.." && pwd)
cd "$repo"

# shellcheck source=../needs.sh
source tests/needs.sh
need_rustc
if [ ! -f target/staticlib/libprobe.a ] || [ ! -f build/oracle/libharness.rlib ]; then
    lacks 'no archive or no harness: tests/leaves/run.sh makes them'
fi
mkdir -p build/leaves
rustc --edition 2021 --crate-name time -A dead_code -C opt-level=3 -C codegen-units=1 -L build/oracle --extern harness \
    -L target/staticlib -l static=probe --out-dir build/leaves "$here/time.rs"
build/leaves/time
