#!/usr/bin/env bash
# Times of the library against the Rust built for release, in turns over the same inputs; LMDB and SQLite beside them (README.md).
#
#   run.sh [--order ORDER] [ROUNDS] [LARGEST] [PAGE_SIZE..]   41 rounds, trees of up to 1,000,000 datoms, 4096 and 8192 bytes if not said;
#                                                             build/bench/times.tsv
#
# ORDER is eavt, aevt, avet or all. If not said all orders are timed of the feeds of integers, and eavt of the texts.
#
# Needs rt, rustc, and Debian's liblmdb-dev and libsqlite3-dev.
set -euo pipefail

order=default
if [ "${1:-}" = --order ]; then
    order=${2:?an order: eavt, aevt, avet or all}
    shift 2
fi
cd "$(dirname "${BASH_SOURCE[0]}")/../.."
# shellcheck source=../oracle/steps.sh
source tests/oracle/steps.sh
need_rt
need_oracle
need_library lmdb liblmdb-dev
need_library sqlite3 libsqlite3-dev
bash cmake/archive.sh florinwick
bash tests/oracle/build.sh --release
mkdir -p build/bench
rustc --edition 2021 --crate-name bench -D warnings -C opt-level=3 -C codegen-units=1 -L build/oracle-release --extern noblit_patched \
    -L target/staticlib -l static=florinwick --out-dir build/bench tests/bench/main.rs
build/bench/bench "$order" "${1:-41}" "${2:-1000000}" build/bench/times.tsv "${@:3}"
bash tests/bench/table.sh build/bench/times.tsv
