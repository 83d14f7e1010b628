#!/usr/bin/env bash
# Fuzzes the C interface: every lent slice between pages that may not be touched, every call made twice (README.md).
#
#   run.sh [RUNS] [SEED]   10,000,000 runs and seed 1 if not said; an input that shows a fault is kept in build/fuzz/
#
# Needs rt, and clang with libFuzzer: Debian's clang and libclang-rt-14-dev.
set -euo pipefail

cd "$(dirname "${BASH_SOURCE[0]}")/../.."
# shellcheck source=../needs.sh
source tests/needs.sh
need_rt
mkdir -p build/fuzz
need clang++ 'Debian has it in clang'
echo 'extern "C" int LLVMFuzzerTestOneInput(const unsigned char *, unsigned long) { return 0; }' |
    clang++ -x c++ - -fsanitize=fuzzer -o build/fuzz/probe 2> /dev/null ||
    lacks 'clang++ has no libFuzzer: Debian has it in libclang-rt-14-dev'
bash cmake/archive.sh florinwick
clang++ -std=c++17 -Iinclude -O2 -g -Wall -Wextra -Werror -fsanitize=fuzzer -fno-sanitize-coverage=trace-cmp,indirect-calls -o build/fuzz/fuzz tests/fuzz/fuzz.cpp target/staticlib/libflorinwick.a
rm -rf build/fuzz/corpus
cp -r tests/fuzz/corpus build/fuzz/corpus
build/fuzz/fuzz -runs="${1:-10000000}" -seed="${2:-1}" -max_len=400 -entropic=0 -print_final_stats=1 -verbosity=1 \
    -artifact_prefix=build/fuzz/ build/fuzz/corpus 2> build/fuzz/log || { tail -40 build/fuzz/log >&2; exit 1; }
grep -E '^(Done|faults |[0-9]+ given |stat::(number_of_executed_units|average_exec_per_sec))' build/fuzz/log
