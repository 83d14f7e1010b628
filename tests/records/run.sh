#!/usr/bin/env bash
# Compares the record entry of the library's C interface with the byte entry, answer for answer and byte for byte: on every batch of
# the recorded answers, and on calls made from these that are refused; and from C++, with an array of records, on document 01's
# examples. Ends with "N passed, M failed" and fails unless M is 0.
set -euo pipefail

cd "$(dirname "${BASH_SOURCE[0]}")/../.."
# shellcheck source=../oracle/steps.sh
source tests/oracle/steps.sh

need_cxx
build_against florinwick records
g++ -std=c++17 -Wall -Wextra -Wpedantic -Wconversion -Wshadow -Werror -Iinclude tests/records/caller.cpp \
    target/staticlib/libflorinwick.a -o build/records/caller
build/records/caller
build/records/records crates/replay/stdin
