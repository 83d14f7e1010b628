#!/usr/bin/env bash
# Compares the library's C entries with both builds of the Rust, answer for answer and byte for byte, over random histories.
#
#   run.sh [BATCHES] [SEED]   100000 batches if not said; fails at the first difference and prints the input that shows it
set -euo pipefail

cd "$(dirname "${BASH_SOURCE[0]}")/../.."
# shellcheck source=../oracle/steps.sh
source tests/oracle/steps.sh

build_against florinwick differential
build/differential/differential "${1:-100000}" "${2:-20190607}"
