#!/usr/bin/env bash
# Compares the proved page code, called through the archive of crate probe, with the harness's reader, order and encoder: on every
# page of the recorded answers and on damaged copies of each. Ends with "N passed, M failed" and fails unless M is 0.
set -euo pipefail

cd "$(dirname "${BASH_SOURCE[0]}")/../.."
# shellcheck source=../oracle/steps.sh
source tests/oracle/steps.sh

build_against probe leaves
build/leaves/leaves crates/replay/stdin
