#!/usr/bin/env bash
# Makes the recorded answers anew, compares them byte for byte with those in the repository, and
# replays them on both oracles, those with names of faults on the model. Needs build.sh to have run.
set -euo pipefail

here=$(cd "$(dirname "${BASH_SOURCE[0]}")" && pwd)
repo=$(cd "$here/../.." && pwd)
oracle=$repo/build/oracle/oracle
recorded=$repo/crates/replay/stdin
anew=$repo/build/oracle/answers.bin

# shellcheck source=../needs.sh
source "$here/../needs.sh"
[ -x "$oracle" ] || lacks "no $oracle: tests/oracle/build.sh makes it"

"$oracle" selftest
"$oracle" record "$anew"
cmp "$anew" "$recorded"
"$oracle" replay "$recorded"
echo "the recorded answers are the oracle's, and the names the model's"
