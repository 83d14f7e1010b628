#!/usr/bin/env bash
# Runs document 01's examples on the Rust oracle and compares every answer with examples.txt.
# Needs build.sh to have run. Ends with "N passed, M failed" and fails unless M is 0.
set -euo pipefail

here=$(cd "$(dirname "${BASH_SOURCE[0]}")" && pwd)
repo=$(cd "$here/../.." && pwd)
oracle=$repo/build/oracle/oracle
expected=$here/examples.txt
found=$repo/build/oracle/examples.found

# shellcheck source=../needs.sh
source "$here/../needs.sh"
[ -x "$oracle" ] || lacks "no $oracle: tests/oracle/build.sh makes it"

# The lines of one example: its heading up to the next heading.
example() {
    awk -v heading="$2" '/^# / { here = ($0 == heading) } here && NF' "$1"
}

sed -n -e 's/^> //p' -e '/^# /p' "$expected" | "$oracle" run --echo > "$found"

passed=0 failed=0
while read -r heading; do
    if diff <(example "$expected" "$heading") <(example "$found" "$heading"); then
        passed=$((passed + 1))
        echo "ok      ${heading#\# }"
    else
        failed=$((failed + 1))
        echo "FAILED  ${heading#\# } (above: < expected, > found)"
    fi
done < <(grep '^# ' "$expected")
echo "$passed passed, $failed failed"
[ "$failed" -eq 0 ]
