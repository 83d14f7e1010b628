#!/usr/bin/env bash
# Checks docs/*.md against the repository: every definition, function and must-fail edit that they name is there, and the Rust
# gives the answers that docs/DIFFERENCES.md shows. The second part needs tests/oracle/build.sh and build.sh --release to have run.
# Ends with "N passed, M failed" and fails unless M is 0.
set -euo pipefail

docs=$(cd "$(dirname "${BASH_SOURCE[0]}")" && pwd)
repo=$(cd "$docs/.." && pwd)
cd "$repo"
passed=0 failed=0

count() {
    if [ "$1" -eq 0 ]; then
        passed=$((passed + 1))
    else
        failed=$((failed + 1))
        echo "FAILED  $2"
    fi
}

# A definition, a law, a type or a field of one: crate/specs/File.name
is_defined() {
    local file=crates/${1%%.*}.antt name=${1#*.}
    [ -f "$file" ] && grep -qE "^ *((unfoldable|abbrev|pub|record|data) +)*$name( |\$)" "$file"
}

# A function or a type of the code: crate::name or crate::Type::name
is_code() {
    local crate=${1%%::*} name=${1##*::}
    grep -qE "(fn|struct|enum|const) $name\\b" "crates/$crate/src/"*.rt 2>/dev/null
}

names() {
    grep -ohE "\`$1\`" docs/*.md README.md | tr -d '`' | sort -u
}

while read -r name; do
    is_defined "$name" && s=0 || s=1
    count "$s" "no definition $name"
done < <(names '[a-z_]+/(specs|proofs)/[A-Za-z]+\.[^` ]+')
while read -r name; do
    is_code "$name" && s=0 || s=1
    count "$s" "no function or type $name"
done < <(names '[a-z_]+(::[A-Za-z_]+)+')
while read -r name; do
    [ -f "crates/$name.edit" ] && s=0 || s=1
    count "$s" "no edit $name"
done < <(names '[a-z_]+/must-fail/[a-z_]+')
while read -r name; do
    [ -e "$name" ] && s=0 || s=1
    count "$s" "no file $name"
done < <(grep -ohE '\b(docs|tests|crates)/[A-Za-z0-9_./-]*[A-Za-z0-9_]' docs/*.md README.md | sort -u)

# The blocks of one build, each behind a heading of its own. A line of document 01's table or of prose is no block.
blocks() {
    awk -v build="$1" '
        $0 == "```" build { here = 1; print "# line " NR; next }
        $0 == "```" { here = 0 }
        here' docs/DIFFERENCES.md
}

# Fails unless every expected line is the found one, or the beginning of it where it ends in two dots.
same() {
    awk 'NR == FNR { expected[NR] = $0; n = NR; next }
        { line = expected[FNR]; cut = sub(/\.\.$/, "", line)
          if (cut ? index($0, line) != 1 : $0 != line) { print "expected: " expected[FNR]; print "found:    " $0; bad = 1; exit } }
        END { exit bad || FNR != n }' "$1" "$2"
}

for build in plain:oracle release:oracle-release; do
    oracle=build/${build#*:}/oracle
    if [ ! -x "$oracle" ]; then
        echo "skipped the ${build%%:*} answers: no $oracle"
        continue
    fi
    work=$(mktemp -d)
    blocks "${build%%:*}" > "$work/all"
    while read -r _ _ line; do
        awk -v heading="# line $line" '/^# line / { here = ($0 == heading); next } here' "$work/all" > "$work/expected"
        { echo 'oracle plain'; echo 'size 256'; sed -n 's/^> //p' "$work/expected"; } |
            "$oracle" run --echo | tail -n +5 | grep -vx ok > "$work/found" || true
        same "$work/expected" "$work/found" && s=0 || s=1
        count "$s" "docs/DIFFERENCES.md, block at line $line"
    done < <(grep '^# line ' "$work/all")
    rm -r "$work"
done
echo "$passed passed, $failed failed"
[ "$failed" -eq 0 ]
