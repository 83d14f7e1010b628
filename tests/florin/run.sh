#!/usr/bin/env bash
# Tests florin, the headers and the example against real files: every command, every refusal, bad files, kills and cuts of the power.
#
#   run.sh   makes libflorinwick.a (FLORINWICK_ARCHIVE takes another one), builds all with CMake, ends with "N passed, M failed"
#
# Needs cmake, g++, flock, man, script and xmllint; as root it also tries a full file system and a user without rights.
set -uo pipefail

here=$(cd "$(dirname "${BASH_SOURCE[0]}")" && pwd)
repo=$(cd "$here/../.." && pwd)
out=${FLORIN_TEST_OUT:-$repo/build/florin}
# Faults are put into a copy of the sources: faults.sh.
source_of_florin=${FLORIN_TEST_SOURCE:-$repo}

build() {
    mkdir -p "$out" &&
    cmake -S "$source_of_florin" -B "$out/cmake" -DFLORINWICK_ARCHIVE="${FLORINWICK_ARCHIVE:-}" -DCMAKE_INSTALL_PREFIX="$out/installed" \
        -DCMAKE_INSTALL_LIBDIR=lib > "$out/build.log" 2>&1 &&
    cmake --build "$out/cmake" -j "$(nproc)" >> "$out/build.log" 2>&1 &&
    g++ -std=c++17 -O2 -Wall -Wextra -shared -fPIC -o "$out/cut.so" "$here/cut.cpp" -ldl &&
    g++ -std=c++17 -O2 -Wall -Wextra -DXXH_INLINE_ALL -o "$out/forge" "$here/forge.cpp"
}

if ! build; then
    tail -n 30 "$out/build.log" >&2
    echo "$0: not built" >&2
    exit 1
fi
florin=$out/cmake/florin
# On a file system in memory a sync takes no time; what a sync must do is tested by cut.so, on any.
work=$(mktemp -d "${FLORIN_TEST_WORK:-/dev/shm}/florin.XXXXXX")
# files.sh mounts a file system in its part of it.
trap 'umount "$work/files/disk" 2> /dev/null; rm -rf "$work"' EXIT

# shellcheck source=steps.sh
source "$here/steps.sh"
for part in ${FLORIN_TEST_PARTS:-commands refusals named orders files dumps cuts callers tour}; do
    echo "== $part"
    mkdir "$work/$part" && cd "$work/$part" || exit 1
    # shellcheck source=/dev/null
    source "$here/$part.sh"
done
echo "$passed passed, $failed failed"
[ "$failed" -eq 0 ]
