#!/usr/bin/env bash
# Makes target/staticlib/libNAME.a, an archive for C, unless the one that is there was made from the sources that are there.
#
#   archive.sh [NAME]   florinwick if not said; rt and this script say on the standard error what they do; $RT is an rt off the PATH
#
# It is what `rt lib` makes of the static library NAME_c, which exports the functions of the library NAME, or of NAME where that is a
# static library itself (crates.txt).
#
# rt keeps what it has proved of every crate in crates/*/out/, and does not prove it again. But each `rt lib` looks through all of that,
# and compiles all that the archive needs: over ten seconds, and nothing but a stamp can save them, so this script leaves one beside the
# archive: hashes of the kit's identity and place, crates.txt, every .rt and .antt file, and of the archive itself. It trusts target/ as rt
# trusts out/: that rt and this script alone write there. The gate (.ci/run) takes nothing from either.
set -euo pipefail

cd "$(dirname "${BASH_SOURCE[0]}")/.."
name=${1:-florinwick}
rt=${RT:-rt}
archive=target/staticlib/lib$name.a
stamp=target/staticlib/$name.sources

if ! command -v "$rt" > /dev/null; then
    echo "$0: no rt on the PATH; it comes with Rattle's kit, in its bin/ (README.md)" >&2
    exit 77
fi
# It is run in the crate's folder.
rt=$(realpath -s "$(command -v "$rt")")

hash_of_sources() {
    { "$rt" version; readlink -f "$rt"; uname -m; sha256sum crates.txt
        find crates -name out -prune -o '(' -name '*.rt' -o -name '*.antt' ')' -print | LC_ALL=C sort | xargs -d '\n' sha256sum; } |
        sha256sum
}

# The static library that makes the archive.
crate=$(sed -nE "s/^($name(_c)?) staticlib\b.*:.*/\1/p" crates.txt | head -n 1)
if [ -z "$crate" ]; then
    echo "$0: crates.txt has no static library ${name}_c or $name" >&2
    exit 1
fi

mkdir -p target/staticlib
# Two builds at a time would write one archive. The second waits, and finds it made.
exec 9> target/staticlib/.lock
flock 9

sources=$(hash_of_sources)
if [ -f "$stamp" ] && [ -f "$archive" ] && [ "$(cat "$stamp")" = "$sources $(sha256sum < "$archive")" ]; then
    echo "$archive is made from these sources" >&2
    exit 0
fi
rm -f "$stamp"
# It proves what is not proved yet, the crates below it first.
(cd "crates/$crate" && "$rt" lib >&2)
cp "crates/$crate/out/lib$crate.a" "$archive"
# What was edited meanwhile is not in the archive for certain.
if [ "$sources" = "$(hash_of_sources)" ]; then
    echo "$sources $(sha256sum < "$archive")" > "$stamp"
fi
