# shellcheck shell=bash disable=SC2154
# What the build promises: versions that a user's build can ask for, packages that are named where they are missing, an archive that is
# made once. A part of callers.sh.

version=$(sed -n 's/^#define FLORINWICK_VERSION "\(.*\)"/\1/p' "$out/installed/include/florinwick.h")
minor=${version%.*}
next=${minor%.*}.$((${minor#*.} + 1))
equal "$(pkg-config --modversion florinwick)" "$version" 'version of pkg-config and header'
holds 'pkg-config, this version' pkg-config --atleast-version="$minor" florinwick
equal "$(pkg-config --atleast-version="$next" florinwick; echo $?)" 1 'pkg-config, a later version'

# An install to ~/.local is on no path: what the tour has one type after it is enough.
cmake --install "$out/cmake" --prefix "$PWD/home/.local" > install.log 2>&1
typed=$(grep '^export ' "$repo/docs/TOUR.md")
found=$(env -i HOME="$PWD/home" PATH=/usr/bin:/bin bash -c "$typed"$'\n''command -v florin; pkg-config --variable=prefix florinwick')
equal "$(wc -l <<< "$typed")" 2 'the lines to type after an install'
equal "$(xargs -n 1 realpath <<< "$found" | xargs)" "$(realpath home/.local/bin/florin home/.local | xargs)" 'an install to ~/.local'

# A user's project, which asks for a version of the package.
mkdir user
cat > user/CMakeLists.txt << 'END'
cmake_minimum_required(VERSION 3.16)
project(user LANGUAGES CXX)
set(CMAKE_CXX_STANDARD 17)
find_package(florinwick ${WANTED} REQUIRED)
add_executable(user user.cpp)
target_link_libraries(user PRIVATE florinwick::florinwick)
END
cat > user/user.cpp << 'END'
#include <florinwick.hpp>
int main() { return florinwick::Store::scratch_need(256) == 62016 ? 0 : 1; }
END
found() { cmake -S user -B "user/$1" -DWANTED="$1" -DCMAKE_PREFIX_PATH="$out/installed" > user.log 2>&1; }
for wanted in "$minor" "$version"; do
    holds "find_package, $wanted" found "$wanted"
done
holds 'a build with the package' cmake --build "user/$minor" --target user > user.log
holds 'a program with the package' "user/$minor/user"
for wanted in 0.1 0.5 "$next" 1.0; do
    if found "$wanted"; then fail "find_package takes $version for $wanted"; else pass; fi
    holds "find_package of $wanted says why" grep -q 'version: '"$version" user.log
done

# Where a package of florin is missing its name is said, and the library and the example can be had without.
configured() { cmake -S "$source_of_florin" -B without -DFLORINWICK_ARCHIVE="$out/installed/lib/libflorinwick.a" "$@" > without.log 2>&1; }
without='-DCMAKE_DISABLE_FIND_PACKAGE_CLI11=ON -DCMAKE_DISABLE_FIND_PACKAGE_nlohmann_json=ON -DXXHASH_INCLUDE_DIR=XXHASH_INCLUDE_DIR-NOTFOUND'
# shellcheck disable=SC2086
if configured $without; then fail 'florin without its packages'; else pass; fi
for package in libcli11-dev nlohmann-json3-dev; do holds "$package is named" grep -q "$package" without.log; done
# shellcheck disable=SC2086
holds 'a build without florin' configured $without -DFLORINWICK_FLORIN=OFF
holds 'the example without florin' cmake --build without --target replicator > without.log

# cmake/archive.sh, with a stand-in for rt that leaves the sources as the archive: made once, and again where a source or the archive is
# not what it was.
mkdir -p one/cmake one/crates/florinwick/src one/crates/florinwick_c/out one/crates/store one/bin
cp "$repo/cmake/archive.sh" one/cmake/
printf 'store:\nflorinwick: store\nflorinwick_c staticlib: store florinwick\n' > one/crates.txt
echo first > one/crates/florinwick/src/lib.rt
cat > one/bin/rt << 'END'
#!/bin/sh
here=$PWD
cd "${0%/*}/.."
[ "$1" = version ] && { cat bin/version; exit; }
echo "$@ in ${here##*/crates/}" >> calls
[ ! -e bin/broken ] && cp crates/florinwick/src/lib.rt crates/florinwick_c/out/libflorinwick_c.a
END
chmod +x one/bin/rt
echo 1 > one/bin/version
kit=one/bin
made() {
    : > one/calls
    PATH=$PWD/$kit:$PATH bash one/cmake/archive.sh > archive.log 2>&1
    equal "$?:$(xargs < one/calls):$(cat one/target/staticlib/libflorinwick.a)" "$2" "the archive, $1"
}
all='lib in florinwick_c'
made 'first' "0:$all:first"
made 'again' '0::first'
echo second > one/crates/florinwick/src/lib.rt
made 'a source edited' "0:$all:second"
echo other > one/target/staticlib/libflorinwick.a
made 'another archive' "0:$all:second"
echo 2 > one/bin/version
made 'another kit' "0:$all:second"
cp -r one/bin one/elsewhere; kit=one/elsewhere
made 'that kit in another place' "0:$all:second"
echo > one/crates/store/Lib.antt
touch one/bin/broken
made 'not proved' "1:$all:second"
made 'still not proved' "1:$all:second"
rm one/bin/broken
made 'proved' "0:$all:second"
made 'proved before' '0::second'
mkdir one/crates/store/out
echo > one/crates/store/out/Lib.antt
made 'a file that rt keeps' '0::second'
PATH=$PWD/$kit:$PATH bash one/cmake/archive.sh store > archive.log 2>&1
equal "$?:$(grep -c 'no static library store_c or store' archive.log)" 1:1 'the archive of a library'
RT=no-such-rt bash one/cmake/archive.sh > archive.log 2>&1
equal "$?:$(grep -c 'no rt on the PATH' archive.log)" 77:1 'the archive, no rt'

# The manual and the completion are installed with florin.
holds 'the manual page' grep -q '^.SS florin insert' "$out/installed/share/man/man1/florin.1"
holds 'the completion' grep -q '^complete -F _florin florin' "$out/installed/share/bash-completion/completions/florin"
