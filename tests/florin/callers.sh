# shellcheck shell=bash disable=SC2154
# The example, programs in C and C++ that are built against the installed library, and what the build promises to its users.

"$out/cmake/replicator" > said; equal $? 0 'the example'
same said "$here/replicator.txt" 'the example'

if cmake --install "$out/cmake" > install.log 2>&1; then pass; else fail 'install'; fi
export PKG_CONFIG_PATH=$out/installed/lib/pkgconfig
flags=$(pkg-config --cflags --libs florinwick)
warnings='-Wall -Wextra -Wpedantic -Wconversion -Wshadow -Werror'
# shellcheck disable=SC2086
built() {
    if $1 "$2" -o program $warnings $flags > built.log 2>&1; then
        ./program > said; equal "$?:$(tr '\n' ' ' < said)" 0: "$1 $2"
    else
        fail "$1 $2"
        head -n 5 built.log
    fi
}
built 'gcc -std=c99' "$here/caller.c"
built 'gcc -std=c11' "$here/caller.c"
built 'g++ -std=c++17 -x c++' "$here/caller.c" 
built 'g++ -std=c++17' "$here/caller.cpp"
built 'g++ -std=c++20' "$here/caller.cpp"
built 'g++ -std=c++17 -fsanitize=address,undefined' "$here/caller.cpp"
if command -v clang++ > /dev/null; then built 'clang++ -std=c++17' "$here/caller.cpp"; fi

# What the archive asks of others: the two functions that the compiler's back end calls (README.md).
equal "$(nm -u "$out/installed/lib/libflorinwick.a" | awk '$1 == "U" { print $2 }' | sort -u | xargs)" 'memcpy memset' 'undefined symbols'

# shellcheck source=build.sh
source "$here/build.sh"
