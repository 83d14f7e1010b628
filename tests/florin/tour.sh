# shellcheck shell=bash disable=SC2154
# docs/TOUR.md, run again: its files are written, its commands typed, and what they print is compared. Times are not.

mkdir tour; cd tour || exit 1
# Files of their own, the C++ program as first.cpp, and one script of all commands, each behind a line that shows it.
awk '
    /^```/ { if (inside) { inside = 0 } else { inside = 1; kind = substr($1, 4); file = $2; if (kind == "cpp") file = "first.cpp" }; next }
    inside && (kind == "file" || kind == "cpp") { print > file }
    inside && kind == "console" { print > "expected" }
    inside && kind == "console" && /^\$ / { print substr($0, 3) > "commands" }
' "$repo/docs/TOUR.md"
export PKG_CONFIG_PATH=$out/installed/lib/pkgconfig
cmake --install "$out/cmake" > install.log 2>&1
while read -r command; do
    echo "\$ $command"
    case $command in
        'echo $?') echo "$status" ;;
        *) PATH=$(dirname "$florin"):$PATH bash -c "$command" 2>&1 < /dev/null; status=$? ;;
    esac
done < commands > found
untimed() { sed -E 's/20[0-9]{2}-[0-9]{2}-[0-9]{2} [0-9:]{8}Z/TIME/' "$1"; }
untimed found > found.untimed; untimed expected > expected.untimed
holds 'commands of the tour' test "$(grep -c '^\$ ' expected)" -gt 10
same found.untimed expected.untimed 'the tour'
same tree.svg "$repo/docs/tree.svg" 'the picture of the tour'
cd ..
