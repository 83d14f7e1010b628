#!/usr/bin/env bash
# For a machine that is not x86-64: a kit in build/kit whose `rt lib` compiles for this machine, so that the tests that link the
# library and the benchmark can be run on it. Prints where its rt is:
#
#   export PATH=$(bash tests/native.sh):$PATH
#
# rt proves on Arm too, but writes archives for x86-64 alone. rattle hands its compiler a module of LLVM's and the processor that it is for;
# here the second is changed on the way. All else is the installed kit, by links: the same proofs, the same module. The gate and what is
# installed have nothing to do with it.
set -euo pipefail

repo=$(cd "$(dirname "${BASH_SOURCE[0]}")/.." && pwd)
# shellcheck source=needs.sh
source "$repo/tests/needs.sh"
need_rt
kit=$(dirname "$(dirname "$(readlink -f "$(command -v rt)")")") machine=$(uname -m) out=$repo/build/kit
installed=$kit/on/$machine/toolchain
# On the PATH already.
[ "$kit" != "$out" ] || { echo "$out/bin"; exit; }
[ -x "$installed/bin/clang" ] || lacks "the kit at $kit has no compiler for $machine"

rm -rf "$out"
mkdir -p "$out/bin" "$out/on/$machine/toolchain/bin"
# link FROM TO: all that stands in FROM and not yet in TO.
link() {
    local file
    for file in "$1"/*; do [ -e "$2/$(basename "$file")" ] || ln -s "$file" "$2"; done
}
link "$kit" "$out"
link "$kit/on/$machine" "$out/on/$machine"
link "$installed" "$out/on/$machine/toolchain"
# rt takes the kit that it stands in.
cp "$kit/bin/rt" "$kit/bin/rattle" "$out/bin"
cat > "$out/on/$machine/toolchain/bin/clang" <<END
#!/bin/sh
for word; do
    shift
    case \$word in
    --target=*) word=--target=$machine-unknown-linux-gnu ;;
    -march=*) continue ;;
    esac
    set -- "\$@" "\$word"
done
exec $installed/bin/clang -Wno-override-module "\$@"
END
chmod +x "$out/on/$machine/toolchain/bin/clang"
link "$installed/bin" "$out/on/$machine/toolchain/bin"
echo "$out/bin"
