# shellcheck shell=bash disable=SC2154
# What the parts share. Each part is sourced in an empty directory, with $florin, $out and $here set.
passed=0 failed=0

pass() { passed=$((passed + 1)); }
# With FLORIN_TEST_FIRST the first failure is the last word.
fail() {
    failed=$((failed + 1))
    echo "FAILED  $*"
    [ -z "${FLORIN_TEST_FIRST:-}" ] || exit 1
}

# expect STATUS PATTERN WORDS..: florin with these words ends with the status, and what it prints has the pattern (a regular expression
# over all of it as one line). The standard input is taken from $input, if that is set.
expect() {
    local status=$1 pattern=$2 got
    shift 2
    "$florin" "$@" < "${input:-/dev/null}" > printed 2> complained
    got=$?
    if [ "$got" -ne "$status" ]; then
        fail "florin $*: status $got instead of $status"
        head -n 3 complained
    elif ! grep -qE -- "$pattern" <<< "$(cat printed complained | tr -d '\0' | tr '\n' ' ')"; then
        fail "florin $*: no \"$pattern\" in what it prints"
        head -n 5 printed complained
    else
        pass
    fi
}

# same FILE FILE NAME
same() {
    if cmp -s "$1" "$2"; then
        pass
    else
        fail "$3: $1 and $2 differ"
        diff "$1" "$2" | head -n 6
    fi
}

# equal GOT EXPECTED NAME
equal() {
    if [ "$1" = "$2" ]; then
        pass
    else
        fail "$3: \"$1\" instead of \"$2\""
    fi
}

# holds NAME COMMAND..: the command succeeds.
holds() {
    local name=$1
    shift
    if "$@"; then pass; else fail "$name"; fi
}

# unchanged FILE COMMAND..: runs a test, and the file stays as it was, byte for byte.
unchanged() {
    local file=$1
    shift
    cp "$file" before
    "$@"
    same before "$file" "$*"
}

# A store's head: what it shows of itself, without its path.
shown() { "$florin" status "$1" 2>&1 | tail -n +2; }

# d FROM TO: the datoms of document 01's examples as text.
d() { seq "$1" "$2" | awk '{ print $1, 1, $1, 2, "assert" }'; }

# b FROM TO: the same as a batch, with the line that ends it.
b() { d "$@"; echo ---; }

# in_order ORDER: lines of datoms, ascending in an order of stores. Their values are all integers, or all strings without a space.
in_order() {
    local entity='-k 1,1n' attribute='-k 2,2n' value='-k 3,3n -k 3,3' keys
    case $1 in
        eavt) keys="$entity $attribute $value" ;;
        aevt) keys="$attribute $entity $value" ;;
        avet) keys="$attribute $value $entity" ;;
    esac
    # shellcheck disable=SC2086
    LC_ALL=C sort -t ' ' $keys -k 4,4n -k 5,5r
}

# Where the first page of a store is in its file.
pages_at() { "$florin" page "$1" 0 | sed -n 's/^at byte \([0-9]*\) .*/\1/p'; }

# A number as 8 bytes, little-endian.
word() { printf "\\x$(printf %02x "$1")\\0\\0\\0\\0\\0\\0\\0"; }

# Spaces to one, so that listings and inputs can be compared.
plain() { awk '{ $1 = $1 } 1'; }

list() { "$florin" list "$@" 2> complained | plain; }

# The bytes of a file from one place on, as hexadecimal.
bytes() { od -An -tx1 -v -j "$2" -N "$3" "$1" | tr -d ' \n'; }

# Puts one byte into a file.
poke() { printf "\\x$3" | dd of="$1" bs=1 seek="$2" conv=notrunc status=none; }
