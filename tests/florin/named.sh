# shellcheck shell=bash disable=SC2154
# Damaged and Unsound name the fault of the page: every one that a file can have, in every command that can meet it, for people and as
# JSON. What is said stands here once more, word for word.
#
# Missing, PastCount, TooHigh and NothingLeft come of cursors that no start made, and florin makes none: caller.c has them.

restore='restore the file from a backup and send the feed again with florin insert --resend'
own_bytes="$restore; florin check --all --walk names the roots that reach such a page, and the others can still be listed."
declare -A number=([Level]=1 [Count]=2 [Form]=3 [Order]=4 [LeafChild]=5 [LastChild]=6 [ChildId]=7 [WrongLevel]=9 [EqualDatoms]=10 [OutOfBounds]=11)
declare -A meaning=(
    [Level]='its level is over 7'
    [Count]='it counts more datoms than a page of its size holds'
    [Form]='a datom in it is malformed, has the value max, or names no constant'
    [Order]='its datoms do not rise'
    [LeafChild]='its level is 0, and it has a child'
    [LastChild]='its level is above 0, and it has no last child'
    [ChildId]='the number of one of its children is not below its own'
    [WrongLevel]='its level is not the one that its place in the tree asks for'
    [EqualDatoms]='one of its datoms stands in another page of the tree too'
    [OutOfBounds]='a datom in it is not between the bounds that the pages above it set')
declare -A advice=(
    [Level]=$own_bytes [Count]=$own_bytes [Form]=$own_bytes [Order]=$own_bytes [LeafChild]=$own_bytes [LastChild]=$own_bytes [ChildId]=$own_bytes
    [WrongLevel]="florin page shows the page, and florin tree the one that leads to it: one of the two is wrong; $restore."
    [EqualDatoms]='insert nothing at this root; take an older one that florin list lists to its end, or restore the file from a backup: florin check does not look for datoms that stand twice.'
    [OutOfBounds]="insert nothing at this root, as a repeat of that datom could pass; $restore; florin check --all --walk names the roots with such a page.")
declare -A stays=([Damaged]='Root and pages are as they were.' [Unsound]='It is the first page with a fault that the check met.')

# The object of a fault, as it stands beside the page.
fault_object() { echo "\"fault\":{\"number\":${number[$1]},\"name\":\"$1\",\"text\":\"${meaning[$1]}\",\"advice\":\"${advice[$1]}\"}"; }

# names ERROR PAGE FAULT PLACE WORDS..: all that florin with these words complains of, and the same with --json.
names() {
    local error=$1 page=$2 fault=$3 place=$4 status=7
    shift 4
    [ "$error" = Unsound ] && status=33
    local what="page $page, $place. The fault is $fault: ${meaning[$fault]}. ${stays[$error]}"
    "$florin" "$@" > printed 2> complained
    equal "$?:$(cat complained)" "$status:florin: $error ($status): ${what/. The/.$'\n'  The}"$'\n'"  next: ${advice[$fault]}" "florin $*"
    "$florin" "$@" --json > printed 2> complained
    equal "$?" "$status" "status of florin $* --json"
    holds "page and fault in florin $* --json" grep -qF "{\"error\":\"$error\",\"status\":$status,\"page\":$page,$(fault_object "$fault")," complained
    holds "the end of florin $* --json" grep -qF "\"message\":\"$what\",\"next\":\"${advice[$fault]}\"}" complained
}

# named_by_readers PAGE FAULT: a store whose newest root, 3, has a page with a fault on the way to entity 12, and nothing else that is new.
named_by_readers() {
    unchanged bad.fw names Damaged "$1" "$2" 'batch 1' missing bad.fw twelve.txt
    unchanged bad.fw names Damaged "$1" "$2" 'root 3' count bad.fw --from 12
    unchanged bad.fw names Damaged "$1" "$2" 'root 3' list bad.fw --from 12
    names Damaged "$1" "$2" 'batch 1' insert bad.fw twelve.txt
}

# named_by_check PAGE FAULT: --all says it of each root, and in full of the first.
named_by_check() {
    names Unsound "$1" "$2" 'root 3' check bad.fw
    names Unsound "$1" "$2" 'root 3' check bad.fw --root @2
    "$florin" check bad.fw --all > printed 2> complained
    equal "$?:$(grep '^@2' printed)" "33:@2 root 3: Unsound, page $1, $2" "florin check --all, $2"
    "$florin" check bad.fw --all --json > printed 2> complained
    holds "florin check --all --json, $2" grep -qF "{\"receipt\":2,\"sound\":false,\"error\":\"Unsound\",\"page\":$1,$(fault_object "$2"),\"root\":3}" printed
}

# damaged PAGE AT BYTE..: document 01's example e with other bytes: root 3 has d3 and pending d7..d11, pages 0 and 1 are its leaves.
damaged() {
    cp sound.fw bad.fw
    while [ $# -gt 0 ]; do
        poke bad.fw $((pages + 256 * $1 + $2)) "$3"
        shift 3
    done
}

b 0 6 > seven.txt; b 7 11 > five.txt; b 12 12 > twelve.txt
"$florin" create sound.fw --page-size 256 --from seven.txt > /dev/null; "$florin" insert sound.fw five.txt > /dev/null
pages=$(pages_at sound.fw)
equal "$("$florin" page sound.fw 1 | grep -c 'its fault is')" 0 'no fault of a sound page'

# The seven rules of the reader: each by one or two bytes, and the page shows it by itself.
while read -r fault page bytes; do
    # shellcheck disable=SC2086
    damaged $bytes
    named_by_readers "$page" "$fault"
    named_by_check "$page" "$fault"
    equal "$("$florin" page bad.fw "$page" | grep 'its fault is')" "its fault is $fault: ${meaning[$fault]}" "florin page, $fault"
done << 'END'
Level 1 1 248 08
Count 1 1 249 07
Form 1 1 23 40
Form 1 1 23 ff 1 22 ff 1 21 ff 1 20 ff 1 19 ff 1 18 ff 1 17 ff 1 16 ff
Order 1 1 0 09
LeafChild 1 1 192 00
LastChild 3 3 249 05
ChildId 3 3 240 03
END

# The first broken rule in document 01's order, whatever else is broken; and a page is read before its level is asked.
damaged 1 248 09 1 249 c8 1 0 09; names Unsound 1 Level 'root 3' check bad.fw
damaged 1 249 c8 1 0 09 1 192 00; names Unsound 1 Count 'root 3' check bad.fw
damaged 1 23 40 1 0 09; names Unsound 1 Form 'root 3' check bad.fw
damaged 1 248 01 1 0 09; names Unsound 1 Order 'root 3' check bad.fw
damaged 1 248 01; names Unsound 1 LastChild 'root 3' check bad.fw

# A readable page at a place for another level: the check comes to the first child, a lookup of 12 to the last. The page by itself is whole.
damaged 3 248 02
named_by_readers 1 WrongLevel
named_by_check 0 WrongLevel
equal "$("$florin" page bad.fw 0 | grep -c 'its fault is')" 0 'a page that is whole by itself'
damaged 0 249 07
equal "$("$florin" page bad.fw 3 | grep -c 'its fault is')" 0 'a page whose child is damaged'

# A datom below the midpoint before its leaf. Listings do not see it.
damaged 1 0 02
named_by_check 1 OutOfBounds
expect 0 '12 datoms' count bad.fw

# A datom that is pending above and in the leaf too: the check does not see it, a listing names the higher page, a merge the lower one.
damaged 3 32 05 3 48 05
names Damaged 3 EqualDatoms 'root 3, after 5 datoms' list bad.fw
names Damaged 3 EqualDatoms 'root 3' count bad.fw
names Damaged 1 EqualDatoms 'batch 1' insert bad.fw twelve.txt
expect 75 'Altered \(75\): page 3' check bad.fw

# What the checksums find first has no fault of the library: no rule was asked.
damaged 1 249 07
expect 75 'Altered \(75\): page 1 of bad.fw' backup bad.fw copy.fw
expect 75 'Altered \(75\): batch @1: page 1 is not' dump bad.fw
"$florin" dump bad.fw 2>&1 > /dev/null | grep -c 'fault' > found; equal "$(cat found)" 0 'no fault where a checksum speaks'

# What the advice says can be done. Without a backup: a root that does not reach the page, as batches for a new store, and the feed again.
cat seven.txt five.txt twelve.txt > feed.txt
damaged 3 240 03
equal "$("$florin" check bad.fw --all 2> /dev/null)" '@2 root 3: Unsound, page 3, ChildId' 'the roots that reach the page'
"$florin" create new.fw --page-size 256 > /dev/null
"$florin" list bad.fw --root @1 --every 128 | "$florin" insert new.fw > told; equal "$?" 0 'an older root goes into a new store'
expect 0 'batch 1 was in before: 7 datoms.*batch 2 is in: 5 datoms.*batch 3 is in: 1 datom' insert new.fw feed.txt --resend
list new.fw > listed; d 0 12 > expected; same listed expected 'all of the feed, each once'

# The names are in the help and in the manual.
"$florin" check --help > help; "$florin" man > florin.1; MANWIDTH=200 man -E UTF-8 -l florin.1 > page 2> warnings
for fault in "${!number[@]}"; do
    holds "$fault in the help" grep -qE "^ +$fault +${meaning[$fault]}\$" help
    holds "$fault in the manual" grep -qE "^ +$fault +${meaning[$fault]}\$" page
done
