# shellcheck shell=bash disable=SC2154
# dump and load: a store that was dumped is the same again, in pages of any size as far as that can be; a dump that was changed or cut off
# leaves nothing. Then what florin prints of itself: the manual and the completion.

# What stays with another page size: all of a receipt but pages and roots.
lasting() { "$florin" roots "$1" --json | sed -E 's/"(root|from|pages|page_count|pages_sum)":("[^"]*"|[^,}]*),?//g'; }
# Every extent of a store, without its two heads: those count how often they were written.
extents() { rm -f copy.fw; "$florin" backup "$1" copy.fw > /dev/null; tail -c +8193 copy.fw; }
# The listing at every root.
listings() { for root in $(seq 1 "$("$florin" roots "$1" --json | wc -l)"); do echo "@$root"; "$florin" list "$1" --root "@$root"; done; }

# again STORE: dumped and loaded, it is the same store; in other pages it has the same batches, and from there it comes back.
again() {
    local store=$1 size
    rm -f again.fw again.dump
    expect 0 "dumped $store to again.dump: [0-9,]+ batch" dump "$store" again.dump
    expect 0 'loaded again.fw, pages of ' load again.fw again.dump
    "$florin" roots "$store" --json > one; "$florin" roots again.fw --json > other; same one other "$store: receipts"
    extents "$store" > one; extents again.fw > other; same one other "$store: pages, checksums and receipts"
    listings "$store" > one; listings again.fw > other; same one other "$store: listings"
    "$florin" dump again.fw > other; same again.dump other "$store: a dump of what was loaded"
    expect 0 'Sound: all' check again.fw --all
    for size in 256 568 4096 8192; do
        rm -f sized.fw back.fw
        expect 0 "pages of $size bytes" load sized.fw again.dump --page-size $size
        lasting "$store" > one; lasting sized.fw > other; same one other "$store in pages of $size: batches"
        listings "$store" > one; listings sized.fw > other; same one other "$store in pages of $size: listings"
    done
    size=$(sed -nE 's/^#@ dump [123] page-size ([0-9]+) .*/\1/p' again.dump)
    "$florin" dump sized.fw | "$florin" load back.fw --page-size "$size" > /dev/null
    extents "$store" > one; extents back.fw > other; same one other "$store: there and back"
}

# A feed with branches, from the first root, from none and from a branch.
"$florin" create fed.fw --page-size 256 > /dev/null
(d 0 8; echo ---; d 10 19; echo ---; d 30 31; echo ---) | "$florin" insert fed.fw --quiet > /dev/null
(d 40 44; echo ---; d 50 58; echo ---) | "$florin" insert fed.fw --root @1 --branch --quiet > /dev/null
(d 0 3; echo ---) | "$florin" insert fed.fw --root none --branch --quiet > /dev/null
(d 32 33; echo ---) | "$florin" insert fed.fw --root @3 --branch --quiet > /dev/null
again fed.fw
equal "$(awk '/^#@ batch/ { print $5 }' again.dump | xargs)" 'none @1 @2 @1 @4 none @3' 'where the batches begin'
# All of a store that was fed in one go, heads included.
"$florin" backup fed.fw one.fw > /dev/null; "$florin" backup again.fw other.fw > /dev/null; same one.fw other.fw 'backups of equal stores'

# No batch at all, one in any order, strings of any bytes.
"$florin" create nothing.fw --page-size 568 > /dev/null
again nothing.fw
cat > words.txt <<'END'
1 1 "\"\\" 18446744073709551614 assert
1 1 "a#b" 2 retract
1 1 "\x00\xff" 2 assert
1 1 "" 2 assert
18446744073709551615 18446744073709551615 0 2 assert
1 1 4611686018427387903 2 assert
1 1 "a b" 2 assert
---
END
"$florin" create words.fw --page-size 256 --from words.txt > /dev/null
again words.fw

# Long values, of which batches share some; sent again, refused and sent in any order.
printf '9 1 "first text" 2 assert\n8 1 "second text" 2 assert\n7 1 18446744073709551615 2 assert\n6 1 "first text" 2 assert\n---\n' > long.first
(for i in $(seq 10 30); do echo "$i 1 \"a text, number $((i % 7))\" 2 assert"; echo "$i 2 $((i % 3))461168601842738790 2 assert"; echo ---; done) > long.feed
"$florin" create long.fw --page-size 256 --from long.first > /dev/null
"$florin" insert long.fw long.feed --quiet > /dev/null
printf '31 1 "a text that is refused" 2 assert\n30 1 1 2 assert\n---\n' | "$florin" insert long.fw > /dev/null 2>&1
printf '31 1 "a text that is taken" 2 assert\n---\n' | "$florin" insert long.fw > /dev/null
printf '31 1 "a text of a branch" 2 assert\n---\n' | "$florin" insert long.fw --root @1 --branch > /dev/null
again long.fw
equal "$(sed -n 2p again.dump | cut -d ' ' -f 1-3)" '#@ dump 2' 'the form of a dump with long values'
sed 's/"a text that is taken"/"a text that is takem"/' again.dump > what.dump
expect 75 'Altered \(75\): batch 23 of what.dump is not as it was dumped: its datoms have another checksum' load new.fw what.dump

# Batches of all sizes, spread over a tree of several levels, so that an insert flushes page after page.
seq 0 5999 | awk '{ print ($1 * 3571) % 6000, 1, $1, 2, "assert" }' > spread.txt
awk '{ print | "sort -n" } ++n > size { close("sort -n"); print "---"; fflush(); n = 0; size = (size + 7) % 128 }' spread.txt > sizes.txt
echo --- >> sizes.txt
for size in 256 568; do
    "$florin" create spread.$size.fw --page-size $size > /dev/null
    expect 0 'batches with 6,000 datoms' insert spread.$size.fw sizes.txt --quiet
    again spread.$size.fw
done

# Stores of the other orders, with long values and without: the dump says the order, and the load keeps it. Those of eavt have no such line.
for order in aevt avet; do
    "$florin" create $order.fw --page-size 256 --order $order > /dev/null
    awk '{ print $1, $1 % 5 + 1, ($1 * 7) % 90, 2, "assert" } $1 % 40 == 0 { print "---" }' <(seq 1 400) > unsorted.txt
    expect 0 '10 batches with 400 datoms' insert $order.fw unsorted.txt --sort --quiet
    "$florin" insert $order.fw <(echo '500 3 7 2 assert'; echo '499 3 8 2 assert'; echo ---) --root @4 --branch --sort > /dev/null
    again $order.fw
    equal "$(sed -n 2,3p again.dump | xargs)" "#@ dump 3 page-size 256 batches 11 #@ order $order" "the head of a dump of $order.fw"
    equal "$("$florin" stat again.fw | grep -c "^order  *$order: by")" 1 "the order of $order.fw when it is loaded"
    expect 0 "^loaded sized.fw.new, pages of 568 bytes, order $order: 11 batches" load sized.fw.new again.dump --page-size 568
    rm sized.fw.new
    "$florin" create long.$order.fw --page-size 256 --order $order --from long.first > /dev/null
    expect 0 '21 batches' insert long.$order.fw long.feed --quiet
    again long.$order.fw
    equal "$(sed -n 3p again.dump)" "#@ order $order" "the order in a dump of long.$order.fw"
done
for store in fed.fw long.fw; do
    equal "$("$florin" dump $store | grep -c '^#@ order'):$("$florin" dump $store | sed -n 2p | grep -cE '^#@ dump [12] ')" 0:1 "no order in a dump of $store"
done
"$florin" dump avet.fw > avet.dump
reordered() { # reordered SED STATUS PATTERN: a dump of avet.fw, edited, is refused so
    sed "$1" avet.dump > what.dump
    expect "$2" "$3" load new.fw what.dump
    [ -z "$(ls -d new.fw* 2> /dev/null)" ] || fail "left by $3: $(ls -d new.fw*)"
}
reordered 's/^#@ order avet/#@ order frob/' 65 'BadText \(65\): what.dump, line 3: the order frob is none of eavt, aevt or avet\. No store was made'
reordered '/^#@ order/d' 65 'BadText \(65\): what.dump, line 3: a line #@ order \.\. of a dump is due here'
reordered 's/^#@ order avet/#@ order aevt/' 4 'OutOfOrder \(4\): .*rise: by attribute, entity, value, transaction.*No store was made'
reordered 's/^#@ order avet/#@ order eavt/' 4 'OutOfOrder \(4\): .*rise: by entity, attribute, value, transaction.*No store was made'
reordered 's/^#@ dump 3/#@ dump 1/' 65 'line 3: a line #@ batch \.\. of a dump is due here'
reordered 's/^#@ dump 3/#@ dump 4/' 76 'OtherFormat \(76\): what.dump is a dump of form 4, of a newer florin'
# One batch that rises in both orders: the checksum of the lines tells.
"$florin" create rising.fw --order avet > /dev/null; "$florin" insert rising.fw <(b 1 5) > /dev/null
"$florin" dump rising.fw | sed 's/^#@ order avet/#@ order aevt/' > what.dump
expect 75 'Altered \(75\): what.dump is not as it was dumped: its lines have another checksum' load new.fw what.dump

# A store of florin 0.1 kept no checksums of datoms: they are made by the load, and all else stays.
gunzip -c "$here/format1.fw.gz" > old.fw
"$florin" upgrade old.fw upgraded.fw > /dev/null
"$florin" dump upgraded.fw | "$florin" load brought.fw > /dev/null
listings upgraded.fw > one; listings brought.fw > other; same one other 'an upgraded store: listings'
unsummed() { "$florin" roots "$1" --json | sed -E 's/"datoms_sum":[^,]*,//'; }
unsummed upgraded.fw > one; unsummed brought.fw > other; same one other 'an upgraded store: receipts'
equal "$("$florin" roots brought.fw --json | grep -c '"datoms_sum":null')" 0 'an upgraded store: checksums'

# florin insert takes a dump as the batches that it has.
"$florin" dump spread.256.fw spread.dump > /dev/null
"$florin" create inserted.fw --page-size 256 > /dev/null
expect 0 'with 6,000 datoms' insert inserted.fw spread.dump --quiet
"$florin" list inserted.fw > one; "$florin" list spread.256.fw > other; same one other 'a dump that is inserted'

# Where a file stands nothing is written, and what cannot be written is told.
"$florin" dump fed.fw fed.dump > /dev/null
unchanged fed.dump expect 70 'Exists.*fed.dump stands there' dump fed.fw fed.dump
unchanged again.fw expect 70 'Exists.*again.fw stands there' load again.fw fed.dump
expect 64 'florin dump has no --json' dump fed.fw --json
expect 66 'cannot create /no/where' dump fed.fw /no/where
expect 66 'cannot read /no/where' load new.fw /no/where
"$florin" dump fed.fw 2> complained > /dev/full; equal "$?" 71 'a dump into a full device'
expect 0 '"loaded":"new.fw","page_size":568,"order":"eavt","batches":7,"datoms":41' load new.fw fed.dump --page-size 568 --json
rm new.fw
expect 1 'BadStore' load new.fw fed.dump --page-size 300

# refused STATUS PATTERN: what.dump is refused so, and nothing is left of the store.
refused() {
    expect "$1" "$2" load new.fw what.dump
    [ -z "$(ls -d new.fw* 2> /dev/null)" ] || fail "left by $2: $(ls -d new.fw*)"
}
# edited SED STATUS PATTERN: the same of fed.dump, edited.
edited() {
    sed "$1" fed.dump > what.dump
    refused "$2" "$3"
}
edited 's/^53 1 53/53 1 54/' 75 'Altered \(75\): batch 5 of what.dump is not as it was dumped: its datoms have another checksum'
edited '/^53 /d' 75 'batch 5 .*it has 8 datoms, and had 9'
edited 's/^53 1 53 2 assert/53 1 53 2/' 65 'BadText \(65\): what.dump, line [0-9]+: a datom has 5 words.*No store was made'
edited 's/\(batch 5.*\) root [0-9]*/\1 root 3/' 75 'batch 5 .*it leads to root [0-9]+ with [0-9]+ pages?, and led to root 3'
edited 's/batch 5 from @4/batch 5 from none/' 75 'batch 5 .*it leads to root'
edited 's/batch 5 from @4/batch 5 from @5/' 75 'no batch @5 is before it'
edited 's/batch 5 from @4/batch 5 from 99/' 5 'NoPage \(5\): batch 5.*No store was made'
edited 's/batch 5 from @4/batch 5 from @3/; s/^50 1 50/30 1 30/; s/sum .*/sum -/' 6 'Repeated \(6\): datom 0, batch 5, line [0-9]+: 30 1 30.*No store'
edited 's/batch 5 /batch 6 /' 65 'batch 5 is due here, not 6'
edited 's/batch 5 from/batch 5 "from/' 65 'line [0-9]+: the string .* has no closing quote'
edited 's/time [0-9]*/time soon/' 65 'line 3: the time soon is no number'
edited 's/batches 7/batches 6/' 65 'a line #@ end .. of a dump is due here'
edited 's/batches 7/batches 8/' 65 'a line #@ batch .. of a dump is due here'
edited 's/dump 1 /dump 4 /' 76 'OtherFormat \(76\): what.dump is a dump of form 4'
edited 's/dump 1 /dump 2 /' 75 'its lines have another checksum than its last one says'
# What no single batch shows is shown by the checksum of all lines: a time, or a root that is named by its page.
edited 's/\(batch 5.*time\) [0-9]*/\1 7/' 75 'its lines have another checksum than its last one says'
edited "s/batch 5 from @4/batch 5 from $(sed -nE 's/^#@ batch 4 .* root ([0-9]+) .*/\1/p' fed.dump)/" 75 'its lines have another checksum'
expect 64 'batch 5 was inserted at page [0-9]+, which is no batch.s root' load new.fw what.dump --page-size 568
cat fed.dump fed.dump > what.dump; refused 65 'the dump has ended, and here is more'
cp sizes.txt what.dump; refused 65 'line 1: a line #@ dump .. of a dump is due here'
: > what.dump; refused 65 'it is empty, and no dump'

# A line that is left out, stands twice or has another digit; a dump that is cut at any line, and at any byte near its end.
lines=$(wc -l < fed.dump) bytes=$(wc -c < fed.dump) taken=0
attempt() {
    "$florin" load new.fw what.dump > /dev/null 2> complained && taken=$((taken + 1)) && echo "taken: $*"
    grep -q '^florin: ' complained || fail "no word of $*"
    [ -z "$(ls -d new.fw* 2> /dev/null)" ] || { fail "left by $*"; rm -f new.fw*; }
}
for line in $(seq 1 "$lines"); do
    sed "${line}d" fed.dump > what.dump; attempt "line $line left out"
    sed "${line}p" fed.dump > what.dump; attempt "line $line twice"
    sed "${line}s/.\$/~/" fed.dump > what.dump; attempt "line $line with another end"
    head -n $((line - 1)) fed.dump > what.dump; attempt "cut before line $line"
done
for byte in $(seq $((bytes - 60)) $((bytes - 1))); do
    head -c "$byte" fed.dump > what.dump; attempt "cut at byte $byte"
    equal "$(sed -n 's/^florin: \([A-Za-z]*\).*/\1/p' complained)" NotClosed "cut at byte $byte"
done
equal $taken 0 'dumps that were changed or cut, and taken'

# A damaged page ends the dump, which no load takes; a file is not left at all.
cp fed.fw damaged.fw
poke damaged.fw "$("$florin" page damaged.fw 3 | sed -n 's/^at byte \([0-9]*\).*/\1/p')" ff
expect 75 'Altered \(75\): batch @2: page 3 is not as it was written' dump damaged.fw damaged.dump
equal "$(ls -d damaged.dump* 2> /dev/null)" '' 'what a dump of a damaged store leaves'
"$florin" dump damaged.fw 2> complained > what.dump; refused 77 'NotClosed \(77\): what.dump ends in line [0-9]+, with 1 of 7 batches whole'

# The manual and the completion have every command and every option that the help has.
"$florin" man > florin.1; "$florin" completion bash > florin.bash
holds 'bash takes the completion' bash -n florin.bash
MANWIDTH=100 man --warnings -E UTF-8 -l florin.1 > page 2> warnings; equal "$?:$(cat warnings)" 0: 'the manual is shown without warnings'
sed -i 's/‐/-/g; s/.\x08//g' page
equal "$(grep -c 'NotClosed 77' page)" 1 'each part of the manual stands there once'
"$florin" --help | sed -nE '/^Commands:/,/^$/s/^  ([a-z]+)[ ,].*/\1/p' > names
holds "$(wc -l < names) commands" test "$(wc -l < names)" -gt 14
# completed WORDS..: what stands for the last of them.
completed() {
    bash -c 'source ./florin.bash; complete -p florin > /dev/null || exit 1
        COMP_WORDS=("$@") COMP_CWORD=$(($# - 1)); _florin; printf "%s\n" "${COMPREPLY[@]}"' bash "$@" | sort | xargs
}
while read -r name; do
    holds "$name in the manual" grep -qE "^ +florin $name( |\$)" page
    equal "$(completed florin "$name")" "$name" "$name is completed"
    "$florin" "$name" --help | grep -oE '^  (-h,)?--[a-z][a-z-]*' | sed 's/.*--/--/' | sort > options
    equal "$(completed florin "$name" -- | tr ' ' '\n' | grep -vxE -e '--(json|version)' | xargs)" "$(xargs < options)" "options of $name"
    while read -r option; do holds "$name $option in the manual" grep -qE "^ +(-h, )?$option( |\$)" page; done < options
done < names
mkdir files; touch files/one.txt files/two.txt
equal "$(completed florin in)" insert 'florin in'
equal "$(completed florin insert --re)" --resend 'florin insert --re'
equal "$(completed florin insert files/)" 'files/one.txt files/two.txt' 'the store of florin insert'
equal "$(completed florin insert day.fw --root @ 1 --branch files/o)" files/one.txt 'the file of florin insert'
equal "$(completed florin insert --every '')" '' 'a number is not completed'
equal "$(completed florin create new.fw --from files/t)" files/two.txt 'the file of an option'
equal "$(completed florin --json cou)" count 'behind an option of florin'
equal "$(completed florin status --sal)" --salvage 'another name of a command'
equal "$(completed florin help rem mis) $(completed florin help mis)" ' missing' 'florin help'
equal "$(completed florin completion '')" bash 'the shells'
expect 64 'SHELL' completion tcsh
