# shellcheck shell=bash disable=SC2154
# Every refusal that a person can meet: its name, its number as the exit status, its index or page, what to do next, and what it leaves.

b 0 6 > seven.txt
"$florin" create r.fw --page-size 256 --from seven.txt > /dev/null
pages=$(pages_at r.fw)

# 1 BadStore
expect 1 'BadStore \(1\): The page size is not 256, 568, 4096 or 8192, or .*next: choose' create bad.fw --page-size 300
for size in 0 255 4095 8191 8193 16384; do
    expect 1 'BadStore' create bad.fw --page-size $size
done
equal "$(ls -d bad.fw* 2> /dev/null)" '' 'files that a refused create leaves'

# 2 TooMany
b 10 138 > many.txt
unchanged r.fw expect 2 'TooMany \(2\): batch 1\. +A batch has at most 128 datoms.*next: cut it.*--every 128' insert r.fw many.txt
"$florin" create raw.fw --from <(echo '7001 1 1 2 assert') --last-batch-open > /dev/null; "$florin" list raw.fw --binary > raw.bin
unchanged r.fw expect 2 'TooMany \(2\): batch 1 says that it has 7,001 datoms.*next: .*A binary batch is its number of datoms, 8 bytes little-endian' insert r.fw raw.bin --binary
(word 1; cat raw.bin; printf x) > odd.bin
expect 77 'batch 1 is in: 1 datom.*NotClosed \(77\): odd.bin ends within batch 2: its number of datoms has 1 byte of 8.*next: if the input was cut off' insert raw.fw odd.bin --binary --root none --branch
yes '1 1 1 2 assert' | head -n 100000 > endless.txt
unchanged r.fw expect 2 'TooMany' insert r.fw endless.txt
expect 2 'TooMany' create bad.fw --from many.txt
cp r.fw r2.fw
expect 0 '2 batches with 129 datoms' insert r2.fw many.txt --every 128

# 3 BadDatom
(d 10 11; echo '12 1 max 2 assert'; echo ---) > bad.txt
unchanged r.fw expect 3 'BadDatom \(3\): datom 2, batch 1, line 3: 12 1 max 2 assert\. .*next: correct' insert r.fw bad.txt
(b 10 11; echo '12 1 0xbfffffffffffffff 2 assert'; echo ---) > bad.txt
expect 3 'batch 1 is in.*BadDatom \(3\): datom 0, batch 2, line 4: 12 1 0xbfffffffffffffff' insert r2.fw bad.txt --root none --branch
expect 3 'BadDatom \(3\): datom 1' create bad.fw --from <(d 1 1; echo '1 1 0x8100000000000161 2 assert'; echo ---)
(word 1; printf '\1\0\0\0\0\0\0\0\1\0\0\0\0\0\0\0'; printf '\0\0\0\0\0\0\0\210'; printf '\3\0\0\0\0\0\0\0') > bad.bin
unchanged r.fw expect 3 'BadDatom \(3\): datom 0, batch 1: 1 1 0x8800000000000000 2 assert' insert r.fw bad.bin --binary

# 11 BadConstant: raw words that name nothing, after every BadDatom and before OutOfOrder
for word in 0x4000000000000000 0x4000000000000001 0xc000000000000000 0xfffffffffffffff8 0xfffffffffffffffe; do
    (d 10 11; echo "12 1 $word 2 assert"; echo ---) > bad.txt
    unchanged r.fw expect 11 "BadConstant \(11\): datom 2, batch 1, line 3: 12 1 $word 2 assert\. .*names a place on the heap of this store where no such value lies\. .*next: write long values as text" insert r.fw bad.txt
    expect 11 'BadConstant \(11\): datom 2' create bad.fw --from bad.txt
    expect 11 'BadConstant \(11\): datom 2' missing r.fw bad.txt
done
(echo '12 1 0x4000000000000000 2 assert'; echo '11 1 max 2 assert'; echo ---) > bad.txt
unchanged r.fw expect 3 'BadDatom \(3\): datom 1' insert r.fw bad.txt
(d 11 11; d 10 10; echo '9 1 0x4000000000000000 2 assert'; echo ---) > bad.txt
unchanged r.fw expect 11 'BadConstant \(11\): datom 2' insert r.fw bad.txt
equal "$(ls -d bad.fw* 2> /dev/null)" '' 'files that a bad constant leaves'

# 12 HeapFull: the file may not grow, and has no room for a long value.
(echo '20 1 "a long value" 2 assert'; echo ---) > value.txt
cp r.fw heap.fw
unchanged heap.fw expect 12 'HeapFull \(12\): batch 1\. +A long value does not fit into the file.*next: leave out --no-grow' insert heap.fw value.txt --no-grow
expect 0 'is in' insert heap.fw value.txt
(echo '21 1 "a longer value than before" 2 assert'; echo ---) > value.txt
expect 0 'is in' insert heap.fw value.txt --no-grow
expect 0 'Sound: all 3 roots; .* and 64 bytes of long values as written' check heap.fw --all
(echo "22 1 \"$(head -c 20000 /dev/zero | tr '\0' x)\" 2 assert"; echo ---) > value.txt
unchanged heap.fw expect 12 'HeapFull \(12\)' insert heap.fw value.txt --no-grow

# 4 OutOfOrder
(d 10 11; b 11 12) > bad.txt
unchanged r.fw expect 4 'OutOfOrder \(4\): datom 2, batch 1, line 3: 11 1 11 2 assert\..*next: put that datom' insert r.fw bad.txt
expect 4 'OutOfOrder \(4\): datom 2, batch 1, line 3: 11 1 11' create bad.fw --from bad.txt
equal "$(ls -d bad.fw* 2> /dev/null)" '' 'files that a refused batch leaves'

# 5 NoPage
b 20 20 > one.txt
for words in 'list r.fw --root 3' 'count r.fw --root 3' 'missing r.fw one.txt --root 3' 'check r.fw --root 18446744073709551614' 'page r.fw 3' 'page r.fw none' 'tree r.fw --root 3'; do
    # shellcheck disable=SC2086
    unchanged r.fw expect 5 'NoPage \(5\): .*no such page.*next: take a root from florin roots' $words
done

# 6 Repeated: first in the batch's order, wherever the datom is in the tree.
(echo '2 1 2 0 retract'; d 5 6; b 9 9) > bad.txt
unchanged r.fw expect 6 'Repeated \(6\): datom 1, batch 1, line 2: 5 1 5 2 assert.*holds 2 of the batch.s 4 datoms' insert r.fw bad.txt

# 7 Damaged and 33 Unsound: a page whose count is 200. A batch elsewhere goes in, and older roots stay readable.
cp r.fw damaged.fw
poke damaged.fw $((pages + 1 * 256 + 249)) c8
before=$(shown damaged.fw)
expect 7 'Damaged \(7\): page 1, batch 1\. +The fault is Count: .*next: restore' insert damaged.fw one.txt
equal "$(shown damaged.fw)" "$before" 'the head after Damaged'
expect 7 'Damaged \(7\): page 1, root 2\.' list damaged.fw --from 5
list damaged.fw --to 3 > listed; d 0 2 > expected; same listed expected 'the part that is not damaged'
unchanged damaged.fw expect 33 'Unsound \(33\): page 1, root 2\. .*next: restore' check damaged.fw
expect 33 '@1 root 2: Unsound, page 1, Count .*Unsound \(33\)' check damaged.fw --all
expect 33 '^\{"receipt":1,"sound":false,"error":"Unsound","page":1,"fault":\{"number":2,[^}]*\},"root":2\} \{"error":"Unsound","status":33,"page":1,"fault":\{"number":2,[^}]*\},"root":2,' check damaged.fw --all --json
expect 0 'page 1: level 0, 200 of 6 datoms; no page can have these its fault is Count: .* at byte' page damaged.fw 1
expect 0 'page 1 cannot be followed: Count: it counts more datoms than a page of its size holds; run florin check' tree damaged.fw
expect 0 'drew' tree damaged.fw --svg damaged.svg
holds 'the picture of a damaged tree tells of it' grep -q '1 link cannot be followed: run florin check' damaged.svg
holds 'the picture of a damaged tree' xmllint --noout damaged.svg
# Damage in the middle of a listing: what comes before it is listed, and the end tells that it is none.
b 0 29 > thirty.txt
"$florin" create middle.fw --page-size 256 --from thirty.txt > /dev/null
pages=$(pages_at middle.fw)
poke middle.fw $((pages + 2 * 256 + 248)) 09
"$florin" list middle.fw > printed 2> complained; equal "$?:$(grep -c 'Damaged (7): page 2, root 5, after [1-9][0-9]* datoms' complained)" 7:1 'damage in the middle of a listing'
expect 7 'Damaged \(7\): page 2, root 5' count middle.fw
plain < printed > listed; head -n "$(wc -l < listed)" thirty.txt > expected; same listed expected 'a listing up to a damaged page'
pages=$(pages_at r.fw)
# Unsound although each page is readable: a leaf's datom outside its bounds.
cp r.fw unsound.fw
poke unsound.fw $((pages + 1 * 256)) 03; poke unsound.fw $((pages + 1 * 256 + 16)) 02
expect 33 'Unsound \(33\): page 1, root 2' check unsound.fw
# A child that is its own parent, and one of the wrong level.
cp r.fw loop.fw
poke loop.fw $((pages + 2 * 256 + 192)) 02
expect 33 'Unsound \(33\): page 2' check loop.fw
expect 0 'page 2 cannot be followed: run florin check' tree loop.fw
expect 0 'drew' tree loop.fw --svg loop.svg
cp r.fw level.fw
poke level.fw $((pages + 2 * 256 + 248)) 02
expect 33 'Unsound \(33\): page 0' check level.fw
expect 0 'page 0 cannot be followed: WrongLevel: .*; run florin check' tree level.fw
expect 0 'root 1 cannot be read: Count: .*; run florin check' tree damaged.fw --root 1

# 75 Altered: a bit of a price that no rule of the tree tells of. Every bit of every page is covered, and each root is told that reaches it.
"$florin" create price.fw --page-size 256 --from seven.txt > /dev/null
expect 0 'root 3 \(@2\)' insert price.fw <(b 7 7)
pages=$(pages_at price.fw)
cp price.fw flipped.fw; poke flipped.fw $((pages + 0 * 256 + 16)) 01
expect 75 'Altered \(75\): page 0, root 3, written by batch @1\. +Its checksum is not the one that was kept when it was written\. +next: restore the file from a backup' check flipped.fw
expect 75 'Altered \(75\): page 0, root 2' check flipped.fw --root @1
expect 75 '@1 root 2: Altered, page 0 @2 root 3: Altered, page 0 florin: Altered' check flipped.fw --all
expect 0 'it is not as it was written' page flipped.fw 0
expect 75 'Altered \(75\): page 0 of flipped.fw is not as it was written\. No copy was made' backup flipped.fw refused.fw
equal "$(ls refused.fw* 2> /dev/null)" '' 'files that a refused backup leaves'
cp price.fw flipped.fw; poke flipped.fw $((pages + 3 * 256 + 16)) 07
expect 75 'Altered \(75\): page 3, root 3, written by batch @2' check flipped.fw
expect 0 'Sound: root 2, 3 pages as written' check flipped.fw --root @1
expect 75 '^@2 root 3: Altered, page 3 florin: Altered' check flipped.fw --all
for at in $(seq 0 37 1023); do
    cp price.fw flipped.fw
    poke flipped.fw $((pages + at)) "$(printf %02x $((0x$(bytes price.fw $((pages + at)) 1) ^ 0x10)))"
    "$florin" check flipped.fw --all > printed 2>&1; status=$?
    case $status in 33|75) pass ;; *) fail "a bit of byte $at of the pages: status $status" ;; esac
done
# A checksum that is changed is told as its page.
sums=$((pages - 4096))
cp price.fw flipped.fw; poke flipped.fw $((sums + 9)) 77
expect 75 'Altered \(75\): page 1' check flipped.fw --all
# A page and its checksum that were both changed are not those that the receipt speaks of.
cp price.fw flipped.fw; poke flipped.fw $((pages + 3 * 256 + 16)) 07; "$out/forge" flipped.fw sum 3 256 $((pages + 3 * 256)) $((sums + 3 * 8))
expect 75 'Altered \(75\): page 3, root 3' check flipped.fw
expect 75 '^@2 root 3: Altered, page 3 ' check flipped.fw --all
# Older roots that reach an altered page through others: each is told, and those that do not are not.
"$florin" create deep.fw --page-size 256 > /dev/null
(for i in $(seq 0 59); do b $((i * 4)) $((i * 4 + 3)); done) > deep.txt
expect 0 '60 batches' insert deep.fw deep.txt --quiet
pages=$(pages_at deep.fw)
cp deep.fw flipped.fw; poke flipped.fw $((pages + 1 * 256 + 16)) 01
"$florin" check flipped.fw --all > printed 2> complained; equal $? 75 'an altered page of a deep tree'
reached=0
for i in $(seq 1 60); do
    "$florin" check flipped.fw --root "@$i" > /dev/null 2>&1; [ $? -eq 75 ] && reached=$((reached + 1))
done
equal "$(grep -c ': Altered, page 1$' printed)" "$reached" 'roots that reach an altered page'
holds 'some do and some do not' test "$reached" -gt 2 -a "$reached" -lt 60

# 8 TooTall: ascending batches of four fill eight levels with 152,912 datoms, as docs/ORACLE.md has it.
"$florin" create tall.fw --page-size 256 > /dev/null
seq 0 152915 | awk '{ print $1, 1, $1, 2, "assert" }' > tall.txt
expect 8 'TooTall \(8\): batch 38229\. .*more than 8 levels.*next: create a store with larger pages' insert tall.fw tall.txt --every 4 --quiet
expect 0 'pages +283,516 in use.*root +283515 +batches +38,228 .*height +8 levels' status tall.fw
expect 0 'Sound' check tall.fw
# All roots, each page once: 38,228 trees would take long to walk.
expect 0 'Sound: all 38,228 roots; 283,516 pages as written, 1 root walked' check tall.fw --all
list tall.fw > listed; head -n 152912 tall.txt > expected; same listed expected 'the tallest tree'
expect 0 'drew' tree tall.fw --svg tall.svg
rm -f tall.fw tall.txt listed

# Long values that are not as they were written: a bit of a text that no rule of the tree tells of. Each root is told that names them.
printf '1 1 "the text of batch one" 2 assert\n---\n2 1 "the text of batch two" 2 assert\n---\n' > texts.txt
"$florin" create texts.fw --page-size 256 > /dev/null; "$florin" insert texts.fw texts.txt > /dev/null
(echo '3 1 3 2 assert'; echo ---) | "$florin" insert texts.fw --root none --branch > /dev/null
altered_text() { # altered_text TEXT BYTES HEX: a copy with another byte so far behind the beginning of a text
    cp texts.fw altered.fw
    poke altered.fw $(($(grep -abo "$1" texts.fw | tail -n 1 | cut -d : -f 1) + $2)) "$3"
}
altered_text 'the text of batch two' 0 54
list altered.fw --root @2 > listed; holds 'an altered text is listed' grep -q '"The text of batch two"' listed
expect 0 'Sound: root 2' check altered.fw --root @3
expect 0 'Sound: root 0' check altered.fw --root @1
expect 75 'Altered \(75\): page 1, root 1: it names a long value of batch @2\. +The long values of that batch have not the checksum .*next: restore' check altered.fw --root @2
expect 75 '^@2 root 1: Altered, page 1 florin: Altered \(75\): page 1' check altered.fw --all
expect 75 '"receipt":2,"sound":false,"error":"Altered","page":1,"root":1' check altered.fw --all --json
unchanged altered.fw expect 75 'Altered \(75\): the long values of batch @2 of altered.fw are not as they were written\. No copy' backup altered.fw copy.fw
expect 75 'Altered \(75\): batch @2: ' dump altered.fw
equal "$(ls -d copy.fw* 2> /dev/null)" '' 'files that a refused backup leaves'
# What was altered is not named again: the text goes in anew.
(echo '4 1 "The text of batch two" 2 assert'; echo ---) > value.txt
expect 0 'is in' insert altered.fw value.txt --root @3
expect 0 'Sound' check altered.fw
# The first batch's text, which both roots name; its padding and its length, which the library tests.
altered_text 'the text of batch one' 4 58
expect 75 'Altered \(75\): page 0, root 0.*long value of batch @1' check altered.fw --root @1
expect 75 '@1 root 0: Altered, page 0 @2 root 1: Altered, page 1 florin: Altered' check altered.fw --all
altered_text 'the text of batch one' 22 01
expect 33 'Unsound \(33\): page 0, root 0\. +The fault is Form: a datom in it is malformed, has the value max, or names no constant' check altered.fw --root @1
expect 7 'Damaged \(7\): page 0, root 0\. +The fault is Form' list altered.fw --root @1
expect 0 '1 1 0xc000000000000000 2 assert' page altered.fw 0
altered_text 'the text of batch one' -8 00
expect 33 'Unsound \(33\): page 0.* Form' check altered.fw --root @1

# 9 NoRoom: the file may not grow. Root and pages stay; with leave to grow the same batch goes in.
"$florin" create room.fw --page-size 4096 --room 1 > /dev/null
expect 0 'root 0' insert room.fw one.txt --no-grow
before=$(shown room.fw)
b 30 40 > more.txt
expect 9 'NoRoom \(9\): batch 1\. .*next: leave out --no-grow' insert room.fw more.txt --no-grow
equal "$(shown room.fw)" "$before" 'the head after NoRoom'
expect 6 'Repeated' insert room.fw one.txt --no-grow
expect 0 'batch 1 is in: 11 datoms, 1 page written, root 1' insert room.fw more.txt
# At every size of the file, also where the receipts have taken the last place: a batch goes in or is NoRoom, and then the file grows.
for room in 0 1 2 3 4 5 100; do
    "$florin" create tight.fw --page-size 256 --room $room > /dev/null
    for i in $(seq 1 40); do
        b "$i" "$i" > one.txt
        "$florin" insert tight.fw one.txt --no-grow > /dev/null 2>&1 || break
    done
    expect 9 'NoRoom \(9\)' insert tight.fw one.txt --no-grow
    [ "$room" -gt 0 ] && expect 6 'Repeated \(6\)' insert tight.fw <(b 1 1) --no-grow
    expect 0 'is in' insert tight.fw one.txt
    list tight.fw > listed; d 1 "$i" > expected; same listed expected "room $room"
    rm tight.fw
done

# 10 BadBound
expect 10 'BadBound \(10\): .*next: correct --from or --to' list r.fw --from '1 1 0x4000000000000000'
expect 10 'BadBound' list r.fw --to '1 1 0xbfffffffffffffff'
expect 10 'BadBound' list r.fw --to '1 1 0x4000000000000000' --root 99

# 65 BadText, with the line and the word
bad_line() {
    printf '# first\n0 1 0 4 assert\n%s\n' "$1" > line.txt
    unchanged r.fw expect 65 "BadText \(65\): line.txt, line 3: .*$2.*next: correct the line" insert r.fw line.txt
}
bad_line '1 1 1 2' 'a datom has 5 words.*here are 4'
bad_line '1 1 1 2 assert x' 'here are 6'
bad_line 'x 1 1 2 assert' 'the entity x is no number'
bad_line '-1 1 1 2 assert' 'the entity -1 is no number'
bad_line '18446744073709551616 1 1 2 assert' 'the entity 18446744073709551616 is 2\^64 or more'
bad_line '99999999999999999999 1 1 2 assert' '2\^64 or more'
bad_line '1 1.5 1 2 assert' 'the attribute 1.5 is no number'
bad_line '1 1 18446744073709551616 2 assert' 'the value 18446744073709551616 is 2\^64 or more'
bad_line '1 1 "a 2 assert' 'the string "a 2 assert has no closing quote'
bad_line '1 1 "a\q" 2 assert' 'a backslash stands before'
bad_line '1 1 "a\x1" 2 assert' 'a backslash stands before'
bad_line '1 1 0x 2 assert' 'has not 1 to 16 hexadecimal digits'
bad_line '1 1 0x10000000000000000 2 assert' 'has not 1 to 16 hexadecimal digits'
bad_line '1 1 0xg 2 assert' 'no hexadecimal number'
bad_line '1 1 1 3 assert' 'the transaction 3 is odd'
bad_line '1 1 1 2 add' 'the last word is add, not assert or retract'
bad_line 'max 1 1 2 assert' 'the entity max is no number'
# What came before a bad line is in, and what the clerk is told is where to go on.
(b 50 51; d 52 53; echo oops) > bad.txt
cp r.fw half.fw
expect 65 'batch 1 is in: 2 datoms.*BadText \(65\): bad.txt, line 6.*send from this one on' insert half.fw bad.txt
list half.fw --from 50 > listed; d 50 51 > expected; same listed expected 'a bad line in the second batch'
