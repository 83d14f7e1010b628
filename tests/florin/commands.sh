# shellcheck shell=bash disable=SC2154
# Every command, as a person would use it.

# Words: a wrong one is answered by two lines, and --help by all that can be said.
expect 0 'Usage: florin .*Commands:.* create .*Exit status: .*NotARoot 78' --help
expect 0 'Commands:' -h
expect 0 'Commands:' help
expect 0 '^florin [0-9]+\.[0-9]+\.[0-9]+ $' --version
for command in create insert missing list count roots stat check page tree backup upgrade; do
    expect 0 "Usage: florin $command " $command --help
    expect 0 "Usage: florin $command " $command -h
    expect 0 "Usage: florin $command " help $command
    equal "$("$florin" $command --help | awk 'length > 120' | wc -l)" 0 "columns of florin $command --help"
done
expect 64 'Usage \(64\): no command is given'
expect 64 'Usage \(64\): there is no command frob' frob
expect 64 'was not expected: --frob.*next: florin list --help' list x --frob
expect 64 '--root' list x --root
expect 64 'was not expected: b' list a b
expect 64 'STORE is required' insert
expect 64 '--every: Value 129 not in range 1 to 128' insert x --every 129
expect 64 '--every' insert x --every x
for words in '' frob 'list x --frob' insert 'insert x --every 129'; do
    # shellcheck disable=SC2086
    "$florin" $words > printed 2> complained
    equal "$(cat printed complained | wc -l):$(awk 'length > 120' complained | wc -l)" 2:0 "lines of florin $words"
done
expect 0 'created equals.fw, pages of 568' create equals.fw --page-size=568 --room=1

# Document 01's examples, c to h, and what is printed of them.
expect 0 'created c.fw, pages of 256 bytes' create c.fw --page-size 256
expect 0 'root +none' status c.fw
expect 0 '^batch +root +from +datoms +pages +time +checksum of the datoms $' roots c.fw
expect 0 '^ *$' list c.fw
expect 0 'Sound: root none, 0 pages as written' check c.fw
expect 0 'Sound: all 0 roots; 0 pages' check c.fw --all
expect 0 'root none has no datoms' tree c.fw
b 0 6 > c.txt; b 7 11 > e.txt; b 12 12 > f.txt
expect 0 'batch 1 is in: 7 datoms, 3 pages written, root 2 \(@1\)' insert c.fw c.txt
expect 0 'batch 1 is in: 5 datoms, 1 page written, root 3 \(@2\)' insert c.fw e.txt
input=f.txt expect 0 'batch 1 is in: 1 datom, 3 pages written, root 6 \(@3\)' insert c.fw
unchanged c.fw expect 6 'Repeated \(6\): datom 0, batch 1, line 1: 12 1 12 2 assert.*All of the batch is in, 1 datom' insert c.fw f.txt
expect 0 'pages +7 in use, room for [0-9]+ more.*root +6 +batches +3 +datoms +13, 0 of them pending +height +2 levels +level 1 +1 page with 2 datoms, 33 % full +level 0 +3 pages with 11 datoms, 61 % full older +3 pages' stat c.fw
expect 0 'root +6' status c.fw
expect 0 'page 3, level 1, 6 of 6 datoms   child 0     0  3 1 3 2 assert  midpoint     1  7 1 7 2 assert  pending.*child 1 at byte '"$(($(pages_at c.fw) + 768))"' of c.fw $' page c.fw 3
expect 0 'page 4, level 0, 4 of 6 datoms     0  4 1 4 2 assert     1  5' page c.fw 4
"$florin" roots c.fw | awk 'NR > 1 { print $1, $2, $3, $4, $5 }' > roots.txt
printf '@1 2 none 7 3\n@2 3 2 5 1\n@3 6 3 1 3\n' > expected
same roots.txt expected 'florin roots'
expect 0 '20[0-9][0-9]-[01][0-9]-[0-3][0-9] [0-2][0-9]:[0-5][0-9]:[0-5][0-9]Z' roots c.fw

# Example b, byte for byte: a store that begins with a batch.
b 5 5 > b.txt
expect 0 'created b.fw, pages of 256 bytes; its first batch is in: 1 datom, 1 page written, root 0' create b.fw --page-size 256 --from b.txt
zeros() { head -c "$1" /dev/zero | od -An -tx1 -v | tr -d ' \n'; }
equal "$(bytes b.fw "$(pages_at b.fw)" 256)" \
    "0500000000000000010000000000000005000000000000000300000000000000$(zeros 160)ffffffffffffffffffffffffffffffff$(zeros 41)01$(zeros 6)" 'example b'

# Listings: all, between bounds, at every root. The upper bound is not included.
list c.fw > listed; d 0 12 > expected; same listed expected 'list all'
list c.fw --from 3 --to 9 > listed; d 3 8 > expected; same listed expected 'list between'
list c.fw --from '3 1 3 2 retract' --to '9 1 9 2 assert' > listed; same listed expected 'list between whole datoms'
list c.fw --from '3 1 3 2 assert' --to '3 1 3 4' > listed; d 3 3 > expected; same listed expected 'list one'
list c.fw --from '3 max max max' --to max > listed; d 4 12 > expected; same listed expected 'list from max'
expect 0 '^ *$' list c.fw --from 9 --to 3
for root in 2:6 3:11 6:12 @1:6 @2:11 none:-1; do
    list c.fw --root "${root%:*}" > listed; d 0 "${root#*:}" > expected; same listed expected "list at root $root"
done
expect 0 'Sound: root 3, 3 pages as written' check c.fw --root @2
expect 0 'Sound: all 3 roots; 7 pages as written, 1 root walked' check c.fw --all
expect 0 'Sound: all 3 roots; 7 pages as written, 3 roots walked' check c.fw --all --walk
expect 64 '--walk goes with --all' check c.fw --walk
expect 64 '--all and --root do not go together' check c.fw --all --root 2
expect 64 'batches @1 to @3, no @4' list c.fw --root @4
expect 64 'no batch is in, so there is no @1' list equals.fw --root @1
expect 64 'root x is no number' list c.fw --root x
expect 64 '--from: a bound has 1 to 5 words' list c.fw --from ''
expect 64 '--to: the entity x is no number' list c.fw --to x

expect 0 '^13 datoms $' count c.fw
expect 0 '^6 datoms $' count c.fw --from 3 --to 9
expect 0 '^7 datoms $' count c.fw --root @1
list c.fw --limit 3 > listed; d 0 2 > expected; same listed expected 'list --limit'
list c.fw --limit 99 > listed; d 0 12 > expected; same listed expected 'list --limit of more than there is'
expect 0 '^ *$' list c.fw --limit 0

# An insert at an older root is meant only if that is said; it makes a branch, and the other one stays. What no receipt gave is no root.
cp c.fw branch.fw
b 20 21 > g.txt
unchanged branch.fw expect 78 'NotARoot \(78\): page 0 is no root that a receipt gave.*next: take a root' insert branch.fw g.txt --root 0
unchanged branch.fw expect 78 'NotARoot \(78\): page 0 is no root' insert branch.fw g.txt --root 0 --branch
unchanged branch.fw expect 78 'page 99 is no root' insert branch.fw g.txt --root 99
unchanged branch.fw expect 78 'NotARoot \(78\): root 2 is not the newest one, which is 6.*next: .*--branch' insert branch.fw g.txt --root @1
unchanged branch.fw expect 78 'NotARoot \(78\): root none is not the newest one' insert branch.fw c.txt --root none
expect 0 'root 7 \(@4\), a branch from root 2 $' insert branch.fw g.txt --root @1 --branch
list branch.fw > listed; (d 0 6; d 20 21) > expected; same listed expected 'a branch'
list branch.fw --root @3 > listed; d 0 12 > expected; same listed expected 'the other branch'
expect 0 '@4 +7 +2\* +2 +1 .*\* a branch' roots branch.fw
b 22 22 > g.txt
expect 0 'root 8 \(@5\) $' insert branch.fw g.txt --root 7
expect 0 'a branch from root none' insert branch.fw c.txt --root none --branch

# The text form.
cat > words.txt <<'END'
# a comment
1 1 0 2 assert       # behind a datom

1 1 4611686018427387903 2 +
	1 1	"" 2 -
1 1 "\x00" 2 assert
1 1 "a b" 2 assert
1 1 "a#b" 2 assert
1 1 "ab" 2 retract
1 1 "ab" 2 assert
1 1 "ab" 4 assert
1 1 "abcdefg" 2 assert
1 1 "b" 2 assert
1 1 "\"\\" 18446744073709551614 assert
1 2 0x8100000000000061 2 assert
18446744073709551615 18446744073709551615 0 2 assert
---
END
# Strings go by their bytes: the one of " and \ comes before the letters.
grep -v '^1 1 "\\"' words.txt | awk '/"a b"/ { print "1 1 \"\\\"\\\\\" 18446744073709551614 assert" } 1' > sorted.txt
unchanged c.fw expect 4 'OutOfOrder \(4\): datom 11, batch 1, line 14: 1 1 "\\"\\\\" 18446744073709551614 assert' insert c.fw words.txt
expect 0 'created words.fw.*14 datoms' create words.fw --from words.txt
cat > expected <<'END'
1 1 0 2 assert
1 1 4611686018427387903 2 assert
1 1 "" 2 retract
1 1 "\x00" 2 assert
1 1 "\"\\" 18446744073709551614 assert
1 1 "a b" 2 assert
1 1 "a#b" 2 assert
1 1 "ab" 2 retract
1 1 "ab" 2 assert
1 1 "ab" 4 assert
1 1 "abcdefg" 2 assert
1 1 "b" 2 assert
1 2 "a" 2 assert
18446744073709551615 18446744073709551615 0 2 assert
END
"$florin" list words.fw | sed 's/  */ /g; s/^ //' > listed; same listed expected 'text form'
"$florin" list words.fw > again.txt
expect 0 'created again.fw' create again.fw --page-size 568
"$florin" list words.fw --every 4 > again.batches
expect 0 '4 batches with 14 datoms' insert again.fw again.batches
"$florin" list again.fw > again2.txt; same again.txt again2.txt 'a listing is an input'
expect 0 '"a b"' list words.fw --from '1 1 "a"' --to '1 1 "ab"'

# Long values: texts and integers of any size, as text in every command. They share beginnings with short ones.
cat > values.txt <<'END'
1 1 4611686018427387903 2 assert
1 1 4611686018427387904 2 assert
1 1 18446744073709551615 2 assert
1 1 "1234567" 2 assert
1 1 "12345678" 2 retract
1 1 "12345678" 2 assert
1 1 "12345678\x00" 2 assert
1 1 "123456789, \"quoted\" and \\ and \x00\xff" 2 assert
1 1 "2" 2 assert
---
2 1 18446744073709551615 2 assert
2 1 "12345678" 2 assert
2 1 "a text of the second batch" 2 assert
---
END
grep -v -e --- values.txt > values.plain
expect 0 'created values.fw' create values.fw --page-size 256
expect 0 '2 batches with 12 datoms' insert values.fw values.txt
"$florin" list values.fw | sed 's/  */ /g; s/^ //' > listed; same listed values.plain 'long values'
expect 0 '^12 datoms $' count values.fw
expect 0 'long values [0-9,]+ bytes, room for [0-9,]+ more before the file grows' stat values.fw
expect 0 '"heap_bytes":[1-9][0-9]*\} $' stat values.fw --json
expect 0 'Sound: all 2 roots; [0-9]+ pages and [0-9]+ bytes of long values as written' check values.fw --all
expect 0 '"walked":1,"heap_bytes":[1-9][0-9]*\} $' check values.fw --all --json
expect 0 'copied values.fw .*"?root' backup values.fw values.copy
expect 0 'Sound: all 2 roots; .* long values as written' check values.copy --all --walk
"$florin" list values.copy | sed 's/  */ /g; s/^ //' > listed; same listed values.plain 'long values in a backup'
expect 0 '"value":18446744073709551615,' list values.fw --json
expect 0 '"value":"a text of the second batch",.*' list values.fw --json --from 2
expect 0 '"value":\{"bytes":"313233343536373800"\}' list values.fw --json
expect 0 '├─ .*"12345678|midpoint|pending' tree values.fw
expect 0 'a text of the second batch" 2 assert' tree values.fw
expect 0 '"a text of the second batch"' page values.fw 3
drawn() {
    expect 0 'drew picture.svg' tree "$@" --svg picture.svg --force
    holds "the picture of $*" xmllint --noout picture.svg
}
drawn values.fw
holds 'a long text is cut in a picture' grep -q '&quot;123456789, \\&quot;quoted' picture.svg
# Bounds of any length, of content that the store has and that it has not; a listing leaves the file as it is.
for bound in '1 1 "12345678":5,9' '1 1 "12345677777":5,9' '1 1 "123456789":8,9' '1 1 4611686018427387904:2,9' '1 1 4611686018427387905:3,9' '2 1 "a text of the third batch":13,12'; do
    unchanged values.fw expect 0 '' list values.fw --from "${bound%:*}"
    lines=${bound##*:}
    "$florin" list values.fw --from "${bound%:*}" --to 2 | sed 's/  */ /g; s/^ //' > listed
    sed -n "1,9p" values.plain | tail -n "+${lines%,*}" > expected; same listed expected "from ${bound%:*}"
done
expect 0 '^2 datoms $' count values.fw --from '1 1 "12345678"' --to '1 1 "12345678\x00"'
# Each content lies on the heap once, whichever batch or command brings it; an order text again costs nothing.
heap_of() { "$florin" stat "$1" --json | sed 's/.*"heap_bytes":\([0-9]*\).*/\1/'; }
equal "$(heap_of values.fw)" $((8 + 8 + 16 + 24 + 40 + 40)) 'constants of two batches'
sed 's/ 2 \([ar]\)/ 4 \1/' values.txt > later.txt
expect 0 '2 batches with 12 datoms' insert values.fw later.txt
equal "$(heap_of values.fw)" $((8 + 8 + 16 + 24 + 40 + 40)) 'the same content again'
# A batch that is in, or in part.
unchanged values.fw expect 6 'Repeated \(6\): datom 0.*All of the batch is in, 9 datoms' insert values.fw values.txt
unchanged values.fw expect 0 'batch 1 was in before: 9 .*batch 2 was in before: 3' insert values.fw values.txt --resend
(sed -n 11p values.txt; echo '2 1 "a text that is nowhere else" 2 assert'; echo ---) > part.txt
unchanged values.fw expect 0 '^2 1 "a text that is nowhere else" 2 assert --- florin: 1 of 2 datoms missing' missing values.fw part.txt
unchanged values.fw expect 0 '^\{"entity":2,"attribute":1,"value":"a text that is nowhere else",' missing values.fw part.txt --json
before=$(shown values.fw)
expect 6 'Repeated \(6\): datom 0, batch 1, line 1: 2 1 18446744073709551615 2 assert.*holds 1 of the batch.s 2' insert values.fw part.txt
equal "$(shown values.fw)" "$before" 'the heap after a batch that was refused'
"$florin" missing values.fw part.txt 2> /dev/null | "$florin" insert values.fw > told; equal $? 0 'the rest of a batch with long values'
expect 0 'Sound: all 5 roots' check values.fw --all --walk
# A refused batch's constants give way to those of the next.
(echo '5 1 "the constant of a refused batch" 2 assert'; echo '4 1 1 2 assert'; echo ---) > refused.txt
expect 4 'OutOfOrder \(4\): datom 1' insert values.fw refused.txt
(echo '5 1 "the constant of an accepted batch, somewhat longer" 2 assert'; echo ---) > accepted.txt
expect 0 'is in' insert values.fw accepted.txt
expect 0 '"the constant of an accepted batch, somewhat longer"' list values.fw --from 5
expect 0 'Sound: all 6 roots' check values.fw --all --walk
# Older roots go on listing what they listed.
"$florin" list values.fw --root @2 | sed 's/  */ /g; s/^ //' > listed; same listed values.plain 'long values at an older root'
# One batch in any order, and a listing as input for another page size; binary words are for the same store.
tac values.txt | sed 1d | grep -v -e --- > backwards.txt; echo --- >> backwards.txt
expect 0 'created backwards.fw.*12 datoms' create backwards.fw --page-size 568 --from backwards.txt
"$florin" list backwards.fw | sed 's/  */ /g; s/^ //' > listed; same listed values.plain 'long values in any order'
"$florin" create wide.fw --page-size 568 > /dev/null
"$florin" list values.fw --root @2 --every 5 | "$florin" insert wide.fw > told; equal $? 0 'a listing with long values is an input'
"$florin" list wide.fw | sed 's/  */ /g; s/^ //' > listed; same listed values.plain 'long values in pages of 568'
"$florin" list values.fw --root @2 --binary --every 12 > values.bin
expect 0 'a branch from root none' insert values.fw values.bin --binary --root none --branch
"$florin" list values.fw | sed 's/  */ /g; s/^ //' > listed; same listed values.plain 'long values by their words'
expect 0 'created other.fw' create other.fw --page-size 256
unchanged other.fw expect 11 'BadConstant \(11\): datom 1, batch 1: 1 1 0x4[0-9a-f]{15} 2 assert\. .*next: write long values as text' insert other.fw values.bin --binary
# Texts of any length, and a heap that grows from one batch to the next.
awk 'BEGIN { for (i = 1; i <= 40; i++) { s = sprintf("%03d", i); while (length(s) < i * i * 10) s = s "0123456789"; print i, 1, "\"" s "\"", 2, "assert"; if (i % 8 == 0) print "---" } }' > texts.txt
expect 0 'created texts.fw' create texts.fw --page-size 256 --room 1
expect 0 '5 batches with 40 datoms' insert texts.fw texts.txt
list texts.fw > listed; grep -v -e --- texts.txt > expected; same listed expected 'texts of up to 16,000 bytes'
expect 0 'Sound: all 5 roots' check texts.fw --all --walk
drawn texts.fw

# The binary form: a batch begins with its number of datoms. And from one page size to another.
"$florin" list words.fw --binary > words.bin
equal "$(stat -c %s words.bin)" 448 'bytes of 14 datoms'
equal "$(bytes words.bin $((12 * 32)) 32)" 0100000000000000020000000000000061000000000000810300000000000000 'a datom in binary'
(word 14; cat words.bin) > words.batch
"$florin" list words.fw --binary --every 14 > listed; same listed words.batch 'a listing as a binary batch'
expect 0 'created binary.fw' create binary.fw --page-size 256
input=words.batch expect 0 '14 datoms' insert binary.fw - --binary
"$florin" list binary.fw --binary > again.bin; same words.bin again.bin 'binary form'
expect 0 '14 datoms' create binary2.fw --from words.batch --binary
expect 64 '--binary goes with --from' create binary3.fw --binary
expect 64 '--every does not go with --binary' insert binary.fw words.batch --binary --every 4
expect 64 '--last-batch-open does not go with --binary' insert binary.fw words.batch --binary --last-batch-open

# Batches: cut by lines, by number, and by both. One without a datom is none.
(b 0 2; b 3 4; echo ---; b 5 5) > batches.txt
expect 0 'created batches.fw' create batches.fw --page-size 256
expect 0 'batch 1 is in: 3 .*batch 2 is in: 2 .*batch 3 is in: 1 datom.*3 batches with 6 datoms' insert batches.fw batches.txt
expect 0 'created every.fw' create every.fw --page-size 256
b 0 9 > ten.txt
expect 0 '^batch 1 is in: 4 .*batch 2 is in: 4 .*batch 3 is in: 2 .*3 batches with 10 datoms' insert every.fw ten.txt --every 4
expect 0 'created every2.fw' create every2.fw --page-size 256
"$florin" list every.fw --binary --every 4 > ten.bin
expect 0 '^batch 1 is in: 4 .*batch 2 is in: 4 .*batch 3 is in: 2 .*3 batches with 10 datoms' insert every2.fw ten.bin --binary
equal "$(bytes every.fw "$(pages_at every.fw)" 2048)" "$(bytes every2.fw "$(pages_at every2.fw)" 2048)" 'text and binary lead to the same pages'
expect 0 'created every3.fw' create every3.fw --page-size 256
(b 0 1; b 2 3; echo ---; b 4 4) > pairs.txt
expect 0 '^batch 1 is in: 2 .*batch 2 is in: 2 .*batch 3 is in: 1 .*3 batches with 5 datoms' insert every3.fw pairs.txt --every 2
expect 0 '^3 batches with 10 datoms: [0-9]+ pages written, root' insert c.fw ten.txt --root none --branch --every 4 --quiet

# Nothing given, nothing written, and that is said.
echo --- > empty.txt; word 0 > empty.bin; printf '# a comment\n\n---\n---\n' > comment.txt
for words in /dev/null empty.txt comment.txt 'empty.bin --binary' '/dev/null --binary' '/dev/null --every 2'; do
    # shellcheck disable=SC2086
    unchanged c.fw expect 0 '^nothing was given, and nothing was written; root [0-9]+ $' insert c.fw $words
done
unchanged equals.fw expect 0 'nothing was written; root none' insert equals.fw empty.txt
expect 0 'created empty.fw.*empty.txt has no datoms, so no batch is in' create empty.fw --from empty.txt
expect 0 'root +none +batches +0' stat empty.fw

# A batch goes in once its end was seen: an input that is cut off anywhere leaves whole batches alone, and says where to go on.
(b 0 2; b 3 8) > whole.txt
"$florin" create whole.fw --page-size 256 > /dev/null; "$florin" insert whole.fw whole.txt > /dev/null; "$florin" list whole.fw > whole.listed
for length in $(seq 0 "$(($(stat -c %s whole.txt) - 1))"); do
    rm -f cut.fw; "$florin" create cut.fw --page-size 256 > /dev/null
    head -c "$length" whole.txt > cut.txt
    "$florin" insert cut.fw cut.txt > told 2> complained; status=$?
    in=$(grep -c ' is in:' told) listed=$("$florin" count cut.fw)
    case $status:$in:$listed in
        0:0:'0 datoms'|77:0:'0 datoms'|65:0:'0 datoms'|0:1:'3 datoms'|77:1:'3 datoms'|65:1:'3 datoms'|0:2:'9 datoms') pass ;;
        *) fail "an input cut at byte $length: status $status, $in batches, $listed" ;;
    esac
    "$florin" insert cut.fw whole.txt --resend > /dev/null 2>&1; "$florin" list cut.fw > listed; same listed whole.listed "sent again after a cut at byte $length"
done
d 20 23 > open.txt
unchanged c.fw expect 77 'NotClosed \(77\): open.txt ends within batch 1, which begins in line 1: 4 datoms and no line --- behind them\. Nothing of it was written.*next: if the input was cut off, send this batch again, whole; .*--last-batch-open' insert c.fw open.txt
unchanged c.fw expect 77 'ends within batch 1, which begins in line 1: 4 datoms' insert c.fw open.txt --every 5
expect 77 'NotClosed' create open.fw --from open.txt
equal "$(ls -d open.fw* 2> /dev/null)" '' 'files that a refused create leaves'
cp c.fw typed.fw; expect 0 'batch 1 is in: 4 datoms' insert typed.fw open.txt --last-batch-open
cp c.fw typed.fw; expect 0 '2 batches with 4 datoms' insert typed.fw open.txt --every 2
expect 0 '4 datoms' create open.fw --from open.txt --last-batch-open
"$florin" list whole.fw --binary --every 5 > whole.bin
for length in 1 7 8 9 39 40 167 168 175 176 177 303; do
    rm -f cut.fw; "$florin" create cut.fw --page-size 256 > /dev/null
    head -c "$length" whole.bin > cut.bin
    "$florin" insert cut.fw cut.bin --binary > told 2> complained; status=$?
    [ "$length" -lt 168 ] && want=0 || want=5
    [ "$length" -eq 168 ] && expected=0 || expected=77
    equal "$status:$("$florin" count cut.fw)" "$expected:$want datoms" "a binary input cut at byte $length"
done
expect 77 'NotClosed \(77\): cut.bin ends within batch 2: of the 4 datoms that it says, 127 bytes are there, not 128' insert cut.fw cut.bin --binary --resend

# Sent again: nothing is written for what is in, and what is not goes in.
expect 0 'created sent.fw' create sent.fw --page-size 256
expect 0 '3 batches' insert sent.fw batches.txt
(cat batches.txt; b 6 8) > more.txt
unchanged sent.fw expect 6 'datom 0, batch 1, line 1: 0 1 0 2 assert.*All of the batch is in, 3 datoms: it was sent before.*next: go on with the next' insert sent.fw more.txt
expect 0 'batch 1 was in before: 3 datoms.*batch 2 was in before.*batch 4 is in: 3 datoms.*, 3 batches in before, root' insert sent.fw more.txt --resend
b 8 9 > half.txt
unchanged sent.fw expect 6 'Repeated \(6\): datom 0, batch 1, line 1: 8 1 8 2 assert.*holds 1 of the batch.s 2 datoms.*next: send what florin missing prints' insert sent.fw half.txt --resend
list sent.fw > listed; d 0 8 > expected; same listed expected 'each once'

# What of an input the tree does not hold, as an input: the rest of a feed whose batches were cut otherwise.
(b 7 9; b 10 11; b 3 4) > overlap.txt
expect 0 '^9 1 9 2 assert --- 10 1 10 2 assert 11 1 11 2 assert --- florin: 3 of 7 datoms missing at root' missing sent.fw overlap.txt
"$florin" missing sent.fw overlap.txt 2> /dev/null | "$florin" insert sent.fw > told 2>&1; equal $? 0 'the rest is sent'
list sent.fw > listed; d 0 11 > expected; same listed expected 'all of it, each once'
expect 0 '^florin: 0 of 7 datoms missing' missing sent.fw overlap.txt
b 0 11 > twelve.txt
expect 0 '9 of 12 datoms missing' missing sent.fw twelve.txt --root @1
expect 0 '12 of 12 datoms missing at root none' missing sent.fw twelve.txt --root none
expect 77 'NotClosed' missing sent.fw open.txt
"$florin" list every.fw --binary --every 3 > overlap.bin
"$florin" missing sent.fw overlap.bin --binary --root @2 2> /dev/null > rest.bin
cp sent.fw rest.fw; expect 0 '[23] batches with 5 datoms' insert rest.fw rest.bin --binary --root @2 --branch
(d 3 4; b 2 2) > unsorted.txt
expect 4 'OutOfOrder \(4\)' missing sent.fw unsorted.txt

# For programs: one object a line, also of a refusal.
b 30 31 > two.txt; b 29 31 > three.txt
expect 0 '^\{"batch":1,"state":"in","datoms":2,"pages":[0-9]+,"root":[0-9]+,"receipt":[0-9]+,"from":[0-9]+,"branch":false,"datoms_sum":"[0-9a-f]{16}"\} \{"batches":1,"datoms":2,"pages":[0-9]+,"in_before":0,"root":[0-9]+\} $' insert sent.fw two.txt --json
unchanged sent.fw expect 6 '^\{"error":"Repeated","status":6,"datom":1,"batch":1,"line":2,"text":"30 1 30 2 assert","held":2,"datoms":3,"message":"datom 1, .*","next":".*"\} $' insert sent.fw three.txt --json
unchanged sent.fw expect 0 '^\{"batch":1,"state":"in_before","datoms":2,"pages":0,"root":[0-9]+\} \{"batches":0,"datoms":0,"pages":0,"in_before":1,"root":[0-9]+\} $' insert sent.fw two.txt --json --resend
unchanged sent.fw expect 0 '^\{"batches":0,"datoms":0,"pages":0,"in_before":0,"root":[0-9]+\} $' insert sent.fw empty.txt --json
expect 0 '^\{"entity":29,.*,"operation":"assert","batch":1\} florin: 1 of 3' missing sent.fw three.txt --json
expect 0 '^\{"datoms":[0-9]+,"root":[0-9]+\} $' count sent.fw --json
expect 0 '^\{"copied":"sent.fw","to":"sent.copy","batches":[0-9]+,"pages":[0-9]+,"root":[0-9]+,"heap_bytes":0\} $' backup sent.fw sent.copy --json
"$florin" dump sent.fw > sent.dump
expect 0 '^\{"loaded":"sent.load","page_size":256,"order":"eavt","batches":[0-9]+,"datoms":[0-9]+,"pages":[0-9]+,"root":[0-9]+\} $' load sent.load sent.dump --json
expect 0 '^\{"sound":true,"roots":[0-9]+,"pages":[0-9]+,"walked":1,"heap_bytes":0\} $' check sent.fw --all --json
expect 64 '^\{"error":"Usage","status":64,"message":"there is no command frob\.","next":"florin --help shows what can be said\."\} $' frob --json
expect 77 '^\{"error":"NotClosed","status":77,"batch":1,"line":1,"datoms":4,' insert sent.fw open.txt --json
expect 0 '^\{"entity":1,"attribute":1,"value":0,"transaction":2,"operation":"assert"\} .*"value":"","transaction":2,"operation":"retract".*"value":\{"bytes":"00"\}.*"value":"a#b"' list words.fw --json
expect 0 '^\{"receipt":1,"root":[0-9]+,"from":null,"datoms":3,"pages":1,"page_count":1,"time":[0-9]+,"branch":false,"datoms_sum":"[0-9a-f]{16}","pages_sum":"[0-9a-f]{16}","heap_length":0\} \{"receipt":2' roots sent.fw --json
expect 0 '^\{"store":"c.fw","bytes":[0-9]+,"page_size":256,"order":"eavt","pages":.*"levels":\[\{"level":0,' stat c.fw --json
expect 0 '^\{"sound":true,"root":[0-9]+,"pages":[0-9]+\} $' check c.fw --json
expect 0 '^\{"created":"json.fw","page_size":4096,"order":"eavt"\} $' create json.fw --json
expect 64 'goes with neither' list c.fw --json --binary
if command -v python3 > /dev/null; then
    for words in 'list words.fw' 'roots sent.fw' 'stat sent.fw' 'check sent.fw --all' 'count sent.fw'; do
        # shellcheck disable=SC2086
        "$florin" $words --json | python3 -c 'import json, sys; [json.loads(line) for line in sys.stdin]'; equal $? 0 "florin $words --json"
    done
fi
# The checksum of a receipt is that of the datoms, as another program computes it.
if command -v xxh64sum > /dev/null; then
    "$florin" list sent.fw --from 30 --to 32 --binary > two.bin
    equal "$("$florin" roots sent.fw | awk 'END { print $NF }')" "$(xxh64sum two.bin 2> /dev/null | cut -d ' ' -f 1)" 'the checksum of a batch'
    # Of long values by their content: a datom that names one has no offset, and the constant behind it.
    (word 7; word 1; printf '\0\0\0\0\0\0\0\100'; word 3; printf '\377\377\377\377\377\377\377\377'
        word 7; word 1; printf '\0\0\0\0\0\0\0\300'; word 3; word 9; printf '123456789\0\0\0\0\0\0\0') > summed.bin
    printf '7 1 18446744073709551615 2 assert\n7 1 "123456789" 2 assert\n---\n' > summed.txt
    for store in wide.fw values.fw; do
        "$florin" insert $store summed.txt > /dev/null
        equal "$("$florin" roots $store | awk '/^@/ { sum = $NF } END { print sum }')" "$(xxh64sum summed.bin 2> /dev/null | cut -d ' ' -f 1)" "the checksum of long values in $store"
    done
else
    echo 'skipped: xxh64sum, of the package xxhash, is not there'
fi

# Pictures.
expect 0 'root 6: 13 datoms, 0 of them pending, in 4 pages page 6, level 1, 2 of 6 datoms ├─ page 0, level 0' tree c.fw --root 6
expect 0 '├┄ 7 1 7 2 assert  pending' tree c.fw --root 3
expect 0 'level 1, 6 of 6 datoms ├─ page 0, level 0, 3 of 6 datoms ├─ 3' tree c.fw --root 3 --levels 1
for store in c.fw words.fw again.fw batches.fw; do drawn $store; done
drawn c.fw --root none
drawn c.fw --root @2
drawn c.fw --root @2 --levels 1
equal "$(grep -c 'class="card' picture.svg)" 1 'one level has one card'
equal "$(grep -o 'class="mono[^>]*>page 3<' picture.svg | wc -l)" 1 'the root is drawn'
expect 0 '^<svg .*</svg> $' tree c.fw --svg -
expect 66 'cannot create /no/where.svg' tree c.fw --svg /no/where.svg
# No command writes over a store, nor over another file where that is not said.
cp c.fw victim.fw
for words in 'tree c.fw --svg victim.fw' 'tree c.fw --svg victim.fw --force' 'tree victim.fw --svg victim.fw --force' 'create victim.fw' 'backup c.fw victim.fw' \
    'backup victim.fw victim.fw'; do
    # shellcheck disable=SC2086
    unchanged victim.fw expect 70 'Exists \(70\): victim.fw stands there already' $words
done
zcat "$here/format1.fw.gz" > one.fw
unchanged one.fw expect 70 'Exists' tree c.fw --svg one.fw --force
unchanged one.fw expect 70 'Exists' upgrade one.fw one.fw
ln -s victim.fw link.fw; unchanged victim.fw expect 70 'Exists' tree c.fw --svg link.fw
echo precious > notes.txt
unchanged notes.txt expect 70 'Exists \(70\): notes.txt stands there already' tree c.fw --svg notes.txt
expect 0 'drew notes.txt' tree c.fw --svg notes.txt --force
holds 'the picture took its place' xmllint --noout notes.txt
equal "$(ls victim.fw.* notes.txt.* 2> /dev/null)" '' 'files that a picture leaves'
# Large trees: cards of one line, then levels that are not drawn.
for size in 256 568 4096 8192; do
    "$florin" create large.$size.fw --page-size $size > /dev/null
    seq 0 7999 | awk '{ print ($1 * 7919) % 8000, 1, "\"<&>" $1 % 10 "\"", 2 * int($1 / 100) + 2, $1 % 3 ? "assert" : "retract" }' |
        awk '{ print > "part" int((NR - 1) / 100) ".txt" }'
    for i in $(seq 0 79); do sort -n "part$i.txt"; echo ---; done > large.txt
    expect 0 '80 batches with 8,000 datoms' insert large.$size.fw large.txt --quiet
    grep -v -e --- large.txt | sort -n > expected; list large.$size.fw > listed; same listed expected "8,000 datoms in pages of $size"
    expect 0 'Sound: all 80 roots; [0-9,]+ pages as written, 1 root walked' check large.$size.fw --all
    expect 0 'Sound: all 80 roots; [0-9,]+ pages as written, 80 roots walked' check large.$size.fw --all --walk
    drawn large.$size.fw
    drawn large.$size.fw --root @3
    expect 0 'root [0-9]+: 8,000 datoms' tree large.$size.fw
done
rm -f part*.txt

# Long work shows on a terminal how far it is, and nowhere else.
seq 0 120000 | awk '{ print $1, 1, $1, 2, "assert" }' > long.txt
"$florin" create long.fw --page-size 256 > /dev/null
script -qec "$florin insert long.fw long.txt --every 1 --quiet" /dev/null > terminal 2>&1
holds 'progress on a terminal' grep -q $'\033\\[K[0-9,]* batches with [0-9,]* datoms in' terminal
"$florin" list long.fw 2> complained > /dev/null; equal "$(wc -c < complained)" 0 'no progress elsewhere'
rm -f long.fw long.txt

# A feed that is open: each batch goes in, and its receipt comes, when its line --- has come.
mkfifo feed.pipe
"$florin" create live.fw --page-size 256 > /dev/null
"$florin" insert live.fw < feed.pipe > told 2> complained &
feed=$!
exec 8> feed.pipe
for batch in 1 2 3; do
    (d $((10 * batch)) $((10 * batch + 4)); echo ---) >&8
    for _ in $(seq 1 200); do
        [ "$(grep -c ' is in:' told)" -ge "$batch" ] && break
        sleep 0.01
    done
    equal "$(grep -c ' is in:' told):$("$florin" list live.fw | wc -l)" "$batch:$((5 * batch))" "batch $batch of an open feed"
done
exec 8>&-
wait $feed; equal $? 0 'an open feed ends'

# The listing of a store goes on while a feed is written to it, and the feed is not held up.
"$florin" create feed.fw --page-size 256 --room 1 > /dev/null
seq 0 59999 | awk '{ print $1, 1, $1, 2, "assert" }' > feed.txt
"$florin" insert feed.fw feed.txt --every 1 --quiet > /dev/null &
feed=$! looks=0 wrong=0
# Copies that are made meanwhile, with backup and with cp, are whole: each lists the batches of its moment.
copied() {
    "$florin" check "$1" --all > /dev/null 2> complained && [ $(($("$florin" roots "$1" | wc -l) - 1)) -eq "$("$florin" list "$1" | wc -l)" ] && return
    wrong=$((wrong + 1))
    head -n 2 complained
}
while kill -0 $feed 2> /dev/null; do
    looks=$((looks + 1))
    "$florin" list feed.fw 2> complained | awk '$1 != NR - 1 { exit 1 }' || wrong=$((wrong + 1))
    "$florin" roots feed.fw > listed 2>> complained || wrong=$((wrong + 1))
    [ -s complained ] && wrong=$((wrong + 1)) && head -n 2 complained
    rm -f copy.fw; "$florin" backup feed.fw copy.fw > /dev/null 2> complained || wrong=$((wrong + 1)); copied copy.fw
    cp feed.fw copy.fw; copied copy.fw
done
wait $feed; equal $? 0 'the feed ends'
equal "$wrong" 0 'readers beside a feed'
holds "$looks looks at the feed" test "$looks" -gt 1
list feed.fw > listed; same listed feed.txt 'the feed is in'
