# shellcheck shell=bash disable=SC2154,SC2016
# Stores in each of the three orders. What they should list is worked out by sort and awk, not by the library.

declare -A parts=([eavt]='entity, attribute, value, transaction' [aevt]='attribute, entity, value, transaction' [avet]='attribute, value, entity, transaction')
declare -A number=([eavt]=00 [aevt]=01 [avet]=02) note=([eavt]='' [aevt]=', order aevt' [avet]=', order avet')

# Sixty entities with three attributes each, in three batches that are spread over the tree; values rise with neither, and some are shared.
fills() { awk -v n="$1" 'BEGIN { for (e = n; e <= 60; e += 3) for (a = 1; a <= 3; ++a) print e, a, (e * 37 + a * 11) % 50, 2 * n, "assert" }'; }
for order in eavt aevt avet; do
    for n in 1 2 3; do fills $n | in_order $order; echo ---; done > feed.$order
    grep -v -e --- feed.$order | in_order $order > listed.$order
done
equal "$(sort -u listed.* | wc -l):$(wc -l < listed.avet)" 180:180 'one set of datoms in three sorts'
for pair in 'eavt aevt' 'eavt avet' 'aevt avet'; do
    # shellcheck disable=SC2086
    set -- $pair
    if cmp -s "listed.$1" "listed.$2"; then fail "the sorts $pair are the same"; else pass; fi
done

# What is created, and what it shows of itself. The order is a word of both heads.
for order in eavt aevt avet; do
    expect 0 "^created $order.fw, pages of 256 bytes${note[$order]} \$" create $order.fw --page-size 256 --order $order
    expect 0 "page size +256 bytes order +$order: by ${parts[$order]} pages " stat $order.fw
    expect 0 "\"page_size\":256,\"order\":\"$order\",\"pages\":0" stat $order.fw --json
    equal "$(bytes $order.fw 40 8):$(bytes $order.fw 4136 8)" "${number[$order]}00000000000000:${number[$order]}00000000000000" "the order in the heads of $order.fw"
done
expect 0 '^\{"created":"json.fw","page_size":4096,"order":"avet"\} $' create json.fw --order avet --json
expect 0 'created plain.fw, pages of 4096 bytes $' create plain.fw
expect 0 'order +eavt: by entity, attribute, value, transaction' stat plain.fw
for word in frob 1 EAVT vaet ''; do
    expect 64 "Usage \(64\): --order: $word not in \{eavt,aevt,avet\}.*next: florin create --help" create bad.fw --order "$word"
done
equal "$(ls -d bad.fw* 2> /dev/null)" '' 'files that an unknown order leaves'

# A batch rises in the order of its store, and in no other.
for order in eavt aevt avet; do
    for other in eavt aevt avet; do
        [ $other = $order ] && continue
        unchanged $order.fw expect 4 "OutOfOrder \(4\): datom [0-9]+, batch 1, line [0-9]+: .*rise: by ${parts[$order]}\. Nothing was written.*--sort" insert $order.fw feed.$other
        expect 4 "rise: by ${parts[$order]}\." missing $order.fw feed.$other
    done
    expect 0 '3 batches with 180 datoms' insert $order.fw feed.$order
    list $order.fw > listed; same listed listed.$order "the listing of $order.fw"
    expect 0 'Sound: all 3 roots; [0-9]+ pages as written, 3 roots walked' check $order.fw --all --walk
    expect 0 '^180 datoms $' count $order.fw
done

# between ORDER FROM TO FILTER: what lies between two bounds is what awk finds, in the order's sort; so at an older root.
between() {
    local order=$1 from=$2 to=$3 filter=$4
    awk "$filter" "listed.$order" > expected
    list "$order.fw" --from "$from" --to "$to" > listed; same listed expected "$order from $from to $to"
    expect 0 "^$(wc -l < expected) datoms? \$" count "$order.fw" --from "$from" --to "$to"
    awk "$filter" "listed.$order" | awk '$4 <= 4' > expected
    list "$order.fw" --from "$from" --to "$to" --root @2 > listed; same listed expected "$order from $from to $to at an older root"
}
between eavt 10 20 '$1 >= 10 && $1 < 20'
between eavt '10 2' '10 3' '$1 == 10 && $2 == 2'
for order in aevt avet; do
    between $order '0 2' '0 3' '$2 == 2'
    between $order '0 2' 'max 2 max max' '$2 == 2'
    between $order '0 3' '0 max' '$2 == 3'
    between $order '0 0' '0 2' '$2 == 1'
    # What is left out is the least, and here that is the attribute.
    between $order 10 20 '0'
done
between aevt '10 2' '20 2' '$2 == 2 && $1 >= 10 && $1 < 20'
between aevt '10 2' '10 3' '($2 == 2 && $1 >= 10) || ($2 == 3 && $1 < 10)'
between avet '0 2 10' '0 2 20' '$2 == 2 && $3 >= 10 && $3 < 20'
between avet '0 2 9' 'max 2 9 max' '$2 == 2 && $3 == 9'
between avet '30 2 9' '0 2 10' '$2 == 2 && $3 == 9 && $1 >= 30'
holds 'a value that several entities have' test "$(awk '$2 == 2 && $3 == 9' listed.avet | wc -l)" -gt 1

# Repeats are noticed, wherever in the tree they are, and what is missing is told.
for order in eavt aevt avet; do
    unchanged $order.fw expect 6 'Repeated \(6\): datom 0, batch 1, line 1: .*All of the batch is in, 60 datoms' insert $order.fw feed.$order
    unchanged $order.fw expect 0 'batch 1 was in before: 60 .*batch 2 was in before: 60 .*batch 3 was in before: 60 ' insert $order.fw feed.$order --resend
    (sed -n 5,7p listed.$order; echo '30 2 77 2 assert'; echo '30 2 78 2 assert'; sed -n 170p listed.$order) | in_order $order > part.txt; echo --- >> part.txt
    unchanged $order.fw expect 6 'Repeated \(6\): .*holds 4 of the batch.s 6 datoms' insert $order.fw part.txt
    unchanged $order.fw expect 0 '^30 2 77 2 assert 30 2 78 2 assert --- florin: 2 of 6 datoms missing' missing $order.fw part.txt
    cp $order.fw branch.fw
    expect 0 'a branch from root [0-9]+ $' insert branch.fw <(grep '^30 2' part.txt; echo ---) --root @1 --branch
    (fills 1; grep '^30 2' part.txt) | in_order $order > expected; list branch.fw > listed; same listed expected "a branch of $order.fw"
done

# --sort: one feed for the three stores. The pages are those of a batch that came sorted, and a refusal names the line it came from.
for order in eavt aevt avet; do
    for other in eavt aevt avet; do
        rm -f sorted.fw; "$florin" create sorted.fw --page-size 256 --order $order > /dev/null
        expect 0 '3 batches with 180 datoms' insert sorted.fw feed.$other --sort
        length=$(($("$florin" stat $order.fw --json | sed 's/.*"pages":\([0-9]*\),"free.*/\1/') * 256))
        equal "$(bytes sorted.fw "$(pages_at sorted.fw)" $length | cksum)" "$(bytes $order.fw "$(pages_at $order.fw)" $length | cksum)" "feed.$other in $order.fw"
        "$florin" roots sorted.fw | awk '{ print $NF }' > one; "$florin" roots $order.fw | awk '{ print $NF }' > two; same one two "checksums of feed.$other in $order.fw"
    done
    unchanged $order.fw expect 0 '^florin: 0 of 180 datoms missing' missing $order.fw feed.eavt --sort
    unchanged $order.fw expect 0 'batch 3 was in before: 60' insert $order.fw feed.aevt --sort --resend
done
(echo '70 1 3 2 assert'; echo '71 1 1 2 assert'; tail -n 1 listed.avet; echo '72 1 2 2 assert'; echo ---) > unsorted.txt
unchanged avet.fw expect 6 "Repeated \(6\): datom 3, batch 1, line 3: $(tail -n 1 listed.avet)\. " insert avet.fw unsorted.txt --sort
unchanged avet.fw expect 0 '^71 1 1 2 assert 72 1 2 2 assert 70 1 3 2 assert --- florin: 3 of 4' missing avet.fw unsorted.txt --sort
(echo '70 1 3 2 assert'; echo '71 1 1 2 assert'; echo '70 1 3 2 assert'; echo ---) > twice.txt
unchanged avet.fw expect 4 'OutOfOrder \(4\): datom 2, batch 1, line 3: 70 1 3 2 assert' insert avet.fw twice.txt --sort

# Values of every kind, by content: integers, then strings by their bytes, wherever they lie.
cat > values.avet << 'END'
9 1 5 2 assert
8 1 4611686018427387904 2 assert
7 1 18446744073709551615 2 assert
4 1 "a long text" 2 assert
6 1 "a long text" 2 retract
6 1 "a long text" 2 assert
5 1 "a long text of an order" 2 assert
3 1 "abc" 2 assert
2 1 "abcdefgh" 2 assert
1 1 "b" 2 assert
1 2 "a" 2 assert
END
(cat values.avet; echo ---) > values.txt
expect 0 'created values.fw, pages of 256 bytes, order avet' create values.fw --page-size 256 --order avet
expect 0 'batch 1 is in: 11 datoms' insert values.fw values.txt
list values.fw > listed; same listed values.avet 'values by content'
(tac values.avet; echo ---) > backwards.txt
unchanged values.fw expect 4 'OutOfOrder \(4\): datom 1' insert values.fw backwards.txt
expect 0 'created backwards.fw, pages of 256 bytes, order avet; its first batch is in: 11 datoms' create backwards.fw --page-size 256 --order avet --from backwards.txt
list backwards.fw > listed; same listed values.avet 'values by content, from any order'
"$florin" create sorted.values --page-size 256 --order avet > /dev/null
expect 0 'batch 1 is in: 11 datoms' insert sorted.values backwards.txt --sort
list sorted.values > listed; same listed values.avet 'values by content, sorted'
for store in values.fw backwards.fw sorted.values; do "$florin" roots $store | awk 'NR > 1 { print $NF }'; done | sort -u > sums
equal "$(wc -l < sums)" 1 'one batch has one checksum, however it came'
unchanged values.fw expect 0 'batch 1 was in before: 11' insert values.fw values.txt --resend
list values.fw --from '0 1 "a long text"' --to 'max 1 "a long text" max' > listed; sed -n 4,6p values.avet > expected; same listed expected 'who has a text'
list values.fw --from '0 1 "a long"' --to '0 1 "a longs"' > listed; sed -n 4,7p values.avet > expected; same listed expected 'texts that begin so'
list values.fw --from '0 1 6' --to '0 1 ""' > listed; sed -n 2,3p values.avet > expected; same listed expected 'integers from 6 on'
expect 0 'Sound: all 1 root; .* bytes of long values as written' check values.fw --all

# Copies, pictures, pages: in the order of the store.
for order in eavt aevt avet; do
    expect 0 'copied' backup $order.fw copy.fw
    expect 0 "order +$order: by" stat copy.fw
    list copy.fw > listed; same listed listed.$order "a backup of $order.fw"
    expect 0 'Sound: all 3 roots' check copy.fw --all --walk
    expect 0 'midpoint|pending' tree $order.fw
    expect 0 'drew' tree $order.fw --svg picture.svg --force
    holds "the picture of $order.fw" xmllint --noout picture.svg
    equal "$("$florin" page $order.fw 0 | grep -c 'its fault is')" 0 "no fault of a page of $order.fw"
    rm copy.fw
done
# Where there are many pages a card is one line, with the range of what the order begins with.
seq 1 400 | awk '{ print 1000 + $1, $1 % 3 + 1, $1, 2, "assert" }' > many.txt
for order in eavt avet; do
    "$florin" create many.$order.fw --page-size 256 --order $order > /dev/null
    in_order $order < many.txt | "$florin" insert many.$order.fw --every 100 --quiet > /dev/null
    expect 0 'drew' tree many.$order.fw --svg many.$order.svg
    grep -oE '>[0-9]+ – [0-9]+<' many.$order.svg | tr -d '<>' > ranges.$order
    holds "the picture of many.$order.fw" xmllint --noout many.$order.svg
    holds "cards of one line in $order" test "$(wc -l < ranges.$order)" -gt 20
done
equal "$(grep -cvxE '[0-9]{4} – [0-9]{4}' ranges.eavt):$(grep -cvxE '[123] – [123]' ranges.avet)" 0:0 'ranges of entities, and of attributes'

# Read in another order a tree is none: the head says which it is, and its checksum keeps that. Here both heads are forged.
cp eavt.fw forged.fw
for slot in 0 1; do "$out/forge" forged.fw $slot order=1; done
expect 0 'order +aevt' stat forged.fw
expect 33 'Unsound \(33\): page [0-9]+, root [0-9]+\. +The fault is Order: its datoms do not rise' check forged.fw
expect 7 'Damaged \(7\): page [0-9]+, root [0-9]+\. +The fault is Order' list forged.fw
expect 0 'its fault is Order: its datoms do not rise' page forged.fw 0
