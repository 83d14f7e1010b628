# shellcheck shell=bash disable=SC2154
# Files that are no stores, or not any more, or cannot be read or written: a clear refusal, and they stay as they are.

b 0 30 > first.txt; b 31 40 > second.txt
"$florin" create good.fw --page-size 256 --from first.txt > /dev/null
"$florin" insert good.fw second.txt > /dev/null
size=$(stat -c %s good.fw)

# refuses STATUS PATTERN FILE: every command does.
refuses() {
    local status=$1 pattern=$2 file=$3 words
    for words in "insert $file second.txt" "list $file" "check $file" "roots $file" "page $file 0" "tree $file" "status $file" "count $file" \
        "missing $file second.txt" "backup $file copied.fw"; do
        # shellcheck disable=SC2086
        unchanged "$file" expect "$status" "$pattern" $words
    done
    [ ! -e copied.fw ] || fail "a backup was made of $file"
}

: > empty.fw
refuses 67 'NotAStore \(67\): empty.fw is no store of florin: it is empty\..*next: name a file' empty.fw
head -c 100000 /dev/urandom > foreign.fw
refuses 67 'NotAStore \(67\): foreign.fw .*it does not begin as one' foreign.fw
refuses 67 'NotAStore' first.txt
head -c 20000 /dev/zero > zero.fw
refuses 67 'NotAStore' zero.fw
# Cut at many lengths: within the heads, the pages, the receipts.
for length in 1 7 8 71 72 4095 4096 4100 8191 8192 8193 9000 $((size - 4096)) $((size - 64)) $((size - 1)); do
    head -c "$length" good.fw > cut.fw
    [ "$length" -lt 8 ] && status=67 name=NotAStore || status=69 name=CutShort
    unchanged cut.fw expect "$status" "$name \($status\)" list cut.fw
    unchanged cut.fw expect "$status" "$name \($status\).*next:" insert cut.fw second.txt
done
# A file that is longer than its head says was cut while it grew: all of it is there.
cp good.fw longer.fw; head -c 12345 /dev/zero >> longer.fw
list longer.fw > listed; d 0 40 > expected; same listed expected 'a file that was cut while it grew'
b 41 50 > third.txt
expect 0 'batch 1 is in' insert longer.fw third.txt
list longer.fw > listed; d 0 50 > expected; same listed expected 'and is written to'
expect 0 'Sound: all 3 roots' check longer.fw --all

expect 66 'NoInput \(66\): cannot open missing.fw: No such file.*next: look at the name' list missing.fw
expect 66 'NoInput' insert missing.fw second.txt
expect 66 'cannot read missing.txt' insert good.fw missing.txt
expect 66 'cannot read .*: Is a directory' insert good.fw .
expect 66 'cannot open \.: Is a directory' insert . second.txt
expect 67 'NotAStore \(67\): . is no regular file' list .
expect 67 'no regular file' list /dev/null
mkfifo pipe.fw; expect 67 'no regular file' list pipe.fw
expect 66 'cannot create no/such.fw' create no/such.fw
unchanged good.fw expect 70 'Exists \(70\): good.fw stands there already.*next: name another' create good.fw
ln -s nowhere dangling.fw; expect 70 'Exists' create dangling.fw

# Heads. Slot 1 - 0 takes turns; the newest head of good.fw has an even or odd number.
newest() { # prints the slot of the newest head
    local a b
    a=$(od -An -tu8 -j 8 -N 8 "$1" | tr -d ' ') b=$(od -An -tu8 -j 4104 -N 8 "$1" | tr -d ' ')
    [ "$a" -gt "$b" ] && echo 0 || echo 1
}
slot=$(newest good.fw) other=$((1 - $(newest good.fw)))
cp good.fw one.fw; poke one.fw $((other * 4096 + 30)) 77
expect 0 'note: one of the two heads of one.fw is not valid' status one.fw
list one.fw > listed; d 0 40 > expected; same listed expected 'an old head that is broken'
cp good.fw one.fw; poke one.fw $((slot * 4096 + 30)) 77
expect 0 'note: one of the two heads' list one.fw
list one.fw > listed; d 0 30 > expected; same listed expected 'a new head that is broken'
expect 0 'batch 1 is in' insert one.fw second.txt
list one.fw > listed; d 0 40 > expected; same listed expected 'and the batch sent again'
"$florin" status one.fw > printed 2>&1; equal "$(grep -c note printed)" 0 'a slot stays broken'
cp good.fw both.fw; poke both.fw 30 77; poke both.fw 4126 77
refuses 68 'BadHead \(68\): the head of both.fw is damaged: neither of its two slots is valid.*next: restore' both.fw
# Any single byte of the newest head: it is not valid, and the older one is taken.
for at in $(seq 0 7 175) 1000 4000 4087 4088 4095; do
    cp good.fw one.fw
    byte=$(bytes good.fw $((slot * 4096 + at)) 1)
    poke one.fw $((slot * 4096 + at)) "$(printf %02x $((0x$byte ^ 0x40)))"
    equal "$("$florin" list one.fw 2> /dev/null | wc -l)" 31 "byte $at of the newest head"
done
# Heads with a right checksum that say what cannot be.
forged() {
    cp good.fw forged.fw
    "$out/forge" forged.fw "$slot" "$1"
    refuses "$2" "$3" forged.fw
}
forged page_count=18446744073709551615 68 'BadHead \(68\).*it counts 18,446,744,073,709,551,615 pages, more than the file holds'
forged page_count=72057594037927937 68 'it counts 72,057,594,037,927,937 pages, more'
forged page_count=1000 68 'it counts 1,000 pages'
forged page_count=3 68 'its root is page [0-9]+ of 3'
forged root0=1000 68 'its root is page 1000'
forged receipts=18446744073709551615 68 'it counts 18,446,744,073,709,551,615 receipts'
forged receipts=1000 68 'it counts 1,000 receipts'
forged receipts=1 68 'receipts of forged.fw are not those that its head speaks of'
forged chain=1 68 'receipts of forged.fw are not those'
forged page_size=257 68 'its page size is 257'
forged page_size=0 68 'its page size is 0'
forged extents=0 68 'more than the file holds'
forged extents=2 68 'more than the file holds'
forged extents=241 68 'a part of it cannot lie at'
forged extents=18446744073709551615 68 'a part of it cannot lie at'
forged offset0=4096 68 'a part of it cannot lie at byte 4096'
forged offset0=8200 68 'a part of it cannot lie at byte 8200'
forged offset0=18446744073709547520 68 'a part of it cannot lie at'
forged offset1=8192 68 'two parts of it share byte 8192'
forged length2=4611686018427387904 68 'a part of it cannot lie at'
forged length2=1152921504606846976 69 'CutShort \(69\): forged.fw has [0-9,]+ bytes, and its head says 1,152,921,504,606,863,360'
# What a newer florin may have put there.
forged order=3 76 'OtherFormat \(76\): forged.fw was made by a newer florin: it has an unknown order, number 3\. It was left as it is\..*next: use that florin'
forged order=256 76 'it has an unknown order, number 256'
forged order=18446744073709551615 76 'it has an unknown order, number 18446744073709551615'
forged parties=2 76 'it has two parties'
forged allowance0=5 76 'it has two parties'
forged root1=0 76 'it has two parties'
forged heap_length=8 68 'it counts 8 bytes of long values, more than the file holds'
forged heap_length=18446744073709551608 68 'it counts 18,446,744,073,709,551,608 bytes of long values'
forged length0=4100 76 'it has a part of an unknown kind'
# Receipts: any byte of them, and a head of one moment with receipts of another, as a copy may have them. Every command finds it; what needs
# none of them goes on where that is said.
receipts_at=8192
for at in 0 63 127 128 200 255; do
    cp good.fw receipts.fw
    byte=$(bytes good.fw $((receipts_at + at)) 1)
    poke receipts.fw $((receipts_at + at)) "$(printf %02x $((0x$byte ^ 1)))"
    refuses 68 'BadHead \(68\): the receipts of receipts.fw are not those that its head speaks of.*next: restore .*--salvage' receipts.fw
    expect 0 'note: the receipts of receipts.fw are not those' list receipts.fw --salvage
    "$florin" list receipts.fw --salvage 2> /dev/null | plain > listed; d 0 40 > expected; same listed expected 'a damaged list of receipts'
    expect 0 'Sound' check receipts.fw --salvage
    expect 64 '--all needs the receipts, and they are damaged' check receipts.fw --salvage --all
    expect 64 'receipts are damaged, so what @1 led to is not known' list receipts.fw --salvage --root @1
done
cp good.fw older.fw; cp good.fw newer.fw; "$florin" insert newer.fw third.txt > /dev/null
dd if=newer.fw of=older.fw bs=8192 count=1 conv=notrunc status=none
refuses 68 'receipts of older.fw are not those' older.fw
cp good.fw older.fw; tail -c +8193 newer.fw | dd of=older.fw bs=8192 seek=1 conv=notrunc status=none
list older.fw > listed; d 0 40 > expected; same listed expected 'an older head with newer bytes is a store of its moment'
expect 0 'Sound: all 2 roots' check older.fw --all

# A store with long values, and heads that say too much or too little of them.
cp good.fw plain.fw; slot_of_plain=$slot
printf '50 1 "a long value" 2 assert\n51 1 "another long value" 2 assert\n---\n' > values.txt
"$florin" insert good.fw values.txt > /dev/null; slot=$(newest good.fw)
forged heap_length=60 68 'its long values have 60 bytes, no multiple of 8'
forged heap_length=1000000 68 'it counts 1,000,000 bytes of long values, more than the file holds'
forged heap_length=48 68 'receipts of forged.fw are not those'
forged heap_length=64 68 'receipts of forged.fw are not those'
forged heap_length=0 68 'receipts of forged.fw are not those'
cp plain.fw good.fw; slot=$slot_of_plain

# Any bit of any byte that counts: it is found by check --all, or, in a head, told by a note. No command is at a loss for an answer.
"$florin" create bits.fw --page-size 256 --room 20 > /dev/null
(for i in $(seq 0 11); do b $((i * 3)) $((i * 3 + 2)); done) > bits.txt
"$florin" insert bits.fw bits.txt --quiet > /dev/null
count=$("$florin" stat bits.fw --json | sed 's/.*"pages":\([0-9]*\),"free.*/\1/')
found=0 wrong=0
RANDOM=15
# flipped FROM LENGTH STATUSES TIMES: bits there, one at a time
flipped() {
    local at command status
    for _ in $(seq 1 "$4"); do
        at=$(($1 + (RANDOM * 32768 + RANDOM) % $2))
        cp bits.fw flip.fw
        poke flip.fw $at "$(printf %02x $((0x$(bytes bits.fw $at 1) ^ (1 << RANDOM % 8))))"
        "$florin" check flip.fw --all > printed 2>&1; status=$?
        case " $3 " in *" $status "*) found=$((found + 1)) ;; *) wrong=$((wrong + 1)); echo "byte $at: status $status" ;; esac
        if [ $status -eq 0 ] && ! grep -q 'note: one of the two heads' printed; then wrong=$((wrong + 1)); echo "byte $at: no note"; fi
        for command in list roots stat tree 'page flip.fw 3' 'dump' 'insert flip.fw third.txt'; do
            [ "${command#* }" = "$command" ] && command="$command flip.fw"
            # shellcheck disable=SC2086
            "$florin" $command > /dev/null 2>&1; [ $? -lt 80 ] || { wrong=$((wrong + 1)); echo "byte $at: florin $command"; }
        done
    done
}
flipped 0 8192 '0' 40
flipped 8192 $((12 * 128)) '68' 40
flipped 12288 $((count * 8)) '75' 30
flipped 16384 $((count * 256)) '33 75' 90
equal "$found:$wrong" 200:0 'flipped bits that were found, and others'
# So with the heap, which this store has behind its pages.
(for i in $(seq 40 49); do echo "$i 1 \"the long value of $i\" 2 assert"; echo ---; done) | "$florin" insert bits.fw --quiet > /dev/null
heap=$("$florin" stat bits.fw --json | sed 's/.*"heap_bytes":\([0-9]*\).*/\1/')
heap_at=$(($(grep -abo 'the long value of 40' bits.fw | head -n 1 | cut -d : -f 1) - 8))
equal "$heap" $((10 * 32)) 'bytes of ten long values'
flipped $heap_at "$heap" '33 75' 60
equal "$found:$wrong" 260:0 'flipped bits of long values that were found, and others'

# A store of florin 0.1: refused with a word on what to do, and made into one of today's format.
zcat "$here/format1.fw.gz" > one.fw
refuses 76 'OtherFormat \(76\): one.fw was made by florin 0.1, in format 1.*next: florin upgrade one.fw NEW' one.fw
unchanged one.fw expect 0 'made two.fw from one.fw: 4 batches, 8 pages, root 7' upgrade one.fw two.fw
equal "$(bytes one.fw 8192 2048)" "$(bytes two.fw "$(pages_at two.fw)" 2048)" 'the pages of an upgraded store'
"$florin" roots two.fw | awk '/^@/ { print $1, $2, $3, $4, $5, $8 }' > roots.txt
printf '@1 2 none 7 3 -\n@2 3 2 5 1 -\n@3 6 3 1 3 -\n@4 7 2* 2 1 -\n' > expected
same roots.txt expected 'the receipts of an upgraded store'
for root in @1:6 @2:11 @3:12; do
    list two.fw --root "${root%:*}" > listed; d 0 "${root#*:}" > expected; same listed expected "an upgraded store at root $root"
done
list two.fw > listed; (d 0 6; d 20 21) > expected; same listed expected 'an upgraded store'
expect 0 'Sound: all 4 roots' check two.fw --all --walk
expect 0 'batch 1 is in: 10 datoms' insert two.fw second.txt
# florin 0.1 took any page for a root: what is proved of histories says nothing of such a store, so all of its roots are walked.
zcat "$here/format1-leaf.fw.gz" > leaf.fw
expect 0 'made leafy.fw from leaf.fw: 2 batches' upgrade leaf.fw leafy.fw
expect 0 'Sound: all 2 roots; 4 pages as written, 2 roots walked' check leafy.fw --all
unchanged two.fw expect 70 'Exists' upgrade one.fw two.fw
expect 67 'NotAStore \(67\): two.fw is no store of format 1' upgrade two.fw three.fw
expect 67 'NotAStore' upgrade first.txt three.fw
for length in 9000 8191 100; do
    head -c $length one.fw > cut.fw; expect 68 'BadHead \(68\): cut.fw, a store of format 1, is damaged' upgrade cut.fw three.fw
done
size=$(stat -c %s one.fw)
for at in 30:4126 $((size - 1)) $((size - 200)); do
    cp one.fw bad.fw; poke bad.fw "${at%:*}" 77; [ "${at#*:}" = "$at" ] || poke bad.fw "${at#*:}" 77
    expect 68 'BadHead \(68\): bad.fw, a store of format 1, is damaged' upgrade bad.fw three.fw
done
cp one.fw bad.fw; poke bad.fw $((8192 + 1 * 256 + 249)) c8
expect 33 'Unsound \(33\): page 1, root 2 \(@1\)\. No store was made\. +The fault is Count: it counts .*next: restore' upgrade bad.fw three.fw
exec 9< one.fw; flock -x 9; expect 73 'Busy' upgrade one.fw three.fw; exec 9<&-
equal "$(ls three.fw* 2> /dev/null)" '' 'files that a refused upgrade leaves'

# A file that is cut short by another program while florin has it mapped.
mkfifo feed.pipe 2> /dev/null
cp good.fw mapped.fw
"$florin" insert mapped.fw < feed.pipe > told 2> complained &
feed=$!
exec 8> feed.pipe
b 100 101 >&8
for _ in $(seq 1 200); do grep -q ' is in:' told && break; sleep 0.01; done
truncate -s 8192 mapped.fw
b 102 103 >&8
exec 8>&-
wait $feed; equal "$?:$(grep -c 'System (74): the store cannot be read where it is mapped' complained)" 74:1 'a mapped file that is cut short'

# Another writer.
cp good.fw busy.fw
exec 9< busy.fw; flock -x 9
unchanged busy.fw expect 73 'Busy \(73\): another process writes to busy.fw.*next: try again when it has ended, or let --wait' insert busy.fw third.txt
expect 0 'Sound' check busy.fw
before=$(date +%s%N)
expect 73 'Busy' insert busy.fw third.txt --wait 0.3
holds 'it waited' test $((($(date +%s%N) - before) / 1000000)) -ge 300
(sleep 0.5) 9<&9 & waited=$!
exec 9<&-
expect 0 'is in' insert busy.fw third.txt --wait 20
wait $waited
expect 64 '--wait' insert busy.fw third.txt --wait soon
# Eight writers at once, each with its own batches: all go in, each once.
"$florin" create eight.fw --page-size 256 > /dev/null
for writer in 1 2 3 4 5 6 7 8; do
    for i in $(seq 0 9); do b $((writer * 1000 + i)) $((writer * 1000 + i)) > "writer.$writer.$i"; "$florin" insert eight.fw "writer.$writer.$i" --wait 60 > /dev/null 2> complained || fail "writer $writer: $(head -n 1 complained)"; done &
done
wait
equal "$("$florin" count eight.fw):$("$florin" check eight.fw --all --walk | cut -d ';' -f 1)" '80 datoms:Sound: all 80 roots' 'eight writers'

# Output that cannot be written is no success.
for words in 'list good.fw' 'roots good.fw' 'tree good.fw' '--help' 'status good.fw' 'page good.fw 0' 'check good.fw' 'count good.fw' 'missing good.fw third.txt' '--version' 'list good.fw --help' 'list good.fw --binary' 'tree good.fw --svg /dev/full' 'tree good.fw --svg -'; do
    # shellcheck disable=SC2086
    "$florin" $words > /dev/full 2> complained
    equal "$?:$(grep -c 'NoSpace (71): cannot write' complained)" 71:1 "florin $words > /dev/full"
done
cp good.fw full.fw
"$florin" insert full.fw third.txt > /dev/full 2> complained; equal $? 71 'a receipt that cannot be written'

# A limit on the size of files, as a full disk: nothing that was accepted is lost, and the file is as long as before. It grows by what there
# is room for: by half, or by less.
"$florin" create limit.fw --page-size 4096 --room 2 > /dev/null
(for i in $(seq 0 19); do b $((i * 100)) $((i * 100 + 99)); done) > feed.txt
limited() { # limited BYTES: feeds limit.fw with no more bytes than these, and tells what is in
    (ulimit -f $(($1 / 1024)); "$florin" insert limit.fw feed.txt --resend > told 2> limit.complained); status=$?
    batches=$(grep -cE ' (is in|was in before):' told)
    list limit.fw > listed; grep -v -e --- feed.txt | head -n $((batches * 100)) > expected; same listed expected "what is in at a limit of $1 bytes"
}
length=$(stat -c %s limit.fw)
limited "$length"
equal "$status:$(grep -c 'NoSpace (71): cannot enlarge limit.fw: File too large' limit.complained)" 71:1 'a limit on file sizes'
equal "$(stat -c %s limit.fw)" "$length" 'the length of the file that could not grow'
holds 'batches before the limit' test "$batches" -gt 0
before=$batches
limited $((length + 8192)); holds 'two blocks more, one batch more' test "$batches" -gt "$before"
before=$batches
limited $((length + 40960)); holds 'ten blocks more, several batches more' test "$batches" -gt $((before + 2))
equal "$(stat -c %s limit.fw)" $((length + 40960)) 'all that there was room for'
expect 0 "$batches batch(es)? in before" insert limit.fw feed.txt --resend
list limit.fw > listed; grep -v -e --- feed.txt > expected; same listed expected 'sent again when there is room'
expect 0 'Sound: all 20 roots' check limit.fw --all --walk
expect 0 'copied limit.fw' backup limit.fw compact.fw
"$florin" list compact.fw > listed; "$florin" list limit.fw > expected; same listed expected 'a backup of a file that grew by small parts'
(ulimit -f 4; "$florin" create none.fw > told 2> complained); status=$?
equal "$status:$(ls -d none.fw* 2> /dev/null)" '71:' 'create at a limit leaves no file'

if [ "$(id -u)" -eq 0 ]; then
    # A file system that is full.
    mkdir disk
    if mount -t tmpfs -o size=128k tmpfs disk 2> /dev/null; then
        "$florin" create disk/s.fw --page-size 4096 --room 2 > /dev/null
        "$florin" insert disk/s.fw feed.txt > told 2> complained; status=$?
        equal "$status:$(grep -c 'NoSpace (71): cannot enlarge disk/s.fw: No space left' complained)" 71:1 'a full file system'
        holds 'the file took all that there was' test "$(stat -c %s disk/s.fw)" -gt 110000
        batches=$(grep -c ' is in:' told)
        list disk/s.fw > listed; grep -v -e --- feed.txt | head -n $((batches * 100)) > expected; same listed expected 'what is in on a full file system'
        expect 71 'NoSpace' create disk/t.fw --room 100
        equal "$(ls disk)" s.fw 'create on a full file system leaves no file'
        mount -o remount,ro disk
        unchanged disk/s.fw expect 72 'NotPermitted \(72\): cannot open disk/s.fw: Read-only' insert disk/s.fw third.txt
        expect 72 'NotPermitted' create disk/t.fw
        expect 0 'Sound' check disk/s.fw
        umount disk
    else
        echo 'skipped: no file system can be mounted'
    fi
    # A user who may read, and one who may not.
    mkdir rights; cp good.fw rights/; chmod 755 . rights; chmod 444 rights/good.fw
    nobody() { setpriv --reuid=65534 --regid=65534 --clear-groups "$@"; }
    cp "$florin" rights/florin; chmod 755 rights/florin
    cp third.txt rights/; chmod 644 rights/third.txt
    nobody rights/florin insert rights/good.fw rights/third.txt > told 2> complained
    equal "$?:$(grep -c 'NotPermitted (72): cannot open rights/good.fw: Permission denied' complained)" 72:1 'a file that may not be written'
    same good.fw rights/good.fw 'a file that may not be written'
    nobody rights/florin list rights/good.fw > told 2> complained; equal $? 0 'a file that may be read'
    nobody rights/florin create rights/new.fw > told 2> complained; equal $? 72 'a directory that may not be written'
    chmod 000 rights/good.fw
    nobody rights/florin list rights/good.fw > told 2> complained; equal $? 72 'a file that may not be read'
else
    echo 'skipped: a full file system and a user without rights need root'
fi
