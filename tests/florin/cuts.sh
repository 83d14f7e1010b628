# shellcheck shell=bash disable=SC2154
# Killed and cut at many points of an insert, and opened again: nothing that was told to be in is lost, nothing is half in.

# A feed of 12 batches in which each batch is spread over the whole tree, and what the tree lists after each. A value is its entity, or one
# that is long: texts of its own and of several batches, and large integers; or a text of several entities, under one of three attributes,
# for a tree that goes by them.
feed_of() {
    local entities=$1 values=$2 order=$3 n
    : > feed.txt
    for n in $(seq 1 12); do
        seq "$n" 12 "$entities" | awk -v n="$n" -v values="$values" '
            function value(e) {
                if (values == "short") return e
                if (values == "shared") return "\"text-" e * 7 % 90 "-of-several\""
                if (e % 5 == 0) return "92233720368547" sprintf("%05d", e)
                return e % 3 == 0 ? "\"a text of several batches, " e % 70 "\"" : "\"the text of order " e " in batch " n "\""
            }
            { print $1, values == "shared" ? $1 % 3 + 1 : 1, value($1), 2 * n, "assert" }' | in_order "$order" > "batch.$n"
        cat "batch.$n" >> feed.txt
        echo --- >> feed.txt
    done
    : > after.0
    for n in $(seq 1 12); do cat "after.$((n - 1))" "batch.$n" | in_order "$order" > "after.$n"; done
}

# intact STORE TOLD NAME: the store is sound at every root, has no fewer batches than were told to be in, and each root lists exactly
# what it should.
intact() {
    local store=$1 told=$2 name=$3 roots
    if ! "$florin" roots "$store" > rooted 2> complained; then
        fail "$name: $(head -n 1 complained)"
        return
    fi
    roots=$(($(wc -l < rooted) - 1))
    if [ "$roots" -lt "$told" ]; then
        fail "$name: $told batches were told to be in, and $roots are"
        return
    fi
    if ! "$florin" check "$store" --all > /dev/null 2> complained; then
        fail "$name: $(grep -v note complained | head -n 1)"
        return
    fi
    if ! list "$store" | cmp -s - "after.$roots"; then
        fail "$name: not what $roots batches list"
        return
    fi
    if [ "$roots" -gt 1 ] && ! list "$store" --root "@$((roots - 1))" | cmp -s - "after.$((roots - 1))"; then
        fail "$name: the root before is not what it was"
        return
    fi
    pass
}

told() { grep -c ' is in:' "$1"; }

# killed_at N WORDS..: florin, killed before its N-th call; sets status. The shell's own word about the kill is not shown.
killed_at() {
    local at=$1
    shift
    { FLORIN_KILL_AT=$at LD_PRELOAD=$out/cut.so "$florin" "$@" > said 2> complained; status=$?; } 2> /dev/null
}

# A page of 8192 bytes is two blocks of the disk, and may be half on it. With long values a batch has the heap to bring to the disk too.
for kind in 256:short:eavt 4096:short:eavt 8192:short:eavt 256:long:eavt 4096:long:aevt 256:shared:avet; do
    IFS=: read -r size values order <<< "$kind"
    feed_of 1500 "$values" "$order"
    rm -f base.fw
    "$florin" create base.fw --page-size "$size" --order "$order" --room 2 > /dev/null

    # Killed before each call to the system: the last run is one that is not killed.
    for at in $(seq 1 500); do
        cp base.fw killed.fw
        killed_at "$at" insert killed.fw feed.txt
        intact killed.fw "$(told said)" "pages of $kind, killed at call $at"
        [ $status -eq 0 ] && break
        if [ $((at % 5)) -eq 0 ]; then
            "$florin" insert killed.fw feed.txt --resend > said 2> complained || fail "sent again after call $at: $(head -n 1 complained)"
            intact killed.fw 12 "pages of $kind, killed at call $at and sent again"
        fi
    done
    equal "$status" 0 'the last run is not killed'
    equal "$(told said)" 12 'the last run has all batches'
    holds "killed at $at calls" test "$at" -gt 40
    echo "   pages of $kind: killed at $((at - 1)) calls"

    # The power cut at each sync, with any part of what was written since on the disk.
    rm -rf images; mkdir images
    cp base.fw cut.fw
    FLORIN_CUT_INTO=$PWD/images LD_PRELOAD=$out/cut.so "$florin" insert cut.fw feed.txt > said 2> complained
    equal $? 0 'the run that is cut'
    cuts=0
    for image in images/*; do
        intact "$image" "${image##*.}" "pages of $kind, cut at ${image##*/}"
        cuts=$((cuts + 1))
    done
    echo "   pages of $kind: $cuts images of a cut"
    holds "$cuts images of a cut" test "$cuts" -gt 140
    # One in ten is written to again.
    for image in images/*[05].*; do
        "$florin" insert "$image" feed.txt --resend > said 2> complained || fail "sent again to ${image##*/}: $(head -n 1 complained)"
        intact "$image" 12 "pages of $kind, cut at ${image##*/} and sent again"
    done
done

# Killed at any time, again and again. Whoever takes over sends the last batch that is in again, and goes on.
rm -f killed.fw
seq 1 60000 | awk '{ print $1, 1, $1, 2, "assert" }' > long.txt
"$florin" create killed.fw --page-size 256 --room 1 > /dev/null
kills=0 before=0 lost=0 wrong=0
RANDOM=4
while :; do
    tail -n +$((before > 0 ? before : 1)) long.txt > rest.txt
    : > said   # the kill may come before the new process has opened it
    "$florin" insert killed.fw rest.txt --every 1 --resend > said 2> complained &
    pid=$!
    sleep "0.00$((RANDOM % 9 + 1))"
    kill -KILL $pid 2> /dev/null
    wait $pid 2> /dev/null; status=$?
    now=$(($("$florin" roots killed.fw | wc -l) - 1))
    [ $now -lt $((before + $(told said))) ] && lost=$((lost + 1))
    "$florin" check killed.fw > /dev/null 2>&1 || wrong=$((wrong + 1))
    list killed.fw > listed; head -n $now long.txt | cmp -s - listed || wrong=$((wrong + 1))
    before=$now
    [ $status -eq 0 ] && break
    kills=$((kills + 1))
    [ $kills -ge 1000 ] || [ $((lost + wrong)) -gt 0 ] && break
done
equal "$lost:$wrong" 0:0 'killed at any time: batches lost, listings wrong'
equal "$now" 60000 'the whole feed in the end'
holds "killed $kills times" test "$kills" -gt 4
echo "   killed $kills times at any time"

# Create, backup and upgrade: no store, or a whole one.
(d 0 50; echo '51 1 "a long value" 2 assert') > first.listed; (cat first.listed; echo ---) > first.txt
for at in $(seq 1 40); do
    rm -f new.fw*
    killed_at "$at" create new.fw --from first.txt
    if [ -e new.fw ]; then
        list new.fw > listed; same listed first.listed "create killed at call $at"
    elif [ $status -ne 0 ]; then
        pass
    else
        fail "create killed at call $at: done, and no file"
    fi
    [ $status -eq 0 ] && break
done
equal "$status:$(ls new.fw*)" 0:new.fw 'create that is not killed'
zcat "$here/format1.fw.gz" > one.fw
"$florin" create source.fw --page-size 256 --from first.txt > /dev/null
for words in 'backup source.fw' 'upgrade one.fw'; do
    rm -f expected.fw
    # shellcheck disable=SC2086
    "$florin" $words expected.fw > /dev/null
    for at in $(seq 1 60); do
        rm -f new.fw*
        # shellcheck disable=SC2086
        killed_at "$at" $words new.fw
        if [ -e new.fw ]; then same new.fw expected.fw "florin $words killed at call $at"; else pass; fi
        [ $status -eq 0 ] && break
    done
    equal "$status:$(ls new.fw*)" 0:new.fw "florin $words that is not killed"
done
