#!/usr/bin/env bash
# The times of a run as tables: medians in nanoseconds, and the library's against the Rust's.
#
#   table.sh build/bench/times.tsv
set -euo pipefail

awk -F '\t' '
    function told(nanoseconds) {
        return nanoseconds >= 1e6 ? sprintf("%.1f ms", nanoseconds / 1e6) : nanoseconds >= 1e4 ? sprintf("%.1f µs", nanoseconds / 1e3) \
            : nanoseconds >= 1e3 ? sprintf("%.2f µs", nanoseconds / 1e3) : nanoseconds >= 100 ? sprintf("%.0f ns", nanoseconds) \
            : sprintf("%.1f ns", nanoseconds)
    }
    function at(what, row, side) { return ((what, row, side) in median) ? told(median[what, row, side]) : "-" }
    function ratio(over, under) { return over != "" && under != "" ? sprintf("%.2f", over / under) : "-" }
    NR > 1 {
        row = $2 "\t" $3 "\t" $4
        if (!($1 in seen)) { seen[$1] = 1; whats[++n] = $1 }
        if (!(row in known)) { known[row] = 1; rows[++m] = row }
        median[$1, row, $5] = $6
    }
    END {
        for (i = 1; i <= n; i++) {
            what = whats[i]
            insert = what
            sub("receipt for", "insert of", insert)
            is_receipt = insert != what
            print "\n| " what " | Florinwick | the Rust | " (is_receipt ? "of its insert" : "ratio") " | LMDB | SQLite |\n|---|---|---|---|---|---|"
            for (j = 1; j <= m; j++) {
                if (!((what, rows[j], "Florinwick") in median)) continue
                split(rows[j], parts, "\t")
                ours = median[what, rows[j], "Florinwick"]
                under = is_receipt ? median[insert, rows[j], "Florinwick"] : median[what, rows[j], "Rust"]
                print "| " parts[1] ", " parts[2] " datoms, " parts[3] " bytes | " at(what, rows[j], "Florinwick") " | " at(what, rows[j], "Rust") " | " \
                    ratio(ours, under) " | " at(what, rows[j], "LMDB") " | " at(what, rows[j], "SQLite") " |"
            }
        }
    }' "$1"
