#!/bin/bash
# Compares two builds of the library: runs a bench of each by turns, row by row, five times, and
# prints for each measure new / old of our times, of each side the least of the five: other users of
# the machine make a time longer, by up to a half for minutes, and never shorter.
#
#   versus.sh OLD NEW [SECONDS [WORD]]    two programs `bench`; SECONDS and WORD as for bench
#
# A bench of an older commit that has host/staticlib.sh, with the shapes of this one:
#   git worktree add FOLDER COMMIT && FOLDER/host/staticlib.sh
#   cp host/src/bin/bench/{main,shapes}.rs FOLDER/host/src/bin/bench/
#   (cd FOLDER/host && cargo build --offline --release --bin bench)    # FOLDER/host/target/release/bench
set -euo pipefail
usage="usage: versus.sh OLD NEW [SECONDS [WORD]]"
old=${1:?$usage} new=${2:?$usage} seconds=${3:-0.4}
for shape in ${4:-chain wide heads load deep late forks}; do
    for nodes in 1024 16384 262144; do
        for _ in 1 2 3 4 5; do
            "$old" "$seconds" "$shape" "$nodes" | sed -n '3,$s/^/old /p'
            "$new" "$seconds" "$shape" "$nodes" | sed -n '3,$s/^/new /p'
        done
    done
done | awk -F ' *[|] *' '
    function nanoseconds(cell,  time) { # the first time within the brackets
        sub(/^[^(]*[(]/, "", cell); split(cell, time, /[ ,]/)
        return time[1] * (time[2] == "us" ? 1e3 : time[2] == "ms" ? 1e6 : 1)
    }
    function text(n) { return n < 1e4 ? sprintf("%.1f ns", n) : n < 1e7 ? sprintf("%.1f us", n / 1e3) : sprintf("%.1f ms", n / 1e6) }
    function ratio(row, cell,  old, new) {
        old = least["old", row, cell]; new = least["new", row, cell]
        return sprintf("%.2f (%s, %s)", new / old, text(old), text(new))
    }
    {
        row = $2 " | " $3
        if (!(row in seen)) { seen[row]; rows[++count] = row }
        for (cell = 5; cell <= 11; cell++) {
            time = nanoseconds($cell)
            if (!(($1, row, cell) in least) || time < least[$1, row, cell]) least[$1, row, cell] = time
        }
    }
    END {
        print "| shape | nodes | plan | fresh | fresh, then equal | kept 1 | kept 8 | kept 64 |"
        print "|---|---|---|---|---|---|---|---|"
        for (i = 1; i <= count; i++) {
            line = "| " rows[i]
            for (cell = 5; cell <= 11; cell++) if (cell != 6) line = line " | " ratio(rows[i], cell)
            print line " |"
        }
    }'
