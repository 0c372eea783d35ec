#!/usr/bin/env bash
# Times the calls of a book over a layer of a million rectangles (layer.py) and a raster of a million places in tiles
# of 64 by 64, and prints one table: for spacings of no and of twenty tracks, and for some 1,000 and some 17,000 windows,
#   open          opens the book; what comes out is the number of windows
#   next+job      asks for a tile and its work, once for each tile
#   propose       does that work; what comes out is how many places are proposed in all
#   commit        brings the proposal; how many places are filled in all
#   edit, add     adds a small square to the metal, when all tiles were in; how many boxes that takes out in all
#   edit, cut     cuts one out
#   all totals    asks for the total of metal and fill in each window, when all tiles were in; what comes out is how many windows have some, three times
#   measure_all measures all windows of the metal; how many there are
#   union         unites the metal with a small square
# how often it was called, and how long all calls, one on average and the longest took. On one processor, and on all where a
# call shares out its work (open and measure_all). Each number is the least of three processes; a peak is that of the whole
# process, the reading of the layer included. Where two processes differ in what comes out, the run fails.
#
# usage: bench/book/run.sh      (needs rt, python3, taskset, GNU time and 2 GB; some ten minutes, and more where the crates were
#                                not proved before)
set -eu
. "$(dirname "$0")/../common.sh"

build_over_layer book plans.py \
    "fill_base fill_spans fill_bands fill_region fill_size fill_area fill_cells fill_measure fill_sums fill_raster fill_text fill_job fill_core fill_state fill_book"

for processors in $(one_and_all); do
    for round in 1 2 3; do
        for rules in 0-32 0-130 2000-32 2000-130; do
            (cd "$work/rules" && /usr/bin/time -f %M -o "$work/peak" taskset -c "0-$((processors - 1))" \
                "$work/rattle" "$work/layer" "$rules.csv" > "$work/said")
            sed "s|\.csv;|;$processors;$(cat "$work/peak");|" "$work/said" >> "$work/measured"
        done
    done
done

# Lines of $work/measured: spacing and windows, processors, peak in KB, what was called, how often, what came out, and the
# microseconds of all calls and of the longest.
awk -F';' '
    function least(table, key, value) { if (!(key in table) || value < table[key]) table[key] = value }
    {
        key = $1 ";" $4
        if (!(key in came)) came[key] = $5 ";" $6
        if (came[key] != $5 ";" $6) { print "differs: " key ": " came[key] " and " $5 ";" $6; exit wrong = 1 }
        if ($2 > 1 && $4 != "open" && $4 != "measure_all") next
        row = key ";" $2
        if (!(row in total)) rows[++count] = row
        least(total, row, $7); least(worst, row, $8); least(peak, $1 ";" $2, $3)
    }
    END {
        if (wrong) exit 1
        printf "%-8s %8s %-12s %10s %6s %9s %9s %10s %10s %8s\n", "spacing", "windows", "what", "processors",
            "calls", "came out", "all s", "mean ms", "longest ms", "peak MB"
        for (k = 1; k <= count; k++) {
            split(rows[k], part, ";"); split(part[1], kind, "-"); split(came[part[1] ";" part[2]], out, ";")
            printf "%-8d %8d %-12s %10d %6d %9d %9.3f %10.3f %10.3f %8.0f\n", kind[1], kind[2] * kind[2], part[2], part[3],
                out[1], out[2], total[rows[k]] / 1e6, total[rows[k]] / 1e3 / out[1], worst[rows[k]] / 1e3,
                peak[part[1] ";" part[3]] / 1024
        }
    }' "$work/measured"
say_load
