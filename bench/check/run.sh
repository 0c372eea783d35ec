#!/usr/bin/env bash
# Times the whole of `densfill check` on generated designs of 100,000, 1,000,000 and 3,900,000 copies of shapes, flat and in five levels,
# over 10,000 windows that overlap by half, some 70,000 side by side and a million that overlap by three quarters, on one processor and
# on all. Seconds are the median of five runs, or of as many as ROUNDS says, and the least; peaks in MB are those of the whole process.
# Where the reports of the flat design and of the deep one differ in a byte, the run fails.
#
# Where `klayout` is installed (Debian's package of that name), a last table has KLayout's own ways over the 10,000 windows, run once
# each: the areas of all windows by its tiling processor (areas.py), and the low windows by with_density (density.drc). Its areas and
# its low windows must be those of the report. Designs of more copies than KLAYOUT says are left out there.
#
# usage: [ROUNDS=N] [KLAYOUT=COUNT] bench/check/run.sh [COUNT ..]     (after make build; needs python3, taskset and GNU time; without
#                                           COUNT some minutes, and half an hour with KLayout)
set -eu
. "$(dirname "$0")/../common.sh"
rounds=${ROUNDS:-5}
most=${KLAYOUT:-4000000}

# run PROGRAM PROCESSORS: the report of the design to WORK/PROGRAM.csv.
run() {
    local out=$work/$1.csv
    case $1 in
        densfill) "$root/bin/densfill" check "$rules" "$work/design.gds" > "$out" ;;
        areas.py | density.drc)
            QT_QPA_PLATFORM=offscreen klayout -b -r "$here/$1" -rd design="$work/design.gds" -rd rules="$rules" \
                -rd threads="$2" -rd out="$out" ;;
    esac
}
export -f run
export here root work

# in_rounds PROCESSORS: the median and the least of the seconds of so many runs of the program, and its peak in MB.
in_rounds() {
    local from to
    for _ in $(seq "$rounds"); do
        from=$EPOCHREALTIME
        /usr/bin/time -f %M -o "$work/peak" taskset -c "0-$(($1 - 1))" bash -c "run densfill $1"
        to=$EPOCHREALTIME
        echo "$((${to/./} - ${from/./})) $(cat "$work/peak")" >> "$work/cost"
    done
    sort -g "$work/cost" | awk '
        { took[NR] = $1 } $2 > peak { peak = $2 } END { printf "%.4f %.4f %.0f", took[int((NR + 1) / 2)] / 1e6, took[1] / 1e6, peak / 1024 }'
    rm "$work/cost"
}

printf '%-6s %10s %10s %10s %10s %10s %10s\n' form copies windows processors "seconds" "least" "MB"
[ $# -gt 0 ] || set -- 100000 1000000 3900000
for count in "$@"; do
    for form in flat deep; do
        python3 "$here/generate.py" "$count" "$form" "$work"
        for windows in 10000 70000 1000000; do
            export rules=$work/rules_$windows.csv
            [ $windows != 10000 ] || rules=$work/rules.csv
            for processors in $(one_and_all); do
                took=$(in_rounds "$processors")
                echo "$form $count $windows $processors $took" | awk '{ printf "%-6s %10d %10d %10d %10.3f %10.3f %10d\n", $1, $2, $3, $4, $5, $6, $7 }'
                [ $windows = 10000 ] && [ "$count" -le "$most" ] && command -v klayout > "$work/found" || continue
                areas=$(measure areas.py "$processors" 1)
                low=$(measure density.drc "$processors" 1)
                cut -d, -f1,2,7 "$work/densfill.csv" | cmp - "$work/areas.py.csv"
                awk -F, '/LOW/ { print "(" $3 "," $4 ";" $5 "," $6 ")" }' "$work/densfill.csv" | LC_ALL=C sort > "$work/low"
                LC_ALL=C sort "$work/density.drc.csv" | cmp - "$work/low"
                echo "$form $count $processors $areas $low $took" >> "$work/klayout"
            done
            mv "$work/densfill.csv" "$work/${form}_$windows.csv"
        done
    done
    for windows in 10000 70000 1000000; do
        cmp "$work/flat_$windows.csv" "$work/deep_$windows.csv"
    done
done
[ ! -s "$work/klayout" ] || awk '
    BEGIN {
        printf "\n%-6s %10s %10s %12s %8s %14s %8s %12s %12s\n", "form", "copies", "processors", "areas s", "times", "with_density s", "times",
            "areas MB", "density MB"
    }
    { printf "%-6s %10d %10d %12.1f %8.0f %14.1f %8.0f %12d %12d\n", $1, $2, $3, $4, $4 / $8, $6, $6 / $8, $5, $7 }' "$work/klayout"
say_load
