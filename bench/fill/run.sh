#!/usr/bin/env bash
# Times the whole of `densfill fill` on generated designs (those of bench/check, flat) of 100,000 and 1,000,000 copies of shapes over
# 10,000 windows, with some nine places for ten copies, beside `densfill check` on the same design and the same fill in plain Rust
# (plain.rs), on one processor and on all. Seconds are the best of three runs, peaks those of the whole process. Where the plain
# program's library or report differ in a byte, or the windows' metal is told otherwise than by `check`, or the fill on one processor is
# another one than that on all, the run fails. A second table has fills by 1, 2 and as many workers as there are processors, on all
# processors; where two numbers of workers give other bytes, the run fails.
#
# Where `klayout` is installed (Debian's package of that name), KLayout's own script for the same windows, spacing and raster
# (fill.drc) runs beside it, once. KLayout lets a box lie across two low windows, so its boxes are compared on a design with one
# window over all, where both must place the same: the run fails where one of them has a box that the other hasn't.
#
# usage: bench/fill/run.sh [COUNT ..]     (after make build; needs rustc, python3, taskset and GNU time; without COUNT some minutes and
#                                          2 GB, more with KLayout)
set -eu
. "$(dirname "$0")/../common.sh"
touch "$work/script.csv"

rustc --edition 2021 -O -o "$work/plain" "$here/plain.rs"

# run PROGRAM PROCESSORS: the report of densfill or the plain program to WORK/PROGRAM.csv, and the fill to WORK/PROGRAM.gds.
run() {
    case $1 in
        check) "$root/bin/densfill" check "$work/fill.csv" "$work/design.gds" > "$work/check.csv" ;;
        fill) "$root/bin/densfill" fill "$work/fill.csv" "$work/design.gds" "$work/script.csv" "$work/fill.gds" > "$work/filled.csv" ;;
        by_*)
            "$root/bin/densfill" fill "$work/fill.csv" "$work/design.gds" "$work/script.csv" "$work/by.gds" --workers "${1#by_}" \
                > "$work/by.csv" ;;
        plain) "$work/plain" "$work/fill.csv" "$work/design.gds" "$work/plain.gds" > "$work/plain.csv" ;;
        klayout)
            QT_QPA_PLATFORM=offscreen klayout -b -r "$here/fill.drc" -rd design="$work/design.gds" -rd rules="$work/fill.csv" \
                -rd threads="$2" -rd out="$work/klayout.gds" ;;
    esac
}
export -f run
export here root work

# boxes: how many boxes the fill library has, as the report tells of one window over all: squares of fill by squares of a box.
boxes() {
    awk -F, 'NR == FNR { if ($1 == "box_w" || $1 == "box_h") size = (size ? size : 1) * $2; next } { print $8 / size }' \
        "$work/fill.csv" "$work/filled.csv"
}

printf '%10s %10s %9s %9s %9s %6s %9s %9s %9s\n' copies processors "check s" "fill s" "plain s" ratio "check MB" "fill MB" "plain MB"
[ $# -gt 0 ] || set -- 100000 1000000
for count in "$@"; do
    python3 "$here/../check/generate.py" "$count" flat "$work"
    python3 "$here/rules.py" "$work"
    for processors in $(one_and_all); do
        check=$(measure check "$processors" 3)
        fill=$(measure fill "$processors" 3)
        plain=$(measure plain "$processors" 3)
        cut -d, -f1-7 "$work/check.csv" > "$work/drawn"
        cut -d, -f1-7 "$work/filled.csv" | cmp - "$work/drawn"
        cmp "$work/plain.csv" "$work/filled.csv"
        cmp "$work/plain.gds" "$work/fill.gds"
        [ ! -s "$work/first.gds" ] || cmp "$work/fill.gds" "$work/first.gds"
        cp "$work/fill.gds" "$work/first.gds"
        echo "$count $processors $check $fill $plain" |
            awk '{ printf "%10d %10d %9.2f %9.2f %9.2f %6.2f %9d %9d %9d\n", $1, $2, $3, $5, $7, ($7 > 0 ? $5 / $7 : 0), $4, $6, $8 }'
        command -v klayout > "$work/found" || continue
        theirs=$(measure klayout "$processors" 1)
        echo "$count $processors $fill $theirs" >> "$work/klayout"
    done
    rm "$work/first.gds"
    for workers in $(printf '1\n2\n%s\n' "$all" | sort -nu); do
        rm -f "$work/by.gds" "$work/by.csv"
        echo "$count $workers $(measure "by_$workers" "$all" 3)" >> "$work/workers"
        cmp "$work/by.gds" "$work/fill.gds"
        cmp "$work/by.csv" "$work/filled.csv"
    done
done

awk '
    BEGIN { printf "\n%10s %10s %9s %9s\n", "copies", "workers", "fill s", "fill MB" }
    { printf "%10d %10d %9.2f %9d\n", $1, $2, $3, $4 }' "$work/workers"

[ ! -s "$work/klayout" ] || awk '
    BEGIN { printf "\n%10s %10s %9s %11s %6s %9s %11s\n", "copies", "processors", "fill s", "KLayout s", "times", "fill MB", "KLayout MB" }
    { printf "%10d %10d %9.2f %11.1f %6.0f %9d %11d\n", $1, $2, $3, $5, $5 / $3, $4, $6 }' "$work/klayout"

if command -v klayout > "$work/found"; then
    python3 "$here/../check/generate.py" 100000 flat "$work"
    python3 "$here/rules.py" "$work" one
    run fill "$all"
    run klayout "$all"
    QT_QPA_PLATFORM=offscreen klayout -b -r "$here/same.drc" -rd ours="$work/fill.gds" -rd theirs="$work/klayout.gds" \
        -rd rules="$work/fill.csv" -rd out="$work/counts"
    read -r ours theirs other < "$work/counts"
    echo
    echo "one window over all: $ours boxes, by KLayout $theirs, in one of the two alone $other, by the report $(boxes)"
    [ "$other" = 0 ] && [ "$ours" = "$theirs" ] && [ "$ours" = "$(boxes)" ]
fi
say_load
