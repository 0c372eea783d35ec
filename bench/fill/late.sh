#!/usr/bin/env bash
# Fills a generated design (that of bench/check, flat) of 100,000 copies of shapes with 1, 2 and 8 workers, while a script of 1,000
# late edits of its metal (edits.py) is carried out, and with an empty script; some windows are low at first, some at last. Each
# result is checked by tools/verify from its bytes alone: the run fails where one is refused. Seconds are the best of three runs without
# edits and of one run with them, peaks those of the whole process, both on all processors.
#
# Then each result is altered in one thing at a time (alter.py), and the run fails where that isn't refused for the right reason.
#
# usage: bench/fill/late.sh [COUNT [EDITS]]     (after make build; needs rustc, python3, taskset and GNU time; some four minutes)
set -eu
. "$(dirname "$0")/../common.sh"
count=${1:-100000} edits=${2:-1000}

rustc --edition 2021 -O -o "$work/verify" "$root/tools/verify/main.rs"
python3 "$here/../check/generate.py" "$count" flat "$work"
python3 "$here/rules.py" "$work"
# At this share most windows are low in metal, and fill lifts most of them; small tiles, so that the workers take turns.
sed -i 's/^min,.*/min,200000/; s/^\(tile_n.\),.*/\1,16/' "$work/fill.csv"
python3 "$here/edits.py" "$work" "$edits"

# run SCRIPT:WORKERS PROCESSORS: the fill to WORK/fill.gds and its report to WORK/filled.csv.
run() {
    "$root/bin/densfill" fill "$work/fill.csv" "$work/design.gds" "$work/${1%:*}" "$work/fill.gds" --workers "${1#*:}" \
        > "$work/filled.csv"
}
export -f run
export root work

# refuse KIND REASON SCRIPT: fails where what was written last, so altered, is accepted, or refused for another reason.
refuse() {
    python3 "$here/alter.py" "$1" "$work/fill.csv" "$work/fill.gds" "$work/filled.csv" "$work/altered"
    if "$work/verify" "$work/altered/rules.csv" "$work/design.gds" "$work/$3" "$work/altered/fill.gds" "$work/altered/report.csv" \
        > "$work/reason"; then
        echo "accepted though altered ($1)"
        exit 1
    fi
    grep -q -- "$2" "$work/reason" || { echo "altered ($1), but: $(cat "$work/reason")"; exit 1; }
}

touch "$work/empty.csv"
mkdir "$work/altered"
printf '%8s %8s %8s %8s  %s\n' edits workers s MB "as counted from the bytes"
for script in empty.csv script.csv; do
    [ "$script" = empty.csv ] && rounds=3 || rounds=1
    for workers in 1 2 8; do
        for _ in $(seq "$rounds"); do
            rm -f "$work/fill.gds" "$work/filled.csv"
            measure "$script:$workers" "$all" 1 >> "$work/costs"
            "$work/verify" "$work/fill.csv" "$work/design.gds" "$work/$script" "$work/fill.gds" "$work/filled.csv" > "$work/numbers" ||
                { echo "refused ($script, $workers workers): $(cat "$work/numbers")"; exit 1; }
        done
        sort -n "$work/costs" | awk -v edits="$(wc -l < "$work/$script")" -v workers="$workers" -v numbers="$(cat "$work/numbers")" '
            NR == 1 { best = $1 } $2 > peak { peak = $2 }
            END { printf "%8d %8d %8.2f %8d  %s\n", edits, workers, best, peak, numbers }'
        rm "$work/costs"
        refuse moved "stands off the raster" "$script"
        refuse doubled "stands twice" "$script"
        refuse short "no record" "$script"
        refuse dropped "is missing in window" "$script"
        refuse crowded "is too near to metal" "$script"
        refuse total "REPORT, line" "$script"
        refuse unwanted "was wanted in no version" "$script"
    done
done
say_load
