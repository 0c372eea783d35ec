# To be sourced by a benchmark. Sets here (the benchmark's folder), root (the repository), work (a folder that goes when the
# script ends) and all (how many processors there are).
here=$(cd "$(dirname "$0")" && pwd)
root=$(cd "$here/../.." && pwd)
work=$(mktemp -d)
trap 'rm -rf "$work"' EXIT
all=$(nproc)

# one_and_all: the numbers of processors that are measured, a line each.
one_and_all() {
    printf '1\n%s\n' "$all" | sort -nu
}

# measure PROGRAM PROCESSORS ROUNDS: the least seconds and the peak in MB of so many runs of `run PROGRAM PROCESSORS`, a
# function that the benchmark exports.
measure() {
    for _ in $(seq "$3"); do
        /usr/bin/time -f '%e %M' -a -o "$work/cost" taskset -c "0-$(($2 - 1))" bash -c "run $1 $2"
    done
    awk 'NR == 1 || $1 < best { best = $1 } $2 > peak { peak = $2 } END { printf "%.2f %.0f\n", best, peak / 1024 }' "$work/cost"
    rm "$work/cost"
}

# build_over_layer PROGRAM RULES "CRATE ..": builds the benchmark's program over these crates of the repository (build.sh), draws
# a layer of a million rectangles (layer.py) as WORK/layer, and has the benchmark's RULES write rule files for it to
# WORK/rules.
build_over_layer() {
    python3 "$root/bench/book/layer.py" 1000 "$work/first"
    "$root/bench/build.sh" "$here" "$1" "$work" "$work/first" "$3" "rayon csv thiserror anyhow"
    python3 "$root/bench/book/layer.py" 1000000 "$work/layer"
    mkdir "$work/rules"
    python3 "$here/$2" "$work/layer" "$work/rules"
}

# say_load: how busy the machine was.
say_load() {
    echo "processes that ran or waited, on average over 1, 5 and 15 minutes: $(cut -d' ' -f1-3 /proc/loadavg)"
}
