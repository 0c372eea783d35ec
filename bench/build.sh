#!/usr/bin/env bash
# Builds a benchmark's program in Rattle, as WORK/rattle, and the plain one in Rust beside it, where there is one, as
# WORK/plain. The Rattle program stands with its proofs, where it has some, in a repository of its own under WORK, since the gate
# runs no benchmark. The program is run once, with the words of INPUT.
#
# usage: bench/build.sh FOLDER PROGRAM WORK "INPUT .." "CRATE .." "LIBRARY .."      (crates of this repository, lowest first)
set -eu
folder=$1 program=$2 work=$3 input=($4) crates=$5 libraries=$6
root=$(cd "$(dirname "$0")/.." && pwd)
repository=$work/repository

mkdir -p "$repository/crates/$program/src"
git -C "$repository" init -q
cp "$root/HANDLES" "$repository/HANDLES"
for crate in $crates; do
    cp -r "$root/crates/$crate" "$repository/crates/$crate"
    grep "^$crate:" "$root/crates.txt" >> "$repository/crates.txt"
done
echo "$program: $crates $libraries" >> "$repository/crates.txt"
cp "$folder/$program.rt.txt" "$repository/crates/$program/src/main.rt"
if [ -d "$folder/proofs" ]; then
    cp -r "$folder/proofs" "$repository/crates/$program/proofs"
    find "$repository/crates/$program/proofs" -name '*.antt.txt' -exec sh -c 'mv "$1" "${1%.txt}"' sh {} \;
fi
(cd "$repository/crates/$program" && rt run -- "${input[@]}") > "$work/build.log" 2>&1 || { tail -20 "$work/build.log"; exit 1; }
cp "$repository/crates/$program/out/$program" "$work/rattle"
[ ! -f "$folder/plain.rs" ] || rustc --edition 2021 -O -o "$work/plain" "$folder/plain.rs"
