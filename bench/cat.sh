#!/bin/sh
# Times `cat` of a file of 100 MB, and 1,000 `cat` of files of 100 bytes, over files in memory and less the start of the
# measuring program, beside coreutils' cat and beside dash with coreutils, and prints the ratios.
# Usage: bench/cat.sh [ROUNDS], from anywhere; 5 rounds if none are given. It needs 110 MB in the folder for temporary files.
cd "$(dirname "$0")/.." || exit 1
rounds=${1:-5}
series=3
. bench/timing.sh
command -v dash >/dev/null || { echo "bench: no dash to compare with" >&2; exit 1; }

folder=$(mktemp -d) || exit 1
trap 'rm -r "$folder"' EXIT
measuring

yes "$(printf 'one two\tthree four,five six seven\teight nine,ten eleven twelve.')" | head -c 100000000 >"$folder/f0"
best_of "$program" run 1 100000000 ''
without=$best
best_of "$program" run 1 100000000 'cat f0'
ours=$((best - without))
best_of cat "$folder/f0"
echo "cat of 100 MB: coreutils $best us, hs $ours us (ratio $((ours * 100 / best))%)"

list=
k=0
while [ $k -lt 1000 ]; do
    list="${list}cat f$k;"
    k=$((k + 1))
done
for k in $(seq 0 999); do
    head -c 100 "$folder/f0" >"$folder/g$k"
done
rm "$folder/f0"
for k in $(seq 0 999); do
    mv "$folder/g$k" "$folder/f$k"
done
best_of "$program" run 1000 100 ''
without=$best
best_of "$program" run 1000 100 "$list"
ours=$((best - without))
best_of sh -c 'cd "$1" && exec dash -c "$2"' sh "$folder" "$list"
echo "1,000 cat of 100 bytes: dash $best us, hs $ours us (ratio $((ours * 100 / best))%)"
