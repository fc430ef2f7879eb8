#!/bin/sh
# Times the text utilities over a file of 100 MB in memory, less the making of the file, beside coreutils in the C locale, and
# prints the ratios.
# Usage: bench/text.sh [ROUNDS], from anywhere; 3 rounds if none are given. It needs 100 MB in the folder for temporary files.
cd "$(dirname "$0")/.." || exit 1
rounds=${1:-3}
series=3
. bench/timing.sh
in_a_folder
measuring

size=100000000
yes "$(printf 'one two\tthree four,five six seven\teight nine,ten eleven twelve.')" | head -c $size >"$folder/f0"
best_of "$program" run 1 $size ''
without=$best
for command in cat 'head -n 1500000' 'tail -n 1500000' 'tail -n +100' wc 'wc -l' 'cut -b 1-4,9-' 'cut -f 2' 'cut -d , -f 1,3' 'fold -w 40' paste; do
    set -- $command
    best_of "$program" run 1 $size "$command f0"
    ours=$((best - without))
    best_of "$@" "$folder/f0"
    echo "$command: coreutils $best us, hs $ours us (ratio $((ours * 100 / best))%)"
done
