#!/bin/sh
# Times the utilities that work on lines and bytes over a file of about 50 MB in memory, which is standard input too, less its
# reading, beside coreutils and GNU grep in the C locale (sort with one thread), and prints the ratios.
# Usage: bench/lines.sh [ROUNDS], from anywhere; 3 rounds if none are given. It needs 100 MB in the folder for temporary files.
cd "$(dirname "$0")/.." || exit 1
rounds=${1:-3}
series=3
. bench/timing.sh
in_a_folder
measuring

awk 'BEGIN { x = 1; for (i = 0; i < 2500000; i++) { x = (x * 16807) % 2147483647; printf "%d item %d\n", x, i % 1000 } }' >"$folder/f0"
best_of "$program" over "$folder/f0" ''
without=$best

# beside SCRIPT COMMAND..: the script, and the command that does the same over the file, which is its standard input
beside() {
    script=$1
    shift
    best_of "$program" over "$folder/f0" "$script"
    ours=$((best - without))
    best_of with_input "$@"
    echo "$script: peer $best us, hs $ours us (ratio $((ours * 100 / best))%)"
}

# GNU grep ends at the first line where its output goes nowhere.
piped() {
    "$@" | cat
}

with_input() {
    "$@" <"$folder/f0"
}

beside 'sort f0' sort --parallel=1 "$folder/f0"
beside 'sort -n f0' sort -n --parallel=1 "$folder/f0"
beside 'sort -r f0' sort -r --parallel=1 "$folder/f0"
beside 'uniq f0' uniq "$folder/f0"
beside 'uniq -c f0' uniq -c "$folder/f0"
beside 'comm f0 -' comm --nocheck-order "$folder/f0" -
beside 'tr a-z A-Z' tr a-z A-Z
beside 'tr -d 0-4' tr -d 0-4
beside 'tr -s 0-9' tr -s 0-9
beside 'grep -F 77 f0' piped grep -F 77 "$folder/f0"
beside 'grep -F -c -v item f0' grep -F -c -v item "$folder/f0"
