#!/bin/sh
# Times `hs -c` beside `dash -c`, on a list of 1,000 echo commands and on an empty list, and prints the ratios.
# The program is run as it is built, and once more by way of ./hs, which a shell starts first.
# Usage: bench/echo.sh [ROUNDS], from anywhere; 200 rounds if none are given.
cd "$(dirname "$0")/.." || exit 1
rounds=${1:-200}
series=5
. bench/timing.sh
./hs -c '' || exit 1
command -v dash >/dev/null || { echo "bench: no dash to compare with" >&2; exit 1; }

list=
k=0
while [ $k -lt 1000 ]; do
    list="${list}echo line $k 'of the list';"
    k=$((k + 1))
done

compare() {
    best_of dash -c "$2"
    theirs=$best
    best_of crates/hs_main/out/hs_main -c "$2"
    ours=$best
    best_of ./hs -c "$2"
    script=$best
    echo "$1: dash $theirs us, hs $ours us (ratio $((ours * 100 / theirs))%), ./hs $script us (ratio $((script * 100 / theirs))%)"
}

compare "1,000 echo commands" "$list"
compare "an empty list" ""
