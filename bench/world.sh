#!/bin/sh
# Times work on the state, less the start of the measuring program: entries put into a tree, bytes put at the end of a
# file, subshell environments over 50 variables, and a file of 1 MiB compared with a longer text and, once, with an equal
# one, of which each byte is looked at.
# Usage: bench/world.sh [ROUNDS], from anywhere; 3 rounds if none are given. The last row takes a minute and more.
cd "$(dirname "$0")/.." || exit 1
rounds=${1:-3}
series=3
. bench/timing.sh

measuring
for row in 'tree 262144' 'append 1000000' 'shells 100000' 'longer 1000000' 'equal 1000000'; do
    set -- $row
    case $1 in equal) rounds=1 series=1 ;; esac
    best_of "$program" "$1" "$2"
    echo "$1 $2: $((best - start)) us, $(((best - start) * 1000 / $2)) ns each"
done
