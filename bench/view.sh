#!/bin/sh
# Times work in a view, less the start of the measuring program: effects on 1,000 variables, and a read of another location for
# each ten of them. The time of one effect must not grow with their number.
# Usage: bench/view.sh [ROUNDS], from anywhere; 3 rounds if none are given.
cd "$(dirname "$0")/.." || exit 1
rounds=${1:-3}
series=3
. bench/timing.sh

measuring
for count in 10000 100000 1000000; do
    best_of "$program" view $count
    echo "view $count: $((best - start)) us, $(((best - start) * 1000 / count)) ns an effect"
done
