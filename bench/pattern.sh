#!/bin/sh
# Times patterns on long texts, less the start of the measuring program: `*a*a*a*a*b` on 10,000 and on 100,000 bytes `a`,
# where a matcher that goes back would not end, and a star before a byte on 10,000,000 bytes.
# Usage: bench/pattern.sh [ROUNDS], from anywhere; 20 rounds if none are given.
cd "$(dirname "$0")/.." || exit 1
rounds=${1:-20}
series=3
. bench/timing.sh

measuring
for row in '*a*a*a*a*b a 10000' '*a*a*a*a*b a 100000' '*b a 10000000'; do
    set -f
    set -- $row
    best_of "$program" match "$1" "$2" "$3"
    echo "$1 on $3 times $2: $((best - start)) us"
    set +f
done
