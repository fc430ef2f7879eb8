#!/bin/sh
# Times the expansion of words beside dash: a flat script of 20,000 lines of assignments, with parameters, their operators,
# patterns, quotes and arithmetic, less the start of each program. It prints both times and the ratio.
# Usage: bench/expand.sh [ROUNDS], from anywhere; 3 rounds if none are given.
cd "$(dirname "$0")/.." || exit 1
rounds=${1:-3}
series=3
. bench/timing.sh
command -v dash >/dev/null || { echo "bench: no dash to compare with" >&2; exit 1; }
in_a_folder

awk 'BEGIN {
    print "x=archive.tar.gz; k=0; e="
    for (line = 1; line < 19999; line++) {
        kind = line % 8
        if (kind == 0) printf "x=src/part%d.tar.gz; k=$((k + %d))\n", line, line % 7
        if (kind == 1) print "y=${x%.*}; z=\"$y-$((k+1))\""
        if (kind == 2) printf "y=${x##*/}; z=${y%%%%.*}%d\n", line % 100
        if (kind == 3) print "y=\"${u:-$x} ${e:-\"$z\"}\"; n=${#y}"
        if (kind == 4) printf "k=$(((k * %d + n) %% 1000)); v=${z:+$k}$u\n", line % 13
        if (kind == 5) printf "z=${y#* }/$k; y='\''%d'\''\"$v\"\\ $x\n", line
        if (kind == 6) print "w=${x%[.]gz}; v=${w##*[!a-z]}"
        if (kind == 7) printf "n=$((${#w} > %d ? n + 1 : n - k)); e=$e\n", line % 32
    }
    print "echo \"$k $n $v $w $x $y $z\""
}' >"$folder/script"
: >"$folder/empty"

measuring
theirs=$(dash "$folder/script" | wc -c)
ours=$("$program" script "$folder/script") || exit 1
[ "$ours" -eq "$theirs" ] || { echo "bench: dash writes $theirs bytes, hs $ours" >&2; exit 1; }
best_of dash "$folder/empty"
dash_start=$best
best_of dash "$folder/script"
theirs=$((best - dash_start))
best_of "$program" script "$folder/empty"
start=$best
best_of "$program" script "$folder/script"
ours=$((best - start))
echo "$(wc -l <"$folder/script") lines: dash $theirs us, hs $ours us (ratio $((ours * 100 / theirs))%)"
