#!/bin/sh
# Times the reading of a script of 1,000,000 bytes (functions, loops, here-documents, pipelines) beside `dash -n`, less the
# start of each program, and prints the ratio.
# Usage: bench/parse.sh [ROUNDS], from anywhere; 3 rounds if none are given.
cd "$(dirname "$0")/.." || exit 1
rounds=${1:-3}
series=3
. bench/timing.sh
command -v dash >/dev/null || { echo "bench: no dash to compare with" >&2; exit 1; }

folder=$(mktemp -d) || exit 1
trap 'rm -r "$folder"' EXIT
awk 'BEGIN {
    for (k = 0; bytes < 1000000; k++) {
        piece = sprintf("# Step %d\nstep_%d() {\n", k, k) \
            "    for name in alpha beta \"gamma $1\" '\''delta one'\''; do\n" \
            "        if test -n \"$name\" && test \"$name\" != \"${2:-none}\"; then\n" \
            sprintf("            echo \"$name: $((count + %d))\" | sort -u >>\"out/${name%%.txt}.%d\"\n", k, k) \
            "        elif test -f \"$name\"; then\n" \
            "            while read -r line; do printf '\''%s\\n'\'' \"$line\"; done <\"$name\"\n" \
            "        else\n" \
            "            case $name in\n" \
            "                a*|b?) echo first ;;\n" \
            "                *) echo \"$(basename \"$name\" .c)\" 2>/dev/null ;;\n" \
            "            esac\n" \
            "        fi\n" \
            "    done\n" \
            "}\n" \
            sprintf("cat <<EOF | grep -F -v \"x%d\"\n", k) \
            sprintf("the text of ${HOME} and $(pwd), line %d\n", k) \
            "EOF\n" \
            sprintf("step_%d one \"two three\" || exit 1\n", k)
        bytes += length(piece)
        if (bytes <= 1000000) printf "%s", piece
    }
}' >"$folder/script"
: >"$folder/empty"

measuring
best_of dash -n "$folder/empty"
dash_start=$best
best_of dash -n "$folder/script"
theirs=$((best - dash_start))
best_of "$program" parse "$folder/empty"
start=$best
best_of "$program" parse "$folder/script"
ours=$((best - start))
echo "$(wc -c <"$folder/script") bytes: dash $theirs us, hs $ours us (ratio $((ours * 100 / theirs))%)"
