# To be read by the scripts beside it, at the top of the repository.

# Sets `best` to the microseconds that one run of "$@" takes, the least of as many
# series as $series says, each of $rounds runs.
best_of() {
    best=
    s=0
    while [ $s -lt "$series" ]; do
        begin=$(date +%s%N)
        k=0
        while [ $k -lt "$rounds" ]; do
            "$@" >/dev/null
            k=$((k + 1))
        done
        end=$(date +%s%N)
        now=$(((end - begin) / rounds / 1000))
        if [ -z "$best" ] || [ $now -lt "$best" ]; then best=$now; fi
        s=$((s + 1))
    done
}

# Builds the measuring program where it is not built, names it in `program`, and sets `start` to the microseconds that it
# takes to start.
measuring() {
    program=crates/hs_measure/out/hs_measure
    [ -x "$program" ] || (cd crates/hs_measure && rt run -- match a a 1) >&2 </dev/null || exit 1
    best_of "$program" match a a 1
    start=$best
}

# Sets `folder` to a new folder, which goes when the script ends, and takes the C locale.
in_a_folder() {
    LC_ALL=C
    export LC_ALL
    folder=$(mktemp -d) || exit 1
    trap 'rm -r "$folder"' EXIT
}
