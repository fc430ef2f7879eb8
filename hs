#!/bin/sh
# Starts the shell, and builds it first where it is not built. Words, streams and the status pass through unchanged.
case $0 in
    */*) crate=${0%/*}/crates/hs_main ;;
    *) crate=./crates/hs_main ;;
esac
if [ ! -x "$crate/out/hs_main" ]; then
    (cd "$crate" && rt run -- -c "") >&2 </dev/null || exit 125
fi
exec "$crate/out/hs_main" "$@"
