#!/bin/sh
# Runs the report program on every case here and compares what it prints with the case's stdout; as many cases must be there
# as `count` says.
set -eu
cd "$(dirname "$0")"
cases=$(cat count)
program=$(cd .. && pwd)/crates/mars_report/out/mars_report
[ -x "$program" ] || { echo "missing crates/mars_report/out/mars_report: run 'rt run' in crates/mars_report" >&2; exit 2; }
agreed=0
failed=0
for case in */; do
    if (cd "$case" && "$program") | cmp -s - "$case/stdout"; then
        agreed=$((agreed + 1))
    else
        echo "vectors: $case differs" >&2
        failed=$((failed + 1))
    fi
done
echo "vectors: $agreed agree, $failed differ, of $cases"
[ "$failed" = 0 ] && [ "$agreed" = "$cases" ]
