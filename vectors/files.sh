#!/bin/sh
# Runs the report program on files that are missing, are folders, fail when read, are ragged, or are too long: by a byte, a word, or
# without end; and on one terminal for both.
set -eu
cd "$(dirname "$0")/.."
program=$PWD/crates/mars_report/out/mars_report
[ -x "$program" ] || { echo "missing crates/mars_report/out/mars_report: run 'rt run' in crates/mars_report" >&2; exit 2; }
good=$PWD/samples/share
work=$(mktemp -d)
trap 'rm -rf "$work"' EXIT
failed=0

# the longest forms in bytes, as the C header has them
bytes() { sed -n "s/^#define MARS_$1_BYTES \([0-9]*\).*/\1/p" host/mars.h; }
day=$(bytes DAY)
batch=$(bytes BATCH)

# NAME EXPECTED: what stands in $work is printed so, and each case begins with the two sample files
check() {
    printed=$(cd "$work" && "$program")
    [ "$printed" = "$2" ] || { echo "files: $1: '$printed' for '$2'" >&2; failed=1; }
    rm -rf "$work/day.w32" "$work/pos.w32"
    cp "$good/day.w32" "$good/pos.w32" "$work"
}

check "no files" "REFUSED 1 0"
rm "$work/pos.w32"
check "no batch" "REFUSED 2 0"
rm "$work/day.w32" && mkdir "$work/day.w32"
check "a folder for the day file" "REFUSED 1 0"
rm "$work/pos.w32" && mkdir "$work/pos.w32"
check "a folder for the batch" "REFUSED 2 0"
# opens, but the first read of its unmapped page 0 fails
ln -sf /proc/self/mem "$work/day.w32"
check "a day file that fails when read" "REFUSED 1 0"
ln -sf /proc/self/mem "$work/pos.w32"
check "a batch that fails when read" "REFUSED 2 0"
printf x >>"$work/day.w32"
check "a ragged day file" "REFUSED 1 0"
printf x >>"$work/pos.w32"
check "a ragged batch" "REFUSED 2 0"
head -c $((day + 1)) /dev/zero >"$work/day.w32"
check "a day file of a byte more than the longest" "REFUSED 1 0"
ln -sf /dev/zero "$work/day.w32"
check "a day file without end" "REFUSED 1 0"
head -c $((day + 4)) /dev/zero >"$work/day.w32"
check "a day file of a word more than the longest" "REFUSED 1 0"
head -c "$day" /dev/zero >"$work/day.w32"
check "a day file as long as the longest" "REFUSED 10 0"
head -c $((batch + 1)) /dev/zero >"$work/pos.w32"
check "a batch of a byte more than the longest" "REFUSED 2 0"
ln -sf /dev/zero "$work/pos.w32"
check "a batch without end" "REFUSED 2 0"
head -c $((batch + 4)) /dev/zero >"$work/pos.w32"
check "a batch of a word more than the longest" "REFUSED 2 0"
head -c "$batch" /dev/zero >"$work/pos.w32"
check "a batch as long as the longest" "REFUSED 20 0"
check "the sample" "$(cat crates/mars_report/stdout)"

# both names may stand for one terminal, which goes on behind the day file's end, with the batch: both are read before either is
# asked for more
cc -std=c11 -Wall -Wextra -Werror -O2 vectors/terminal.c -o "$work/terminal"
ln -sf /proc/self/fd/0 "$work/day.w32"
ln -sf /proc/self/fd/0 "$work/pos.w32"
printed=$(cd "$work" && ./terminal "$program" "$good/day.w32" "$good/pos.w32") || printed="status $?"
[ "$printed" = "$(cat crates/mars_report/stdout)" ] || { echo "files: one terminal for both: '$printed'" >&2; failed=1; }
[ "$failed" = 0 ] || exit 1
echo "files: as expected"
