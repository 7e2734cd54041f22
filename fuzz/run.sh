#!/bin/sh
# Fuzzes the byte call and the call over words for so many seconds (default 60): with libFuzzer where clang has it, else with the
# target's own loop.
set -eu
cd "$(dirname "$0")"
seconds=${1:-60}
library=../target/staticlib/libmars.a
out=../target/fuzz
[ -f "$library" ] || { echo "missing target/staticlib/libmars.a: run host/library.sh" >&2; exit 2; }
mkdir -p "$out/corpus" "$out/found"
bytes() { sed -n "s/^#define MARS_$1_BYTES \([0-9]*\).*/\1/p" ../host/mars.h; }
longest=$(($(bytes DAY) + $(bytes BATCH) + 4 * 130 + 64))
cargo run --quiet --release --manifest-path ../harness/Cargo.toml --bin seeds -- "$out/seeds"
strict="-std=c11 -Wall -Wextra -Werror -O1 -g -fno-sanitize-recover=all"
if clang $strict -fsanitize=fuzzer,address,undefined fuzz_report.c "$library" -o "$out/fuzz_report" 2>"$out/clang.txt"; then
    exec "$out/fuzz_report" -max_total_time="$seconds" -max_len="$longest" -len_control=0 -reduce_inputs=0 -print_final_stats=1 \
        -artifact_prefix="$out/found/" "$out/corpus" "$out/seeds"
fi
echo "fuzz: no libFuzzer (see target/fuzz/clang.txt), own loop"
cc $strict -fsanitize=address,undefined -DFUZZ_LOOP fuzz_report.c "$library" -o "$out/fuzz_loop"
exec "$out/fuzz_loop" "$seconds" "$out"/seeds/*
