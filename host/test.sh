#!/bin/sh
# Builds the C host against the static library and compares what it prints for the samples with expected/, which the
# harness makes from its own reckoner.
set -eu
cd "$(dirname "$0")"
library=../target/staticlib/libmars.a
out=../target/host
[ -f "$library" ] || { echo "missing target/staticlib/libmars.a: run host/library.sh" >&2; exit 2; }
mkdir -p "$out"
strict="-std=c11 -Wall -Wextra -Werror -O2"
cc $strict host.c "$library" -o "$out/host"

failed=0
for folder in ../samples/*/; do
    name=$(basename "$folder")
    status=0
    "$out/host" "$folder/day.w32" "$folder/pos.w32" >"$out/$name.txt" || status=$?
    echo "status $status" >>"$out/$name.txt"
    if ! diff "expected/$name.txt" "$out/$name.txt"; then
        echo "host: $name differs" >&2
        failed=1
    fi
done

# bad usage
for arguments in "one" "one two three" "no-such-file no-such-file"; do
    status=0
    "$out/host" $arguments >/dev/null 2>&1 || status=$?
    [ "$status" = 2 ] || { echo "host: status $status for: $arguments" >&2; failed=1; }
done

# calls at the edges, plain and with sanitizers where the compiler has them
cc $strict -pthread test_calls.c "$library" -o "$out/test_calls"
folders="../samples/fail ../samples/spread ../samples/expired ../samples/share"
"$out/test_calls" $folders || failed=1
echo 'int main(void) { return 0; }' >"$out/probe.c"
if cc -fsanitize=address,undefined "$out/probe.c" -o "$out/probe" 2>/dev/null && "$out/probe"; then
    cc $strict -g -fsanitize=address,undefined -fno-sanitize-recover=all -pthread test_calls.c "$library" -o "$out/test_calls_sanitized"
    "$out/test_calls_sanitized" $folders || failed=1
else
    echo "host: no sanitizers, the plain run stands alone"
fi
[ "$failed" = 0 ] || { echo "host: FAILED" >&2; exit 1; }
echo "host: outputs and calls as expected"
