#!/usr/bin/env bash
# Builds the second implementation in ordinary Rust, runs its own tests, and compares it with the proved code on many inputs, through the
# static library. The last line is 'N passed, M failed', and it ends non-zero where anything failed.
set -u -o pipefail
cd "$(dirname "$0")/.."
out=target/rust
mkdir -p "$out"
kit=$(dirname "$(rt doc)")
fail() { echo "FAILED: $1"; echo '0 passed, 1 failed'; exit 1; }

bash ci/staticlib.sh || fail 'the static library is not built'
rustc --edition 2024 -C opt-level=3 --crate-type rlib --crate-name reference rust/reference/src/lib.rs -o "$out/libreference.rlib" || fail 'the reference is not built'
rustc --edition 2024 -C opt-level=3 --test --crate-name reference rust/reference/src/lib.rs -o "$out/reference_tests" || fail 'the tests of the reference are not built'
rustc --edition 2024 -C opt-level=3 rust/compare/src/main.rs -o "$out/compare" --extern "reference=$out/libreference.rlib" \
    -L target/staticlib -l static=exports -L "$kit/c" -l static=libc_c || fail 'the comparison is not built'

"$out/reference_tests" > "$out/tests.log" 2>&1 || { cat "$out/tests.log"; fail 'a test of the reference'; }
line=$(grep -E '^test result: ok\. [0-9]+ passed' "$out/tests.log" | tail -n 1)
[[ $line =~ ([0-9]+)\ passed ]] || fail 'the tests of the reference told no count'
tests=${BASH_REMATCH[1]}
echo "ok: $tests tests of the reference"
"$out/compare" | tee "$out/compare.log"
status=$?
line=$(tail -n 1 "$out/compare.log")
[[ $line =~ ^([0-9]+)\ passed,\ ([0-9]+)\ failed$ ]] || fail 'the comparison told no count'
echo "$((tests + BASH_REMATCH[1])) passed, ${BASH_REMATCH[2]} failed"
[ "$status" -eq 0 ]
