#!/usr/bin/env bash
# Proves and builds the static library that C and Rust can link: target/staticlib/libexports.a, of the crate exports_c, beside the kit's
# c/liblibc_c.a.
set -eu -o pipefail
cd "$(dirname "$0")/.."
mkdir -p target/staticlib
(cd crates/exports_c && rt lib) > target/staticlib/log 2>&1 || { tail -n 20 target/staticlib/log >&2; exit 1; }
cp crates/exports_c/out/libexports_c.a target/staticlib/libexports.a
