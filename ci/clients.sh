#!/usr/bin/env bash
# What a client of the sealing crates cannot write. Each file of ci/clients is a client crate: its first line says that it is proved,
# or on which line the compiler refuses it and by which error. A must-fail edit has to reach the prover, and these do not, so they are
# crates of a copy of the repository.
# A line for each client; the last line is 'N passed, M failed', and it ends non-zero where anything failed.
set -u -o pipefail
cd "$(dirname "$0")/.."
. ci/client_copy.sh
for file in ci/clients/*.txt; do
    judge "$(basename "$file" .txt)" "$(sed -n '1s|^// ||p' "$file")" < "$file"
done
told
