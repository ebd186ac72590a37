#!/usr/bin/env bash
# What a client of the sealing crates cannot write. ci/client/lib.txt is a client crate that is proved; each edit beside it replaces a
# text that stands there once, and names the error by which the compiler must refuse it, on the edited line and nowhere else.
# A must-fail edit has to reach the prover, and these do not, so they are tried here, on a copy of the repository.
# A line for the client and for each edit; the last line is 'N passed, M failed', and it ends non-zero where anything failed.
set -u -o pipefail
cd "$(dirname "$0")/.."
. ci/client_copy.sh
client=$(< ci/client/lib.txt)
judge 'the client as it stands' proved <<< "$client"
for file in ci/client/*.edit; do
    name=$(basename "$file" .edit)
    error=$(sed -n 's|^error: ||p' "$file")
    old=$(sed -n 's|^old: ||p' "$file")
    new=$(sed -n 's|^new: ||p' "$file")
    before=${client%%"$old"*}
    after=${client#*"$old"}
    if [ -z "$old" ] || [ "$before" = "$client" ] || [ "${after#*"$old"}" != "$after" ]; then
        echo "FAILED: $name: its old text does not stand just once in the client"
        failed=$((failed + 1))
        continue
    fi
    line=$(($(tr -cd '\n' <<< "$before" | wc -c)))
    judge "$name" "line $line: $error" <<< "$before$new$after"
done
told
