# Sourced by clients.sh and client.sh, at the top of the repository. A client is a crate over the sealing crates, in a copy of the repository, where
# a check begins with what checks of the same crates kept on this machine.
passed=0
failed=0
copy=$(mktemp -d)
trap 'rm -rf "$copy"' EXIT
tar -c --exclude=out crates.txt crates | tar -x -C "$copy"
mkdir -p "$copy/crates/client/src"
echo 'client: ciphers method chm checks' >> "$copy/crates.txt"

# judge NAME WANTED: checks the client that standard input has, and compares the answer, which is 'proved', or on which lines the compiler refuses the
# client and by which errors, one a line, each once
judge() {
    local text got
    cat > "$copy/crates/client/src/lib.rt"
    if text=$(cd "$copy/crates/client" && rt check 2>&1); then
        got=proved
    else
        got=$(sed -n -E 's|^[^ ]*src/lib\.rt:([0-9]+):[0-9]+: error\[([^]]*)\].*|line \1: \2|p' <<< "$text" | sort -u)
    fi
    if [ -n "$2" ] && [ "$got" = "$2" ]; then
        echo "ok: $1, $got"
        passed=$((passed + 1))
    else
        echo "FAILED: $1: wanted '$2', and it was '$got'"
        tail -n 5 <<< "$text"
        failed=$((failed + 1))
    fi
}

# told: the last line, and the status
told() {
    echo "$passed passed, $failed failed"
    [ "$failed" -eq 0 ]
}
