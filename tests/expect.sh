# shellcheck shell=bash
# Counts what is expected and came, for tests that compare texts.
passed=0 failed=0

# Compares what came with what was expected.
expect() { # NAME EXPECTED GOT
    if [ "$2" = "$3" ]; then
        passed=$((passed + 1))
        printf 'ok: %s: %s\n' "$1" "$(head -n 1 <<<"$3")"
    else
        failed=$((failed + 1))
        printf 'FAIL: %s\nexpected:\n%s\ngot:\n%s\n' "$1" "$2" "$3"
    fi
}

# Ends with the sum.
conclude() {
    printf '%d passed, %d failed\n' "$passed" "$failed"
    exit $((failed > 0))
}
