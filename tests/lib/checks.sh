# shellcheck shell=bash
# What tests for a shell share, which each takes at the top of the repository by `. tests/lib/checks.sh`: the folder $work, which goes at
# the end, and counts.
work=$(mktemp -d) || exit 1
holder=
trap 'release; rm -rf "$work"' EXIT
passed=0 failed=0

# check WORDS COMMAND.. : whether a command succeeds; of one that fails, what it said first
check() {
    local words=$1
    shift
    if "$@" > "$work/out" 2>&1; then
        passed=$((passed + 1))
    else
        failed=$((failed + 1))
        echo "FAILED $words"
        head -5 "$work/out"
    fi
}

# result NAME WANT GOT
result() {
    if [ "$2" = "$3" ]; then
        passed=$((passed + 1))
    else
        failed=$((failed + 1))
        printf 'FAILED %s\n  want: %s\n  got:  %s\n' "$1" "$2" "$3"
    fi
}

# hold PORT : listens there until the end, for 0 at a free one; $work/held has its number
hold() {
    python3 -c 'import socket, sys, time
listener = socket.create_server(("127.0.0.1", int(sys.argv[1])))
print(listener.getsockname()[1], flush=True)
time.sleep(3600)' "$1" > "$work/held" &
    holder=$!
    for _ in {1..100}; do
        [ -s "$work/held" ] && break
        sleep 0.05
    done
}

release() {
    [ -z "$holder" ] || kill "$holder"
    holder=
}

# counted NAME : tells the counts; whether something passed and nothing failed
counted() {
    echo "$1: $passed passed, $failed failed"
    [ "$failed" -eq 0 ] && [ "$passed" -gt 0 ]
}
