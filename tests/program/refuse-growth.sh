#!/usr/bin/env bash
# refuse-growth.sh [PROGRAM [TRIALS [PROBE]]]: runs the program with its first allocation refused, then with its second, and so on
# until none is left to refuse. Each run must end with status 1 and the line `pgsess: memory` alone, or with status 0 and
# the whole answer. Where a file's line can't be kept, `serve` and `stub` may name it, as in `pgsess: C8 line 7`; they are run at a
# port that another has, so that what they end with is `pgsess: port N` and status 3.
# Logins with a password are tried likewise through `trials login`; and steps of a session through `trials solo`, which asks once more
# for what is refused: so a growth that is refused there leaves no trace, and the answer is the whole one. `oom_probe KIND` does so with
# logins, starts and resets of links, ends in memory, leases, the book and its views, a desk's views, the console's answers and the request
# of a cancel: it looks at what each refusal left, asks once more, and gives the answer of a run in which nothing is refused.
set -euo pipefail
cd "$(dirname "$0")/../.."
program=$(realpath "${1:-crates/pgsess/out/pgsess}")
trials=$(realpath "${2:-crates/trials/out/trials}")
probe=$(realpath "${3:-crates/oom_probe/out/oom_probe}")
# shellcheck source=tests/lib/checks.sh
. tests/lib/checks.sh
gcc -O1 -Wall -Wextra -shared -fPIC -o "$work/refuse.so" tests/program/refuse_growth.c
head -c 32 /dev/zero >"$work/seed.bin"

# the status of a run in which nothing is refused
whole=0

# one_run NUMBER INPUT PROGRAM WORD.. : runs the program with this call refused; its status
one_run() {
    local number=$1 input=$2
    shift 2
    rm -f "$work/struck"
    local status=0
    timeout 60 env REFUSE_CALL="$number" REFUSE_STRUCK="$work/struck" LD_PRELOAD="$work/refuse.so" \
        "$@" <"$input" >"$work/out" 2>"$work/err" || status=$?
    echo "$status"
}

# holds STATUS ANSWER LINES : the run told want of memory and nothing else; or it ended with the status `whole`, gave the whole answer,
# and said on standard error what stands in ANSWER.err, or nothing where there is no such file
holds() {
    local said=$2.err
    [ -e "$said" ] || said=/dev/null
    case $1 in
    "$whole")
        # a fault keeps its status where there is no memory to tell it
        { cmp -s "$work/err" "$said" || { [ "$whole" -ne 0 ] && [ "$(cat "$work/err")" = 'pgsess: memory' ]; }; } && cmp -s "$work/out" "$2"
        ;;
    1) [ ! -s "$work/out" ] && [ "$(wc -l <"$work/err")" = 1 ] && grep -qE "^($3)\$" "$work/err" ;;
    *) false ;;
    esac
}

# so many runs of a sweep at least give the whole answer though a call is refused
fewest=0

# sweep NAME ANSWER LINES INPUT PROGRAM WORD.. : each call refused in turn
sweep() {
    local name=$1 answer=$2 lines=$3 input=$4 number=0 told=0 faults=0 status
    shift 4
    while :; do
        number=$((number + 1))
        status=$(one_run "$number" "$input" "$@")
        [ "$number" -eq 1 ] && [ ! -e "$work/struck" ] && { echo "FAILED $name: nothing was refused"; failed=$((failed + 1)); return; }
        if ! holds "$status" "$answer" "$lines"; then
            faults=$((faults + 1))
            echo "FAILED $name, call $number: status $status, $(wc -c <"$work/out") bytes out, standard error: $(head -c 200 "$work/err")"
        fi
        [ -e "$work/struck" ] || break
        [ "$status" -eq 1 ] && told=$((told + 1))
    done
    if [ "$faults" -eq 0 ] && [ "$status" -eq "$whole" ] && [ $((number - 1 - told)) -ge "$fewest" ]; then
        passed=$((passed + 1))
        echo "ok     $name: $((number - 1)) calls refused, $told told, $((number - 1 - told)) answered all the same"
    else
        failed=$((failed + 1))
        echo "FAILED $name"
    fi
}

: >"$work/nothing"
for row in bind_values temporary_table_and_statement suspended_portal set_show_discard; do
    sweep "replay of $row" "tests/rows/$row.out" 'pgsess: memory' "tests/rows/$row.in" "$program" replay
done
# a port that is taken
hold 0
port=$(cat "$work/held")
sed "s/^listen_port = .*/listen_port = $port/" examples/pgsess.ini >"$work/taken.ini"
: >"$work/taken"
echo "pgsess: port $port" >"$work/taken.err"
whole=3
sweep 'serve with the example files' "$work/taken" 'pgsess: (memory|C8 line [0-9]+|U3 line [0-9]+)' /dev/null \
    "$program" serve --ini "$work/taken.ini" --users examples/users.txt --key-seed "$work/seed.bin"
sweep 'stub with the example file' "$work/taken" 'pgsess: (memory|K4 line [0-9]+)' /dev/null \
    "$program" stub --port "$port" --catalogue examples/catalogue.tsv
whole=0
for login in plain_behind_encryption md5 scram; do
    python3 tests/lib/expected.py answer tests/logins "$login" >"$work/answer"
    sweep "login of $login" "$work/answer" 'trials: memory' "tests/logins/$login.in" \
        "$trials" login "tests/logins/${login%%_*}.ini" tests/logins/users.txt 0
done

fewest=5
for row in set_show_discard temporary_table_and_statement cursor_with_hold bind_values; do
    tail -c +33 "tests/rows/$row.in" >"$work/frames"
    # what is answered where nothing is refused; no cancel comes
    "$trials" solo tests/rows/catalogue.tsv ann 1000 <"$work/frames" >"$work/answer"
    sweep "steps of $row" "$work/answer" 'trials: memory' "$work/frames" "$trials" solo tests/rows/catalogue.tsv ann 1000
done

# each kind, and how many of its growths at least are asked for once more
for kind in login:10 start:60 reset:10 end:100 relay:5 book:20 view:3 console:120 strike:2; do
    fewest=${kind#*:}
    kind=${kind%:*}
    "$probe" "$kind" >"$work/answer"
    sweep "oom_probe of $kind" "$work/answer" 'oom_probe: memory' /dev/null "$probe" "$kind"
done
fewest=0

counted refuse-growth
