#!/bin/bash
# cli.sh [PROGRAM]: the command line of the built program: each fault of the line, of a file and of a standard stream, with its status and
# its exact line.
set -u
cd "$(dirname "$0")/../.." || exit 1
program=$(realpath "${1:-crates/pgsess/out/pgsess}") || exit 1
here=$PWD
# shellcheck source=tests/lib/checks.sh
. tests/lib/checks.sh
cd "$work" || exit 1

# ends NAME STATUS LINE WORD.. : the program ends so, with this line on standard error and nothing on standard output
ends() {
    local name=$1 status=$2 line=$3 got
    shift 3
    "$program" "$@" >out.txt 2>err.txt </dev/null
    got=$?
    result "$name: status" "$status" "$got"
    result "$name: standard error" "$line" "$(cat err.txt)"
    result "$name: lines" "$([ -n "$line" ] && echo 1 || echo 0)" "$(wc -l <err.txt)"
    result "$name: standard output" 0 "$(wc -c <out.txt)"
}

# says NAME STATUS STREAM OTHER TEXT WORD.. : the program ends so, with TEXT on one standard stream, out or err, and nothing on the other
says() {
    local name=$1 status=$2 stream=$3 other=$4 text=$5 got
    shift 5
    "$program" "$@" >out.txt 2>err.txt </dev/null
    got=$?
    result "$name: status" "$status" "$got"
    result "$name: bytes in $other.txt" 0 "$(wc -c <"$other.txt")"
    grep -qF -- "$text" "$stream.txt"
    result "$name: has '$text'" 0 $?
}

# refused NAME TEXT WORD.. : a fault of the command line, whose text has TEXT
refused() { says "$1" 2 err out "${@:2}"; }

# helped NAME TEXT WORD.. : help, or the version
helped() { says "$1" 0 out err "${@:2}"; }

# ---- the command line

helped help 'Commands:' --help
helped help 'replay  ' --help
helped 'short help' 'Usage: pgsess <COMMAND>' -h
helped 'help of serve' 'Example: pgsess serve --ini pgsess.ini --users users.txt' serve --help
helped 'help of check' 'Example: pgsess check --ini pgsess.ini --users users.txt' check --help
helped 'help of stub' 'Example: pgsess stub --port 5432 --catalogue catalogue.tsv' stub --help
helped 'help of replay' 'Example: pgsess replay' replay --help
helped 'help subcommand' 'Commands:' help
helped 'faults of settings in the help' '  C6  server_reset_query' serve --help
helped 'faults of users in the help' '  U2  a name for the second time' help serve
helped 'faults of catalogues in the help' '  K3  a row with more or fewer values' stub --help
helped 'faults of streams in the help' '  pgsess: stdout  standard output is closed or full' replay --help
helped version 'pgsess 1.1' --version
result 'version: all of it' 'pgsess 1.1' "$(cat out.txt)"
refused 'no subcommand' "error: 'pgsess' requires a subcommand but one was not provided"
refused 'unknown subcommand' "error: unrecognized subcommand 'bogus'" bogus
refused 'unknown option' "error: unexpected argument '--bogus' found" --bogus
refused 'no version of a subcommand' "error: unexpected argument '--version' found" replay --version
refused 'a word that is not UTF-8' "error: a word of the command line isn't UTF-8" replay "$(printf '\377')"
ends 'a path that is not UTF-8' 2 "error: a word of the command line isn't UTF-8" serve --ini "$(printf 'a\377')" --users u --key-seed k
refused 'a word too many' "error: unexpected argument 'x' found" replay x
refused 'no ini' '--ini <FILE>' serve --users u --key-seed k
refused 'no ini of a check' '--ini <FILE>' check --users u
refused 'no seed of a check' "error: unexpected argument '--key-seed' found" check --ini i --key-seed k
refused 'a seed without a value' '--key-seed <FILE>' serve --ini i --users u --key-seed
refused 'ini twice' 'cannot be used multiple times' serve --ini a --ini b --users u --key-seed k
refused 'ini without a value' '--ini <FILE>' serve --users u --key-seed k --ini
refused 'port 0' "error: invalid value '0' for '--port <N>': 0 is not in 1..=65535" stub --port 0 --catalogue c
refused 'port 65536' "error: invalid value '65536' for '--port <N>': 65536 is not in 1..=65535" stub --port 65536 --catalogue c
refused 'port x' "error: invalid value 'x' for '--port <N>'" stub --port x --catalogue c
refused 'no port' '--port <N>' stub --catalogue c
refused 'no catalogue' '--catalogue <FILE>' stub --port 5432

# ---- files that can't be read, and their order

printf '[databases]\nshop = host=127.0.0.1\n' >good.ini
printf '"ann" "secret"\n' >good.txt
head -c 32 /dev/zero >good.bin
head -c 31 /dev/zero >short.bin
head -c 33 /dev/zero >long.bin
: >empty
printf '[pgbouncer]\nbogus = 1\n' >bad.ini
printf 'bogus\n' >bad.txt
mkdir folder
{
    head -c 16777215 /dev/zero | tr '\0' ';'
    echo
} >largest
cp largest too_long
echo >>too_long

serve() {
    local name=$1 status=$2 line=$3
    shift 3
    ends "$name" "$status" "$line" serve --ini "$1" --users "$2" --key-seed "$3"
}

# a port of this machine that is free
free_port() {
    python3 -c 'import socket; s = socket.socket(); s.bind(("127.0.0.1", 0)); print(s.getsockname()[1])'
}

# listens NAME LINE PORT WORD.. : the program says this line on standard output, and the same to its log on standard error (none:
# nothing on both), can be reached at the port, and runs until it is told to end
listens() {
    local name=$1 line=$2 port=$3 process reached=1
    shift 3
    "$program" "$@" >out.txt 2>err.txt </dev/null &
    process=$!
    for _ in {1..100}; do
        if (: <>"/dev/tcp/127.0.0.1/$port") 2>/dev/null; then
            reached=0
            break
        fi
        sleep 0.05
    done
    result "$name: reached" 0 "$reached"
    result "$name: standard output" "$line" "$(cat out.txt)"
    result "$name: standard error" "${line:+pgsess: $line}" "$(cat err.txt)"
    kill -TERM "$process"
    wait "$process" 2>/dev/null
    result "$name: told to end" 143 $?
}

port=$(free_port)
printf '[databases]\nshop = host=127.0.0.1\n[pgbouncer]\nlisten_port = %s\n' "$port" >listens.ini
printf '[pgbouncer]\nlisten_addr = *\nlisten_port = %s\n' "$port" >everywhere.ini
sed "s/^listen_port = .*/listen_port = $port/" "$here/examples/pgsess.ini" >example.ini
printf '[pgbouncer]\nlisten_port = %s\n' "$port" | cat - largest | head -c 16777215 >large.ini
echo >>large.ini
listens 'good files' "listening 127.0.0.1 $port" "$port" serve --ini listens.ini --users good.txt --key-seed good.bin
listens 'no seed' "listening 127.0.0.1 $port" "$port" serve --ini listens.ini --users good.txt
listens 'no users' "listening 127.0.0.1 $port" "$port" serve --ini listens.ini --users empty --key-seed good.bin
listens 'all addresses' "listening 0.0.0.0 $port" "$port" serve --ini everywhere.ini --users good.txt --key-seed good.bin
listens 'the example' "listening 127.0.0.1 $port" "$port" serve --ini example.ini --users "$here/examples/users.txt" --key-seed good.bin
listens 'the largest file' "listening 127.0.0.1 $port" "$port" serve --ini large.ini --users good.txt --key-seed good.bin
listens 'stub' '' "$port" stub --port "$port" --catalogue "$here/examples/catalogue.tsv"

# while another listens there
hold "$port"
serve 'a port that is taken' 3 "pgsess: port $port" listens.ini good.txt good.bin
ends 'a port of the stub that is taken' 3 "pgsess: port $port" stub --port "$port" --catalogue "$here/examples/catalogue.tsv"
serve 'a fault of a file before the port' 1 'pgsess: file nowhere.bin' listens.ini good.txt nowhere.bin
release

serve 'no ini file' 1 'pgsess: file nowhere.ini' nowhere.ini nowhere.txt nowhere.bin
serve 'no user file' 1 'pgsess: file nowhere.txt' good.ini nowhere.txt nowhere.bin
ends 'nobody names a user file' 2 'pgsess: no user file' serve --ini good.ini --key-seed good.bin
ends 'no settings to check' 1 'pgsess: file nowhere.ini' check --ini nowhere.ini --users good.txt
serve 'no seed file' 1 'pgsess: file nowhere.bin' good.ini good.txt nowhere.bin
serve 'ini text before the user file' 1 'pgsess: C2 line 2' bad.ini nowhere.txt nowhere.bin
serve 'user text before the seed' 1 'pgsess: U1 line 1' good.ini bad.txt nowhere.bin
serve 'a folder' 1 'pgsess: file folder' folder good.txt good.bin
serve 'the empty path' 1 'pgsess: file ' '' good.txt good.bin
serve 'a path with spaces' 1 'pgsess: file no where' 'no where' good.txt good.bin
serve 'a seed of 31 bytes' 1 'pgsess: file short.bin' good.ini good.txt short.bin
serve 'a seed of 33 bytes' 1 'pgsess: file long.bin' good.ini good.txt long.bin
serve 'an empty seed' 1 'pgsess: file empty' good.ini good.txt empty
serve 'a file that is too long' 1 'pgsess: file too_long' too_long good.txt good.bin
serve 'a user file that is too long' 1 'pgsess: file too_long' good.ini too_long good.bin
ends 'no catalogue file' 1 'pgsess: file nowhere.tsv' stub --port 5432 --catalogue nowhere.tsv
ends 'a catalogue that is too long' 1 'pgsess: file too_long' stub --port 65535 --catalogue too_long

# ---- faults of texts

ini() {
    printf '%b' "$3" >fault.ini
    serve "$1" 1 "pgsess: $2" fault.ini good.txt good.bin
}

users() {
    printf '%b' "$3" >fault.txt
    serve "$1" 1 "pgsess: $2" good.ini fault.txt good.bin
}

ini 'unknown section' 'C1 line 2' '; c\n[PgBouncer]\n'
ini 'line in users' 'C1 line 2' '[users]\nann = x\n'
ini 'unknown key' 'C2 line 3' '[pgbouncer]\r\n\r\nauth_query = x\r\n'
ini 'bad value' 'C3 line 2' '[pgbouncer]\nlisten_port = 70000\n'
ini 'bad row' 'C3 line 2' '[databases]\nshop = port=5432\n'
ini 'key twice' 'C4 line 3' '[pgbouncer]\nlisten_port = 1\nlisten_port = 2\n'
ini 'C3 before C4' 'C3 line 3' '[pgbouncer]\nlisten_port = 1\nlisten_port = 0\n'
ini 'another pool mode' 'C5 line 2' '[pgbouncer]\npool_mode = transaction\n'
ini 'another reset query' 'C6 line 2' '[pgbouncer]\nserver_reset_query = RESET ALL\n'
ini 'include' 'C7 line 1' '%%include x\n'
ini 'the first faulty line' 'C7 line 2' '[pgbouncer]\nx\npool_mode = statement\n'
users 'bad quoting' 'U1 line 2' '"x" "y"\n"a" "b\n'
users 'empty name' 'U1 line 1' '"" "b"\n'
users 'name twice' 'U2 line 4' '"a" "x"\n\n; c\n"a" "y"\n'

# ---- standard streams

# an SSLRequest, which is answered by one byte
request='\0\0\0\10\4\322\26\57'
answered=$(printf "$request" | "$program" replay 2>err.txt | wc -c)
result 'a request: answer' 1 "$answered"
result 'a request: standard error' 0 "$(wc -c <err.txt)"
ends 'empty input' 0 '' replay
head -c 16777216 /dev/zero | "$program" replay >out.txt 2>err.txt
result 'largest input: status' 0 $?
result 'largest input: standard error' 0 "$(wc -c <err.txt)"
result 'largest input: standard output' 53 "$(wc -c <out.txt)"
head -c 16777217 /dev/zero | "$program" replay >out.txt 2>err.txt
result 'oversized input: status' 1 $?
result 'oversized input' 'pgsess: stdin' "$(cat err.txt)"
result 'oversized input: standard output' 0 "$(wc -c <out.txt)"
"$program" replay >out.txt 2>err.txt <&-
result 'closed input: status' 1 $?
result 'closed input' 'pgsess: stdin' "$(cat err.txt)"
result 'closed input: standard output' 0 "$(wc -c <out.txt)"
printf "$request" | "$program" replay 2>err.txt >/dev/full
result 'full output: status' 1 $?
result 'full output' 'pgsess: stdout' "$(cat err.txt)"
printf "$request" | "$program" replay 2>err.txt >&-
result 'closed output: status' 1 $?
result 'closed output' 'pgsess: stdout' "$(cat err.txt)"
"$program" --help >/dev/full 2>err.txt
result 'help on a full output: status' 0 $?

counted cli
