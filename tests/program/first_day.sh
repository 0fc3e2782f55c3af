#!/usr/bin/env bash
# first_day.sh: what somebody meets who has just taken the repository: make's help, the kit's version, and how a proof is told of. A
# stand-in for `rt` proves nothing and says what the real one would.
set -eu
cd "$(dirname "$0")/../.."
# shellcheck source=tests/lib/checks.sh
. tests/lib/checks.sh
said() { # said WORDS: the last command that was checked said them
    mv "$work/out" "$work/said"
    check "it says '$1'" grep -qF "$1" "$work/said"
}
# a stand-in for rt: KIT_SAYS is its version; `ci` and `try` say SAYS of each crate
mkdir "$work/bin"
cat > "$work/bin/rt" << 'RT'
#!/usr/bin/env bash
case $1 in
    version) echo "$KIT_SAYS" ;;
    fmt) echo "${LAYOUT:-}" ;;
    try) [ "${SAYS:-proved}" = proved ] ;;
    ci)
        [ ! -e must-fail ] && [ -d .git ] && [ -s HANDLES ] || exit 2
        for it in $(sed 's/[: ].*//' crates.txt); do
            [ ! -e "crates/$it/must-fail" ] && [ ! -e "crates/$it/wrong" ] || exit 2
            mkdir -p "crates/$it/out"
            echo "rt: $it ${SAYS:-proved}"
            echo "$it, jobs $RT_JOBS" > "crates/$it/out/$it"
        done
        [ "${SAYS:-proved}" = proved ] ;;
esac
RT
chmod +x "$work/bin/rt"
stood_in() { KIT_SAYS=$(cat RATTLE_KIT) PATH="$work/bin:$PATH" "$@"; }
other_kit() { KIT_SAYS="another kit" PATH="$work/bin:$PATH" "$@"; }
refused() { ! "$@"; }

make --no-print-directory > "$work/help"
check "make alone prints its help" grep -q "what make does" "$work/help"
for target in $(sed -n 's/^\.PHONY: //p' Makefile); do
    case $target in help | gate) continue ;; esac
    check "the help names make $target" grep -q "^  make $target  " "$work/help"
done
check "this kit is taken without a word" stood_in bash -c '[ -z "$(tools/kit.sh 2>&1)" ]'
check "another is refused" refused other_kit tools/kit.sh
check "in words that name both" other_kit \
    bash -c 'tools/kit.sh 2>&1 | grep -qF "$(cat RATTLE_KIT)" && tools/kit.sh 2>&1 | grep -q "another kit"'
check "with any it is told of and taken" other_kit bash -c 'tools/kit.sh any 2>&1 | grep -q "another kit" && tools/kit.sh any'
no_kit() { # with no rt in the path: the shell's own programs alone
    mkdir -p "$work/none"
    ln -sf "$(command -v cat)" "$(command -v dirname)" "$work/none/"
    PATH="$work/none" /bin/sh tools/kit.sh any
}
check "no kit is refused" refused no_kit

# a copy, whose programs are not those of this tree; with all crates and pages that the table of the settings is compared with
mkdir "$work/copy"
mapfile -t settings < <(tools/settings.py --list | sed 's#^\(crates/[^/]*\)/.*#\1#' | sort -u)
find crates.txt HANDLES RATTLE_KIT tools crates/frame_view crates/message_view crates/view_dump "${settings[@]}" \
    -name out -prune -o -name __pycache__ -prune -o -type f -print | tar -c -T - | tar -x -C "$work/copy"
check "a proof takes the crates below alone, without their edits" stood_in env RT_JOBS=3 "$work/copy/tools/prove.py" view_dump
said "2 of 3: message_view proved"
check "the program is there, proved by as many jobs as were asked for" \
    grep -qx "view_dump, jobs 3" "$work/copy/crates/view_dump/out/view_dump"
check "what the prover said is kept" grep -q "rt: frame_view proved" "$work/copy/build/proof_view_dump.log"
check "what isn't proved fails" refused stood_in env SAYS="NOT PROVED" "$work/copy/tools/prove.py" frame_view
said "prove: NOT PROVED"
check "make quick passes, a line for each crate" stood_in "$work/copy/tools/quick.py" message_view frame_view
said "quick: 7 passed, 0 failed; nothing is proved"
check "a test that fails is told" refused stood_in env SAYS=no "$work/copy/tools/quick.py" frame_view
check "so is a file out of its layout" refused stood_in env LAYOUT="rt: formatted src/lib.rt" "$work/copy/tools/quick.py" frame_view
quoting=$(find "$work/copy/crates" -path '*/wrong/*.edit' | sort | head -n 1)
cp "$quoting" "$work/quoting"
sed -i 's/^old: /old: no line says this: /' "$quoting"
check "so is a wrong version that quotes a line which isn't there" refused stood_in "$work/copy/tools/quick.py" frame_view
said "1 wrong versions can't be made"
cp "$work/quoting" "$quoting"
sed -i 's/^listen_port = 6432$/listen_port = 6433/' "$work/copy/examples/pgsess.ini"
check "and a page that doesn't say what the table of the settings does" refused stood_in "$work/copy/tools/quick.py" frame_view
said "by the table: listen_port = 6432"
check "which is written" "$work/copy/tools/settings.py" --write
check "and then says it" cmp examples/pgsess.ini "$work/copy/examples/pgsess.ini"
# a prover that takes a second of processor time for a crate, and refuses it
cat > "$work/bin/prover" << 'PROVER'
#!/usr/bin/env bash
python3 -c 'import time
while time.process_time() < 1.6: pass' --crate-name "$1"
echo "0 passed, 1 failed"
exit 3
PROVER
chmod +x "$work/bin/prover"
status_of() { local status=0; "$@" || status=$?; echo "status $status"; }
check "the gate's lines come first" bash -c "tools/times.py '$work/bin/prover' slow_crate | head -1 | grep -qx '0 passed, 1 failed'"
check "what a crate took is told" status_of tools/times.py "$work/bin/prover" slow_crate
said "s  slow_crate"
check "the status is the command's" grep -qx "status 3" "$work/said"
counted first_day
