#!/usr/bin/env bash
# packaging.sh PROGRAM: installs the program and its pages into a folder and packs it, and looks at what came of both; the unit, the man
# pages and the completion through their own checkers, where those are there.
set -eu
cd "$(dirname "$0")/../.."
program=$(realpath "$1")
# shellcheck source=tests/lib/checks.sh
. tests/lib/checks.sh
silent() { # silent COMMAND..: it succeeds and says nothing
    "$@" > "$work/said" 2>&1 && [ ! -s "$work/said" ] || { cat "$work/said"; return 1; }
}
# what is packed, and documents and settings there
root=$work/root
documents=$root/usr/share/doc/pgsess
settings=$root/etc/pgsess
version=$(cat VERSION)
is_read() { # is_read SETTINGS: the program takes them: it ends at a seed that has no byte
    "$program" serve --ini "$1" --users "$settings/users.txt" --key-seed /dev/null 2>&1 | grep -qx 'pgsess: file /dev/null'
}

tools/deb.sh "$program" "$work" > /dev/null
dpkg-deb -x "$work"/pgsess_*_amd64.deb "$root"
check "the packed program is the built one" cmp "$program" "$root/usr/bin/pgsess"
check "it runs, and tells the version that VERSION names" test "$("$root/usr/bin/pgsess" --version)" = "pgsess $version"
check "the package has it too" test -e "$work/pgsess_${version}_amd64.deb"
check "and CHANGELOG.md" test "$(grep -m1 '^## ' CHANGELOG.md | cut -d' ' -f2)" = "$version"
check "its licence is packed" cmp packaging/debian/copyright "$documents/copyright"
check "PROVED.md names the kit of RATTLE_KIT" grep -qF "\`$(cat RATTLE_KIT)\`" docs/PROVED.md
check "settings and users are the service's alone" test "$(stat -c %a "$settings" "$settings/users.txt" | tr '\n' ' ')" = "750 640 "
check "the packed settings are read" is_read "$settings/pgsess.ini"
leads_nowhere() { # leads_nowhere FOLDER: the files that the documents packed there lead to and that aren't packed beside them
    (cd "$1" && grep -oh ']([^)#]*' *.md | sed 's/](//' | sort -u |
        while read -r file; do [ -z "$file" ] || [ -e "$file" ] || echo "$file"; done)
}
check "the packed documents lead to packed ones" silent leads_nowhere "$documents"
has_no_password() {
    ! grep -qE '^[[:blank:]]*"' "$settings/users.txt" && ! grep -rqF -e '"ann" "' -e '"root" "' "$root/etc" "$root/usr/share"
}
check "no file of the package has a known password" has_no_password
check "it depends on psql, which the unit calls" bash -c "dpkg-deb -f '$work'/pgsess_*_amd64.deb Depends | grep -q postgresql-client"
check "pgsess-run is packed" test -x "$root/usr/bin/pgsess-run"
check "and is bash" bash -n "$root/usr/bin/pgsess-run"
check "a release is made" tools/dist.sh "$program" "$work/dist"
check "its checksums are right" bash -c "cd '$work/dist' && sha256sum -c SHA256SUMS"
cp "$work/dist/SHA256SUMS" "$work/sums" || true
check "and the same again" bash -c "tools/dist.sh '$program' '$work/dist' > /dev/null && cmp '$work/sums' '$work/dist/SHA256SUMS'"
tar -C "$work" -xzf "$work"/dist/pgsess-*.tar.gz || true
check "the documents of its tar lead to packed ones" silent leads_nowhere "$work/pgsess-$version/share/doc/pgsess"
tar -xzOf "$work"/dist/pgsess-*.tar.gz --wildcards '*/BUILD' > "$work/build" || true
check "it names its version" grep -qx "version $version" "$work/build"
check "and its kit" grep -qx "kit $(cat RATTLE_KIT)" "$work/build"
lacking() { # what the image's file copies and isn't there
    sed -n 's/^COPY\( --chmod=755\)\? \(.*\) [^ ]*$/\2/p' packaging/Dockerfile | tr ' ' '\n' | grep -v ^build/ |
        while read -r it; do [ -e "$it" ] || echo "$it"; done
}
check "the image has what its file copies" silent lacking
check "each metric of the dashboard is one that is told" tests/lib/metrics.py packaging/grafana/pgsess.json
check "the dashboard is packed" cmp packaging/grafana/pgsess.json "$documents/examples/grafana.json"
if python3 -c 'import yaml' 2> /dev/null; then
    check "the manifest can be read" python3 -c 'import sys, yaml
kinds = [it["kind"] for it in yaml.safe_load_all(open(sys.argv[1]))]
sys.exit(kinds != ["ConfigMap", "Secret", "Service", "Deployment"])' packaging/kubernetes.yaml
fi
sed -n '/pgsess.ini: |/,/^---/p' packaging/kubernetes.yaml | sed -n 's/^    //p' > "$work/manifest.ini"
check "the manifest's settings are read" is_read "$work/manifest.ini"
for page in 1:pgsess 1:pgsess-run 5:pgsess.ini; do
    name=${page#*:}.${page%%:*}
    check "$name is packed" test -s "$root/usr/share/man/man${page%%:*}/$name.gz"
    if command -v mandoc > /dev/null; then
        check "mandoc has nothing to say of $name" silent mandoc -Tlint -Wwarning "man/$name"
    elif command -v man > /dev/null; then
        check "man has nothing to say of $name" \
            bash -c "! LC_ALL=C.UTF-8 man --warnings -E UTF-8 -l -Tutf8 -Z 'man/$name' 2>&1 > /dev/null | grep ."
    fi
done
if command -v systemd-analyze > /dev/null; then
    # its program stands elsewhere here, and its man page isn't installed
    sed -e "s#/usr/bin/pgsess#$program#; s#/usr/bin/psql#/bin/true#; /^Documentation=/d" packaging/pgsess.service > "$work/pgsess.service"
    check "systemd-analyze has nothing to say of the unit" silent systemd-analyze verify "$work/pgsess.service"
fi
completes() { # completes WANTED WORD.. : what the completion makes of the last of these words
    bash -c 'source packaging/pgsess.bash; wanted=$1; shift; COMP_WORDS=(pgsess "$@"); COMP_CWORD=$#; _pgsess
        [ "${COMPREPLY[*]}" = "$wanted" ]' bash "$@"
}
check "the completion knows the commands" completes "serve stub" s
check "and their options" completes "--port --catalogue --help" stub --
counted packaging
