#!/usr/bin/env bash
# dist.sh PROGRAM FOLDER: makes a release of a built program in that folder: the Debian package, a tar of the program, pgsess-run, man
# pages, unit and completion, and the checksums of both. Two runs over the same program and commit make the same bytes.
set -eu
program=$1 folder=$2
here=$(cd "$(dirname "$0")/.." && pwd)
version=$(cat "$here/VERSION")
commit=$(git -C "$here" rev-parse HEAD 2> /dev/null || echo unknown)
[ "$commit" = unknown ] || git -C "$here" diff --quiet HEAD || commit="$commit, changed since"
SOURCE_DATE_EPOCH=$(git -C "$here" log -1 --format=%ct 2> /dev/null || stat -c %Y "$here/CHANGELOG.md")
export SOURCE_DATE_EPOCH
name=pgsess-$version
work=$(mktemp -d)
trap 'rm -rf "$work"' EXIT
mkdir -p "$folder"
rm -f "$folder"/pgsess_*.deb "$folder"/pgsess-*.tar.gz "$folder/SHA256SUMS"
"$here/tools/deb.sh" "$program" "$folder" > /dev/null
tree=$work/$name
install -D -m 755 "$program" "$tree/bin/pgsess"
install -m 755 "$here/packaging/pgsess-run" "$tree/bin/pgsess-run"
install -D -m 644 -t "$tree/share/man/man1" "$here/man/pgsess.1" "$here/man/pgsess-run.1"
install -D -m 644 -t "$tree/share/man/man5" "$here/man/pgsess.ini.5"
install -D -m 644 -t "$tree/share/bash-completion/completions" "$here/packaging/pgsess.bash"
mv "$tree/share/bash-completion/completions/pgsess.bash" "$tree/share/bash-completion/completions/pgsess"
install -D -m 644 -t "$tree/lib/systemd/system" "$here/packaging/pgsess.service"
install -D -m 644 -t "$tree/share/doc/pgsess" "$here/LICENSE" "$here/SECURITY.md" "$here/CHANGELOG.md" "$here/docs/OPERATING.md" \
    "$here/docs/MIGRATING.md" "$here/docs/RECIPES.md" "$here/packaging/debian/copyright"
install -D -t "$tree/share/doc/pgsess/examples" "$here"/packaging/recipes/*
install -m 644 "$here/packaging/grafana/pgsess.json" "$tree/share/doc/pgsess/examples/grafana.json"
install -m 644 "$here/examples/pgsess.ini" "$here/packaging/users.txt" "$tree/share/doc/pgsess/"
# SECURITY.md leads to pages of the repository: two of them stand beside it here, and of a link to another one its words are left
sed 's#](docs/\(OPERATING\|MIGRATING\)\.md)#](\1.md)#g; s#\[\([^]]*\)\](docs/[^)]*)#\1#g' "$here/SECURITY.md" > "$work/SECURITY.md"
install -m 644 "$work/SECURITY.md" "$here/docs/SPEED.md" "$tree/share/doc/pgsess/"
printf 'version %s\ncommit %s\nkit %s\n' "$version" "$commit" "$(cat "$here/RATTLE_KIT")" > "$tree/BUILD"
tar -C "$work" --sort=name --owner=0 --group=0 --numeric-owner --mtime="@$SOURCE_DATE_EPOCH" -c "$name" |
    gzip -9n > "$folder/$name-linux-amd64.tar.gz"
(cd "$folder" && sha256sum pgsess_*.deb pgsess-*.tar.gz > SHA256SUMS && echo "in $folder:" && cat SHA256SUMS)
