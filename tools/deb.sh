#!/usr/bin/env bash
# deb.sh PROGRAM FOLDER: makes a Debian package of a built program, with pgsess-run, its unit, man pages, completion, examples and what
# operators read, in that folder. SOURCE_DATE_EPOCH, where it is set, is the time of all that is packed.
set -eu
program=$1 folder=$2
here=$(cd "$(dirname "$0")/.." && pwd)
version=$(cat "$here/VERSION")
tree=$(mktemp -d)
trap 'rm -rf "$tree"' EXIT
chmod 755 "$tree"
install -D -m 755 "$program" "$tree/usr/bin/pgsess"
install -m 755 "$here/packaging/pgsess-run" "$tree/usr/bin/pgsess-run"
install -D -m 644 "$here/packaging/pgsess.service" "$tree/lib/systemd/system/pgsess.service"
install -D -m 644 "$here/packaging/pgsess.bash" "$tree/usr/share/bash-completion/completions/pgsess"
for page in pgsess.1 pgsess-run.1 pgsess.ini.5; do
    install -d -m 755 "$tree/usr/share/man/man${page##*.}"
    gzip -9n < "$here/man/$page" > "$tree/usr/share/man/man${page##*.}/$page.gz"
    chmod 644 "$tree/usr/share/man/man${page##*.}/$page.gz"
done
install -D -m 644 "$here/examples/catalogue.tsv" "$tree/usr/share/doc/pgsess/examples/catalogue.tsv"
install -m 644 "$here"/packaging/recipes/*.c* "$tree/usr/share/doc/pgsess/examples/"
install -m 755 "$here/packaging/recipes/pgsess-users" "$tree/usr/share/doc/pgsess/examples/pgsess-users"
install -m 644 "$here/packaging/kubernetes.yaml" "$tree/usr/share/doc/pgsess/examples/kubernetes.yaml"
install -m 644 "$here/packaging/grafana/pgsess.json" "$tree/usr/share/doc/pgsess/examples/grafana.json"
install -m 644 "$here/packaging/debian/copyright" "$tree/usr/share/doc/pgsess/copyright"
for page in docs/OPERATING.md docs/MIGRATING.md docs/RECIPES.md docs/SPEED.md CHANGELOG.md; do
    install -m 644 "$here/$page" "$tree/usr/share/doc/pgsess/"
done
# secrets are the service's alone
install -d -m 750 "$tree/etc/pgsess"
install -m 640 "$here/examples/pgsess.ini" "$tree/etc/pgsess/pgsess.ini"
install -m 640 "$here/packaging/users.txt" "$tree/etc/pgsess/users.txt"
install -d -m 755 "$tree/DEBIAN"
sed "s/@VERSION@/$version/; s/@SIZE@/$(du -sk "$tree" | cut -f1)/" "$here/packaging/debian/control" > "$tree/DEBIAN/control"
install -m 755 "$here/packaging/debian/postinst" "$here/packaging/debian/prerm" "$here/packaging/debian/postrm" "$tree/DEBIAN/"
printf '%s\n' /etc/pgsess/pgsess.ini /etc/pgsess/users.txt > "$tree/DEBIAN/conffiles"
mkdir -p "$folder"
dpkg-deb --root-owner-group --build "$tree" "$folder/pgsess_${version}_amd64.deb" > /dev/null
echo "$folder/pgsess_${version}_amd64.deb is there"
