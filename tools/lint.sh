#!/bin/bash
# lint.sh: pyflakes, shellcheck and a look at the length of lines, over all programs in Python, in C and for a shell that are there; of a
# linter that isn't installed that is said
cd "$(dirname "$0")/.." || exit 1
folders=()
for folder in tests tools shows bench packaging .ci; do
    [ -d "$folder" ] && folders+=("$folder")
done
python=(-name '*.py' -o -path tests/run)
shell=(-name '*.sh' -o -name pgsess-run -o -name pgsess-users -o -path .ci/run -o -path 'packaging/debian/p*')
status=0
if command -v pyflakes3 > /dev/null; then
    find "${folders[@]}" \( "${python[@]}" \) -exec pyflakes3 {} + || status=1
else
    echo "lint: no pyflakes3 (Debian's pyflakes3)"
fi
if command -v shellcheck > /dev/null; then
    find "${folders[@]}" -type f \( "${shell[@]}" \) -exec shellcheck -x -S warning {} + || status=1
else
    echo "lint: no shellcheck (Debian's shellcheck)"
fi
find "${folders[@]}" -type f \( "${python[@]}" -o "${shell[@]}" -o -name '*.[ch]' \) -exec awk '
    length($0) > 140 { print FILENAME ":" FNR ": " length($0) " characters, of at most 140"; found = 1 }
    END { exit found }' {} + || status=1
exit $status
