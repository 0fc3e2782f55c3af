#!/bin/sh
# kit.sh [any]: compares the Rattle kit in the path with the one that this version was proved with, which RATTLE_KIT names. Another is
# refused in words; with `any` it is only told.
set -eu
wanted=$(cat "$(dirname "$0")/../RATTLE_KIT")
if ! command -v rt > /dev/null; then
    echo "rt isn't in PATH: the Rattle kit builds and proves pgsess, and README says what is known of where to get it" >&2
    exit 1
fi
found=$(rt version)
[ "$found" != "$wanted" ] || exit 0
echo "this version of pgsess was proved with '$wanted', and the kit in the path is '$found'" >&2
[ "${1:-}" != any ] || exit 0
echo "Another kit may refuse proofs that hold, and what it accepts wasn't looked at." \
    "Put that kit first in PATH, or try this one: make KIT=any .." >&2
exit 1
