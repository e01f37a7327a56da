#!/usr/bin/env bash
# Prints each must-fail edit of a repository that `rt ci` has not refused, and what it said of it:
#
#   tests/edits.sh FILE [FOLDER]
#
# FILE has what `rt ci` printed, and FOLDER is the repository, otherwise this one. An edit that cannot be applied or
# compiled fails nothing in `rt ci`, and shows nothing. One that is refused only because a proof names what it took away
# shows little of a contract. The status is 1 if there is one of these, or no edit.
set -u
said=$(readlink -f "$1") && [ -r "$said" ] || { echo "edits.sh: no file $1" >&2 && exit 2; }
cd "${2:-$(dirname "$(readlink -f "$0")")/..}/crates" || exit
edits=$(find ./*/must-fail -type f ! -name '*.md' | sed 's|^\./||;s|/must-fail/|/|' | sort)
refused=$(sed -nE 's/^rt: must-fail ([^ ]+): refused, as it must be($|: .*| \(only by a limit .*)/\1/p' "$said" |
    sort)
wrong=$(comm -23 <(echo "$edits") <(echo "$refused"))
[ -n "$edits" ] || wrong="there is no must-fail edit"
[ -n "$wrong" ] || exit 0
while IFS= read -r edit; do
    grep -A 1 -F "must-fail $edit: " "$said" || echo "rt ci has not refused $edit"
done <<<"$wrong"
exit 1
