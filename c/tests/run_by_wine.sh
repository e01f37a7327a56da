#!/usr/bin/env bash
# Runs a program for Windows by the wine that WINE names, for windows.sh and tools/release.sh:
#
#   c/tests/run_by_wine.sh PROGRAM [ARGUMENTS..]
#
# A run that wine itself ends, which only lines of wine's own on standard error say, is made again,
# three times in all. Its lines are added to the file WINE_LOG. All that a program prints, and its
# status, are passed on as they are.
#
# One start in about 3,000 would end because the system had put the heap at an address that wine needs.
# So addresses are not random where that can be had. Where it cannot, wine says so only if WINEDEBUG
# has err+virtual.
set -u
folder=$(mktemp -d) && trap 'rm -rf "$folder"' EXIT || exit 125
input=$folder/input
cat >"$input" 2>/dev/null || input= # a folder, which no program can read

fixed="setarch --addr-no-randomize"
$fixed true 2>/dev/null || fixed=

run_with_wine() { $fixed "$WINE" "$@" >"$folder/output" 2>"$folder/errors"; }

# Whether standard error has lines of wine's own, and no other.
own='^(wine client error:|wineserver: |err:virtual:virtual_alloc_first_teb )'
wine_failed() {
    [ -s "$folder/errors" ] && ! grep -qvE "$own" "$folder/errors"
}

for _ in 1 2 3; do
    if [ -n "$input" ]; then run_with_wine "$@" <"$input"; else run_with_wine "$@"; fi
    status=$?
    [ $status -ne 0 ] && wine_failed || break
    cat "$folder/errors" >>"$WINE_LOG"
done
cat "$folder/output"
cat "$folder/errors" >&2
exit $status
