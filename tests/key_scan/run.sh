#!/usr/bin/env bash
# Looks at what calls in Rattle leave of a secret on the stack, as they are built for a processor: a
# key, the tag under it, and chaining words. docs/WIPING.md says what is wiped; a build in which a
# compiler has left out the zeros fails here, and so does a search that finds nothing where nothing
# is wiped.
#
# usage: tests/key_scan/run.sh [--cpu CPU]
#
# CPU is the current processor if it is left out: x86-64-v4 if it has AVX-512 and what belongs to
# it, x86-64-v3 if it has AVX2, x86-64-v2 otherwise. It builds the calls of calls.rt.txt, a crate in
# Rattle (`rt ci` accepts .rt files only in the crates of crates.txt), over the crates as `rt ci` or
# `rt check` has proved them, and links them to scan.c. It needs the toolchain's command rt, a C
# compiler and python3: if one is absent it is skipped. Over proved crates it takes about a minute.
#
# Each line reports, for one form of the call, how many pieces were found. A form that leaves more
# than the table in scan.c allows fails. Two forms leave copies on purpose, a MAC that is passed by
# value and a hasher that is dropped: there the search has to find pieces. The bytes that `settle`
# has to read are also placed across the end of a page that can't be read.
set -u
here=$(dirname "$(readlink -f "$0")")
source "$here/../tap.sh"
cpu=$("$top/tests/processor.sh")
[ "${1-}" != --cpu ] || cpu=${2-}
[[ $#,$cpu =~ ^[02],x86-64-v[234]$ ]] ||
    { echo "usage: tests/key_scan/run.sh [--cpu x86-64-v2|x86-64-v3|x86-64-v4]" >&2 && exit 2; }
for tool in rt cc python3; do
    has $tool || { skip "copies of a secret on the stack, by calls in Rattle" "no $tool"; finish; }
done
source "$top/tools/toolchain.sh"

# Builds the calls over what is proved. Crates that are not proved yet are proved first.
build_calls() {
    local toolchain rattle_cpu=$cpu
    toolchain=$(kit_folder)/toolchain
    if [ "$cpu" = x86-64-v4 ]; then
        rattle_cpu=x86-64-v3 toolchain=$work/toolchain
        make_v4_toolchain "$toolchain" x86_64_v4 || return
    fi
    prove_libraries blake2_state "$work/proofs" && mkdir -p "$work/src" && {
        cat "$here/calls.rt.txt"
        sed '1,/^\/\/ The forms/d;s/Blake2bMac512/Blake2sMac256/;s/Blake2b512/Blake2s256/;s/_b\([_(]\)/_s\1/;s/64/32/' \
            "$here/calls.rt.txt"
    } >"$work/src/lib.rt" &&
        build_crate "$work" keyed blake2 "$work" --crate-type staticlib --cpu "$rattle_cpu" \
            --toolchain "$toolchain" -o "$work/keyed.a"
}

# Builds and runs the search after a message of this many bytes. Without -z now the loader's first
# look-up of a name saves vector registers on the stack.
scan_after_message_length() {
    python3 "$here/secret_values.py" "$1" >"$work/secrets.h" &&
        cc -O1 -Wall -Wextra -Werror -march="$cpu" -fno-omit-frame-pointer -mno-red-zone \
            -Wl,-z,now -I"$work" -o "$work/scan" "$here/scan.c" "$work/keyed.a" && "$work/scan"
}

check "the build of tests/key_scan/calls.rt.txt for $cpu" build_calls || finish
for length in 0 64 1000; do
    scan_after_message_length "$length" >"$work/lines" 2>&1
    status=$?
    [ "$(wc -l <"$work/lines")" -eq 11 ] || fail "11 lines, and status $status" "$work/lines"
    while IFS= read -r line; do
        case $line in
            "passed: "*) pass "$cpu, ${line#*: }" ;;
            *) fail "$cpu, ${line#*: }" ;;
        esac
    done <"$work/lines"
done
finish
