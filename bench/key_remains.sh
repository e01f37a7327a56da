#!/usr/bin/env bash
# Prints what keyed calls leave on the stack, as a table, from which docs/WIPING.md quotes: for each
# call the pieces of the key that bench/key_remains.c finds, and the instructions that callgrind
# counts, first without the zeros of `scrub_stack`, then with them. Other numbers go to standard
# error. Needs valgrind and a processor that runs x86-64-v3, and takes about a minute.
#
# Callgrind counts an instruction that repeats once for each byte. So the C library sets memory by a
# loop here.
set -euo pipefail
top=$(dirname "$(dirname "$(readlink -f "$0")")")
work=$(mktemp -d)
trap 'rm -rf "$work"' EXIT
export GLIBC_TUNABLES=glibc.cpu.x86_rep_stosb_threshold=100000000

# The text of dist/ with a return at the beginning of each scrub_stack.
cp -r "$top/dist" "$work/dist"
for text in x86_64/vulfsjor-v{2,3}.s; do
    sed -i '/^\tvj_function\tblake2_digest\.\.wiping\.\.scrub_stack\.\./a\	retq' "$work/dist/$text"
    ! cmp -s "$top/dist/$text" "$work/dist/$text" || { echo "$0: no scrub_stack in dist/$text" >&2; exit 1; }
done

# The program of a family, for a level, without the zeros or with them: FAMILY LEVEL FROM.
build_measuring_program() {
    local words=(-std=gnu99 -O2 -Wl,-z,now)
    [ "$1" = b ] || words+=(-DTEST_S)
    "$top/c/install.sh" --cpu "x86-64-$2" --from "$3" "$work/installed" >/dev/null
    cc "${words[@]}" -I"$work/installed/include" "$top/bench/key_remains.c" \
        "$work/installed/lib/libvulfsjor.a" -o "$work/key_remains"
}

# Prints for each call: its number, its name, its pieces and its instructions.
measure_each_call() {
    local number name pieces
    "$work/key_remains" | while IFS='|' read -r number name pieces; do
        rm -f "$work"/count*
        valgrind --tool=callgrind --toggle-collect=counted --callgrind-out-file="$work/count" \
            "$work/key_remains" "$number" >"$work/log" 2>&1
        printf '%s|%s|%s|%s\n' "$number" "$name" "$pieces" "$(sed -n 's/^totals: //p' "$work/count")"
    done
}

for family in b s; do
    for level in v3 v2; do
        for from in "$work/dist" "$top/dist"; do
            build_measuring_program $family $level "$from"
            measure_each_call >"$work/$family-$level-$([ "$from" = "$work/dist" ] && echo without || echo with)"
            [ "$from" = "$top/dist" ] || echo "BLAKE2$family, $level, most pieces without the zeros," \
                "a hash in one call and .._many: $("$work/key_remains" most)" >&2
        done
    done
done
echo '| call | pieces, v3 | instructions, v3 | pieces, v2 | instructions, v2 |'
echo '|---|---|---|---|---|'
for family in b s; do
    paste -d '|' "$work/$family"-v{3,2}-{without,with} | awk -F '|' -v family=$family '
        function grouped(n) { return n < 1000 ? n : int(n / 1000) "," sprintf("%03d", n % 1000) }
        $2 ~ /one byte/ { print $2 ": " $4 ", " $12 >"/dev/stderr"; next }
        { printf "| BLAKE2%s, %s | %s, %s | %s, %s | %s, %s | %s, %s |\n", family, $2, $3, $7,
                 grouped($4), grouped($8), $11, $15, grouped($12), grouped($16) }'
done
