#!/usr/bin/env bash
# Tests that no compiler warns of the headers, nor of programs that a peer's header lets pass: quiet.c, by standards of
# C and C++ and degrees of optimization, each of them in the full test.
source "$(dirname "$(readlink -f "$0")")/common.sh"

# The words of a standard: those of C begin at C89, which only GCC and Clang have with stdint.h.
c_words=(c89:-O2 c99:-O3)
cpp_words=(c++11:-O1)
if [ -n "${VULFSJOR_TEST_HUGE-}" ]; then
    c_words=({c89,iso9899:199409,gnu89,c99,gnu99,c11,c17,c2x,gnu2x}:-O{0,1,2,3})
    cpp_words=({c++98,c++11,c++14,c++17,c++20,c++2b}:-O{0,1,2,3})
fi

# All that quiet.c is, in a compiler's words: COMPILER LANGUAGE WORDS..
compiles_without_warnings() {
    local each names only=-c
    # Clang has warned of all before it optimizes.
    [[ $1 != clang* ]] || [ -n "${VULFSJOR_TEST_HUGE-}" ] || only=-fsyntax-only
    for each in "${@:3}"; do
        for names in "" -DLIBB2 -DREFERENCE; do
            "$1" -x "$2" "-std=${each%:-*}" "${each##*:}" -Wall -Wextra -pedantic-errors -Werror -I"$include" $names \
                $only "$tests/quiet.c" -o "$work/quiet.o" || { echo "$1 $each $names" && return 1; }
        done
    done
}

# A status of vulfsjor.h that is not used is warned of, without a word for the compiler, and so is no other: COMPILER
unused_status_is_warned_of() {
    local call
    for call in 'vulfsjor.h vulfsjor_' 'vulfsjor-reference/blake2.h ' 'vulfsjor-libb2/blake2.h '; do
        printf '%s\n' "#include <${call% *}>" 'int main(void) {' "${call#* }blake2b_state state;" \
            "${call#* }blake2b_init(&state, 64);" "${call#* }blake2b_update(&state, 0, 0);" 'return 0; }' \
            >"$work/unused.c"
        "$1" -I"$include" -Werror -c "$work/unused.c" -o "$work/unused.o" 2>"$work/said"
        [ $(($? == 0)) -ne $([[ $call == vulfsjor.h* ]] && echo 1 || echo 0) ] || return
        [[ $call != vulfsjor.h* ]] || [ "$(grep -c 'error: .*unused-result' "$work/said")" -eq 1 ] || return
    done
}

# What the programs print is the same by each compiler.
programs_print_the_same() {
    local names compiler
    for names in "" -DLIBB2 -DREFERENCE; do
        for compiler in gcc clang; do
            ! has $compiler || { $compiler -std=gnu99 -O2 -I"$include" $names "$tests/quiet.c" \
                "$prefix/lib/libvulfsjor-threads.a" "$archive" -pthread -o "$work/quiet" &&
                "$work/quiet" "some words" >>"$work/printed$names" && echo >>"$work/printed$names"; } || return
        done
        [ "$(sort -u "$work/printed$names" | grep -c .)" -eq 1 ] || return
    done
    # libb2's names and the reference code's have the same digests.
    [ "$(head -c 24 "$work/printed-DLIBB2")" = "$(head -c 24 "$work/printed-DREFERENCE")" ]
}

test_compiler_warnings() {
    needs gcc
    check "gcc is quiet" compiles_without_warnings gcc c "${c_words[@]}"
    check "gcc warns of a status that is not used" unused_status_is_warned_of gcc
    needs clang
    check "clang is quiet" compiles_without_warnings clang c "${c_words[@]}"
    check "clang warns of a status that is not used" unused_status_is_warned_of clang
    needs g++
    check "g++ is quiet" compiles_without_warnings g++ c++ "${cpp_words[@]}"
    needs clang++
    check "clang++ is quiet" compiles_without_warnings clang++ c++ "${cpp_words[@]}"
    needs
    check "the programs print the same digests" programs_print_the_same
}

run_part_of_tests test_compiler_warnings
