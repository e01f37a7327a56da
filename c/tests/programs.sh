#!/usr/bin/env bash
# Tests the C of the programs b2 and b2sum, function by function. The whole programs are run by
# tests/b2_program.py and tests/compare_coreutils.py.
source "$(dirname "$(readlink -f "$0")")/common.sh"

# The tests that include ../b2.c, with these arguments for the compiler.
b2_c_functions_work() {
    cc -O0 -g "${warnings[@]}" "$tests/b2.c" -DCHOOSE_ONE=v2 -o "$work/program" "$@" || return
    timeout 60 "$work/program" one "two words" ""
    [ $? -eq 7 ]
}

# The tests that include ../b2sum.c.
b2sum_c_functions_work() {
    cc -O2 -g "${warnings[@]}" -D{ABSORB_TREE=absorb,PROVED_TREE=proved}.tree -DHIDE_MEMORY=hide.memory \
        -DSHOW_PROGRESS=show.progress -I"$include" "$tests/b2sum.c" "$archive" -o "$work/sums" "$@" &&
        rm -rf "$work/files" && mkdir "$work/files" && (cd "$work/files" && timeout 60 "$work/sums")
}

# Whether b2sum has no function that the rest of its process would get instead of one of the C
# library, even if it exports all that it can.
b2sum_replaces_no_function() {
    local text=$dist/x86_64/b2sum.s
    is_x86 || text=$dist/aarch64/b2sum.s
    assemble "$text" "$work/b2sum" -rdynamic && nm -D --defined-only "$work/b2sum" >"$work/names" &&
        grep -q ' T main$' "$work/names" &&
        ! grep -E ' (open|read|signal|__sysv_signal|b2sum_.*)$' "$work/names"
}

# Whether ../b2.c has the function that only new versions of glibc have, exactly if this one has it
# not.
fallback_function_is_defined_once() {
    cc -O2 -DMAIN=checks -c "$here/b2.c" -o "$work/b2.o" &&
        { nm -D "$(cc -print-file-name=libc.so.6)" && nm "$work/b2.o"; } >"$work/names" &&
        [ "$(grep -c ' T __x86_get_cpuid_feature_leaf' "$work/names")" -eq 1 ]
}

# The same functions, and the programs, with another C library than glibc.
programs_work_with_musl() {
    local text=$dist/x86_64/b2.s
    cc() { musl-gcc -static "$@"; }
    b2_c_functions_work && assemble "$text" "$work/b2_musl" &&
        printf abc >"$work/abc" &&
        "$work/b2_musl" sum b512 <"$work/abc" |
        diff - <(sums_by_hashlib "$work/abc" | sed 's/ .*//') &&
        assemble "$dist/x86_64/b2sum.s" "$work/b2sum_musl" &&
        "$work/b2sum_musl" "$work/abc" | diff - <(sums_by_hashlib "$work/abc")
}

test_c_of_programs() {
    check "the C of the program" b2_c_functions_work
    check "the C of b2sum" b2sum_c_functions_work
    needs_sanitizers
    check "the C of the program, with sanitizers" b2_c_functions_work -fsanitize=undefined \
        -fno-sanitize-recover=all
    check "the C of b2sum, with sanitizers" b2sum_c_functions_work -fsanitize=address,undefined \
        -fno-sanitize-recover=all
    needs nm
    check "b2sum replaces no function of the C library" b2sum_replaces_no_function
    needs
    is_x86 || missing="the processor is not x86-64"
    check "what it says of processors that are made up" b2_c_functions_work -DHAS_LEAVES=0 \
        -DPROCESSOR='"fake_cpuid.h"' "-I$tests"
    check "what it says of this processor" b2_c_functions_work -DHAS_LEAVES=0
    check "who says it" fallback_function_is_defined_once
    needs musl-gcc python3
    is_x86 || missing="the processor is not x86-64"
    check "the program with musl" programs_work_with_musl
}

run_part_of_tests test_c_of_programs
