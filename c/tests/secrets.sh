#!/usr/bin/env bash
# Tests whether a branch or an address depends on a key or a message, by valgrind's memcheck.
source "$(dirname "$(readlink -f "$0")")/common.sh"

# The same of verify in C++.
cpp_hasher_branches_on_no_secret() {
    c++ -std=c++17 -O2 "${warnings[@]}" -I"$include" -DTEST_SECRETS "$tests/hasher.cpp" "$@" \
        -o "$work/secrets" && valgrind -q --error-limit=no "$work/secrets"
}

# What memcheck has to report, so that a silent run means something.
memcheck_reports_leaks() { valgrind -q "$work/secrets" leaks; }

# Over each build that memcheck runs, or without VULFSJOR_TEST_HUGE over the newest, or over the library where it is for
# one processor.
test_no_branch_on_secrets() {
    local hash build nth=31 builds=none library=("$archive")
    if ! has_memcheck || ! has python3; then
        skip "branches and addresses by secrets" "no valgrind with its headers, or no python3"
        return
    fi
    ! is_x86 || skip "branches and addresses by secrets, x86-64-v4" "memcheck has no AVX-512"
    ! is_x86 || builds=$(some $(seq $((level < 3 ? level : 3)) -1 2))
    # An odd number, since cases of `verify` and `equal` take turns.
    for hash in "${hashes[@]}"; do write_every_nth_case $hash $nth; done
    check "docs/WIPING.md says which cases" grep -qF "over each ${nth}st of the" "$top/docs/WIPING.md"
    for build in $builds; do
        if [ "$build" != none ]; then
            library=("$work/build_$build.o" "$archive")
            check "the choice of build $build" compile_choice_of_build "-DCHOOSE_TEST=$build" "build_$build" || return
        fi
        for hash in "${hashes[@]}"; do
            check "no branch or address by a key or a message, $hash, build $build" cases_branch_on_no_secret $hash \
                $quick \
                "${library[@]}"
        done
    done
    check "memcheck reports a branch and an address by a key" memcheck_reports_leaks
    needs c++
    check "no branch by a byte of a tag in hasher.cpp" cpp_hasher_branches_on_no_secret "${library[@]}"
}

run_part_of_tests test_no_branch_on_secrets cases
