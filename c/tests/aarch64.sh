#!/usr/bin/env bash
# Tests the library and the program for aarch64, by a compiler for it and on an emulated processor.
source "$(dirname "$(readlink -f "$0")")/common.sh"
. "$tests/library.sh"
. "$tests/threads.sh"
. "$tests/installing.sh"
. "$tests/choosing.sh"
arm=aarch64-linux-gnu-gcc

# That compiler in the place of cc. What it links is run by a script of its name; an object stays one.
cc() {
    local program libraries
    "$arm" "$@" || return
    [[ " $* " != *" -c "* ]] || return 0
    while [ $# -gt 2 ] && [ "$1" != -o ]; do shift; done
    program=$2
    libraries=$(dirname "$(dirname "$("$arm" -print-file-name=ld-linux-aarch64.so.1)")")
    mv "$program" "$program.aarch64" &&
        printf '#!/bin/sh\nexec qemu-aarch64 -L "%s" "%s" "$@"\n' "$libraries" "$program.aarch64" \
            >"$program" &&
        chmod +x "$program"
}

# Branch protection: each object is marked, so a program is without a demand, and a linker that demands
# marks takes them. On a processor that enforces it, calls through pointers return.
bti_marks_are_enforced() {
    local words=(-O1 -mbranch-protection=bti -ffreestanding -fno-stack-protector -nostdlib -static -I"$include")
    objects_have_mark "AArch64 feature: BTI" aarch64-linux-gnu- "$prefix"/lib/libvulfsjor{,-libb2,-threads}.a &&
        "$arm" "${words[@]}" "${warnings[@]}" -Wl,-z,force-bti -Wl,--fatal-warnings -Wl,--gc-sections \
            "$tests/bti.c" "$archive" -o "$work/forced" && qemu-aarch64 -cpu max "$work/forced" &&
        "$arm" "${words[@]}" -Wl,--gc-sections "$tests/bti.c" "$archive" -o "$work/marked" &&
        aarch64-linux-gnu-readelf -nW "$work/marked" | grep -q 'feature: BTI$' &&
        qemu-aarch64 -cpu max "$work/marked"
}

# The programs, whose objects are marked too, except those of the C library.
programs_have_bti_marks() {
    local name
    for name in b2 b2sum; do
        CC=$arm CFLAGS=$quick LDFLAGS=-Wl,-z,force-bti "$top/$name" --build "$work/bti_$name" 2>"$work/said" || return 1
        ! grep -i "bti" "$work/said" | grep "warning" | grep -vE ': /usr/' || return 1
    done
}

# The program of dist/ for aarch64, by this many cases of each command.
b2_matches_model_on_arm() {
    assemble "$dist/aarch64/b2.s" "$work/b2" "${warnings[@]}" &&
        python3 "$top/tests/compare_b2_model.py" --program "$work/b2" --cases "$1"
}

# The program b2sum of dist/ for aarch64: a digest, a check and a root by several threads.
b2sum_works_on_arm() {
    assemble "$dist/aarch64/b2sum.s" "$work/b2sum" "${warnings[@]}" && cd "$work" &&
        head -c 3000000 /dev/zero >zeros && ./b2sum zeros | diff - <(sums_by_hashlib zeros) &&
        sums_by_hashlib zeros | ./b2sum --check --strict &&
        ./b2sum --tree 65536 zeros | diff - <(printf 'BLAKE2b-tree-65536 (zeros) = ' &&
            roots_by_hashlib 65536 zeros | cut -c -128)
}

# The processor is emulated, so that only the full test runs all conformance cases.
keep_a_sixth_of_cases() {
    local hash
    for hash in "${hashes[@]}"; do
        write_every_nth_case "$hash" 6 && mkdir -p "$work/sixth" && mv "$work/some_$hash" "$work/sixth/$hash.txt"
    done
    conforming=$work/sixth
}

test_library_on_aarch64() {
    local hash
    if ! has_compiler "$arm" || ! has qemu-aarch64 || ! has python3; then
        skip "the library for aarch64" "no $arm with a C library, no qemu-aarch64 or no python3"
        return
    fi
    prefix=$work/prefix include=$work/prefix/include libb2=$work/prefix/include/vulfsjor-libb2
    archive=$prefix/lib/libvulfsjor.a shared=$prefix/lib/libvulfsjor.so
    check "install.sh with CC=$arm" env "CC=$arm" "CFLAGS=$quick" "$here/install.sh" --from "$dist" "$prefix" ||
        return
    local some=
    [ -n "${VULFSJOR_TEST_HUGE-}" ] || { keep_a_sixth_of_cases && some=-DTEST_SOME; }
    for hash in "${hashes[@]}"; do
        check "conformance.c, $hash, for aarch64" compile_and_run_hash_test conformance $hash -O1 $some "$archive"
        check_huge "made_states.c, $hash, for aarch64" compile_and_run_hash_test made_states $hash -O1 "$archive"
        check_huge "conformance.c, $hash, for aarch64, with the shared library" compile_and_run_hash_test conformance \
            $hash -O1 "$shared"
    done
    for family in b s; do
        check "edge_cases.c, blake2$family, for aarch64" edge_cases_pass -O2
        check_family_once "key_scan.c, blake2$family, for aarch64" calls_leave_no_keys
        check_family_once "libb2's names, blake2$family, for aarch64" run_libb2_names_test $family \
            "$prefix/lib/libvulfsjor-libb2.a"
    done
    for family in bp sp xb xs; do
        check_family_once "key_scan.c, blake2$family, for aarch64" calls_leave_no_keys
    done
    check "calls of a constructor and of threads, for aarch64" first_calls_work_from_any_thread
    check "hidden names, for aarch64" archive_names_stay_hidden "$archive" "$include" "$arm"
    check "branch protection, for aarch64" bti_marks_are_enforced
    check "marks of the programs, for aarch64" programs_have_bti_marks
    check "tree_parts.c, for aarch64" tree_part_edges_pass "$(random_turn_count 500)" -O2
    check_huge "the program c/examples/tree_sum.c, for aarch64" tree_sum_example_matches_hashlib
    check_huge "a project with the files by hand, for aarch64" sources_build_in_project_by_hand
    check "b2 for aarch64" b2_matches_model_on_arm $([ -n "${VULFSJOR_TEST_HUGE-}" ] && echo 40 || echo 8)
    check "b2sum for aarch64" b2sum_works_on_arm
}

run_part_of_tests test_library_on_aarch64 cases
