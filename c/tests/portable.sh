#!/usr/bin/env bash
# Tests dist/c/vulfsjor.c, the library for processors without assembly: by the compiler here, and by
# compilers for other processors, whose programs run on an emulator. Without VULFSJOR_TEST_HUGE these are one of 32 bits
# and one with the other order of bytes, with a hash of each kind and length of words; and compilers optimize less,
# which takes half as long.
source "$(dirname "$(readlink -f "$0")")/common.sh"
source_file=$dist/c/vulfsjor.c
words=(-std=c99 "${warnings[@]}" "-I$here/include")

# The processors, each with its compiler and emulator, and words for the compiler.
declare -A compilers=([riscv64]=riscv64-linux-gnu-gcc [s390x]=s390x-linux-gnu-gcc
    [i386]=i686-linux-gnu-gcc [armhf]=arm-linux-gnueabihf-gcc [ppc64el]=powerpc64le-linux-gnu-gcc)
declare -A emulators=([riscv64]=qemu-riscv64 [s390x]=qemu-s390x [i386]=qemu-i386 [armhf]=qemu-arm
    [ppc64el]=qemu-ppc64le)

# Compiles and runs a program for the processor: PROGRAM, words, --, arguments
compile_and_run_for_target() {
    local program=$work/$processor-$1 given=() level=$quick
    [ ${#emulator[@]} -eq 0 ] || level=-O1 # an emulator takes longer than the compiler
    shift
    while [ "$1" != -- ]; do given+=("$1") && shift; done
    "${compiler[@]}" $level "${words[@]}" "${given[@]}" "$work/$processor.o" -o "$program" &&
        "${emulator[@]}" "$program" "${@:2}"
}

compile_library_for_target() {
    "${compiler[@]}" "$1" "${words[@]}" "${@:2}" -fstack-usage -c "$source_file" -o "$work/$processor.o"
}

# What a call with a key leaves on the stack is overwritten, by the compiler's own account of it.
scrub_covers_stack_use() { "$top/tests/portable_stack.py" "$source_file" "$work/$processor.su"; }

# A search for keys on the stack of calls in a library: FAMILY LIBRARY
calls_leave_no_keys_for_target() {
    "${compiler[@]}" -std=gnu99 -O2 "${warnings[@]}" -Wl,-z,now $(family_macro_words "$1") "-I$here/include" \
        "$tests/key_scan.c" "$2" -o "$work/key_scan" && "${emulator[@]}" "$work/key_scan"
}

# vulfsjor_build of a library: the line of MANIFEST for the file in C.
library_reports_portable_build() {
    printf '%s\n' '#include <stdio.h>' '#include <vulfsjor.h>' \
        'int main(void) { return puts(vulfsjor_build()) < 0; }' >"$work/says_build.c" &&
        "${compiler[@]}" "${words[@]}" "$work/says_build.c" "$1" -o "$work/says_build" &&
        "${emulator[@]}" "$work/says_build" | diff <(grep '  c/vulfsjor[.]c$' "$dist/MANIFEST") -
}

# Both over the library that CMake makes for this type of build, with flags that ask for no optimization.
cmake_library_wipes_keys() {
    local build=$work/$processor-cmake$1 family
    cmake -S "$here" -B "$build" -DVULFSJOR_PORTABLE=ON -DCMAKE_SYSTEM_NAME=Linux \
        -DCMAKE_SYSTEM_PROCESSOR="$processor" -DCMAKE_C_COMPILER="${compiler[0]}" -DCMAKE_BUILD_TYPE="$1" \
        -DCMAKE_C_FLAGS="-O0 -fstack-usage" &&
        cmake --build "$build" --target vulfsjor &&
        "$top/tests/portable_stack.py" "$source_file" "$(find "$build" -name 'vulfsjor*.su')" || return 1
    for family in $(some bp b s sp xb xs); do calls_leave_no_keys_for_target $family "$build/libvulfsjor.a" ||
        return 1; done
    library_reports_portable_build "$build/libvulfsjor.a"
}

# The same of the library of install.sh.
installed_library_wipes_keys() {
    local folder=$work/$processor-wiped
    CC=${compiler[0]} CFLAGS=-O0 "$here/install.sh" --portable --from "$dist" "$folder" &&
        calls_leave_no_keys_for_target bp "$folder/lib/libvulfsjor.a" &&
        library_reports_portable_build "$folder/lib/libvulfsjor.a"
}

# A test program of a hash of the conformance cases: NAME HASH
run_hash_test_for_target() {
    compile_and_run_for_target "$1" $(hash_macro_words "$2") "$tests/$1.c" -- "$conforming/$2.txt"
}

# The digests of files, as b2sum prints them, and roots of trees.
b2sum_works_for_target() {
    local sizes=(0 1 127 128 129 4096 1000000) size names=()
    mkdir -p "$work/files" && cd "$work/files" || return 1
    for size in "${sizes[@]}"; do
        names+=("file $size") && head -c "$size" "$source_file" >"file $size"
    done
    compile_and_run_for_target sum "$here/examples/sum.c" -- "${names[@]}" | diff - <(sums_by_hashlib "${names[@]}")
}

# The tests of the library for a processor.
test_library_for_target() {
    local level=-O2 turns=100 hash type these=("${hashes[@]}") families="b s" check=check_family_once
    processor=$1
    [ ${#emulator[@]} -eq 0 ] || check=check
    if [ ${#emulator[@]} -gt 0 ] && [ -z "${VULFSJOR_TEST_HUGE-}" ]; then
        level=-O1 turns=20 these=("${kinds[@]}") families=b
    fi
    check "the file in C, for $processor, without a warning" compile_library_for_target $level || return
    for hash in "${these[@]}"; do
        check "conformance.c, $hash, for $processor" run_hash_test_for_target conformance $hash
        family=${hash#blake2}
        $check "made_states.c, $hash, for $processor" run_hash_test_for_target made_states $hash
    done
    for family in $families; do
        check "edge_cases.c, blake2$family, for $processor" compile_and_run_for_target edge_cases \
            $(family_macro_words "$family") "$tests/edge_cases.c" --
        check "libb2.c, blake2$family, for $processor" compile_and_run_for_target libb2 \
            $(family_macro_words "$family") \
            "-I$here/include/libb2" "$tests/libb2.c" -- # which copies states of libb2
        check "reference.c, blake2$family, for $processor" compile_and_run_for_target reference \
            $(family_macro_words "$family") \
            "-I$here/include/reference" "$tests/reference.c" --
    done
    check "tree_parts.c, for $processor" compile_and_run_for_target tree_parts "$tests/tree_parts.c" -- $turns
    check "the stack that is wiped, for $processor" scrub_covers_stack_use
    check "files, for $processor" b2sum_works_for_target
    check_huge "what install.sh makes with -O0 wipes, for $processor" installed_library_wipes_keys
    has cmake || missing="no cmake"
    # installing.sh compares the flags of each type.
    for type in "" Debug MinSizeRel; do
        check_huge "what CMake makes with -O0 wipes, for $processor and type '$type'" cmake_library_wipes_keys "$type"
    done
    missing=
}

# The tests where neither the compiler nor the header knows the order of bytes, not optimized.
unknown_byte_order_works() {
    local words=("${words[@]}" -U__BYTE_ORDER__) processor=unknown hash
    compile_library_for_target -O0 || return
    for hash in $(some "blake2b blake2s" "${hashes[@]:2}"); do run_hash_test_for_target conformance $hash ||
        return; done
}

# The dialect of MSVC, by clang, over headers that stand in for the C library's.
compiles_in_msvc_dialect() {
    local target
    mkdir -p "$work/msvc" &&
        echo '__declspec(noreturn) void abort(void);' >"$work/msvc/stdlib.h" &&
        printf '#include <stddef.h>\n%s\n' 'void *memcpy(void *, const void *, size_t);' \
            'void *memmove(void *, const void *, size_t);' 'void *memset(void *, int, size_t);' \
            'int memcmp(const void *, const void *, size_t);' 'size_t strlen(const char *);' \
            >"$work/msvc/string.h" || return 1
    for target in $(some x86_64 i686 aarch64); do
        clang --target=$target-pc-windows-msvc -ffreestanding -fms-extensions "${words[@]}" \
            "-I$work/msvc" -c "$source_file" -o "$work/msvc/$target.obj" || return 1
    done
}

# Branches and addresses by a key or a message, with this compiler, of some of the cases: memcheck is slow.
no_branch_on_secrets_in_portable_c() {
    write_every_nth_case "$1" 100 && cases_branch_on_no_secret "$1" $quick "$work/here.o"
}

test_portable_c() {
    local name
    needs python3
    compiler=(cc) emulator=()
    test_library_for_target here
    for family in b s bp sp xb xs; do
        check_family_once "key_scan.c, blake2$family, over the file in C" calls_leave_no_keys_for_target $family \
            "$work/here.o"
    done
    check "an unknown order of bytes, with cc -O0" unknown_byte_order_works
    has_memcheck || missing="no valgrind with its headers"
    for family in b s bp sp; do
        name=blake2$family
        check_family_once "no branch or address by a secret, $name, with cc -O2" no_branch_on_secrets_in_portable_c \
            $name
    done
    needs clang
    check "the file in C, in MSVC's dialect" compiles_in_msvc_dialect
    needs python3
    for name in riscv64 s390x i386 armhf ppc64el; do
        compiler=("${compilers[$name]}" -static) emulator=("${emulators[$name]}")
        if [ -z "${VULFSJOR_TEST_HUGE-}" ] && ! [[ $name =~ ^(s390x|i386)$ ]]; then
            skip "the library for $name, which is like others" "VULFSJOR_TEST_HUGE is not set"
        elif has_compiler "${compiler[0]}" && has "${emulator[0]}"; then
            test_library_for_target "$name"
        else
            skip "the library for $name" "no ${compiler[0]} with a C library, or no ${emulator[0]}"
        fi
    done
}

run_part_of_tests test_portable_c cases
