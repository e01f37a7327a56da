#!/usr/bin/env bash
# libgcrypt's own test `basic` of its hashes and MACs, with the functions of BLAKE2 here.
source "$(dirname "$(readlink -f "$0")")/common.sh"

# A copy of its sources, whose cipher/blake2.c has lost its context and functions, and the library of them.
build_libgcrypt() {
    local copy=$work/libgcrypt folder
    cp -r "$fetched/libgcrypt20" "$copy" && cd "$copy" &&
        sed -i -e '/^typedef struct BLAKE2._CONTEXT_S/,/^} BLAKE2._CONTEXT;/d' \
            -e '/^static inline void blake2b_set_lastblock/,/^\/\* Variable-length/c #include "gcrypt_functions.h"' \
            -e '/^static inline void blake2s_set_lastblock/,/^ \* Module C/d' cipher/blake2.c &&
        ! grep -E 'blake2._transform|rotr64' cipher/blake2.c &&
        ./configure -q --disable-shared --disable-doc --disable-dependency-tracking CFLAGS='-O0 -w' \
            CPPFLAGS="-I$clients -I$include" || return
    for folder in compat mpi cipher random; do make -s -C $folder || return; done
    make -s -C src libgcrypt.la && nm src/.libs/libgcrypt.a | grep ' U vulfsjor_ffi_blake2s_update'
}

# The tests of hashes, which do not end at the fiftieth error: ARCHIVE
libgcrypt_hash_tests_pass() {
    cd "$work/libgcrypt/tests" && sed -i 's/error_count >= 50/0/' t-common.h &&
        cc -O0 -w -DHAVE_CONFIG_H -I.. -I../src basic.c ../src/.libs/libgcrypt.a "$1" -lgpg-error -o basic &&
        ./basic --hash --verbose 2>&1
}
# With which each case of BLAKE2 fails, 512 of them also in pieces, and no other case: ARCHIVE
all_blake2_cases_fail() {
    ! libgcrypt_hash_tests_pass "$1" >"$work/said" && grep -x 'All tests completed. Errors: 1071' "$work/said" &&
        [ "$(grep -cE '^basic: (check_one_md_\w+: )?algo 3(1[89]|2[0-5]), digest mismatch$' "$work/said")" -eq 1071 ]
}

test_libgcrypt() {
    check "a planted byte" copy_with_wrong_iv_bit "$archive" "$work/planted.a"
    needs_sources libgcrypt20
    has make || missing=${missing:-"no make"}
    echo '#include <gpg-error.h>' | cc -fsyntax-only -x c - 2>/dev/null || missing=${missing:-"no libgpg-error-dev"}
    check "libgcrypt" build_libgcrypt
    check "libgcrypt's hashes" command_prints_line_times 1 'All tests completed. Errors: 0' libgcrypt_hash_tests_pass \
        "$archive"
    check "libgcrypt's hashes, with BLAKE2" command_prints_line_times 557 '  checking BLAKE2[BS]_[0-9]+ .*' \
        libgcrypt_hash_tests_pass "$archive"
    check "libgcrypt's hashes with a planted byte" all_blake2_cases_fail "$work/planted.a"
}

run_part_of_tests test_libgcrypt
