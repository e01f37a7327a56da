#!/usr/bin/env bash
# libarchive's tests of RAR5, one of which hashes by BLAKE2sp, over the header with libb2's names.
source "$(dirname "$(readlink -f "$0")")/common.sh"

# All of libarchive but its copy of BLAKE2s and what is for other systems, with the configuration that it has for Linux,
# less what needs another library.
build_libarchive() {
    local source=$fetched/libarchive files
    mkdir -p "$work/libarchive" && cd "$work/libarchive" &&
        sed -E '/_(LIBLZMA|LIBZ|ZLIB_H|\w*XATTR\w*) /d' "$source/contrib/android/config/linux_host.h" >config.h &&
        printf '#define %s 1\n' HAVE_BLAKE2_H HAVE_ARC4RANDOM_BUF __LIBARCHIVE_CONFIG_H_INCLUDED >>config.h &&
        grep '^DEFINE_TEST' "$source/libarchive/test/test_read_format_rar5.c" >list.h || return
    mapfile -t files < <(printf '%s\n' "$source"/libarchive/*.c | grep -vE 'blake2|windows|sunos|freebsd|darwin')
    cc -O0 -w "${configured[@]}" -D__LIBARCHIVE_BUILD -I"$libb2" -c "${files[@]}" && ar rc libarchive.a ./*.o &&
        nm libarchive.a | grep ' U vulfsjor_ffi_blake2sp_update' && ! nm libarchive.a | grep ' [UT] blake2'
}
configured=(-DHAVE_CONFIG_H '-DPLATFORM_CONFIG_H="config.h"' -I.)

# The tests: ARCHIVE
rar5_tests_pass() {
    local source=$fetched/libarchive tests=$fetched/libarchive/libarchive/test
    cd "$work/libarchive" &&
        cc -O0 -w "${configured[@]}" -I"$source"/{test_utils,libarchive} -I"$tests" "$source"/test_utils/test_*.c \
            "$tests"/{read_open_memory,test_read_format_rar5}.c libarchive.a "$1" -o tests &&
        TMPDIR=$work ./tests -q -r "$tests"
}
# One of them fails: ARCHIVE
one_rar5_test_fails() {
    ! rar5_tests_pass "$1" >"$work/said" && grep -x 'Running \.*E\.*' "$work/said" &&
        grep 'test_read_format_rar5_blake2 (2 failures)' "$work/said"
}

test_libarchive() {
    check "a planted byte" copy_with_wrong_iv_bit "$archive" "$work/planted.a"
    needs_sources libarchive
    check "libarchive" build_libarchive
    check "libarchive's tests of RAR5" command_prints_line_times 1 '48 tests passed, no failures' rar5_tests_pass \
        "$archive"
    check "libarchive's tests of RAR5 with a planted byte" one_rar5_test_fails "$work/planted.a"
}

run_part_of_tests test_libarchive
