#!/usr/bin/env bash
# libsodium's own tests of its generichash, and PyNaCl's of that and of its hashes, with the calls of this library in
# the place of libsodium's by the table of c/PORTING.md. The rest is libsodium's.
source "$(dirname "$(readlink -f "$0")")/common.sh"

# The lines of a test's output that are not those that libsodium expects: TEST ARCHIVE
unexpected_output_lines() {
    local tests=$fetched/libsodium/test/default
    mkdir -p "$work/$1" && cd "$work/$1" && cp "$tests/$1.exp" . &&
        cc -std=gnu99 -w -DTEST_SRCDIR='"."' -include "$clients/sodium_names.h" -I"$include" \
            -I"$fetched/libsodium/test/quirks" "$tests/$1.c" "$2" -lsodium -o program || return
    ./program >program.said 2>&1
    [ -s "$1.res" ] && diff "$1.exp" "$1.res" | grep -c '^>'
}
# How many they are: COUNT TEST ARCHIVE
unexpected_line_count_is() {
    [ "$(unexpected_output_lines "${@:2}")" -eq "$1" ] || { cat "$work/$2/program.said" && return 1; }
}
expected_output_has_lines() { [ "$(grep -c . "$fetched/libsodium/test/default/$2.exp")" -eq "$1" ]; }

# PyNaCl's tests, of Debian's Python, over libsodium with these calls before its own: ARCHIVE
run_pynacl_tests() {
    cc -w -shared -fPIC -O1 -I"$include" "$clients/sodium_functions.c" "$1" -o "$work/preloaded.so" &&
        rm -rf "$work/pynacl" && mkdir "$work/pynacl" && cp -r "$fetched/python-nacl/tests" "$work/pynacl/" &&
        cd "$work/pynacl" || return
    LD_PRELOAD=$work/preloaded.so /usr/bin/python3 -m pytest -q --tb=no -rN -p no:cacheprovider \
        tests/test_{generichash,hash}.py >"$work/said" 2>&1
    sed -n '$s/ in .*//p' "$work/said"
}
pynacl_tests_end_with() { [ "$(run_pynacl_tests "$2")" = "$1" ] || { tail -n 30 "$work/said" && return 1; }; }

test_libsodium() {
    local name lines others wrong
    check "a planted byte" copy_with_wrong_iv_bit "$archive" "$work/planted.a"
    needs_sources libsodium
    [ -e /usr/include/sodium.h ] || missing="no /usr/include/sodium.h"
    # The lines of each test, those that are others here, and those that are with a planted byte: generichash3 twice
    # ends a state for 32 bytes with 64, and generichash compares 256 digests by itself, with a line for each wrong one.
    while read -r name lines others wrong; do
        check "libsodium's $name has $lines lines" expected_output_has_lines "$lines" "$name"
        check "libsodium's $name, of which $others are others" unexpected_line_count_is "$others" "$name" "$archive"
        check "libsodium's $name with a planted byte" unexpected_line_count_is "$wrong" "$name" "$work/planted.a"
    done <<'END'
generichash 65 0 321
generichash2 64 0 64
generichash3 75 2 75
END
    [ -n "$missing" ] || needs_sources python-nacl
    for name in nacl pytest hypothesis; do
        /usr/bin/python3 -c "import $name" 2>/dev/null || missing="no python3-$name"
    done
    check "PyNaCl's tests of hashes" pynacl_tests_end_with "2144 passed, 4 skipped" "$archive"
    check "PyNaCl's tests of hashes with a planted byte" pynacl_tests_end_with "2124 failed, 20 passed, 4 skipped" \
        "$work/planted.a"
}

run_part_of_tests test_libsodium
