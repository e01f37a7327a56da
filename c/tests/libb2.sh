#!/usr/bin/env bash
# Tests libb2's functions by their own names, and runs its own tests and a program of others.
source "$(dirname "$(readlink -f "$0")")/common.sh"
source "$top/tests/sources.sh"

beside=$prefix/lib/libvulfsjor-libb2.a

# The conformance cases by libb2's names, from a shared library of them. A parameter block may have a depth of 0 and any
# inner length, as in libb2.
libb2_names_pass_conformance_cases() {
    printf '%s\n' '#define VULFSJOR_LIBB2_FUNCTION' '#include <blake2.h>' >"$work/names.c" &&
        cc $quick -shared -fPIC -I"$libb2" "$work/names.c" "$archive" -o "$work/names.so" &&
        "$top/tests/conformance/others.py" --libb2 "$work/names.so" "$conforming" >"$work/rows" &&
        diff "$work/rows" - <<'END'
| libb2 | blake2b | 845 of 3641 | 10 refused-several, 2 refused-inner, 1 refused-depth |
| libb2 | blake2s | 652 of 3089 | 4 refused-several, 2 refused-inner, 1 refused-depth |
| libb2 | blake2bp | 477 of 1323 | none |
| libb2 | blake2sp | 409 of 1147 | none |
END
}

# What PORTING.md says of libb2 itself, in one program with this library, linked in this order. With fewer threads than
# it has leaves libb2 then returns another digest, and no error, which no other line than those of digests says.
libb2_itself_behaves_as_documented() { run_libb2_names_test "$1" -DLIBB2 -w "${@:2}"; }
libb2_fails_with_too_few_threads() {
    libb2_itself_behaves_as_documented "$1" -lb2 "$archive" && ! OMP_THREAD_LIMIT=1 "$work/libb2" 2>"$work/said" &&
        ! grep -v 'not !memcmp(.*, wanted' "$work/said"
}

# What calls by libb2's names leave of a key on the dead stack.
libb2_names_leave_no_keys() {
    cc -std=gnu99 -O2 "${warnings[@]}" -Wl,-z,now -I"$include" -DLIBB2_NAMES \
        $(family_macro_words "$1") -o "$work/key_scan" "$tests/key_scan.c" "$beside" && "$work/key_scan"
}

# The names that a shared library shows.
exported_names() { nm -D --defined-only --format=posix "$1" | cut -d ' ' -f 1 | LC_ALL=C sort; }
names_of_real_libb2() {
    printf '%s\n' blake2{b,s,bp,sp}{,_init,_init_key,_update,_final} blake2{b,s}_init_param | LC_ALL=C sort
}

# libb2.so.1, which is installed only if that is asked for: with the files, the names and the soname of libb2's, and no
# other library; and gone after an uninstallation.
installs_libb2_shared_library() {
    local folder=$work/shared one=()
    ! is_x86 || one=(--cpu "x86-64-v$level")
    CFLAGS=$quick "$here/install.sh" "${one[@]}" --from "$dist" --libb2-shared "$folder" &&
        { expected_installed_files lib/ && printf 'lib/vulfsjor-libb2/libb2.so.%s\n' 1 1.0.4; } | LC_ALL=C sort |
        diff - <(files_below "$folder") || return
    cp -P "$folder"/lib/vulfsjor-libb2/libb2.so.1* "$work/" && [ "$(readlink "$work/libb2.so.1")" = libb2.so.1.0.4 ] &&
        names_of_real_libb2 | diff - <(exported_names "$work/libb2.so.1") &&
        readelf -d "$work/libb2.so.1" >"$work/dynamic" && grep 'SONAME.*\[libb2.so.1\]' "$work/dynamic" &&
        [ "$(sed -n 's/.*NEEDED.*\[\(.*\)\]/\1/p' "$work/dynamic")" = libc.so.6 ] &&
        "$here/install.sh" --uninstall "$folder" && [ -z "$(files_below "$folder")" ]
}

# Made by hand, of the source it shows the same names, and of all of libb2.a it does not link.
libb2_library_links_by_hand() {
    cc -shared -fPIC "$here/libb2/libb2.c" "$archive" -o "$work/by_hand.so" &&
        names_of_real_libb2 | diff - <(exported_names "$work/by_hand.so") &&
        ! cc -shared -Wl,--whole-archive "$beside" -Wl,--no-whole-archive -o "$work/by_hand.so" 2>"$work/said" &&
        grep libb2_so_is_made_by_install_sh_libb2_shared "$work/said"
}

# Debian's rdiff, which needs libb2.so.1, over that in a folder: a signature, which is to be that by libb2 itself, a
# delta of another file, and the file again. FOLDER
rdiff_works_over_library() {
    local round options
    cd "$work" && ldd "$(command -v rdiff)" | grep -F libb2.so.1 && cp "$here/include/vulfsjor.h" basis || return
    for round in 1 2 3 4 5; do
        options=(-f -H blake2 -b $((round * 333)) -S $((round * 7 - 3)))
        { head -c $((round * 9999)) basis && echo "$round" && tail -c +$((round * 7777)) basis; } >changed &&
            rdiff "${options[@]}" signature basis theirs &&
            LD_LIBRARY_PATH=$1 rdiff "${options[@]}" signature basis ours && cmp ours theirs &&
            LD_LIBRARY_PATH=$1 rdiff -f delta ours changed delta &&
            LD_LIBRARY_PATH=$1 rdiff -f patch basis delta again && cmp again changed &&
            [ "$(stat -c %s delta)" -lt 60000 ] || return
    done
}
rdiff_detects_flipped_bit() {
    mkdir -p "$work/planted" && perl -pe 's/\x67\xe6\x09\x6a/\x67\xe6\x09\x6b/g' "$work/libb2.so.1" \
        >"$work/planted/libb2.so.1" && ! rdiff_works_over_library "$work/planted" >"$work/said" &&
        grep '^ours theirs differ' "$work/said"
}

# The column of a library in the table of sizes of PORTING.md: COLUMN WORDS PROGRAM
porting_page_has_state_sizes() {
    printf '#include <stdio.h>\n%s\nint main(void) { %s return 0; }\n' "$2" "$3" >"$work/sizes.c" &&
        cc -std=c99 -I"$include" -o "$work/sizes" "$work/sizes.c" && "$work/sizes" >"$work/sizes.txt" &&
        awk -F '  +' -v column="$1" '/^state  /, $0 == "```" { if ($column ~ /^[0-9]+$/) print $column }' \
            "$here/PORTING.md" | diff - "$work/sizes.txt"
}
page_has_our_state_sizes() {
    porting_page_has_state_sizes 2 '#include <vulfsjor.h>' "$(printf 'printf("%%zu\\n", sizeof(vulfsjor_%s_state));' \
        blake2{b,s,bp,sp,xb,xs} tree)"
}
page_has_libb2_state_sizes() {
    porting_page_has_state_sizes 3 '#include <stddef.h>
#include <blake2.h>' "$(printf 'printf("%%zu\\n", sizeof(blake2%s_state));' b s bp sp)"
}
page_has_libsodium_state_size() {
    porting_page_has_state_sizes 4 '#include <sodium.h>' 'printf("%zu\n", sizeof(crypto_generichash_state));'
}
# What PORTING.md says of libsodium's calls.
libsodium_behaves_as_documented() {
    cc -std=c99 -O1 "${warnings[@]}" -I"$include" "$here/tests/libsodium.c" -lsodium "$archive" \
        -o "$work/said_of_libsodium" && "$work/said_of_libsodium"
}
has_libsodium() { echo '#include <sodium.h>' | cc -fsyntax-only -x c - 2>/dev/null; }

# What a configure script does to find libb2: a program that names its functions and has no header of
# it.
configure_check_finds_libb2() {
    printf '%s\n' blake2{b,s,bp,sp}{,_init,_init_key,_update,_final} blake2{b,s}_init_param |
        sed 's/.*/char &(void);/' >"$work/conftest.c"
    sed 's/char \(.*\)(void);/\1() +/; 1s/^/int main(void) { return /; $s/+$/; }/' \
        "$work/conftest.c" >"$work/main.c"
    cc -w -fno-builtin -o "$work/conftest" -include "$work/conftest.c" "$work/main.c" \
        -L"$prefix/lib/vulfsjor-libb2" -Wl,-Bstatic -lb2 -Wl,-Bdynamic || return
    ! has pkg-config || PKG_CONFIG_PATH=$prefix/lib/vulfsjor-libb2/pkgconfig pkg-config \
        --exists 'libb2 = 0.98.1'
}

# Whether libb2 has threads, as it has where it was built with OpenMP.
libb2_has_threads() { links_with_words -Wl,--no-as-needed -lb2 && ldd "$work/linked" | grep -q libgomp; }

has_libb2() { links_with_words -lb2 && echo '#include <blake2.h>' | cc -fsyntax-only -x c - 2>/dev/null; }

# libb2's own test program, which includes its known answers: over the header of libb2's name here,
# or over libb2's own with the functions by their own names.
libb2_own_test_passes() {
    local name=$1 source=$fetched/libb2/src words=(-I"$libb2" "$archive")
    [ "$2" = header ] || words=(-I"$source" "$beside")
    mkdir -p "$work/test_of_libb2"
    cp "$source/$name-test.c" "$source/blake2-kat.h" "$work/test_of_libb2/" &&
        cc -o "$work/$name-test" "$work/test_of_libb2/$name-test.c" "${words[@]}" &&
        [ "$("$work/$name-test")" = ok ]
}

# librsync, whose search for libb2 finds what is installed here, with this folder of headers; and
# its own tests.
librsync_tests_pass() {
    local headers=$1 build=$work/librsync
    rm -rf "$build"
    cmake -S "$fetched/librsync" -B "$build" -DUSE_LIBB2=ON -DCMAKE_BUILD_TYPE=Debug \
        -DCMAKE_LIBRARY_PATH="$prefix/lib/vulfsjor-libb2" -DCMAKE_INCLUDE_PATH="$headers" &&
        cmake --build "$build" --parallel 2 &&
        nm "$build/librsync.so" | grep -q ' t vulfsjor_ffi_blake2b_update$' &&
        ! readelf -d "$build/librsync.so" | grep -q 'libb2\.so' && cd "$build" &&
        ctest --output-on-failure
}

test_sources_of_libb2_and_librsync() {
    local name
    needs_sources libb2
    for name in blake2b blake2s blake2bp blake2sp; do
        check "libb2's $name-test.c over the header" libb2_own_test_passes $name header
        check "libb2's $name-test.c over its own header" libb2_own_test_passes $name names
    done
    [ -z "${VULFSJOR_TEST_HUGE-}" ] || needs_sources librsync
    has cmake || missing="no cmake"
    check_huge "librsync's own tests over the header" librsync_tests_pass "$libb2"
    mkdir -p "$work/own" && cp "$fetched/libb2/src/blake2.h" "$work/own/" 2>/dev/null
    check_huge "librsync's own tests over libb2's header" librsync_tests_pass "$work/own"
    needs
}

test_libb2_compatibility() {
    local family
    check "libb2.c without a warning" cc -std=c99 -O2 "${warnings[@]}" -c "$here/libb2/libb2.c" \
        -o "$work/libb2.o"
    check "a configure script finds libb2" configure_check_finds_libb2
    check "libb2.so.1" installs_libb2_shared_library
    check "libb2.so.1 by hand" libb2_library_links_by_hand
    needs rdiff perl
    check "Debian's rdiff over libb2.so.1" rdiff_works_over_library "$work"
    check_huge "Debian's rdiff over a libb2.so.1 with a wrong bit" rdiff_detects_flipped_bit
    needs
    for family in b bp s sp; do
        check "libb2's names by the header here, blake2$family" run_libb2_names_test $family -I"$libb2" "$archive"
    done
    check "the sizes of states in PORTING.md" page_has_our_state_sizes
    has_libsodium || missing="no libsodium-dev"
    check "the size of libsodium's state in PORTING.md" page_has_libsodium_state_size
    check "what is said of libsodium" libsodium_behaves_as_documented
    needs python3
    check "the conformance cases by libb2's names" libb2_names_pass_conformance_cases
    has_libb2 || missing="no libb2"
    for family in b s bp sp; do
        check "libb2's names with its own header, blake2$family" run_libb2_names_test $family "$beside"
        check_family_once "libb2.so.1 with its own header, blake2$family" run_libb2_names_test $family \
            "$work/libb2.so.1" \
            "$archive" -Wl,-rpath,"$work"
        check "what is said of libb2 itself, blake2$family" libb2_itself_behaves_as_documented $family -lb2 "$archive"
        check "key_scan.c by libb2's names, blake2$family" libb2_names_leave_no_keys $family
    done
    check "the sizes of libb2's states in PORTING.md" page_has_libb2_state_sizes
    check "libb2 after this library" libb2_itself_behaves_as_documented b "$archive" -lb2
    check "libb2 after the shared library" libb2_itself_behaves_as_documented b "$shared" -lb2 -Wl,-rpath,"$prefix/lib"
    check "libb2 before the shared library" libb2_itself_behaves_as_documented b -lb2 "$shared" -Wl,-rpath,"$prefix/lib"
    libb2_has_threads || missing=${missing:-"libb2 has no threads"}
    for family in bp sp; do
        check "libb2 with too few threads, blake2$family" libb2_fails_with_too_few_threads $family
    done
    needs
    test_sources_of_libb2_and_librsync
}

run_part_of_tests test_libb2_compatibility cases
