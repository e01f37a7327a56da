#!/usr/bin/env bash
# Tests the library from C and C++, and the examples of c/README.md.
source "$(dirname "$(readlink -f "$0")")/common.sh"

# A test program of a hash of the conformance cases, compiled with these words and run: NAME HASH WORDS..
compile_and_run_hash_test() {
    local name=$1 hash=$2
    cc -std=c99 -g $quick "${warnings[@]}" -I"$include" $(hash_macro_words "$hash") "$tests/$name.c" "${@:3}" \
        -o "$work/$name" &&
        LD_LIBRARY_PATH=$prefix/lib "$work/$name" "$conforming/$hash.txt"
}

# No warning of clang, of which some are not in -Wall and -Wextra, in the first and the last standard.
headers_compile_without_warnings() {
    local standard
    printf '#include <%s>\n' vulfsjor_threads.h blake2.h >"$work/all.c"
    for standard in c99 gnu2x; do
        clang -std=$standard -Weverything -Wno-reserved-id-macro -Wno-reserved-identifier -Werror \
            -I"$include" -I"$libb2" \
            -fsyntax-only "$work/all.c" || return 1
    done
    for standard in c++11 c++20; do
        clang++ -std=$standard -Weverything -Wno-c++98-compat{,-pedantic} -Werror -I"$include" -x c++ \
            -fsyntax-only - <<<'#include <vulfsjor_threads.h>' || return 1
    done
    gcc -std=c99 "${warnings[@]}" -Wconversion -Wshadow -Wcast-qual -Wundef -Wswitch-enum -Wswitch-default \
        -I"$include" -I"$libb2" -fsyntax-only "$work/all.c"
}

# edge_cases.c of the family, compiled with these words.
edge_cases_pass() { compile_and_run_hash_test edge_cases "blake2$family" "$@" "$archive"; }

# What the inline functions pass to the library, which is a part of the test; and what those of
# thunks.h pass to the assembly on Windows and macOS. With both conventions of calls in one file the
# compiler of MinGW fails above -O0.
inline_functions_pass_arguments() {
    python3 "$tests/passed_arguments.py" "$include" >"$work/passed_arguments.c" &&
        cc -std=c99 "${warnings[@]}" -I"$include" "$@" "$work/passed_arguments.c" -o "$work/passed_arguments" &&
        "$work/passed_arguments" >"$work/passed" && python3 "$tests/passed_arguments.py" "$include" said <"$work/passed"
}
thunks_pass_arguments() {
    inline_functions_pass_arguments -O0 -I"$here" -DCHOOSE_ONE=passes '-DCHOOSE_FUNCTIONS="thunks.h"'
}

# Buffers of more than 2^32 bytes. VULFSJOR_TEST_HUGE in the environment adds those that take long.
buffers_over_4_gib_work() {
    cc -std=gnu99 -O2 "${warnings[@]}" $(family_macro_words "$1") -I"$include" "$tests/huge.c" \
        "$prefix/lib/libvulfsjor-threads.a" "$archive" -pthread -o "$work/huge" &&
        "$work/huge"
}

# A program in C++ that has the address of each function of the headers, by its name in C: by each compiler that is
# there, without casts and null pointers as only C has them.
cpp_program_links_every_function() {
    local compiler
    { printf '#include "%s"\n' vulfsjor-libb2/blake2.h vulfsjor_threads.h && echo 'typedef void function();' &&
        echo 'function *volatile all[] = {' &&
        functions_of_headers | sed 's/.*/    reinterpret_cast<function *>(&),/' &&
        printf '    reinterpret_cast<function *>(%s),\n' blake2{b,s,bp,sp}{,_init,_init_key,_update,_final} blake2 &&
        echo '};' && echo 'int main() { return all[0] == nullptr; }'; } >"$work/link.cpp" &&
        [ "$(grep -c reinterpret_cast "$work/link.cpp")" -gt 130 ] || return
    for compiler in c++ g++ clang++; do
        ! has $compiler || { $compiler -std=c++11 "${warnings[@]}" -Wold-style-cast -Wzero-as-null-pointer-constant \
            -I"$include" -o "$work/link" "$work/link.cpp" "$prefix/lib/libvulfsjor-threads.a" "$archive" -pthread &&
            "$work/link"; } || return
    done
}

# hasher.cpp, by this compiler and standard, with the warnings of careful projects: compiled, and
# compiled and run.
compile_hasher() {
    "$1" "-std=$2" "${warnings[@]}" -Wconversion -Wsign-conversion -Wshadow -Wold-style-cast \
        -Wzero-as-null-pointer-constant -I"$include" "$tests/hasher.cpp" "${@:3}"
}
cpp_hasher_works() { compile_hasher "$@" "$archive" -o "$work/hasher" && "$work/hasher"; }

cpp14_is_refused() {
    c++ -std=c++14 -I"$include" -fsyntax-only -x c++ - <<<'#include <vulfsjor.hpp>' 2>&1 | grep 'for C++17 and later'
}

# The lines of a file that are marked as wrong: FILE STANDARD COMPILER
marked_lines_are_refused() { python3 "$tests/wrong_lines.py" "$1" "$include" "${@:2}"; }
wrong_calls_are_warned_of() {
    python3 "$tests/warned_calls.py" "$include" >"$work/calls.c" && marked_lines_are_refused "$work/calls.c" gnu99 gcc
}

# The wrong uses of tests/misuse: c or cpp, COMPILER..
misuses_are_detected() { python3 "$top/tests/misuse/run.py" "$@" -I"$include" -- "$archive"; }

# The conformance cases by the header for C++.
cpp_passes_conformance_cases() {
    c++ -std=c++17 "${warnings[@]}" -I"$include" "$tests/conformance.cpp" "$@" "$archive" -o "$work/conformance" &&
        "$work/conformance" "$conforming"
}

# The program of c/examples over files of several lengths, over standard input, and over what can't
# be read.
sum_example_matches_hashlib() {
    local length sum=$work/sum
    cc -O2 "${warnings[@]}" "$here/examples/sum.c" $(pkg_config_words vulfsjor-static) -o "$sum" &&
        mkdir -p "$work/sums" &&
        cd "$work/sums" || return 1
    for length in 0 1 128 129 65536 65537 200000; do
        head -c $length /dev/urandom >file_$length || return 1
    done
    "$sum" file_* >said && sums_by_hashlib file_* >wanted && diff said wanted || return 1
    "$sum" <file_200000 >said && sed -n 's/file_200000$/-/p' wanted | diff said - || return 1
    ! "$sum" file_1 absent . file_0 >said && sums_by_hashlib file_1 file_0 | diff said -
}

# The program of c/examples that finds equal files, over some that differ in their last byte only.
duplicates_example_finds_equal_files() {
    local duplicates=$work/duplicates
    cc -O2 -std=c99 "${warnings[@]}" "$here/examples/duplicates.c" $(pkg_config_words vulfsjor-static) \
        -o "$duplicates" && mkdir -p "$work/equal" && cd "$work/equal" || return 1
    head -c 100000 /dev/urandom >a && cp a b && cp a c && printf x >>c && cp a d && printf y >>d &&
        : >e && : >f && cp c g
    "$duplicates" a b c d e f g >said && printf '%s\n' 'a b' 'e f' 'c g' | diff said - &&
        "$duplicates" >said && [ ! -s said ] && ! "$duplicates" a absent >said && [ ! -s said ]
}

# The benchmark of the README, one turn of it: a table for each family, with a time in each row, and
# in brackets that time divided by ours.
benchmark_prints_full_table() {
    local words=(-DWITH_NAMES) theirs=()
    links_with_words -lb2 && [ -e /usr/include/blake2.h ] && words+=(-DWITH_LIBB2) && theirs+=(-lb2)
    links_with_words -lcrypto && [ -e /usr/include/openssl/evp.h ] && words+=(-DWITH_OPENSSL) &&
        theirs+=(-lcrypto)
    cc -O2 "${warnings[@]}" -DBY_NAMES -I"$include/vulfsjor-libb2" -c "$top/bench/calls.c" -o "$work/names.o" &&
        cc -O2 "${warnings[@]}" "${words[@]}" "$top/bench/calls.c" "$work/names.o" $(pkg_config_words vulfsjor-static) \
            "${theirs[@]}" -o "$work/bench" &&
        "$work/bench" 1 >"$work/said" && cat "$work/said" &&
        [ "$(grep -c '^| [a-z].* | [0-9]' "$work/said")" -eq 14 ] &&
        awk -F'[|()]' '/\)/ { for (i = 4; i < NF; i += 3) if ($(i + 1) != "") { rows++
            differs = $(i + 1) - $i / $3
            wrong += differs ^ 2 > (0.01 + 0.03 * $(i + 1)) ^ 2 } }
            END { exit wrong || rows < 12 + '${#theirs[@]}' * 10 }' "$work/said"
}

# The example in Python, and what it accepts and refuses.
ctypes_example_works() {
    local example=$here/examples/ctypes_hash.py
    python3 "$example" "$shared" >"$work/said" && diff "$work/said" <(readme_example_digest key) &&
        python3 "$tests/ctypes_example.py" "$example" "$shared"
}

# The authors' vectors of BLAKE2Xb or BLAKE2Xs, as conformance cases, by a program that has been made.
authors_vectors_pass() {
    awk '{ key = $3 == "-" ? "" : " key=" $3
        print "case authors." NR "\nhash '"$1"' " $6 " size=" $2 key " = " $7 }' "$work/authors" >"$work/authors.txt" &&
        compile_and_run_hash_test conformance "$1" "$archive" && "$work/conformance" "$work/authors.txt"
}

# The conformance cases of a hash, and made states: with the archive, and of one hash, or of all in the full test, with
# the shared library, and with sanitizers. secrets.sh runs them in valgrind.
test_hash_conformance() {
    local hash=$1 name check=check_huge
    [ "$hash" != blake2b ] || check=check
    for name in conformance made_states; do
        check "$name.c, $hash" compile_and_run_hash_test $name "$hash" "$archive"
        $check "$name.c, $hash, with the shared library" compile_and_run_hash_test $name "$hash" "$shared"
        needs_sanitizers
        $check "$name.c, $hash, with sanitizers" compile_and_run_hash_test $name "$hash" "${sanitizers[@]}" "$archive"
        needs
    done
    [[ $hash == blake2x* ]] || return 0
    if python3 "$top/tests/vectors.py" --authors "${hash#blake2x}" >"$work/authors"; then
        check "the authors' vectors of BLAKE2X in C, $hash" authors_vectors_pass "$hash"
    else
        skip "the authors' vectors of BLAKE2X in C, $hash" "no golang-golang-x-crypto-dev"
    fi
}

# What calls leave of a key on the dead stack, and in a state.
calls_leave_no_keys() { compile_and_run_hash_test key_scan "blake2$family" -std=gnu99 -O2 -Wl,-z,now "$archive"; }

test_examples() {
    check "the program c/examples/sum.c" sum_example_matches_hashlib
    check "the program c/examples/duplicates.c" duplicates_example_finds_equal_files
    check_huge "the benchmark bench/calls.c" benchmark_prints_full_table
    check "the example c/examples/ctypes_hash.py" ctypes_example_works
}

test_c_and_cpp_headers() {
    local hash
    needs c++
    check "each function of the headers in C++, linked" cpp_program_links_every_function
    needs python3
    check "passed_arguments.py" inline_functions_pass_arguments $quick
    check "passed_arguments.py, through thunks.h" thunks_pass_arguments
    needs clang++ gcc
    check "the headers under all warnings of clang" headers_compile_without_warnings
    needs gcc python3
    [ "$(gcc -dumpversion 2>/dev/null | cut -d. -f1)" -ge 11 ] 2>/dev/null || missing=${missing:-"gcc 11"}
    check "warnings of short memory and of ignored statuses" wrong_calls_are_warned_of
    check "wrong uses in C" misuses_are_detected c gcc -std=gnu11
    needs c++ python3
    # Each standard with exceptions and without, and each compiler with all of these.
    check "hasher.cpp in C++17" cpp_hasher_works c++ c++17 $quick
    check "conformance.cpp" cpp_passes_conformance_cases
    check "vulfsjor.hpp is refused in C++14" cpp14_is_refused
    check_huge "hasher.cpp in C++20, compiled" compile_hasher c++ c++20 -fsyntax-only
    needs g++ python3
    check "wrong_lines.cpp in C++20, by g++" marked_lines_are_refused "$tests/wrong_lines.cpp" c++20 g++
    check_huge "wrong_lines.cpp in C++17, by g++" marked_lines_are_refused "$tests/wrong_lines.cpp" c++17 g++
    check "wrong uses in C++" misuses_are_detected cpp g++ -std=c++17
    needs clang++ python3
    check_huge "wrong uses in C++20, by clang++" misuses_are_detected cpp clang++ -std=c++20
    check "wrong_lines.cpp in C++17, by clang++" marked_lines_are_refused "$tests/wrong_lines.cpp" c++17 clang++
    check_huge "wrong_lines.cpp in C++20, by clang++" marked_lines_are_refused "$tests/wrong_lines.cpp" c++20 clang++
    check_huge "hasher.cpp in C++17, by clang++, without exceptions, compiled" compile_hasher clang++ \
        c++17 -fno-exceptions -fsyntax-only
    check "hasher.cpp in C++20, by clang++, without exceptions" cpp_hasher_works clang++ c++20 \
        -fno-exceptions
    needs
    for family in b s bp sp xb xs; do check "key_scan.c, blake2$family" calls_leave_no_keys; done
    for family in b s; do
        check "edge_cases.c, blake2$family" edge_cases_pass
        needs_sanitizers
        check_family_once "edge_cases.c, blake2$family, with sanitizers" edge_cases_pass "${sanitizers[@]}"
        needs
    done
    check "huge.c, blake2b" buffers_over_4_gib_work b
    check_huge "huge.c, blake2s" buffers_over_4_gib_work s
    [ -n "${VULFSJOR_TEST_HUGE-}" ] || skip "huge.c, every call" "VULFSJOR_TEST_HUGE is not set"
    if has python3; then
        for hash in "${hashes[@]}"; do test_hash_conformance $hash; done
        test_examples
    else
        skip "the test vectors and the examples" "no python3"
    fi
}

run_part_of_tests test_c_and_cpp_headers cases
