#!/usr/bin/env bash
# Tests the names of BLAKE2's reference code, and what c/PORTING.md says of that code itself, over a copy of it.
source "$(dirname "$(readlink -f "$0")")/common.sh"
source "$top/tests/sources.sh"

# reference.c with these words: FAMILY WORDS..
reference_names_conform() {
    cc -std=c99 -g $quick "${warnings[@]}" $(family_macro_words "$1") -I"$include" "${@:2}" "$tests/reference.c" \
        "$archive" \
        -o "$work/reference" && "$work/reference"
}

# A program in C++ that has the address of each function.
cpp_program_links_reference_names() {
    local compiler
    { echo '#include <blake2.h>' && echo 'typedef void function();' && echo 'function *volatile all[] = {' &&
        printf '    reinterpret_cast<function *>(%s),\n' blake2{b,s,bp,sp,xb,xs}{,_init,_init_key,_update,_final} \
            blake2 blake2{b,s}_init_param && echo '};' &&
        echo 'int main() { return all[0] == nullptr; }'; } >"$work/link.cpp" || return
    for compiler in c++ g++ clang++; do
        ! has $compiler || { $compiler -std=c++11 "${warnings[@]}" -Wold-style-cast -Wzero-as-null-pointer-constant \
            -I"$reference" -o "$work/link" "$work/link.cpp" "$archive" && "$work/link"; } || return
    done
}

# A program after which its own copy of the header is empty, as by -include.
own_header_copy_becomes_empty() {
    printf '%s\n' '#ifndef BLAKE2_H' '#error "it is not"' '#endif' >"$work/blake2.h"
    printf '%s\n' '#include "blake2.h"' 'int main(void) { unsigned char out[64];' \
        'return blake2b(out, sizeof out, "abc", 3, NULL, 0) || out[0] != 0xba; }' >"$work/copied.c"
    cc "${warnings[@]}" -include "$reference/blake2.h" "$work/copied.c" "$archive" -o "$work/copied" && "$work/copied"
}

# Calls in libb2's order do not compile with this header, nor those in this order with libb2's: WORDS FOR THE COMPILER..
other_argument_order_is_refused() {
    local folder order
    declare -A calls=([$reference]='blake2b(out, 64, "abc", 3, NULL, 0)' [$libb2]='blake2b(out, "abc", NULL, 64, 3, 0)')
    for folder in "$reference" "$libb2"; do
        for order in "$reference" "$libb2"; do
            printf '%s\n' '#include <blake2.h>' "int main(void) { unsigned char out[64]; return ${calls[$order]}; }" \
                >"$work/order.c"
            "$@" -I"$folder" -fsyntax-only "$work/order.c"
            [ $(($? == 0)) -eq $([ "$folder" = "$order" ] && echo 1 || echo 0) ] || return
        done
    done
}

# The reference code's own self-test, of a copy that has it, over the header here. The known answers are libb2's.
reference_self_test_passes() {
    sed -n '/^#if defined(BLAKE2B_SELFTEST)/,$p' "$fetched/btrfs-progs/crypto/blake2b-ref.c" >"$work/self.c" &&
        cc -DBLAKE2B_SELFTEST -DBLAKE2_KAT_LENGTH=KAT_LENGTH -include stdio.h -include "$reference/blake2.h" \
            -I"$fetched/libb2/src" "$work/self.c" "$archive" -o "$work/self" && [ "$("$work/self")" = ok ]
}

# reference.c over the reference code's own BLAKE2b, in that copy.
reference_code_behaves_as_documented() {
    local copy=$fetched/btrfs-progs
    mkdir -p "$work/own" && cp "$copy"/crypto/blake2{,-impl}.h "$work/own" &&
        cc -std=gnu99 -w -I"$work/own" -I"$include" -I"$copy" "$tests/reference.c" \
            "$copy/crypto/blake2b-ref.c" "$copy/common/cpu-utils.c" "$archive" -o "$work/reference" &&
        "$work/reference"
}

test_reference_names() {
    local family
    for family in b s bp sp xb xs; do
        check "the reference code's names, blake2$family" reference_names_conform $family -I"$reference"
    done
    check "a copy of the header is empty after it" own_header_copy_becomes_empty
    check "the other order of arguments is refused in C" other_argument_order_is_refused cc -Werror=int-conversion
    needs c++
    check "the reference code's names from C++" cpp_program_links_reference_names
    check "the other order of arguments is refused in C++" other_argument_order_is_refused c++ -x c++
    needs clang
    check "clang warns of nothing" clang -std=c99 -Weverything -Wno-reserved-id-macro -Wno-reserved-identifier -Werror \
        -I"$reference" -fsyntax-only -include blake2.h "$empty"
    needs_sources btrfs-progs libb2
    check "the reference code's self-test over the header" reference_self_test_passes
    check "what is said of the reference code itself" reference_code_behaves_as_documented
}

run_part_of_tests test_reference_names
