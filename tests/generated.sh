#!/usr/bin/env bash
# Compares files that are generated with what they are generated from.
set -u
source "$(dirname "$(readlink -f "$0")")/tap.sh"

check "a test that does not end is ended" eval '! longest=1 in_time sleep 3607 && in_time true && ! in_time false'
test_only_selects_by_name() {
    diff <(VULFSJOR_TEST_ONLY='^b|d$' && check a false && check bc true && check cd false
        check c false && check d true) - <<'END'
ok 2 - a # SKIP VULFSJOR_TEST_ONLY is another
ok 3 - bc
not ok 4 - cd
ok 5 - c # SKIP VULFSJOR_TEST_ONLY is another
ok 6 - d
END
}
check "one test is run by its name" test_only_selects_by_name
check "dist/ was made from these sources" "$top/tools/dist.sh" current
needs python3
check "the files of BLAKE2s are what tools/twins.py makes of those of BLAKE2b" "$top/tools/twins.py" --check
# In a copy: a made file, the ends of its lines, a made paragraph, the table of words, an attribute and a source that
# are others are reported, and what is made is made again. A paragraph that is new has its twin.
twins_are_compared() {
    local copy=$work/copy hasher=crates/blake2/src/hashers/blake2s.rt output=crates/blake2_xof/src/reader/blake2x words
    local header=c/include/vulfsjor.h context=crates/blake2/src/contexts/blake2s.rt
    mkdir "$copy" && tar -C "$top" --exclude=out --exclude=must-fail --exclude=data -cf - crates tools .gitattributes \
        c/include rust/src | tar -C "$copy" -xf - && cd "$copy" && tools/twins.py --check || return 1
    echo "// more" >>$hasher && sed -i 's/$/\r/' $context &&
        sed -i '/^.. -- BLAKE2s /,/^.. -- BLAKE2bp/s/Absorbs inlen/Takes inlen/' $header &&
        sed -i 's|^/. -- BLAKE2s ./$|int vulfsjor_blake2b_new(int);\n\n&\n\nint vulfsjor_blake2s_old(int);|' $header &&
        sed -i 's|^by hand: |&none/* |; 0,/^in: .*/s//&\nno such word ~> word/' tools/twins.txt &&
        printf '\nin: blake2_none/*\nBLAKE2 ~> BLAKE\n' >>tools/twins.txt &&
        sed -i '/^crates.*_tests/d' .gitattributes && echo "crates/none/** linguist-generated" >>.gitattributes &&
        rm ${output}b.rt && ! tools/twins.py --check >"$work/said" 2>&1 || return 1
    for words in "$hasher is not as it is made" "$context is not as it is made" "no such word" \
        "no file has 'BLAKE2'" "no file has 'none/*'" \
        "blake2s.rt is made" "crates/none/** changes nothing" "${output}s.rt is made from no file" \
        "$header is not as it is made" "vulfsjor_blake2s_old is made from nothing" "+int vulfsjor_blake2s_new(int);"; do
        grep -F -- "$words" "$work/said" || { cat "$work/said" && return 1; }
    done
    cp "$top"/tools/twins.txt tools/ && tools/twins.py | grep -F $hasher && cmp $hasher "$top/$hasher" &&
        [ ! -e ${output}s.rt ] && ! tools/twins.py --chekc || return 1
    sed -i '/^int vulfsjor_blake2._\(new\|old\)/,+1d' $header && cmp $header "$top/$header"
}
check "a file that is not as tools/twins.py makes it is reported" twins_are_compared
check "the model of the conformance cases has the digests of hashlib" env PYTHONPATH="$top/tests" python3 -c \
    'import oracle, random; oracle.compare_model_with_hashlib(random.Random(7693))'
other_implementations_conform() {
    mkdir "$work/conforming" && "$top/tests/conformance/write.py" "$work/conforming" &&
        "$top/tests/conformance/others.py" --check "$work/conforming"
}
needs python3 go
[ -e /usr/share/gocode/src/golang.org/x/crypto/blake2b ] || missing="no golang-golang-x-crypto-dev"
python3 -c 'import ctypes.util, sys; sys.exit(not ctypes.util.find_library("b2"))' 2>/dev/null || missing="no libb2"
check_huge "the conformance cases over hashlib, libb2 and Go" other_implementations_conform
needs python3
check "choose.c, thunks.h, the exports and the crate for Rust have the functions of vulfsjor.h" \
    "$top/tools/exports.py" --check
check "each place has the version of CHANGELOG.md" "$top/tools/version.py" --check
check "the man pages are what tools/manual.py makes of their sources" "$top/tools/manual.py" --check
man_pages_name_installed_files() { ! tail -qn +2 "$top"/docs/*.1 | grep -E '\.md|\.py|tests/|### |\]\(|example\)'; }
check "the man pages of the programs name no page or test of the repository" man_pages_name_installed_files
man_pages_have_every_function() {
    diff <(functions_of_headers | sort) <(sed -n 's/^\.SS \(vulfsjor_\w*\)()$/\1/p' "$top"/c/man/*.3 | sort)
}
check "the man pages have each function of the headers" man_pages_have_every_function
finish
