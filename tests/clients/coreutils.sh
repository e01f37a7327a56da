#!/usr/bin/env bash
# The tests that coreutils has of its b2sum, over the program here: two of digests, with coreutils' own cksum and other
# sums from the PATH, and two of options and messages.
source "$(dirname "$(readlink -f "$0")")/common.sh"

# One of coreutils' tests, with this program as its b2sum, in the environment that its Makefile makes: PROGRAM TEST
# BUILT PROGRAMS..
run_coreutils_test() {
    local source=$fetched/coreutils build=$work/coreutils version=9.1
    rm -rf "$build" && mkdir -p "$build"/{src,tmp} && cp "$1" "$build/src/b2sum" && touch "$build/config.h" &&
        cd "$build" || return
    # The version that --version is compared with.
    [ "$2" != help-version.sh ] || version=$(./src/b2sum --version | sed -n '1s/.* //p')
    local words=(env VERSION="$version" PACKAGE_VERSION="$version" abs_top_builddir="$build" abs_top_srcdir="$source"
        abs_srcdir="$source" srcdir="$source" top_srcdir="$source" CONFIG_HEADER="$build/config.h"
        built_programs="${*:3}" CU_TEST_NAME="coreutils,$2" fail=0 host_os=linux-gnu PERL=perl SHELL=/bin/sh AWK=awk
        EGREP='grep -E' TMPDIR="$build/tmp" LC_ALL=C PATH="$build/src:$PATH")
    case $2 in
        *.sh) "${words[@]}" /bin/sh "$source/tests/misc/$2" ;;
        *) "${words[@]}" perl -w -I"$source/tests" -MCuSkip -MCoreutils -M"CuTmpdir qw($2)" "$source/tests/misc/$2" ;;
    esac </dev/null 9>&2
}
# Whether the test fails, and is not skipped, which is status 77.
coreutils_test_fails() { run_coreutils_test "$@"; [ $? -eq 1 ]; }

test_coreutils() {
    local name sums=(b2sum cksum md5sum sum sha{1,224,256,384,512}sum)
    missing= && check "b2sum" assemble_all b2sum &&
        check "a planted byte" copy_with_wrong_iv_bit "$work/b2sum" "$work/planted"
    needs_sources coreutils
    [[ $(cksum --version 2>&1) == "cksum (GNU coreutils) 9.1"* ]] || missing="no cksum of coreutils 9.1"
    for name in b2sum.sh cksum-a.sh; do
        check "coreutils' $name" run_coreutils_test "$work/b2sum" $name "${sums[@]}"
        check "coreutils' $name with a planted byte" coreutils_test_fails "$work/planted" $name "${sums[@]}"
    done
    for name in help-version.sh invalid-opt.pl; do
        check "coreutils' $name" run_coreutils_test "$work/b2sum" $name b2sum
        check "coreutils' $name without a program" coreutils_test_fails "$(command -v false)" $name b2sum
    done
}

run_part_of_tests test_coreutils
