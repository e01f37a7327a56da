# What the parts of the tests of the C library share; a part reads it by `source` and ends with `run_part_of_tests
# FUNCTION`, or `run_part_of_tests FUNCTION cases` if it needs the conformance cases. The library is the one in the
# folder VULFSJOR_INSTALLED, and the cases are those in the folder VULFSJOR_CONFORMANCE, if these are set, as by ./test.
declare -F run_part_of_tests >/dev/null && return
set -u
source "$(dirname "$(readlink -f "${BASH_SOURCE[0]}")")/../../tests/tap.sh"
here=$top/c
tests=$here/tests
prefix=${VULFSJOR_INSTALLED:-$work/installed}
# In these words, so that install.sh does not compare dist/ with the sources each time.
dist=$top/./dist
conforming=${VULFSJOR_CONFORMANCE:-$work/conforming}
# The hashes of the conformance cases.
hashes=(blake2b blake2s blake2bp blake2sp blake2xb blake2xs tree)
# One of each kind and length of words, or all in the full test: for a system or processor whose code is the same.
kinds=(blake2b blake2sp blake2xb tree)
[ -z "${VULFSJOR_TEST_HUGE-}" ] || kinds=("${hashes[@]}")

include=$prefix/include
libb2=$include/vulfsjor-libb2
reference=$include/vulfsjor-reference
archive=$prefix/lib/libvulfsjor.a
shared=$prefix/lib/libvulfsjor.so
warnings=(-Wall -Wextra -Wpedantic -Werror)
# How programs are optimized that run for less time than that takes.
quick=$([ -n "${VULFSJOR_TEST_HUGE-}" ] && echo -O2 || echo -O0)
empty=$work/empty.c
echo 'int main(void) { return 0; }' >"$empty"

# The level of the processor here, if it is an x86-64.
level=$("$top/tests/processor.sh")
level=${level#x86-64-v}

# Whether the library here is for x86-64, and so chooses one of its builds.
is_x86() { [[ $(cc -dumpmachine) == x86_64-* ]]; }

# Whether the compiler links a program with these words.
links_with_words() { cc -o "$work/linked" "$empty" "$@" >/dev/null 2>&1; }

# All files and links below a folder, by their paths in it.
files_below() { (cd "$1" && find . -type f -o -type l | sed 's/^\.\///' | LC_ALL=C sort); }

# The files of an installation, with this in the place of lib/, for Linux or another system: LIB [windows|macos]
expected_installed_files() {
    local files=(include/vulfsjor{.h,.hpp,_threads.h} include/vulfsjor-{libb2,reference}/blake2.h
        "$1"libvulfsjor{,-libb2,-threads}.a "$1"pkgconfig/vulfsjor{,-static,-threads}.pc
        "$1"cmake/vulfsjor/vulfsjor-config{,-version}.cmake "$1"vulfsjor-libb2/pkgconfig/libb2.pc)
    [ "${2-}" = windows ] || files+=("$1"libvulfsjor-static.a "$1"vulfsjor-libb2/libb2.a)
    case ${2-} in
        windows) files+=(bin/libvulfsjor-1.dll "$1"libvulfsjor.dll.a) ;;
        macos) files+=("$1"libvulfsjor{.1,}.dylib) ;;
        *) files+=("$1"libvulfsjor.so{,.1,".$(version)"}) ;;
    esac
    printf '%s\n' "${files[@]}" | LC_ALL=C sort
}

# Whether a folder has these files, until an uninstallation of a copy of it, which leaves none: FOLDER [windows|macos]
files_are_installed_and_removed() {
    files_below "$1" | diff <(expected_installed_files lib/ "${2-}") - && cp -a "$1" "$work/again" &&
        "$here/install.sh" --uninstall "$work/again" && [ -z "$(files_below "$work/again")" ] && rm -r "$work/again"
}

# The words for a program that ends at a fault in memory, and what the next tests need for it.
sanitizers=(-fsanitize=address,undefined -fno-sanitize-recover=all)
needs_sanitizers() {
    needs
    links_with_words "${sanitizers[@]}" && "$work/linked" || missing="cc has none"
}

# Whether each object of these archives has a mark for branch protection, by the binutils of this
# prefix: MARK PREFIX ARCHIVE..
objects_have_mark() {
    local mark=$1 binutils=$2 archive object folder=$work/objects
    shift 2
    for archive; do
        rm -rf "$folder" && mkdir "$folder" && (cd "$folder" && "${binutils}ar" x "$archive") || return 1
        for object in "$folder"/*.o; do
            "${binutils}readelf" -nW "$object" | grep -q "Properties: $mark\$" ||
                { echo "no $mark: $archive, $object" && return 1; }
        done
    done
}

# Prints the path of a copy of libvulfsjor-libb2.a without the member that refuses to be linked with all others: ARCHIVE
copy_without_whole_guard() {
    cp "$1" "$work/linked_whole.a" && ar d "$work/linked_whole.a" whole.o && echo "$work/linked_whole.a"
}

# Somebody else's shared library, linked with one of the archives, shows none of its functions.
archive_names_stay_hidden() {
    local archive=$1 headers=$2 compiler=${3-cc} binutils=
    [[ $compiler != *-gcc ]] || binutils=${compiler%gcc}
    printf '%s\n' '#include <vulfsjor.h>' \
        'int theirs(void *out) { return vulfsjor_blake2b(out, 64, 0, 0, 0, 0); }' \
        >"$work/theirs.c"
    "$compiler" -fPIC -shared -I"$headers" "$work/theirs.c" -Wl,--whole-archive "$archive" \
        -Wl,--no-whole-archive -o "$work/libtheirs.so" &&
        [ "$("${binutils}nm" -D --defined-only --format=posix "$work/libtheirs.so" | cut -d ' ' -f 1)" = theirs ]
}

# The words of a test program for a family: b, s, bp, sp, xb or xs.
family_macro_words() {
    [[ $1 != *s* ]] || echo -DTEST_S
    [[ $1 != *p ]] || echo -DTEST_P
    [[ $1 != x* ]] || echo -DTEST_X
}

# The same for a hash of the conformance cases.
hash_macro_words() { if [ "$1" = tree ]; then echo -DTEST_T; else family_macro_words "${1#blake2}"; fi; }

# A test of code that all families share: of BLAKE2s and its kin, which repeat BLAKE2b, only in the full test.
check_family_once() { if [[ $family == *s* ]]; then check_huge "$@"; else check "$@"; fi; }

# libb2.c with these words behind it. libb2's threads would spin while they wait.
run_libb2_names_test() {
    cc -std=c99 -g $quick "${warnings[@]}" $(family_macro_words "$1") -I"$include" -o "$work/libb2" "$tests/libb2.c" \
        "${@:2}" &&
        OMP_WAIT_POLICY=passive GOMP_SPINCOUNT=0 "$work/libb2"
}

# The words for a program over a library of this name.
pkg_config_words() {
    case $1 in
        vulfsjor-static) echo "-I$include $archive" ;;
        vulfsjor-threads) echo "-I$include $prefix/lib/libvulfsjor-threads.a $archive -pthread" ;;
    esac
}

readme_example_digest() {
    python3 -c 'import hashlib, sys
print(hashlib.blake2b(b"hello world", digest_size=32, key="".join(sys.argv[1:]).encode()).hexdigest())' "$@"
}

# The conformance cases, unless ./test has written them.
write_conformance() {
    [ -d "$conforming" ] || { mkdir "$conforming" && "$top/tests/conformance/write.py" "$conforming"; }
}

# One of so many cases of a hash, for what is slow: HASH NUMBER
write_every_nth_case() { awk -v RS= -v ORS='\n\n' "NR % $2 == 1" "$conforming/$1.txt" >"$work/some_$1"; }

# conformance.c of a hash, compiled with these words, under memcheck, which sees branches and addresses by secrets, over
# those cases: HASH WORDS..
cases_branch_on_no_secret() {
    cc -std=c99 "${warnings[@]}" -DTEST_SECRETS -I"$include" $(hash_macro_words "$1") "$tests/conformance.c" "${@:2}" \
        -o "$work/secrets" && valgrind -q --error-limit=no "$work/secrets" "$work/some_$1"
}
# What a program takes of the builds in the archive (choose.c), as an object to link before that: WORD NAME
compile_choice_of_build() { cc -std=c99 -O2 -I"$include" "$1" -c "$here/choose.c" -o "$work/$2.o"; }
has_memcheck() { has valgrind && echo '#include <valgrind/memcheck.h>' | cc -E - >/dev/null 2>&1; }

# Runs the tests of a part, unless its file is read by another part for its functions.
run_part_of_tests() {
    [ "${BASH_SOURCE[1]}" = "$0" ] || return 0
    if ! has cc; then
        skip "all tests" "no cc"
    elif { [ "$prefix" = "${VULFSJOR_INSTALLED-}" ] ||
        check "install.sh" "$here/install.sh" "$prefix"; } &&
        { [ $# -eq 1 ] || ! has python3 || check "the conformance cases are written" write_conformance; }; then
        "$1"
    fi
    finish
}
