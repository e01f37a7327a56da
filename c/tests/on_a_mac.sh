#!/bin/sh
# Tests the library and the programs on macOS, by the C compiler, python3 and a plain sh: two test
# programs of the library over the test vectors and next to hashlib, one of its threads, a digest of b2,
# and digests, roots, a check and messages of b2sum. Prints the system, a line for each test, and what a failed one
# said. The status is 0 if none failed. It runs on Linux too: ./test names the degree of optimization, -O0 in place of
# -O2, and the folder of the cases, VULFSJOR_CONFORMANCE. docs/PORTABLE.md says what to do with the lines.
cd "$(dirname "$0")/../.." || exit 1
work=$(mktemp -d) || exit 1
cc=${CC:-cc} level=${1:--O2}
trap 'rm -rf "$work"' EXIT
failed=0

run_and_print_result() {
    name=$1
    shift
    if "$@" >"$work/log" 2>&1; then
        echo "ok - $name"
    else
        failed=1
        echo "not ok - $name" && tail -n 20 "$work/log"
    fi
}
compile_test() { $cc -std=c99 "$level" $define -Ic/include "c/tests/$1.c" c/choose.c "$work/library.o" -o "$work/$1"; }
threads_program_works() {
    processors=$(nproc 2>/dev/null || getconf _NPROCESSORS_ONLN)
    $cc -std=gnu99 "$level" -Ic/include c/tests/system.c c/threads.c c/choose.c "$work/library.o" -pthread \
        -o "$work/system" && (cd "$work" && ./system "$processors")
}
b2_digest_matches_hashlib() {
    [ "$(printf abc | ./b2 sum b512)" = "$(printf abc | python3 -c 'import hashlib, sys
print(hashlib.blake2b(sys.stdin.buffer.read()).hexdigest())')" ]
}

b2sum_digests_match_hashlib() {
    b2sum=$PWD/b2sum
    cd "$work" && mkdir -p names && printf abc >'names/café' && head -c 3000000 /dev/zero >zeros &&
        python3 -c 'import hashlib, sys
for name in sys.argv[1:]:
    print(hashlib.blake2b(open(name, "rb").read()).hexdigest(), "", name)' names/* zeros >wanted &&
        "$b2sum" names/* zeros >said && diff wanted said &&
        "$b2sum" --check --strict said >checked && [ "$(wc -l <checked)" -eq 2 ] &&
        "$b2sum" --tree 65536 zeros >roots && "$b2sum" --tree 65536 --threads 1 zeros | diff roots - &&
        "$b2sum" --tree 65536 <zeros | sed 's/(-)/(zeros)/' | diff roots - && printf key >key &&
        "$b2sum" --key-file key zeros >/dev/null && ! "$b2sum" names none >said 2>errors &&
        printf 'b2sum: %s\n' 'names: Is a directory' 'none: No such file or directory' |
        diff errors - && echo x >>zeros && ! "$b2sum" --check wanted >said 2>errors &&
        grep -x 'zeros: FAILED' said
}

uname -srm
[ "$(uname -s)" != Darwin ] || sw_vers
$cc --version
run_and_print_result "the library is assembled" $cc -c dist/vulfsjor.S -o "$work/library.o"
cases=${VULFSJOR_CONFORMANCE:-$work}
[ "$cases" != "$work" ] ||
    run_and_print_result "the conformance cases are written" python3 tests/conformance/write.py "$work" blake2b blake2s
for family in b s; do
    define=
    [ $family = b ] || define=-DTEST_S
    run_and_print_result "conformance.c is compiled, blake2$family" compile_test conformance
    run_and_print_result "conformance.c, blake2$family" "$work/conformance" "$cases/blake2$family.txt"
    run_and_print_result "edge_cases.c is compiled, blake2$family" compile_test edge_cases
    run_and_print_result "edge_cases.c, blake2$family" "$work/edge_cases"
done
run_and_print_result "trees by threads" threads_program_works
run_and_print_result "b2 sum" b2_digest_matches_hashlib
run_and_print_result "b2sum" b2sum_digests_match_hashlib
exit $failed
