#!/usr/bin/env bash
# Tests a tree in parts, by threads, and the programs of c/examples that hash trees.
source "$(dirname "$(readlink -f "$0")")/common.sh"

# A number of random turns: of those of the full test a twelfth.
random_turn_count() { [ -n "${VULFSJOR_TEST_HUGE-}" ] && echo "$1" || echo $(($1 / 12)); }

# Compiles a program from these files and words.
compile_threads() {
    local program=$1
    shift
    cc -std=gnu99 -g "${warnings[@]}" -I"$include" -o "$program" "$@" "$archive" -pthread
}

# The edges of a tree in parts, and this many random messages.
tree_part_edges_pass() {
    local turns=$1
    shift
    cc -std=c99 -g "${warnings[@]}" -I"$include" "$@" -o "$work/parts" "$tests/tree_parts.c" \
        "$archive" && "$work/parts" "$turns"
}

# threads.c with these words, over the installed archive.
installed_threads_test_passes() {
    compile_threads "$work/threads" -O2 "$tests/threads.c" "$prefix/lib/libvulfsjor-threads.a" &&
        in_time "$work/threads" "$work/files" "$(random_turn_count 200)"
}

# threads.c with these words, where each few bytes have a thread of their own.
threads_test_passes_with() {
    compile_threads "$work/threads" -DLEAST_BYTES=1 "$@" "$tests/threads.c" "$here/threads.c" &&
        in_time "$work/threads" "$work/files" "$(random_turn_count 60)"
}

# thread_faults.c with these words, and as many threads as in the library or as the words say.
thread_faults_are_handled_with() {
    compile_threads "$work/faults" "$@" "$tests/thread_faults.c" && in_time "$work/faults" "$work/files"
}

# All functions of it, of which some need a thread for each few bytes, and the others the library's number.
all_thread_faults_are_handled_with() {
    thread_faults_are_handled_with -DLEAST_BYTES=1 "$@" && thread_faults_are_handled_with "$@"
}

# Both programs, with each number of threads.
threads_and_faults_pass_with() { threads_test_passes_with "$@" && all_thread_faults_are_handled_with "$@"; }

# The same by a function with a sanitizer, where memory that is not there is refused as without one.
faults_pass_under_sanitizer() {
    TSAN_OPTIONS=allocator_may_return_null=1 ASAN_OPTIONS=allocator_may_return_null=1 \
        "$1" -O1 "-fsanitize=$2" -fno-sanitize-recover=all "${@:3}"
}

# Compiles a program of c/examples with the words of this name for pkg-config.
compile_example() {
    cc -O2 "${warnings[@]}" "$here/examples/$1.c" $(pkg_config_words "$2") -o "$work/$1"
}

# Files of several lengths in a folder of their own.
make_files_of_several_lengths() {
    local length
    mkdir -p "$work/trees" && cd "$work/trees" && mkdir -p folder || return 1
    for length in 0 1 65536 65537 262144 3000000; do
        [ -e file_$length ] || head -c $length /dev/urandom >file_$length || return 1
    done
}

# Calls of a program, each with the words of a text, that end with this status and a message, and without output:
# STATUS PROGRAM TEXT..
program_refuses_words() {
    local status=$1 program=$2 words said
    for words in "${@:3}"; do
        said=$(eval "'$program' $words" 2>"$work/said")
        [ $? -eq "$status" ] && [ -z "$said" ] && [ -s "$work/said" ] || { echo "$words" && return 1; }
    done
}

tree_sum_example_matches_hashlib() {
    local sum=$work/tree_sum words
    compile_example tree_sum vulfsjor-threads && make_files_of_several_lengths || return 1
    # The bytes of a leaf, and the options.
    for words in "65536 --threads 1" "65536 --threads=3" "65536 --threads 0" "1000 --leaf 1000" \
        "4294967295 --leaf 4294967295" 65536; do
        set -- $words
        "$sum" "${@:2}" file_* | diff <(roots_by_hashlib $1 file_*) - &&
            "$sum" "${@:2}" - file_1 <file_65537 | diff <(roots_by_hashlib $1 - file_1 <file_65537) - || return 1
    done
    cat file_3000000 | "$sum" | diff <(roots_by_hashlib 65536 - <file_3000000) - || return 1
    # standard input from where it stands, and to its end
    { head -c 5 >head && "$sum" && "$sum" -; } <file_262144 >said && tail -c +6 file_262144 >rest &&
        { roots_by_hashlib 65536 - <rest && roots_by_hashlib 65536 - </dev/null; } | diff - said ||
        return 1
    ! "$sum" file_1 absent folder file_0 >said 2>errors &&
        roots_by_hashlib 65536 file_1 file_0 | diff - said &&
        printf 'tree_sum: %s\n' 'absent: No such file or directory' 'folder: Is a directory' |
        diff - errors || return 1
    ! "$sum" file_1 >/dev/full && "$sum" --help | grep -q '^usage' || return 1
    program_refuses_words 2 "$sum" "--leaf "{0,4294967296,-1,"''",1x,"' 1'",18446744073709551617}" file_1" \
        "--threads x file_1" "--what file_1" --leaf
}

# A file in parts of this many leaves, by xargs, which keeps the order of one process.
hash_file_in_parts() {
    local length
    length=$(stat -c %s "$1")
    seq 0 "$2" $(((length - 1) / 65536)) | xargs -I{} "$work/tree_parts" leaves "$1" {} "$2" |
        "$work/tree_parts" root "$1"
}

tree_parts_example_matches_hashlib() {
    local parts=$work/tree_parts name count
    compile_example tree_parts vulfsjor-static && make_files_of_several_lengths || return 1
    for name in file_*; do
        for count in 1 7 16 100; do
            hash_file_in_parts "$name" $count | diff <(roots_by_hashlib 65536 "$name") - || return 1
        done
    done
    [ "$("$parts" leaves file_3000000 45 9223372036854775807 | wc -c)" -eq 64 ] || return 1
    "$parts" leaves file_3000000 0 100 >all &&
        "$parts" leaves file_3000000 40 3 | cmp - <(tail -c +2561 all | head -c 192) ||
        return 1
    # a part that is missing, one that came twice, and a digest in pieces
    head -c 2880 all | program_refuses_words 1 "$parts" "root file_3000000" &&
        head -c 2943 all | program_refuses_words 1 "$parts" "root file_3000000" &&
        { cat all && head -c 64 all; } | program_refuses_words 1 "$parts" "root file_3000000" || return 1
    program_refuses_words 1 "$parts" "leaves file_3000000 46 1" "leaves absent 0 1" "leaves /dev/null 0 1" \
        "root absent" \
        </dev/null || return 1
    program_refuses_words 1 "$parts" "root file_3000000" <folder &&
        grep -q 'standard input: Is a directory' "$work/said" &&
        ! "$parts" leaves file_3000000 0 1 2>"$work/said" >/dev/full &&
        ! "$parts" root file_3000000 <all >/dev/full || return 1
    # a file with fewer bytes than it says
    name=/sys/kernel/mm/transparent_hugepage/enabled
    [ ! -r $name ] || { program_refuses_words 1 "$parts" "leaves $name 0 1" &&
        grep -q 'Input/output error' "$work/said"; } || return 1
    program_refuses_words 2 "$parts" "leaves file_1 "{-1,x,"''",1x,9223372036854775808}" 1" \
        "leaves file_1 0 "{0,-1,x,"''",1x,9223372036854775808} "leaves file_1 0" "" root "what file_1"
}

# The line of c/examples/tree_parts.c with GNU parallel.
parallel_command_example_works() {
    local line
    line=$(sed -n '/^ \*   seq 0/,/root FILE$/s/^ \*  *//p' "$here/examples/tree_parts.c")
    cd "$work/trees" && cp "$work/tree_parts" . && HOME=$work sh -c "${line//FILE/file_3000000}" |
        diff <(roots_by_hashlib 65536 file_3000000) -
}

test_tree_threads() {
    local kind program
    mkdir "$work/files"
    if ! has python3; then
        skip "a tree in parts, and by threads" "no python3"
        return
    fi
    check "tree_parts.c" tree_part_edges_pass "$(random_turn_count 20000)" -O2
    check "threads.c, with the installed library" installed_threads_test_passes
    check "thread_faults.c" all_thread_faults_are_handled_with -O2
    check_huge "threads.c and thread_faults.c" threads_and_faults_pass_with -O2
    # What shows races looks at threads, and what shows wrong accesses at faults; in the full test both at both.
    for kind in thread address,undefined; do
        [ "$kind" = thread ] && program=threads passes=threads_test_passes_with ||
            program=faults passes=thread_faults_are_handled_with
        needs
        links_with_words "-fsanitize=$kind" && "$work/linked" || missing="cc has none"
        check "$program with the sanitizer $kind" faults_pass_under_sanitizer $passes "$kind" -DLEAST_BYTES=1
        check_huge "threads.c and thread_faults.c, with the sanitizer $kind" faults_pass_under_sanitizer \
            threads_and_faults_pass_with "$kind"
    done
    needs_sanitizers
    check "tree_parts.c, with sanitizers" tree_part_edges_pass "$(random_turn_count 20000)" -O1 "${sanitizers[@]}"
    needs
    check "the program c/examples/tree_sum.c" tree_sum_example_matches_hashlib
    check "the program c/examples/tree_parts.c" tree_parts_example_matches_hashlib
    needs parallel
    check "c/examples/tree_parts.c with GNU parallel" parallel_command_example_works
}

run_part_of_tests test_tree_threads
