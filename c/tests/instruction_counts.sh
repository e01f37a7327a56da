#!/usr/bin/env bash
# Counts the instructions that calls of the C library need (repeat_call.c): four leaves of a tree, four messages or
# states of BLAKE2b and eight of BLAKE2s, which the build for x86-64-v3 hashes in parallel, need fewer than one by one,
# since no digest shows whether they were. The build for x86-64-v2 gains only about 1 in 100, so there these are
# skipped. If valgrind, which counts them, is absent, all are skipped. secrets.sh tests that the time of a comparison
# depends on no byte.
source "$(dirname "$(readlink -f "$0")")/common.sh"
. "$tests/choosing.sh"

# The count of a task of the program, of what its function and all that it calls need, or nothing: TASK SIZE
instruction_count_of_task() {
    local count
    count=$(instruction_count "--toggle-collect=$1" "$work/calls" "$1" 1 "$2") && [ "$count" -gt 1000 ] && echo "$count"
}

# Whether a task takes at most this many hundredths of an instruction for each of its bytes: TASK LENGTH MOST
takes_at_most_per_byte() {
    local count
    count=$(instruction_count_of_task "$1" "$2") && echo "$count instructions" && [ $((100 * count)) -le $(($3 * $2)) ]
}

# Whether it takes at most this many hundredths of the instructions of another: TASK OTHER SIZE MOST
takes_at_most_share_of() {
    local count other
    count=$(instruction_count_of_task "$1" "$3") && other=$(instruction_count_of_task "$2" "$3") &&
        echo "$count instructions, and $other one by one" &&
        [ $((100 * count)) -le $(($4 * other)) ]
}

# The build that runs here, by the name of its function in a count. Where the library holds one
# build alone, its line for pkg-config says which.
newest_build_of_processor() {
    valgrind --tool=callgrind --callgrind-out-file="$work/count" "$work/calls" many_blake2b 1 1 >"$work/log" 2>&1 ||
        return 1
    case $(grep -o 'vulfsjor_ffi_blake2b_many_[0-9_]*_v[234]' "$work/count" | sort -u) in
        *_v2) echo x86-64-v2 ;;
        *_v3) echo x86-64-v3 ;;
        *) sed -n 's/^Description: .* for \(x86-64-v[23]\)$/\1/p' "$prefix/lib/pkgconfig/vulfsjor.pc" ;;
    esac
}

tree_leaves_are_hashed_in_parallel() {
    local count
    # Five and nine leaves: a state closes its first leaf alone, and takes four only where a byte
    # follows them.
    check "an update of five leaves and a byte" takes_at_most_share_of leaves_{at_once,in_turn} 5 85
    check "an update of nine leaves and a byte" takes_at_most_share_of leaves_{at_once,in_turn} 9 80
    # One call for the whole input has its first four leaves at once too, with nothing behind them.
    check "the root of four leaves" takes_at_most_per_byte root $((4 * 65536)) 450
    check "the root of five leaves and a byte" takes_at_most_per_byte root $((5 * 65536 + 1)) 450
    for count in 4 8; do check "blake2b_many, $count messages" takes_at_most_share_of {many,each}_blake2b $count 80; \
        done
    for count in 8 16; do check "blake2s_many, $count messages" takes_at_most_share_of {many,each}_blake2s $count 60; \
        done
    for count in 4 8; do check "update_many, $count of BLAKE2b" takes_at_most_share_of {states,alone}_blake2b $count \
        80; done
    for count in 8 16; do check "update_many, $count of BLAKE2s" takes_at_most_share_of {states,alone}_blake2s $count \
        60; done
}

test_instruction_counts() {
    if ! has valgrind; then
        skip "the counts of instructions" "no valgrind"
        return
    fi
    check "repeat_call.c" cc -O0 -I"$include" -o "$work/calls" "$tests/repeat_call.c" "$archive" -Wl,-z,now || return
    case $(newest_build_of_processor) in
        x86-64-v3) tree_leaves_are_hashed_in_parallel ;;
        x86-64-v2) skip "leaves and messages in parallel" "the build for x86-64-v2 gains little" ;;
        *) fail "the name of the build that runs here" "$work/log" ;;
    esac
}

run_part_of_tests test_instruction_counts
