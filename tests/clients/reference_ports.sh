#!/usr/bin/env bash
# Programs with a copy of BLAKE2's reference code, over the header with its names, ported by the lines of c/PORTING.md:
# btrfs-progs' test of hashes, and Argon2, as cryptsetup has it, against Debian's libargon2.
source "$(dirname "$(readlink -f "$0")")/common.sh"

# The lines of the page that begin like this, for this installation.
porting_page_lines_from() { sed -n "s|^    \($1.*\)|\1|p" "$here/PORTING.md" | sed "s|FOLDER|$prefix|"; }

# btrfs-progs' hash-vectest: ARCHIVE
run_btrfs_hash_vectest() {
    local progs=$fetched/btrfs-progs flags headers=$work/headers/btrfs
    mkdir -p "$headers" && cp "$progs"/kernel-lib/*.h "$progs"/include/*.h "$headers" &&
        flags=$(porting_page_lines_from -include) && [ -n "$flags" ] && cd "$progs" &&
        eval "cc -std=gnu90 -ffunction-sections -Wl,--gc-sections -D_GNU_SOURCE -DCRYPTOPROVIDER_BUILTIN=1 -I. \
            -Iinclude -I'$work/headers' $flags crypto/{hash-vectest,hash,crc32c,xxhash,sha224-256}.c \
            common/{messages,cpu-utils}.c '$1' -o '$work/vectest'" && "$work/vectest"
}

# Argon2, as a shared library: ARCHIVE
build_argon2() {
    local copy=$work/argon2 lines
    rm -rf "$copy" && cp -r "$fetched/cryptsetup/lib/crypto_backend/argon2" "$copy" && cd "$copy" &&
        lines=$(porting_page_lines_from 'sed -i') && [ "$(wc -l <<<"$lines")" -eq 2 ] && eval "$lines" &&
        [ "$(diff -r "$fetched/cryptsetup/lib/crypto_backend/argon2" . | grep '^>')" = \
            "> #include <vulfsjor-reference/blake2.h>" ] &&
        cc -std=c89 -Wall -Werror -O2 -pthread -shared -fPIC -I. -I"$include" argon2.c core.c \
            encoding.c ref.c thread.c blake2/blake2b.c "$1" -o libargon2.so
}
argon2_builds_agree() {
    build_argon2 "$1" && python3 "$clients/argon2_rounds.py" "$work/argon2/libargon2.so" libargon2.so.1
}

test_ports() {
    check "a planted byte" copy_with_wrong_iv_bit "$archive" "$work/planted.a"
    needs_sources btrfs-progs
    check "btrfs-progs' hashes" command_prints_line_times 12 'blake2b.* vector [0-9]*: match' run_btrfs_hash_vectest \
        "$archive"
    check "btrfs-progs' hashes with a planted byte" command_prints_line_times 12 'blake2b.* vector [0-9]*: MISMATCH' \
        run_btrfs_hash_vectest "$work/planted.a"
    needs_sources cryptsetup
    has python3 || missing="no python3"
    python3 -c 'import ctypes; ctypes.CDLL("libargon2.so.1")' 2>/dev/null || missing="no libargon2-1"
    check "Argon2" command_prints_line_times 1 '300 the same, 0 different' argon2_builds_agree "$archive"
    check "Argon2 with a planted byte" command_prints_line_times 1 '0 the same, 300 different' argon2_builds_agree \
        "$work/planted.a"
}

run_part_of_tests test_ports
