#!/usr/bin/env bash
# Tests the library and the program for macOS as far as no Mac is needed: clang compiles and LLVM's
# linker links them for both processors, over headers and a list of functions that stand in for
# Apple's. The functions in C of thunks.h run on an emulated ARM by Apple's calling convention.
# tests/object_formats.py compares the code.
source "$(dirname "$(readlink -f "$0")")/common.sh"
export TMPDIR=$work # where clang leaves empty folders if it compiles for several processors
sdk=$work/sdk
linker=$(command -v ld64.lld || command -v ld64.lld-14)
lipo=$(command -v llvm-lipo || command -v llvm-lipo-14)

# What the library and the programs need of the C library of macOS; clang has the headers that no system has to have.
write_stand_in_sdk() {
    local names
    mkdir -p "$sdk"/usr/{include/{sys,malloc},lib}
    printf '%s\n' '#include <stddef.h>' 'void abort(void);' 'void *malloc(size_t);' \
        'void *realloc(void *, size_t);' 'void free(void *);' >"$sdk/usr/include/stdlib.h"
    printf '%s\n' '#include <stddef.h>' 'void *memcpy(void *, const void *, size_t);' \
        'void *memmove(void *, const void *, size_t);' 'void *memset(void *, int, size_t);' \
        'int memcmp(const void *, const void *, size_t);' 'int strcmp(const char *, const char *);' \
        'int strncmp(const char *, const char *, size_t);' \
        'size_t strlen(const char *);' 'char *strcpy(char *, const char *);' \
        'char *strchr(const char *, int);' 'char *strrchr(const char *, int);' 'char *strerror(int);' \
        >"$sdk/usr/include/string.h"
    printf 'typedef %s;\n' 'long ssize_t' 'long long off_t' >"$sdk/usr/include/sys/types.h"
    printf '%s\n' '#include <stddef.h>' '#include <sys/types.h>' \
        'ssize_t write(int, const void *, size_t);' 'ssize_t read(int, void *, size_t);' \
        'ssize_t pread(int, void *, size_t, off_t);' 'off_t lseek(int, off_t, int);' \
        'int close(int), dup(int), isatty(int);' 'long sysconf(int);' '#define _SC_NPROCESSORS_ONLN 58' \
        'enum { SEEK_SET, SEEK_CUR, STDIN_FILENO = 0, STDOUT_FILENO, STDERR_FILENO };' \
        >"$sdk/usr/include/unistd.h"
    printf '%s\n' 'int openat(int, const char *, int, ...);' \
        'enum { O_RDONLY = 0, O_NONBLOCK = 4, O_DIRECTORY = 0x100000, O_CLOEXEC = 0x1000000,' \
        'AT_FDCWD = -2, AT_SYMLINK_NOFOLLOW = 32 };' >"$sdk/usr/include/fcntl.h"
    printf '%s\n' 'typedef struct folder_stream DIR;' 'struct dirent { char before[21], d_name[1024]; };' \
        'DIR *fdopendir(int);' 'struct dirent *readdir(DIR *);' 'int closedir(DIR *), dirfd(DIR *);' \
        >"$sdk/usr/include/dirent.h"
    printf '%s\n' '#include <sys/types.h>' \
        'struct stat { int st_dev, st_mode; unsigned long long st_ino; off_t st_size; char more[112]; };' \
        'int stat(const char *, struct stat *), fstat(int, struct stat *);' \
        'int fstatat(int, const char *, struct stat *, int);' \
        '#define S_ISREG(m) (((m) & 0170000) == 0100000)' '#define S_ISDIR(m) (((m) & 0170000) == 0040000)' \
        'enum { S_IRGRP = 040, S_IROTH = 04 };' \
        >"$sdk/usr/include/sys/stat.h"
    printf '%s\n' '#include <stddef.h>' '#include <sys/types.h>' \
        'struct iovec { void *iov_base; size_t iov_len; };' \
        'ssize_t readv(int, const struct iovec *, int);' >"$sdk/usr/include/sys/uio.h"
    printf '%s\n' 'struct rlimit { unsigned long long rlim_cur, rlim_max; };' \
        'int setrlimit(int, const struct rlimit *);' '#define RLIMIT_CORE 4' \
        >"$sdk/usr/include/sys/resource.h"
    printf '%s\n' 'struct timespec { long tv_sec, tv_nsec; };' \
        'int clock_gettime(int, struct timespec *);' 'enum { CLOCK_MONOTONIC = 6 };' \
        >"$sdk/usr/include/time.h"
    printf '%s\n' '#include <stddef.h>' 'int snprintf(char *, size_t, const char *, ...);' \
        'int dprintf(int, const char *, ...);' 'typedef struct file FILE;' 'extern FILE *__stdoutp;' \
        '#define stdout __stdoutp' 'int puts(const char *);' 'int fflush(FILE *);' >"$sdk/usr/include/stdio.h"
    printf '%s\n' '#include <stddef.h>' 'size_t malloc_size(const void *);' \
        >"$sdk/usr/include/malloc/malloc.h"
    touch "$sdk/usr/include/sched.h"
    printf '%s\n' '#include <signal.h>' 'typedef struct thread *pthread_t;' \
        'int pthread_create(pthread_t *, const void *, void *(*)(void *), void *);' \
        'int pthread_join(pthread_t, void **);' 'int pthread_setcancelstate(int, int *);' \
        'typedef struct { long signature; char more[56]; } pthread_mutex_t, pthread_cond_t;' \
        'int pthread_mutex_lock(pthread_mutex_t *), pthread_mutex_unlock(pthread_mutex_t *);' \
        'int pthread_cond_wait(pthread_cond_t *, pthread_mutex_t *);' \
        'int pthread_cond_broadcast(pthread_cond_t *);' '#define PTHREAD_CANCEL_DISABLE 0' \
        '#define PTHREAD_MUTEX_INITIALIZER {0, {0}}' '#define PTHREAD_COND_INITIALIZER {0, {0}}' \
        >"$sdk/usr/include/pthread.h"
    printf '%s\n' 'int *__error(void);' '#define errno (*__error())' \
        'enum { EINTR = 4, EIO, EBADF = 9, ENOMEM = 12, EACCES, EINVAL = 22, EFBIG = 27, EAGAIN = 35,' \
        'ENAMETOOLONG = 63, ECANCELED = 89 };' >"$sdk/usr/include/errno.h"
    printf '%s\n' 'void (*signal(int, void (*)(int)))(int);' 'typedef unsigned sigset_t;' \
        'int pthread_sigmask(int, const sigset_t *, sigset_t *);' \
        '#define sigfillset(set) (*(set) = ~0u, 0)' '#define sigdelset(set, n) (*(set) &= ~(1u << ((n) - 1)), 0)' \
        'enum { SIG_SETMASK = 3, SIGBUS = 10, SIGSEGV };' >"$sdk/usr/include/signal.h"
    sed -i '1i #pragma once' "$sdk"/usr/include/{,sys/,malloc/}*.h
    names=$(grep -hv '^#' "$sdk"/usr/include/{,sys/,malloc/}*.h | grep -oE '\w+\(' | tr -d '(')
    printf '%s\n' '--- !tapi-tbd' 'tbd-version: 4' 'targets: [ x86_64-macos, arm64-macos ]' \
        "install-name: '/usr/lib/libSystem.B.dylib'" 'exports:' \
        '  - targets: [ x86_64-macos, arm64-macos ]' \
        "    symbols: [ $(printf '_%s, ' $names {,__}bzero __stdoutp __stack_chk_{fail,guard})" \
        "dyld_stub_binder ]" '...' \
        >"$sdk/usr/lib/libSystem.tbd"
}

# The compiler for a processor, as a command of one word.
write_macos_compiler_command() {
    printf '%s\n' '#!/bin/sh' "exec clang --target=$1-apple-macos11 -isysroot \"$sdk\" \
-fuse-ld=\"$linker\" -mlinker-version=609 -Wno-unused-command-line-argument \"\$@\"" >"$work/$1" &&
        chmod +x "$work/$1"
}

# What is installed; the functions that the library shows; and a program that needs only those.
installs_for_macos() {
    local folder=$work/installed_$1 names=$work/names
    CC=$work/$1 CFLAGS=$quick "$here/install.sh" --from "$dist" "$folder" &&
        files_are_installed_and_removed "$folder" macos &&
        sed -n 's/^ *\(vulfsjor_.*\);$/_\1/p' "$here/vulfsjor.map" | LC_ALL=C sort >"$names" &&
        llvm-nm -gU "$folder/lib/libvulfsjor.1.dylib" | awk '{ print $3 }' | LC_ALL=C sort |
        diff - "$names" &&
        llvm-objdump --macho --dylib-id "$folder/lib/libvulfsjor.1.dylib" |
        grep -qx '@rpath/libvulfsjor.1.dylib'
}

# Whether an object is for both processors of a Mac, with the functions of each.
object_is_universal() {
    "$lipo" "$1" -verify_arch arm64 x86_64 &&
        llvm-nm --arch=x86_64 "$1" | grep -q ' T _vulfsjor_ffi_blake2b_.*_v4$' &&
        llvm-nm --arch=arm64 "$1" | grep -q ' T _vulfsjor_ffi_blake2b_.*_arm$'
}

# CMake makes it. If one of the processors has no text, it compiles portable C for all. lipo is LLVM's.
cmake_builds_universal_library() {
    local build=$work/universal words
    mkdir -p "$build/bin" && ln -sf "$lipo" "$build/bin/lipo" && export PATH=$build/bin:$PATH || return 1
    words=(-DCMAKE_SYSTEM_NAME=Darwin -DCMAKE_C_COMPILER="$work/arm64" -DCMAKE_OSX_SYSROOT="$sdk"
        -DCMAKE_TRY_COMPILE_TARGET_TYPE=STATIC_LIBRARY)
    cmake -S "$here" -B "$build" "${words[@]}" -DCMAKE_SYSTEM_PROCESSOR=arm64 \
        -DCMAKE_OSX_ARCHITECTURES="arm64;x86_64" &&
        cmake --build "$build" && object_is_universal "$(find "$build" -name vulfsjor.S.o)" &&
        cmake -S "$here" -B "$build/other" "${words[@]}" -DCMAKE_OSX_ARCHITECTURES="arm64;i386" &&
        grep -q "dist/c/vulfsjor\.c" "$build/other/CMakeFiles/vulfsjor.dir/build.make" &&
        ! grep -q "vulfsjor\.S" "$build/other/CMakeFiles/vulfsjor.dir/build.make"
}

# A program is linked, and calls what the list above has.
program_links_for_macos() {
    CC=$work/$1 "$top/$2" --build "$work/$2_$1" && llvm-objdump --macho --private-header \
        "$work/$2_$1" | grep -q EXECUTE
}

# In the linked program the assembly calls the functions of C that are in the place of three of its own, and
# C the proved one. If they were weak in the text, as ELF has it, the text would call its own.
program_calls_c_and_proved_functions() {
    program_links_for_macos "$1" b2sum && llvm-objdump --macho -d --no-show-raw-insn "$work/b2sum_$1" |
        awk '/^_.*:$/ { own = substr($1, 1, length($1) - 1); print "has", own }
            /\t(callq|bl)\t/ { print own, $NF }' |
        sed -E 's/_b2sum\.\.(disk|hashes)\.\.([a-z_]*)(\.\.[0-9a-f]*)?(\.\.?proved)?_[0-9_]*_[a-z0-9]*/\2\4/g' |
        sed -E 's/^_\S* (hide_memory|show_progress|absorb_tree)/text \1/' | LC_ALL=C sort | uniq -c | sed 's/^ *//' |
        grep -xE -e '.* (has|text) (hide_memory|show_progress|absorb_tree.*)' -e '.* hide_memory _setrlimit' \
            -e '.* show_progress _isatty' -e '.* absorb_tree absorb_tree.*' |
        diff - <(printf '1 %s\n' 'absorb_tree absorb_tree.proved' \
            has\ {absorb_tree{,.proved},hide_memory,show_progress} 'hide_memory _setrlimit' 'show_progress _isatty' \
            text\ {absorb_tree,hide_memory,show_progress})
}

# apple_arguments.c by Apple's convention: as assembly for macOS, whose names are then written as ELF
# has them.
apple_calling_convention_works() {
    local wanted
    mapfile -t wanted < <(python3 -c 'import hashlib
for name, function, size in ("B", hashlib.blake2b, 64), ("S", hashlib.blake2s, 32):
    digest = function(b"abc", digest_size=size, key=b"key", salt=b"salt", person=b"persona",
                      fanout=3, depth=200, leaf_size=0x89abcdef, node_offset=0x123456789abc,
                      node_depth=17, inner_size=29).digest()
    print("-DWANTED_%s=%s" % (name, ",".join(map(str, digest))))') &&
        printf '#include "%s"\n' "$tests/apple_arguments.c" "$here/choose.c" >"$work/both.c" &&
        "$work/arm64" -O1 -std=c99 -fno-stack-protector -fno-asynchronous-unwind-tables -mllvm \
            -aarch64-neon-syntax=generic -I"$here/include" "${wanted[@]}" -S "$work/both.c" \
            -o "$work/macho.s" &&
        sed -E 's/;.*//;s/^\t\.section\t__TEXT,__text.*/\t.text/
            s/^\t\.section\t__TEXT.*/\t.section\t.rodata/
            /^\t?\.(build_version|subsections|private_extern|no_dead|loh|zerofill)/d
            s/\b(l?_[a-zA-Z_.0-9]+)@PAGEOFF/:lo12:\1/;s/@PAGE\b//
            s/([ \t,:[])_([a-z])/\1\2/g;s/^_([a-z])/\1/' "$work/macho.s" >"$work/elf.s" &&
        aarch64-linux-gnu-gcc "$work/elf.s" "$dist/vulfsjor.S" -static -o "$work/apple_arguments" &&
        qemu-aarch64 "$work/apple_arguments"
}

test_macos_builds() {
    local processor check
    needs python3
    check "what a Mac runs, on this system" "$tests/on_a_mac.sh" $quick
    needs
    if ! has clang || [ -z "$linker" ] || ! has llvm-nm || ! has llvm-objdump; then
        skip "the library for macOS" "no clang, ld64.lld, llvm-nm or llvm-objdump"
        return
    fi
    write_stand_in_sdk
    for processor in arm64 x86_64; do
        write_macos_compiler_command $processor
        check "install.sh for macOS on $processor" installs_for_macos $processor
        check=check_huge # of the programs one, whose C is the same
        [ $processor != arm64 ] || check=check
        $check "b2 for macOS on $processor" program_links_for_macos $processor b2
        $check "b2sum for macOS on $processor, and the functions of C that it calls" \
            program_calls_c_and_proved_functions $processor
    done
    needs cmake
    [ -n "$lipo" ] || missing="no llvm-lipo"
    check "an object for both processors, and a library by CMake" cmake_builds_universal_library
    needs qemu-aarch64 python3
    has_compiler aarch64-linux-gnu-gcc || missing="no aarch64-linux-gnu-gcc with a C library"
    check "apple_arguments.c by the convention of macOS on ARM" apple_calling_convention_works
}

run_part_of_tests test_macos_builds
