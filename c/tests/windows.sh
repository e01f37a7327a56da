#!/usr/bin/env bash
# Tests the library, the programs and the crate for Rust on Windows for x86-64: built by MinGW-w64,
# and run by wine. For the other systems tests/object_formats.py compares the code.
source "$(dirname "$(readlink -f "$0")")/common.sh"
. "$tests/library.sh"
. "$tests/threads.sh"
mingw=x86_64-w64-mingw32-gcc
wine=$(command -v wine64 || ls /usr/lib/wine/wine64 2>/dev/null)
server=$(command -v wineserver || ls /usr/lib/wine/wineserver 2>/dev/null)
export WINEPREFIX=$work/wine WINEDEBUG=-all,err+virtual WINEDLLOVERRIDES="mscoree,mshtml="
export WINE=$wine WINE_LOG=$work/wine_log RUST_BACKTRACE=0
by_wine=$tests/run_by_wine.sh
exec </dev/null

# One server for all programs, since Debian's ends with each program, and the next may then meet it
# while it ends. The first program makes the folder of the system.
start_wine() {
    mkdir -p "$WINEPREFIX" && "$server" -p600 && "$by_wine" cmd.exe /c exit
}
trap '[ ! -d "$WINEPREFIX" ] || { "$server" -k && "$server" -w; } &>/dev/null; rm -rf "$work"' EXIT

# As `check`, and says how often wine itself failed meanwhile. It fails if wine did so to the end.
check_by_wine() {
    local status
    : >"$WINE_LOG"
    "${checking-check}" "$@"
    status=$?
    sed 's/^/# wine itself failed, so the program was run again: /' "$WINE_LOG"
    return $status
}

check_once_by_wine() { checking=check_family_once check_by_wine "$@"; }
check_huge_by_wine() { checking=check_huge check_by_wine "$@"; }

# A script that runs a program for Windows. Lines of C end in a newline only, if it is to do so:
# SCRIPT [FILTER]
write_script() {
    printf '%s\n' '#!/bin/bash' "\"$by_wine\" \"$1.exe\" \"\$@\" ${2-}" \
        'exit ${PIPESTATUS[0]}' >"$1" && chmod +x "$1"
}

# That compiler instead of cc, with its options only. What it links is run by a script of its name.
cc() {
    local words=() word
    for word; do [[ $word == -Wl,-z,* ]] || words+=("$word"); done
    "$mingw" "${words[@]}" || return
    while [ $# -gt 2 ] && [ "$1" != -o ]; do shift; done
    [ ! -e "$2.exe" ] || write_script "$2" "| tr -d '\\r'"
}

# What is installed, and that all of it goes again.
installs_for_windows() {
    files_are_installed_and_removed "$prefix" windows &&
        [ "$(cd "$prefix" && find . -perm 755 -type f)" = ./bin/libvulfsjor-1.dll ]
}

# The DLL has the functions of the header, and needs only what Windows has.
dll_exports_and_imports_are_right() {
    x86_64-w64-mingw32-objdump -p "$prefix/bin/libvulfsjor-1.dll" >"$work/dll" &&
        sed -n 's/^\t\[ *[0-9]*\].* \(vulfsjor_[a-z0-9_]*\)$/\1/p' "$work/dll" | LC_ALL=C sort |
        diff - <(sed -n 's/^ *\(vulfsjor_.*\);$/\1/p' "$here/vulfsjor.map" | LC_ALL=C sort) &&
        ! grep 'DLL Name' "$work/dll" | grep -v 'KERNEL32\|msvcrt\|ucrt'
}

# A hash with this object of choose.c in the place of the archive's: with only one build, or one that goes from one
# build to the others.
run_hash_with_choice() { compile_and_run_hash_test conformance "$1" "$work/$2.o" "$archive"; }
one_build_works_on_windows() {
    compile_choice_of_build "-DCHOOSE_ONE=$1" "only_$1" && ! nm "$work/only_$1.o" | grep -q vulfsjor_ffi_level &&
        run_hash_with_choice blake2b "only_$1"
}

# The example of c/README.md with a trap in each function of one build, and these objects: BUILD OBJECT..
example_avoids_other_builds() {
    sed '/^\tvj_export\t/a\\tud2' "$dist/x86_64/vulfsjor-$1.s" >"$work/trapped.s" &&
        block_of c/README.md c >"$work/hello.c" &&
        "$mingw" -c "$(with_macros "$work/trapped.s")" -o "$work/trapped.o" &&
        cc -O2 -I"$include" "$work/hello.c" "$work/trapped.o" "${@:2}" "$archive" -o "$work/hello" &&
        "$work/hello" >"$work/said" && diff "$work/said" <(readme_example_digest)
}
newest_build_is_chosen() {
    example_avoids_other_builds v2 && ! example_avoids_other_builds "v$level"
}
older_build_is_chosen() {
    compile_choice_of_build -DCHOOSE_TEST=2 older && example_avoids_other_builds v3 "$work/older.o"
}

# CMake, with the static library and with the shared one, as a part of a project.
cmake_project_works_for_windows() {
    local shared=$1 folder=$work/project_$1
    mkdir -p "$folder" && block_of c/README.md c >"$folder/hello.c" &&
        printf '%s\n' 'cmake_minimum_required(VERSION 3.13)' 'project(project LANGUAGES C)' \
            "add_subdirectory(\"$here\" vulfsjor)" 'add_executable(hello hello.c)' \
            'target_link_libraries(hello PRIVATE vulfsjor::vulfsjor)' >"$folder/CMakeLists.txt" &&
        cmake -S "$folder" -B "$folder/build" -DCMAKE_SYSTEM_NAME=Windows \
            -DCMAKE_SYSTEM_PROCESSOR=x86_64 -DCMAKE_C_COMPILER="$mingw" \
            -DBUILD_SHARED_LIBS="$shared" &&
        cmake --build "$folder/build" && write_script "$folder/build/hello" &&
        WINEPATH=$folder/build/vulfsjor "$folder/build/hello" | tr -d '\r' |
        diff - <(readme_example_digest)
}

# The program, built as README.md says, by this many cases of each command, and an input with each
# byte.
b2_works_on_windows() {
    CC=$mingw "$top/b2" --build "$work/b2.exe" && write_script "$work/b2" &&
        [ "$("$work/b2" --version | sed 1q)" = "b2 (Vulfsjor) $(version)" ] &&
        "$work/b2" --version | sed 1d | grep -xFf - "$top/dist/MANIFEST" &&
        diff <("$work/b2" --help) <("$top/b2" --help) &&
        python3 "$top/tests/compare_b2_model.py" --program "$work/b2" --unicode --cases "$1" &&
        printf 'a\r\n\032\r\r\n\0b' >"$work/binary" &&
        [ "$("$work/b2" sum b512 <"$work/binary")" = "$(b2sum <"$work/binary" | cut -c-128)" ]
}

# The functions of b2.c.
b2_c_functions_work() {
    "$mingw" -municode -O2 "${warnings[@]}" -Wno-array-bounds -DCHOOSE_ONE "$tests/b2.c" \
        -o "$work/functions.exe" || return
    "$by_wine" "$work/functions.exe" one "two words" ""
    [ $? -eq 7 ]
}

# The program with this build of the library.
b2_works_with_build() {
    local text=$dist/x86_64/b2.s
    "$mingw" -O2 -municode "${warnings[@]}" "-DMAIN=$(main_symbol_of "$text")" "-DCHOOSE_TEST=${1#v}" \
        "-I$here/include" "$here"/{b2,choose}.c "$(with_macros "$text")" "$archive" -o "$work/b2_one.exe" &&
        write_script "$work/b2_one" && [ "$(printf abc | "$work/b2_one" sum s256)" = \
            "$(printf abc | python3 -c 'import hashlib, sys
print(hashlib.blake2s(sys.stdin.buffer.read()).hexdigest())')" ]
}

# The threads of the library, and what they call of the system.
threads_work_on_windows() {
    "$mingw" -std=gnu99 -O2 "${warnings[@]}" -I"$include" "$tests/system.c" \
        "$prefix/lib/libvulfsjor-threads.a" "$archive" -o "$work/system.exe" && cd "$work" &&
        timeout 60 "$by_wine" "$work/system.exe" "$(nproc)"
}

# The program b2sum, and a folder with names that are not ASCII, bytes that a stream of text would
# change, and a path that Windows opens by its prefix only.
build_b2sum_and_test_files() {
    local name
    CC=$mingw "$top/b2sum" --build "$work/b2sum.exe" && write_script "$work/b2sum" &&
        mkdir -p "$work/sums/dir" && cd "$work/sums" || return
    long=$(printf 'long%0100d/' 1 2 3)
    mkdir -p "$long" && printf long >"${long}file" && printf 'a\r\n\032\r\r\n\0b' >binary &&
        : >empty && printf name >$'dir/caf\xc3\xa9 \xf0\x9f\x98\x80' && head -c 3000000 /dev/zero >dir/zeros &&
        head -c 64 /dev/urandom >key
}
# The lines are those of Linux, also for names with `\`, which become names with `/`.
b2sum_lines_match_linux() {
    local name=$'dir/caf\xc3\xa9 \xf0\x9f\x98\x80' long
    cd "$work/sums" && long=$(echo long*/long*/long*/file) && [ ${#long} -gt 300 ] &&
        sums_by_hashlib binary empty "$name" "$long" >../wanted &&
        "$work/b2sum" binary empty "${name//\//\\}" "$long" | diff ../wanted - &&
        "$work/b2sum" <binary | diff - <(sums_by_hashlib binary | sed 's/binary/-/') &&
        "$work/b2sum" '\\?\Z:'"${PWD//\//\\}\\${long//\//\\}" |
        diff - <(sums_by_hashlib "$long" | sed "s|long.*|//?/Z:$PWD/&|") &&
        "$work/b2sum" 'bin*' 'dir\*' 'e?pty' 'none*' 2>../said | diff - \
            <(sums_by_hashlib binary "$name" dir/zeros empty) &&
        diff ../said - <<<"b2sum: 'none*': No such file or directory"
}
# What was written on Linux is checked, and a manifest that was written here on Linux.
manifests_are_checked_across_systems() {
    cd "$work/sums" && sums_by_hashlib binary empty dir/* >../SUMS &&
        "$work/b2sum" --check --strict ../SUMS | diff - \
            <(printf '%s: OK\n' binary empty dir/*) &&
        "$work/b2sum" --tag 'dir\*' empty >../SUMS && /usr/bin/b2sum --check --strict ../SUMS &&
        echo >>empty && ! "$work/b2sum" --check ../SUMS >../said 2>../errors &&
        grep -qx 'empty: FAILED' ../said &&
        diff ../errors - <<<'b2sum: WARNING: 1 computed checksum did NOT match' && : >empty
}
# Messages begin with the name of the program, without .exe.
messages_begin_with_program_name() {
    local name
    cd "$work/sums" && for name in vulfsjor-b2sum.exe 'b s.EXE'; do
        cp ../b2sum.exe "$work/$name" && ! "$by_wine" "$work/$name" none 2>../said &&
            diff ../said - <<<"${name%.[eE][xX][eE]}: none: No such file or directory" || return
    done
}
# Entries that are devices and files of other computers are not opened, unless an argument is one.
remote_and_device_entries_are_not_opened() {
    local name
    cd "$work/sums" && for name in NUL nul.txt dir/NUL //none/share/file; do
        sums_by_hashlib empty | sed "s|empty|$name|" >../SUMS &&
            ! "$work/b2sum" --check --ignore-missing ../SUMS >../said 2>../errors &&
            diff ../said - <<<"$name: FAILED open or read" &&
            diff <(sed 1q ../errors) - <<<"b2sum: $name: Permission denied" || return
    done
    sums_by_hashlib empty | sed 's/empty/NUL/' >../SUMS && "$work/b2sum" --check ../SUMS NUL 2>../errors |
        diff - <(echo 'NUL: OK') && diff ../errors - <<<'b2sum: NUL: no properly formatted checksum lines found'
}
# Folders, devices, keys, trees by threads, and progress, which nobody sees here.
b2sum_handles_devices_keys_trees() {
    cd "$work/sums" && ! "$work/b2sum" dir dir/none NUL >../said 2>../errors &&
        diff ../errors <(printf 'b2sum: %s\n' "dir: Is a directory" \
            "dir/none: No such file or directory") &&
        diff ../said <(sums_by_hashlib empty | sed 's/empty/NUL/') &&
        [ "$("$work/b2sum" --key-file key --no-names binary)" = "$(python3 -c 'import hashlib
print(hashlib.blake2b(open("binary", "rb").read(), key=open("key", "rb").read()).hexdigest())')" ] &&
        for threads in 0 1 3; do
            "$work/b2sum" --tree 65536 --threads $threads --progress 'dir\zeros' 2>../errors |
                sed 's/.* = //' | diff - <(roots_by_hashlib 65536 dir/zeros | cut -c -128) &&
                [ ! -s ../errors ] || return
        done
}
# Lists of folders, by paths of several forms and lengths, and what is none or a device.
b2sum_lists_windows_folders() {
    local long path paths name=$(printf 'n%.0s' {1..255}) folder=$work/lists accented=$'caf\xc3\xa9 \xf0\x9f\x98\x80'
    "$mingw" -municode -O2 "${warnings[@]}" -D{ABSORB_TREE=absorb,PROVED_TREE=proved}.tree -DHIDE_MEMORY=hide.memory \
        -DSHOW_PROGRESS=show.progress -I"$include" "$tests/list_folders.c" "$prefix/lib/libvulfsjor-threads.a" \
        "$archive" -o "$work/lists.exe" || return
    long=$(printf 'long%0100d/' 1 2 3) paths=(dir dir/ dir/. "Z:$folder/dir" "\\\\?\\Z:${folder//\//\\}\\dir\\")
    mkdir -p "$folder"/{blank,dir/..sub,"$long/sub"} && cd "$folder" &&
        touch file "$long/file" dir/{.x,"$name","$accented"} &&
        {
            for path in "${paths[@]}"; do printf '%s\n' "$path: "{f.x,"f$name","f$accented",d..sub}; done
            printf '%s\n' "$long: "{ffile,dsub} {NUL,file}': Not a directory' \
                {none,'n?ne',}': No such file or directory' \
                {nul.txt,//host/share,dir/NUL}': Permission denied'
        } | LC_ALL=C sort >../wanted &&
        "$by_wine" "$work/lists.exe" NUL blank "${paths[@]}" "$long" file none 'n?ne' '' nul.txt //host/share dir/NUL |
        tr -d '\r' | LC_ALL=C sort | diff ../wanted -
}
# Command lines and manifests next to coreutils.
b2sum_matches_coreutils_on_windows() {
    python3 "$top/tests/compare_coreutils.py" --by "$by_wine" --every "$1" "$work/b2sum.exe"
}

# The tests of the crate, from a copy, by a compiler that has the standard library for Windows.
crate_tests_pass_on_windows() {
    local folder=$work/crate target=x86_64-pc-windows-gnu
    mkdir -p "$folder" && cp -r "$top"/{Cargo.toml,rust,dist,tests} "$folder/" &&
        cd "$folder" &&
        export CARGO_TARGET_DIR=$work/target RUSTC=$rustc RUSTDOC=$(dirname "$rustc")/rustdoc &&
        export CARGO_TARGET_X86_64_PC_WINDOWS_GNU_RUNNER=$by_wine &&
        export CARGO_TARGET_X86_64_PC_WINDOWS_GNU_LINKER=$mingw &&
        cargo=$(dirname "$rustc")/cargo &&
        "$cargo" test --offline --target $target --lib --test bindings &&
        { [ -z "${VULFSJOR_TEST_HUGE-}" ] || RUSTFLAGS='--cfg vulfsjor_build="v2"' CARGO_TARGET_DIR=$work/target_v2 \
            "$cargo" test --offline --target $target --lib --test bindings; } &&
        "$cargo" test --offline --target $target --test files -- roots_of_files progress &&
        "$cargo" build --offline --target $target --example sum && printf abc >"$work/abc" &&
        "$by_wine" "$CARGO_TARGET_DIR/$target/debug/examples/sum.exe" "$work/abc" | tr -d '\r' |
        diff - <(sums_by_hashlib "$work/abc")
}

# The Rust compiler that has that standard library, if there is one.
find_rustc_with_windows_library() {
    local each root library=lib/rustlib/x86_64-pc-windows-gnu/lib
    for each in $(type -ap rustc) /usr/bin/rustc; do
        root=$("$each" --print sysroot 2>/dev/null) && [ -d "$root/$library" ] && readlink -f "$each" && return
    done
}

test_windows_builds() {
    local build hash check
    if ! has "$mingw" || [ -z "$wine$server" ] || ! has python3 || [ "${level:-0}" -lt 3 ]; then
        skip "the library for Windows" "no $mingw, no wine, no python3 or no x86-64-v3"
        return
    fi
    prefix=$work/prefix include=$work/prefix/include libb2=$work/prefix/include/vulfsjor-libb2
    archive=$prefix/lib/libvulfsjor.a shared=$prefix/lib/libvulfsjor.dll.a
    export WINEPATH=$prefix/bin
    check_by_wine "a server of wine" start_wine || return
    export CFLAGS=$quick # of the libraries that are made here
    check "install.sh with CC=$mingw" env "CC=$mingw" "$here/install.sh" --from "$dist" "$prefix" ||
        return
    check "what is installed for Windows" installs_for_windows
    check "the DLL" dll_exports_and_imports_are_right
    check "the choice between all builds" compile_choice_of_build "-DCHOOSE_TEST=$(seq -s '' 2 "$level")" both
    for hash in "${kinds[@]}"; do
        check_by_wine "conformance.c, $hash, for Windows" compile_and_run_hash_test conformance $hash "$archive"
        check_huge_by_wine "made_states.c, $hash, for Windows" compile_and_run_hash_test made_states $hash "$archive"
        check=check_huge_by_wine
        [ $hash != blake2b ] || check=check_by_wine
        $check "conformance.c, $hash, for Windows, with the DLL" compile_and_run_hash_test conformance $hash "$shared"
        $check "conformance.c, $hash, from one build to the others" run_hash_with_choice $hash both
    done
    for family in b s; do
        check_by_wine "edge_cases.c, blake2$family, for Windows" edge_cases_pass
        check_by_wine "key_scan.c, blake2$family, for Windows" calls_leave_no_keys
        check_once_by_wine "libb2.c, blake2$family, for Windows" run_libb2_names_test $family -I"$libb2" \
            "$prefix/lib/libvulfsjor-libb2.a"
    done
    check_by_wine "passed_arguments.py, for Windows, through thunks.h" thunks_pass_arguments
    check_by_wine "tree_parts.c, for Windows" tree_part_edges_pass "$(random_turn_count 500)" -O2
    for build in $(some $(seq -f v%g 2 "$level")); do
        check_by_wine "only the build $build for Windows" one_build_works_on_windows $build
        check_by_wine "b2.exe with the build $build" b2_works_with_build $build
    done
    check_by_wine "the build that this processor supports is chosen" newest_build_is_chosen
    check_huge_by_wine "an older build is chosen if it is asked for" older_build_is_chosen
    check_by_wine "b2.exe next to the specification" \
        b2_works_on_windows "$([ -n "${VULFSJOR_TEST_HUGE-}" ] && echo 40 || echo 10)"
    check_by_wine "b2.c" b2_c_functions_work
    check_by_wine "trees by threads on Windows" threads_work_on_windows
    if check "b2sum.exe" build_b2sum_and_test_files; then
        check_by_wine "b2sum.exe over files" b2sum_lines_match_linux
        check_by_wine "b2sum.exe by other names" messages_begin_with_program_name
        check_by_wine "b2sum.exe --check" manifests_are_checked_across_systems
        check_by_wine "b2sum.exe over folders, devices and with a key" b2sum_handles_devices_keys_trees
        check_by_wine "entries of b2sum.exe that are no files of this computer" remote_and_device_entries_are_not_opened
        check_by_wine "the lists of folders of b2sum.exe" b2sum_lists_windows_folders
        check_by_wine "b2sum.exe next to coreutils" b2sum_matches_coreutils_on_windows \
            "$([ -n "${VULFSJOR_TEST_HUGE-}" ] && echo 1 || echo 120)"
    fi
    needs cmake
    check_huge_by_wine "a project by CMake for Windows" cmake_project_works_for_windows OFF
    check_by_wine "a project by CMake for Windows, with a DLL" cmake_project_works_for_windows ON
    needs
    check "it is still the same server" "$server" -k0
    rustc=$(find_rustc_with_windows_library)
    [ -n "$rustc" ] || missing="no standard library of Rust for x86_64-pc-windows-gnu"
    check_by_wine "the crate for Rust on Windows" crate_tests_pass_on_windows
}

run_part_of_tests test_windows_builds cases
