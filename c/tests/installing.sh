#!/usr/bin/env bash
# Tests what c/install.sh puts where.
source "$(dirname "$(readlink -f "${BASH_SOURCE[0]}")")/common.sh"

# With one build for x86-64, and with what is compiled of C optimized as in other tests.
one=()
! is_x86 || one=(--cpu x86-64-v2)
# The same, made once for all of these installations, where another archive was: by a compiler of several words, which
# notes them, and makes no position-independent programs by default.
install_once_over_other_archive() {
    if [ ! -e "$work/built/kind" ]; then
        write_recording_command ccache env && mkdir -p "$work/built" && ar rc "$work/built/libvulfsjor.a" "$empty" &&
            touch "$work/built/libvulfsjor.so.0.0.9" &&
            PATH=$work:$PATH CC="ccache cc -fno-pie" CFLAGS=$quick "$here/install.sh" "${one[@]}" \
                --from "$dist" --build "$work/built" || return
    fi
    "$here/install.sh" --built "$work/built" "$@"
}

# Writes a compiler or an archiver that notes its words: NAME COMMAND
write_recording_command() {
    printf '#!/bin/sh\necho "$*" >>"$0.calls"\nexec %s "$@"\n' "$2" >"$work/$1" && chmod +x "$work/$1"
}

has_installed_files() { files_below "$1" | diff <(expected_installed_files lib/) -; }

# A program of one hash, by the names of libb2 if LIBB2 is defined, and one with threads.
write_program() {
    printf '%s\n' '#ifdef LIBB2' '#include <blake2.h>' '#ifndef VULFSJOR_LIBB2_BLAKE2_H' \
        '#error "the blake2.h of another library"' '#endif' \
        '#define vulfsjor_blake2b(o, n, i, m, k, l) blake2b(o, i, k, n, m, l)' '#else' \
        '#include "vulfsjor.h"' '#endif' 'int main(void) { unsigned char out[64];' \
        'return vulfsjor_blake2b(out, 64, 0, 0, 0, 0) || out[0] != 0x78 || out[63] != 0xce; }' >"$1"
}
write_threads() {
    printf '%s\n' '#include <stdio.h>' '#include <vulfsjor_threads.h>' \
        'int main(void) { unsigned char out[64]; puts(vulfsjor_build());' \
        'return vulfsjor_tree_root_threads(out, 64, 0, 0, 0, 0, 0, 0, 1, 0); }' >"$1"
}

# A program from these words and those of a module for pkg-config in this folder, run where the shared library is found:
# FOLDER MODULE LIBRARIES WORDS
compile_with_pkg_config_and_run() {
    local words
    write_program "$work/program.c" && write_threads "$work/threads.c" &&
        words=$(PKG_CONFIG_PATH=$1 pkg-config --cflags --libs "$2") &&
        eval "cc $quick $4 $words -o '$work/program'" && LD_LIBRARY_PATH=$3 "$work/program"
}

# One program of an installation, and each, by its files for pkg-config, with its archives by other names.
installed_program_works() {
    ! has pkg-config || compile_with_pkg_config_and_run "$1/pkgconfig" vulfsjor-static /nowhere "'$work/program.c'"
}
pkg_config_words_work() {
    local lib=$1
    cmp "$lib/libvulfsjor-static.a" "$lib/libvulfsjor.a" &&
        cmp "$lib/vulfsjor-libb2/libb2.a" "$lib/libvulfsjor-libb2.a" && installed_program_works "$lib" || return 1
    ! has pkg-config || {
        compile_with_pkg_config_and_run "$lib/pkgconfig" vulfsjor "$lib" "'$work/program.c'" &&
            compile_with_pkg_config_and_run "$lib/vulfsjor-libb2/pkgconfig" libb2 /nowhere \
            "-DLIBB2 '$work/program.c'" &&
            compile_with_pkg_config_and_run "$lib/pkgconfig" vulfsjor-threads /nowhere "'$work/threads.c'" &&
            compile_with_pkg_config_and_run "$lib/pkgconfig" vulfsjor "$lib" \
                "'$work/threads.c' '$lib/libvulfsjor-threads.a' -pthread" &&
            [ "$(PKG_CONFIG_PATH=$lib/pkgconfig pkg-config --modversion vulfsjor)" = "$(version)" ]
    }
}

# A folder with a space that is named from the current one; then moved as a whole; then uninstalled, where other files
# stay.
installs_into_folder_with_space() {
    local folder="$work/another folder"
    cd "$work" && install_once_over_other_archive "./a folder" && has_installed_files "a folder" &&
        write_program program.c &&
        cc program.c -I"a folder/include" "a folder/lib/libvulfsjor.a" -o program && cd / && "$work/program" &&
        mv "$work/a folder" "$folder" && pkg_config_words_work "$folder/lib" || return 1
    touch "$folder"/{lib/theirs,lib/cmake/vulfsjor/theirs,include/theirs.h} &&
        cd "$work" && "$here/install.sh" --uninstall "another folder" &&
        files_below "$folder" | diff <(printf '%s\n' include/theirs.h lib/cmake/vulfsjor/theirs lib/theirs) - &&
        [ ! -e "$folder/lib/vulfsjor-libb2" ] && [ ! -e "$folder/include/vulfsjor-libb2" ] &&
        rm "$folder/lib/cmake/vulfsjor/theirs" && "$here/install.sh" --uninstall "$folder" &&
        [ ! -e "$folder/lib/cmake/vulfsjor" ]
}

# From a repository with a comma in its name, in a shell whose options come from the caller, and for programs that are
# linked statically.
installs_from_folder_with_comma() {
    local copy="$work/a repository, copied"
    mkdir "$copy" && cp -r "$top"/{c,tools} "$copy/" && ln -s "$top/dist" "$copy/dist" &&
        env SHELLOPTS=noglob BASHOPTS=failglob CFLAGS="$quick" LDFLAGS=-static "$copy/c/install.sh" "${one[@]}" \
            --from "$dist" "$work/from a copy" && has_installed_files "$work/from a copy" || return 1
    [ -z "${VULFSJOR_TEST_HUGE-}" ] || ! has cmake || { write_and_build_cmake_project "$shared_is_on
add_subdirectory(\"$copy/c\" vulfsjor)" vulfsjor::vulfsjor vulfsjor::threads && needs_only_shared_library; }
}

# DESTDIR and LIBDIR, as a package is made: nothing outside of DESTDIR, and no word of it in a file.
installs_into_destdir_only() {
    local root="$work/the root"
    DESTDIR=$root LIBDIR=lib/x86_64-linux-gnu install_once_over_other_archive "$work/usr" && [ ! -e "$work/usr" ] &&
        files_below "$root$work/usr" | diff <(expected_installed_files lib/x86_64-linux-gnu/) - &&
        ! grep -rlF "$root" "$root" && ! grep -rlF "$work" "$root" &&
        pkg_config_words_work "$root$work/usr/lib/x86_64-linux-gnu" || return 1
    DESTDIR=$root LIBDIR=$work/lib64 install_once_over_other_archive "$work/usr" &&
        installed_program_works "$root$work/lib64" &&
        [ "$(files_below "$root$work/lib64" | wc -l)" -eq 14 ] || return 1
    DESTDIR=$root install_once_over_other_archive /usr/local &&
        grep -qx prefix=/usr/local "$root/usr/local/lib/pkgconfig/vulfsjor.pc" &&
        DESTDIR=$root "$here/install.sh" --uninstall /usr/local || return 1
    DESTDIR=$root LIBDIR=$work/lib64 "$here/install.sh" --uninstall "$work/usr" &&
        DESTDIR=$root LIBDIR=lib/x86_64-linux-gnu "$here/install.sh" --uninstall "$work/usr" &&
        [ -z "$(files_below "$root")" ]
}

# Only one build, without the choice, and with the same functions.
installs_one_build_without_choice() {
    local folder=$work/one
    install_once_over_other_archive "$folder" && ! ar t "$folder/lib/libvulfsjor.a" | grep empty &&
        grep -qx 'Description: .*, proved, for x86-64-v2' "$folder/lib/pkgconfig/vulfsjor.pc" &&
        has_installed_files "$folder" && ! nm "$folder/lib/libvulfsjor.a" | grep -q vulfsjor_ffi_level &&
        archive_names_stay_hidden "$folder/lib/libvulfsjor.a" "$folder/include" &&
        nm -g --defined-only "$folder/lib/libvulfsjor.a" |
        sed -n 's/.* T \(vulfsjor_ffi_[a-z0-9_]*[a-z]\)$/\1/p' | LC_ALL=C sort |
            diff - <(sed -n 's/^CALL("\(.*\)")$/\1/p' "$here/choose.c" | LC_ALL=C sort)
}

# A second installation takes the place of the first, and of what another left there. It writes to no
# file of another by a link.
reinstalls_over_old_files() {
    local folder=$work/again
    install_once_over_other_archive "$folder" && echo old >"$work/old" &&
        ln -sf "$work/old" "$folder/lib/libvulfsjor.a" &&
        ln -sf nowhere "$folder/lib/libvulfsjor.so" &&
        install_once_over_other_archive "$folder" && installed_program_works "$folder/lib" &&
        [ "$(cat "$work/old")" = old ] && has_installed_files "$folder"
}

# A program has at most 80 KB, and code of the family that it calls and of no other: PROGRAM FAMILY
program_is_small() {
    local size names
    size=$(stat -c %s "$1") && names=$(nm "$1") && grep " vulfsjor_ffi_$2_" <<<"$names" >/dev/null || return 1
    ! sed -n 's/.* vulfsjor_ffi_//p' <<<"$names" | grep -vE "^($2(_|$)|(ask|find|level)(\.|$))" &&
        ! grep -E 'blake2_(parallel|tree|xof)\.' <<<"$names" &&
        ! grep "_ffi_$2_many" <<<"$names" && { [ "$size" -le 81920 ] || { echo "$1 has $size bytes" && return 1; }; }
}

# Programs that link the archive and have one hash, in one call or in pieces, are small without a flag for it: by
# pkg-config and by CMake.
linked_programs_are_small() {
    local family first call folder=$work/small words
    mkdir "$folder" && words=$(PKG_CONFIG_PATH=$prefix/lib/pkgconfig pkg-config --cflags --libs vulfsjor-static) ||
        return 1
    while read -r family first call; do
        printf '%s\n' '#include <vulfsjor.h>' 'int main(void) { unsigned char d[32];' \
            "vulfsjor_${family}_state s; (void)s; return $call || d[0] != $first; }" >"$folder/program.c" &&
            eval "cc '$folder/program.c' $words -o '$folder/program'" && "$folder/program" &&
            program_is_small "$folder/program" "$family" || return 1
    done <<'END'
blake2b 0xbd vulfsjor_blake2b(d, 32, "abc", 3, 0, 0)
blake2s 0x50 vulfsjor_blake2s(d, 32, "abc", 3, 0, 0)
blake2b 0xbd vulfsjor_blake2b_init(&s, 32) || vulfsjor_blake2b_update(&s, "abc", 3) || vulfsjor_blake2b_final(&s, d, 32)
END
    ! has cmake || { cmake_project_finds_package "$prefix" "" && program_is_small "$work/made_program" blake2b; }
}

# A project of its own that has the library's files as a part, by hand, as c/README.md has it:
# compiled together with its program.
sources_build_in_project_by_hand() {
    local folder=$work/by\ hand words
    mkdir -p "$folder/YOURS" && ln -sf "$top/c" "$top/dist" "$folder/" &&
        write_program "$folder/YOURS/hello.c" && cd "$folder" || return 1
    sed -n 's/^    \(\(cp\|rm\) .*YOURS.*\)/\1/p' "$here/README.md" >copy.sh
    [ "$(wc -l <copy.sh)" -eq 2 ] && sh -e copy.sh && cd YOURS && [ ! -e x86_64/b2-v2.s ] &&
        rm ../c ../dist || return 1
    cc -c vulfsjor.S || return 1
    for words in -O0 "-O2 -static" "-O2 -fPIC -shared"; do
        # shellcheck disable=SC2086
        cc $words "${warnings[@]}" -std=gnu99 -I. hello.c choose.c vulfsjor.o -o program || return 1
        [[ $words == *-shared ]] || ./program || return 1
    done
    [ "$(nm -D --defined-only program | awk 'NF == 3 { print $3 }' | grep -c vulfsjor)" -eq 0 ]
}

# A project for CMake that gets the library by these lines, with a program and one with threads that
# link these targets, and a shared library: LINES TARGET TARGET [LANGUAGE]. Both programs run; the first one is then
# `made_program`, and the file `needed` has which of our shared libraries they need.
write_and_build_cmake_project() {
    local folder build language=${4:-C}
    folder=$(mktemp -d "$work/project.XXXX") && build=$folder/build
    write_program "$folder/program.c" && write_threads "$folder/threads.c" &&
        cat >"$folder/CMakeLists.txt" <<END || return 1
cmake_minimum_required(VERSION 3.13)
project(project LANGUAGES $language)
$1
set_source_files_properties(program.c threads.c PROPERTIES LANGUAGE $language)
add_executable(program program.c)
target_link_libraries(program PRIVATE $2)
add_executable(threads threads.c)
target_link_libraries(threads PRIVATE $3)
add_library(shared SHARED threads.c)
target_link_libraries(shared PRIVATE $3)
target_link_options(shared PRIVATE -Wl,-z,defs -Wl,-z,text)
get_target_property(needed $3 INTERFACE_LINK_LIBRARIES)
if("$3" STREQUAL vulfsjor::threads AND NOT Threads::Threads IN_LIST needed)
  message(FATAL_ERROR "$3 links \${needed}") # which glibc before 2.34 needs
endif()
END
    cmake -S "$folder" -B "$build" -DCMAKE_BUILD_TYPE="$([ $quick = -O0 ] || echo Release)" &&
        cmake --build "$build" && "$build/program" && "$build/threads" >"$work/said" &&
        cat "$work/said" && grep -qxf "$work/said" "$dist/MANIFEST" && cp "$build/program" "$work/made_program" ||
        return 1
    readelf -d "$build/program" "$build/threads" "$build/libshared.so" |
        sed -n 's/.*NEEDED.*\[\(libvulfsjor.*\)\]/\1/p' >"$work/needed"
}
# The same with the package below a folder: FOLDER WORDS [LINES [LANGUAGE]]
cmake_project_finds_package() {
    write_and_build_cmake_project "list(APPEND CMAKE_PREFIX_PATH \"$1\")
${3-}
find_package(vulfsjor $2 REQUIRED)" vulfsjor::vulfsjor vulfsjor::threads "${4-C}"
}
needs_no_shared_library() { [ ! -s "$work/needed" ]; }
needs_only_shared_library() { diff "$work/needed" <(printf '%s\n' libvulfsjor.so.1{,,}); }
shared_is_on="set(BUILD_SHARED_LIBS ON)"

# The repository as a part of a project.
cmake_builds_repository_as_part() {
    local add="add_subdirectory(\"$here\" vulfsjor)" odd
    odd="set(CMAKE_INTERPROCEDURAL_OPTIMIZATION ON)
set(CMAKE_C_FLAGS -fno-pie)
set(CMAKE_C_STANDARD 90)
set(CMAKE_C_EXTENSIONS OFF)
$add
set(CMAKE_C_FLAGS)
set(CMAKE_C_STANDARD)"
    write_and_build_cmake_project "$odd" vulfsjor::vulfsjor vulfsjor::threads && needs_no_shared_library || return 1
    ! is_x86 || objects_have_mark "x86 feature: IBT, SHSTK" "" \
        "$work"/project.*/build/vulfsjor/libvulfsjor{,-threads}.a ||
        return 1
    write_and_build_cmake_project "$shared_is_on
$add" vulfsjor::vulfsjor vulfsjor::threads && needs_only_shared_library &&
        readelf -d "$work"/project.*/build/vulfsjor/libvulfsjor.so | grep -q BIND_NOW
}

# The package of an installation: by another LIBDIR, static by default, for C++ too and found twice; and moved, shared
# by BUILD_SHARED_LIBS.
cmake_package_is_found() {
    local found=$work/found
    LIBDIR=$found/other/lib install_once_over_other_archive "$work/found by libdir" &&
        cmake_project_finds_package "$found/other" "" "find_package(vulfsjor $(version) EXACT REQUIRED)" CXX &&
        needs_no_shared_library &&
        install_once_over_other_archive "$work/found here" && mv "$work/found here" "$found/here" &&
        cmake_project_finds_package "$found/here" 0.1 "$shared_is_on" && needs_only_shared_library
}

# `cmake --install`, which installs the same files as the Makefile, by the same scripts: a stand-in for bash notes their
# words and variables, and has what they would build. The package for CMake may be moved within the installation, and
# has the static library and the shared one.
cmake_installs_same_files() {
    local folder=$work/by\ cmake made=$work/by\ cmake.build/made cc
    cc=$(command -v cc) && install_once_over_other_archive "$work/as it is" && cat >"$work/noted_bash" <<END || return 1
#!$BASH
[ "\$2" = --build ] || exec "$BASH" "\$@"
echo "\$CC|\$CFLAGS|\$LDFLAGS|\$*" >>"$work/noted_bash.calls"
case \$3 in */lib) cp -R "$work/built" "\$3" ;; *) cp "$empty" "\$3" ;; esac
END
    chmod +x "$work/noted_bash" &&
        cmake -S "$here" -B "$folder.build" -DCMAKE_INSTALL_LIBDIR=lib -DCMAKE_C_COMPILER="$cc" \
            -DCMAKE_C_FLAGS=-DASKED -DCMAKE_BUILD_TYPE=Debug -DCMAKE_SHARED_LINKER_FLAGS=-L/asked \
            -DVULFSJOR_BASH="$work/noted_bash" &&
        cmake --build "$folder.build" && diff "$work/noted_bash.calls" <(printf "$cc|-DASKED -g|-L/asked|%s\n" \
            "$here/../b2"{,sum}" --build $made/b2"{,sum} "$here/../c/install.sh --build $made/lib" | sed 2,3d) &&
        cmake --install "$folder.build" --prefix "$folder" &&
        files_below "$folder" | diff <(files_of_full_installation) - &&
        diff -r "$work/as it is/lib" "$folder/lib" && diff -r "$prefix/include" "$folder/include" &&
        mv "$folder/lib/cmake/vulfsjor" "$folder/share/" &&
        cmake -S "$here" -B "$folder.build" -DCMAKE_INSTALL_{BIN,INCLUDE,MAN}DIR=other &&
        cmake --install "$folder.build" --prefix "$folder.other" && files_below "$folder.other" |
        diff <(files_of_full_installation | sed 's,^\(bin\|include\|share/man\)/,other/,' | LC_ALL=C sort) - || return 1
    cmake_project_finds_package "$folder" 0.1 "$shared_is_on" && needs_only_shared_library && rm -r "$folder/include" &&
        refuses 1 'no folder above' cmake_project_finds_package "$folder" 0.1
}

# The same in portable C, in the way of Windows and macOS: the library without the programs.
cmake_installs_portable_library() {
    local folder=$work/portable
    printf '#!/bin/sh\nexec cc "$@" %s\n' $quick >"$work/quick" && chmod +x "$work/quick" &&
        cmake -S "$here" -B "$folder.build" -DVULFSJOR_PORTABLE=ON -DCMAKE_INSTALL_LIBDIR=lib \
            -DCMAKE_C_COMPILER="$work/quick" &&
        cmake --build "$folder.build" && cmake --install "$folder.build" --prefix "$folder" &&
        files_below "$folder" | diff <(printf '%s\n' include/vulfsjor{.h,.hpp,_threads.h} \
            lib/cmake/vulfsjor/vulfsjor-config{-version,}.cmake lib/libvulfsjor{-threads,}.a) - &&
        cmake_project_finds_package "$folder" "$(version) EXACT" && needs_no_shared_library
}

# What pkg-config prints for each module, from the folder of its file: MODULE FOLDER INCLUDES ROOM LIBRARIES. CMake and
# meson find the files of such words.
pkg_config_prints_words() {
    local module folder includes room libraries
    while read -r module folder includes room libraries; do
        folder=$prefix/lib/$folder
        diff <(echo "-IHERE/$includes -LHERE/$room $libraries") \
            <(PKG_CONFIG_PATH=$folder pkg-config --cflags --libs "$module" |
                sed "s|$folder|HERE|g;s/ *$//") || return 1
    done <<'END'
vulfsjor pkgconfig ../../include .. -lvulfsjor
vulfsjor-static pkgconfig ../../include .. -lvulfsjor-static
vulfsjor-threads pkgconfig ../../include .. -lvulfsjor-threads -lvulfsjor-static -pthread
libb2 vulfsjor-libb2/pkgconfig ../../../include/vulfsjor-libb2 ../../vulfsjor-libb2 -lb2
END
}

# What the compiler of several words has compiled, which becomes a part of a shared library.
compiler_of_several_words_compiles_all() {
    local folder=$work/words
    install_once_over_other_archive "$folder" && installed_program_works "$folder/lib" &&
        [ "$(grep -c -- ' -c ' "$work/ccache.calls")" -ge 5 ] && ! grep -v '^cc -fno-pie ' "$work/ccache.calls" &&
        cc -shared -Wl,-z,defs -Wl,-z,text -Wl,--whole-archive "$folder/lib/libvulfsjor-threads.a" \
            "$(copy_without_whole_guard "$folder/lib/libvulfsjor-libb2.a")" -Wl,--no-whole-archive -pthread -o \
            "$folder/shared.so"
}

# The files of a program that `make install` installs.
installed_files_of_program() {
    printf "%s/$1%s\n" bin "" share/bash-completion/completions "" share/man/man1 .1 \
        share/fish/vendor_completions.d .fish
    echo "share/zsh/site-functions/_$1"
}

# Whether the files of b2 and of b2sum that are not built are the ones of this repository, which differ only by this
# before the name of a program, wherever that is one: FOLDER [PREFIX]
installed_scripts_are_copies() {
    local name place from text prefix=${2-}
    for name in b2 b2sum; do
        while read -r place from; do
            text=$(<"$1/$place") && text=${text//"$prefix"/} &&
                diff <(echo "${text//"${prefix^^}"/}") "$top/$from" || return
            [ -z "$prefix" ] || ! grep -e "^\.TH ${name^^} " -e "^$name " -e "\\\\fB$name[ \\\\]" \
                -e "^complete .* $name\( \|\$\)" -e "^#compdef $name" "$1/$place" || return
        done < <(installed_files_of_program "$prefix$name" |
            paste -d ' ' - <(printf '%s\n' "$name" completions/$name.bash \
            docs/$name.1 completions/{$name.fish,_$name}) | sed 1d)
    done
}

# make, which builds in a folder of its own, once for all of these tests, with each variable of the GNU standards, and
# with tools that note their words.
made_flags="-O0 -g -flto" made_links="-Wl,-z,separate-code -L/asked"
! is_x86 || made_links+=" -Wl,-z,cet-report=warning"
make_here() {
    make -C "$top" built="$work/made" CC="$work/noted_cc" AR="env $work/noted_ar" CPPFLAGS=-DASKED=1 \
        CFLAGS="$made_flags" LDFLAGS="$made_links" "$@"
}

# All files of an installation of programs and library, with this before their names: PREFIX
files_of_full_installation() {
    { installed_files_of_program "${1-}b2" && installed_files_of_program "${1-}b2sum" &&
        expected_installed_files lib/ &&
        printf 'share/man/man3/%s.3\n' vulfsjor vulfsjor_tree $(functions_of_headers); } | LC_ALL=C sort
}

# `make install` and `make uninstall`, below DESTDIR.
make_installs_and_uninstalls() {
    local root="$work/made here" place="$work/made here/opt/a b"
    (umask 077 && make_here install prefix="/opt/a b" DESTDIR="$root") &&
        files_below "$place" | diff <(files_of_full_installation) - &&
        [ "$(cd "$place" && find . -type f -perm 755 | sort | paste -sd ' ')" = \
            "./bin/b2 ./bin/b2sum ./lib/libvulfsjor.so.$(version)" ] &&
        [ -z "$(find "$root" ! -type l ! -perm 755 ! -perm 644)" ] &&
        [ "$(printf abc | "$place/bin/b2" sum b512)" = "$(printf abc | b2sum | cut -c-128)" ] &&
        [ "$(printf abc | "$place/bin/b2sum")" = "$(printf abc | b2sum)" ] &&
        installed_scripts_are_copies "$place" && touch "$place/bin/other" &&
        make_here uninstall prefix="/opt/a b" DESTDIR="$root" &&
        [ "$(files_below "$root")" = "opt/a b/bin/other" ] &&
        refuses 2 "prefix must be an absolute path" make_here install prefix=opt &&
        refuses 2 "prefix must be an absolute path" make_here uninstall prefix=opt &&
        ! make_here -n install PROGRAMS=b2 | grep -q b2sum &&
        make_here -n LIBB2_SHARED=1 | grep -F "c/install.sh --libb2-shared --build $work/made/lib" &&
        ! make_here -n | grep -F -e --libb2-shared
}

# The variables of the GNU standards: each reaches the compiler, the archiver or its folder. What was built is installed
# without a compiler.
make_variables_reach_tools() {
    local root=$work/variables line folders=(prefix=/p bindir=/b libdir=/l includedir=/i mandir=/m datarootdir=/d)
    write_recording_command noted_cc cc && write_recording_command noted_ar ar && make_here all 2>"$work/made_said" ||
        return 1
    # Debug information names no temporary file, so that another build is the same.
    ! grep -rlaF -e "$work/made" -e /text.s --exclude words "$work/made" || return 1
    # Only objects of the system have no marks.
    ! grep "missing IBT" "$work/made_said" | grep -v "ld: /usr/" || return 1
    while read -r line; do
        case " $line" in
            " -dumpmachine" | " -print-"* | " -DASKED=1 $made_flags -E -P -") ;;
            *" -E "*"/macros.h "* | *" -c "*.s\ *) [[ " $line" == *" -DASKED=1 $made_flags "* ]] || return 1 ;;
            *" -c "*) [[ $line == *" -DASKED=1 $made_flags "*" -fno-lto "* ]] || return 1 ;;
            *) [[ " $line" == *" -DASKED=1 $made_flags $made_links "*"-fno-lto "* ]] || { echo "$line" && return 1; } ;;
        esac
    done <"$work/noted_cc.calls"
    [ "$(grep -vc -e ' -c ' -e ' -E ' -e -dumpmachine "$work/noted_cc.calls")" -eq 3 ] &&
        [ "$(grep -c -e ' -E .*/macros' "$work/noted_cc.calls")" -eq 1 ] &&
        [ "$(wc -l <"$work/noted_ar.calls")" -eq 3 ] && make_here -s install DESTDIR="$root" "${folders[@]}" &&
        [ "$(wc -l <"$work/noted_ar.calls")" -eq 3 ] && make_here -q all && ! make_here -q install CC=cc &&
        ! make_here -q all CFLAGS="it's" && files_below "$root" | diff <(files_of_full_installation |
            sed 's|^bin/|b/|;s|^include/|i/|;s|^lib/|l/|;s|^share/man/|m/|;s|^share/|d/|' | LC_ALL=C sort) - &&
        [ "$(printf abc | "$root/b/b2sum")" = "$(printf abc | b2sum)" ] &&
        make_here uninstall DESTDIR="$root" "${folders[@]}" && [ -z "$(files_below "$root")" ] || return 1
    make_here -s install DESTDIR="$root" prefix=/p exec_prefix=/e &&
        (cd "$root" && ls -d e/* p/* | paste -sd ' ' | grep -x "e/bin e/lib p/include p/share") &&
        make_here uninstall DESTDIR="$root" prefix=/p exec_prefix=/e && [ -z "$(files_below "$root")" ]
}

# Each of these is built again if what the compiler gets has changed, or a file that it is made of, as make itself lists
# them.
make_rebuilds_after_changes() {
    local line target files
    declare -A made_of=()
    make_here -q all && [ "$(make_here -n CFLAGS=-O3 | grep -c -e ' --build ')" -eq 3 ] || return 1
    while read -r target files; do made_of[$target]=" $files "; done < <(make_here -pq all |
        sed -nE "s,^$work/made/(b2|b2sum|lib/kind): ,\\1 ,p")
    for line in tools/launcher.sh:b2 c/{choose.c,system.h,vulfsjor.map,include/vulfsjor.h,make_libraries.sh}:lib/kind \
        c/{libb2/libb2.c,include/{libb2,reference}/blake2.h}:lib/kind \
        dist/{MANIFEST,macros.h,x86_64/{elf.inc,b2sum.s}}:b2sum; do
        [[ ${made_of[${line#*:}]} == *" ${line%:*} "* ]] || { echo "$line" && return 1; }
    done
}

# Next to files of others, in the folders of the system: nothing is installed, unless by another name; and then the
# others stay, also when ours go.
make_keeps_files_of_others() {
    local root=$work/others place=$work/others/usr name
    mkdir -p "$place/bin" "$place/share/man/man1" && echo coreutils >"$place/bin/b2sum" &&
        echo Boost >"$place/bin/b2" && echo coreutils >"$place/share/man/man1/b2sum.1" || return 1
    for name in "" PROGRAMS=b2sum PROGRAMS=b2; do
        refuses 2 'is not ours' make_here install prefix=/usr DESTDIR="$root" $name &&
            [ "$(files_below "$root" | wc -l)" -eq 3 ] || return 1
    done
}
make_installs_next_to_others() {
    local root=$work/others place=$work/others/usr
    make_here install prefix=/usr DESTDIR="$root" PROGRAM_PREFIX=vulfsjor- &&
        files_below "$place" | diff <({ printf '%s\n' bin/b2 bin/b2sum share/man/man1/b2sum.1 &&
            files_of_full_installation vulfsjor-; } | LC_ALL=C sort) - &&
        [ "$(cat "$place"/bin/b2{,sum} "$place/share/man/man1/b2sum.1" | paste -sd ' ')" = \
            "Boost coreutils coreutils" ] && installed_scripts_are_copies "$place" vulfsjor- &&
            pkg_config_omits_system_folders "$place/lib/pkgconfig" &&
        [ "$("$place/bin/vulfsjor-b2sum" none 2>&1)" = "vulfsjor-b2sum: none: No such file or directory" ] || return 1
    make_here install prefix=/usr DESTDIR="$root" PROGRAM_PREFIX=vulfsjor- &&
        make_here uninstall prefix=/usr DESTDIR="$root" && [ "$(cat "$place/bin/b2")" = Boost ] &&
        make_here uninstall prefix=/usr DESTDIR="$root" PROGRAM_PREFIX=vulfsjor- &&
        [ "$(files_below "$root" | wc -l)" -eq 3 ]
}

# In the folders of the system pkg-config leaves them out.
pkg_config_omits_system_folders() {
    grep -qx prefix=/usr "$1/vulfsjor.pc" && grep -q '^URL: https://' "$1/vulfsjor.pc" || return 1
    ! has pkg-config ||
        [ "$(PKG_CONFIG_PATH=$1 pkg-config --cflags --libs vulfsjor | sed 's/ *$//')" = -lvulfsjor ]
}

# What the other names of the Makefile run, and the list of all. No rule takes a word that is not listed, such as one
# that is the name of somebody's program.
make_targets_run_commands() {
    local word
    diff <(make -C "$top" -n --no-print-directory test release prove twins dist bench docs) - <<'END' || return 1
./test
tools/release.sh
tests/roots.sh --all
./test --prove
tools/twins.py
tools/dist.sh sums
tools/dist.sh make
js/tools/build.mjs
tools/dist.sh sums
bench/speed.py
tools/reference.py
tests/page_numbers.py --write
tools/manual.py
tests/pages.py
END
    [ "$(make -C "$top" --no-print-directory help | cut -f 1 | cut -d ' ' -f 2 | paste -sd ' ')" = \
        "all help install uninstall test clean release prove twins dist bench docs" ] &&
        [ "$(make_here -n)" = "$(make_here -n all)" ] && [ "$(make_here -n clean | grep -v ^make)" = "rm -rf out" ] ||
        return 1
    for word in install-strip install-gcc uninstall-gcc out/make/gcc; do
        refuses 2 "No rule to make target '$word'" make -C "$top" -n $word || return 1
    done
}

# What CMakeLists.txt chooses, by its own lines, for each system, processor, size of pointers and variable that is on:
# portable C where there is no assembly, or if it is asked for.
cmake_chooses_sources_per_system() {
    local texts=({Linux,Android,Darwin,Windows,{Free,Net,Open}BSD,DragonFly},{x86_64,{amd,AMD,arm,ARM}64,aarch64},8,ON)
    local portable=(Linux,{riscv64,aarch64_be,not_arm64},8,ON Linux,{x86_64,armv7l},4,ON Haiku,x86_64,8,ON
        SunOS,aarch64,8,ON Linux,x86_64,8,VULFSJOR_PORTABLE Windows,AMD64,8,MSVC)
    {
        echo "foreach(case ${texts[*]} ${portable[*]})"
        printf '%s\n' 'string(REPLACE "," ";" words ${case})' 'list(GET words 0 CMAKE_SYSTEM_NAME)' \
            'list(GET words 1 CMAKE_SYSTEM_PROCESSOR)' 'list(GET words 2 CMAKE_SIZEOF_VOID_P)' \
            'list(GET words 3 name)' 'set(${name} 1)'
        sed -n '/^set(processors /,/^endforeach/p' "$here/CMakeLists.txt"
        printf '%s\n' 'unset(${name})' 'message("${case} ${code}")' 'endforeach()'
    } >"$work/choose.cmake"
    cmake -P "$work/choose.cmake" 2>&1 | diff - <(printf '%s choose.c;/vulfsjor.S\n' "${texts[@]}" &&
        printf '%s /c/vulfsjor.c\n' "${portable[@]}")
}

# A repository of its own whose tools/dist.sh is a stand-in, which notes its words.
make_repository_with_fake_dist_script() {
    mkdir -p "$1/tools" && cp "$top/tools/shell.sh" "$1/tools" && cp -R "$here" "$1/c" && cp -R "$dist" "$1/dist" &&
        cat >"$1/tools/dist.sh" <<END || return 1
#!/bin/sh
echo "\$@" >>"$1/calls"
[ ! -e "$1/refuse" ] || { echo stale >&2 && exit 1; }
END
    chmod +x "$1/tools/dist.sh"
}

# Without a word the library comes from dist/, where that was made from these sources. Else nothing is installed.
library_comes_from() {
    local tree=$work/tree
    compiler_for && make_repository_with_fake_dist_script "$tree" && CC="$work/for $(cc -dumpmachine)" \
        "$tree/c/install.sh" --portable "$tree/made" && [ -e "$tree/made/lib/libvulfsjor.so" ] &&
        grep -F "$tree/dist/c/vulfsjor.c" "$work/compiled" &&
        [ "$(cat "$tree/calls")" = current ] && touch "$tree/refuse" || return 1
    refuses 1 stale "$tree/c/install.sh" "$tree/not_made" &&
        [ ! -e "$tree/not_made" ]
}

# The status and the words of a call that is refused.
refuses() {
    local wanted=$1 word=$2
    shift 2
    "$@" >"$work/said" 2>&1
    [ $? -eq "$wanted" ] && grep -qe "$word" "$work/said" ||
        { echo "status or words of: $*"; cat "$work/said"; return 1; }
}

# A compiler for the machine that is its first word, which notes its other words and only writes an empty object; or,
# with the file `real`, is the one here, and optimizes nothing. With the file `noting` it fails at C, which comes after
# the texts.
compiler_for() {
    rm -f "$work"/{compiled,real,noting} && cc -c "$empty" -o "$work/empty.o" &&
        cat >"$work/for" <<END && chmod +x "$work/for"
#!/bin/bash
[ "\$2" != -dumpmachine ] || { echo "\$1"; exit; }
shift
echo "\$*" >>"$work/compiled"
case " \$* " in *" -E "* | *" -print-prog-name="*) exec cc "\$@" ;; esac
[ ! -e "$work/real" ] || exec cc "\$@" -O0
[ ! -e "$work/noting" ] || case " \$* " in *".c "*) exit 1 ;; esac
while [ "\$1" != -o ]; do shift; done
cp "$work/empty.o" "\$2"
END
}

# The names of the texts that install.sh takes for a machine, whose compiler is that one.
texts_chosen_for_machine() {
    rm -f "$work/compiled"
    CC="$work/for $1" "$here/install.sh" --from "$dist" "${@:2}" "$work/for_$1" 2>"$work/said"
    grep -ohE '/vulfsjor[v0-9-]*\.[sc] ' "$work/compiled" | sort -u | tr -d '/ '
}

# A folder of the loader: the programs that link the library start, or a line says what is to be done. A stand-in for
# ldconfig notes that it is run.
install_updates_loader_cache() {
    local folder=$work/loader
    mkdir -p "$folder/bin" && cat >"$folder/bin/ldconfig" <<END && chmod +x "$folder/bin/ldconfig" || return 1
#!/bin/sh
case "\$*" in -NXv) echo "$folder/lib: (from x)" ;; "") [ ! -e "$folder/refuse" ] && touch "$folder/run" ;; esac
END
    PATH=$folder/bin:$PATH install_once_over_other_archive "$folder/other" && [ ! -e "$folder/run" ] &&
        PATH=$folder/bin:$PATH DESTDIR=$folder/root install_once_over_other_archive "$folder" &&
        [ ! -e "$folder/run" ] &&
        PATH=$folder/bin:$PATH install_once_over_other_archive "$folder" && [ -e "$folder/run" ] &&
        touch "$folder/refuse" &&
        PATH=$folder/bin:$PATH install_once_over_other_archive "$folder" 2>&1 | tail -1 | grep -F "run ldconfig" ||
        return 1
    # After an upgrade nothing is left of the older library.
    touch "$folder/lib/libvulfsjor.so.0.0.9" && "$here/install.sh" --uninstall "$folder" &&
        [ -z "$(files_below "$folder/lib")" ]
}

# What is installed for a machine works, says what it is, and has all functions.
installation_is_portable_c() {
    local lib=$work/for_$1/lib
    pkg_config_words_work "$lib" &&
        grep -qx 'Description: BLAKE2b, BLAKE2s, BLAKE2bp and BLAKE2sp, translated from proved code' \
            "$lib/pkgconfig/vulfsjor.pc" &&
        [ "$(nm -D --defined-only "$lib/libvulfsjor.so" | wc -l)" -eq \
            "$(nm -D --defined-only "$shared" | wc -l)" ]
}

# Every machine without assembly has portable C, which works, and others have it by a word. Systems
# with ELF have the assembly for Linux.
machines_without_assembly_get_portable_c() {
    local machine
    compiler_for && touch "$work/real" || return 1
    texts_chosen_for_machine riscv64-linux-gnu | diff <(echo vulfsjor.c) - &&
        installation_is_portable_c riscv64-linux-gnu &&
        [ "$(grep -c -e -Wl,-z,defs "$work/compiled")" -eq 1 ] && rm "$work/real" && touch "$work/noting" || return 1
    texts_chosen_for_machine x86_64-pc-linux-gnu --portable | diff <(echo vulfsjor.c) - || return 1
    for machine in x86_64-linux-gnux32 aarch64-linux-gnu_ilp32 aarch64_be-linux-gnu i386-unknown-haiku; do
        texts_chosen_for_machine $machine | diff <(echo vulfsjor.c) - || return 1
    done
    ! is_x86 ||
        for machine in x86_64-unknown-{openbsd,freebsd14.0,dragonfly6.4} x86_64-{linux-android,w64-windows-gnu}; do
        texts_chosen_for_machine $machine | diff <(printf 'vulfsjor-v%s.s\n' 2 3 4) - || return 1
    done
}

# What the preprocessor says of the machine, by -m32; a compiler that does not name its machine; and one with a
# sanitizer, whose functions are not in the library.
unusual_compilers_are_handled() {
    compiler_for || return 1
    ! is_x86 || CFLAGS=-m32 texts_chosen_for_machine x86_64-linux-gnu | diff <(echo vulfsjor.c) - || return 1
    printf '#!/bin/sh\nexit 1\n' >"$work/silent" && chmod +x "$work/silent" &&
        refuses 1 "silent does not know -dumpmachine: use GCC or Clang" env CC="$work/silent" "$here/install.sh" \
            --from "$dist" "$work/no" &&
        [ ! -e "$work/no" ] && CFLAGS=-fsanitize=address texts_chosen_for_machine "$(cc -dumpmachine)" --portable &&
        grep -e -shared "$work/compiled" && ! grep -e -Wl,-z,defs "$work/compiled"
}

# The package for CMake is for the size of a pointer of what is installed, and a later version would be for requests of
# its minor version.
cmake_package_checks_pointer_size() {
    local size package=lib/cmake/vulfsjor/vulfsjor-config-version.cmake
    install_once_over_other_archive "$work/size" || return 1
    for size in 4 8; do
        cp -R "$work/built" "$work/built$size" && sed -i "3s/.*/$size/" "$work/built$size/kind" &&
            "$here/install.sh" --built "$work/built$size" "$work/size$size" || return 1
    done
    sed "s/$(version)/0.3.5/" "$work/size8/$package" >"$work/later.cmake" && cat >"$work/size.cmake" <<END || return 1
foreach(size 4 8)
  foreach(CMAKE_SIZEOF_VOID_P 4 8)
    unset(PACKAGE_VERSION_UNSUITABLE)
    include("$work/size\${size}/$package")
    message("\${size} for \${CMAKE_SIZEOF_VOID_P}: \${PACKAGE_VERSION_UNSUITABLE}")
  endforeach()
endforeach()
foreach(PACKAGE_FIND_VERSION 0.3 0.3.5 0.3.6 0.2 1.3)
  string(REGEX MATCHALL "[0-9]+" numbers \${PACKAGE_FIND_VERSION})
  list(GET numbers 0 PACKAGE_FIND_VERSION_MAJOR)
  list(GET numbers 1 PACKAGE_FIND_VERSION_MINOR)
  unset(PACKAGE_VERSION_COMPATIBLE)
  include("$work/later.cmake")
  message("\${PACKAGE_FIND_VERSION} \${PACKAGE_VERSION_COMPATIBLE}")
endforeach()
END
    cmake -P "$work/size.cmake" 2>&1 | diff - <(printf '%s\n' "4 for 4: " "4 for 8: TRUE" "8 for 4: TRUE" "8 for 8: " \
        "0.3 TRUE" "0.3.5 TRUE" "0.3.6 " "0.2 " "1.3 ") &&
        grep -x "$(echo __SIZEOF_POINTER__ | cc -E -P -)" "$work/built/kind"
}

# CMake optimizes portable C for speed, whatever the type of build and the flags are: the last option counts. So does
# install.sh.
portable_c_is_always_optimized() {
    local type build=$work/type
    compiler_for && CFLAGS=-O0 texts_chosen_for_machine riscv64-linux-gnu && grep 'vulfsjor\.c ' "$work/compiled" |
        grep -o -e '-O.' |
        diff - <(printf '%s\n' -O2 -O0 -O2{,} -O0 -O2) || return 1
    ! has cmake || for type in :-O2 Debug:-O2 Release:-O3 RelWithDebInfo:-O2 MinSizeRel:-O2 Other:-O2; do
        cmake -S "$here" -B "$build" -DVULFSJOR_PORTABLE=ON -DCMAKE_BUILD_TYPE="${type%:*}" -DCMAKE_C_FLAGS=-O0 &&
            grep -o -e '-O.' "$build/CMakeFiles/vulfsjor.dir/flags.make" | tail -1 | diff - <(echo "${type#*:}") ||
            return 1
    done
}

wrong_installations_are_refused() {
    local call=("$here/install.sh") words
    compiler_for && cd "$work" || return 1
    for words in riscv64 aarch64; do
        refuses 1 "no build for $words-linux-gnu and x86-64-v2" env CC="$work/for $words-linux-gnu" \
            "${call[@]}" --cpu x86-64-v2 --from "$dist" no || return 1
    done
    for words in "" "a b" --cpu "--cpu x86-64-v5 no" "--cpu x86-64-v3 --portable no" --from "--from no --what" \
        "--what no" --uninstall; do
        # shellcheck disable=SC2086
        refuses 2 usage "${call[@]}" $words || return 1
    done
    refuses 2 usage "${call[@]}" "" &&
        refuses 0 DESTDIR "${call[@]}" --help && head -n 1 said | grep -q '^Installs the library' &&
        refuses 1 'binutils (Debian: gcc and libc6-dev)' env CC=no-compiler "${call[@]}" --from "$dist" no &&
        refuses 1 'No such file' "${call[@]}" --from nowhere no &&
        refuses 1 'was not made by --build' "${call[@]}" --built . no && [ ! -e no ] && [ ! -e --what ]
}

test_installation() {
    check "a folder with a space, from the current one, moved and uninstalled" installs_into_folder_with_space
    check "a repository with a comma, and other options of the shell" installs_from_folder_with_comma
    check "DESTDIR and LIBDIR" installs_into_destdir_only
    check "a second installation" reinstalls_over_old_files
    check "a folder of the loader, and an upgrade" install_updates_loader_cache
    check "what install.sh refuses" wrong_installations_are_refused
    check "machines without assembly, and --portable" machines_without_assembly_get_portable_c
    check "compilers for 32 bits, without a name and with a sanitizer" unusual_compilers_are_handled
    check_huge "how portable C is optimized" portable_c_is_always_optimized
    check "a project with the files by hand" sources_build_in_project_by_hand
    check "compilers of several words" compiler_of_several_words_compiles_all
    needs cmake
    check "a project with the files by CMake" cmake_builds_repository_as_part
    check "what CMake chooses by the processor" cmake_chooses_sources_per_system
    check "the size of pointers in the package for CMake" cmake_package_checks_pointer_size
    check "find_package of an installation" cmake_package_is_found
    check "find_package after cmake --install" cmake_installs_same_files
    check_huge "find_package after cmake --install of portable C" cmake_installs_portable_library
    needs make
    check "the variables of make" make_variables_reach_tools
    check "what make builds again" make_rebuilds_after_changes
    check "make install and make uninstall" make_installs_and_uninstalls
    check "make install replaces no file of others" make_keeps_files_of_others &&
        check_huge "make install next to files of others" make_installs_next_to_others
    check "the other names of the Makefile" make_targets_run_commands
    needs
    is_x86 || missing="the processor is not x86-64"
    check "an installation with only one build" installs_one_build_without_choice
    check "where the library comes from" library_comes_from
    needs pkg-config
    is_x86 || [ "$(uname -m)" = aarch64 ] || missing="portable C is one object"
    check "a program of one call is small" linked_programs_are_small
    needs pkg-config
    check "the words of pkg-config" pkg_config_prints_words
}

run_part_of_tests test_installation
