#!/usr/bin/env bash
# Installs the library vulfsjor under a folder:
#
#   c/install.sh [--cpu CPU | --portable] [--from DIST] [--libb2-shared] [--build] FOLDER
#   c/install.sh --built FOLDER FOLDER
#   c/install.sh --uninstall FOLDER
#
#   FOLDER/include/                   vulfsjor.h; vulfsjor.hpp for C++; vulfsjor_threads.h
#   FOLDER/include/vulfsjor-libb2/    blake2.h, with libb2's names
#   FOLDER/include/vulfsjor-reference/  blake2.h, with the names of BLAKE2's reference code
#   FOLDER/lib/                       libvulfsjor.a and libvulfsjor.so; libvulfsjor-threads.a, for roots of trees by
#                                     several threads; libvulfsjor-libb2.a, with libb2's names; libvulfsjor-static.a, a
#                                     link to the first by a name that no shared library has
#   FOLDER/lib/pkgconfig/             vulfsjor.pc, vulfsjor-static.pc, vulfsjor-threads.pc
#   FOLDER/lib/cmake/vulfsjor/        the package vulfsjor for CMake
#   FOLDER/lib/vulfsjor-libb2/        libb2.a and pkgconfig/libb2.pc, for programs that look for libb2
#
# If the compiler is one for Windows, the shared library is FOLDER/bin/libvulfsjor-1.dll, with
# FOLDER/lib/libvulfsjor.dll.a to link it. If it is one for macOS, that is
# FOLDER/lib/libvulfsjor.1.dylib, with the link libvulfsjor.dylib. The script itself needs bash 3.2 and
# the tools of GNU, BusyBox or BSD.
#
# It assembles the files of dist/ for the machine that the C compiler (CC, otherwise cc) compiles
# for, x86-64 or 64-bit ARM, in a few seconds. For every other machine it compiles dist/c,
# portable C, twice, in 10 to 60 seconds each (docs/PORTABLE.md); with --portable also for those
# two. It needs the compiler and its binutils. CC may have several words, such as `ccache gcc`. With
# --from it installs what `tools/dist.sh make` has written to the folder DIST.
#
# On x86-64 the library contains the code for x86-64-v2, x86-64-v3 and x86-64-v4 processors, and
# chooses at run time. With --cpu it contains only the code for CPU, one of these three, and runs on
# no older processor.
#
# --libb2-shared, on systems with ELF, also makes FOLDER/lib/vulfsjor-libb2/libb2.so.1, which programs that are linked
# with libb2 find there if LD_LIBRARY_PATH names that folder (c/PORTING.md).
#
# --build only makes the libraries, in a folder, and --built installs them and compiles nothing.
# CFLAGS, CPPFLAGS, LDFLAGS and AR are used as by make.
#
# LIBDIR replaces FOLDER/lib, and INCLUDEDIR FOLDER/include; a path that does not begin with a slash
# is below FOLDER. If DESTDIR is set, all files are installed below it. --uninstall removes the files
# that are named above, with the same LIBDIR, INCLUDEDIR and DESTDIR.
set -eu
here=$(dirname "$(readlink -f "$0")")
source "$here/../tools/shell.sh"

usage() { echo "usage: c/install.sh [OPTIONS] FOLDER, or c/install.sh --help" >&2 && exit 2; }

read -ra cc <<<"${CC:-cc}"
cpu= portable=no dist=$top/dist uninstall=no build=no built= libb2_shared=
while [ $# -gt 0 ]; do
    case $1 in
        --cpu) [[ ${2-} =~ ^x86-64-v[234]$ ]] || usage; cpu=$2; shift 2 ;;
        --portable) portable=yes; shift ;;
        --from) [ $# -ge 2 ] || usage; dist=$2; shift 2 ;;
        --libb2-shared) libb2_shared=$1; shift ;;
        --build) build=yes; shift ;;
        --built) [ $# -ge 2 ] || usage; built=$2; shift 2 ;;
        --uninstall) uninstall=yes; shift ;;
        --help) show_help && exit ;;
        *) break ;;
    esac
done
{ [ $# -eq 1 ] && [ -n "$1" ] && [[ $1 != -* ]] && [ "${cpu:+cpu}$portable" != cpuyes ] &&
    { [ -z "$libb2_shared" ] || [ -z "$built" ]; }; } || usage

# A path, from a folder, as an absolute one without `.`, `..` and empty names. Links are not followed, and nothing
# needs to be there: PATH FOLDER
absolute() {
    local name path='' rest=$1/
    [[ $rest == /* ]] || rest=$2/$rest
    while [ -n "$rest" ]; do
        name=${rest%%/*} rest=${rest#*/}
        case $name in
            '' | .) ;;
            ..) path=${path%/*} ;;
            *) path+=/$name ;;
        esac
    done
    printf '%s\n' "${path:-/}"
}

# The way from one folder to another, by their absolute paths: FROM TO
relative() {
    local from=${1%/}/ to=${2%/}/ up=''
    while [[ $to != "$from"* ]]; do from=${from%/*/}/ up+=../; done
    to=$up${to#"$from"} to=${to%/}
    printf '%s\n' "${to:-.}"
}

# The folders as the installed files are found later; all but these names goes below DESTDIR.
folder=$(absolute "$1" "$PWD")
libdir=$(absolute "${LIBDIR:-lib}" "$folder")
include=$(absolute "${INCLUDEDIR:-include}" "$folder")
beside=$libdir/vulfsjor-libb2
package=$libdir/cmake/vulfsjor
root=${DESTDIR:-} version=$(version)

files=("$libdir"/libvulfsjor{,-static,-libb2,-threads,.dll}.a "$libdir"/libvulfsjor.{so,so.1,dylib,1.dylib}
    "$libdir"/pkgconfig/vulfsjor{,-static,-threads}.pc "$package"/vulfsjor-config{,-version}.cmake
    "$beside"/{libb2.a,libb2.so.1,libb2.so.1.0.4,pkgconfig/libb2.pc} "$folder/bin/libvulfsjor-1.dll"
    "$include"/{vulfsjor.h,vulfsjor.hpp,vulfsjor_threads.h,vulfsjor-{libb2,reference}/blake2.h})
if [ "$uninstall" = yes ]; then
    gone=()
    for name in "${files[@]}"; do gone+=("$root$name"); done
    rm -f -- ${gone[@]+"${gone[@]}"}
    rm -f -- "$root$libdir"/libvulfsjor.so.0.* # this version, and older ones
    for name in "$package" "$beside/pkgconfig" "$beside" "$include"/vulfsjor-{libb2,reference}; do
        rmdir -- "$root$name" 2>/dev/null || : # something else is in it
    done
    echo "install.sh: uninstalled from $root$folder" >&2
    exit
fi

system= has_text=no

# Makes the libraries in this folder, and a file that says for which system and how.
build_libraries() {
    command -v "${cc[0]-}" >/dev/null ||
        stop "${cc[0]-} is not on the PATH: a C compiler is needed, and its binutils (Debian: gcc and libc6-dev)"
    # The texts for the machine that it compiles for: portable C if there are none. Those for Linux are
    # ELF, and call nothing but memcpy and the like, so other systems with ELF have them too.
    # The preprocessor knows of -m32, and -dumpmachine does not.
    machine=$("${cc[@]}" -dumpmachine 2>/dev/null) || stop "${cc[*]} does not know -dumpmachine: use GCC or Clang"
    pointer=$(echo __SIZEOF_POINTER__ | "${cc[@]}" ${CPPFLAGS-} ${CFLAGS-} -E -P -) ||
        stop "${cc[*]} -E does not preprocess"
    texts=
    case $machine in
        *x32 | *ilp32) ;;
        *-linux* | *bsd* | *-dragonfly*) has_text=yes ;;
        *-mingw32 | *-windows-gnu) system=-windows has_text=yes ;;
        *-apple-*) system=-macos has_text=yes ;;
    esac
    [ "$portable,$pointer" = no,8 ] || has_text=no
    [ -z "$libb2_shared" ] || [ -z "$system" ] ||
        stop "--libb2-shared is for systems with ELF, and ${cc[*]} compiles for $machine"
    case $machine,$has_text in
        *,no) ;;
        x86_64-*)
            cpus=${cpu:-x86-64-v2 x86-64-v3 x86-64-v4}
            for level in $cpus; do texts="$texts x86_64/vulfsjor-${level#x86-64-}.s"; done
            ;;
        aarch64-* | arm64-*) [ -n "$cpu" ] || cpus=aarch64 texts=aarch64/vulfsjor.s ;;
    esac
    kind="proved, for ${cpus-}"
    [ -n "$texts$cpu" ] || kind="translated from proved code" texts=c/vulfsjor.c
    [ -n "$texts" ] || stop "there is no build for $machine${cpu:+ and $cpu}"
    [ "$dist" != "$top/dist" ] || "$top/tools/dist.sh" current || exit 1 # it says why
    for text in $texts; do set -- "$@" "$dist/$text"; done
    "$here/make_libraries.sh" $libb2_shared "$@"
    printf '%s\n' "$system" "$kind" "$pointer" >"$1/kind"
}

if [ "$build" = yes ]; then
    build_libraries "$folder"
    echo "install.sh: built the library in $folder" >&2
    exit
elif [ -z "$built" ]; then
    built=$work/lib
    build_libraries "$built"
fi
[ -r "$built/kind" ] || stop "$built was not made by --build"
{ read -r system && read -r kind && read -r pointer; } <"$built/kind"

write_link() { ln -sf -- "$1" "$root$2"; }

umask 022
mkdir -p -- "$root$beside"
for file in "$built"/lib*; do
    name=$libdir/${file##*/}
    [[ $file != */libb2.so* ]] || name=$beside/${file##*/}
    case $file in
        *.a) write "$root$name" <"$file" ;;
        *.dll) write "$root$folder/bin/${file##*/}" 755 <"$file" ;;
        *) if [ -L "$file" ]; then write_link "$(readlink "$file")" "$name"; else write "$root$name" 755 <"$file"; fi ;;
    esac
done
for name in vulfsjor{,_threads}.h vulfsjor.hpp; do write "$root$include/$name" <"$here/include/$name"; done
for name in libb2 reference; do
    write "$root$include/vulfsjor-$name/blake2.h" <"$here/include/$name/blake2.h"
done
# Windows has no links, and GCC there can name the file.
static=-l:libvulfsjor.a libb2='-L${libdir} -l:libvulfsjor-libb2.a' pthread=
if [ "$system" != -windows ]; then
    static=-lvulfsjor-static libb2='-L${libdir}/vulfsjor-libb2 -lb2' pthread=' -pthread'
    write_link libvulfsjor.a "$libdir/libvulfsjor-static.a"
    write_link ../libvulfsjor-libb2.a "$beside/libb2.a"
fi

# A folder of a file for pkg-config, as that names it: FILE FOLDER. It is found from where the file is,
# so that all may be moved together; but in the folders of the system, where nothing moves, it is
# plain, so that pkg-config can leave it out.
place_of() {
    case $folder in
        /usr | /usr/local) printf '%s\n' "$2" ;;
        *) printf '%s\n' "\${pcfiledir}/$(relative "${1%/*}" "$2")" ;;
    esac
}

# Writes a file for pkg-config: FILE NAME VERSION WHAT HEADERS WORDS.
write_words() {
    write "$root$1" <<END
prefix=$(place_of "$1" "$folder")
libdir=$(place_of "$1" "$libdir")
includedir=$(place_of "$1" "$include")
libb2dir=\${includedir}/vulfsjor-libb2
referencedir=\${includedir}/vulfsjor-reference

Name: $2
Description: BLAKE2b, BLAKE2s, BLAKE2bp and BLAKE2sp, $kind$4
URL: https://www.rfc-editor.org/rfc/rfc7693
Version: $3
Cflags: -I$5
Libs: $6
END
}
write_words "$libdir/pkgconfig/vulfsjor.pc" vulfsjor "$version" "" '${includedir}' \
    '-L${libdir} -lvulfsjor'
write_words "$libdir/pkgconfig/vulfsjor-static.pc" vulfsjor-static "$version" \
    ", linked statically" '${includedir}' "-L\${libdir} $static"
write_words "$libdir/pkgconfig/vulfsjor-threads.pc" vulfsjor-threads "$version" \
    ", with trees by several threads" '${includedir}' \
    "-L\${libdir} -lvulfsjor-threads $static$pthread"
write_words "$beside/pkgconfig/libb2.pc" libb2 0.98.1 ", a drop-in replacement for libb2" \
    '${libb2dir}' "$libb2"

# Puts a value in the place of a name, in the variable `text`: NAME VALUE
replace_name() { while [[ $text == *"@$1@"* ]]; do text=${text%%"@$1@"*}$2${text#*"@$1@"}; done; }

# Writes a file of the package for CMake. The headers and the libraries are below a folder that is
# above the package, which may be moved there, and all together.
above=$package
while [[ $include/ != "${above%/}"/* || $libdir/ != "${above%/}"/* ]]; do above=${above%/*}; done
for name in vulfsjor-config.cmake vulfsjor-config-version.cmake; do
    text=$(<"$here/$name.in")
    replace_name VERSION "$version"
    replace_name POINTER "$pointer"
    replace_name LIBDIR "$(relative "${above:-/}" "$libdir")"
    replace_name INCLUDEDIR "$(relative "${above:-/}" "$include")"
    write "$root$package/$name" <<<"$text"
done
echo "install.sh: installed under $root$folder" >&2
# The loader keeps a list of the libraries in its folders.
if [ -z "$root$system" ] && ldconfig=$(PATH=$PATH:/usr/sbin:/sbin command -v ldconfig) &&
    "$ldconfig" -NXv 2>/dev/null | grep "^$libdir:" >/dev/null; then
    "$ldconfig" 2>/dev/null || echo "install.sh: run ldconfig as root, so that programs find $libdir/libvulfsjor.so.1" \
        >&2
fi
