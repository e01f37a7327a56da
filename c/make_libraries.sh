#!/usr/bin/env bash
# Makes the libraries of c/install.sh --build, whose --help names them, from texts of dist/:
#
#   c/make_libraries.sh [--test BUILDS] FOLDER V2.s V3.s V4.s   all builds for x86-64, one of which is chosen
#                                                     at run time
#   c/make_libraries.sh FOLDER ONE.s                            one build, for x86-64 or aarch64
#   c/make_libraries.sh FOLDER vulfsjor.c                       portable C, for every processor
#
# choose.c says how a call goes, and what --test is. --libb2-shared, before all, makes libb2.so.1 too.
set -euf -o pipefail # no name has a * of its own
here=$(dirname "$(readlink -f "$0")")
source "$here/../tools/shell.sh"
read -ra cc <<<"${CC:-cc}"
words= libb2_shared=no
[ "${1-}" != --libb2-shared ] || { libb2_shared=yes && shift; }
if [ $# -ge 2 ] && [ "$1" = --test ]; then
    words=-DCHOOSE_TEST=$2
    shift 2
fi
[ $# -eq 2 ] || [ $# -eq 4 ] || { sed -n '/^#   c/s/^# *//p' "$0" >&2 && exit 2; }
folder=$1
shift
version=$(version)
# CPPFLAGS, CFLAGS and LDFLAGS are used as by make. Link-time optimization would lose the names that
# choose.c has in assembly. Objects for ELF are marked for branch protection, as those of dist/ are.
flags="${CPPFLAGS-} ${CFLAGS-}"
machine=$("${cc[@]}" -dumpmachine)
case $machine in
    *-mingw32 | *-windows-gnu | *-apple-*) branches= ;;
    x86_64-*) branches=-fcf-protection=full ;;
    aarch64-*) branches=-mbranch-protection=bti ;;
    *) branches= ;;
esac
compile() {
    "${cc[@]}" -O2 $branches $flags $speed -std=c99 -fPIC -ffunction-sections -fno-lto -c "$@"
}

# An archive of these objects, by AR, which may have several words, or the compiler's binutils.
archive() { if [ -n "${AR-}" ]; then $AR rcsD "$@"; else "$("${cc[@]}" -print-prog-name=ar)" rcsD "$@"; fi; }

# A sanitizer's functions are those of the program, by Clang.
defs=-Wl,-z,defs speed=
[[ "$flags ${LDFLAGS-}" != *-fsanitize* ]] || defs=
objects=() shown=$here/choose.c
# What build.c gets: the line of MANIFEST for each text, from its bytes.
lines=()
for text; do
    sum=$(sha256 <"$text") name=${text%/*}
    [ $# -eq 1 ] && build= || build=_v$((${#lines[@]} + 2))
    lines+=("-DBUILD$build=\"${sum%% *}  ${name##*/}/${text##*/}\"")
done
# Portable C has the functions by their own names. Not optimized for speed it may use more of the stack than a call with
# a key overwrites.
[[ $1 != *.c ]] || { shown=$1 speed=-O2 && set --; }
# The macros alone go through the preprocessor, which would take as long for the texts as the assembler.
[ $# -eq 0 ] ||
    "${cc[@]}" $flags -E -P -x assembler-with-cpp "$here/../dist/macros.h" -o "$work/macros.s"
# An object of a text: TEXT OBJECT. -g would write the path of this temporary file, another one each time.
assemble() {
    cat "$work/macros.s" "$1" >"${2%o}s"
    "${cc[@]}" $flags -g0 -c "${2%o}s" -o "$2"
}
for text; do
    object=$work/$(basename "$text" .s).o
    assemble "$text" "$object"
    objects+=("$object")
done
[ $# -ne 1 ] || words=-DCHOOSE_ONE=$(sed -n $'/^\tvj_export\t/{s/.*_//p;q;}' "$1")
compile -I"$here/include" $words -DCHOOSE_SHOWN "$shown" -o "$work/shown.o"
compile -I"$here/include" ${lines[@]+"${lines[@]}"} -DCHOOSE_SHOWN "$here/build.c" -o "$work/shown_build.o"
compile -I"$here/include" ${lines[@]+"${lines[@]}"} "$here/build.c" -o "$work/build.o"
compile -DVULFSJOR_LIBB2_HIDDEN "$here/libb2/libb2.c" -o "$work/libb2.o"
compile -I"$here/include" "$here/threads.c" -o "$work/threads.o"
# For ELF the archive has an object for each family of functions, of each build, and so a program gets
# what it calls only. awk writes these parts and prints their names: if it fails, or prints none, there is no archive.
case $#,$machine in
    0,* | *-mingw32 | *-windows-gnu | *-apple-*)
        compile -I"$here/include" $words "$shown" -o "$work/choose.o"
        members=("$work/choose.o" "$work/build.o" ${objects[@]+"${objects[@]}"})
        ;;
    *)
        mkdir "$work/parts"
        compile -I"$here/include" $words '-DCHOOSE_FUNCTIONS=<stddef.h>' "$shown" -o "$work/choose.o"
        members=("$work/choose.o" "$work/build.o")
        names=$(awk -v folder="$work/parts" '/^CALL\(/ {
            split($0, it, /[_"]/)
            name = it[4] (/_many"/ ? "_many" : "")
            print >(folder "/" name ".h")
            if (!seen[name]++) print name
        }' "$shown" | LC_ALL=C sort)
        for name in ${names:?of the parts are not there}; do
            compile -I"$here/include" $words -DCHOOSE_PART "-DCHOOSE_FUNCTIONS=\"$work/parts/$name.h\"" "$shown" \
                -o "$work/$name.o"
            members+=("$work/$name.o")
        done
        for text; do
            names=$(awk -v folder="$work/parts" -f "$here/split.awk" "$text" | LC_ALL=C sort)
            for name in ${names:?of the parts are not there}; do
                object=$work/$(basename "$text" .s)_$name.o
                assemble "$work/parts/$name.s" "$object"
                members+=("$object")
            done
        done
        ;;
esac
mkdir -p "$folder" && (set +f && rm -f "$folder"/lib{vulfsjor,b2.so}*)
archive "$folder/libvulfsjor.a" "${members[@]}"
# For ELF a member that no program needs. It does not link, and so all members together do not, as a shared library that
# would show none of the names.
case $machine in
    *-mingw32 | *-windows-gnu | *-apple-*) whole= ;;
    *)
        whole=$work/whole.o
        echo 'extern const char libb2_so_is_made_by_install_sh_libb2_shared __attribute__((visibility("hidden")));
const char *vulfsjor_libb2_whole(void) { return &libb2_so_is_made_by_install_sh_libb2_shared; }' >"$work/whole.c"
        compile -fvisibility=hidden "$work/whole.c" -o "$whole"
        ;;
esac
archive "$folder/libvulfsjor-libb2.a" "$work/libb2.o" "${members[@]}" $whole
archive "$folder/libvulfsjor-threads.a" "$work/threads.o"
# -static of LDFLAGS is for programs.
links=
for word in ${LDFLAGS-}; do [ "$word" = -static ] || links+=" $word"; done
shared=("${cc[@]}" $flags $links -fno-lto -shared "$work"/shown{,_build}.o ${objects[@]+"${objects[@]}"})
case $machine in
    *-mingw32 | *-windows-gnu)
        "${shared[@]}" -o "$folder/libvulfsjor-1.dll" \
            -Wl,--out-implib,"$folder/libvulfsjor.dll.a" \
            -Wl,--no-insert-timestamp -Wl,--disable-auto-image-base
        ;;
    *-apple-*)
        "${shared[@]}" -o "$folder/libvulfsjor.1.dylib" \
            -Wl,-install_name,@rpath/libvulfsjor.1.dylib -Wl,-current_version,"$version"
        ln -sf libvulfsjor.1.dylib "$folder/libvulfsjor.dylib"
        ;;
    *)
        "${shared[@]}" -o "$folder/libvulfsjor.so.$version" -Wl,-soname,libvulfsjor.so.1 \
            -Xlinker --version-script="$here/vulfsjor.map" $defs -Wl,-z,relro -Wl,-z,now \
            -Wl,-z,noexecstack
        ln -sf "libvulfsjor.so.$version" "$folder/libvulfsjor.so.1"
        ln -sf libvulfsjor.so.1 "$folder/libvulfsjor.so"
        [ "$libb2_shared" = yes ] || exit 0
        compile -fvisibility=default "$here/libb2/libb2.c" -o "$work/libb2_shown.o"
        "${cc[@]}" $flags ${LDFLAGS-} -fno-lto -shared "$work/libb2_shown.o" "$folder/libvulfsjor.a" \
            -o "$folder/libb2.so.1.0.4" -Wl,-soname,libb2.so.1 $defs -Wl,-z,relro -Wl,-z,now -Wl,-z,noexecstack
        ln -sf libb2.so.1.0.4 "$folder/libb2.so.1"
        ;;
esac
