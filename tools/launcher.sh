# What the scripts b2 and b2sum share. Each reads this file by `source`, with `top` set to the
# folder of the repository and `name` to the name of the program.
#
# The program is in out/ or, if that cannot be written, in the folder vulfsjor of XDG_CACHE_HOME
# (otherwise of ~/.cache), one for each clone. It is linked with the library, whose functions hash. On
# x86-64 that contains all builds and chooses one at run time, so machines with other processors may
# share the folder.
machine=${BASH_VERSINFO[5]%%-*}
x86_64=("dist/x86_64/$name.s" dist/x86_64/vulfsjor-v{2,3,4}.s)
aarch64=("dist/aarch64/$name.s" dist/aarch64/vulfsjor.s)
sources=(c/b2.c c/build.c c/choose.c c/include/vulfsjor.h)
[ "$name" = b2 ] || sources+=(c/b2sum.c c/threads.c c/system.h c/include/vulfsjor_threads.h)
inputs=("$name" tools/launcher.sh dist/{x86_64,aarch64}/{elf,macho,coff}.inc "${x86_64[@]}" "${aarch64[@]}"
    "${sources[@]}")

fail() {
    echo "$name: $1" >&2
    exit 1
}

# Whether this program exists and was built from what it would be built from now. A file that is unpacked
# over another keeps its own time, and so may be older than the program. So MANIFEST has to be the same,
# and each file neither newer nor older than it was. This starts no process.
is_current() {
    local file record was= now=
    record=${1%/*}/.${1##*/}
    [ -x "$1" ] && [ -r "$record/MANIFEST" ] && [ -r "$top/dist/MANIFEST" ] || return
    IFS= read -r -d '' was <"$record/MANIFEST" || :
    IFS= read -r -d '' now <"$top/dist/MANIFEST" || :
    [ "$was" = "$now" ] || return
    for file in "${inputs[@]}"; do
        [[ $top/$file -nt $record/$file || $top/$file -ot $record/$file ]] || continue
        [[ ! -e $record/$file && $1 -nt $top/$file ]] || return
    done
}

# Writes what is_current compares to a folder: MANIFEST, and for each file an empty one of the same time. Where the
# file system cannot hold this time, the file is left out, and has to be older than the program.
write_record() {
    local file
    for file in "${inputs[@]}"; do
        mkdir -p -- "$1/${file%/*}" && touch -r "$top/$file" -- "$1/$file"
        [[ ! ($top/$file -nt $1/$file || $top/$file -ot $1/$file) ]] || rm -f -- "$1/$file"
    done
    cat "$top/dist/MANIFEST" >"$1/MANIFEST"
}

# The name of the main in a file of dist/, and that of a function that it calls or exports: FILE
# call|export FUNCTION.
main_symbol_of() { sed -n $'s/^\tvj_export\t\\(main_.*\\)/\\1/p' "$1"; }
symbol_of_function_in() { sed -n $'/^\tvj_'"$2"$'\t.*\\.'"$3"$'[._]/{s/.*\t//p;q;}' "$1"; }

# Adds to `words` what the compiler gets for the program of this file.
add_compiler_words() {
    local text build
    words+=("-DMAIN=$(main_symbol_of "$1")" "-I$top/c/include" "$top"/c/{b2,build,choose}.c -DVULFSJOR_BUILD)
    for text in "${1%/*}"/vulfsjor*.s; do
        text=${text#"$top/dist/"} build=${text#*/vulfsjor} build=${build%.s} build=${build#-}
        words+=("-DBUILD${build:+_$build}=\"$(sed -n "\,  $text\$,p" "$top/dist/MANIFEST")\"")
    done
    if [ "$name" = b2 ]; then
        words+=('-DCHOOSE_FUNCTIONS=<stddef.h>')
    else
        words+=("-DABSORB_TREE=$(symbol_of_function_in "$1" call absorb_tree)"
            "-DPROVED_TREE=$(symbol_of_function_in "$1" export absorb_tree)"
            "-DHIDE_MEMORY=$(symbol_of_function_in "$1" call hide_memory)"
            "-DSHOW_PROGRESS=$(symbol_of_function_in "$1" call show_progress)"
            -DEND=b2sum_end -DFREE=b2sum_free -DREALLOC=b2sum_realloc
            "$top"/c/{b2sum,threads}.c)
        [ $format = coff ] || words+=(-pthread)
    fi
}

# Builds the program as this file, for the machine that the compiler compiles for, which has to be
# this one if it is named: FILE [MACHINE]. Then its record is written too, which is that of the
# beginning, as the program's time is. CFLAGS, CPPFLAGS and LDFLAGS are used as by make. For ELF it
# is marked for branch protection.
build_program() {
    local cc target texts format words flags branches record=${1%/*}/.${1##*/}
    read -ra cc <<<"${CC:-cc}"
    command -v "${cc[0]-}" >/dev/null ||
        fail "a C compiler is needed: cc (Debian: gcc and libc6-dev), or the one that CC names"
    target=$("${cc[@]}" -dumpmachine)
    case $target in
        *x32 | *ilp32) format= ;;
        *-linux*) format=elf words=(-Wl,--gc-sections -Wl,-z,relro -Wl,-z,now) ;;
        *-mingw32 | *-windows-gnu) format=coff words=(-Wl,--gc-sections -Wl,--no-insert-timestamp -municode) ;;
        *-apple-*) format=macho words=(-Wl,-dead_strip) ;;
        *) format= ;;
    esac
    case $target in
        x86_64-*) texts=("${x86_64[@]}") branches=-fcf-protection=full ;;
        aarch64-* | arm64-*) texts=("${aarch64[@]}") branches=-mbranch-protection=bti ;;
        *) format= ;;
    esac
    [ -n "$format" ] || fail "there is no build for $target"
    [ $format != elf ] || words+=("$branches")
    [[ $target == "${2-}"* ]] || fail "CC compiles for $target, and this machine is $2"
    begun=$(mktemp -- "$1.XXXXXX")
    trap 'rm -rf -- "$begun" "$begun".*' EXIT
    [ -z "${2-}" ] || write_record "$begun.record"
    "$top/tools/dist.sh" current || exit 1 # it says why
    echo "$name: assembling ${texts[*]}, which is done once" >&2
    # With -g this name is written, and not that of the temporary file.
    (cd "$top" && echo "# 1 \"$name.s\"" && cat "${texts[0]%/*}/$format.inc" &&
        printf '\tvj_marks\n' && cat "${texts[@]}") >"$begun.s"
    add_compiler_words "$top/${texts[0]}"
    read -ra flags <<<"${CPPFLAGS-} ${CFLAGS-} ${LDFLAGS-}"
    "${cc[@]}" -O2 ${flags[@]+"${flags[@]}"} -fno-lto -ffunction-sections "${words[@]}" \
        -o "$begun.new" "$begun.s"
    chmod 755 "$begun.new"
    touch -r "$begun" "$begun.new"
    [ -z "${2-}" ] || rm -rf -- "$record"
    mv -f -- "$begun.new" "$1"
    [ -z "${2-}" ] || mv -f -- "$begun.record" "$record"
    rm -f -- "$begun" "$begun.s"
    trap - EXIT
    echo "$name: built $1" >&2
}

# Whether files can be written in this folder, which need not exist yet.
is_writable() { if [ -e "$1" ]; then [ -d "$1" ] && [ -w "$1" ]; else [ -w "${1%/*}" ]; fi; }

# Sets program to the one in out/ or, if that has to be built and cannot be written, to the one in
# the cache. Builds it if it is not current.
find_program() {
    local cache=${XDG_CACHE_HOME-}
    program=$top/out/$name-$machine
    ! is_current "$program" || return 0
    if ! is_writable "$top/out"; then
        [[ $cache == /* ]] || cache=${HOME:+$HOME/.cache}
        program=${cache:-/dev/null}/vulfsjor$(cd -- "$top" && pwd -P)/$name-$machine
        ! is_current "$program" || return 0
        [ -z "$cache" ] || echo "$name: $top/out cannot be written: trying ${program%/*}" >&2
    fi
    if ! mkdir -p -- "${program%/*}" 2>/dev/null || ! is_writable "${program%/*}"; then
        fail "$top/out cannot be written: set XDG_CACHE_HOME to a folder for the program"
    fi
    build_program "$program" "$machine-"
}

# Runs the program with these arguments, by the name of the script, which its messages begin with. `--build FILE` builds
# it as FILE instead.
run_program() {
    if [ "${1-},$#" = --build,2 ]; then
        build_program "$2"
    else
        find_program
        exec -a "$0" "$program" "$@"
    fi
}
