#!/usr/bin/env bash
# Makes dist/, the code that the proved crates compile to, and compares it with the sources:
#
#   tools/dist.sh make                 makes dist/ anew
#   tools/dist.sh make FOLDER FILE..   makes these of its files in another folder
#   tools/dist.sh check                builds dist/ anew elsewhere, and compares byte for byte
#   tools/dist.sh current              compares hashes only, of the files and the sources, with
#                                      those in dist/MANIFEST: status 1 if one is another, 2 if they
#                                      could not be compared
#   tools/dist.sh sums                 writes the hashes in dist/MANIFEST anew of files that were
#                                      not made by this script, such as the headers for C: after a
#                                      change of one
#
# `make` and `check` need the toolchain of Rattle. They use what `rt ci` has proved, and prove the
# rest. The same toolchain makes the same bytes every time, in any folder. `current` and `sums` need no
# toolchain and less than a second.
#
# MANIFEST has the files of dist/, and of what is compiled or loaded with them the C of the library
# and the programs, the declarations for Rust, and what js/tools/build.mjs makes.
#
# `check` needs the tools whose hash MANIFEST has, of the kit that it names or of another. With other
# tools, or none, it does what `current` does and says so.
set -euo pipefail
source "$(dirname "$(readlink -f "$0")")/shell.sh"
manifest=$top/dist/MANIFEST
crates=(blake2_ffi b2 b2sum)
# Its files: those that are made, those by which they are assembled, and those around it.
files=(aarch64/b2.s aarch64/b2sum.s aarch64/vulfsjor.s c/vulfsjor.c rust/vulfsjor.rs
    wasm/vulfsjor.wasm x86_64/b2.s x86_64/b2sum.s
    x86_64/vulfsjor-v2.s x86_64/vulfsjor-v3.s x86_64/vulfsjor-v4.s)
by_hand=(macros.h vulfsjor.S {aarch64,x86_64}/{coff,elf,macho,purge_macros}.inc)
around=(../c/{b2,b2sum,build,choose,threads}.c ../c/{system,thunks}.h ../c/vulfsjor.map ../c/libb2/libb2.c
    ../c/include/{vulfsjor,vulfsjor_threads,{libb2,reference}/blake2}.h ../c/include/vulfsjor.hpp
    ../js/src/{wasm,wasm_blake2b,wasm_blake2s,build,worker_text}.js ../rust/src/library.rs)
source "$top/tools/toolchain.sh"
source "$top/tools/build.sh"

# A hash of all that decides what is compiled except the toolchain. A line that is a comment decides
# nothing, and of the header what tools/wasm_to_c.py reads: structs, and functions vulfsjor_ffi_*.
hash_of_sources() {
    local folders
    folders=$(crates_and_dependencies "${crates[@]}" | sort -u | sed 's|.*|crates/&/src|') || return
    cd "$top" && {
        find $folders -name '*.rt' | LC_ALL=C sort |
            xargs awk 'FNR == 1 { print "== " FILENAME } !/^[ \t]*\/\//' &&
            code_number &&
            cat tools/plain_names.py tools/aarch64_attributes.csv tools/parallel_attributes.csv \
                tools/x86_64_v2.sed tools/x86_64_v4.sed tools/rotations.sed tools/b2sum.sed tools/clear_registers.py \
                tools/object_formats.py tools/shared_functions.txt tools/scalar.sed \
                tools/wasm_{format,values,body}.py tools/wasm_to_c.{py,c} tools/wasm_to_rust.{py,rs} &&
            sed 's/ *\/\*.*\*\///' c/include/vulfsjor.h | awk '/^typedef struct/, /^}/; /^[a-z].* vulfsjor_ffi_/, /;/'
    } | sha256 | cut -d ' ' -f 1
}

# The lines of MANIFEST for the files as they are.
hash_lines_of_dist() { cd "$top/dist" && sha256 "${files[@]}" "${by_hand[@]}" "${around[@]}"; }

# What MANIFEST says of this word, and what follows from it.
manifest_value_of() { sed -n "s/^# $1: //p" "$manifest"; }
has_all_listed_files() {
    local file wanted sums name
    for file in "${files[@]}" "${by_hand[@]}" "${around[@]}"; do
        name=dist/$file
        [ -f "$top/dist/$file" ] || { echo "dist.sh: there is no ${name#dist/../}" >&2 && return 1; }
    done
    wanted=$(sed '/^#/d' "$manifest") && sums=$(hash_lines_of_dist) || return 2
    [ "$sums" != "$wanted" ] || return 0
    diff <(echo "$wanted") - <<<"$sums" | sed -n 's|^[<>] [0-9a-f]*  |dist/|p' | sort -u |
        sed 's|^dist/\.\./||; s|^|dist.sh: not as in dist/MANIFEST: |' >&2
    return 1
}
sources_match_manifest() {
    local wanted hash
    wanted=$(manifest_value_of sources) && hash=$(hash_of_sources) || return 2
    [ "$wanted" = "$hash" ]
}
toolchain_matches_manifest() { [ "$(manifest_value_of tools)" = "$(hash_of_tools)" ]; }

# ---- building

print_origin_comment() { echo "/* Made by tools/dist.sh from the proved crate $1. dist/README.md says how. */"; }

# Makes these files in a folder, those of a crate one by one and those of the crates side by side.
make() {
    local folder=$1 crate file lane lanes=() status=0
    shift
    for file; do
        [[ " ${files[*]} " == *" $file "* ]] || stop "there is no file $file in dist/"
    done
    for crate in $(for file; do crate_of_file "$file"; done | sort -ur); do
        mkdir "$work/$crate"
        prove_libraries "$crate" "$work/log" || stop "the crates below $crate are not proved"
    done
    for crate in "${crates[@]}"; do
        for file; do
            [ "$(crate_of_file "$file")" != "$crate" ] || build "$folder" "$file"
        done &
        lanes+=($!)
    done
    for lane in "${lanes[@]}"; do wait "$lane" || status=1; done
    return $status
}

# Writes MANIFEST, for sources of this hash.
write_manifest() {
    {
        echo "# What the proved crates compile to, made by tools/dist.sh." \
            "For \`sha256sum -c MANIFEST\`."
        echo "# kit: $(rt version)"
        echo "# tools: $(hash_of_tools)"
        echo "# sources: $1"
        hash_lines_of_dist
    } >"$work/MANIFEST"
    mv "$work/MANIFEST" "$manifest"
}

# Writes MANIFEST for files that this script has not made. The others have to be as it says.
renew_sums() {
    local line
    while read -r line; do
        grep -qxF -- "$line" "$manifest" || stop "dist/${line#*  } is not as in MANIFEST: run make dist"
    done < <(cd "$top/dist" && sha256 "${files[@]}")
    { sed '/^#/!d' "$manifest" && hash_lines_of_dist; } >"$work/MANIFEST"
    mv "$work/MANIFEST" "$manifest"
}

# ---- checking

# Ends the script unless the hashes are those of MANIFEST.
compare_hashes() {
    local tool status=0
    # The tools, before one that is absent makes a difference.
    for tool in awk cat cut diff find sed "$(has shasum && echo shasum || echo sha256sum)" sort xargs; do
        has "$tool" || { echo "dist.sh: there is no $tool on the PATH" >&2 && exit 2; }
    done
    has_all_listed_files || status=$?
    [ $status -ne 1 ] || stop "if you have changed it, run tools/dist.sh sums, or make dist for what is made"
    [ $status -ne 0 ] || sources_match_manifest || status=$?
    [ $status -ne 1 ] || stop "dist/ was not made from these sources: run make dist"
    [ $status -eq 0 ] || { echo "dist.sh: dist/ could not be compared with these sources" >&2 && exit $status; }
}

# Whether the files that are made are those of a folder: names each that is not.
made_files_equal() {
    local file status=0
    for file in "${files[@]}"; do cmp "$top/dist/$file" "$1/$file" || status=1; done
    return $status
}

case ${1-},$# in
    --help,1 | -h,1) show_help && exit ;;
    current,1) compare_hashes && exit ;;
    sums,1) renew_sums && exit ;;
    check,1)
        compare_hashes
        { has rt && toolchain_matches_manifest; } ||
            { echo "only hashes were compared: dist/ was made with another toolchain, $(manifest_value_of kit)" &&
            exit; }
        "$0" make "$work/dist" "${files[@]}" || stop "nothing was compared"
        made_files_equal "$work/dist"
        exit
        ;;
    make,1 | make,[3-9] | make,[1-9][0-9]) ;;
    *) stop "usage: tools/dist.sh make|check|current|sums, or tools/dist.sh --help" ;;
esac
has rt || stop "the toolchain's command rt is not on the PATH"
if [ $# -gt 1 ]; then
    mkdir -p "$2"
    make "$(readlink -f "$2")" "${@:3}"
else
    before=$(hash_of_sources)
    make "$top/dist" "${files[@]}"
    write_manifest "$before"
fi
