#!/usr/bin/env bash
# Tests tools/dist.sh without the toolchain: in a small repository, what `current` finds and what it
# leaves out, and what the programs share with the library. tests/dist_is_proved.sh makes all of dist/
# and compares it, tests/generated.sh sees a change of a script that makes a text, and
# tests/assembly.py looks at the texts.
set -u
source "$(dirname "$(readlink -f "$0")")/tap.sh"
shown=("$work/shown")
mkdir "$work/bin"
PATH=$work/bin:/usr/bin:/bin

# The repository: crates of one line, the files that the sources name, and a MANIFEST of them.
repository=$work/a\ repository
mkdir -p "$repository"/{tools,tests,c/include,dist}
cp "$top"/tools/*.{sh,py,sed,csv,txt,c,rs} "$repository/tools/"
cp "$top/tests/tap.sh" "$repository/tests/"
printf '%s\n' '/* A header' ' * of one function. */' 'int vulfsjor_ffi_f(' '    char c); /* here */' 'int g(void);' \
    'typedef struct vulfsjor_s {' '    short s; /* one */' '} vulfsjor_s;' 'int vulfsjor_ffi_h(void);' 'int i(void);' \
    '#define VULFSJOR_VERSION "1.2.3"' >"$repository/c/include/vulfsjor.h"
echo '#define CODE "7"' >"$repository/c/choose.c"
printf '%s\n' blake2_state: b2_commands: "blake2_ffi staticlib: blake2_state" \
    "b2: b2_commands hex" "b2sum: b2_commands" "beside: blake2_state" >"$repository/crates.txt"
for crate in blake2_state b2_commands blake2_ffi b2 b2sum beside; do
    mkdir -p "$repository/crates/$crate/src"
    echo "fn $crate() {}" >"$repository/crates/$crate/src/lib.rt"
done
cd "$repository" || exit 1
# What a command prints that the script could run.
run_with_script_functions() {
    sed '/^case \${1-},\$#/,$d' tools/dist.sh >tools/parts.sh
    echo "$1" >>tools/parts.sh
    bash tools/parts.sh
}
made=$(run_with_script_functions 'printf "%s\n" "${files[@]}"')
files="$made $(run_with_script_functions 'printf "%s\n" "${by_hand[@]}"')"
around=$(run_with_script_functions 'printf "%s\n" "${around[@]}"')
for file in $files $around; do
    mkdir -p "$(dirname "dist/$file")" && { [ -e "dist/$file" ] || echo "$file" >"dist/$file"; }
done
(
    echo "# kit: kit 1"
    echo "# sources: $(run_with_script_functions hash_of_sources)"
    cd dist && sha256sum $files $around
) >dist/MANIFEST

dist() { tools/dist.sh "$@" >"$work/shown" 2>&1; }
# A run with a status, that shows a line with these words: STATUS LINE ARGUMENTS..
dist_ends_with() {
    dist "${@:3}"
    [ $? -eq "$1" ] && grep -qF -- "$2" "$work/shown"
}
# Whether a change of a file, made by sed, is found by `current`, or another command, (1) or not (0); it is taken back.
# One of what is around dist/ is found, and after `sums` only if it is a source too (1+) and not otherwise (1-).
change_is_detected() {
    local file=$2 status wanted=$1
    cp "$file" "$work/kept" && cp dist/MANIFEST "$work/sums"
    sed -i "$3" "$file"
    if [[ $1 == 1? ]]; then
        ! dist current && grep -qx "dist.sh: not as in dist/MANIFEST: $file" "$work/shown" && dist sums || return
        wanted=0 && [ "$1" = 1- ] || wanted=1
    fi
    dist "${4:-current}"
    status=$?
    cp "$work/kept" "$file" && cp "$work/sums" dist/MANIFEST
    [ "$status" = "$wanted" ]
}

check "dist/ with its MANIFEST is current" dist current
check "what cannot be compared is no difference" eval 'mv tools/scalar.sed "$work/kept" &&
    dist_ends_with 2 "dist.sh: dist/ could not be compared with these sources" \
    current' && mv "$work/kept" tools/scalar.sed
# Without sha256sum, as on macOS.
dist_works_with_shasum() {
    local tool folder=$work/tools
    mkdir "$folder" && for tool in awk bash cat cut diff dirname env find mktemp readlink rm sed shasum sort xargs; do
        ln -s "$(command -v $tool)" "$folder/$tool"
    done
    PATH=$folder dist current && echo >>dist/macros.h && ! PATH=$folder dist current
}
cp dist/macros.h "$work/macros.h"
needs shasum
check "shasum will do for sha256sum" dist_works_with_shasum
needs
cp "$work/macros.h" dist/macros.h
# A table of changes: whether they are found (1) or not (0), the file, and what sed does.
changes_are_detected_as_listed() {
    local found file edit
    while read -r found file edit; do
        change_is_detected "$found" "$file" "$edit" || { echo "$file: $edit" && return 1; }
    done
}
check "a change of a file of dist/ is found" \
    changes_are_detected_as_listed < <(printf '1 dist/%s $a more\n' $(some $files))
check "so is one of what is around it, until it is noted" changes_are_detected_as_listed < <(
    printf '1- %s $a /* more */\n' $(some ${around//..\//}))
check "but sums notes no file that is made" change_is_detected 1 dist/x86_64/b2.s '$a more' sums
check "a change of a source is found, and no other" changes_are_detected_as_listed < <(
    printf '1 crates/%s/src/lib.rt $a fn more() {} // more\n' $(some b2 b2sum b2_commands blake2_ffi blake2_state)
    printf '1 %s $a # more\n' $(some \
        tools/{plain_names,clear_registers,object_formats,wasm_{format,values,body,to_c}}.py \
        tools/{wasm_to_c.c,*.csv,*.sed,shared_functions.txt})
    cat <<'END'
0 crates/b2/src/lib.rt 1i\ \ // more
0 crates/beside/src/lib.rt $a fn more() {}
1+ c/include/vulfsjor.h s/int vulfsjor_ffi_f/long vulfsjor_ffi_f/
1+ c/include/vulfsjor.h s/char/int/
1+ c/include/vulfsjor.h s/short/long/
1+ c/include/vulfsjor.h s/ffi_h(void)/ffi_h(int i)/
1- c/include/vulfsjor.h s/ of one / of a /;s/here/there/;s/one/two/;s/int [gi](/long &/
1+ c/choose.c s/"7"/"8"/
1- c/include/vulfsjor.h s/"1\.2\.3"/"1.2.4"/
1 dist/MANIFEST /  aarch64\/b2\.s$/d
1 dist/MANIFEST s|^.\(.*  aarch64/b2\.s\)$|\1|
END
)
mv dist/wasm/vulfsjor.wasm "$work/old"
check "a file that is absent is found" dist_ends_with 1 "there is no dist/wasm/vulfsjor.wasm" current
mv "$work/old" dist/wasm/vulfsjor.wasm
echo "fn more() {}" >crates/b2/more.rt
check "a file next to src/ is not" dist current
mv crates/blake2_ffi/src/{lib,more}.rt
check "another name of a file is found" dist_ends_with 1 "dist/ was not made from these sources: run make dist" current
mv crates/blake2_ffi/src/{more,lib}.rt

check "without a toolchain only hashes are compared" dist_ends_with 0 \
    "only hashes were compared: dist/ was made with another toolchain, kit 1" check
check "but these are" change_is_detected 1 dist/macros.h '$a\ ' check
# Files that were made are compared byte for byte.
cp -R dist "$work/made"
made_files_are_compared() {
    local file
    run_with_script_functions "made_files_equal '$work/made'" || return 1
    for file in $made; do
        echo >>"$work/made/$file" && ! run_with_script_functions "made_files_equal '$work/made'" >"$work/shown" 2>&1 &&
            grep -F "$file" "$work/shown" && cp "dist/$file" "$work/made/$file" || return 1
    done
}
check "files that were made are compared byte for byte" made_files_are_compared
check "MANIFEST names every file of dist/ but itself and a page" diff <(cd "$top" && find dist ! -type d | sort) \
    <(printf '%s\n' MANIFEST README.md $files | sed 's|^|dist/|' | sort)
check "make needs rt" dist_ends_with 1 "the toolchain's command rt is not on the PATH" make
check "help" dist_ends_with 0 "tools/dist.sh current" --help
for words in "" "make a" "check a" "what"; do
    # shellcheck disable=SC2086
    check "the arguments '$words' are refused" dist_ends_with 1 "dist.sh: " $words
done
printf '#!/bin/sh\n[ "$1" != check ] || exit 1\n' >"$work/bin/rt" && chmod +x "$work/bin/rt"
for file in x86_64/none.s x86_64/elf.inc vulfsjor.S; do
    check "there is no file $file" dist_ends_with 1 "there is no file $file in dist/" make "$work/some" $file
done
check "a library that is not proved stops it" dist_ends_with 1 "the crates below b2 are not proved" make \
    "$work/some" aarch64/b2.s

# What hashes for the programs, in LLVM's text of the library and of a program.
text='define internal i64 @"blake2_tree::nodes::Nodes::hash_next"(ptr noundef %0, i8 %1) #0 {
  ret i64 1
}
define internal void @"a::hash_next"() #0 {
  ret void
}'
apply_sharing_edit() {
    run_with_script_functions "write_sharing_edit $1" >hashing.sed && sed -f hashing.sed <<<"$text"
}
check "the library exports what hashes" diff <(apply_sharing_edit blake2_ffi) - <<<"${text/internal /}"
for crate in b2 b2sum; do
    check "$crate calls it, and has it not" diff <(apply_sharing_edit $crate) \
        <(sed '1s/define internal \(.*\) #0 {/declare \1/;2,3d' <<<"$text")
done
finish
