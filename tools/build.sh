# How the files of dist/ are built, for tools/dist.sh and tools/lower.sh, which read this file by `source` after
# tools/toolchain.sh. Both have `print_origin_comment CRATE`, which prints the first line of a text.

# The crate of a file.
crate_of_file() {
    case ${1##*/} in b2sum*) echo b2sum ;; b2*) echo b2 ;; *) echo blake2_ffi ;; esac
}

# The functions of a crate that C has instead, by c/b2sum.c.
functions_replaced_by_c() {
    [ "$1" != b2sum ] ||
        printf 'b2sum::%s\n' hashes::absorb_tree disk::hide_memory disk::show_progress
}

# The functions of the C library that a crate gets from C of ours instead: those of c/b2sum.c. They
# have names of their own, so nothing else in the program gets them.
c_functions_for_crate() { [ "$1" != b2sum ] || printf "%s=b2sum_%s\n" open open read read close close \
    __sysv_signal signal __xpg_strerror_r strerror; }

# Writes an edit of LLVM's text of a crate, by which its programs hash by the functions of the library
# that shared_functions.txt names: the library exports them, so LLVM keeps their arguments as they are, and a
# program has only calls of them, so LLVM draws no conclusion from their bodies.
write_sharing_edit() {
    local names
    names=$(paste -sd '|' "$top/tools/shared_functions.txt" | sed 's/|/\\|/g')
    if [ "$1" = blake2_ffi ]; then
        echo "s/^define internal \(.*@\"\($names\)\"(\)/define \1/"
    else
        printf '%s\n' "/^define internal .*@\"\($names\)\"(/,/^}/{" '/^define /!d' \
            's/^define internal \(.*)\)[^)]*{$/declare \1/' '}'
    fi
}

# Builds a file of dist/ in this folder, over the proved libraries. dist/README.md says which registers it leaves alone.
# aarch64_attributes.csv names the functions without vector registers for LLVM.
#
# In the library the rounds of several messages have more than one caller, since it has BLAKE2bp and BLAKE2sp, and
# LLVM would call them there instead of writing them out. parallel_attributes.csv says that writing
# them out costs nothing, which LLVM reads only if it computes the whole cost. So the other functions
# are compiled as without these two. The starts of BLAKE2sp, and on aarch64 of BLAKE2bp, are functions of their own:
# written out into a call, they have pointers whose bounds are too hard for tests/machine.
#
# A name in a list of attributes that is not in the code makes clang print a line, and then the build fails.
# x86_64_v2.sed, x86_64_v4.sed and, for the files in C and in Rust, scalar.sed edit the text of LLVM. So does
# rotations.sed for x86-64-v2 and x86-64-v3.
build() {
    local to=$1/$2 file=$2 crate kind=(--crate-type staticlib) more=() room target cpu end
    local make=make_toolchain edit=
    crate=$(crate_of_file "$file") room=$work/$crate
    case $file in
        x86_64/b2*.s) target=x86_64-unknown-linux-gnu cpu=x86-64-v2 end=x86 \
            more=(-mllvm -force-attribute=noredzone) ;;
        x86_64/*-v2.s) target=x86_64-unknown-linux-gnu cpu=x86-64-v2 end=v2 \
            edit=x86_64_v2 more=(-mllvm -force-attribute=noredzone) ;;
        x86_64/*-v3.s) target=x86_64-unknown-linux-gnu cpu=x86-64-v3 end=v3 \
            more=(-mllvm -force-attribute=noredzone) ;;
        x86_64/*-v4.s) target=x86_64-unknown-linux-gnu cpu=x86-64-v3 end=v4 \
            make=make_v4_toolchain edit=x86_64_v4 more=(-mllvm -force-attribute=noredzone) ;;
        aarch64/b2*.s) target=aarch64-unknown-linux-gnu cpu=generic end=a64 more=(-ffixed-x18) ;;
        aarch64/*.s) target=aarch64-unknown-linux-gnu cpu=generic end=arm more=(-ffixed-x18) ;;
        wasm/*.wasm) target=wasm64-unknown-unknown cpu=lime1 more=(-msimd128) ;;
        c/*.c | rust/*.rs) target=wasm64-unknown-unknown cpu=lime1 edit=scalar ;;
    esac
    if [ "$crate" = blake2_ffi ] && [[ $file != c/* && $file != rust/* ]]; then # the others have no kernels
        {
            [[ $target != aarch64-* ]] || cat "$top/tools/aarch64_attributes.csv"
            cat "$top/tools/parallel_attributes.csv"
        } >"$room.csv"
        more+=(-mllvm "-forceattrs-csv-path=$room.csv" -mllvm -inline-cost-full)
    fi
    [ "$crate" = blake2_ffi ] || kind=()
    [ "$crate" != b2sum ] || cp "$top/tools/b2sum.sed" "$room/toolchain-b2sum.sed"
    echo "dist.sh: building $file" >&2
    rm -rf "$room"/toolchain{,.sed,.py,-hashing.sed,-rotations.sed}
    [[ $file != *.s ]] || write_sharing_edit "$crate" >"$room/toolchain-hashing.sed"
    [[ $file != x86_64/vulfsjor-v[23].s ]] || cp "$top/tools/rotations.sed" "$room/toolchain-rotations.sed"
    $make "$room/toolchain" "$edit" "${more[@]}"
    mkdir -p "$(dirname "$to")"
    build_crate "$top/crates/$crate" "$crate" "$(libraries_named_by_crate "$crate")" "$room" "${kind[@]}" \
        --target "$target" --cpu "$cpu" --toolchain "$room/toolchain" -o "$room/built" \
        >"$room/log" 2>&1 || {
        cat "$room/log" >&2
        stop "$file was not built"
    }
    if [ "${file##*.}" = wasm ]; then
        link_module "$room/built" "$to" 2>>"$room/log"
    elif [[ $file == c/* || $file == rust/* ]]; then
        link_module "$room/built" "$room/module.wasm" 2>>"$room/log"
        "$top/tools/wasm_to_${file%%/*}.py" "$room/module.wasm" "$top/c/include/vulfsjor.h" >"$to"
    else
        {
            print_origin_comment "$crate"
            "$top/tools/plain_names.py" "_$(code_number)_$end" \
                $(functions_replaced_by_c "$crate") $(c_functions_for_crate "$crate") \
                <"$room/toolchain/module.s" >"$room/module.s"
            "$top/tools/object_formats.py" $(sed 's/::/../g' "$top/tools/shared_functions.txt") <"$room/module.s"
        } >"$to"
    fi
}
