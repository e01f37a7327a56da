#!/usr/bin/env bash
# Tests the choice between the builds, and what the libraries show.
source "$(dirname "$(readlink -f "$0")")/common.sh"

# The texts of the builds.
texts=("$dist"/x86_64/vulfsjor-v{2,3,4}.s)
here_texts=("${texts[@]}")
is_x86 || here_texts=("$dist/aarch64/vulfsjor.s")

# The functions that vulfsjor.h declares, by the compiler's reading of it.
functions_declared_in_header() {
    echo '#include <vulfsjor.h>' | cc -E -I"$include" - | grep -oE '\bvulfsjor_(ffi_[a-z0-9_]*|library_[a-z]*) *\(' |
        tr -d ' (' |
        LC_ALL=C sort -u
}

global_symbols_of_object() { nm "$@" | awk 'NF == 3 && $2 ~ /[A-Z]/ { print $3 }' | LC_ALL=C sort -u; }

# Names that an archive has for itself: those of the builds, which have the number of the code in
# them, and those of choose.c.
without_internal_names() { sed "/_$(code_number)_[a-z0-9]*\$/d;/^vulfsjor_ffi_\(ask\|find\|level\)\$/d"; }

# Header, archive and shared library have the same functions, in the latter with their version, and show nothing else.
headers_and_libraries_export_the_same() {
    functions_declared_in_header >"$work/names" && [ "$(wc -l <"$work/names")" -ge 29 ] || return 1
    global_symbols_of_object -g --defined-only "$archive" | without_internal_names | diff "$work/names" - || return 1
    global_symbols_of_object -D --defined-only "$shared" | sed '/^VULFSJOR_0[.]1$/d' |
        diff <(sed 's/$/@@VULFSJOR_0.1/' "$work/names") -
}

# The shared library: its name, what it needs, and that no page of it
# is written and run.
shared_library_has_soname_and_relro() {
    local file
    file=$prefix/lib/libvulfsjor.so.$(version)
    readelf -dW "$file" >"$work/dynamic" && readelf -lW "$file" >"$work/segments" || return 1
    cat "$work/dynamic"
    grep -q 'SONAME.*\[libvulfsjor\.so\.1\]' "$work/dynamic" && ! grep -q TEXTREL "$work/dynamic" &&
        grep -q BIND_NOW "$work/dynamic" && ! grep NEEDED "$work/dynamic" | grep -v 'libc\.' &&
        grep -q GNU_RELRO "$work/segments" && grep -q 'GNU_STACK .* RW ' "$work/segments" &&
        ! grep -q 'LOAD.*RWE' "$work/segments" || return 1
    [ "$(readlink "$shared")" = libvulfsjor.so.1 ] &&
        [ "$(readlink "$prefix/lib/libvulfsjor.so.1")" = "libvulfsjor.so.$(version)" ] &&
        ! nm -D --undefined-only "$file" |
        grep -vE ' (w|U) (_ITM_|__cxa_finalize|__gmon|abort|write|mem(cpy|move|set))'
}

libb2_names_are_hidden() {
    archive_names_stay_hidden "$(copy_without_whole_guard "$prefix/lib/libvulfsjor-libb2.a")" "$include"
}

# Branch protection: each object is marked, so a linker that demands the marks takes them, and marks what
# it makes of them. Each function of choose.c begins with a landing pad.
objects_have_protection_marks() {
    objects_have_mark "x86 feature: IBT, SHSTK" "" "$prefix"/lib/libvulfsjor{,-libb2,-threads}.a &&
        cc -shared -nostdlib -Wl,-z,cet-report=error -Wl,--whole-archive "$prefix/lib/libvulfsjor-threads.a" \
            "$(copy_without_whole_guard "$prefix/lib/libvulfsjor-libb2.a")" -Wl,--no-whole-archive -o \
            "$work/marked.so" &&
        readelf -nW "$work/marked.so" | grep -q "IBT, SHSTK" &&
        objdump -d --no-show-raw-insn "$shared" |
        awk '/^[0-9a-f]+ <vulfsjor_ffi_[a-z0-9_]*>:$/ && !/_v[234]>/ { n++; getline; if (!/endbr64/) bad++ }
            END { exit !(n > 60) || bad }'
}

# The texts one by one, and those with another number, in one shared library and in one run of the
# assembler: no name of one is that of another, and none is exported.
assembly_texts_link_together() {
    local text count=0 objects=()
    echo "#include \"$dist/macros.h\"" >"$work/all.S"
    for text; do
        sed -E "s/(_|\.L)$(code_number)_(v[234]|arm)/\1789_\2/g" "$text" >"$work/other.s" &&
            cc -c "$(with_macros "$text")" -o "$work/text_$count.o" &&
            cc -c "$(with_macros "$work/other.s")" -o "$work/other_$count.o" &&
            cat "$text" "$work/other.s" >>"$work/all.S" || return 1
        objects+=("$work/text_$count.o" "$work/other_$count.o")
        count=$((count + 1))
    done
    cc -shared "${objects[@]}" -o "$work/texts.so" &&
        [ -z "$(nm -D --defined-only "$work/texts.so")" ] &&
        cc -c "$work/all.S" -o "$work/all.o"
}

# A program takes of the archives what it calls, if the linker leaves out the rest. installing.sh looks at programs of
# the main one.
program_links_only_called_builds() {
    local section
    readelf -SW "$prefix"/lib/libvulfsjor-{libb2,threads}.a >"$work/sections"
    for section in blake2b_init blake2s_final vulfsjor_tree_root_fd; do
        grep -q " \.text\.$section " "$work/sections" || return 1
    done
}

# choose.c over functions of its own.
compile_choose_with_stand_ins() {
    printf 'CALL("probe")\nCALL("probe_arguments")\n' >"$work/functions.h" &&
        cc -std=gnu99 "${warnings[@]}" -I"$work" -I"$include" -o "$work/$1" "$tests/choose.c" \
            "${@:2}"
}

stand_in_processors_choose_right_build() {
    compile_choose_with_stand_ins "made_up$1" "-O$1" -DPROCESSOR -I"$tests" && "$work/made_up$1"
}

# The functions of thunks.h over stand-ins for the builds.
thunks_choose_right_build() {
    local functions build code
    code=$(code_number) functions=$(sed -n 's/^CALL("\(.*\)")$/\1/p' "$here/choose.c")
    printf 'NAME(%s)\n' $functions >"$work/calls.h" &&
        for build in 2 3 4; do
            printf ".globl %s_${code}_v$build\n%s_${code}_v$build:\n" \
                $(for function in $functions; do echo $function $function; done) &&
                echo "mov \$$build, %eax; ret"
        done >"$work/stand_ins.s" &&
        cc -std=gnu99 "${warnings[@]}" -O1 -I"$work" -I"$include" -I"$tests" "$tests/thunks.c" "$work/stand_ins.s" \
            -Wl,-z,noexecstack -o "$work/thunks" && "$work/thunks"
}

# Where the function that asks the processor moves the stack, by what debuggers and profilers read, and by its code.
unwind_data_matches_stack_moves() {
    local function=vulfsjor_ffi_ask
    objdump -d --no-show-raw-insn --disassemble=$function "$work/choose" | awk -v depth=8 '/^ +[0-9a-f]+:\t/ {
        if (!rows || moved) { rows++; place = sprintf("%16s", substr($1, 1, length($1) - 1)); gsub(" ", 0, place)
            print place, "rsp+" depth }
        moved = /push|pop/; depth += /push/ ? 8 : /pop/ ? -8 : 0 } END { exit rows != 13 }' >"$work/moves" &&
        readelf -wF "$work/choose" | awk -v "from=$(head -c 16 "$work/moves")" '/ FDE / { here = index($0, "pc=" from) }
            here && $2 ~ /^rsp/ { print $1, $2 }' | diff "$work/moves" -
}

# What clang makes of choose.c.
clang_build_chooses_right() {
    cc() { clang "$@"; }
    stand_in_processors_choose_right_build 1 && compile_choice_of_build -Wall by_clang &&
        cc -std=c99 -I"$include" "$tests/first_calls.c" \
        "$work/by_clang.o" "$archive" -o "$work/first_calls" -pthread && "$work/first_calls"
}

# Runs a program on a processor of a level, 2 to 4: it prints these lines. If the level is 0, the first call of the
# library has ended it with a line: LEVEL LINES COMMAND..
prints_on_emulated_level() {
    "${@:3}" >"$work/said" 2>"$work/error"
    local status=$?
    cat "$work/said" "$work/error"
    if [ "$1" = 0 ]; then
        [ $status -eq 134 ] && [ "$(grep -cxF \
            'vulfsjor: this processor is below x86-64-v2, which the library needs' "$work/error")" -eq 1 ] || return 1
    else
        [ $status -eq 0 ] || return 1
    fi
    [ "$(<"$work/said")" = "$2" ]
}

# What the choice says, by the first call and by a later one: LEVEL COMMAND..
chooses_build_of_level() {
    local said=begun
    [ "$1" = 0 ] || said+=$'\n'"$1 $1"
    prints_on_emulated_level "$1" "$said" "${@:2}" "$work/choose"
}

# The example of the README, linked statically: LEVEL COMMAND..
example_works_on_level() {
    prints_on_emulated_level "$1" "$([ "$1" = 0 ] || readme_example_digest)" "${@:2}" "$work/hello_static"
}

# Emulated processors of a level: what is sold, and one with each of the features that the next level asks for taken
# away. qemu emulates none with AVX-512.
emulated_processors_of_level() {
    case $1 in
        0) printf '%s\n' qemu64 core2duo Penryn Opteron_G3 Haswell,-{pni,ssse3,cx16,sse4.1,sse4.2,popcnt,lahf-lm} ;;
        2) printf '%s\n' Nehalem SandyBridge IvyBridge Denverton Opteron_G5 \
            Haswell,-{fma,movbe,xsave,avx,f16c,bmi1,avx2,bmi2,abm} ;;
        3) printf '%s\n' Haswell Broadwell Skylake-Server EPYC max ;;
    esac
}

# Links the choice and the example of the README statically.
link_programs_for_emulation() {
    compile_choose_with_stand_ins choose -O2 -static && block_of c/README.md c >"$work/hello.c" &&
        cc -static -I"$include" "$work/hello.c" "$archive" -o "$work/hello_static"
}

# Both on each emulated processor.
test_choice_on_emulated_processors() {
    local level name
    needs qemu-x86_64 python3
    [ -n "$missing" ] || link_programs_for_emulation 2>"$work/log" || missing="cc links no static program"
    [ -z "$missing" ] || { skip "the choice on emulated processors" "$missing" && return; }
    for level in 0 2 3; do
        for name in $(some $(emulated_processors_of_level $level)); do
            qemu-x86_64 -cpu help | grep -qw "${name%%,*}" || missing="qemu-x86_64 has no such processor"
            check "the choice on $name" chooses_build_of_level $level qemu-x86_64 -cpu "$name"
            check "the example on $name" example_works_on_level $level qemu-x86_64 -cpu "$name"
            missing=
        done
    done
}

# A program in C, or in C++ if the compiler is c++, linked with these words, prints this line by vulfsjor_build:
# LINE COMPILER WORDS..
program_reports_build() {
    if [ "$2" = c++ ]; then
        printf '%s\n' '#include <vulfsjor.hpp>' '#include <iostream>' \
            'int main() { std::cout << vulfsjor::build() << "\n"; }' >"$work/says_build.cpp"
    else
        printf '%s\n' '#include <stdio.h>' '#include <vulfsjor.h>' \
            'int main(void) { return puts(vulfsjor_build()) < 0; }' >"$work/says_build.c"
    fi
    "$2" "${warnings[@]}" -I"$include" "$work/says_build".c* "${@:3}" -o "$work/says_build" &&
        rm "$work/says_build".c* && LD_LIBRARY_PATH=$prefix/lib "$work/says_build" | diff <(echo "$1") -
}

# The line of MANIFEST for the text of a level of x86-64, or for that of ARM.
manifest_line_of_text() {
    grep "  $(is_x86 && echo "x86_64/vulfsjor-v$1" || echo aarch64/vulfsjor)[.]s\$" "$dist/MANIFEST"
}

# A library of a text with one more byte says that text's hash, as sha256sum does.
changed_text_reports_its_hash() {
    local name=${here_texts[0]#"$dist/"}
    mkdir -p "$work/${name%/*}" && { cat "$dist/$name" && echo; } >"$work/$name" &&
        "$here/make_libraries.sh" "$work/of changed text" "$work/$name" && cd "$work" &&
        program_reports_build "$(sha256sum "$name")" cc "$work/of changed text/libvulfsjor.a" &&
        ! grep -q "^$("$work/says_build")$" "$dist/MANIFEST"
}

# A test program for a hash over one build or alternating ones, compiled once for all of them: NAME BUILD HASH
run_hash_over_builds() {
    local name=$1 build=$2 object=$work/$1_$3.o level=$quick
    [ "$name" != key_scan ] || level=-O2
    [ -e "$object" ] || cc -std=gnu99 $level -I"$include" $(hash_macro_words "$3") -c "$tests/$name.c" -o "$object" ||
        return
    cc -Wl,-z,now "$object" "$work/build_$build.o" "$archive" -o "$work/of_build" &&
        "$work/of_build" "$conforming/$3.txt"
}

# Each build, and calls that alternate between all of them: states may go from one to the others.
test_each_build_alone_and_alternating() {
    local build hash builds=2
    case $level in
        4) builds="2 3 4 234" ;;
        3) builds="2 3 23" ;;
        *) skip "the build for x86-64-v3" "the processor is below x86-64-v3" ;;
    esac
    [ "$level" = 4 ] || skip "the build for x86-64-v4" "the processor is below x86-64-v4"
    for build in $builds; do
        check "the choice of $build (several: alternating)" compile_choice_of_build -DCHOOSE_TEST=$build build_$build ||
            return
        [ ${#build} -gt 1 ] ||
            check "vulfsjor_build of build $build" program_reports_build "$(manifest_line_of_text $build)" cc \
            "$work/build_$build.o" "$archive"
        for hash in "${hashes[@]}"; do
            ! has python3 || check "conformance.c, $hash, by build $build" run_hash_over_builds conformance $build $hash
            [ $hash = tree ] || [ ${#build} -gt 1 ] ||
                check "key_scan.c, $hash, by build $build" run_hash_over_builds key_scan $build $hash
        done
    done
}

# Calls from a constructor and from threads, static and shared.
first_calls_work_from_any_thread() {
    local library
    for library in "$archive" "$shared"; do
        cc -std=c99 -O2 "${warnings[@]}" -I"$include" "${@}" "$tests/first_calls.c" "$library" \
            -o "$work/first_calls" -pthread &&
            LD_LIBRARY_PATH=$prefix/lib "$work/first_calls" || return 1
    done
}

instruction_count() {
    valgrind --tool=callgrind --callgrind-out-file=/dev/null "$@" 2>&1 |
        sed -n 's/.*Collected : \([0-9]*\)$/\1/p'
}

# repeat_call.c over the library, and over one with only the build for this processor, which takes
# one jump where the first one chooses: the other build has other counts.
compile_repeat_call() {
    local level
    level=$(valgrind -q "$work/choose" | sed -n '2s/ .*//p')
    cc -O2 -I"$include" "$tests/repeat_call.c" "$archive" -o "$work/repeat_call_chosen" &&
        compile_choice_of_build "-DCHOOSE_ONE=v$level" direct &&
        cc -O2 -I"$include" "$tests/repeat_call.c" "$work/direct.o" "$archive" -o "$work/repeat_call_direct"
}

# A task of repeat_call.c takes as many instructions a call for dispatch as c/README.md says.
dispatch_cost_matches_readme() {
    local task=$1 chosen direct
    chosen=$(instruction_count "$work/repeat_call_chosen" "$task" 1000) &&
        direct=$(instruction_count "$work/repeat_call_direct" "$task" 1000) || return 1
    echo "$chosen instructions chosen, $direct directly"
    [[ $(<"$here/README.md") =~ Dispatch\ costs\ ([0-9]+)\ to\ ([0-9]+)\ instructions ]] &&
        [ $(((chosen - direct) / 1000 + 1)) -ge "${BASH_REMATCH[1]}" ] &&
        [ $(((chosen - direct) / 1000 + 1)) -le "${BASH_REMATCH[2]}" ]
}

test_dispatch_cost() {
    local task
    needs valgrind
    check "choose.c for valgrind" compile_choose_with_stand_ins choose -O2 &&
        check "repeat_call.c" compile_repeat_call || return
    for task in $(some 0 1 2 3 4 5); do
        check "what dispatch costs, task $task" dispatch_cost_matches_readme $task
    done
}

test_choice_of_build() {
    export CFLAGS=$quick # of the libraries that are made here
    needs nm readelf
    check "one list of functions" headers_and_libraries_export_the_same
    check "the shared library's form" shared_library_has_soname_and_relro
    missing=
    is_x86 || missing="the processor is not x86-64"
    check "marks for branch protection" objects_have_protection_marks
    missing=
    check "the assembly with that of another number" assembly_texts_link_together $(some "${here_texts[@]}")
    check "what a program takes of the library" program_links_only_called_builds
    check "hidden names, libvulfsjor.a" archive_names_stay_hidden "$archive" "$include"
    check "hidden names, libvulfsjor-libb2.a" libb2_names_are_hidden
    needs
    check "calls of a constructor, and of threads" first_calls_work_from_any_thread
    check "first calls of many threads" first_calls_work_from_any_thread -DFIRST_BY_THREADS
    check "vulfsjor_build, static" program_reports_build "$(manifest_line_of_text "$level")" cc "$archive"
    check "vulfsjor_build, shared" program_reports_build "$(manifest_line_of_text "$level")" cc "$shared"
    check "vulfsjor_build of a changed text" changed_text_reports_its_hash
    needs c++
    check "vulfsjor::build" program_reports_build "$(manifest_line_of_text "$level")" c++ -std=c++17 "$archive"
    needs
    if ! is_x86; then
        skip "the choice" "the library holds one build"
        return
    fi
    check "made-up processors" stand_in_processors_choose_right_build 0
    check_huge "made-up processors, optimized" stand_in_processors_choose_right_build 2
    check "made-up processors, by the functions for Windows and macOS" thunks_choose_right_build
    needs clang
    check "choose.c by clang" clang_build_chooses_right
    needs
    check "choose.c" compile_choose_with_stand_ins choose -O2 &&
        check "the choice on this processor" chooses_build_of_level "$level" env
    needs objdump readelf
    check "how the first call moves the stack" unwind_data_matches_stack_moves
    needs
    test_each_build_alone_and_alternating
    test_choice_on_emulated_processors
    test_dispatch_cost
}

run_part_of_tests test_choice_of_build cases
