#!/usr/bin/env bash
# Tests the scripts on a Linux without GNU's tools, with those of BusyBox, bash, a C compiler and
# its binutils alone on the PATH; and what they build over the C library musl.
source "$(dirname "$(readlink -f "$0")")/../c/tests/common.sh"
. "$tests/installing.sh"
tools=$work/tools
repository=$work/repository

# A folder with only those tools.
make_busybox_tool_folder() {
    local tool
    mkdir "$tools" || return 1
    for tool in $(busybox --list); do ln -s "$(command -v busybox)" "$tools/$tool" || return 1; done
    for tool in bash cc as ld ar make; do ln -sf "$(command -v "$tool")" "$tools/$tool"; done
}

# The repository, whose programs are built in a folder of its own.
make_repository() {
    mkdir "$repository" && cp "$top"/{b2,b2sum,Makefile} "$repository/" &&
        ln -s "$top"/{c,completions,crates,dist,docs,tools} "$repository/" && echo abc >"$work/abc"
}

# Runs a command with only those tools.
with_these_tools() { (cd "$repository" && env -i PATH="$tools" HOME="$work" "$@"); }

programs_work_with_busybox() {
    with_these_tools ./b2sum "$work/abc" >"$work/sums" && sums_by_hashlib "$work/abc" | diff "$work/sums" - &&
        with_these_tools ./b2sum --check "$work/sums"
}

# `make install`, under a mask that keeps files from others, which is not that of what is installed.
make_installs_with_busybox() {
    local place=$work/a\ prefix
    (umask 077 && with_these_tools make -s install "prefix=$place") &&
        files_below "$place" | diff <(files_of_full_installation) - &&
        [ -z "$(find "$place" \( -type d -o -type f \) ! -perm -o=r)" ] && installed_scripts_are_copies "$place" &&
        [ "$(cat "$place/share/man/man3/vulfsjor_blake2b_init.3")" = ".so man3/vulfsjor_blake2b.3" ] &&
        "$place/bin/b2sum" "$work/abc" | diff - <(sums_by_hashlib "$work/abc") &&
        with_these_tools make -s uninstall "prefix=$place" && [ -z "$(find "$place" ! -type d)" ]
}

# The library that make has built: the same files as with the tools here, and all of them go again.
library_installs_with_busybox() {
    with_these_tools c/install.sh --help | grep '^Installs the library' &&
        with_these_tools c/install.sh --built out/make/lib "$work/again/./x/../lib" &&
        diff -r "$prefix" "$work/again/lib" &&
        [ "$(readlink "$work/again/lib/lib/libvulfsjor.so")" = libvulfsjor.so.1 ] &&
        with_these_tools c/install.sh --uninstall "$work/again/lib" &&
        [ -z "$(find "$work/again" ! -type d)" ]
}

# Without one of the tools nothing is built or installed, its name is printed, and dist/ is not
# blamed.
missing_tools_are_named() {
    local tool
    for tool in awk cat cut diff find sed sha256sum sort xargs mktemp cc; do
        mv "$tools/$tool" "$work/hidden" && rm -rf "$repository/out" "$work/none"
        ! with_these_tools ./b2sum "$work/abc" >"$work/said" 2>"$work/errors" &&
            ! with_these_tools c/install.sh "$work/none" >>"$work/said" 2>"$work/errors.install" &&
            [ ! -e "$work/none" ] && [ ! -s "$work/said" ] && mv "$work/hidden" "$tools/$tool" &&
            ! grep -E "not made from|different" "$work/errors" "$work/errors.install" &&
            grep -w -- "$tool" "$work/errors" && grep -w -- "$tool" "$work/errors.install" || {
            echo "without $tool"
            return 1
        }
    done
}

# Tools that are there and fail: dist/ is not blamed by b2sum, nor a list of functions by make_libraries.sh.
# diff only shows what differs.
failing_tools_are_reported() {
    local call tool
    for call in {awk,cat,cut,find,sed,sha256sum,sort,xargs}:"./b2sum $work/abc" \
        {awk,basename,cat,sed,sort}:"c/make_libraries.sh $work/none $top/dist/x86_64/vulfsjor-v2.s"; do
        tool=${call%%:*}
        mv "$tools/$tool" "$work/hidden" && rm -rf "$repository/out" "$work/none" &&
            printf '#!%s\nexit 1\n' "$BASH" >"$tools/$tool" && chmod +x "$tools/$tool"
        # shellcheck disable=SC2086
        ! with_these_tools ${call#*:} >"$work/said" 2>"$work/errors" && rm "$tools/$tool" &&
            mv "$work/hidden" "$tools/$tool" && [ ! -s "$work/said" ] && [ ! -e "$work/none" ] &&
            ! grep -E "not made from|different" "$work/errors" || { echo "$call" && return 1; }
    done
}

# An archive has all its parts, or is not made: with a stand-in for awk that loses those of one text.
archive_is_complete_or_not_made() {
    local lost
    mv "$tools/awk" "$work/awk" || return 1
    for lost in choose.c split.awk; do
        printf '#!%s\ncase "$*" in *%s*) ;; *) exec "%s/awk" "$@" ;; esac\n' "$BASH" "$lost" "$work" >"$tools/awk" &&
            chmod +x "$tools/awk" &&
            ! with_these_tools CFLAGS="$quick" c/make_libraries.sh "$work/parts" "$top/dist/x86_64/vulfsjor-v2.s" \
                2>"$work/errors" && [ ! -e "$work/parts" ] && grep "parts are not there" "$work/errors" || return 1
    done
    mv "$work/awk" "$tools/awk"
}

# The library over musl, with one build, with the example of the guide; and b2sum, which has all, with threads.
library_works_over_musl() {
    local folder=$work/musl words
    echo abc >"$work/abc"
    export CFLAGS=$quick
    CC=musl-gcc "$here/install.sh" "${one[@]}" --from "$dist" "$folder" &&
        block_of c/README.md c >"$work/hello.c" || return 1
    for words in "" -static; do
        # shellcheck disable=SC2086
        musl-gcc -O2 $words "${warnings[@]}" -I"$folder/include" "$work/hello.c" \
            "$folder/lib/libvulfsjor.a" -o "$work/hello" && "$work/hello" >"$work/said" &&
            diff "$work/said" <(readme_example_digest) || return 1
    done
    CC="musl-gcc -static" "$top/b2sum" --build "$work/b2sum" &&
        "$work/b2sum" "$work/abc" | diff - <(sums_by_hashlib "$work/abc") &&
        cat "$archive" "$archive" >"$work/long" && "$work/b2sum" --tree 65536 "$work/long" |
        sed 's/.* = //' | diff - <(roots_by_hashlib 65536 "$work/long" | cut -d ' ' -f 1)
}

test_with_busybox_tools() {
    if has busybox && has python3 && has make; then
        check "a folder with BusyBox's tools" make_busybox_tool_folder && make_repository || return
        check "b2sum" programs_work_with_busybox
        check "make install" make_installs_with_busybox
        check "c/install.sh" library_installs_with_busybox
        check_huge "a tool that is missing is named" missing_tools_are_named
        check_huge "a comparison that fails is not a difference" failing_tools_are_reported
        needs
        is_x86 || missing="the processor is not x86-64"
        check "an archive has all its parts" archive_is_complete_or_not_made
    else
        skip "the scripts with BusyBox's tools with_these_tools" "no busybox, python3 or make"
    fi
    needs musl-gcc python3
    check "the library, threads and b2sum over musl" library_works_over_musl
}

run_part_of_tests test_with_busybox_tools
