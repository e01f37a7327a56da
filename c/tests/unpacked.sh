#!/usr/bin/env bash
# Tests an unpacked archive of a release, in a folder that may have any place:
#
#   c/tests/unpacked.sh FOLDER
#
# It is the one for Windows if it has b2.exe, which wine runs. tools/release.sh runs this over each.
folder=$(readlink -f "${1:?usage: c/tests/unpacked.sh FOLDER}")
shift
export VULFSJOR_INSTALLED=$folder
source "$(dirname "$(readlink -f "$0")")/installing.sh"

# Runs a program of the archive: on Linux alone in an empty root, if this user may have one.
run_unpacked_program() {
    if [ -e "$folder/bin/b2.exe" ]; then
        (cd "$folder/bin" && "$tests/run_by_wine.sh" "$1.exe" "${@:2}" 2>/dev/null | tr -d '\r')
    elif chroot "$folder" /bin/b2sum --version &>/dev/null; then
        chroot "$folder" "/bin/$1" "${@:2}"
    else
        "$folder/bin/$1" "${@:2}"
    fi
}
programs_print_right_digests() {
    local wanted
    wanted=$(printf abc | sha256sum >/dev/null && python3 -c \
        'import hashlib; print(hashlib.blake2b(b"abc").hexdigest())') &&
        [ "$(printf abc | run_unpacked_program b2 sum b512)" = "$wanted" ] &&
            [ "$(printf abc | run_unpacked_program b2sum)" = "$wanted  -" ]
}
# The version of b2sum is part of the proved code.
b2sum_reports_version() {
    diff <(run_unpacked_program b2sum --version | sed 1q) \
        <(sed -n 's/^const VERSION: .*b"\(.*\)\\n";$/\1/p' "$top/crates/b2sum_commands/src/program.rt")
}
# Nor debug information, which would name the folder too. grep ends with 1 only if it has read all and found none.
files_name_no_build_folder() {
    grep -raE "/build/|${TMPDIR:-/tmp}/|\.debug_info" "$folder/bin"
    [ $? -eq 1 ]
}
programs_are_relocatable() {
    local program
    for program in b2 b2sum; do
        readelf -hlW "$folder/bin/$program" >"$work/headers" && grep -q 'Type: *DYN' "$work/headers" &&
            ! grep -E 'INTERP|RWE' "$work/headers" &&
                [ "$(nm "$folder/bin/$program" 2>&1 | grep -c ' [tT] ')" -eq 0 ] || return 1
    done
}
windows_files_have_version() {
    local name
    for name in b2.exe b2sum.exe libvulfsjor-1.dll; do
        x86_64-w64-mingw32-objcopy -O binary -j .rsrc "$folder/bin/$name" "$work/resource" &&
            tr -d '\0' <"$work/resource" | grep -aqF "FileVersion$(version)" || return 1
    done
    [ -z "$(cd "$folder" && find . -type f -exec sha256sum {} + | sort | uniq -dw 64)" ]
}
pages_have_no_dead_link() { ! grep -rnE '\]\([^):]*\)' "$folder" --include='*.md'; }
package_is_found_by_tools() {
    pkg_config_words_work "$folder/lib" && cmake_project_finds_package "$folder" "$(version) EXACT" &&
        needs_no_shared_library
}

export WINEPREFIX=$work/wine WINEDEBUG=-all,err+virtual WINEDLLOVERRIDES="mscoree,mshtml=" WINE WINE_LOG=$work/wine_log
WINE=$(command -v wine64 wine /usr/lib/wine/wine64 | head -1)
check "the programs hash" programs_print_right_digests
check "b2sum --version" b2sum_reports_version
check "the programs have no build path" files_name_no_build_folder
check "the pages have no dead link" pages_have_no_dead_link
if [ -e "$folder/bin/b2.exe" ]; then
    check "programs and library have a version, and no file is there twice" windows_files_have_version
    wineserver -k 2>/dev/null || /usr/lib/wine/wineserver -k 2>/dev/null || :
else
    check "the programs are position-independent, and stripped" programs_are_relocatable
    check "pkg-config and CMake find the library" package_is_found_by_tools
fi
finish
