#!/usr/bin/env bash
# Tests that every way of building compares files with dist/MANIFEST, which has all that are to be compared: in a copy
# of the repository each of them refuses, by name, each file that it compares of which one byte is another, and passes
# without. Other tests build in each way too, and see each kind of file, so without VULFSJOR_TEST_HUGE only what is
# built twice passes here, and two files are refused.
set -u
source "$(dirname "$(readlink -f "$0")")/tap.sh"
export CARGO_TARGET_DIR=$work/target CARGO_NET_OFFLINE=true PYTHONDONTWRITEBYTECODE=1 PIP_DISABLE_PIP_VERSION_CHECK=1
repository=$work/repository
for tool in git cc make; do has $tool || { skip "builders" "no $tool"; finish; }; done
# The files of MANIFEST, by their paths here and a pattern; and those that SECURITY.md says of a way to build, of which
# the first two are always tried.
files_in_manifest_matching() {
    sed -n 's,^[0-9a-f]\{64\}  ,dist/,p' "$top/dist/MANIFEST" | sed 's,^dist/[.][.]/,,' | grep -E "$1"
}
unique_files_to_try() { { printf '%s\n' "${@:2}" && files_in_manifest_matching "$1"; } | awk '!seen[$0]++'; }
of_c=($(unique_files_to_try . dist/x86_64/vulfsjor-v3.s c/include/vulfsjor.h))
of_rust=($(unique_files_to_try '^dist/.*(/vulfsjor.*[.]s|[.]inc|[.]rs)$' dist/x86_64/vulfsjor-v3.s rust/src/library.rs))
of_js=($(unique_files_to_try '^(dist|js)/' dist/wasm/vulfsjor.wasm js/src/wasm.js))

# MANIFEST has each file of dist/, each file in C of the library and the programs, and each file below rust/, js/ and
# python/ that a script has made of these.
manifest_lists_all_files() {
    local made
    made=$(cd "$top" && grep -rlE '^// Made by |// .*tools/exports[.]py' js/src rust/src rust-digest/src python/src \
        python/vulfsjor) && [ "$(wc -l <<<"$made")" -eq 6 ] || return
    { (cd "$top" && find dist -type f ! -name README.md ! -name MANIFEST &&
        find c -maxdepth 1 -name '*.[ch]' && find c/include c/libb2 -type f && echo c/vulfsjor.map) && echo "$made"; } |
        LC_ALL=C sort | diff - <(files_in_manifest_matching . | LC_ALL=C sort)
}

build_with_b2sum() { printf abc | ./b2sum | grep -q ^ba80a53f; }
build_with_make() { make out/make/b2 out/make/lib/kind; }
build_with_install() { c/install.sh "$work/installed"; }
build_with_cmake() { cmake -S c -B "$work/by_cmake" && cmake --build "$work/by_cmake"; }
# A second build of a project with these files, which are compared when they have changed.
build_with_project() {
    printf '%s\n' 'cmake_minimum_required(VERSION 3.13)' 'project(p C)' "add_subdirectory($repository/c v)" \
        >"$work/CMakeLists.txt"
    [ -e "$work/project" ] || cmake -S "$work" -B "$work/project" || return
    cmake --build "$work/project" --target vulfsjor
}
build_with_pip() { python3 -m pip wheel -q --no-index --no-deps --no-build-isolation -w "$work/wheels" ./python; }
build_with_sdist() { python3 python/build_package.py sdist "$work"; }
build_with_cargo() { cargo build -q; }
build_with_npm() { (cd js && npm pack --offline --pack-destination "$work"); }
build_with_npm_install() {
    rm -rf "$work/user" && mkdir "$work/user" && cd "$work/user" &&
        npm install --offline --no-audit --no-fund --install-links "$repository/js"
}

builder_succeeds() { (cd "$repository" && rm -rf out && "build_with_$1"); }
# Whether a build says that a file is wrong: BUILDER KIND..
builder_names_wrong_file() {
    local kind file
    for kind in "${@:2}"; do
        file=$repository/$kind
        printf X | dd of="$file" bs=1 seek=5 conv=notrunc 2>/dev/null && ! cmp -s "$file" "$top/$kind" || return 1
        ! builder_succeeds "$1" >"$work/said" 2>&1 && grep -F "$kind" "$work/said" || { cat "$work/said" && return 1; }
        cp "$top/$kind" "$file" && [ ! -e "$work/user/node_modules/vulfsjor" ] || return 1
    done
}

# make builds again what another file is for, also an older one, as from an archive.
make_rebuilds_after_changes() {
    local file
    cd "$repository" && make -s out/make/b2 && make -q out/make/b2 || return 1
    for file in dist/MANIFEST dist/x86_64/vulfsjor-v3.s c/choose.c tools/launcher.sh b2; do
        cp -p "$file" "$work/kept" && echo >>"$file" && touch -d 2001-01-01 "$file" && ! make -q out/make/b2 &&
            cp -p "$work/kept" "$file" && make -q out/make/b2 || { echo "$file" && return 1; }
    done
}

check "what MANIFEST has" manifest_lists_all_files
check "a copy of the repository" make_repository "$repository" '^(crates/[a-z0-9_]*/(specs|proofs|must-fail)|bench)/'
while read -r builder kinds tools; do
    kinds=$kinds[@] kinds=("${!kinds}")
    [ -n "${VULFSJOR_TEST_HUGE-}" ] || kinds=("${kinds[@]:0:1}")
    needs $tools
    [ "$builder" != pip ] || python3 -m pip --version >/dev/null 2>&1 || missing="no pip"
    [ "$builder" != pip ] || python3 -c 'import os, sysconfig
os.stat(sysconfig.get_path("include") + "/Python.h")' 2>/dev/null || missing="no Python.h"
    checking=check_huge
    [ "$builder" != project ] || checking=check
    $checking "$builder builds from dist/" builder_succeeds "$builder" &&
        check "and refuses another file" builder_names_wrong_file "$builder" "${kinds[@]}"
done <<'END'
b2sum of_c
make of_c
install of_c
cmake of_c cmake
project of_c cmake
pip of_c python3
sdist of_c python3
cargo of_rust cargo
npm of_js npm
npm_install of_js npm
END
missing=
check "make builds again what older files are for" make_rebuilds_after_changes
finish
