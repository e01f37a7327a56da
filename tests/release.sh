#!/usr/bin/env bash
# Tests what a release needs: what tools/release.sh refuses, that a new version with the same code needs no
# toolchain, and what a public forge runs. With VULFSJOR_TEST_HUGE=1 it makes a release twice and compares; each tests
# its artifacts (tests/artifacts.sh).
set -u
source "$(dirname "$(readlink -f "$0")")/tap.sh"
[ -n "${VULFSJOR_TEST_HUGE-}" ] || export CFLAGS=-O0
# The libraries that are made here have one build.
one=()
[ "$(uname -m)" != x86_64 ] || one=(--cpu x86-64-v2)
for tool in git cc make xz python3 b2sum; do has $tool || { skip "releases" "no $tool"; finish; }; done

# Runs a command that has to fail and say this: LINE COMMAND..
command_fails_with_line() {
    ! "${@:2}" >"$work/said" 2>&1 && grep -F -- "$1" "$work/said" || { cat "$work/said" && return 1; }
}

# Whether a release of the commit with one more change by sed is refused with these words: WORDS FILE EDIT
release_refuses_change() {
    local repository=$work/clone
    sed -i "$3" "$repository/$2" && git -C "$repository" commit -q -a -m "A change" &&
        command_fails_with_line "$1" "$repository/tools/release.sh" "${@:4}" &&
        git -C "$repository" reset -q --hard HEAD~
}
# In a repository whose release needs no tools but those that this script needs, so that none is absent.
wrong_releases_are_refused() {
    local repository=$work/clone words
    make_repository "$repository" '^(crates/[a-z0-9_]*/(specs|proofs|must-fail)|bench)/' &&
        sed -i '/^release /!d' "$repository/packaging/tools.txt" && git -C "$repository" commit -q -a -m "Tools" &&
        release_refuses_change "js/package.json has 9.9.9, and CHANGELOG.md has" js/package.json \
        "0,/$(version)/s//9.9.9/" &&
        release_refuses_change "dist/ was not made from these sources" crates/b2/src/main.rt '$a fn more() {}' &&
        command_fails_with_line "dist/ was not made from these sources" "$repository/tools/release.sh" --trial \
        ORIG_HEAD &&
        release_refuses_change "there is no tag v0.0.1" CHANGELOG.md '$a ## 0.0.1' --trial &&
        git clone -q --depth 1 "file://$repository" "$work/shallow" &&
        command_fails_with_line "shallow is a shallow clone" "$work/shallow/tools/release.sh" --trial || return 1
    # An earlier version with a function that is gone.
    words="VULFSJOR_0.0 void vulfsjor_ffi_gone(void)"
    git -C "$repository" checkout -q -b earlier && echo "$words" >>"$repository/c/abi.txt" &&
        git -C "$repository" commit -q -a -m earlier && git -C "$repository" tag v0.0.9 &&
        sed -i '$d' "$repository/c/abi.txt" && git -C "$repository" commit -q -a -m later &&
        command_fails_with_line "the soname must change" "$repository/tools/release.sh" --trial &&
            git -C "$repository" checkout -q HEAD~2 || return 1
    command_fails_with_line "has no tag v$(version)" "$repository/tools/release.sh" || return 1
    if grep -q "^## $(version)\$" "$top/CHANGELOG.md"; then
        git -C "$repository" tag "v$(version)" &&
            command_fails_with_line "CHANGELOG.md has no date" "$repository/tools/release.sh" &&
            release_refuses_change "has no tag v$(version)" README.md '$a More.' || return 1
    fi
}

# The tools, in the first seconds: a stand-in for git, which comes after them, notes the variables that it gets, of
# which none is the caller's.
missing_tools_and_variables_are_handled() {
    local folder=$work/only tool script=$top/tools/release.sh
    mkdir "$folder" && for tool in bash env dirname readlink uname git cc make xz b2sum cat mktemp rm mkdir; do
        ln -s "$(command -v $tool)" "$folder/$tool"
    done
    printf '#!/bin/sh\ncase $* in *sys.executable*) echo "%s" ;; *) exec "%s" "$@" ;; esac\n' "$folder" \
        "$(python3 -c 'import sys; print(sys.executable)')" >"$folder/python3" && chmod +x "$folder/python3"
    rm "$folder/git" && command_fails_with_line "release, without git (Debian: git)" env PATH="$folder" "$script" \
        --trial &&
        printf '#!%s\n%s >"%s"\necho stopped >&2\nexit 1\n' "$BASH" "$(command -v env)" "$work/variables" \
            >"$folder/git" &&
        chmod +x "$folder/git" && command_fails_with_line "stopped" env PATH="$folder" "$script" --trial &&
        command_fails_with_line "left out: npm, without npm (Debian: npm)" env PATH="$folder" "$script" &&
        grep -F "release.sh: left out: windows, without zip (Debian: zip)" "$work/said" &&
        command_fails_with_line "use --trial to make the rest" env PATH="$folder" "$script" || return 1
    command_fails_with_line stopped env PATH="$folder" VULFSJOR_PORTABLE=1 CPATH=/no CFLAGS=-O0 bashcompdir=/no \
        RUSTFLAGS=-no \
        GIT_DIR=/no PYTHONPATH=/no \
        LD_LIBRARY_PATH=/no CARGO_HOME=/no npm_config_registry=/no TMPDIR="$work/a folder" "$script" --trial &&
        ! grep -F -e /no -e "a folder" -e "$HOME" -e O0 "$work/variables" | grep -vE '^(PATH|(OLD)?PWD)=' &&
        grep -x GIT_NO_REPLACE_OBJECTS=1 "$work/variables" &&
        sed 's/=.*//' "$work/variables" | grep -vxE \
            -e '_|PWD|SHLVL|PATH|HOME|LC_ALL|TZ|OLDPWD|VULFSJOR_CRATES|PYTHONDONTWRITEBYTECODE' \
            -e 'GIT_[A-Z_]*|CARGO_(NET_OFFLINE|INCREMENTAL)|PIP_CONFIG_FILE' |
        diff - /dev/null
}

# Another version of everything but the code, with no rt, in a copy of the repository.
other_version_is_written_everywhere() {
    local repository=$work/other
    mkdir "$repository" && cp -R "$work/clone/." "$repository/" && cd "$repository" && git checkout -q -f HEAD ||
        return 1
    printf '#!/bin/sh\necho "rt was called" >&2; exit 1\n' >"$work/rt" && chmod +x "$work/rt"
    PATH=$work:$PATH
    tools/version.py $next && tools/version.py --check && tools/dist.sh current && tools/exports.py --check
}
# Each package of it is made, and says its version.
packages_say_their_version() {
    PATH=$work:$PATH
    cd "$work/other" &&
        c/install.sh "${one[@]}" "$work/installed" &&
        printf '%s\n' '#include <vulfsjor.h>' "int main(void) { return vulfsjor_version() != 0x000163; }" \
            >"$work/a.c" &&
        cc "$work/a.c" -I"$work/installed/include" "$work/installed/lib/libvulfsjor.so" -o "$work/a" &&
        LD_LIBRARY_PATH=$work/installed/lib "$work/a" && [ -e "$work/installed/lib/libvulfsjor.so.$next" ] || return 1
    mkdir "$work/wheel" && python3 python/build_package.py wheel "$work/wheel" &&
        python3 -m zipfile -e "$work"/wheel/*.whl "$work/wheel" && (cd "$work/wheel" && python3 -c "
import vulfsjor; assert vulfsjor.__version__ == '$next'; vulfsjor.blake2b()") || return 1
    ! has node || node -e 'import("./js/index.js").then(({ blake2b, utf8 }) => blake2b(utf8("abc")))' || return 1
    ! has cargo || CARGO_TARGET_DIR=$work/target CARGO_NET_OFFLINE=true cargo run -q --locked --example sum -- /dev/null
}

# Each place of the version: it is one that another number is written to, and a change of it is found.
each_version_place_is_checked() {
    local file
    cd "$work/other" && git diff --name-only | sort >"$work/changed" &&
        diff "$work/changed" <(printf '%s\n' CHANGELOG.md Cargo.lock Cargo.toml README.md c/include/vulfsjor.h \
            c/man/*.3 dist/MANIFEST docs/b2.1 docs/b2sum.1 js/package.json packaging/debian/changelog \
            packaging/vulfsjor.spec python/pyproject.toml rust-digest/Cargo.toml | sort) || return 1
    for file in $(grep -vE "CHANGELOG|MANIFEST" "$work/changed"); do
        sed -i "$(git diff -U0 "$file" | sed -n 's/^@@ .* +\([0-9]*\)[ ,].*/\1s,99,98,;\1s,63$,62,;/p')" "$file"
    done
    command_fails_with_line "has 0.1.98, and CHANGELOG.md has" tools/version.py --check &&
        sed -n 's/^version.py: \(.*\) has [0-9a-fx.]*98\{0,1\}2\{0,1\}, and CHANGELOG.md has .*/\1/p' "$work/said" |
        sort >"$work/found" && [ "$(wc -l <"$work/found")" -ge 20 ] &&
            diff <(sort -u "$work/found") <(grep -vE "CHANGELOG|MANIFEST" "$work/changed") || return 1
    command_fails_with_line "usage: tools/version.py" tools/version.py 1.2 &&
        command_fails_with_line usage tools/version.py &&
        command_fails_with_line "CHANGELOG.md has a newer version" tools/version.py "$(version)" &&
        sed -i 's/Vulfsjor) [0-9.]*/Vulfsjor) 0.0.7/' crates/b2sum_commands/src/program.rt &&
        command_fails_with_line "no heading for the version 0.0.7" tools/version.py --check
}

# The interface: a function that is new in a minor version has the symbol version of that, so a library of an earlier
# one is refused when a program starts; and a change of an older function is refused.
new_functions_get_symbol_version() {
    local at=vulfsjor_ffi_tree_part
    cd "$work/other" && git checkout -q -f HEAD && sed -i "0,/^## /s/^## .*/## 0.2.0/" CHANGELOG.md &&
        tools/exports.py --check && sed -i "/ $at(/d" c/abi.txt && tools/exports.py &&
        grep -q "^VULFSJOR_0\.2 int32_t $at(" c/abi.txt && c/install.sh "${one[@]}" "$work/later" &&
        nm -D "$work/later/lib/libvulfsjor.so" | grep -q " $at@@VULFSJOR_0\.2$" &&
        echo "int $at(void); int main(int n, char **v) { return n > 1 && $at() && v; }" >"$work/b.c" &&
        cc "$work/b.c" "$work/later/lib/libvulfsjor.so" -o "$work/b" && LD_LIBRARY_PATH=$work/later/lib "$work/b" ||
            return 1
    ! LD_LIBRARY_PATH=$work/installed/lib "$work/b" 2>"$work/said" && grep "VULFSJOR_0.2' not found" "$work/said" &&
        sed -i 's/^\(VULFSJOR_0\.1 .*memcmp(\)/\1size_t, /' c/abi.txt &&
        command_fails_with_line "the soname has to change" tools/exports.py &&
            command_fails_with_line "the soname has to change" tools/exports.py --check || return 1
    # A field of a struct of an earlier version; and version 0.10, which is later than 0.2.
    git checkout -q -f c/abi.txt && sed -i '/^VULFSJOR_0\.1 struct/s/least_bytes/fewest_bytes/' c/abi.txt &&
        command_fails_with_line "the soname has to change" tools/exports.py --check && git checkout -q -f c/abi.txt &&
        sed -i "s/^VULFSJOR_0\.1\(.* $at(\)/VULFSJOR_0.2\1/;s/^VULFSJOR_0\.1\(.*_memcmp(\)/VULFSJOR_0.10\1/" \
            c/abi.txt &&
        sed -i "0,/^## /s/^## .*/## 0.10.0/" CHANGELOG.md && tools/exports.py &&
        [ "$(sed -n 's/^VULFSJOR_\(0\.[0-9]*\) {/\1/p' c/vulfsjor.map | tr '\n' ' ')" = "0.1 0.2 0.10 " ]
}

# tools/exports.py names, what is not as in the header: an order of fields, a type, a name that is not exported, and
# fields of the proved crate.
differences_from_header_are_found() {
    local file words edit
    cd "$work/other" && git checkout -q -f HEAD && tools/exports.py --check || return 1
    while IFS='|' read -r file words && read -r edit; do
        echo "$words" >>"$work/words" && sed -i "$edit" "$file" || return 1
    done <<'END'
rust/src/library.rs|rust/src/library.rs: Limits is not as vulfsjor_limits
/struct Limits/,/^}/{s/) threads: u64/) x: u64/;s/) least_bytes: u64/) threads: u64/;s/) x: u64/) least_bytes: u64/}
rust/src/library.rs|rust/src/library.rs is not as c/include/vulfsjor.h
0,/out_length: usize/s//out_length: u32/
c/vulfsjor.map|c/vulfsjor.map is not as c/include/vulfsjor.h
/vulfsjor_ffi_wipe;/d
c/choose.c|c/choose.c is not as c/include/vulfsjor.h
/^CALL("vulfsjor_ffi_tree_part")/d
c/thunks.h|c/thunks.h is not as c/include/vulfsjor.h
/^CALL(vulfsjor_ffi_tree_part,/d
crates/blake2_tree/src/thread_plan.rt|crates/blake2_tree/src/thread_plan.rt: Plan is not as vulfsjor_plan
s/pub threads: u64/pub thread: u64/
crates/blake2_ffi/src/lib.rt|crates/blake2_ffi: vulfsjor_ffi_memcmp is not as in c/include/vulfsjor.h
s/vulfsjor_ffi_memcmp(a: &\[u8\], b: &\[u8\])/vulfsjor_ffi_memcmp(b: \&[u8], a: \&[u8])/
END
    ! tools/exports.py --check >"$work/said" 2>&1 && while IFS= read -r words; do
        grep -qF "$words" "$work/said" || { echo "it does not say: $words" && return 1; }
    done <"$work/words" && [ "$(wc -l <"$work/said")" -eq 8 ] || return 1
    git checkout -q -f HEAD && sed -i s/least_bytes/fewest_bytes/ c/include/vulfsjor.h &&
        command_fails_with_line "c/abi.txt is not as c/include/vulfsjor.h" tools/exports.py --check
}

# What a public forge runs: the workflow calls the script .ci/forge and nothing else, which runs all tests of
# a system, and ends with their status. So does .ci/run with the full test.
forge_runs_all_tests() {
    local folder=$work/forge system
    local workflow=$top/.github/workflows/test.yml checkout
    checkout="- uses: actions/checkout@11bd71901bbe5b1630ceea73d27597364c9af683 # v4.2.2"
    [ "$(grep -E '^ *(- )?(run|uses):' "$workflow" | sed 's/^ *//')" = \
        "$(printf '%s\n' run: "$checkout" '- run: .ci/forge' \
            '- run: apk add bash build-base coreutils findutils git grep python3 sed' "$checkout" \
            '- run: c/tests/on_a_mac.sh' "$checkout" '- run: sudo apt-get update' '- run: >-' \
            '- run: tools/release.sh --trial')" ] && [ "$(grep -c 'persist-credentials: false' "$workflow")" -eq 3 ] &&
        grep -A 3 -F -e "$checkout" "$workflow" | grep 'fetch-depth: 0' &&
        mkdir -p "$folder"/{.ci,bin,c/tests} || return 1
    cp "$top"/.ci/{forge,run} "$folder/.ci/" &&
        printf '#!/bin/sh\necho all $*; exit 7\n' >"$folder/test" &&
        printf '#!/bin/sh\necho some; exit 7\n' >"$folder/c/tests/on_a_mac.sh" &&
        printf '#!/bin/sh\necho "$SYSTEM"\n' >"$folder/bin/uname" &&
        chmod +x "$folder"/{test,c/tests/on_a_mac.sh,bin/uname} && cd / || return 1
    for system in Linux:all Darwin:some MINGW64_NT-10.0-26100:some; do
        [ "$(SYSTEM=${system%:*} PATH=$folder/bin:$PATH "$folder/.ci/forge"; echo $?)" = "${system#*:}"$'\n7' ] ||
            return 1
    done
    [ "$("$folder/.ci/run"; echo $?)" = $'all --prove\n7' ]
}

# A package of Debian whose making fails after it was written is not kept.
failed_package_is_not_kept() {
    local folder=$work/fails/vulfsjor-9
    mkdir -p "$folder/packaging/debian" && touch "$folder/Makefile" && cd "$folder/packaging/debian" &&
        cp "$top"/packaging/debian/{changelog,control} . && printf '%s\n' '#!/usr/bin/make -f' 'clean:' 'build:' \
            'binary:' $'\ttouch ../written.deb && false' >rules && chmod +x rules &&
        tar -C "$work/fails" -cJf "$work/fails/vulfsjor-9.tar.xz" vulfsjor-9 || return 1
    ! "$top/tools/packages.sh" "$(dpkg --print-architecture)" "$work/fails/vulfsjor-9.tar.xz" "$work/fails/made" &&
        [ -z "$(ls "$work/fails/made")" ]
}

# Two clones in other folders: one by make, with variables, a configuration, a mask and files of git that must not reach
# it, and one by the script. Both are of a commit with its tag. Without all tools both are trials.
releases_are_reproducible() {
    local one=$work/one two="$work/another folder" today=2026-11-28 trial=() release count=25
    release=(make release ROOTS=perl-less)
    [ -z "$(absent_tools)" ] || trial=(--trial) release=(tools/release.sh --trial) count=9
    make_repository "$one" && sed -i "0,/^## $(version)\$/s//## $(version) ($today)/" "$one/CHANGELOG.md" &&
        git -C "$one" commit -q -a -m "A date" && git -C "$one" tag "v$(version)" &&
            git clone -q -c core.autocrlf=true "$one" "$two" || return 1
    (cd / && umask 022 && "$one/tools/release.sh" "${trial[@]}") || return 1
    printf '[core]\n\tautocrlf = true\n[tar]\n\tumask = 0077\n' >"$work/gitconfig" &&
        mkdir -p "$work/evil" "$two/.git/info" "$work/a folder" &&
        echo '#error evil' >"$work/evil/string.h" && echo 'README.md export-ignore' >"$two/.git/info/attributes" &&
        git -C "$two" replace "$(git -C "$two" rev-parse HEAD:SECURITY.md)" \
            "$(git -C "$two" rev-parse HEAD:README.md)" || return 1
    (cd "$two" && umask 077 && TZ=Asia/Tokyo LC_ALL=C.UTF-8 GIT_CONFIG_GLOBAL=$work/gitconfig CPATH=$work/evil \
        VULFSJOR_PORTABLE=1 \
        CFLAGS="-O0 -g" LDFLAGS=-L/no XZ_DEFAULTS=--threads=4 PREFIX=/no LIBDIR=/no bindir=/no bashcompdir=/no \
            PYTHONPATH="$work/evil" \
        TMPDIR="$work/a folder" "${release[@]}") >"$work/tap" &&
        diff "$one/out/release/SUMS" "$two/out/release/SUMS" && diff -r "$one/out/release" "$two/out/release" &&
        (cd "$one/out/release" && b2sum --check --strict --quiet SUMS) &&
            [ "$(wc -l <"$one/out/release/SUMS")" -ge $count ] &&
        python3 -m json.tool "$one"/out/release/*.spdx.json >/dev/null && cat "$one/out/release/SUMS"
}
check "what tools/release.sh refuses" wrong_releases_are_refused
check "the tools of a release, and the variables that reach it" missing_tools_and_variables_are_handled
next=0.1.99
check "another version needs no toolchain" other_version_is_written_everywhere
check_huge "nor do its packages" packages_say_their_version
check "the places of the version" each_version_place_is_checked
check_huge "functions of a later version" new_functions_get_symbol_version
check "the interfaces of four languages" differences_from_header_are_found
check "what a public forge runs" forge_runs_all_tests
needs dpkg-buildpackage
check "no package of Debian whose making fails" failed_package_is_not_kept
needs
check_huge "two releases have the same bytes" releases_are_reproducible
# Its tests of the artifacts, by their own names.
[ ! -e "$work/tap" ] || while IFS= read -r line; do
    case $line in *" # SKIP "*) skip "${line%% # SKIP *}" "${line##* # SKIP }" ;; *) pass "$line" ;; esac
done < <(sed -n 's/^ok [0-9]* - //p' "$work/tap")
finish
