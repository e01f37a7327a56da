#!/usr/bin/env bash
# Makes the artifacts of a release from the files of a commit in out/release, and tests them (tests/artifacts.sh):
#
#   tools/release.sh [--trial] [COMMIT]
#
# COMMIT is HEAD if it is not named, and must have the tag v and the version, unless --trial is given. The same tools
# make the same bytes of a commit in any folder. Of the caller's environment only PATH is used, and VULFSJOR_CRATES: a
# folder of crates, instead of that of Debian. Every tool of packaging/tools.txt must be there. With --trial an artifact
# or a test whose tool is absent is left out, and the last lines say so. Nothing is published and no network is used.
# docs/RELEASING.md says what the artifacts are, and what else a release is.
set -euo pipefail
top=$(dirname "$(dirname "$(readlink -f "$0")")")
# It runs itself again without the caller's variables. What stands for python3 and cargo in PATH may need some of them,
# so the folders of these programs themselves come first.
if [ "${1-}" != --alone ]; then
    folders=$(python3 -c 'import os, sys; print(os.path.dirname(sys.executable))' || :):
    ! command -v rustc >/dev/null || folders+=$(rustc --print sysroot)/bin:
    exec env -i PATH="$folders$PATH" VULFSJOR_CRATES="${VULFSJOR_CRATES-}" bash "$top/tools/release.sh" --alone "$@"
fi
shift
source "$top/tools/shell.sh"
trial=no left=() absent=
[ "${1-}" != --trial ] || { trial=yes && shift; }
say() { echo "release.sh: $1" >&2; }
# Runs a command, whose output is shown only if it fails.
run_quietly() { "$@" >"$work/log" 2>&1 || { cat "$work/log" >&2 && stop "failed: $*"; }; }

# ---- The tools
crates=${VULFSJOR_CRATES:-/usr/share/cargo/registry}
while IFS= read -r line; do absent+="${line%%,*} " left+=("$line"); done < <(absent_tools)
can_make() { [[ " $absent" != *" $1 "* ]]; }
print_left_out_artifacts() { for each in ${left[@]+"${left[@]}"}; do say "left out: $each"; done; }
[ -z "$absent" ] || { [ "$trial" = yes ] && can_make release; } ||
    { print_left_out_artifacts && stop "install these tools, or use --trial to make the rest"; }

export LC_ALL=C TZ=UTC PYTHONDONTWRITEBYTECODE=1 GIT_CONFIG_NOSYSTEM=1 GIT_NO_REPLACE_OBJECTS=1 CARGO_NET_OFFLINE=true \
    CARGO_INCREMENTAL=0 PIP_CONFIG_FILE=/dev/null HOME SOURCE_DATE_EPOCH
umask 022
out=$top/out/release HOME=$work/home
set -E && trap 'say "line $LINENO failed"' ERR
rm -rf "$out" && mkdir -p "$out" "$HOME"
# A clone of its own, which has no attributes and no replaced objects of the caller's.
commit=$(git -c safe.directory='*' -C "$top" rev-parse --verify "${1:-HEAD}^{commit}")
git -c safe.directory='*' clone -q --bare "$top" "$work/git" || stop "$top is not a repository"
git() { command git -C "$work/git" "$@"; }
[ "$(git rev-parse --is-shallow-repository)" = false ] ||
    stop "$top is a shallow clone, without the earlier releases: run git fetch --unshallow --tags"
SOURCE_DATE_EPOCH=$(git log -1 --format=%ct "$commit")

# An archive of a folder of `work`, the same for everybody: NAME
write_reproducible_archive() {
    tar -C "$work" --sort=name --mtime="@$SOURCE_DATE_EPOCH" --owner=0 --group=0 --numeric-owner --format=ustar \
        --mode=u=rwX,go=rX -cf - "$1" | xz --threads=1 -6 >"$out/$1.tar.xz"
}

# ---- The sources, and what they must agree on.
version=$(git show "$commit:CHANGELOG.md" | sed -nE '/^## [0-9.]+/{s/^## ([0-9.]+).*/\1/p;q}')
name=vulfsjor-$version source=$work/vulfsjor-$version processor=$(uname -m)
git -c tar.umask=0022 archive --format=tar --prefix="$name/" "$commit" | tar -C "$work" -xf -
cd "$source"
tools/version.py --check || stop "the versions differ"
tools/dist.sh current || stop "dist/ was not made from these sources"
if [ "$trial" = no ]; then
    [ "$(git rev-parse -q --verify "v$version^{commit}")" = "$commit" ] ||
        stop "the commit has no tag v$version, which --trial does not need"
    grep -qE "^## ${version//./\\.} \(20[0-9]{2}-[0-9]{2}-[0-9]{2}\)$" CHANGELOG.md ||
        stop "CHANGELOG.md has no date: the heading has to be ## $version (YEAR-MONTH-DAY)"
fi
# What the last release promised stays, or the soname is another.
earlier=$(sed -nE 's/^## ([0-9.]+).*/\1/p' CHANGELOG.md | sed -n 2p)
[ -z "$earlier" ] || git rev-parse -q --verify "v$earlier^{commit}" >/dev/null ||
    stop "there is no tag v$earlier, and CHANGELOG.md has that version: run git fetch --tags"
last=$(git tag --list 'v[0-9]*' --merged "$commit" --sort=-version:refname | grep -vx "v$version" | sed 1q || :)
if [ -n "$last" ] && git show "$last:c/abi.txt" >"$work/abi" 2>/dev/null; then
    [ "$(sed 1q "$work/abi")" != "$(sed 1q c/abi.txt)" ] ||
        [ -z "$(grep ^VULFSJOR_ "$work/abi" | grep -vxFf c/abi.txt)" ] ||
        stop "c/abi.txt has lost lines of $last: the soname must change"
fi
write_reproducible_archive "$name"

# Adds the pages to a folder of programs, whose links to other files would lead nowhere, and what it was built from:
# FOLDER COMPILER
add_pages() {
    local page
    mkdir "$1/docs"
    for page in packaging/README.md SECURITY.md CHANGELOG.md docs/B2.md docs/B2SUM.md c/README.md c/PORTING.md; do
        sed -Ez 's/\[([^]]+)\]\([^):]*\)/\1/g' "$page" >"$1/docs/$(basename "${page/c\/README/C}")"
    done
    mv "$1/docs"/{README,SECURITY,CHANGELOG}.md "$1/"
    {
        echo "commit: $commit"
        echo "SOURCE_DATE_EPOCH: $SOURCE_DATE_EPOCH"
        echo "compiler: $("$2" --version | sed 1q)"
        echo "linker: $("$("$2" -print-prog-name=ld)" --version | sed 1q)"
        sed -n 's/^# kit: /toolchain that made dist\/: /p' dist/MANIFEST
    } >"$1/BUILD"
    tools/spdx.py "$version" "$commit" "$out/$name.tar.xz" >"$1/$name.spdx.json"
}

# ---- The conformance cases, whose page has links to files that are not there.
make_conformance() {
    mkdir "$work/$name-conformance"
    run_quietly tests/conformance/write.py "$work/$name-conformance"
    cp tests/conformance/{SUMS,others.txt} "$work/$name-conformance/"
    sed -Ez 's/\[([^]]+)\]\([^)]*\)/\1/g' tests/conformance/README.md >"$work/$name-conformance/README.md"
    write_reproducible_archive "$name-conformance"
}

# ---- Linux: what make install installs, in a folder of its own, with programs that need no library.
make_linux() {
    local linux=$name-linux-$processor musl=/usr/lib/$processor-linux-musl program
    mkdir "$work/made"
    # musl-gcc -static-pie makes a program that needs musl's loader.
    cat >"$work/static" <<END
#!/bin/sh
[ "\$1" != -dumpmachine ] || exec cc -dumpmachine
exec musl-gcc -fPIE -nostartfiles -static -Wl,-pie,--no-dynamic-linker,-z,text -s $musl/rcrt1.o $musl/crti.o "\$@" \
    $musl/crtn.o
END
    chmod +x "$work/static"
    for program in b2 b2sum; do CC=$work/static run_quietly ./$program --build "$work/made/$program"; done
    run_quietly c/install.sh --build "$work/made/lib"
    prefix=/$linux DESTDIR=$work run_quietly tools/install_programs.sh "$work/made" b2 b2sum
    DESTDIR=$work run_quietly c/install.sh --built "$work/made/lib" "/$linux"
    add_pages "$work/$linux" cc
    { /lib/ld-musl-"$processor".so.1 2>&1 || :; } | sed -n 's/^Version /musl: /p' >>"$work/$linux/BUILD"
    cp /usr/share/doc/musl/copyright "$work/$linux/COPYRIGHT.musl"
    write_reproducible_archive "$linux"
}

# ---- Windows, with the version in its programs and the library.
make_windows() {
    local windows=$name-windows-x86_64 of=x86_64-w64-mingw32 program
    mkdir -p "$work/$windows/bin"
    sed "s/@NUMBERS@/${version//./,},0/g;s/@VERSION@/$version/" packaging/version.rc | $of-windres -o "$work/version.o"
    for program in b2 b2sum; do
        CC="$of-gcc -static" LDFLAGS="-s $work/version.o" run_quietly ./$program --build \
            "$work/$windows/bin/$program.exe"
    done
    CC=$of-gcc LDFLAGS="-s $work/version.o" run_quietly c/install.sh "$work/$windows"
    add_pages "$work/$windows" $of-gcc
    find "$work/$windows" -exec touch -h -d "@$SOURCE_DATE_EPOCH" {} +
    (cd "$work" && find "$windows" | sort | zip -qX -@ "$out/$windows.zip")
}

# ---- Python: the source distribution, and the wheels that it makes.
make_python() {
    local each folder headers
    headers=$(python3 -c 'import sysconfig; print(sysconfig.get_path("include"))')
    mkdir "$out/python" "$work/sdist"
    run_quietly python3 python/build_package.py sdist "$out/python"
    tar -C "$work/sdist" -xf "$out/python/$name.tar.gz"
    # Headers of Debian have what differs by the processor in a folder that only its own compilers find.
    for each in aarch64 x86_64; do
        folder=$work/headers/$each-linux-gnu/${headers##*/}
        mkdir -p "$folder"
        echo "#include \"/usr/include/$processor-linux-gnu/${headers##*/}/pyconfig.h\"" >"$folder/pyconfig.h"
    done
    # A wheel: PLATFORM VARIABLE..
    make_wheel() {
        run_quietly env VULFSJOR_WHEEL_PLATFORM="$1" "${@:2}" python3 "$work/sdist/$name/build_package.py" wheel \
            "$out/python"
    }
    make_wheel "manylinux_2_17_$processor"
    make_wheel manylinux_2_17_aarch64 CC=aarch64-linux-gnu-gcc _PYTHON_HOST_PLATFORM=linux-aarch64 \
        CFLAGS="-I$work/headers"
    make_wheel "musllinux_1_2_$processor" CC=musl-gcc CFLAGS="-I$work/headers"
}

# ---- Rust: the crates, the second over the first.
make_crates() {
    local found=$work/crates each config
    mkdir "$found"
    for each in "$crates"/*; do [ ! -d "$each" ] || ln -s "$each" "$found/"; done
    config=(--config 'source.crates-io.replace-with="here"' --config "source.here.directory=\"$found\"")
    # A crate of this folder, which is then one of those that cargo finds: MANIFEST NAME
    make_crate() {
        run_quietly env CARGO_TARGET_DIR="$work/target" cargo package -q --offline --no-verify --allow-dirty \
            --manifest-path "$1" "${config[@]}"
        cp "$work/target/package/$2-$version.crate" "$out/"
        tar -C "$found" -xzf "$out/$2-$version.crate"
        printf '{"files":{},"package":"%s"}\n' "$(sha256sum <"$out/$2-$version.crate" | cut -d ' ' -f 1)" \
            >"$found/$2-$version/.cargo-checksum.json"
    }
    make_crate Cargo.toml vulfsjor
    ! can_make vulfsjor-digest || make_crate rust-digest/Cargo.toml vulfsjor-digest
}

# ---- JavaScript, and the packages of distributions.
make_npm() { (cd js && run_quietly npm pack --silent --offline --pack-destination "$out"); }
make_packages() { run_quietly tools/packages.sh "$2" "$out/$name.tar.xz" "$out/$1"; }
make_debian() {
    make_packages debian amd64 && make_packages debian arm64 && make_packages debian i386 && make_packages debian s390x
}
make_rpm() { make_packages rpm rpm; }

for each in conformance linux windows python crates npm debian rpm; do
    can_make $each || continue
    make_$each
    say "made $each"
done
cd "$out"
find . -type f -printf '%P\n' | sort | xargs "$source/tools/spdx.py" "$version" "$commit" >"$work/spdx"
mv "$work/spdx" "$name.spdx.json"
VULFSJOR_CRATES=$crates "$source/tests/artifacts.sh" "$out" || stop "an artifact is wrong"
find . -type f -printf '%P\n' | sort | xargs b2sum --tag -- >"$work/SUMS" && mv "$work/SUMS" .
grep -qE '^license(-file)? = ' "$source/Cargo.toml" ||
    left+=("everything may be published by its owner only: no license")
print_left_out_artifacts
say "the artifacts and SUMS are in $out"
