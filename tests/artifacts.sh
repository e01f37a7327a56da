#!/usr/bin/env bash
# Tests the artifacts of a release in a folder, each unpacked or installed alone:
#
#   tests/artifacts.sh FOLDER
#
# tools/release.sh calls this over what it has made. A test is skipped if a tool of packaging/tools.txt is absent,
# without which a trial leaves the artifact out.
set -u
folder=$(readlink -f "${1:?usage: tests/artifacts.sh FOLDER}")
source "$(dirname "$(readlink -f "$0")")/tap.sh"
version=$(version) processor=$(uname -m)
name=vulfsjor-$version
export CARGO_NET_OFFLINE=true CARGO_TARGET_DIR=$work/target PYTHONDONTWRITEBYTECODE=1

# A test that needs the tools of these kinds, which are a regular expression: KINDS NAME COMMAND..
absent=$(absent_tools)
check_if_artifact_was_made() {
    missing=$(sed -nE "s/^($1), //p" <<<"$absent" | paste -sd , | sed 's/,/, /g')
    check "${@:2}"
}

# Whether the names of files on standard input are those in packaging/files.txt of a kind of artifact: KIND
has_listed_files() {
    sed "/\/\$/d;s/$version/VERSION/g;s/linux-$processor/linux-PROCESSOR/;s/\.$processor\.rpm/.PROCESSOR.rpm/
        s|man3/vulfsjor\w*|man3/vulfsjor*|" | LC_ALL=C sort -u |
        diff <(sed -n "s/^$1: //p" "$top/packaging/files.txt") -
}
names_in_zip() { python3 -c 'import sys, zipfile; print(*zipfile.ZipFile(sys.argv[1]).namelist(), sep="\n")' "$1"; }
unpack_zip() { python3 -m zipfile -e "$1" "$2"; }

conformance_archive_works() {
    tar -tf "$folder/$name-conformance.tar.xz" | has_listed_files conformance &&
        tar -C "$work" -xf "$folder/$name-conformance.tar.xz" && cd "$work/$name-conformance" &&
        b2sum --check --strict SUMS && ! grep -F '](' README.md
}
linux_archive_works() {
    tar -tf "$folder/$name-linux-$processor.tar.xz" | has_listed_files linux &&
        tar -C "$work" -xf "$folder/$name-linux-$processor.tar.xz" &&
        "$top/c/tests/unpacked.sh" "$work/$name-linux-$processor"
}
windows_archive_works() {
    names_in_zip "$folder/$name-windows-x86_64.zip" | has_listed_files windows &&
        unpack_zip "$folder/$name-windows-x86_64.zip" "$work" &&
        "$top/c/tests/unpacked.sh" "$work/$name-windows-x86_64"
}

# Whether a wheel has its files, and its module is the assembly, with every build, and needs no newer C library than its
# name says: WHEEL
wheel_is_complete() {
    local build builds="v2 v3 v4" module=$work/wheel/vulfsjor/_library.abi3.so newest
    [[ $1 == *x86_64* ]] || builds=arm
    rm -rf "$work/wheel" && names_in_zip "$1" | has_listed_files wheel && unpack_zip "$1" "$work/wheel" &&
        nm "$module" >"$work/names" || return 1
    for build in $builds; do grep -q "_${build}\$" "$work/names" || { echo "no code for $build" && return 1; }; done
    newest=$(objdump -T "$module" | grep -o 'GLIBC_[0-9.]*' | sort -uV | tail -1)
    case $1 in
        *musllinux*) [ -z "$newest" ] ;;
        *) [ -n "$newest" ] && [ "$(printf '%s\n' "$newest" GLIBC_2.17 | sort -V | tail -1)" = GLIBC_2.17 ] ;;
    esac
}
# The wheel for this machine and the source distribution, by pip alone, pass the tests that the second has, from there:
# the wheel all, and what pip builds those next to hashlib and of what is left in memory.
pip_packages_pass_tests() {
    local artifact tests python=$work/venv/bin/python package
    tar -tf "$folder/python/$name.tar.gz" | has_listed_files sdist &&
        tar -C "$work" -xf "$folder/python/$name.tar.gz" &&
        python3 -m venv "$work/venv" &&
        package=$("$python" -c 'import sysconfig; print(sysconfig.get_path("purelib"))') || return 1
    for artifact in "$folder/python/$name"-*manylinux*"_$processor.whl" "$folder/python/$name.tar.gz"; do
        tests="test_*.py"
        [[ $artifact == *.whl ]] || tests="test_a*.py"
        "$python" -m pip -q install --no-index --no-build-isolation --no-deps --force-reinstall "$artifact" &&
            (cd "$work/$name" && VULFSJOR_PACKAGE=$package "$python" -m unittest discover -s tests -p "$tests") ||
            return 1
    done
}
twine_accepts_packages() { twine check --strict "$folder"/python/*; }

# Cargo packs the bytes of the release from the unpacked sources, and builds each crate with no warning but those of
# what only the owner can give. A program uses both.
crates_pack_and_build() {
    local here=$work/crates each user=$work/user config test uses sum
    mkdir -p "$here" "$work/sources" "$user/src" && tar -C "$work/sources" -xf "$folder/$name.tar.xz" || return 1
    tar -tf "$folder/$name.crate" | has_listed_files vulfsjor.crate || return 1
    for each in "${VULFSJOR_CRATES:-/usr/share/cargo/registry}"/*; do [ ! -d "$each" ] || ln -s "$each" "$here/"; done
    for each in "$folder"/*.crate; do
        sum=$(sha256sum <"$each") && tar -C "$here" -xzf "$each" &&
            echo "{\"files\":{},\"package\":\"${sum%% *}\"}" >"$here/$(basename "$each" .crate)/.cargo-checksum.json" ||
            return 1
    done
    config=(--config 'source.crates-io.replace-with="here"' --config "source.here.directory=\"$here\"")
    uses="vulfsjor = \"=$version\""
    test='assert_eq!(&vulfsjor::Blake2b::digest(b"abc").to_hex()[..4], "ba80");'
    if [ -e "$folder/vulfsjor-digest-$version.crate" ]; then
        uses+=$'\n'"vulfsjor-digest = { version = \"=$version\", default-features = false }"
        test+='use vulfsjor_digest::{digest::Digest, Blake2b512}; assert_eq!(Blake2b512::digest(b"abc")[0], 0xba);'
    fi
    printf '%s\n' '[package]' 'name = "user"' 'version = "0.0.0"' 'edition = "2021"' '[workspace]' '[dependencies]' \
        "$uses" >"$user/Cargo.toml" && echo "fn main() { $test }" >"$user/src/main.rs" &&
        (cd "$user" && cargo run -q --offline "${config[@]}") && cd "$work/sources/$name" || return 1
    for each in . rust-digest; do
        [ -e "$folder/vulfsjor-digest-$version.crate" ] || [ $each = . ] || continue
        (cd $each && cargo package -q --offline "${config[@]}") 2>"$work/said" &&
            ! grep '^\(warning\|error\)' "$work/said" | grep -v 'manifest has no .*license' || return 1
    done
    for each in "$folder"/*.crate; do cmp "$work/target/package/${each##*/}" "$each" || return 1; done
}

digest_crate_has_listed_files() {
    tar -tf "$folder/vulfsjor-digest-$version.crate" | has_listed_files vulfsjor-digest.crate
}

npm_package_works() {
    mkdir "$work/js" && cd "$work/js" && tar -tf "$folder/$name.tgz" | has_listed_files npm &&
        echo '{"type": "module"}' >package.json &&
        npm install --silent --offline --no-audit --no-fund "$folder/$name.tgz" &&
        node -e 'import("vulfsjor").then(({ blake2b, hex, utf8 }) => {
            if (!hex(blake2b(utf8("abc"))).startsWith("ba80")) process.exit(1); })'
}

# A program that is found by pkg-config and by CMake in a root, and run over its shared library: ROOT LIBDIR COMPILER
# RUN..
compile_and_run_in_root() {
    local root=$1 libdir=$2 cc=$3 words
    printf '%s\n' '#include <vulfsjor.h>' 'int main(void) { unsigned char d[64];' \
        'return vulfsjor_blake2b(d, 64, "abc", 3, NULL, 0) || d[0] != 0xba; }' >"$work/a.c"
    words=$(PKG_CONFIG_SYSROOT_DIR=$root PKG_CONFIG_LIBDIR=$root$libdir/pkgconfig PKG_CONFIG_ALLOW_SYSTEM_CFLAGS=1 \
        PKG_CONFIG_ALLOW_SYSTEM_LIBS=1 pkg-config --cflags --libs vulfsjor) &&
            $cc "$work/a.c" $words -o "$work/a.out" &&
        "${@:4}" "$work/a.out" && rm -rf "$work/cmake" && mkdir "$work/cmake" &&
        printf '%s\n' 'cmake_minimum_required(VERSION 3.13)' 'project(a C)' \
            "find_package(vulfsjor $(version) EXACT REQUIRED)" \
            'add_executable(a ../a.c)' 'target_link_libraries(a PRIVATE vulfsjor::vulfsjor)' \
                >"$work/cmake/CMakeLists.txt" &&
        cmake -S "$work/cmake" -B "$work/cmake/b" -DCMAKE_C_COMPILER="$cc" -DCMAKE_SYSTEM_NAME=Linux \
            -DBUILD_SHARED_LIBS=ON \
            -Dvulfsjor_DIR="$root$libdir/cmake/vulfsjor" && cmake --build "$work/cmake/b" && "${@:4}" "$work/cmake/b/a"
}
# The packages of Debian for a processor are installed in an empty root, used there, and removed without a trace.
debian_packages_install_and_work() {
    local root=$work/root_$1 packages=({libvulfsjor-dev,libvulfsjor1,vulfsjor-libb2}:"$1") triplet libdir run
    triplet=$(dpkg-architecture -a"$1" -qDEB_HOST_MULTIARCH 2>/dev/null) && libdir=/usr/lib/$triplet || return 1
    mkdir -p "$root/var/lib/dpkg"/{info,updates,triggers} && touch "$root/var/lib/dpkg"/{status,available} || return 1
    [[ $1 != a* ]] || packages+=(vulfsjor:"$1")
    [ "$1" != "$(dpkg --print-architecture)" ] || packages+=(python3-vulfsjor:"$1")
    dpkg --root="$root" --force-depends --force-architecture --force-script-chrootless --unpack \
        "$folder"/debian/*_"$1".deb &&
        dpkg --root="$root" -l "${packages[@]}" &&
        [ "$(ls "$folder"/debian/*_"$1".deb | wc -l)" -eq ${#packages[@]} ] &&
        dpkg-deb -f "$folder/debian/libvulfsjor-dev_$(version)-1_$1.deb" Depends |
            grep -qx "libvulfsjor1 (= $(version)-1)" &&
        dpkg-deb -f "$folder/debian/libvulfsjor1_$(version)-1_$1.deb" Depends | grep -q '^libc6 (>= ' || return 1
    [[ $1 != a* ]] || { [ ! -e "$root/usr/bin/b2sum" ] && [ -x "$root/usr/bin/vulfsjor-b2sum" ]; } || return 1
    run=("qemu-${triplet%%-*}" -L "/usr/${triplet/i386/i686}" -E LD_LIBRARY_PATH="$root$libdir")
    [ "$1" != "$(dpkg --print-architecture)" ] || run=(env LD_LIBRARY_PATH="$root$libdir")
    compile_and_run_in_root "$root" "$libdir" "${triplet/i386/i686}-gcc" "${run[@]}" || return 1
    if [ "$1" = "$(dpkg --print-architecture)" ]; then
        printf abc | "$root/usr/bin/vulfsjor-b2sum" | grep ^ba80a53f && (cd "$root/usr/lib/python3/dist-packages" &&
            /usr/bin/python3 -B -c "import vulfsjor; assert vulfsjor.blake2b(b'abc').hexdigest()[:4] == 'ba80'") ||
                return 1
    fi
    dpkg --root="$root" --force-script-chrootless --force-architecture --purge "${packages[@]}" &&
        [ -z "$(find "$root" -type f -not -path "$root/var/lib/dpkg/*")" ]
}

# The RPMs, likewise: with the list of packages where Fedora has it, since Debian's rpm has one in the home folder.
rpm_packages_install_and_work() {
    local root=$work/root_rpm names=(vulfsjor vulfsjor-devel vulfsjor-libs vulfsjor-static)
    rpm() { command rpm --root "$root" --dbpath /var/lib/rpm "$@"; }
    mkdir "$root" && rpm --initdb && rpm -i --nodeps --noscripts "$folder"/rpm/*.rpm &&
        rpm -qa --qf '%{NAME}\n' | sort | diff - <(printf '%s\n' "${names[@]}") &&
        rpm -q --provides vulfsjor-libs | grep 'libvulfsjor.so.1(VULFSJOR_0.1)' &&
        rpm -q --requires vulfsjor-devel | grep -F "vulfsjor-libs(x86-64) = $(version)-1" &&
        printf abc | "$root/usr/bin/vulfsjor-b2sum" | grep ^ba80a53f &&
        compile_and_run_in_root "$root" /usr/lib64 cc env LD_LIBRARY_PATH="$root/usr/lib64" &&
        rpm -e --noscripts "${names[@]}" &&
            [ -z "$(find "$root" ! -type d -not -path "$root/var/lib/rpm/*")" ]
}

# Debian's rdiff over the libb2.so.1 of the package alone, which nothing finds without LD_LIBRARY_PATH: it is in its own
# folder, and the package neither provides, conflicts with nor replaces another, nor has a script.
rdiff_works_over_packaged_libb2() {
    local file=$folder/debian/vulfsjor-libb2_$version-1_$(dpkg --print-architecture).deb root=$work/root_libb2 beside
    beside=$root/usr/lib/$(dpkg-architecture -qDEB_HOST_MULTIARCH)/vulfsjor-libb2
    [ -z "$(dpkg-deb -f "$file" Provides Conflicts Replaces Breaks)" ] && dpkg-deb -R "$file" "$root" &&
        [ "$(ls "$root/DEBIAN" | paste -sd ' ')" = "control md5sums" ] &&
        [ "$(find "$root" -name '*.so*' -printf '%h\n' | sort -u)" = "$beside" ] && cd "$work" &&
        LD_LIBRARY_PATH=$beside ldd "$(command -v rdiff)" | grep -F " $beside/libb2.so.1 " &&
        LD_LIBRARY_PATH=$beside rdiff -f -H blake2 signature "$top/README.md" ours &&
        rdiff -f -H blake2 signature "$top/README.md" theirs && cmp ours theirs
}

debian_packages_have_listed_files() {
    local each
    for each in "$folder"/debian/*.deb; do
        dpkg-deb --fsys-tarfile "$each" | tar -tf - | sed "s|^\.|$(basename "$each")|"
    done | has_listed_files debian
}
rpms_have_listed_files() {
    local each
    for each in "$folder"/rpm/*.rpm; do
        rpm -qp --qf '[%{FILEMODES:perms} %{FILENAMES}\n]' "$each" | sed -n "s|^[-l][^ ]* |$(basename "$each")|p"
    done | has_listed_files rpm
}
lintian_accepts_packages() { lintian --allow-root --fail-on error "$folder"/debian/*.deb; }

check_if_artifact_was_made release "the conformance cases" conformance_archive_works
check_if_artifact_was_made linux "the archive for Linux" linux_archive_works
check_if_artifact_was_made windows "the archive for Windows" windows_archive_works
for each in "manylinux_2_17_$processor" manylinux_2_17_aarch64 "musllinux_1_2_$processor"; do
    check_if_artifact_was_made python "the wheel for $each" \
        wheel_is_complete "$folder/python/$name-cp311-abi3-$each.whl"
done
check_if_artifact_was_made python "the wheel and the source distribution by pip" pip_packages_pass_tests
check_if_artifact_was_made "python|twine" "twine check" twine_accepts_packages
check_if_artifact_was_made crates "the crates" crates_pack_and_build
check_if_artifact_was_made vulfsjor-digest "the files of the crate vulfsjor-digest" digest_crate_has_listed_files
check_if_artifact_was_made npm "the package for npm" npm_package_works
check_if_artifact_was_made debian "the files of the packages of Debian" debian_packages_have_listed_files
for each in amd64 arm64 i386 s390x; do
    check_if_artifact_was_made "debian|emulated" "packages of Debian for $each" debian_packages_install_and_work $each
done
check_if_artifact_was_made "debian|rdiff" "Debian's rdiff over vulfsjor-libb2" rdiff_works_over_packaged_libb2
check_if_artifact_was_made "debian|lintian" "lintian" lintian_accepts_packages
check_if_artifact_was_made rpm "the files of the RPMs" rpms_have_listed_files
check_if_artifact_was_made rpm "the RPMs" rpm_packages_install_and_work
finish
