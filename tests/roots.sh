#!/usr/bin/env bash
# Runs README's first command, `make install` and ./test in the small systems of packaging/roots.txt:
#
#   tests/roots.sh [--all | NAME..]     without arguments the quick ones
#
# mmdebstrap makes each from packages, of this release of Debian and from where apt's lists here say. What runs in them
# does so as another user than root, and without a network. A system takes 1 to 10 minutes of processor time and 0.5 GB,
# `tools` several. It needs the rights of root; without these, mmdebstrap or the network it is skipped. `make release`
# runs all, ./test --prove the quick ones, and ./test none.
set -u
source "$(dirname "$(readlink -f "$0")")/tap.sh"
suite=$(sed -n 's/^VERSION_CODENAME=//p' /etc/os-release 2>/dev/null)
shown=("$work/said")

# The lists of the distribution itself, in which apt has no other's packages.
write_package_lists() {
    local list
    for list in /etc/apt/sources.list /etc/apt/sources.list.d/debian.{sources,list}; do
        [ ! -s "$list" ] || echo "$list"
    done
}

# Makes a root: NAME PACKAGES.. What the first one reads of the distribution's lists serves the others too.
make_root() {
    local from hooks=(--customize-hook='cp -a "$1/var/lib/apt/lists" '"'$work/lists'") IFS=,
    [ ! -d "$work/lists" ] || hooks=(--skip=update --setup-hook='cp -a '"'$work/lists/.'"' "$1/var/lib/apt/lists/"')
    mapfile -t from < <(write_package_lists)
    mmdebstrap --quiet --variant=minbase --hook-dir=/usr/share/mmdebstrap/hooks/merged-usr --include="${*:2}" \
        "${hooks[@]}" --format=directory "$suite" "$work/$1" "${from[@]}"
}

# Puts the sources in a folder: FOLDER clone|archive|applets
copy_sources() {
    [ "$2" != clone ] || { make_repository "$1"; return; }
    make_repository "$work/made" && mkdir "$1" && git -C "$work/made" archive HEAD | tar -C "$1" -xf - &&
        rm -rf "$work/made"
}

# A folder in a root with BusyBox's tools, and what a C compiler, Perl, Python and make are: NAME
make_applet_folder() {
    chroot "$work/$1" sh -c 'mkdir /applets && "$(command -v busybox)" --install -s /applets && cd /applets &&
        for tool in bash cc gcc as ld ar nm ranlib perl python3 make; do ln -sf "/usr/bin/$tool" . || exit; done'
}

# Runs a script in the sources in a root, as its user without a network: NAME SCRIPT
run_script_in_root() {
    unshare --mount --net --pid --fork --ipc bash -c 'cd "$0" && mount -t proc proc proc &&
        mount -t devpts -o newinstance,ptmxmode=0666 devpts dev/pts && mount -t tmpfs tmpfs dev/shm || exit
        path=/usr/bin:/bin
        [ ! -d applets ] || path=/applets
        exec chroot . /usr/bin/setpriv --reuid 1000 --regid 1000 --clear-groups /usr/bin/env -i PATH=$path \
            HOME=/home/user JOBS="$2" LC_ALL=C /bin/bash -c "cd /home/user/sources && $1"' "$work/$1" "$2" \
        "${JOBS:-$(nproc)}" >"$work/said" 2>&1
}

# What ./test has to say at its end, and no line of a test that failed.
test_run_passed() { grep -q '^Result: PASS$' "$work/said" && ! grep '^not ok' "$work/said"; }

readme_command_succeeds() {
    run_script_in_root "$1" "$(block_of README.md sh)" && grep -x 'README.md: OK' "$work/said"
}
test_run_succeeds_in_root() { run_script_in_root "$1" ./test && test_run_passed; }

# It says immediately what to install, and has built nothing.
test_stops_with_line() {
    ! run_script_in_root "$1" './test' && [ "$(wc -l <"$work/said")" -eq 1 ] && grep -F "${2//_/ }" "$work/said"
}

# NAME quick|long SOURCES END PACKAGES..
test_in_root() {
    local name=$1 sources=$3 end=$4 packages=("${@:5}")
    if [ "$5" = all ]; then
        mapfile -t packages < <(awk '!/^#/ && !/ mmdebstrap/ { print $3 } END { print "libc6-dev" }' \
            "$top/packaging/tools.txt" | sort -u)
    fi
    if ! make_root "$name" "${packages[@]}" >"$work/log" 2>&1; then
        ! grep -qE 'Failed to fetch|apt-get update .* failed' "$work/log" || missing="the packages cannot be fetched"
        if [ -n "$missing" ]; then skip "$name: $*" "$missing"; else fail "$name: $*" "$work/log"; fi
        return
    fi
    pass "$name: a system with ${*:5}"
    mkdir -p "$work/$name/home/user" &&
        check "$name: the sources" copy_sources "$work/$name/home/user/sources" "$sources" &&
        chown -R 1000:1000 "$work/$name/home/user" || return
    [ "$sources" != applets ] || check "$name: BusyBox's tools" make_applet_folder "$name"
    check "$name: README's first command" readme_command_succeeds "$name"
    [[ " ${packages[*]} " != *" make "* ]] ||
        check "$name: make install" run_script_in_root "$name" 'make install prefix=/home/user/installed'
    if [ "$end" = pass ]; then
        check "$name: ./test" test_run_succeeds_in_root "$name"
        sed -nE '/^(To run|Files=|Result:)/s/^/# /p' "$work/said"
    else
        check "$name: ./test says: ${end//_/ }" test_stops_with_line "$name" "$end"
    fi
    rm -rf "${work:?}/$name"
}

# Whether a system can be made and entered here, which a container may forbid.
can_make_and_enter_root() {
    [ "$(id -u)" -eq 0 ] && mknod "$work/null" c 1 3 && unshare --mount --net --pid --fork --ipc bash -c '
        mount -t proc proc "$0" && mount -t devpts -o newinstance devpts "$0"' "$work"
}

wanted=" $* "
needs git
has mmdebstrap || missing="no mmdebstrap"
can_make_and_enter_root 2>/dev/null || missing=${missing:-"no rights of root"}
[ -n "$(write_package_lists)" ] || missing=${missing:-"no lists of apt"}
while read -r name when words; do
    [[ -n $name && $name != \#* ]] || continue
    [[ $# -gt 0 || $when == quick ]] && [[ $# -eq 0 || $wanted == *" --all "* || $wanted == *" $name "* ]] || continue
    [ -z "$missing" ] || { skip "$name: $words" "$missing" && continue; }
    # shellcheck disable=SC2086
    test_in_root "$name" "$when" $words </dev/null
done <"$top/packaging/roots.txt"
[ "$ended" -gt 0 ] || stop "packaging/roots.txt has no $*"
finish
