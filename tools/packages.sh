#!/usr/bin/env bash
# Makes packages of distributions from vulfsjor-VERSION.tar.xz of `make release`, in a folder:
#
#   tools/packages.sh ARCHITECTURE SOURCES FOLDER   those of Debian for amd64, arm64, or another
#   tools/packages.sh rpm SOURCES FOLDER            the RPMs for the processor here
#
# The same tools make the same bytes. For another architecture than that of Debian here, its compiler and C library are
# needed; then there is no module for Python.
set -euo pipefail
[ $# -eq 3 ] || { sed -n '/^#   t/s/^# *//p' "$0" >&2 && exit 2; }
sources=$(readlink -f "$2") && mkdir -p "$3" && folder=$(readlink -f "$3")
name=$(basename "$sources" .tar.xz)
work=$(mktemp -d)
trap 'rm -rf "$work"' EXIT
# The tools of the distribution.
export PATH=/usr/sbin:/usr/bin:/sbin:/bin SOURCE_DATE_EPOCH
cd "$work" && tar -xf "$sources" && SOURCE_DATE_EPOCH=$(stat -c %Y "$name/Makefile")
if [ "$1" != rpm ]; then
    words=(-b -us -uc -d)
    [ "$1" = "$(dpkg --print-architecture)" ] || words+=("-a$1" -Pcross,nocheck,nopython)
    cp "$sources" "vulfsjor_${name#*-}.orig.tar.xz" && cd "$name" && cp -R packaging/debian .
    CFLAGS='' CPPFLAGS='' LDFLAGS='' DEB_BUILD_OPTIONS=noautodbgsym dpkg-buildpackage "${words[@]}"
    mv ../*.deb "$folder/"
else
    mkdir SOURCES && cp "$sources" SOURCES/
    rpmbuild -bb --nodeps --define "_topdir $work" --define "_buildhost none" --define "_build_id_links none" \
        --define "clamp_mtime_to_source_date_epoch 1" \
        --define "use_source_date_epoch_as_buildtime 1" "$name/packaging/vulfsjor.spec"
    mv RPMS/*/*.rpm "$folder/"
fi
