#!/usr/bin/env bash
# The hashes of Debian's Qt, which takes BLAKE2 from libb2.so.1.
source "$(dirname "$(readlink -f "$0")")/common.sh"

# libb2.so.1 in a folder of its own, and in another one with a planted byte.
install_libb2_and_planted_copy() {
    local one=()
    ! is_x86 || one=(--cpu "x86-64-v$level")
    CFLAGS=$quick "$here/install.sh" "${one[@]}" --from "$dist" --libb2-shared "$work/shared" &&
        mkdir "$work/planted" &&
        copy_with_wrong_iv_bit "$work/shared/lib/vulfsjor-libb2/libb2.so.1" "$work/planted/libb2.so.1"
}
qt_digests_are_right() { LD_LIBRARY_PATH=$1 python3 "$clients/qt_digests.py" libQt6Core.so.6; }

test_qt() {
    check "libb2.so.1" install_libb2_and_planted_copy
    needs python3
    python3 -c 'import ctypes; ctypes.CDLL("libQt6Core.so.6")' 2>/dev/null || missing=${missing:-"no libqt6core6"}
    check "Qt's hashes" command_prints_line_times 1 "6400 right, 0 wrong" qt_digests_are_right \
        "$work/shared/lib/vulfsjor-libb2"
    check "Qt's hashes with a planted byte" command_prints_line_times 1 "0 right, 6400 wrong" qt_digests_are_right \
        "$work/planted"
}

run_part_of_tests test_qt
