# What the scripts of this folder share; a script reads it by `source`. README.md says what they are.
source "$(dirname "$(readlink -f "${BASH_SOURCE[0]}")")/../../c/tests/common.sh"
source "$top/tests/sources.sh"
clients=$top/tests/clients

# A copy of a library or a program whose hashes are wrong: a bit of the first word of the IV is another, in all of its
# code. FILE COPY
copy_with_wrong_iv_bit() {
    perl -pe 's/\x67\xe6\x09\x6a/\x67\xe6\x09\x6b/g' <"$1" >"$2" && chmod --reference="$1" "$2" && ! cmp -s "$1" "$2"
}

# Whether a command says this line, as often as is wanted: COUNT LINE COMMAND..
command_prints_line_times() {
    "${@:3}" >"$work/said" || { cat "$work/said" && return 1; }
    [ "$(grep -cxE -- "$2" "$work/said")" -eq "$1" ] || { cat "$work/said" && return 1; }
}
