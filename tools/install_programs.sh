#!/usr/bin/env bash
# Installs programs that are built, with their man pages and shell completions, and the man pages of the library, with a
# link for each function:
#
#   tools/install_programs.sh BUILT NAME..         those of the folder BUILT
#   tools/install_programs.sh --uninstall NAME..   removes them
#
# `make install` calls it. The folders are bindir, mandir, bashcompdir, zshcompdir and fishcompdir, or
# the usual ones of prefix, exec_prefix and datarootdir, below DESTDIR. PROGRAM_PREFIX is put before each name, in man
# pages and completions too. Nothing is installed if a file of somebody else is in the place of one, and --uninstall
# leaves it. A file is ours if it has the name Vulfsjor in it, and a program also if its man page has.
set -euo pipefail
source "$(dirname "$(readlink -f "$0")")/shell.sh"
folder=${prefix:-/usr/local} prefix=${PROGRAM_PREFIX-} root=${DESTDIR-}
share=${datarootdir:-$folder/share} bindir=${bindir:-${exec_prefix:-$folder}/bin} mandir=${mandir:-$share/man}
bashcompdir=${bashcompdir:-$share/bash-completion/completions}
zshcompdir=${zshcompdir:-$share/zsh/site-functions}
fishcompdir=${fishcompdir:-$share/fish/vendor_completions.d}
uninstall=no built=$1
[ "$1" != --uninstall ] || uninstall=yes
shift

# The files of a program, by the names under which they are installed: NAME
installed_names_of_program() {
    printf '%s\n' "$root$bindir/$prefix$1" "$root$mandir/man1/$prefix$1.1" "$root$bashcompdir/$prefix$1" \
        "$root$zshcompdir/_$prefix$1" "$root$fishcompdir/$prefix$1.fish"
}

# Whether there is nothing in this place, or a file of ours.
is_absent_or_ours() { { [ ! -e "$1" ] && [ ! -L "$1" ]; } || grep -qs Vulfsjor "$1"; }

# The text of a file, for the program's name with the prefix: FILE NAME. In a man page that are the title, the first
# words of lines, and the words in bold; in completions of the three shells, what they are for.
text_with_program_prefix() {
    sed "s/^\.TH /&$(printf '%s' "$prefix" | tr '[:lower:]' '[:upper:]')/;s/^$2 /$prefix&/
        s/\\\\fB$2\\([ \\\\]\\)/\\\\fB$prefix$2\\1/g
        s/^\\(complete .* \\)$2\$/\\1$prefix$2/;s/^complete -c /&$prefix/;1s/^#compdef /&$prefix/" "$1"
}

# What is in the place of a file: leaves a file of somebody else, and removes ours or refuses those: NAME
remove_or_keep_old_file() {
    local place page=$root$mandir/man1/$prefix$1.1
    while IFS= read -r place; do
        if is_absent_or_ours "$place" || { [ "$place" = "$root$bindir/$prefix$1" ] && grep -qs Vulfsjor "$page"; }; then
            [ "$uninstall" = no ] || rm -f -- "$place"
        elif [ "$uninstall" = no ]; then
            stop "$place is not ours: set PROGRAM_PREFIX to install by another name, such as vulfsjor-, or PROGRAMS"
        fi
    done < <(installed_names_of_program "$1")
}

for name; do remove_or_keep_old_file "$name"; done
rm -f -- "$root$mandir"/man3/vulfsjor{,_*}.3
[ "$uninstall" = no ] || exit 0
umask 022
for page in "$top"/c/man/*.3; do
    page=${page##*/}
    for name in $(sed -n '/^\.SH NAME$/{n;s/,//g;s/ \\-.*//;p;}' "$top/c/man/$page"); do
        write "$root$mandir/man3/$name.3" <<<".so man3/$page"
    done
    write "$root$mandir/man3/$page" <"$top/c/man/$page"
done
for name; do
    write "$root$bindir/$prefix$name" 755 <"$built/$name"
    write "$root$mandir/man1/$prefix$name.1" < <(text_with_program_prefix "$top/docs/$name.1" "$name")
    write "$root$bashcompdir/$prefix$name" < <(text_with_program_prefix "$top/completions/$name.bash" "$name")
    write "$root$zshcompdir/_$prefix$name" < <(text_with_program_prefix "$top/completions/_$name" "$name")
    write "$root$fishcompdir/$prefix$name.fish" < <(text_with_program_prefix "$top/completions/$name.fish" "$name")
done
