#!/usr/bin/env bash
# Follows what crates/blake2/CALLING.md says to another repository: makes a separate repository with
# the commands of that page, with the page's callers as the crate app, and proves every crate in it.
#
# usage: tests/calling.sh
#
# Work that is kept in crates/*/out is copied along, and what is not there is proved anew. The copy
# needs about 2 GB in the folder for temporary files.
set -u
source "$(dirname "$(readlink -f "$0")")/tap.sh"
has rt || { fail "the steps of CALLING.md: the command rt is not on the PATH"; finish; }
ln -s "$top" "$work/vulfsjor"
mkdir "$work/other"
cd "$work/other" || exit 1
git init -q .

# The blocks of the page in this language, each ended by a line of three hyphens.
code_blocks_of_page() {
    awk -v fence="\`\`\`$1" \
        '$0 == "```" { if (inside) print "---"; inside = 0 }
        inside { print }
        $0 == fence { inside = 1 }' "$top/crates/blake2/CALLING.md"
}

# Makes the crate app from the page's callers that are whole files: a module for each.
make_crate_from_callers() {
    mkdir -p crates/app/src
    printf '//! The callers of the page.\n#![tactic(auto)]\n\n' >crates/app/src/lib.rt
    code_blocks_of_page rust | awk -v folder=crates/app/src '
        /^---$/ { file = ""; next }
        /^#!\[tactic\(auto\)\]$/ {
            file = folder "/caller" ++count ".rt"
            print "//! A caller." > file
            print "pub mod caller" count ";" >> (folder "/lib.rt")
            next
        }
        file != "" { print > file }'
}

code_blocks_of_page sh | grep -v '^---$' >../recipe.sh
check "the commands of the page" bash -eu ../recipe.sh
make_crate_from_callers
check "rt all check" rt all check
finish
