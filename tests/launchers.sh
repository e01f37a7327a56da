#!/usr/bin/env bash
# Checks when and of what the scripts `b2` and `b2sum` build a program, in a small separate
# repository and with a compiler that notes its arguments and makes a script. Then checks the
# completions. tests/b2_program.py and tests/compare_coreutils.py run the real programs.
set -u
source "$(dirname "$(readlink -f "$0")")/tap.sh"
shown=("$work/output" "$work/errors")

repository=$work/a\ repository
machine=$(uname -m) program=$repository/out/b2-$machine sums=$repository/out/b2sum-$machine
mkdir -p "$repository"/{tools,c/include} "$work/bin"
cp "$top/b2" "$top/b2sum" "$repository/"
cp "$top/tools/launcher.sh" "$repository/tools/"
(cd "$top" && find c/*.c c/system.h c/include/*.h dist/MANIFEST) | while read -r file; do
    mkdir -p "$repository/${file%/*}" && echo "$file" >"$repository/$file"
done
(cd "$top" && ls dist/*/*.{s,inc}) | while read -r file; do
    mkdir -p "$repository/${file%/*}"
    { echo "/* $file */" && grep $'^\tvj_\\(call\\|export\\)' "$top/$file"; } >"$repository/$file"
done
printf '#!/bin/sh\n[ "$*" = current ] && [ ! -e "%s/stale" ] || { echo stale >&2 && exit 1; }\n' "$work" \
    >"$repository/tools/dist.sh"
cat >"$work/bin/for" <<END
#!/bin/bash
cd "$work" && echo "\$*" >>calls
[ "\${@: -1}" != -dumpmachine ] || { echo "\$1" && exit; }
[ ! -e refuse ] || { echo "for: refused" >&2 && exit 1; }
[ ! -e edit ] || touch "a repository/c/b2.c"
for file; do [[ \$file != *.s ]] || cat "\$file"; done >assembly
while [ "\$1" != -o ]; do shift; done
printf '#!/bin/sh\nprintf "<%%s>" "\$@" "\$\$"; IFS= read -r line; echo "\$line"; exit 7\n' >"\$2"
END
chmod 755 "$work" "$repository/tools/dist.sh" "$work/bin/for"
cd "$repository" || exit

# Runs a command over an input, with these variables before it. `calls` has those of the compiler.
run_with_variables() {
    rm -f "$work/calls"
    echo in | env PATH="$work/bin:$PATH" CC="for $machine-linux-gnu" "$@" >"$work/output" 2>"$work/errors"
    status=$?
}
# The status, the output without the number of the process, and the number of builds.
run_ended_with() {
    local builds
    builds=$(grep -cs -- ' -o ' "$work/calls")
    [ "$status,$(sed 's/<[0-9]*>in$/in/' "$work/output"),$builds" = "$1,$2,${3-}" ]
}
error_output_has() { grep -qF -- "$1" "$work/errors"; }
run_built_program() {
    run_ended_with 7 "<sum>in" 1 && error_output_has "b2: built $1" && [ "$(ls "${1%/*}")" = "b2-$machine" ]
}
# Another run, which needs no other command, prints this, and builds and says nothing.
next_run_prints_only() {
    run_with_variables PATH="$work" "${@:2}"
    run_ended_with 7 "$1in" && [ ! -s "$work/errors" ]
}
run_stopped_with_message() {
    [ "$status" -eq 1 ] && [ ! -s "$work/output" ] && error_output_has "$1" &&
        [ -z "$(ls "$repository/out" 2>/dev/null)" ]
}
b2() { run_with_variables "$repository/b2" "$@"; }
# The files that the compiler got in the last build.
texts_given_to_compiler() { sed -n 's|^/\* \(.*\) \*/|\1|p' "$work/assembly"; }
files_given_to_compiler() { texts_given_to_compiler && grep -o 'c/[a-z0-9_]*\.c\b' "$work/calls"; }

b2 sum
check "the first run builds the program and runs it" run_built_program "$program"
own=(b2 tools/launcher.sh dist/MANIFEST dist/*/{elf,macho,coff}.inc c/include/vulfsjor.h $(files_given_to_compiler))
# Of these four stand for the others, except in the full test.
[ -n "${VULFSJOR_TEST_HUGE-}" ] || own=(b2 tools/launcher.sh dist/MANIFEST "$(files_given_to_compiler | tail -n 1)")
check "without writable addresses of functions" grep -q -- '-Wl,-z,relro -Wl,-z,now' "$work/calls"
check "the next run does not" next_run_prints_only "<sum><two words><><*>" "$BASH" "$repository/b2" sum "two words" "" \
    "*"
program_replaces_script_process() {
    "$repository/b2" <<<"" >"$work/output" &
    wait $!
    [ "$(cat "$work/output")" = "<$!>" ]
}
check "it is the process that the script was" program_replaces_script_process
ln -s "$repository/b2" "$work/linked" && ln -s "$repository/b2sum" "$work/linked sum"
run_with_variables "$work/linked" sum
check "a link to the script is the script" run_ended_with 7 "<sum>in"
check "so is its name in its folder" next_run_prints_only "<sum>" "$BASH" b2 sum
for file in "${own[@]}"; do
    touch -d '+9 seconds' "$file" && b2 sum
    check "after a change of $file it is built again" run_built_program "$program"
    touch -d '-9 seconds' "$file"
done
b2 sum
touch -d '+9 seconds' dist b2sum dist/*/b2sum* c/{b2sum,threads}.c c/system.h
check "after another change it is not" next_run_prints_only "<sum>" "$BASH" "$repository/b2" sum
touch -d '-9 seconds' b2sum dist/*/b2sum* c/{b2sum,threads}.c c/system.h
for file in "${own[@]}"; do
    [ "$file" != dist/MANIFEST ] || continue
    cp -p "$file" "$work/kept" && touch -d '2001-01-01' "$file" && b2 sum
    check "if $file is another one, and older, it is built again" run_built_program "$program"
    cp -p "$work/kept" "$file"
done
b2 sum && cp -p dist/MANIFEST "$work/kept" && echo more >>dist/MANIFEST && touch -r "$work/kept" dist/MANIFEST && b2 sum
check "if MANIFEST is another one of the same time it is built again" run_built_program "$program"
touch "$work/stale" && touch -d '2001-01-01' c/b2.c && b2 sum
check "and not run if dist/ is not as it says" run_ended_with 1 "" 0
rm "$work/stale" && b2 sum
touch "$work/edit" && rm "$program" && b2 sum && rm "$work/edit"
b2 sum
check "after a change during the build it is built again" run_built_program "$program"
touch -r "$program" c/b2.c && b2 sum
check "a program as old as one of its sources is built again" run_built_program "$program"

# The other script, which shares all but the names of its files.
run_with_variables "$work/linked sum" "two words" --help
check "b2sum builds the other program, and passes on all arguments" run_ended_with 7 "<two words><--help>in" 1
check "and says so" error_output_has "b2sum: built $sums"
check "with the threads of glibc before 2.34" grep -q -- ' -pthread ' "$work/calls"
for file in $(some b2sum c/system.h c/include/vulfsjor_threads.h $(files_given_to_compiler)); do
    touch -d '+9 seconds' "$file" && run_with_variables "$repository/b2sum" a
    check "after a change of $file it is built again" run_ended_with 7 "<a>in" 1
    touch -d '-9 seconds' "$file"
done
run_with_variables "$repository/b2sum" a
run_with_variables "$repository/b2sum" --build "$work/sum of files"
check "b2sum --build builds it as that file" [ -x "$work/sum of files" ]
cp "$BASH" "$sums" && run_with_variables "$work/linked sum" --nothing
check "the program has the name of the script, or of a link to it" error_output_has "linked sum: --nothing: "
rm "$program" "$sums"

# What stops a build, and what is assembled for other machines.
touch "$work/stale" && b2 sum && rm "$work/stale"
check "a dist/ from other sources is refused" run_stopped_with_message stale
touch "$work/refuse" && b2 sum && rm "$work/refuse"
check "a compiler that fails stops it" run_stopped_with_message "for: refused"
while IFS=: read -r compiler sentence; do
    run_with_variables CC="$compiler" "$repository/b2" sum
    check "the compiler '$compiler' is refused" run_stopped_with_message "b2: $sentence"
done <<'END'
none -O2:a C compiler is needed: cc (Debian: gcc and libc6-dev), or the one that CC names
 :a C compiler is needed
for x86_64-linux-gnux32:there is no build for x86_64-linux-gnux32
for aarch64-linux-gnu_ilp32:there is no build for aarch64
for x86_64-freebsd:there is no build for x86_64-freebsd
for riscv64-linux-gnu:there is no build for riscv64-linux-gnu
for i686-w64-mingw32:there is no build for i686-w64-mingw32
for sparc-linux-gnu:there is no build for sparc-linux-gnu
END
other=aarch64 && [ "$machine" = x86_64 ] || other=x86_64
run_with_variables CC="for $other-linux-gnu" "$repository/b2" sum
check "a program for another machine is not run" \
    run_stopped_with_message "b2: CC compiles for $other-linux-gnu, and this machine is $machine"
for machine_of in x86_64-w64-mingw32:coff x86_64-w64-windows-gnu:coff aarch64-w64-mingw32:coff \
    x86_64-apple-darwin23.1.0:macho arm64-apple-darwin23.1.0:macho aarch64-linux-gnu:elf; do
    folder=${machine_of%%-*} folder=dist/${folder/arm64/aarch64}
    for name in b2 b2sum; do
        run_with_variables CC="for ${machine_of%:*} -O3" "$repository/$name" --build "$work/other"
        check "the files of $name for $machine_of" diff <(texts_given_to_compiler) \
            <(printf '%s\n' $folder/{${machine_of#*:}.inc,$name.s,vulfsjor*.s})
    done
done

# A repository that cannot be written, not even by root.
rm -rf out && chmod a-w . && chmod 777 "$work"
user=() && [ "$(id -u)" -ne 0 ] || user=(setpriv --reuid=65534 --regid=65534 --clear-groups)
for cache in "$work/cache" relative; do
    folder=${cache/#relative/$work/home/.cache}/vulfsjor$repository
    call=(XDG_CACHE_HOME="$cache" HOME="$work/home" "${user[@]}" "$repository/b2" sum)
    run_with_variables "${call[@]}"
    check "the program is in a cache for this clone" run_built_program "$folder/b2-$machine"
    check "and a line says why" error_output_has "b2: $repository/out cannot be written: trying $folder"
    run_with_variables "${call[@]}"
    check "and stays there" run_ended_with 7 "<sum>in"
done
run_with_variables XDG_CACHE_HOME="$work/cache" HOME="$work/home" "${user[@]}" "$repository/b2sum" a
check "b2sum is built next to b2" error_output_has "b2sum: built $work/cache/vulfsjor$repository/b2sum-$machine"
for cache in "" "$repository"; do
    run_with_variables XDG_CACHE_HOME="$cache" HOME= "${user[@]}" "$repository/b2" sum
    check "or the variable to set is named" run_stopped_with_message "b2: $repository/out cannot be written: set XDG_"
    check "and no folder that is not there" eval '! error_output_has /dev/null'
done
chmod u+w . && touch out
run_with_variables XDG_CACHE_HOME="$work/third" "$repository/b2" sum
check "if out is a file it is in the cache too" run_built_program "$work/third/vulfsjor$repository/b2-$machine"
run_with_variables XDG_CACHE_HOME= HOME= "$repository/b2" sum
check "nothing is written elsewhere in the clone" error_output_has "b2: $repository/out cannot be written"

# The completions: what bash and fish offer for a line of a program, bash after the options of compopt, and zsh for one
# of b2, or of b2sum after an option: PROGRAM WORDS..
bash_completions() {
    bash --norc -c 'source "$0/completions/$1.bash"; compopt() { echo "$*"; }
        COMP_WORDS=("$@") COMP_CWORD=$(($# - 1)); _$1; printf "%s\n" "${COMPREPLY[@]}"' "$top" "$@"
}
fish_completions() {
    fish --no-config -c 'source "$argv[1]/completions/$argv[2].fish"; complete -C "$argv[2..]"' "$top" "$@" | cut -f 1
}
zsh_completions() {
    [ "$1" = b2 ] || { zsh_values_of_option "$2" && return; }
    zsh -fc 'compadd() { [[ $1 != -- ]] || shift; print -rl -- ${@:#-S} }; words=("$@") CURRENT=$# file=$0
        complete_b2() { source "$file" }; complete_b2' "$top/completions/_b2" "$@" | grep -e "^${!#}."
}
# What zsh gets for each word of b2sum.
zsh_b2sum_arguments() {
    zsh -fc '_arguments() { print -rl -- "$@" }; source "$0"' "$top/completions/_b2sum"
}
# What it offers there after this option, or for a file.
zsh_values_of_option() {
    local spec equals="="
    [[ $1 == --* ]] || equals=
    spec=$(zsh_b2sum_arguments | sed -nE "s/^(\(.*\)|\*)?$1$equals\[[^]]*\]//p")
    sed 's/.*://;s/_files/file/;s/_directories//;s/[()]//g;s/ /\n/g' <<<"${spec:-$(zsh_b2sum_arguments | grep '^\*:')}"
}
# In a folder with one file.
completions_are_expected() {
    local shell=$1 line words
    mkdir -p "$work/folder" && cd "$work/folder" && touch file || return 1
    while IFS=: read -r line words; do
        read -ra line <<<"$line"
        [ "${line[-1]}" != . ] || line[-1]=""
        diff <("${shell}_completions" "${line[@]}" | sed '/^$/d;/^-o /d' | sort) \
            <(printf '%s\n' $words | sed '/^$/d' | sort) || return
    done <<'END'
b2 .:sum script steps witness tree leaves root xof derive --help --version
b2 st:steps
b2 script .:b128 b256 b512 s128 s256
b2 sum s:s128 s256
b2 steps b1:b128
b2 witness .:b128 b256 b512 s128 s256 b0 b8 s0 s8
b2 witness b8 .:
b2 tree .:b128 b256 b512
b2 tree b512 .:
b2 tree b512 4096 .:salt= persona= persona-text=
b2 leaves .:
b2 leaves 4096 .:
b2 leaves 4096 0 .:more last
b2 leaves 4096 0 l:last
b2 leaves 4096 0 last .:salt= persona= persona-text=
b2 root .:b128 b256 b512
b2 root b256 .:
b2 root b256 4096 .:salt= persona= persona-text=
b2 script s256 .:key= salt= persona= persona-text=
b2 xof .:xb xs
b2 xof xb .:
b2 xof xb 8 .:raw key= salt= persona= persona-text=
b2 xof xb 8 raw .:key= salt= persona= persona-text=
b2 xof xb 8 r:raw
b2 derive .:
b2 derive 8 .:
b2 derive 8 context .:raw
b2 derive 8 context raw .:
b2 sum b512 salt=00 p:persona= persona-text=
b2 steps b512 k:key=
b2 other .:
b2sum -a .:blake2b blake2s blake2bp blake2sp
b2sum --algorithm .:blake2b blake2s blake2bp blake2sp
b2sum -l .:128 160 224 256 384 512
b2sum --length .:128 160 224 256 384 512
b2sum --tree .:65536
b2sum --threads .:
b2sum --personal .:
b2sum --personal-text .:
b2sum --salt .:
b2sum --derive-key .:
b2sum --expect .:
b2sum --recursive .:
b2sum --key-file .:file
b2sum --check .:file
b2sum .:file
END
}
# The options that a shell offers: bash only long ones.
options_offered_by_shell() {
    case $1 in
        bash) bash_completions b2sum -- ;;
        zsh) zsh_b2sum_arguments |
            sed -nE 's/^(\((-.) (--[a-z-]+)\)(\2|\3)|\*?(--[a-z-]+))=?\[[^]]*\].*/\4\5/p' ;;
        fish) fish_completions b2sum - ;;
    esac | sort
}
# Whether they are those of the manual.
offered_options_match_manual() {
    diff <(options_offered_by_shell "$1") <(sed -n '/^| `-/s/ | .*//p' "$top/docs/B2SUM.md" |
        grep -oE -e "--$([ "$1" = bash ] || echo '?')[a-z-]+" | sort -u)
}
# Lines that bash cuts into words at =, and the commands whose completions these are.
bash_splits_words_at_equals() {
    diff <(bash_completions b2sum --algorithm = blake2bp && bash_completions b2sum --tree = &&
        bash_completions b2sum a --z) <(printf '%s\n' blake2bp 65536 --zero) &&
        diff <(bash_completions b2sum --algorithm = blake2s -l 5 && bash_completions b2sum -a blake2sp -l 3 &&
            bash_completions b2sum -ablake2s -l 25 && bash_completions b2sum -a blake2bp --length = 5) \
            <(printf '%s\n' "" "" 256 512) &&
        cd "$work/folder" && touch "a file" &&
        [ "$(bash_completions b2sum "a f")" = $'-o filenames\na file' ] && mkdir -p "a folder" &&
        [ "$(bash_completions b2sum --recursive a)" = $'-o filenames\na folder' ] &&
        bash --norc -c 'for name; do source "$0/completions/$name.bash"; done; complete -p "$@"' "$top" b2 b2sum |
        diff - <(printf 'complete -F _%s\n' 'b2 b2' 'b2sum b2sum') &&
        [ "$(grep -cxE '#compdef b2sum|_arguments -s \\' "$top/completions/_b2sum")" -eq 2 ]
}

cd "$top" && for shell in bash zsh fish; do
    needs $shell
    check "what $shell completes" completions_are_expected $shell
    check "which options of b2sum $shell completes" offered_options_match_manual $shell
done
needs bash
check "which words of b2sum bash completes" bash_splits_words_at_equals
finish
