# What the scripts of tests share; a script reads it by `source`, and so gets what tools/shell.sh has. The functions
# print the Test Anything Protocol, which `prove` reads.
source "$(dirname "$(dirname "$(readlink -f "${BASH_SOURCE[0]}")")")/tools/shell.sh"
name=b2 source "$top/tools/launcher.sh"
ended=0 failed=0

# The tests call tools with options of GNU's, which those of BusyBox and BSD do not have. Without GNU's the script ends,
# as a skipped part.
missing=
for package in touch:coreutils find:findutils diff:diffutils grep:grep sed:sed tar:tar; do
    [[ $("${package%:*}" --version 2>&1) == *"(GNU "* ]] || missing+="${missing:+, }no GNU ${package#*:}"
done
# Later why the next tests can't be made: `check` skips them.
[ -z "$missing" ] || { echo "1..0 # SKIP $missing" && exit; }

# The files that show, besides what a failed test printed, why it failed.
shown=()

# Prints the line of the next test: RESULT NAME [WHY IT IS SKIPPED]
result() {
    [ "$ended" -gt 0 ] || echo "TAP version 13"
    ended=$((ended + 1))
    echo "$1 $ended - ${2//#/\\#}${3:+ # SKIP $3}"
}

pass() { result ok "$1"; }

# A test that can't be made here: NAME WHY.
skip() { result ok "$1" "$2"; }

# A failed test of this name, with the end of these files.
fail() {
    result "not ok" "$1"
    failed=$((failed + 1))
    [ $# -eq 1 ] || tail -n 40 "${@:2}" 2>&1 | sed 's/^/#     /'
}

# Runs the command in a subshell, as a test of this name: with VULFSJOR_TEST_ONLY, if the name matches that.
check() {
    [[ $1 =~ ${VULFSJOR_TEST_ONLY-} ]] || { skip "$1" "VULFSJOR_TEST_ONLY is another" && return; }
    [ -z "$missing" ] || { skip "$1" "$missing" && return 1; }
    if ("${@:2}") >"$work/log" 2>&1; then
        pass "$1"
    else
        fail "$1" "$work/log" ${shown[@]+"${shown[@]}"}
        return 1
    fi
}

# Runs a program, and ends it if it takes too long, even on a slow machine.
in_time() {
    if has timeout; then
        timeout -k 9 "${longest:-$([ -n "${VULFSJOR_TEST_HUGE-}" ] && echo 3600 || echo 900)}" "$@"
    else
        "$@"
    fi
}

# Prints the plan and ends the script, with status 1 if a test failed.
finish() {
    [ "$ended" -gt 0 ] || echo "TAP version 13"
    echo "1..$ended"
    exit $((failed > 0))
}

# Says which programs the next tests need: those that `check` runs are skipped if one is absent. A
# script may set `missing` to another reason.
needs() {
    local tool
    missing=
    for tool; do has "$tool" || missing+="${missing:+, }no $tool"; done
}

# Whether there is this compiler, with its C library, which Debian's compilers for other processors
# only recommend.
has_compiler() { has "$1" && "$1" -E -include stdlib.h -x c /dev/null >/dev/null 2>&1; }

# As `check`, for a test that takes long and rarely fails alone: only if VULFSJOR_TEST_HUGE is set.
check_huge() {
    if [ -n "${VULFSJOR_TEST_HUGE-}" ]; then
        check "$@"
    else
        skip "$1" "VULFSJOR_TEST_HUGE is not set"
    fi
}

# Of these words all if VULFSJOR_TEST_HUGE is set, and else the first, which stands for the others.
some() { if [ -n "${VULFSJOR_TEST_HUGE-}" ]; then echo "$@"; else echo "$1"; fi; }

# A repository in this folder with the files of this one as they are, which may be no repository, except those that git
# ignores and those of a pattern: FOLDER [PATTERN]
make_repository() {
    git init -q "$1" && (cd "$top" && git --git-dir="$1/.git" --work-tree=. ls-files -z --others --exclude-standard |
        grep -vzE "${2:-^\$}" | tar --null --ignore-failed-read -T - -cf -) | tar -C "$1" -xf - &&
        git -C "$1" config user.name test && git -C "$1" config user.email test &&
        git -C "$1" add -A && git -C "$1" commit -q -m "All files"
}

# The functions of the headers for C, except those for other languages and for themselves.
functions_of_headers() {
    sed -nE 's/^(VULF\S+ )*(static inline )?(const )?[a-z]\w+ \*?(vulfsjor_\w+)\(.*/\4/p' \
        "$top"/c/include/vulfsjor{,_threads}.h |
        grep -vxE 'vulfsjor_(ffi_.*|text|bytes|is_half_key|are_refused|leaf|digit|library_(version|build))'
}

# The first block of a page in this language: PAGE LANGUAGE.
block_of() { sed -n "/^\`\`\`$2\$/,/^\`\`\`\$/{/^\`\`\`\$/q;/^\`\`\`/d;p}" "$top/$1"; }

# Writes a file for the compiler with the macros of dist/ and these of its texts, by the name of the first, and
# prints its path.
with_macros() {
    local file
    file=$work/macros/$(basename "${1%.s}").S
    mkdir -p "$work/macros" && printf '#include "%s"\n' "$top/dist/macros.h" $(readlink -f "$@") >"$file" &&
        echo "$file"
}

# Assembles a program of dist/, once, and links it with what it is linked with by tools/launcher.sh:
# FILE PROGRAM [ARGUMENTS FOR THE COMPILER..]
assemble() {
    local object=$work/macros/${1##*/}.o format=elf words=() name
    name=$(basename "$1" .s)
    add_compiler_words "$1"
    [ -e "$object" ] || cc -c "$(with_macros "$1" "${1%/*}"/vulfsjor*.s)" -o "$object" || return
    cc -O2 -fno-lto -o "$2" "${words[@]}" "$object" -Wl,--gc-sections "${@:3}"
}

# The program of dist/ as a file in `work`: b2, or NAME. If it calls another build of the library here than
# that for x86-64-v2, also NAME-v2 and so on, which call an older build. ./test has made them in the
# folder VULFSJOR_PROGRAMS.
assemble_all() {
    local name=${1:-b2} level newest
    if [ -n "${VULFSJOR_PROGRAMS-}" ]; then
        find "$VULFSJOR_PROGRAMS" \( -name "$name" -o -name "$name-v?" \) -exec cp {} "$work/" \; && return
    fi
    newest=$("$top/tests/processor.sh")
    [ "$newest" != aarch64 ] || { assemble "$top/dist/aarch64/$name.s" "$work/$name"; return; }
    assemble "$top/dist/x86_64/$name.s" "$work/$name" || return
    for level in $(seq 2 $((${newest#x86-64-v} - 1))); do
        assemble "$top/dist/x86_64/$name.s" "$work/$name-v$level" "-DCHOOSE_TEST=$level" || return
    done
}

# The lines of b2sum for these files, by hashlib.
sums_by_hashlib() {
    python3 -c 'import hashlib, sys
for name in sys.argv[1:]:
    print(hashlib.blake2b(open(name, "rb").read()).hexdigest(), "", name)' "$@"
}

# The same with the roots of trees with leaves of a number of bytes: LEAF FILE.. A file may be `-`.
roots_by_hashlib() {
    PYTHONPATH=$top/tests python3 -c 'import sys
from oracle import tree_root
for name in sys.argv[2:]:
    with open("/dev/stdin" if name == "-" else name, "rb") as file:
        print(tree_root(file.read(), int(sys.argv[1]), 64).hex(), "", name)' "$@"
}
