#!/usr/bin/env python3
"""Reads the scripts that run on a Mac, whose bash is 3.2 and whose tools are those of BSD, for what these do not know.

There is a test for each script, and one that each form is seen where it is planted.
"""
import pathlib
import re

import tap

TOP = pathlib.Path(__file__).resolve().parent.parent
SCRIPTS = ("b2", "b2sum", "Makefile", "c/install.sh", "c/make_libraries.sh", "tools/launcher.sh",
           "tools/install_programs.sh",
           "tools/dist.sh", "tools/shell.sh", "c/tests/on_a_mac.sh", ".ci/forge")
# Forms, each with a line that has it.
FORMS = (
    ("bash 4: mapfile", r"\b(mapfile|readarray)\b", "mapfile -t lines <file"),
    ("bash 4: another case", r"\$\{\w+(\[[^]]*\])?(,|\^)", 'echo "${name,,}"'),
    ("bash 4: &>> and |&", r"&>>|\|&", "make &>>log"),
    ("bash 4: kinds of variables", r"\b(declare|local|typeset) -[a-z]*[Anglu]", "declare -A table"),
    ("bash 4: whether a variable is set", r"\[\[? -v ", "[ -v name ]"),
    ("bash 4: a place from the end of an array", r"\$\{\w+\[ ?-|\w\[-\d+\]=", 'echo "${list[-1]}"'),
    ("bash 4: operators", r"\$\{\w+(\[[@*]\])?@[A-Za-z]\}|;;?&\s", 'echo "${name@Q}"'),
    ("bash 4: commands", r"\bwait -n\b|\bcoproc\b|shopt -s (globstar|lastpipe)|printf '%\(|exec \{|\bread -N",
     "wait -n"),
    ("bash 4: case in a command substitution", r"\$\(\s*case ", 'x=$(case $y in a) echo b ;; esac)'),
    ("bash 4: quotes in the replacement in quotes", r'"[^"]*\$\{\w+//?[^}"]*/"', 'echo "${text//a/"$b"}"'),
    ("GNU sed: options", r"\bsed (-[a-zE]+ )*-[a-zE]*[izsu]", "sed -i s/a/b/ file"),
    ("GNU sed: } after a command", r"\bsed\b.*[^;{\s\\$]\}'(?!\w)|\bsed\b.*;[a-z]\}|[dpq]\}[;']",
     "sed -n '/a/{s/b//;p}'"),
    ("GNU sed and grep: \\|, \\+, \\?", r"\b(sed|grep)\b[^#]*\\[|+?]", r"sed 's/a\|b//'"),
    ("GNU sed: \\t, \\n", r"\bsed\b[^$]*'[^']*\\[tn]", r"sed 's/\t//'"),
    ("GNU sed: T", r"\bsed\b.*[;/p]T[;']", "sed 's/a//;T;q'"),
    ("GNU grep", r"\bgrep\b.* -[a-zA-Z]*[Pz]\b", "grep -zP a file"),
    ("GNU find and xargs", r"\bfind\b.* -(printf|quit|newermt|regextype)\b|\bxargs (-\w+ )*-[drI]*[dr]\b",
     "find . -printf %p"),
    ("GNU: other options",
     r"\b(stat -c|date -d|touch -d|readlink -[em]|realpath|mktemp -[pt]|cp -[a-z]*T|ln -[a-z]*[rT]|"
     r"sort -[a-zA-Z]*[Vz]|head -n -|head -c -|base64 -w|install -D|tar --|mktemp --[a-z])", "stat -c %s file"),
    ("GNU: other commands", r"(?<![\w/.-])(nproc|tac|timeout|setarch)(?= )(?!\s*2>/dev/null)", "nproc >file"),
    ("sha256sum without shasum", r"(?<![\w-])sha256sum(?!.* shasum)(?!\)\")", "sha256sum file"),
)
# Functions that only Rattle's users call, on Linux.
OF_RATTLE = "write_sharing_edit|build|make|write_manifest|compare_all"
EMPTY = "bash 4: an empty array under set -u"


def numbered_code_lines(text):
    """The lines of a script that are no comments, with their numbers. A comment after code goes too."""
    for number, line in enumerate(text.split("\n"), 1):
        if not re.match(r"\s*#", line):
            yield number, re.sub(r"\s# .*", "", line)


def arrays_that_may_be_empty(text):
    """The arrays that have no element at some time: by (), by read, or by a name without a value."""
    names = re.findall(r"\b(\w+)=\(\s*\)", text) + re.findall(r"\bread -ra (\w+)(?! <<<\"\$\{CC:-cc\}\")", text)
    return {*names, *re.findall(r"\blocal [^\n]*?\b(\w+)=\(\)", text)}


def unsupported_constructs(text):
    """What a script has that an old bash or BSD's tools do not know."""
    text = re.sub(rf"(?ms)^({OF_RATTLE})\(\) \{{\n.*?^\}}$", lambda it: "\n" * it[0].count("\n"), text)
    arrays = arrays_that_may_be_empty(text)
    for number, line in numbered_code_lines(text):
        for name, form, _ in FORMS:
            if re.search(form, line):
                yield f"line {number}: {name}: {line.strip()}"
        bare = re.sub(r"\$\{(\w+)\[@\]\+\"\$\{\1\[@\]\}\"\}", "", line)
        for array in re.findall(r"\$\{(\w+)\[[@*]\][^}]*\}", bare):
            if array in arrays:
                yield f"line {number}: {EMPTY}: {line.strip()}"


def main():
    for script in SCRIPTS:
        found = list(unsupported_constructs((TOP / script).read_text(encoding="utf-8")))
        tap.result(not found, f"{script} runs with bash 3.2 and the tools of BSD", "\n".join(found))
    planted = [*((name, line) for name, _, line in FORMS), (EMPTY, 'list=()\necho "${list[@]}"'),
               (EMPTY, 'read -ra a\nb "${a[@]}"')]
    unseen = [name for name,
              line in planted if not any(name in it for it in unsupported_constructs(f"#!/bin/bash\n{line}\n"))]
    tap.result(not unseen, "each form is seen", " ".join(unseen))
    tap.finish()


main()
