#!/usr/bin/env python3
"""Runs the wrong uses of the tables in this folder that a language can say, and compares what comes of them:

    tests/misuse/run.py python                         with the package on PYTHONPATH
    tests/misuse/run.py js INDEX.js
    tests/misuse/run.py c COMPILER.. -- LINKED..       COMPILER with its options, and what is linked
    tests/misuse/run.py cpp COMPILER.. -- LINKED..
    tests/misuse/run.py rust RUSTC.. --                RUSTC with what names the crate

given.txt says what a table is. Returns 1 if a row has another outcome than its table says, and prints it."""
import collections
import glob
import hashlib
import json
import os
import re
import subprocess
import sys
import tempfile

HERE = os.path.dirname(os.path.abspath(__file__))
LANGUAGES = ("c", "cpp", "rust", "python", "js")
PLAIN = ("right", "false", "-1")
COMPILED = ("no", "warns")  # what a compiler says of a line
OUTCOME = re.compile(r"(no|warns|open|none|-?\w+)(?:: (.+))?")
LEAST = 80  # rows that each language can say
M, K = b"message", bytes(range(32))
VALUES = {"M": M, "K": K, "D": hashlib.blake2b(M).digest(), "T": hashlib.blake2b(M, key=K).digest(),
          "D32": hashlib.blake2b(M, digest_size=32).digest(), "S": hashlib.blake2s(M).digest(),
          "T15": hashlib.blake2b(M, key=K, digest_size=15).digest()}
# A row in one language, whose place is its file and line.
Row = collections.namedtuple("Row", "place name kind words code")


def read_prelude(language):
    with open(os.path.join(HERE, "given.txt"), encoding="utf-8") as file:
        lines = [text.rstrip("\n").partition(" | ") for text in file if not text.startswith("#")]
    assert all(first in LANGUAGES for first, bar, _ in lines if bar), "given.txt: an unknown language"
    return [code for first, bar, code in lines if bar and first == language]


def read_misuse_rows(path, language):
    """The rows of a language. Each row of the table must have a line for every language, in their order."""
    with open(path, encoding="utf-8") as file:
        lines = file.read().split("\n")
    found, at = [], 0
    while at < len(lines) and lines[at:] != [""]:
        name, sentence, *words = lines[at:at + 2 + len(LANGUAGES)]
        where = f"{os.path.basename(path)}:{at + 1}: {name}"
        assert re.fullmatch(r"[a-z0-9-]+", name) and re.fullmatch(r"[A-Z0-9].*[.]", sentence), where
        assert [word.split(" ")[0] for word in words] == list(LANGUAGES) and lines[at + 7] == "", where
        for number, text in enumerate(words, at + 3):
            first, outcome, *code = re.split(r" +\| ", text, maxsplit=2)
            kind, said = OUTCOME.fullmatch(outcome).groups()
            # an error without words may be that of a typo
            assert (kind == "none") == (not code) and (kind in PLAIN or len(said or "") > 3), text
            if first == language:
                found.append(Row(f"{os.path.basename(path)}:{number}", name, kind, said or "", *(code or [""])))
        at += 8
    return found


def is_expected_outcome(row, outcome):
    """Whether this is the outcome of the row, which is printed if it is not."""
    kind, _, said = outcome.partition(": ")
    wanted = "right" if row.kind == "open" else row.kind
    if kind == wanted and (row.kind == "open" or not row.words or re.search(row.words, said, re.S)):
        return True
    print(f"{row.place}: {row.name}: {row.kind}{row.words and ': '}{row.words} is expected, not {outcome[:500]}")
    return False


def comma_separated(value):
    return ", ".join(map(str, value))


def run_python(given, rows):
    names = dict(VALUES)
    exec("\n".join(given), names)
    for row in rows:
        try:
            value = eval(row.code, dict(names))
            yield row.place, ("right" if value else "false") if isinstance(value, bool) else repr(value)
        except Exception as error:
            yield row.place, f"{type(error).__name__}: {error}"


def run_js(given, rows, index):
    values = (f"const {name} = Uint8Array.of({comma_separated(value)});\n" for name, value in VALUES.items())
    asked = {"given": "".join(values) + "\n".join(given), "rows": {row.place: row.code for row in rows}}
    said = subprocess.run(["node", os.path.join(HERE, "run.mjs"), index], input=json.dumps(asked), text=True,
                          stdout=subprocess.PIPE, check=True).stdout
    yield from json.loads(said).items()


class CompiledLanguage:
    """A language with a compiler: where a line of its text comes from, and what is said of it."""

    texts = [[kind] for kind in COMPILED]

    def __init__(self, given, suffix, compiler, linked):
        self.given, self.suffix, self.compiler, self.linked = "\n".join(given) + "\n", suffix, compiler, linked

    def compile_text(self, folder, name, text, *options):
        path = os.path.join(folder, name + self.suffix)
        with open(path, "w", encoding="utf-8") as file:
            file.write(text)
        # Never a device: rustc, run by root, would put a file in its place.
        out = os.path.join(folder, name)
        return subprocess.run([*self.compiler, *options, "-o", out, path, *(() if options else self.linked)],
                              stderr=subprocess.PIPE, text=True, check=False).stderr

    def compiler_outcomes(self, folder, rows):
        """What the compiler says of rows with errors, with warnings, or with either, all in one text."""
        if not rows:
            return
        text, kind = self.program_head() + "".join(self.function(row) for row in rows), rows[0].kind
        about = self.findings_by_place(self.compile_text(folder, kind, text, *self.compile_only_flags(kind)), text)
        for row in rows:
            said = about.get((row.place, {"no": "error", "warns": "warning"}[row.kind]))
            yield row.place, f"{row.kind}: {said}" if said else "nothing is said"
        refused = {row.place for row in rows if row.kind == "no"}
        other = [said for (place, what), said in about.items() if what == "error" and place not in refused]
        assert not other, other[0]

    def findings_by_place(self, said, text):
        about, key = collections.defaultdict(str), None
        for line in said.splitlines():
            found = re.match(self.message, line)
            # g++ calls errors why a candidate is none, there or in a header of ours.
            if found and not found[1].startswith("/usr/") and "std::enable_if<false" not in line:
                key = (self.place_of_message(found[1], int(found[2]), text), found[3].split("[")[0])
            if key:
                about[key] += line + "\n"
        return about

    def run(self, folder, rows):
        said = self.compile_text(folder, "run", self.program_head() + self.main(rows))
        assert os.path.exists(os.path.join(folder, "run")), said
        printed = subprocess.run([os.path.join(folder, "run")], stdout=subprocess.PIPE, text=True, check=True).stdout
        for line in printed.splitlines():
            place, _, outcome = line.partition(" ")
            yield place, outcome

    def all_outcomes(self, rows):
        with tempfile.TemporaryDirectory() as folder:
            for kinds in self.texts:
                yield from self.compiler_outcomes(folder, [row for row in rows if row.kind in kinds])
            yield from self.run(folder, [row for row in rows if row.kind not in COMPILED])


class CLanguage(CompiledLanguage):
    looks = {"no": "-fsyntax-only", "warns": "-O2 -c"}  # without optimization gcc compares no lengths
    message = r"(.*?):(\d+):\d+: (?:fatal )?(error|warning): "
    values = "static const unsigned char {}[{}] = {{{}}};\n"
    show = r"""
static void show(const char *row, int value) {
    printf("%s %s\n", row, value == 1 ? "right" : value == -1 ? "-1" : "another value");
}
"""
    call = '    show("{0.place}",\n#line {1} "{2}"\n{0.code});\n'

    def program_head(self):
        values = "".join(self.values.format(name, len(value), comma_separated(value)) for name, value in VALUES.items())
        return '#line 1 "values"\n' + values + '#line 1 "given"\n' + self.given + '#line 1 "functions"\n'

    def function(self, row):
        name, line = row.place.split(":")
        return f'void row_{name[:-4]}{line}(void);\nvoid row_{name[:-4]}{line}(void) {{\n#line {line} "{name}"\n' \
               f'{row.code};\n}}\n'

    def place_of_message(self, file, line, _):
        return f"{file}:{line}" if re.fullmatch(r"\w+\.txt", file) else ""

    def compile_only_flags(self, kind):
        every = "-ferror-limit=0" if "clang" in self.compiler[0] else "-fmax-errors=0"
        return ["-Wall", "-Wextra", "-Wno-unused", "-Wunused-result", every, *self.looks[kind].split()]

    def main(self, rows):
        calls = "".join(self.call.format(row, row.place.split(":")[1], row.place.split(":")[0]) for row in rows)
        return self.show + "int main(void) {\n" + calls + "    return 0;\n}\n"


class CppLanguage(CLanguage):
    texts = [COMPILED]  # no row is about lengths that a compiler compares
    looks = dict.fromkeys(COMPILED, "-fsyntax-only")
    values = "const std::vector<std::uint8_t> {0}{{{2}}};\n"
    call = '    show("{0.place}", [] {{ return word_of(\n#line {1} "{2}"\n{0.code}); }});\n'
    # What throws is looked at in one function, and not in each of its instances.
    show = r"""
const char *word_of(bool value) { return value ? "right" : "false"; }
template <class T> const char *word_of(const T &) { return "a value"; }
void show(const char *row, const char *(*call)()) {
    const auto failed = [row](const char *kind, const std::exception &error) {
        std::printf("%s %s: %s\n", row, kind, error.what());
    };
    try {
        std::printf("%s %s\n", row, call());
    } catch (const std::length_error &e) { failed("length_error", e);
    } catch (const std::invalid_argument &e) { failed("invalid_argument", e);
    } catch (const std::logic_error &e) { failed("logic_error", e);
    }
}
"""

    def program_head(self):
        return "#include <cstdint>\n#include <vector>\n" + super().program_head()


class RustLanguage(CompiledLanguage):
    message = r"(.*?):(\d+):\d+: (error(?:\[\w+\])?|warning)(?:\[\w+\])?: "
    show = r"""
trait Show { fn show(self) -> String; }
impl Show for bool { fn show(self) -> String { if self { "right" } else { "false" }.to_string() } }
impl<T, E: std::fmt::Display> Show for Result<T, E> {
    fn show(self) -> String {
        let name = std::any::type_name::<E>().rsplit("::").next().unwrap();
        self.map_or_else(|error| format!("{name}: {error}"), |_| "a value".to_string())
    }
}
fn show<R: Show>(row: &str, call: impl FnOnce() -> R) {
    let said = std::panic::catch_unwind(std::panic::AssertUnwindSafe(call));
    println!("{row} {}", said.map_or("panics".to_string(), R::show));
}
"""

    def program_head(self):
        values = (f"const {name}: [u8; {len(value)}] = [{comma_separated(value)}];\n" for name, value in VALUES.items())
        allowed = "#![allow(dead_code, unused_variables, unused_mut, unused_assignments, unused_imports)]\n"
        return allowed + "".join(values) + self.given

    def function(self, row):
        return f"fn row_{re.sub('[.:]', '_', row.place)}() {{ let mut b = [0u8; 64]; {row.code}; }} // {row.place}\n"

    def place_of_message(self, _, line, text):
        return text.split("\n")[line - 1].rpartition(" // ")[2] if " // " in text.split("\n")[line - 1] else ""

    def compile_only_flags(self, kind):
        return ["--error-format=short", "--crate-type=lib", "--emit=metadata"]

    def main(self, rows):
        calls = "".join(f'    show("{row.place}", || {row.code});\n' for row in rows)
        return self.show + "fn main() {\n    std::panic::set_hook(Box::new(|_| ()));\n" + calls + "}\n"


def runner_of_language(kind, suffix):
    def run(given, rows, *words):
        at = words.index("--")
        yield from kind(given, suffix, words[:at], words[at + 1:]).all_outcomes(rows)
    return run


RUNNERS = {"c": runner_of_language(CLanguage, ".c"), "cpp": runner_of_language(CppLanguage, ".cpp"),
           "rust": runner_of_language(RustLanguage, ".rs"),
           "python": run_python, "js": run_js}


def main():
    language, *words = sys.argv[1:]
    tables = sorted(set(glob.glob(os.path.join(HERE, "*.txt"))) - {os.path.join(HERE, "given.txt")})
    every = [row for table in tables for row in read_misuse_rows(table, language)]
    assert len({row.name for row in every}) == len(every), "two rows have one name"
    rows = [row for row in every if row.kind != "none"]
    outcomes = dict(RUNNERS[language](read_prelude(language), rows, *words))
    right = [is_expected_outcome(row, outcomes.get(row.place, "nothing")) for row in rows]
    print(f"{language}: {len(every)} misuses, {len(rows)} can be said, {sum(row.kind == 'open' for row in rows)} pass "
          f"unnoticed, {right.count(False)} are not as the tables say")
    return not all(right) or len(rows) < LEAST


if __name__ == "__main__":
    sys.exit(main())
