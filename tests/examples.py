#!/usr/bin/env python3
"""Compiles and runs every example of the README, the tutorial, the review and the guides for C, porting and Rust, or of
the pages that are named, and compares what it prints.

    tests/examples.py [PAGE..]

An example is a fenced block in c, cpp, rust, python, cmake or sh; js/tests/package.test.mjs runs those in JavaScript,
and python/tests/test_names.py those in Python's guide. A block in C, C++ or Rust is a whole program, in C `hello.c`, in
Rust with the dependencies of the page's block in toml, if it has one. One in cmake is a CMakeLists.txt, whose program
`hello` is run. The blocks of a page run in order, with VULFSJOR_TEST_HUGE twice, in one folder, which starts with links
to b2, b2sum, c and dist of the repository, and for the guides with `data.bin`, a file of 100,000 bytes. Those of the
README, the tutorial and the review run at the top of a fresh clone by a user of core.autocrlf, in which no page leaves
a file that git does not ignore: of the README those in sh, with no tools but READMES_TOOLS on the PATH; of the others
also those in Python, from the folder on, and with the PATH, that the block before has left. If a block in `text`
follows an example, it is what the example prints, and so is what a comment in it `prints`; a line that ends with `...`
is the beginning of a line. PATH is the repository and FOLDER the installed library.

The installed library is a copy of that in the folder VULFSJOR_INSTALLED, if that is set, as by ./test. The module for
Python is built here, and the script ends with an error if that fails. An example whose tool is absent is skipped, and
so are the later ones of its section in the tutorial and the review, which may go on with its files.
"""
import os
import pathlib
import re
import shutil
import subprocess
import sys
import tempfile

import tap

TOP = pathlib.Path(__file__).resolve().parent.parent
HUGE = os.environ.get("VULFSJOR_TEST_HUGE")
TOOLS = {"c": "cc", "cpp": "c++", "rust": "cargo", "python": "python3", "cmake": "cmake", "sh": "bash"}
PAGES = ("README.md", "docs/TUTORIAL.md", "docs/REVIEW.md", "c/README.md", "c/PORTING.md",
         "rust/README.md")
WITH_DATA = ("c/README.md", "rust/README.md")
# What a machine with a C compiler has, as far as the scripts use it.
READMES_TOOLS = ("awk bash cat chmod cut diff dirname find grep mkdir mktemp mv readlink rm sed sha256sum sh sort tail "
                 "touch tr xargs cc as ld")


def examples_of_page(text):
    """The examples of a page: for each the line, the language, the text, what it prints, or None, and its section."""
    found, last, section = [], None, 0
    for block in re.finditer(r"^#+ |^```(\w*)\n(.*?)^```$", text, re.M | re.S):
        language, inside = block[1], block[2]
        if inside is None:
            section += 1
        elif language in TOOLS:
            comments = re.findall(r'(?:#|//|/\*) prints "(.*?)"', inside)
            last = [text.count("\n", 0, block.start()) + 1, language, inside, "\n".join(comments) or None, section]
            found.append(last)
        elif language == "text" and last:
            last[3] = inside
            last = None
    return found


class ExampleRunner:
    """Runs the examples of a page in a folder, against the installed library and the module for Python."""

    def __init__(self, name, text, work, repository):
        self.name, self.repository, self.library = name, repository, work / "installed"
        self.folder = self.place = pathlib.Path(tempfile.mkdtemp(dir=work))
        self.environment = dict(os.environ, LC_ALL="C.UTF-8", CARGO_NET_OFFLINE="true",
                                PYTHONPATH=str(work / "module"), CARGO_TARGET_DIR=str(work / "target"),
                                **{} if HUGE else {"CFLAGS": "-O0"})
        dependencies = "".join(re.findall(r"(?ms)^```toml\n(.*?)^```$", text))
        self.dependencies = dependencies or '[dependencies]\nvulfsjor = { path = "PATH" }\n'
        if name in WITH_DATA:
            (self.folder / "data.bin").write_bytes(bytes(i % 251 for i in range(100_000)))
        for each in ("b2", "b2sum", "c", "dist"):
            (self.folder / each).symlink_to(repository / each)
        # One user, whose shell starts at the top of the repository.
        self.is_shell, self.start = name in ("docs/TUTORIAL.md", "docs/REVIEW.md"), self.environment["PATH"]
        if self.is_shell:
            self.environment["TMPDIR"] = str(self.folder)

    def begin_page(self):
        """Begins the page, once more with another shell."""
        if self.is_shell:
            self.place, self.environment["PATH"] = self.repository, self.start

    def fill_in_folders(self, text):
        """A block with the folders that it names."""
        return re.sub(r"\bPATH\b", str(self.repository), text.replace("FOLDER", str(self.library)))

    def call(self, *words, at=None):
        """What a program prints; it has to succeed."""
        done = subprocess.run(words, cwd=at or self.folder, env=self.environment, capture_output=True, text=True,
                              timeout=300, check=False)
        if done.returncode:
            raise RuntimeError(f"{words[0]} ended with {done.returncode}: {done.stderr.strip()[-2000:]}")
        return done.stdout

    def run_c(self, text, compiler="cc", name="hello.c", words=("-std=c99", "-D_POSIX_C_SOURCE=200809L")):
        (self.folder / name).write_text(text)
        library = self.library / "lib"
        others = [library / "libvulfsjor-threads.a"] if "vulfsjor_threads.h" in text else []
        self.call(compiler, *words, "-O1", "-Wall", "-Wextra", "-Werror", name,
                  f"-I{self.library / 'include'}", *others, library / "libvulfsjor.a", "-pthread", "-o", "example")
        return self.call("./example")

    def run_cpp(self, text):
        return self.run_c(text, "c++", "hello.cpp", ())

    def run_cmake(self, text):
        (self.folder / "CMakeLists.txt").write_text(self.fill_in_folders(text))
        build = tempfile.mkdtemp(dir=self.folder)
        self.call("cmake", "-S", ".", "-B", build, f"-DCMAKE_PREFIX_PATH={self.library}")
        self.call("cmake", "--build", build)
        return self.call(f"{build}/hello")

    def run_rust(self, text):
        crate = self.folder / "crate"
        (crate / "src").mkdir(parents=True, exist_ok=True)
        (crate / "src/main.rs").write_text(text)
        (crate / "Cargo.toml").write_text('[package]\nname = "example"\nversion = "0.0.0"\nedition = "2021"\n'
                                          f"[workspace]\n{self.fill_in_folders(self.dependencies)}")
        self.call("cargo", "build", "--quiet", at=crate)
        return self.call(f"{self.environment['CARGO_TARGET_DIR']}/debug/example")

    def run_python(self, text):
        return self.call("python3", "-c", text, at=self.place)

    def run_sh(self, text):
        words = "bash", "-euo", "pipefail", "-c"
        if self.name == "README.md":  # with few tools
            tools = self.folder / "bin"
            tools.mkdir(exist_ok=True)
            for tool in READMES_TOOLS.split():
                (tools / tool).unlink(missing_ok=True)
                (tools / tool).symlink_to(shutil.which(tool))
            return self.call("env", "-i", f"PATH={tools}", f"HOME={self.folder}", *words, text, at=self.repository)
        if not self.is_shell:
            return self.call(*words, self.fill_in_folders(text))
        state = self.folder / "state"
        printed = self.call(*words, f"{text}\nprintf '%s\\n' \"$PWD\" \"$PATH\" >'{state}'", at=self.place)
        self.place, self.environment["PATH"] = state.read_text().splitlines()
        return printed

    def error_of_example(self, language, text, wanted):
        """Runs an example, and says what is wrong: it fails, or prints other than the page says."""
        try:
            printed = getattr(self, f"run_{language}")(text)
        except (RuntimeError, subprocess.TimeoutExpired) as error:
            return str(error)
        if wanted is not None and not is_as_printed(printed, wanted):
            return f"it prints\n{printed}and not\n{wanted}"
        return ""


def fresh_clone(work):
    """A clone of the files of the repository that git does not ignore, under core.autocrlf, so that it differs from
    others if an attribute of git is missing; or the repository itself, without git."""
    if not shutil.which("git"):
        return TOP

    def call(*words):
        return subprocess.run(["git", *words], cwd=TOP, check=True, capture_output=True, text=True).stdout
    call("init", "-q", work / "origin")
    git = ("-c", "user.name=test", "-c", "user.email=test", "-c", "commit.gpgsign=false",
           f"--git-dir={work / 'origin/.git'}", f"--work-tree={TOP}")
    call(*git, "add", "-A")
    call(*git, "commit", "-q", "-m", "all files")
    call("clone", "-q", "-c", "core.autocrlf=true", work / "origin", work / "clone")
    ends = call("-C", work / "clone", "ls-files", "--eol")
    if "w/crlf" in ends or "w/mixed" in ends:
        sys.exit("examples.py: in a clone under core.autocrlf, some lines end with CR LF")
    return work / "clone"


def is_as_printed(printed, wanted):
    """Whether the output is that of the page, whose lines may end with `...`."""
    lines, wanted_lines = printed.splitlines(), wanted.splitlines()
    return len(lines) == len(wanted_lines) and all(
        line.startswith(each[:-3]) if each.endswith("...") else line == each
        for line, each in zip(lines, wanted_lines))


def command_succeeds(*words):
    return not subprocess.run(words, check=False, capture_output=True).returncode


def what_is_missing(runner, language, text, has_module):
    """What an example needs and is not here, or '': its tool, those that a block of the shell or of CMake calls, and
    for Python the built module."""
    called = {"cmake ": "cmake", "pkg-config": "pkg-config", "PkgConfig": "pkg-config", "tests/machine/": "objdump",
              ".py ": "python3"}
    needed = [TOOLS[language], *(tool for words, tool in called.items() if words in text)]
    if language == "sh" and runner.name == "README.md" or language in ("sh", "python") and runner.is_shell:
        needed.append("git")
    missing = [tool for tool in needed if not shutil.which(tool)]
    if "tests/machine/" in text and not any(shutil.which(python) and command_succeeds(python, "-c", "import z3")
                                            for python in ("python3", "/usr/bin/python3")):
        missing.append("python3-z3")
    if "dist/x86_64/" in text and os.uname().machine != "x86_64":
        missing.append("x86-64")
    if language == "python" and not has_module:
        missing.append("Python.h or cc")
    return missing[0] if missing else ""


def run_examples_of_page(page, work, repository, has_module):
    name, text = str(page.resolve().relative_to(TOP)), page.read_text(encoding="utf-8")
    runner = ExampleRunner(name, text, work, repository)
    for again in ("", ", again") if HUGE else ("",):
        runner.begin_page()
        lacks = {}  # what is missing in a section
        for line, language, block, wanted, section in examples_of_page(text):
            missing = what_is_missing(runner, language, block, has_module)
            # A page of one user goes on with the files of the blocks before.
            if runner.is_shell and section in lacks:
                missing = f"{lacks[section]}, which an earlier block needs"
            elif missing:
                lacks[section] = missing
            why = "" if missing else runner.error_of_example(language, block, wanted)
            tap.result(not why, f"{name}, line {line}{again}", why, missing and f"no {missing}")
    left = "" if repository == TOP else subprocess.run(
        ["git", "-C", repository, "status", "--porcelain"], check=True, capture_output=True, text=True).stdout
    tap.result(not left, f"{name} leaves nothing in the clone", left)


def main():
    if not shutil.which("cc"):
        tap.result(True, "the examples", skipped="no cc")
        tap.finish()
    with tempfile.TemporaryDirectory() as work:
        work = pathlib.Path(work)
        built = subprocess.run(["python3", TOP / "python/tests/support.py", work / "module"], capture_output=True,
                               text=True, check=False) if shutil.which("python3") else None
        if built and built.returncode not in (0, 77):  # 77: it cannot be built here
            sys.exit(f"examples.py: building the module for Python failed: {built.stdout.strip()[-2000:]}")
        if os.environ.get("VULFSJOR_INSTALLED"):
            # A copy: examples install into it, and other tests use the folder meanwhile.
            shutil.copytree(os.environ["VULFSJOR_INSTALLED"], work / "installed", symlinks=True)
        else:
            subprocess.run([TOP / "c/install.sh", work / "installed"], check=True, capture_output=True)
        repository = fresh_clone(work)
        for page in map(pathlib.Path, sys.argv[1:] or (TOP / page for page in PAGES)):
            run_examples_of_page(page, work, repository, bool(built) and not built.returncode)
    tap.finish()


main()
