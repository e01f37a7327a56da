"""Tests of build_package.py and of what it builds: the module, a source distribution, a wheel, and
the module for 64-bit ARM and on processors that qemu emulates."""
import base64
import contextlib
import email
import glob
import hashlib
import io
import os
import pathlib
import platform
import re
import runpy
import shutil
import sys
import sysconfig
import tarfile
import tempfile
import tomllib
import unittest
from unittest import mock
import zipfile

import support
from support import FOLDER, HERE, TOP, why_absent, why_cannot_compile, long, run

support.skip_unless_in_clone()
MODULE = os.path.join(FOLDER, "vulfsjor", "_library.abi3.so")
PACKAGE = {"__init__.py", "_files.py", "_library.abi3.so", "_library.pyi", "py.typed"}
X86 = platform.machine() == "x86_64"
NO_ARM = why_cannot_compile("aarch64-linux-gnu-gcc")
VERSION = re.search(r"(?m)^## ([0-9.]+)", pathlib.Path(TOP, "CHANGELOG.md").read_text(encoding="utf-8"))[1]
ABOUT = f"vulfsjor-{VERSION}.dist-info"
# Where the files of a source distribution come from.
FOLDERS = ("c/include/", "c/", "dist/", "")
# A compiler that writes to the file that it should make what a command prints.
FAKE = """#!/bin/sh
for word; do [ "$last" = -o ] && made=$word; last=$word; done
{} >"$made"
"""


class Test(support.Test):
    """A test that runs programs."""

    def output_of_success(self, *words, **named):
        """Runs a program, whose status is 0, and returns what it prints."""
        done = run(*words, **named)
        self.assertEqual(done.returncode, 0, done.stdout)
        return done.stdout

    def assert_package_is_as_hashlib(self, folder, *prefix):
        """The package in a folder returns what hashlib does."""
        self.output_of_success(*prefix, sys.executable, "-m", "unittest", "test_against_hashlib", cwd=HERE,
                               env={**os.environ, "VULFSJOR_PACKAGE": folder})


@unittest.skipIf(why_absent(tools=["nm", "objdump"]), "no nm and objdump")
class ModuleSymbolsTest(Test):
    """The module, as other programs see it."""

    def test_module_exports_no_library_name(self):
        shown = self.output_of_success("nm", "-D", "--defined-only", MODULE).split()
        self.assertEqual(shown[2:], ["PyInit__library"])

    def test_oldest_glibc_is_that_of_readme(self):
        """That of the README, on x86-64."""
        versions = re.findall(r"\(GLIBC_2\.([0-9.]+)\)", self.output_of_success("objdump", "-T", MODULE))
        newest = max(tuple(map(int, version.split("."))) for version in versions)
        self.assertLessEqual(newest, (14,) if X86 else (17,))


class BuildTest(Test):
    """build_package.py, in copies of the repository."""

    def setUp(self):
        if support.why_cannot_build():
            self.skipTest(support.why_cannot_build())

    def copy_sources(self, name, *more):
        """The folder of the package in a new copy of the sources, and of more folders."""
        folder = os.path.join(self.folder, name)
        for part in ("c", "dist", "python", *more):
            shutil.copytree(os.path.join(TOP, part), os.path.join(folder, part),
                            ignore=shutil.ignore_patterns("__pycache__", "*.so"))
        return os.path.join(folder, "python")

    def build(self, call, folder, environment, prefix):
        """Runs the program that makes a wheel or a source distribution in self.folder, in this process, with lines of
        Python before it. What it prints, and why it ends, or None."""
        path = os.path.join(folder, "build_package.py")
        with contextlib.ExitStack() as changed:
            changed.enter_context(mock.patch.dict(os.environ, environment))
            changed.enter_context(mock.patch.object(sys, "argv", [path, call, self.folder]))
            for owner, name in ((sys, "version_info"), (sys, "maxsize"), (sysconfig, "get_path"),
                                (sysconfig, "get_config_var")):
                changed.enter_context(mock.patch.object(owner, name, getattr(owner, name)))
            printed = changed.enter_context(contextlib.redirect_stdout(io.StringIO()))
            exec(prefix, {"sys": sys, "sysconfig": sysconfig})
            try:
                runpy.run_path(path, run_name="__main__")
            except SystemExit as end:
                return printed.getvalue(), end.code
            return printed.getvalue(), None

    def build_archive(self, call="wheel", folder=os.path.join(TOP, "python"), prefix="", **environment):
        """The path of a new wheel or source distribution."""
        printed, why = self.build(call, folder, environment, prefix)
        self.assertIsNone(why)
        return os.path.join(self.folder, printed.splitlines()[-1])

    def wheel(self, module="_library.abi3.so", **words):
        """The name of a new wheel, its files by their names, and what the fake compiler has written."""
        path = self.build_archive(**words)
        with zipfile.ZipFile(path) as wheel:
            found = {name: wheel.read(name) for name in wheel.namelist()}
        return os.path.basename(path), found, found[f"vulfsjor/{module}"].decode()

    def why_refused(self, folder=os.path.join(TOP, "python"), prefix="", **environment):
        """Why a build is refused, with lines of Python before it. It prints nothing else."""
        printed, why = self.build("wheel", folder, environment, prefix)
        self.assertEqual((printed, type(why)), ("", str), why)
        return why

    def fake_compiler(self, name="fake compiler", printing="""printf '%s\\n' "$@\""""):
        """The path of a compiler that writes its words, or what another command prints."""
        path = os.path.join(self.folder, name)
        with open(path, "w", encoding="utf-8", opener=lambda *at: os.open(*at, 0o755)) as file:
            file.write(FAKE.format(printing))
        return path

    def test_portable_module_works(self):
        """A module of portable C works."""
        with zipfile.ZipFile(self.build_archive(VULFSJOR_PORTABLE="1", CFLAGS="-O0")) as wheel:
            wheel.extractall(os.path.join(self.folder, "portable"))
        code = "import vulfsjor; print(vulfsjor.blake2b(b'abc', key=b'k').hexdigest())"
        has_emulator = X86 and not why_absent(tools=["qemu-x86_64"])
        self.assertEqual(self.output_of_success(*["qemu-x86_64", "-cpu", "core2duo"] * has_emulator, sys.executable,
                                                "-S", "-c", code, cwd=os.path.join(self.folder, "portable")).strip(),
                         hashlib.blake2b(b"abc", key=b"k").hexdigest())

    def test_errors_name_what_is_missing(self):
        none = "there is no C compiler{}: install GCC{}, or set CC"
        for said, environment in (
                (none.format("", " or Clang"), {"PATH": ""}),
                (none.format(" absent -x", " or Clang"), {"CC": "absent -x"}),
                (none.format("", " of MinGW-w64"), {"PATH": "", "_PYTHON_HOST_PLATFORM": "win-amd64"}),
                ("MSVC cannot assemble the code of vulfsjor: set CC to the GCC of MinGW-w64",
                 {"CC": self.fake_compiler("CL.exe"), "_PYTHON_HOST_PLATFORM": "win-amd64"}),
                *(("vulfsjor is assembly for Linux, macOS and Windows on x86-64 and on 64-bit ARM, and has none for "
                   f"{name}", {"_PYTHON_HOST_PLATFORM": name})
                  for name in ("macosx-11.0-universal2", "win32", "win-arm32")),
                ("the compiler failed", {"CC": "false"}),
                ("the compiler failed: Python.h is missing; install the headers, such as Debian's python3-dev",
                 {"CC": "false", "prefix": "sysconfig.get_path = lambda name: '/absent'"}),
                ("vulfsjor needs CPython 3.11 or later", {"prefix": "sys.version_info = (3, 10, 9)"})):
            self.assertEqual(self.why_refused(**environment), f"build_package.py: {said}")
        for arguments in (["wheel"], ["egg", self.folder], ["wheel", self.folder, "more"]):
            self.assertEqual(self.why_refused(prefix=f"sys.argv[1:] = {arguments}"),
                             "usage: build_package.py wheel|sdist FOLDER")

    def test_compiler_is_cc_of_python_or_gcc(self):
        """That of this Python, or cc, or gcc, if CC is not set. Each is removed once it was used."""
        folder = tempfile.mkdtemp(dir=self.folder)
        names = ("own", "cc", "gcc")
        for name in names:
            self.fake_compiler(os.path.join(folder, name), f"echo {name}")
        for name in names:
            *_, said = self.wheel(CC="", PATH=folder, prefix="sysconfig.get_config_var = {'CC': 'own -x'}.get")
            self.assertEqual(said, f"{name}\n")
            os.remove(os.path.join(folder, name))

    def test_wheel_without_gil_is_per_version(self):
        """Its module and its wheel are for one version, which the name of the wheel has."""
        name, files, said = self.wheel(
            "_library.own.so", CC=f"'{self.fake_compiler()}'", VULFSJOR_WHEEL_PLATFORM="a-platform.5",
            prefix="sysconfig.get_config_var = {'Py_GIL_DISABLED': 1, 'EXT_SUFFIX': '.own.so'}.get")
        version = f"cp3{sys.version_info.minor}"
        self.assertEqual(name, f"vulfsjor-{VERSION}-{version}-{version}t-a_platform_5.whl")
        self.assertIn(f"\nTag: {version}-{version}t-a_platform_5\n", files[f"{ABOUT}/WHEEL"].decode())
        self.assertIn("\n-DPy_GIL_DISABLED=1\n", said)

    def test_compiler_words_of_each_platform(self):
        """Those that the compiler gets, and the name of the wheel. It is portable C where there is no assembly, and if
        that is asked for."""
        linux, windows = "-fPIC -shared -pthread -Wl,--gc-sections -Wl,-z,relro,-z,now", \
            f"-shared -L{sys.base_prefix}/libs -L{sys.base_prefix}/lib"
        mac = "-bundle -undefined dynamic_lookup -Wl,-dead_strip -arch {} -mmacosx-version-min={}"
        assembly, portable = ["src/build.c", "src/choose.c", "src/vulfsjor.s"], ["src/build.c", "src/portable.c"]
        for platform_name, options, sources, more in (
                ("linux-x86_64", linux, assembly, {}), ("linux-aarch64", linux, assembly, {}),
                ("macosx-10.13-x86_64", mac.format("x86_64", "10.13"), assembly, {}),
                ("macosx-11.0-arm64", mac.format("arm64", "11.0"), assembly, {}),
                *((name, windows, assembly, {}) for name in ("mingw_x86_64_ucrt_gnu", "win-amd64", "win-arm64")),
                *((name, linux, portable, {}) for name in ("linux-s390x", "linux-i686", "freebsd-14.0-release-amd64")),
                ("linux-x86_64", linux, portable, {"VULFSJOR_PORTABLE": "1"}),
                ("linux-x86_64", linux, portable, {"prefix": "sys.maxsize = 2**31 - 1"})):
            end = "pyd" if options == windows else "abi3.so"
            name, _, said = self.wheel(f"_library.{end}", CC=f"'{self.fake_compiler()}' -x", CFLAGS="-g '-D A'",
                                       LDFLAGS="-lz", _PYTHON_HOST_PLATFORM=platform_name, **more)
            words = said.splitlines()
            self.assertEqual(name, f"vulfsjor-{VERSION}-cp311-abi3-{re.sub('[-.]', '_', platform_name)}.whl")
            self.assertEqual([word for word in words if word.endswith((".c", ".s", ".S"))],
                             ["src/module.c", "src/library.c", "src/several.c", "src/arguments.c", "src/by_threads.c",
                              "src/trees.c", "src/xof.c", *sources])
            several = sources == assembly and re.search("x86_64|amd64", platform_name)
            self.assertEqual([word.partition("=")[0] for word in words if word.startswith("-DBUILD")],
                             ["-DBUILD_v2", "-DBUILD_v3", "-DBUILD_v4"] if several else ["-DBUILD"])
            self.assertEqual((words[0], words[-1]), ("-x", "-lpython3" if options == windows else "-lz"))
            self.assertEqual(words[words.index("-g"):words.index("-o")], ["-g", "-D A", *options.split()])
            self.assertIn(f"-I{sysconfig.get_path('include')}", words)

    def test_assembly_text_of_each_platform(self):
        """What the assembler gets: the macros of the system, the marks, and the texts."""
        keep = f"'{self.fake_compiler(printing='cat src/vulfsjor.s')}'"
        for name, end, macros, *texts in (
                ("linux-x86_64", "abi3.so", "x86_64/elf", *(f"x86_64/vulfsjor-v{level}" for level in (2, 3, 4))),
                ("macosx-11.0-arm64", "abi3.so", "aarch64/macho", "aarch64/vulfsjor"),
                ("win-arm64", "pyd", "aarch64/coff", "aarch64/vulfsjor")):
            head, *parts = (pathlib.Path(TOP, "dist", it).read_text(encoding="utf-8")
                            for it in (f"{macros}.inc", *(f"{it}.s" for it in texts)))
            *_, said = self.wheel(f"_library.{end}", CC=keep, _PYTHON_HOST_PLATFORM=name)
            self.assertTrue(said == "".join([head, "\tvj_marks\n", *parts]), name)

    def test_folder_without_clone_is_refused(self):
        shutil.move(self.copy_sources("clone"), os.path.join(self.folder, "alone"))
        self.assertEqual(self.why_refused(os.path.join(self.folder, "alone")),
                         "build_package.py: ../c/include/vulfsjor.h is missing: build in a clone of the repository, "
                         "since the package shares files with c/ and dist/, or from a source distribution")

    def test_contents_of_a_wheel(self):
        """What is in a wheel, next to a module of the fake compiler."""
        name, contents, _ = self.wheel(CC=self.fake_compiler().replace(" ", "\\ "))
        here = pathlib.Path(TOP, "python")
        project = tomllib.loads((here / "pyproject.toml").read_text(encoding="utf-8"))["project"]
        with zipfile.ZipFile(os.path.join(self.folder, name)) as file:
            self.assertEqual({(each.date_time, each.external_attr) for each in file.infolist()},
                             {((1980, 1, 1, 0, 0, 0), 0o100644 << 16)})
        self.assertEqual(list(contents), [
            f"{ABOUT}/METADATA", f"{ABOUT}/WHEEL", *(f"vulfsjor/{it}" for it in sorted(PACKAGE)),
            f"{ABOUT}/RECORD"])
        record = dict(line.split(",", 1) for line in contents[f"{ABOUT}/RECORD"].decode().split())
        self.assertEqual(record.pop(f"{ABOUT}/RECORD"), ",")
        for name, entry in record.items():
            digest = base64.urlsafe_b64encode(hashlib.sha256(contents[name]).digest()).decode()
            self.assertEqual(entry, f"sha256={digest.rstrip('=')},{len(contents[name])}")
            if name.startswith("vulfsjor/") and not name.endswith(".so"):
                self.assertEqual(contents[name], (here / name).read_bytes())
        self.assertEqual(list(record), list(contents)[:-1])
        kind = email.message_from_bytes(contents[f"{ABOUT}/WHEEL"])
        self.assertEqual(kind.items(), [
            ("Wheel-Version", "1.0"), ("Generator", f"vulfsjor-{VERSION}"),
            ("Root-Is-Purelib", "false"), ("Tag", f"cp311-abi3-linux_{platform.machine()}")])
        about = email.message_from_bytes(contents[f"{ABOUT}/METADATA"])
        self.assertEqual(about.get_payload(decode=True), (here / "README.md").read_bytes())
        self.assertEqual(about.items(), [
            ("Metadata-Version", "2.1"), ("Name", "vulfsjor"), ("Version", VERSION),
            ("Summary", project["description"]), ("Keywords", ",".join(project["keywords"])),
            *(("Classifier", each) for each in project["classifiers"]),
            ("Requires-Python", ">=3.11"), ("Description-Content-Type", "text/markdown")])

    def test_metadata_and_editable_wheel(self):
        """What describes a wheel is the same before it is built. A wheel for work on the package
        points to its folder, which has the module."""
        folder = self.copy_sources("a clone")
        lines = (f"import sys\nsys.path.insert(0, {folder!r})\nimport build_package as build\n"
                 "print(build.prepare_metadata_for_build_editable('.'))\n"
                 "print(build.build_editable('.', None, build.ABOUT))")
        named, wheel = self.output_of_success(sys.executable, "-c", lines, cwd=self.folder, env={
            **os.environ, "CC": self.fake_compiler().replace(" ", "\\ ")}).splitlines()
        self.assertEqual(named, ABOUT)
        with zipfile.ZipFile(os.path.join(self.folder, wheel)) as file:
            self.assertEqual(sorted(file.namelist()), [
                *(f"{ABOUT}/{name}" for name in ("METADATA", "RECORD", "WHEEL")), "vulfsjor.pth"])
            self.assertEqual(file.read("vulfsjor.pth").decode(), f"{folder}\n")
            for name in (f"{ABOUT}/METADATA", f"{ABOUT}/WHEEL"):
                self.assertEqual(file.read(name), pathlib.Path(self.folder, name).read_bytes())
        self.assertTrue(os.path.exists(os.path.join(folder, "vulfsjor", "_library.abi3.so")))

    def test_contents_of_a_source_distribution(self):
        """It has what it needs and nothing else, and its own files are what it uses. In another
        folder and at another time it is the same."""
        path, folder = pathlib.Path(self.build_archive("sdist")), os.path.join(self.folder, f"vulfsjor-{VERSION}")
        first, clone = path.read_bytes(), self.copy_sources("a clone", "tests", "tools")
        pathlib.Path(clone, "vulfsjor", "_library.abi3.so").touch()  # as an editable install leaves one
        self.build_archive("sdist", clone, TZ="Asia/Tokyo")
        self.assertEqual(path.read_bytes(), first)
        with tarfile.open(path) as file:
            self.assertEqual({(each.mode, each.uid, each.mtime) for each in file}, {(0o644, 0, 315532800)})
            file.extractall(self.folder)
        listed = pathlib.Path(TOP, "packaging", "files.txt").read_text(encoding="utf-8")
        names = re.findall("^sdist: vulfsjor-VERSION/(.*)$", listed, re.MULTILINE)
        self.assertEqual(sorted(str(path.relative_to(folder)) for path in pathlib.Path(folder).rglob("*")
                                if path.is_file()), names)
        for name in ("c", "dist"):  # what is beside it
            shutil.copytree(os.path.join(TOP, name), os.path.join(self.folder, name))
        for name in set(names) - {"PKG-INFO"}:
            path, base = pathlib.Path(folder, name), name.removeprefix("src/").replace("portable.c", "c/vulfsjor.c")
            place = next(it for it in (f"python/{name}", *(f"{each}{base}" for each in FOLDERS), f"tools/{base[6:]}")
                         if os.path.isfile(os.path.join(TOP, it)))
            text = path.read_bytes()
            self.assertEqual(text, pathlib.Path(TOP, place).read_bytes(), name)
            if place.startswith(("c/", "dist/")) and name != "src/MANIFEST":
                path.write_bytes(text + b"\n")
                self.assertEqual(self.why_refused(folder), f"build_package.py: {place} is not as in dist/MANIFEST, "
                                 "so it is not what was tested")
                path.write_bytes(text)
        self.assertIn(f"\nVersion: {VERSION}\n", pathlib.Path(folder, "PKG-INFO").read_text(encoding="utf-8"))
        os.remove(os.path.join(folder, "src", "choose.c"))
        self.assertIn("build_package.py: src/choose.c is missing", self.why_refused(folder))

    @long
    @unittest.skipIf(why_absent("pip"), why_absent("pip"))
    def test_wheels_are_reproducible(self):
        """From a clone, whose old copies are not used and which stays as it is, and by pip from a
        source distribution."""
        folder = self.copy_sources("a clone")
        for name in ("src/vulfsjor.h", "src/choose.c", "src/thunks.h", "vulfsjor/_library.abi3.so"):
            pathlib.Path(folder, name).write_text("#error old\n", encoding="utf-8")

        def state():
            return {path: os.stat(path).st_mtime_ns for path in glob.glob(
                f"{self.folder}/a clone/**", recursive=True, include_hidden=True)}

        before = state()
        wheel = pathlib.Path(self.build_archive("wheel", folder, CFLAGS="-g"))  # which names the folder of the compiler
        self.assertEqual(state(), before)
        first = wheel.read_bytes()
        wheel.unlink()
        self.output_of_success(sys.executable, "-m", "pip", "--disable-pip-version-check", "wheel", "--no-index",
                               self.build_archive("sdist"), cwd=self.folder, env={**os.environ, "CFLAGS": "-g"})
        self.assertEqual(wheel.read_bytes(), first)

    @long
    @unittest.skipIf(why_absent("ensurepip"), why_absent("ensurepip"))
    def test_pip_installs_the_python_folder(self):
        """As the README says, in a new clone without a network. What is installed is compared with hashlib."""
        page = pathlib.Path(self.copy_sources("a clone"), "README.md").read_text(encoding="utf-8")
        said = re.search("virtual environment:\\n((?:\\n    .*)+)\\n\\n", page)[1]
        first, last = said.strip().split("\n    ")
        self.assertRegex(f"{first}\n{last}", r"\A.* -m venv venv\n.*/pip install \./python\Z")
        os.symlink(sys.executable, os.path.join(self.folder, "python3"))
        named = dict(cwd=os.path.join(self.folder, "a clone"), env={
            **os.environ, "PATH": f"{self.folder}:{os.environ['PATH']}", "PIP_NO_INDEX": "1"})
        self.output_of_success("sh", "-ec", first, **named)
        self.output_of_success("sh", "-ec", last, **named)
        installed, = glob.glob(f"{self.folder}/a clone/venv/lib/python*/site-packages")
        self.assertEqual(set(os.listdir(os.path.join(installed, "vulfsjor"))) - {"__pycache__"}, PACKAGE)
        self.assert_package_is_as_hashlib(installed)

    @unittest.skipIf(NO_ARM, NO_ARM)
    def test_module_for_arm_links(self):
        """The module for 64-bit ARM is compiled and linked. Debian's headers have a pyconfig.h for
        each processor; that of this one serves, since both have numbers of the same sizes."""
        here = sysconfig.get_config_var("MULTIARCH")
        version = f"python{sys.version_info.major}.{sys.version_info.minor}"
        folder = pathlib.Path(self.folder, "include", "aarch64-linux-gnu", version)
        folder.mkdir(parents=True)
        (folder / "pyconfig.h").write_text(f'#include "/usr/include/{here}/{version}/pyconfig.h"\n', encoding="utf-8")
        support.build(self.folder, CFLAGS=f"-O0 -I{self.folder}/include",
                      CC="aarch64-linux-gnu-gcc", _PYTHON_HOST_PLATFORM="linux-aarch64")
        path = pathlib.Path(self.folder, "vulfsjor", "_library.abi3.so")
        self.assertEqual(path.read_bytes()[18:20], b"\xb7\0")  # EM_AARCH64
        names = self.output_of_success("aarch64-linux-gnu-nm", "-D", path).split("\n")
        self.assertEqual([name.split()[-1] for name in names if " T " in name], ["PyInit__library"])
        unmet = [name.split()[-1] for name in names if " U " in name]
        self.assertEqual([name for name in unmet if "blake2" in name or "vulfsjor" in name], [])
        self.assertIn("PyModuleDef_Init", unmet)


@unittest.skipUnless(X86 and not why_absent(tools=["qemu-x86_64"]), "no qemu-x86_64, or no x86-64")
class ProcessorsTest(Test):
    """Processors that qemu emulates."""

    @long
    def test_processor_without_avx2_works(self):
        self.assert_package_is_as_hashlib(FOLDER, "qemu-x86_64", "-cpu", "Nehalem")

    def test_old_processor_is_refused(self):
        """And one that is of it. c/tests/choosing.sh has those that lack one feature each."""
        program = f"import sys\nsys.path.insert(0, {FOLDER!r})\nimport vulfsjor"
        for processor, status, said in (("Nehalem", 0, []), ("core2duo", 1, [
                "ImportError: vulfsjor needs a processor of x86-64-v2, with SSE4.2 and POPCNT"])):
            done = run("qemu-x86_64", "-cpu", processor, sys.executable, "-S", "-E", "-c", program)
            self.assertEqual((done.returncode, done.stdout.splitlines()[-1:]), (status, said))


# Compares tags that differ at one byte each, by the module alone.
VERIFY = f"""import importlib.util
spec = importlib.util.spec_from_file_location("vulfsjor._library", {MODULE!r})
library = importlib.util.module_from_spec(spec)
spec.loader.exec_module(library)
mac = library.blake2b(b"message", key=b"key")
for place in [0, 31, 63] * 10:
    wrong = bytearray(mac.digest())
    wrong[place] ^= 1
    try:
        mac.verify(wrong)
    except library.InvalidTag:
        continue
    raise AssertionError
"""
# Runs CPython's own test_hashlib with the package instead of _blake2. What fetches vectors from the network is skipped.
THEIRS = f"""import sys
sys.path.insert(0, {FOLDER!r})
import vulfsjor
sys.modules["_blake2"] = vulfsjor
import test.support, test.test_hashlib as theirs, unittest
test.support.use_resources = []
assert theirs.hashlib.blake2b is vulfsjor.blake2b and theirs.hashlib.blake2s is vulfsjor.blake2s
unittest.main(theirs, argv=["", "--verbose"])
"""


class ProgramsTest(Test):
    """Programs over the module."""

    @long
    @unittest.skipIf(why_absent(tools=["valgrind"]), "no valgrind")
    def test_verify_takes_equal_time(self):
        """The least instructions of a comparison do not depend on the place where a tag differs.
        Each comparison is counted in a file of its own."""
        self.output_of_success(
            "valgrind", "--tool=callgrind", f"--callgrind-out-file={self.folder}/count", "--toggle-collect=verify",
            "--dump-after=verify", sys.executable, "-S", "-c", VERIFY,
            env={**os.environ, "PYTHONHASHSEED": "0", "PYTHONMALLOC": "malloc"})
        counts = []
        for number in range(1, 31):
            text = pathlib.Path(self.folder, f"count.{number}").read_text(encoding="utf-8")
            counts.append(int(re.search(r"(?m)^totals: (\d+)", text)[1]))
        least = {min(counts[place::3]) for place in range(3)}  # an allocation adds to some counts
        self.assertEqual(len(least), 1, counts)
        self.assertGreater(min(least), 1000)

    @unittest.skipIf(why_absent("test.test_hashlib"), "no test.test_hashlib")
    def test_hashlib_tests_of_cpython_pass(self):
        said = self.output_of_success(sys.executable, "-c", THEIRS, cwd=self.folder)
        self.assertGreaterEqual(len(re.findall(r"(?m)^test_\w*blake2", said)), 12, said)


if __name__ == "__main__":
    unittest.main()
