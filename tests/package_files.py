#!/usr/bin/env python3
"""Reads packaging/ without building a package: fields and lines that a package needs, the versions of symbols, the
lists of files, and the tools.

tests/release.sh builds the packages, if VULFSJOR_TEST_HUGE is set.
"""
import itertools
import pathlib
import re

import tap
from common import read
from page_sources import files_matching

TOP = pathlib.Path(__file__).resolve().parent.parent
PORTABLE = "amd64 arm64 armhf i386 ppc64el riscv64 s390x"
PACKAGES = ["libvulfsjor1", "libvulfsjor-dev", "vulfsjor-libb2", "vulfsjor", "python3-vulfsjor"]
# Lines, or parts of them. In debian/control they are the fields of each package.
LINES = {
    "debian/control": [
        "Source: vulfsjor\nSection: libs\nPriority: ", "Rules-Requires-Root: no\n\n",
        "\nBuild-Depends: debhelper-compat (= 13),\n dh-sequence-python3 <!nopython>,\n python3-dev <!nopython>,\nSt",
        f"Package: libvulfsjor1\nArchitecture: {PORTABLE}\nMulti-Arch: same\nPre-Depends: ${{misc:Pre-Depends}}\n"
        "Depends: ${misc:Depends}, ${shlibs:Depends}\nDescription: ",
        f"Package: libvulfsjor-dev\nSection: libdevel\nArchitecture: {PORTABLE}\nMulti-Arch: same\n"
        "Depends: ${misc:Depends}, libvulfsjor1 (= ${binary:Version})\nDescription: ",
        f"Package: vulfsjor-libb2\nArchitecture: {PORTABLE}\nMulti-Arch: same\n"
        "Depends: ${misc:Depends}, ${shlibs:Depends}\nDescription: ",
        "Package: vulfsjor\nSection: utils\nArchitecture: amd64 arm64\nMulti-Arch: foreign\n"
        "Depends: ${misc:Depends}, ${shlibs:Depends}\nDescription: ",
        "Package: python3-vulfsjor\nSection: python\nArchitecture: amd64 arm64\nBuild-Profiles: <!nopython>\n"
        "Depends: python3 (>= 3.11), ${misc:Depends}, ${python3:Depends}, ${shlibs:Depends}\nDescription: ",
        "On amd64 it needs SSE4.2 (x86-64-v2) and\n uses AVX2 and AVX-512. On architectures other than"],
    "debian/rules": [
        "export DEB_BUILD_MAINT_OPTIONS = hardening=+all", "export CC = $(DEB_HOST_GNU_TYPE)-gcc",
        "export CFLAGS CPPFLAGS LDFLAGS\nexport LIBB2_SHARED = 1\n", "ifneq (,$(filter amd64 arm64,$(DEB_HOST_ARCH)))",
        "PYTHON = $(if $(filter nopython,$(DEB_BUILD_PROFILES)),,yes)",
        "modules = debian/python3-vulfsjor/usr/lib/python3/dist-packages",
        'dh_auto_build -- all PROGRAMS="$(PROGRAMS)"',
        "mkdir -p out/python && python3 python/build_package.py wheel out/python",
        "override_dh_auto_test:\n\t$(if $(filter $(DEB_BUILD_GNU_TYPE),$(if $(PROGRAMS),$(DEB_HOST_GNU_TYPE))), \\\n"
        "\t\tprintf abc | out/make/b2sum | grep -q '^ba80a53f981c4d0d'",
        "$(MAKE) install DESTDIR=$(CURDIR)/debian/tmp prefix=/usr libdir=/usr/lib/$(DEB_HOST_MULTIARCH) \\\n",
        'zshcompdir=/usr/share/zsh/vendor-completions PROGRAM_PREFIX=vulfsjor- PROGRAMS="$(PROGRAMS)"',
        "mkdir -p $(modules) && python3 -m zipfile -e out/python/*.whl $(modules)",
        "sed -i 's/libc6:$(DEB_HOST_ARCH) /libc6 /g' debian/*.substvars", "dh_makeshlibs -plibvulfsjor1 -- -c4"],
    "debian/tests/control": [
        "Depends: libvulfsjor-dev, gcc, libc6-dev, pkg-config\n", "grep ^ba80a53f\nDepends: vulfsjor\n",
        "vulfsjor.blake2b(b'abc').hexdigest()[:4] == 'ba80'\"\nDepends: python3-vulfsjor\n",
        "Test-Command: LD_LIBRARY_PATH=$(echo /usr/lib/*/vulfsjor-libb2) rdiff -H blake2 signature /bin/sh a && "
        "rdiff -H blake2 signature /bin/sh b && cmp a b\nDepends: vulfsjor-libb2, rdiff\n"],
    "vulfsjor.spec": [
        "BuildRequires:  bash, coreutils, diffutils, findutils, gawk, gcc, make, sed\n",
        "%ifarch x86_64 aarch64\n%global programs b2 b2sum\n",
        "%global libs %{?suse_version:libvulfsjor1}%{!?suse_version:%{name}-libs}\n",
        "%package devel\nSummary:        Files to develop programs with Vulfsjor\n"
        "Requires:       %{libs}%{?_isa} = %{version}-%{release}\n",
        "Requires:       %{name}-devel%{?_isa} = %{version}-%{release}\n",
        '%make_build all CFLAGS="%{optflags} -ffile-prefix-map=%{_builddir}=." LDFLAGS="%{?build_ldflags}" '
        'PROGRAMS="%{?programs}"\n',
        '%make_install prefix=%{_prefix} libdir=%{_libdir} mandir=%{_mandir} PROGRAM_PREFIX=vulfsjor- '
        'PROGRAMS="%{?programs}"\n',
        "%check\n",
        "printf abc | %{buildroot}%{_bindir}/vulfsjor-$name | grep -q ^ba80a53f",
        "%post -n %{libs} -p /sbin/ldconfig\n"],
}

# Whole folders that artifacts have, after the start of their lines in files.txt.
FOLDERS = {
    "npm: package/src/": "js/src", "sdist: vulfsjor-VERSION/tests/": "python/tests",
    "vulfsjor.crate: vulfsjor-VERSION/rust/src/": "rust/src",
    "vulfsjor-digest.crate: vulfsjor-digest-VERSION/src/": "rust-digest/src",
    "vulfsjor-digest.crate: vulfsjor-digest-VERSION/tests/": "rust-digest/tests",
}
# What they have from other folders, or lack of these: by `exclude` in rust-digest/Cargo.toml.
OTHERS = {"vulfsjor-digest.crate: vulfsjor-digest-VERSION/tests/": {"conformance.rs"},
          "sdist: vulfsjor-VERSION/tests/": {"b2_model.py", "common.py", "oracle.py", "read_sources.py"}}

# Reasons of skipped tests that no package helps with.
NO_PACKAGE = {"no rt", "no jsc", "no x86-64", "no x86-64-v3", "no GIL", "no CPython without the GIL", "no /proc",
              "no CPython 3.12 or later, whose subinterpreters have a GIL each", "no /dev/shm", "no test.test_hashlib",
              "no lists of apt", "no rights of root"}


def read_packaging(name):
    return read(f"packaging/{name}")


def unexpected_packages():
    found = re.findall(r"(?m)^Package: (.*)$", read_packaging("debian/control"))
    return [] if found == PACKAGES else [f"the packages are {found}"]


def missing_packaging_lines():
    return (f"{name} has not: {line}" for name, lines in LINES.items() for line in lines
            if line not in read_packaging(name))


def wrong_symbol_versions():
    """Each version of symbols is that of the first release that has it."""
    versions = re.findall(r"(?m)^VULFSJOR_([\d.]+) \{", read("c/vulfsjor.map"))
    wanted = [f" (symver)VULFSJOR_{version} {version}.0" for version in versions]
    found = [line for line in read_packaging("debian/libvulfsjor1.symbols").splitlines() if line.startswith(" ")]
    return [] if found == wanted else [f"libvulfsjor1.symbols has {found}, and not {wanted}"]


def package_sonames_unlike_library():
    """The soname in the names of packages is that of the library."""
    soname = re.search(r"soname,libvulfsjor\.so\.(\d+)", read("c/make_libraries.sh"))[1]
    texts = map(read_packaging, ("debian/control", "debian/rules", "vulfsjor.spec"))
    names = set(re.findall(r"libvulfsjor(\d+)\b", "".join(texts)))
    return [] if names == {soname} else [f"the packages have the sonames {names}, and the library {soname}"]


def files_missing_from_lists():
    """files.txt has each file of these folders, and tools/release.sh only pages that are there."""
    listed = read_packaging("files.txt").splitlines()
    for start, folder in FOLDERS.items():
        names = {line[len(start):] for line in listed if line.startswith(start)}
        names ^= OTHERS.get(start, set())
        different = names ^ {each.name for each in (TOP / folder).iterdir() if each.is_file()}
        if different:
            yield f"{folder}: only one of it and files.txt has {sorted(different)}"
    script = read("tools/release.sh")
    pages = re.search(r"for page in (.+); do", script)[1].split()
    pages += read_packaging("debian/libvulfsjor-dev.docs").split()
    yield from (f"there is no page {page}" for page in pages if not (TOP / page).is_file())


def debian_patterns():
    """What debhelper puts into each package, as patterns of paths."""
    for file in (TOP / "packaging" / "debian").glob("*.*"):
        of = {"install": "", "docs": f"usr/share/doc/{file.stem}/", "examples": f"usr/share/doc/{file.stem}/examples/"}
        if file.suffix[1:] in of:
            start = of[file.suffix[1:]]
            for line in file.read_text(encoding="utf-8").split():
                # What is long is compressed.
                name = line.rsplit("/", 1)[-1] + "*" * line.endswith(".md")
                yield file.stem, start + name if start else line


def rpm_patterns():
    """The same of the sections %files of the spec."""
    macros = {"%{_bindir}": "usr/bin", "%{_datadir}": "usr/share", "%{_includedir}": "usr/include",
              "%{_libdir}": "usr/lib64", "%{_mandir}": "usr/share/man"}
    for section in read_packaging("vulfsjor.spec").split("%files")[1:]:
        end, *lines = section.split("\n")
        name = {"": "vulfsjor", "-n %{libs}": "vulfsjor-libs"}.get(end.strip(), f"vulfsjor-{end.strip()}")
        for line in itertools.takewhile(lambda it: it and not it.startswith("%endif"), lines):
            if line.startswith("%doc "):
                start = f"usr/share/doc/{name}-VERSION/"
                yield from ((name, start + each.rsplit("/", 1)[-1]) for each in line[5:].split())
            else:
                yield name, re.sub(r"%\{\w+\}", lambda it: macros[it[0]], line)


def files_without_package_pattern():
    """Each file of a package has a pattern there, and each pattern a file, but for the files that all packages have."""
    for kind, patterns in (("debian", {*debian_patterns()}), ("rpm", {*rpm_patterns()})):
        files = {(name, path) for name, path in re.findall(
            rf"(?m)^{kind}: ([a-z0-9-]+?)[_-]VERSION[^/]*/(.*)", read_packaging("files.txt"))
            if not re.search("/(changelog.*gz|copyright)$|^usr/lib/python3/", path)}
        matches = {(file, pattern) for file in files for pattern in patterns if file[0] == pattern[0] and re.match(
            re.escape(pattern[1]).replace(r"\*", "[^/]*") + "(/|$)", file[1])}
        yield from (f"{kind}: {' '.join(it)} has no pattern" for it in sorted(files - {it for it, _ in matches}))
        yield from (f"{kind}: {' '.join(it)} has no file" for it in sorted(patterns - {it for _, it in matches}))


def skip_reasons_in_script(script):
    """What a script says of absent tools: its calls of `needs`, its loops, and its reasons of skipped tests."""
    for words in re.findall(r"(?m)^ *needs(?:_cross_compiler \S+)?((?: [\w+.\"$-]+)+)$|^for tool in (.+); do has",
                            script):
        yield from (f"no {word}" for word in "".join(words).replace('"', "").split() if word != "bash")
    for words in re.findall(r"tools=\[(.*)\]", script):
        yield from (f"no {word}" for word in re.findall('"([^"]+)"', words))
    for words in re.findall(r"(?m)^(?:check_with_debian_crates|(?:digest|serde)=\().*", script):
        yield from (f"no librust-{crate.replace('_', '-')}-dev" for crate in re.findall(r"(\w+)=\d", words))
    yield from re.findall(r"""(?m)(?:skip\w*[ (=]|SKIP |missing=)(?:.*["'])?(no [\w$][^"'\n]*)""", script)


def skip_reasons_without_package():
    """Each reason of a skipped test has a tool or package of tools.txt, by which ./test says what to install."""
    rows = [line.split() for line in read_packaging("tools.txt").splitlines() if not line.startswith("#")]
    yield from (f"tools.txt: {' '.join(row)}" for row in rows if len(row) not in (3, 5))
    known = {re.sub(".*[:/]", "", row[1]) for row in rows} | {row[2] for row in rows}
    scripts = [path for end in ("sh", "py", "mjs") for path in files_matching(f"**/*.{end}")
               if re.search("tests/|run_tests", path) and "/out/" not in path and path != "tests/test_script.sh"]
    found = [(path, reason) for path in scripts for reason in skip_reasons_in_script(read(path))]
    for path, reason in found:
        parts = [] if reason in NO_PACKAGE else re.split(",? or (?!later)|, | and ", reason)
        yield from (f"{path}: tools.txt has nothing of: {part}" for part in parts
                    if part not in NO_PACKAGE and "$" not in part and "{" not in part and not known & {*part.split()})
    if len(found) < 100:
        yield f"only {len(found)} reasons are found"


TESTS = (("the packages of debian/control", unexpected_packages), ("the lines of packaging/", missing_packaging_lines),
         ("the versions of symbols", wrong_symbol_versions), ("the soname", package_sonames_unlike_library),
         ("the lists of files", files_missing_from_lists), ("the files of each package", files_without_package_pattern),
         ("the tools that skipped tests lack", skip_reasons_without_package))
for title, find in TESTS:
    said = list(find())
    tap.result(not said, title, "\n".join(said))
tap.finish()
