"""Builds the package: a module in C over the proved library. It needs CPython with its headers, a C
compiler, and nothing else: it is the backend of pyproject.toml (PEP 517 and PEP 660).

usage: build_package.py wheel|sdist FOLDER      makes one in FOLDER and prints its name

It writes to FOLDER and to a temporary folder. What the package shares with the repository it reads
from c/ and dist/. A source distribution, which has a file PKG-INFO, holds all of it in src/. CC,
CFLAGS and LDFLAGS are used as by make, and VULFSJOR_WHEEL_PLATFORM is the platform in the name of a
wheel, such as manylinux_2_17_x86_64.
"""
import base64
import gzip
import hashlib
import io
import os
import pathlib
import re
import shlex
import shutil
import subprocess
import sys
import sysconfig
import tarfile
import tempfile
import zipfile

if sys.version_info < (3, 11):
    sys.exit("build_package.py: vulfsjor needs CPython 3.11 or later")
import tomllib  # pylint: disable=wrong-import-position

HERE = pathlib.Path(__file__).resolve().parent
PROJECT = tomllib.loads((HERE / "pyproject.toml").read_text(encoding="utf-8"))["project"]
RELEASE = f"{PROJECT['name']}-{PROJECT['version']}"
ABOUT = f"{RELEASE}.dist-info"

# The texts of the library by processor, and their macros by system. choose.c has its functions by
# their own names; on x86-64 a call goes to the build that the processor runs.
TEXTS = {"aarch64": ["aarch64/vulfsjor.s"],
         "x86_64": [f"x86_64/vulfsjor-{level}.s" for level in ("v2", "v3", "v4")]}
MACROS = {"linux": "elf.inc", "macosx": "macho.inc", "windows": "coff.inc"}

# The module's own sources, and the files of a source distribution: those of this folder, and those of the repository.
MODULE = [f"src/{name}.c" for name in ("module", "library", "several", "arguments", "by_threads", "trees", "xof")]
OWN = ("README.md", "build_package.py", "pyproject.toml", *MODULE, "src/hashes.h", "src/library.h", "tests/*.py",
       "vulfsjor/*.py", "vulfsjor/*.pyi", "vulfsjor/py.typed")
SHARED = {
    "src/vulfsjor.h": "c/include/vulfsjor.h",
    "src/vulfsjor_threads.h": "c/include/vulfsjor_threads.h",
    "src/threads.c": "c/threads.c",
    "src/system.h": "c/system.h",
    "src/build.c": "c/build.c",
    "src/choose.c": "c/choose.c",
    "src/thunks.h": "c/thunks.h",
    "src/portable.c": "dist/c/vulfsjor.c",
    "src/MANIFEST": "dist/MANIFEST",
    **{f"src/{name}": f"dist/{name}" for processor, texts in TEXTS.items()
       for name in [*texts, *(f"{processor}/{macros}" for macros in MACROS.values())]},
}

# What its tests need besides.
FOR_TESTS = {**{f"tests/{name}": f"tests/{name}" for name in (
    "b2_model.py", "common.py", "oracle.py")},
    "tests/read_sources.py": "tools/read_sources.py"}

# Clang warns of each option that means nothing for assembly. LTO loses the assembly of choose.c.
COMPILING = ["-std=c99", "-O2", "-DNDEBUG", "-Wall", "-Wextra", "-fvisibility=hidden", "-fno-lto",
             "-ffunction-sections", "-Wno-unused-command-line-argument"]
LINKING = {"linux": ["-fPIC", "-shared", "-pthread", "-Wl,--gc-sections", "-Wl,-z,relro,-z,now"],
           "macosx": ["-bundle", "-undefined", "dynamic_lookup", "-Wl,-dead_strip"],
           "windows": ["-shared", f"-L{sys.base_prefix}/libs", f"-L{sys.base_prefix}/lib"]}
WITHOUT_GIL = bool(sysconfig.get_config_var("Py_GIL_DISABLED"))


def exit_with_error(why):
    """Ends the program."""
    sys.exit(f"build_package.py: {why}")


def source_files(shared=SHARED):
    """The path of each file of this folder, and of each that the repository shares, by its name in a source
    distribution."""
    found = {path.relative_to(HERE).as_posix(): path for pattern in OWN for path in HERE.glob(pattern)}
    is_released = (HERE / "PKG-INFO").exists()
    for name, place in shared.items():
        found[name] = HERE / name if is_released else HERE.parent / place
        if not found[name].is_file():
            exit_with_error(f"{name if is_released else f'../{place}'} is missing: build in a clone of the "
                            "repository, since the package shares files with c/ and dist/, or from a source "
                            "distribution")
    check_file_is_as_in_manifest(found, is_released)
    return found


def check_file_is_as_in_manifest(found, is_released):
    """Refuses a file that is not the one that MANIFEST names, such as ../c/choose.c. A source distribution has some of
    them."""
    lines = found["src/MANIFEST"].read_text(encoding="utf-8").splitlines()
    sums = {name: digest for digest, name in (line.split("  ") for line in lines if not line.startswith("#"))}
    texts = {place: found[name] for name, place in SHARED.items() if name != "src/MANIFEST"}
    named = {f"dist/{name}".replace("dist/../", ""): digest for name, digest in sums.items()}
    if not is_released:
        texts |= {place: HERE.parent / place for place in named
                  if place.startswith("dist/") or (HERE.parent / place).is_file()}
    for place, path in texts.items():
        if not path.is_file() or hashlib.sha256(path.read_bytes()).hexdigest() != named.get(place):
            exit_with_error(f"{place} is not as in dist/MANIFEST, so it is not what was tested")


# ---- The module

def target_platform():
    """The system that the module is for, its processor if dist/ has a text for that, and the compiler's options.
    Linux and other systems with ELF get portable C on other processors, in a Python of 32 bits, and if
    VULFSJOR_PORTABLE is set."""
    platform = sysconfig.get_platform()  # such as macosx-11.0-arm64 or mingw_x86_64_ucrt
    found = sys.maxsize > 2**32 and re.fullmatch(  # a Python of 32 bits may name a kernel of 64
        r"(linux|macosx|mingw|win)[-_](?:([\d.]+)-)?(?:(x86_64|amd64)|(aarch64|arm64))(?:_\w+)?", platform)
    if not re.match("macosx|mingw|win", platform) and (not found or os.environ.get("VULFSJOR_PORTABLE")):
        return "linux", None, LINKING["linux"]
    if not found:
        exit_with_error("vulfsjor is assembly for Linux, macOS and Windows on x86-64 and on 64-bit ARM, and "
                        f"has none for {platform}")
    system, version, x86, arm = found.groups()
    if system not in LINKING:
        system = "windows"
    options = list(LINKING[system])
    if system == "macosx":
        options += ["-arch", x86 or arm, f"-mmacosx-version-min={version}"]
    return system, "x86_64" if x86 else "aarch64", options


def library_source_words(system, processor, work):
    """The words of the compiler for the sources of the library in a folder. The texts become one, which is marked for
    branch protection and needs no preprocessor: that would take as long as the assembler."""
    if not processor:
        return ["-DVULFSJOR_PORTABLE", "src/build.c", "src/portable.c", manifest_line_word(work, "c/vulfsjor.c")]
    macros, *texts = (pathlib.Path(work, "src", name).read_bytes()
                      for name in [f"{processor}/{MACROS[system]}", *TEXTS[processor]])
    pathlib.Path(work, "src", "vulfsjor.s").write_bytes(b"".join([macros, b"\tvj_marks\n", *texts]))
    return ["src/build.c", "src/choose.c", "src/vulfsjor.s",
            *(manifest_line_word(work, text) for text in TEXTS[processor])]


def manifest_line_word(work, text):
    """The word of the compiler for the line of MANIFEST that names a text."""
    lines = pathlib.Path(work, "src", "MANIFEST").read_text(encoding="utf-8").splitlines()
    line = next(line for line in lines if line.endswith(f"  {text}"))
    build = "" if text in ("aarch64/vulfsjor.s", "c/vulfsjor.c") else text[-5:-2].replace("-", "_")
    return f'-DBUILD{build}="{line}"'


def compiler_words(system):
    """The words of the C compiler: CC, or that of this Python, or cc or gcc."""
    asked = os.environ.get("CC")
    for words in [asked] if asked else [sysconfig.get_config_var("CC"), "cc", "gcc"]:
        if words and shutil.which(shlex.split(words)[0]):
            if pathlib.Path(shlex.split(words)[0]).stem.lower() == "cl":
                exit_with_error("MSVC cannot assemble the code of vulfsjor: set CC to the GCC of MinGW-w64")
            return shlex.split(words)
    exit_with_error(f"there is no C compiler{f' {asked}' if asked else ''}: install GCC"
                    f"{' of MinGW-w64' if system == 'windows' else ' or Clang'}, or set CC")


def module_file_name():
    """The name of the module's file. With the GIL it is for each later CPython too."""
    if WITHOUT_GIL:
        return f"_library{sysconfig.get_config_var('EXT_SUFFIX')}"
    return "_library.pyd" if sysconfig.get_platform().startswith(("mingw", "win")) else (
        "_library.abi3.so")


def compile_module(files):
    """The bytes of the module, from these files."""
    system, processor, options = target_platform()
    includes = {sysconfig.get_path("include"), sysconfig.get_path("platinclude")}
    with tempfile.TemporaryDirectory() as work:
        for name, path in files.items():
            if name.startswith("src/"):
                os.makedirs(os.path.dirname(f"{work}/{name}"), exist_ok=True)
                shutil.copyfile(path, f"{work}/{name}")
        made = os.path.join(work, module_file_name())
        done = subprocess.run(
            [*compiler_words(system), *COMPILING, f"-fdebug-prefix-map={work}=.",
             *(f"-I{folder}" for folder in sorted(includes)),
             *(["-DPy_GIL_DISABLED=1"] if WITHOUT_GIL else []),
             *shlex.split(os.environ.get("CFLAGS", "")), *options, "-o", made, *MODULE,
             *library_source_words(system, processor, work), *shlex.split(os.environ.get("LDFLAGS", "")),
             *(["-lpython3"] if system == "windows" else [])], cwd=work, check=False)
        if done.returncode:
            has_headers = any(os.path.exists(f"{folder}/Python.h") for folder in includes)
            exit_with_error("the compiler failed" + ("" if has_headers else
                   ": Python.h is missing; install the headers, such as Debian's python3-dev"))
        with open(made, "rb") as file:
            return file.read()


# ---- What describes the package

def metadata_bytes():
    """The bytes of METADATA and of PKG-INFO."""
    lines = ["Metadata-Version: 2.1", f"Name: {PROJECT['name']}", f"Version: {PROJECT['version']}",
             f"Summary: {PROJECT['description']}", f"Keywords: {','.join(PROJECT['keywords'])}",
             *(f"Classifier: {each}" for each in PROJECT["classifiers"]),
             f"Requires-Python: {PROJECT['requires-python']}",
             "Description-Content-Type: text/markdown", "",
             (HERE / PROJECT["readme"]).read_text(encoding="utf-8")]
    return "\n".join(lines).encode()


def wheel_tag():
    """The versions, the interface and the platform that a wheel is for."""
    here = f"cp{sys.version_info.major}{sys.version_info.minor}"
    platform = re.sub(r"\W", "_", os.environ.get("VULFSJOR_WHEEL_PLATFORM") or sysconfig.get_platform())
    return f"{f'{here}-{here}t' if WITHOUT_GIL else 'cp311-abi3'}-{platform}"


def wheel_description_files():
    """The files that describe a wheel, except RECORD."""
    kind = f"Wheel-Version: 1.0\nGenerator: {RELEASE}\nRoot-Is-Purelib: false\nTag: {wheel_tag()}\n"
    return {f"{ABOUT}/METADATA": metadata_bytes(), f"{ABOUT}/WHEEL": kind.encode()}


def write_wheel(folder, files):
    """Writes a wheel with these files. The same files make the same wheel."""
    files = sorted({**files, **wheel_description_files()}.items())
    record = [f"{name},sha256={base64.urlsafe_b64encode(hashlib.sha256(data).digest()).decode()[:-1]}"
              f",{len(data)}" for name, data in files]
    files.append((f"{ABOUT}/RECORD", "\n".join([*record, f"{ABOUT}/RECORD,,", ""]).encode()))
    name = f"{RELEASE}-{wheel_tag()}.whl"
    with zipfile.ZipFile(os.path.join(folder, name), "w") as wheel:
        for path, data in files:
            info = zipfile.ZipInfo(path)  # whose time is that of 1980
            info.create_system, info.external_attr = 3, 0o100644 << 16
            wheel.writestr(info, data, zipfile.ZIP_DEFLATED)
    return name


# ---- The calls of PEP 517 and PEP 660

def prepare_metadata_for_build_wheel(metadata_directory, config_settings=None):
    """Writes what describes a wheel, without a build."""
    del config_settings
    os.mkdir(os.path.join(metadata_directory, ABOUT))
    for name, data in wheel_description_files().items():
        pathlib.Path(metadata_directory, name).write_bytes(data)
    return ABOUT


def build_wheel(wheel_directory, config_settings=None, metadata_directory=None):
    """Makes a wheel."""
    del config_settings, metadata_directory
    found = source_files()
    files = {name: path.read_bytes() for name, path in found.items() if name.startswith("vulfsjor/")}
    return write_wheel(wheel_directory, {**files, f"vulfsjor/{module_file_name()}": compile_module(found)})


prepare_metadata_for_build_editable = prepare_metadata_for_build_wheel


def build_editable(wheel_directory, config_settings=None, metadata_directory=None):
    """Writes the module to this folder's package, and makes a wheel that points to this folder."""
    del config_settings, metadata_directory
    (HERE / "vulfsjor" / module_file_name()).write_bytes(compile_module(source_files()))
    return write_wheel(wheel_directory, {f"{PROJECT['name']}.pth": os.fsencode(HERE) + b"\n"})


def build_sdist(sdist_directory, config_settings=None):
    """Makes a source distribution. The same files make the same one."""
    del config_settings
    files = {"PKG-INFO": metadata_bytes(),
             **{name: path.read_bytes() for name, path in source_files({**SHARED, **FOR_TESTS}).items()}}
    name = f"{RELEASE}.tar.gz"
    with open(os.path.join(sdist_directory, name), "wb") as file, \
            gzip.GzipFile("", "wb", 9, file, 0) as packed, \
            tarfile.open(fileobj=packed, mode="w", format=tarfile.PAX_FORMAT) as archive:
        for path, data in sorted(files.items()):
            info = tarfile.TarInfo(f"{RELEASE}/{path}")  # which belongs to root
            info.size, info.mtime = len(data), 315532800  # 1980, as in a wheel
            archive.addfile(info, io.BytesIO(data))
    return name


if __name__ == "__main__":
    CALLS = {"wheel": build_wheel, "sdist": build_sdist}
    if len(sys.argv) != 3 or sys.argv[1] not in CALLS:
        sys.exit("usage: build_package.py wheel|sdist FOLDER")
    print(CALLS[sys.argv[1]](sys.argv[2]))
