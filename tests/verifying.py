#!/usr/bin/env python3
"""Tests ./verify: what it says of the code in dist/ and of files that have it, and that it refuses other code, with the
name of each call that has it. Changes are made to a shared library, whose symbols say where its functions are. With
VULFSJOR_TEST_HUGE also all that it tries without an option, and a wheel."""
import contextlib
import hashlib
import io
import os
import platform
import re
import shutil
import subprocess
import sys
import tempfile

import same_code
import tap
import verify as command
from common import TOP

HUGE = bool(os.environ.get("VULFSJOR_TEST_HUGE"))
ONE = "blake2_compress..compress..blake2%s..compress"
FINAL, WIPE = "vulfsjor_ffi_blake2b_final", "vulfsjor_ffi_wipe"


def status_and_outputs(words, **more):
    """The status of a command, its output and its errors."""
    done = subprocess.run(words, capture_output=True, text=True, check=False, **more)
    return done.returncode, done.stdout, done.stderr


def run_verify(*words, top=TOP, **environment):
    """That of ./verify."""
    return status_and_outputs([os.path.join(top, "verify"), *words], env={**os.environ, **environment})


def run_verify_in_process(*words):
    """The same of the command as a part of this program, which needs no start, and reads each text once."""
    out, err, calls = io.StringIO(), io.StringIO(), list(command.EXPORTS)
    with contextlib.redirect_stdout(out), contextlib.redirect_stderr(err):
        try:
            status = command.main(list(words))
        except SystemExit as e:
            status = e.code
    command.EXPORTS[:] = calls
    return status, out.getvalue(), err.getvalue()


class ChangeableLibrary:
    """A shared library, for changes."""

    def __init__(self, data):
        self.data, self.file = data, same_code.ElfFile(data)
        self.symbols = {name: (value, size) for name, _, section, value,
                        size in self.file.symbols_of_all_tables() if section}

    def file_offset_of_address(self, address):
        """The place in the file of what is loaded at an address."""
        start, part, _ = next(s for s in self.file.segments if s[0] <= address < s[0] + len(s[1]))
        return self.data.index(part) + address - start

    def with_bytes_replaced(self, place, new):
        """The file with other bytes at a place."""
        return self.data[:place] + new + self.data[place + len(new):]

    def with_bit_flipped(self, address):
        """The file with another bit at an address."""
        place = self.file_offset_of_address(address)
        return self.with_bytes_replaced(place, bytes([self.data[place] ^ 1]))

    def code_differences(self, data):
        """Why the code of calls is not that of the texts."""
        _, whys, _ = same_code.compare_code_with_texts(data, (ONE % "b", ONE % "s"))
        return {name: why for name, why in whys.items() if why}


def test_library_code_is_recognized(library, build, folder):
    """What is said of a library, of one without symbols, and of one that is changed."""
    builds, whys, has_names = same_code.compare_code_with_texts(library.data, (ONE % "b", ONE % "s"))
    tap.result(builds == same_code.BUILDS[library.file.processor] and len(whys) >= 94 and not any(whys.values())
               and has_names, "a library has the code of each exported call", whys)
    stripped = os.path.join(folder, "stripped.so")
    with open(stripped, "wb") as file:
        file.write(library.data)
    subprocess.run(["strip", stripped], check=True)
    with open(stripped, "rb") as file:
        data = file.read()
    tap.result(same_code.compare_code_with_texts(data, (ONE % "b", ONE % "s")) == (builds, whys, True),
               "so has a stripped one")
    text = same_code.assembled_text(same_code.BUILDS[library.file.processor][build], library.file.processor)
    function = text.functions[FINAL]
    start, size = library.symbols[f"{FINAL}_1_{build}"]
    known = [k for k in range(size) if function.known[k] == 255]
    for k in (known[0], known[len(known) // 2], known[-1]):
        whys = library.code_differences(library.with_bit_flipped(start + k))
        tap.result(whys == {FINAL: f"for {build}: the code differs {k} bytes from its start on"},
                   f"a bit of byte {k} of {FINAL} is seen", whys)
    whys = library.code_differences(library.with_bit_flipped(start + function.links[0][0]))
    tap.result(list(whys) == [FINAL] and "which differs" in whys[FINAL], "a call of another place is seen", whys)
    test_changed_callees_are_detected(library, build, text)
    test_changed_jumps_are_detected(library, build)


def test_changed_callees_are_detected(library, build, text):
    """Changes of what calls need: of the compression, and of one of its constants."""
    name = ONE % "b"
    start, _ = library.symbols[f"{name}_1_{build}"]
    text.compare(library.file)
    place, kind, symbol, plus = next(link for link in text.functions[name].links if link[2][2] not in text.names)
    bits = same_code.little_endian_word(library.file.bytes_at(start + place, 4))
    constant = (start + place + same_code.signed_number(bits, 32) - plus if library.file.processor == "x86_64" else
                same_code.page_of_address(bits, start + place) + symbol[3] + plus & ~0xfff) if kind else 0
    changes = {"the compression": start + 20}
    if library.file.processor == "x86_64":
        changes["a constant of the compression"] = constant
    for what, address in changes.items():
        whys = library.code_differences(library.with_bit_flipped(address))
        reached = {f"vulfsjor_ffi_blake2b{end}" for end in ("", "_update", "_final", "_verify")}
        tap.result(reached <= set(whys) and not [n for n in whys if n.startswith("vulfsjor_ffi_blake2s")],
                   f"a bit of {what} is seen in each call that reaches it", whys)


def test_changed_jumps_are_detected(library, build):
    """Changes of the ways to the code, and of those from it to the C library."""
    start, size = library.symbols[FINAL]
    place = library.file_offset_of_address(start)
    m = same_code.JUMPS[library.file.processor].match(library.data[place:place + size])
    at = place + m.start("one" if m["one"] else build)
    goes = int.from_bytes(library.data[at:at + 4], "little") + (16 if library.file.processor == "x86_64" else 4)
    for what, data in (("that goes elsewhere", library.with_bytes_replaced(at, goes.to_bytes(4, "little"))),
                       ("that is another one", library.with_bit_flipped(start))):
        whys = library.code_differences(data)
        tap.result(list(whys) == [FINAL] and whys[FINAL].startswith("the exported function "),
                   f"an exported function {what} is seen", whys)
    section = next(s for s in library.file.sections if s.name == ".rela.plt")
    slot = same_code.SLOTS[library.file.processor][1]
    names = [s[0] for _, _, kind, s, _ in library.file.relocations() if kind == slot]
    entries = [bytearray(section.data[k:k + 24]) for k in range(0, len(section.data), 24)]
    one, other = names.index("memcpy"), names.index("memset")
    entries[one][12:16], entries[other][12:16] = entries[other][12:16], entries[one][12:16]
    whys = library.code_differences(library.with_bytes_replaced(library.data.index(section.data),
                                                                b"".join(map(bytes, entries))))
    tap.result("the call of memset leads elsewhere" in whys.get("vulfsjor_ffi_wipe", ""), "another function of the C "
               "library is seen", whys)


def test_verify_command_results(library, path, folder):
    """What the command prints, its status, and what it refuses. The call is one that takes no time to show."""
    status, out, err = run_verify("--call", "wipe", path)
    tap.result(status == 0 and out.splitlines()[0].split() == [WIPE, "shown"] and out.endswith(
        f"1 shown: sha256 {hashlib.sha256(library.data).hexdigest()} {path}\n"), "the command says shown", out + err)
    bad = os.path.join(folder, "bad.so")
    with open(bad, "wb") as file:
        file.write(library.with_bit_flipped(library.symbols[WIPE][0]))
    status, out, err = run_verify_in_process("--call", "wipe", bad)
    tap.result(status == 1 and out.splitlines()[0].split()[:3] == [WIPE, "not", "shown:"],
               "it names the call of a changed library, with status 1", out + err)
    archive = os.path.join(os.path.dirname(path), "libvulfsjor.a")
    status, out, err = run_verify_in_process("--call", "wipe", archive)
    tap.result(status == 0 and out.splitlines()[0].endswith(" shown"), "it reads a static library", out + err)
    for words, why in ((["/dev/null"], "not an ELF file"), ([shutil.which("true")], "has no code of dist/"),
                       (["--call", "none"], "invalid choice"), (["--none"], "unrecognized"),
                       (["a", "b"], "unrecognized"), ([os.path.join(TOP, "docs")], "not the folder of"),
                       (["none"], "No such file")):
        status, out, err = run_verify_in_process(*words)
        tap.result(status == 2 and why in err and not out, f"it refuses {' '.join(words)}", out + err)


def test_missing_tools_are_named(folder):
    """What is said if a tool is absent."""
    fake = os.path.join(folder, "fake")
    os.mkdir(fake)
    with open(os.path.join(fake, "z3.py"), "w", encoding="utf-8") as file:
        file.write("raise ImportError\n")
    for name in ("bash", "dirname", "readlink", "python3", "cc", "ld", "uname", "grep"):
        os.symlink(shutil.which(name), os.path.join(fake, name))
    for package, environment in (("python3-z3", {"PYTHONPATH": fake}), ("binutils", {"PATH": fake})):
        status, out, err = run_verify("--call", "wipe", **environment)
        tap.result(status == 2 and f"(Debian: {package})" in err and not out, f"without {package} it says so",
                   out + err)
    os.remove(os.path.join(fake, "python3"))
    status, out, err = run_verify(PATH=fake)
    tap.result(status == 2 and "(Debian: python3" in err, "without python3 it says so", out + err)


def test_package_folders_are_read(build, folder):
    """The folders of packages, a changed one, and a changed text."""
    text = next(b[build] for b in same_code.BUILDS.values() if build in b)
    copy = os.path.join(folder, "copy")
    for name in ("c/include", "dist", "js/src", "tests", "tools"):
        shutil.copytree(os.path.join(TOP, name), os.path.join(copy, name), ignore=shutil.ignore_patterns("__pycache__"))
    for name in ("c/choose.c", "verify", "Cargo.toml", "js/package.json"):
        shutil.copy(os.path.join(TOP, name), os.path.join(copy, name))
    said = {}
    for place, changed in (("js", "js/src/wasm_blake2b.js"), ("", text)):
        path = os.path.join(copy, place).rstrip("/")
        status, out, err = run_verify_in_process("--call", "wipe", path)
        said[place] = status, out.splitlines()[0].split()[1:]
        with open(os.path.join(copy, changed), "ab") as file:
            file.write(b"\n")
        status, out, err = run_verify_in_process("--call", "wipe", path)
        tap.result(status == 1 and f"{os.path.relpath(changed, place or '.')} of " in out, f"a changed {changed} in a "
                   "package's folder is refused", out + err)
    tap.result(said == {"js": (0, ["only", "tested"]), "": (0, ["shown"])}, "folders of packages are read", said)
    with open(os.path.join(copy, text), encoding="utf-8") as file:
        before, name, after = file.read().partition(f"vj_export\t{FINAL}_")
    with open(os.path.join(copy, text), "w", encoding="utf-8") as file:
        file.write(before + name + re.sub(r"([$#])63\b", r"\g<1>62", after, count=1))
    status, out, err = run_verify("--call", "blake2b_final", top=copy)
    tap.result(status == 1 and out.startswith(f"{FINAL} ") and "not shown: is wrong" in out,
               "a text with a changed instruction is refused", out + err)


def test_full_verification_and_wheel(folder):
    """All that it tries without an option, and a wheel."""
    status, out, err = run_verify()
    lines = dict(line.split(None, 1) for line in out.splitlines()[:-1])
    shown = {name for name, said in lines.items() if said.startswith("shown")}
    wanted = {name for name in lines if name.startswith(("vulfsjor_ffi_blake2b", "vulfsjor_ffi_blake2s")) and not
              name.startswith(("vulfsjor_ffi_blake2bp", "vulfsjor_ffi_blake2sp")) and not
              name.endswith(("_many", "_save", "_load"))}
    tap.result(status == 0 and len(lines) >= 98 and shown == wanted | {"vulfsjor_ffi_memcmp", "vulfsjor_ffi_wipe"},
               "all calls of BLAKE2b and BLAKE2s but for several messages and saved states are shown", out + err)
    status, out, err = status_and_outputs([sys.executable, os.path.join(TOP, "python", "build_package.py"), "wheel",
                                           folder])
    wheel = os.path.join(folder, out.strip())
    status, out, err = run_verify("--call", "blake2b_final", wheel) if status == 0 else (status, out, err)
    tap.result(status == 0 and out.splitlines()[0].split() == [FINAL, "shown"], "a wheel is read", out + err,
               "" if "Python.h is missing" not in err else "no Python.h")


def main():
    """Makes all tests."""
    command.facts.rerun_with_debian_python(__file__, sys.argv[1:])
    command.facts.rerun_with_debian_python = lambda *_: None
    absent = [tool for tool in ("cc", "ld", "objdump", "strip") if not shutil.which(tool)]
    absent += ["python3-z3"] * (not command.facts.z3)
    if absent or platform.machine() not in same_code.BUILDS:
        print(f"1..0 # SKIP no {absent[0] if absent else 'assembly for this processor'}")
        return
    level = subprocess.run([os.path.join(TOP, "tests", "processor.sh")], stdout=subprocess.PIPE, text=True, check=True)
    build = level.stdout.strip().rpartition("-")[2].replace("aarch64", "arm")
    with tempfile.TemporaryDirectory() as folder:
        installed = os.environ.get("VULFSJOR_INSTALLED") or os.path.join(folder, "installed")
        if not os.path.isdir(installed):
            subprocess.run([os.path.join(TOP, "c", "install.sh"), installed], check=True, stderr=subprocess.DEVNULL)
        path = os.path.realpath(os.path.join(installed, "lib", "libvulfsjor.so"))
        with open(path, "rb") as file:
            library = ChangeableLibrary(file.read())
        test_library_code_is_recognized(library, build, folder)
        test_verify_command_results(library, path, folder)
        test_missing_tools_are_named(folder)
        test_package_folders_are_read(build, folder)
        if HUGE:
            test_full_verification_and_wheel(folder)
    tap.finish()


if __name__ == "__main__":
    main()
