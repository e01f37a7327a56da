#!/usr/bin/env python3
"""The version, in each place that has it:

    tools/version.py NUMBER     writes it, such as 0.2.0: the places below, and then the man pages. CHANGELOG.md gets
                                a heading unless it has one
    tools/version.py --check    compares the places with the first heading of CHANGELOG.md

`b2sum --version` prints the version that changed the code last, since that number is proved too. So that is not
written here, and may be any that has a heading.
"""
import pathlib
import re
import subprocess
import sys

TOP = pathlib.Path(__file__).resolve().parent.parent
NUMBER = r"\d+\.\d+\.\d+"
HEADER = "c/include/vulfsjor.h"
# Files, what is before and after the version there, and the form of a part of it, or of all in hexadecimal.
PLACES = (
    (HEADER, r'#define VULFSJOR_VERSION "', '"'), (HEADER, "#define VULFSJOR_VERSION_MAJOR ", "\n", "{0}"),
    (HEADER, "#define VULFSJOR_VERSION_MINOR ", "\n", "{1}"), (HEADER, "#define VULFSJOR_VERSION_PATCH ", "\n", "{2}"),
    (HEADER, "#define VULFSJOR_VERSION_NUMBER ", "\n", "0x{0:02x}{1:02x}{2:02x}"),
    ("README.md", r"\*\*Status:\*\*\s+", ";"), ("Cargo.toml", '\nversion = "', '"\n'),
    ("Cargo.lock", 'name = "vulfsjor"\nversion = "', '"\n'), ("rust-digest/Cargo.toml", '\nversion = "', '"\n'),
    ("rust-digest/Cargo.toml", '\nvulfsjor = { version = "', '"'), ("python/pyproject.toml", '\nversion = "', '"\n'),
    ("js/package.json", '\n  "version": "', '",\n'), ("packaging/debian/changelog", r"\Avulfsjor \(", "-1\\)"),
    ("packaging/vulfsjor.spec", "\nVersion: +", "\n"),
    *((str(page.relative_to(TOP)), r'\n\.TH .* [13] .*"Vulfsjor ', '"\n')
      for pattern in ("docs/*.1", "c/man/*.3") for page in sorted(TOP.glob(pattern))),
)
PROGRAM = "crates/b2sum_commands/src/program.rt"


def read(path):
    return (TOP / path).read_text(encoding="utf-8")


def refuse(why):
    sys.exit(f"version.py: {why}")


def released_versions():
    return re.findall(rf"(?m)^## ({NUMBER})\b", read("CHANGELOG.md"))


def places_of_version(version):
    """The places: for each its file, what is there, as a match, and what this version would be there."""
    for path, before, after, *form in PLACES:
        matches = list(re.finditer(f"({before})([0-9a-fx.]+)({after})", read(path)))
        if len(matches) != 1:
            refuse(f"{path} has {len(matches)} places with {before!r}")
        yield path, matches[0], "".join(form or ["{0}.{1}.{2}"]).format(*map(int, version.split(".")))


def check():
    version = released_versions()[0]
    said = [f"{path} has {match[2]}, and CHANGELOG.md has {version}" for path, match,
            wanted in places_of_version(version)
            if match[2] != wanted]
    match = re.search(rf'b"b2sum \(Vulfsjor\) ({NUMBER})\\n"', read(PROGRAM))
    if not match or match[1] not in released_versions():
        said.append(f"CHANGELOG.md has no heading for the version {match and match[1]} in {PROGRAM}")
    if said:
        refuse("\nversion.py: ".join(said))


def write(version):
    if version not in released_versions():
        text = read("CHANGELOG.md").replace("\n## ", f"\n## {version}\n\n## ", 1)
        (TOP / "CHANGELOG.md").write_text(text, encoding="utf-8")
    elif version != released_versions()[0]:
        refuse(f"CHANGELOG.md has a newer version than {version}")
    for path, match, wanted in places_of_version(version):
        text = match.string[:match.start(2)] + wanted + match.string[match.end(2):]
        (TOP / path).write_text(text, encoding="utf-8")
    subprocess.run([TOP / "tools" / "manual.py"], check=True)
    subprocess.run([TOP / "tools" / "dist.sh", "sums"], check=True)


if sys.argv[1:] == ["--check"]:
    check()
elif len(sys.argv) == 2 and re.fullmatch(NUMBER, sys.argv[1]):
    write(sys.argv[1])
else:
    sys.exit("usage: tools/version.py NUMBER|--check")
