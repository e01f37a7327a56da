"""The verdicts of check.py's short form that are kept, in the user's cache folder: what was right is not done again
while all that it depends on is the same. That is the tool, the header, the programs that it runs, the processor, and
the files of dist/ and js/src that it has read. `--long` keeps none, and reads none."""

import functools
import glob
import hashlib
import json
import os
import platform
import shutil
import sys
from typing import Any

import facts
from elf import ROOT

FOLDER = os.path.join(os.environ.get("XDG_CACHE_HOME") or os.path.expanduser("~/.cache"), "vulfsjor", "machine")
MOST = 8                               # states of the tool of which verdicts are kept
FILES = ("tests/machine/*.*", "tools/wasm_format.py", "c/include/vulfsjor.h", "dist/*/elf.inc")
NAMES = ("dist/*/*", "js/src/*")       # of which it matters that there is no other
TOOLS = [prefix + tool for prefix in ("", "aarch64-linux-gnu-") for tool in "gcc as ld objdump nm".split()]
TOOLS += [os.environ.get("CC", "cc"), "qemu-aarch64", "node"]


@functools.lru_cache(maxsize=None)
def file_hash(path: str) -> str:
    with open(os.path.join(ROOT, path), "rb") as f:
        return hashlib.sha256(f.read()).hexdigest()


def environment_hash() -> str:
    """The hash of what all verdicts depend on."""
    names = {part: sorted(p for each in part for p in glob.glob(each, root_dir=ROOT)) for part in (FILES, NAMES)}
    hashes = [(name, file_hash(name)) for name in names[FILES]]
    found: list[Any] = [names[NAMES], hashes, sys.version, platform.machine()]
    for path in [os.path.realpath(str(p)) for p in map(shutil.which, TOOLS) if p]:
        found.append((path, os.stat(path).st_size, os.stat(path).st_mtime_ns))
    with open("/proc/cpuinfo", encoding="utf-8") as f:
        found.append(next((line for line in f if line.startswith(("flags", "Features"))), ""))
    found.append(facts.z3.get_full_version() if facts.z3 else "")
    return hashlib.sha256(repr(found).encode()).hexdigest()


class VerdictCache:
    """The verdicts of this state of the tool, by the titles of checks: why, and the hashes of the files read; and the
    results of the last run, each a verdict, a title and why."""

    def __init__(self) -> None:
        self.path = os.path.join(FOLDER, environment_hash() + ".json")
        try:
            with open(self.path, encoding="utf-8") as f:
                self.verdicts, self.results = json.load(f)
        except (OSError, ValueError):
            self.verdicts, self.results = {}, []

    def results_if_all_known(self) -> list:
        """The results of a run, if they are known without one: each check was right, or skipped, and is kept."""
        is_known = lambda verdict, title: verdict == "skip" or verdict == "ok" and self.kept_reason(title) is not None
        return self.results if all(is_known(*result[:2]) for result in self.results) else []

    def kept_reason(self, title: str) -> str | None:
        """Why a check was right, or None."""
        why, files = self.verdicts.get(title, (None, {}))
        return why if all(os.path.exists(os.path.join(ROOT, path)) and file_hash(path) == found
                          for path, found in files.items()) else None

    def keep_verdict(self, title: str, why: str, files: set) -> None:
        self.verdicts[title] = why, {path: file_hash(path) for path in sorted(files)}

    def save(self, results: list) -> None:
        """Writes them, if there is a place, and removes the oldest of other states."""
        try:
            os.makedirs(FOLDER, exist_ok=True)
            with open("%s.%d" % (self.path, os.getpid()), "w", encoding="utf-8") as f:
                json.dump((self.verdicts, results), f)
            os.replace(f.name, self.path)
            for old in sorted(glob.glob(os.path.join(FOLDER, "*.json")), key=os.path.getmtime)[:-MOST]:
                os.remove(old)
        except OSError:
            pass
