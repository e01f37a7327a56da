"""Tests in each CPython that is found here, from 3.11 on: the module in subinterpreters, one module
in all versions, and builds without the GIL. Interpreters are those on the PATH, such as python3.13t,
those of pyenv, and those that PYTHONS names; without VULFSJOR_TEST_HUGE=1 only the running one."""
import functools
import glob
import os
import shutil
import subprocess
import sys
import tempfile
import unittest

import support
from support import FOLDER, HERE, HUGE, long, run

FILES = [f"test_{subject}.py" for subject in ("against_hashlib", "conformance", "files", "refusals", "threads",
                                              "update_many")]
ABOUT = """import sys, sysconfig
print(sys.executable, *sys.version_info[:2], bool(sysconfig.get_config_var("Py_GIL_DISABLED")),
      sys.implementation.name == "cpython", sep="|")"""


@functools.cache
def interpreters_by_version():
    """The path of an interpreter of each version, by the version and whether it has no GIL."""
    names = [sys.executable, *os.environ.get("PYTHONS", "").split(),
             *(f"python3.{minor}{end}" for minor in range(11, 20) for end in ("", "t")),
             *sorted(glob.glob(os.path.expanduser("~/.pyenv/versions/3.*/bin/python3")))]
    found = {}
    for path in filter(None, map(shutil.which, names if HUGE else names[:1])):
        try:  # one of pyenv that is not installed fails
            said = subprocess.run([path, "-c", ABOUT], capture_output=True, text=True, check=True)
        except (OSError, subprocess.CalledProcessError):
            continue
        full, major, minor, without_gil, is_cpython = said.stdout.strip().split("|")
        if (int(major), int(minor)) >= (3, 11) and is_cpython == "True":
            found.setdefault((int(major), int(minor), without_gil == "True"), full)
    return found


class InterpretersTest(unittest.TestCase):
    """Each interpreter that is found."""

    def assert_succeeds(self, *words, **environment):
        done = run(*words, env={**os.environ, "PYTHONWARNINGS": "error::RuntimeWarning",
                                **environment})
        self.assertEqual(done.returncode, 0, done.stdout)

    def test_subinterpreters_share_the_module(self):
        """One module, in each version."""
        for version, python in interpreters_by_version().items():
            if not version[2]:
                with self.subTest(python=python):
                    self.assert_succeeds(python, os.path.join(HERE, "in_subinterpreters.py"), FOLDER)
        if max(interpreters_by_version()) < (3, 12):
            self.skipTest("no CPython 3.12 or later, whose subinterpreters have a GIL each")

    @long
    def test_each_version_is_as_hashlib(self):
        """The same module returns what hashlib does in each version."""
        for version, python in interpreters_by_version().items():
            if not version[2] and version[:2] != sys.version_info[:2]:
                for file in FILES:
                    with self.subTest(python=python, file=file):
                        self.assert_succeeds(python, "-m", "unittest", "discover", HERE, file, VULFSJOR_PACKAGE=FOLDER)

    def test_gil_stays_off_without_it(self):
        """The module is built for that Python, leaves the GIL off, and passes the tests."""
        found = [python for version, python in interpreters_by_version().items() if version[2]]
        if not found:
            self.skipTest("no CPython without the GIL")
        for python in found:
            with self.subTest(python=python), tempfile.TemporaryDirectory() as folder:
                self.assertRegex(support.build(folder, python), r"-cp(3\d+)-cp\1t-linux_\w+\.whl\n\Z")
                self.assert_succeeds(python, "-c", f"import sys; sys.path.insert(0, {folder!r}); "
                                     "import vulfsjor; assert not sys._is_gil_enabled()")
                self.assert_succeeds(python, os.path.join(HERE, "in_subinterpreters.py"), folder)
                for file in (*FILES, "test_api.py"):
                    self.assert_succeeds(python, "-m", "unittest", "discover", HERE, file, VULFSJOR_PACKAGE=folder)


if __name__ == "__main__":
    unittest.main()
