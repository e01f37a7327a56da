#!/usr/bin/env python3
"""What the tests share, and the package.

The tests import the package from the folder VULFSJOR_PACKAGE. If that is not set, they build it
first, in a folder that is removed when they end.

usage: support.py FOLDER      builds the package in FOLDER. Status 77: a tool is missing
"""
import atexit
import contextlib
import ctypes
import faulthandler
import functools
import importlib.util
import os
import shutil
import subprocess
import sys
import sysconfig
import tempfile
import threading
import unittest
import zipfile

HERE = os.path.dirname(os.path.abspath(__file__))
TOP = os.path.dirname(os.path.dirname(HERE))
WITHOUT_GIL = bool(sysconfig.get_config_var("Py_GIL_DISABLED"))
BACKEND = os.path.join(os.path.dirname(HERE), "build_package.py")
# Whether this is a clone of the repository, or a source distribution, which has not all that the tests need.
IS_CLONE = os.path.isdir(os.path.join(TOP, "c", "tests"))
HUGE = os.environ.get("VULFSJOR_TEST_HUGE") == "1"
# A test that takes seconds of processor time, and whose subject shorter ones have too.
long = unittest.skipUnless(HUGE, "VULFSJOR_TEST_HUGE is not 1")


def why_absent(*modules, tools=()):
    """What is missing of these modules and programs, as a reason to skip a test, or ''."""
    found = [name for name in tools if not shutil.which(name)]
    for name in modules:
        with contextlib.suppress(ModuleNotFoundError):  # of the package that has the module
            if importlib.util.find_spec(name):
                continue
        found.append(name)
    return " and ".join(f"no {name}" for name in found)


def skip_unless_in_clone():
    """Skips the file of tests that calls this in a source distribution."""
    if not IS_CLONE:
        raise unittest.SkipTest("this is not a clone of the repository")


def why_cannot_build():
    """Why this interpreter can't build the package, or ''."""
    if sys.version_info < (3, 11):
        return "no Python 3.11"
    header = os.path.join(sysconfig.get_path("include"), "Python.h")
    return why_absent(tools=["cc"]) or ("" if os.path.exists(header) else "no Python.h")


def why_cannot_compile(compiler):
    """Why this compiler for another processor can't be used, or ''. Debian's only recommend its C
    library."""
    if why := why_absent(tools=[compiler]):
        return why
    done = run(compiler, "-E", "-include", "stdlib.h", "-x", "c", os.devnull)
    return f"no C library for {compiler}" if done.returncode else ""


def run(*words, **named):
    """Runs a program, and returns what it has printed and its status."""
    return subprocess.run(words, stdout=subprocess.PIPE, stderr=subprocess.STDOUT, text=True, check=False, **named)


def build(folder, python=sys.executable, **environment):
    """Builds the package in a folder, without a warning of the compiler. Returns what the build has printed."""
    flags = f"-Werror {environment.pop('CFLAGS', '')}"
    with tempfile.TemporaryDirectory() as made:
        done = run(python, BACKEND, "wheel", made, env={**os.environ, "CFLAGS": flags, **environment})
        if done.returncode:
            raise RuntimeError(f"building failed:\n{done.stdout}")
        for name in os.listdir(made):
            with zipfile.ZipFile(os.path.join(made, name)) as wheel:
                wheel.extractall(folder)
    return done.stdout


def package():
    """The folder with the package."""
    if "VULFSJOR_PACKAGE" not in os.environ:
        if why_cannot_build():
            raise unittest.SkipTest(why_cannot_build())
        folder = tempfile.mkdtemp()
        atexit.register(shutil.rmtree, folder)
        build(folder)
        os.environ["VULFSJOR_PACKAGE"] = folder
    return os.path.abspath(os.environ["VULFSJOR_PACKAGE"])


def unreadable_buffer(length):
    """A buffer that is longer than the memory, for calls that read no byte of it."""
    return (ctypes.c_char * length).from_address(id(unreadable_buffer))


@contextlib.contextmanager
def running_in_threads(count, work):
    """Does some work in threads during a block, and waits for them at its end."""
    threads = [threading.Thread(target=work) for _ in range(count)]
    for thread in threads:
        thread.start()
    yield
    for thread in threads:
        thread.join()


class Test(unittest.TestCase):
    """A test with a folder, self.folder, that is made if it is used. If it hangs for long, the program ends and shows
    where."""

    def run(self, result=None):
        faulthandler.dump_traceback_later(1200, exit=True)
        try:
            return super().run(result)
        finally:
            faulthandler.cancel_dump_traceback_later()

    @functools.cached_property
    def folder(self):
        return self.enterContext(tempfile.TemporaryDirectory())

    def file(self, data=b"", length=None):
        """The path of a file with these bytes, and then zeros up to this length."""
        path = os.path.join(self.folder, "file")
        with open(path, "wb") as file:
            file.write(data)
            file.truncate(length)
        return path

    def assert_refuses(self, kind, text, call, *args, **words):
        """The call raises this exception, and no subclass, with this text."""
        with self.assertRaises(kind) as caught:
            call(*args, **words)
        self.assertEqual((type(caught.exception), str(caught.exception)), (kind, text))


if __name__ == "__main__":
    if why_cannot_build():
        print(why_cannot_build())
        sys.exit(77)
    print(build(os.path.abspath(sys.argv[1])))
    sys.exit()
FOLDER = package()
sys.path[:0] = [FOLDER, os.path.join(TOP, "tests")]
