"""Tests examples/dask_root.py, whose roots tests/oracle.py makes with hashlib: by a client that runs
each task here, and the program over a cluster. They need Dask (Debian's python3-distributed)."""
import os
import subprocess
import sys
import unittest
from unittest import mock

from support import FOLDER, TOP, Test, why_absent, long, skip_unless_in_clone

skip_unless_in_clone()
if why_absent("distributed"):
    raise unittest.SkipTest(why_absent("distributed"))
EXAMPLES = os.path.join(TOP, "python", "examples")
sys.path.insert(0, EXAMPLES)
import dask_root  # noqa: E402
from oracle import tree_root  # noqa: E402

LEAF = 1000


class LocalClient:
    """A client that runs each task in this process."""
    gather = staticmethod(list)

    @staticmethod
    def submit(function, *given, pure):
        assert not pure
        return function(*given)


class DaskTest(Test):
    """The example, over a file."""

    def write_random_file(self, length):
        """Makes the file hold this many bytes, and returns them."""
        message = os.urandom(length)
        self.path = self.file(message)
        return message

    def test_roots_are_those_of_tree_root(self):
        for length in (0, 1, LEAF, LEAF + 1, 8 * LEAF - 1, 8 * LEAF, 8 * LEAF + 1, 44321):
            message = self.write_random_file(length)
            for size in (1, 5 * LEAF, 8 * LEAF, 1 << 40):
                self.assertEqual(dask_root.tree_root(LocalClient, self.path, LEAF, size), tree_root(message, LEAF, 64))
        self.assertEqual(dask_root.tree_root(LocalClient, self.path, 65536), tree_root(message, 65536, 64))

    def test_ranges_are_multiples_of_four(self):
        """A range has a multiple of four leaves, and at least four, except the last; 64 MiB if no size is given."""
        asked = []
        answer = lambda _path, _length, _leaf, *given: asked.append(given) or bytes(64 * given[1])
        self.write_random_file(0)
        with mock.patch.object(dask_root, "hash_leaf_range", answer):
            for length, given, part, count in ((30001, (LEAF, 1), 4, 31), (30001, (LEAF, 31 * LEAF), 28, 31),
                                               ((64 << 20) + 1, (65536,), 1024, 1025)):
                asked.clear()
                os.truncate(self.path, length)
                dask_root.tree_root(LocalClient, self.path, *given)
                self.assertEqual(asked, [(first, min(part, count - first)) for first in range(0, count, part)])

    def test_wrong_answers_and_lengths_are_refused(self):
        message = self.write_random_file(8000)
        for change in (-64, -1, 1, 64):
            answer = mock.Mock(return_value=bytes(512 + change))
            with mock.patch.object(dask_root, "hash_leaf_range", answer), \
                    self.assertRaisesRegex(ValueError, f"^{512 + change} bytes came for 8 leaves from 0 on$"):
                dask_root.tree_root(LocalClient, self.path, LEAF)
        for length in (7000, 9000):
            with self.assertRaisesRegex(ValueError, f"has 8000 bytes on this worker, and not {length}"):
                dask_root.hash_leaf_range(self.path, length, LEAF, 0, 1)
        with mock.patch("os.fstat", return_value=mock.Mock(st_size=9000)), \
                self.assertRaisesRegex(EOFError, "ended before byte 9000"):
            dask_root.hash_leaf_range(self.path, 9000, LEAF, 8, 1)
        whole = os.preadv
        with mock.patch("os.preadv", lambda file, views, start: whole(file, [views[0][:7]], start)), \
                open(self.path, "rb", buffering=0) as file:
            self.assertEqual(dask_root.read_at(file, 900, 50), message[50:950])

    @long
    def test_program_prints_the_root(self):
        """By one worker in its process."""
        message = self.write_random_file(200000)
        code = "import functools, dask_root as d\n" \
            "d.LocalCluster = functools.partial(d.LocalCluster, n_workers=1, processes=False)\nd.main()"
        for words, status, out, errors in (
                (["file"], 0, f"{tree_root(message, 65536, 64).hex()}  file\n", "^"),
                (["--leaf", "777", "file"], 0, f"{tree_root(message, 777, 64).hex()}  file\n", "^"),
                (["absent"], 1, "", "(?m)^dask_root.py: .*No such file or directory: '.*/absent'$"),
                *((words, 2, "", "usage: ") for words in (
                    [], ["--leaf", "0", "file"], ["--leaf", "4294967296", "file"], ["a", "b"]))):
            done = subprocess.run([sys.executable, "-c", code, *words], cwd=os.path.dirname(self.path), text=True,
                                  env={**os.environ, "PYTHONPATH": os.pathsep.join([FOLDER, EXAMPLES])},
                                  capture_output=True, check=False)
            self.assertEqual((done.returncode, done.stdout), (status, out), words)
            self.assertRegex(done.stderr, errors)


if __name__ == "__main__":
    unittest.main()
