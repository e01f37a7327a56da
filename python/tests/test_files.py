"""Tests of file_digest next to hashlib.file_digest, and of the root of a file in a tree: files of every kind,
parameters, what is refused, and what is reported of progress."""
import errno
import fcntl
import functools
import hashlib
import io
import itertools
import os
import pathlib
import random
import subprocess
import sys
import tempfile
import threading
import tracemalloc
import unittest
from unittest import mock

from families import DATA, FAMILIES, MIB, TEXTS, have_hashing_threads_ended
from support import Test, running_in_threads
import oracle
import vulfsjor
from vulfsjor import _files

DICE = random.Random(12)
KEY = bytes(range(1, 33))
NAMED = {name: theirs for name, _, theirs, *_ in FAMILIES}
BUFFER, KIB = 1 << 18, 1 << 10


class File(io.RawIOBase):
    """A file whose reads return these: bytes, or a number that is returned as it is, or an exception."""

    def __init__(self, *reads):
        super().__init__()
        self.reads, self.sizes = list(reads), []

    def readable(self):
        return True

    def readinto(self, buffer):
        self.sizes.append(len(buffer))
        read = self.reads.pop(0) if self.reads else b""
        if isinstance(read, BaseException):
            raise read
        if not isinstance(read, bytes):
            return read
        buffer[:len(read)] = read
        return len(read)


class FileDigestTest(Test):
    """Which bytes are hashed."""

    def test_lengths_around_buffer_ends(self):
        """Around the ends of the buffer, of files with a buffer of their own and without, from a position on. All of
        io.BytesIO is hashed, as by hashlib."""
        path = pathlib.Path(self.folder, "file")
        for length, place in ((0, 0), (1, 0), (2, 1), (BUFFER, 0), (BUFFER, 1), (BUFFER + 1, 0), (BUFFER, BUFFER),
                              (3 * BUFFER + 5, 0)):
            data = DICE.randbytes(length)
            path.write_bytes(data)
            for name, wanted in NAMED.items():
                for buffering, digest in ((0, name), (-1, getattr(vulfsjor, name))):
                    with open(path, "rb", buffering) as file:
                        file.seek(place)
                        found = vulfsjor.file_digest(file, digest)
                        self.assertEqual((found.digest(), file.tell()), (wanted(data[place:]).digest(), length))
                        self.assertIs(type(found), getattr(vulfsjor, name))
            held = io.BytesIO(data)
            held.seek(place)
            self.assertEqual(vulfsjor.file_digest(held, "blake2b").digest(), hashlib.blake2b(data).digest())
            self.assertEqual((held.tell(), hashlib.file_digest(held, "blake2b").digest()),
                             (place, hashlib.blake2b(data).digest()))
            held.write(b"longer" * 999)  # its bytes are not held any longer

    def test_parameters_are_passed_on(self):
        data = DICE.randbytes(1000)
        for name, wanted in NAMED.items():
            words = {"digest_size": 20, "key": KEY, "salt": b"salt", "person": b"person"}
            tag = wanted(data, **words).digest()
            for each in (name, f"{name}_mac"):
                for digest in (each, getattr(vulfsjor, each)):
                    found = vulfsjor.file_digest(io.BytesIO(data), digest, **words)
                    self.assertIs(type(found), getattr(vulfsjor, each))
                    self.assertEqual(found.digest(), tag)
                    found.verify(tag)
                    self.assertRaises(vulfsjor.InvalidTag, found.verify, tag[:-1])
            found = vulfsjor.file_digest(io.BytesIO(data), functools.partial(getattr(vulfsjor, name), **words))
            self.assertEqual(found.digest(), tag)
        for name in ("blake2xb", "blake2xs"):
            found = vulfsjor.file_digest(io.BytesIO(data), name, length=99, key=KEY)
            self.assertEqual(found.digest(99), getattr(vulfsjor, name)(data, length=99, key=KEY).digest(99))
        node = {"fanout": 2, "depth": 3, "leaf_size": 5, "node_offset": 7, "node_depth": 1, "inner_size": 9,
                "last_node": True}
        self.assertEqual(vulfsjor.file_digest(io.BytesIO(data), "blake2b", **node).digest(),
                         hashlib.blake2b(data, **node).digest())
        self.assertEqual(vulfsjor.file_digest(io.BytesIO(data), vulfsjor.TreeHasher, leaf_size=9).digest(),
                         oracle.tree_root(data, 9))
        self.assertEqual(vulfsjor.file_digest(io.BytesIO(data), hashlib.sha256).digest(),
                         hashlib.sha256(data).digest())

    def test_reads(self):
        """Short ones, and none that the file has not returned, into one buffer."""
        pieces, made = [DICE.randbytes(DICE.choice([1, 2, 4095, BUFFER])) for _ in range(20)], []
        file = File(*pieces)
        with mock.patch.object(_files, "bytearray", lambda size: made.append(size) or bytearray(size), create=True):
            found = vulfsjor.file_digest(file, "blake2b")
        self.assertEqual(found.digest(), hashlib.blake2b(b"".join(pieces)).digest())
        self.assertEqual((made, file.sizes), ([BUFFER], [BUFFER] * 21))

    def test_pipes(self):
        data = DICE.randbytes(700_001)
        reads, writes = os.pipe()
        end = open(writes, "wb")
        with running_in_threads(1, lambda: (end.write(data), end.close())), open(reads, "rb") as file:
            self.assertEqual(vulfsjor.file_digest(file, "blake2s").digest(), hashlib.blake2s(data).digest())


class FileDigestRefusalsTest(Test):
    """What is refused, as by hashlib.file_digest where that refuses it too."""

    def test_wrong_files_are_refused(self):
        path = os.path.join(self.folder, "file")
        with open(path, "w", encoding="utf-8") as text, open(path + "2", "wb") as written, \
                open(path, encoding="utf-8") as read, open(path, "rb") as closed:
            closed.close()
            for file in (path, None, 5, b"abc", bytearray(), [b"x"], text, written, io.StringIO("x"), read, closed):
                with self.assertRaises(ValueError) as theirs:
                    hashlib.file_digest(file, "blake2b")
                self.assert_refuses(ValueError, str(theirs.exception), vulfsjor.file_digest, file, "blake2b")
        held = io.BytesIO(b"x")
        held.close()
        self.assertRaises(ValueError, vulfsjor.file_digest, held, "blake2b")

    def test_reads(self):
        """A read that would block, that fails, and that returns a number it can't."""
        reads, writes = os.pipe()
        os.set_blocking(reads, False)
        with open(reads, "rb", 0) as file, open(writes, "wb", 0) as end:
            end.write(b"abc")
            with self.assertRaises(BlockingIOError) as caught:
                vulfsjor.file_digest(file, "blake2b")
            self.assertEqual(caught.exception.args, (11, os.strerror(11)))
        for error in (OSError(5, "failed"), KeyboardInterrupt(), ValueError("own")):
            with self.assertRaises(type(error)) as caught:
                vulfsjor.file_digest(File(b"abc", error), "blake2b")
            self.assertIs(caught.exception, error)
        for wrong in (BUFFER + 1, -1, 2**70):
            self.assert_refuses(OSError, f"readinto() returned {wrong} for a buffer of {BUFFER} bytes",
                                vulfsjor.file_digest, File(b"abc", wrong), "blake2b")
        self.assertEqual(vulfsjor.file_digest(File(bytes(BUFFER)), "blake2b").digest(),
                         hashlib.blake2b(bytes(BUFFER)).digest())

    def test_wrong_hash_names_are_refused(self):
        for name in ("", "blake2", "BLAKE2b", "sha256", "blake2b_many", "tree_root", "TreeHasher", "InvalidTag",
                     "BLAKE2B_SALT_SIZE", "derive_key", "__name__", "blake2c"):
            self.assert_refuses(ValueError, f"unsupported hash type {name}", vulfsjor.file_digest, io.BytesIO(b"x"),
                                name)
        for wrong in (None, 5, b"blake2b", vulfsjor.blake2b(), object()):
            self.assertRaises(TypeError, vulfsjor.file_digest, io.BytesIO(b"x"), wrong)

    def test_wrong_arguments_are_refused(self):
        digest, file = vulfsjor.file_digest, File(b"x")
        for call in (lambda: digest(), lambda: digest(file), lambda: digest(file, "blake2b", KEY),
                     lambda: digest(file, "blake2b", _bufsize=9), lambda: digest(file, "blake2b", key="text"),
                     lambda: digest(file, "blake2b_mac"), lambda: digest(fileobj=file, digest="blake2b")):
            self.assertRaises(TypeError, call)
        for name, words in (("blake2b", {"digest_size": 0}), ("blake2b_mac", {"key": b""})):
            self.assertRaises(ValueError, digest, file, name, **words)
        self.assertEqual(file.sizes, [])  # nothing was read


class TreeRootFileTest(Test):
    """Roots of files of all kinds."""

    def test_roots_of_regular_files(self):
        """By their paths, and by a descriptor, which keeps its position. From 256 KiB on a file is for threads. Four
        leaves of 4 MiB are as many bytes as a buffer may have, and a longer leaf is read in pieces. The progress is
        that of the caller's thread, in parts of 1 MiB by one thread."""
        for length, leaf_size in (
                (0, 5000), (1, 5000), (256 * KIB - 1, 5000), (256 * KIB, 5000), (len(DATA), 5000), (len(DATA), 1 << 14),
                *((17 * MIB + 5, leaf_size) for leaf_size in (4 * MIB, 4 * MIB + 1, 16 * MIB + 1, 17 * MIB))):
            data = (DATA * 2)[:length]
            path, wanted = self.file(data), oracle.tree_root(data, leaf_size, 20, **TEXTS)
            file = self.enterContext(open(path, "rb", buffering=0))
            for threads, name, place in ((0, path, 777), (1, path.encode(), 0), (3, pathlib.Path(path), 0),
                                         (1, file.fileno(), 777), (3, file.fileno(), length + 5)):
                seen = []
                file.seek(place)
                found = vulfsjor.tree_root_file(name, leaf_size, digest_size=20, threads=threads, **TEXTS,
                                                progress=lambda done: seen.append((threading.get_ident(), done)))
                numbers = [done for _, done in seen]
                self.assertEqual((found, numbers[-1], file.tell()), (wanted, length, place))
                self.assertEqual((numbers, {thread for thread, _ in seen}),
                                 (sorted(set(numbers)), {threading.get_ident()}))
                if threads == 1 and leaf_size in (1 << 14, 17 * MIB):
                    self.assertEqual(numbers, [*range(MIB, length, MIB), length])

    def test_pipes(self):
        """Another thread writes to the pipe in steps."""
        def write():
            for at in range(0, len(data), step):
                os.write(writer, data[at:at + step])
            os.close(writer)

        for data, step, threads in ((b"", 1, 0), (b"abc", 1, 1), (DATA[:100_000], 999, 3), (DATA[:8 * MIB], 1 << 16, 1),
                                    (DATA, 1 << 16, 3)):
            (reader, writer), seen = os.pipe(), []
            with running_in_threads(1, write):
                found = vulfsjor.tree_root_file(reader, 1 << 14, threads=threads, progress=seen.append)
            os.close(reader)  # it is still open
            self.assertEqual((found, seen[-1]), (oracle.tree_root(data, 1 << 14), len(data)))
            self.assertEqual(seen, sorted(set(seen)))
        name = os.path.join(self.folder, "fifo")
        os.mkfifo(name)
        with subprocess.Popen(["sh", "-c", f"printf abc >'{name}'"]):
            self.assertEqual(vulfsjor.tree_root_file(name, 2), oracle.tree_root(b"abc", 2))

    def test_roots_of_proc_and_sys_files(self):
        """The first reports no bytes, the last 4,096, more than it has."""
        for name in ("/proc/version", "/dev/null", "/sys/kernel/mm/transparent_hugepage/enabled"):
            if os.path.exists(name):
                with open(name, "rb") as file:
                    wanted = oracle.tree_root(file.read(), 10)
                    self.assertEqual(vulfsjor.tree_root_file(name, 10), wanted)
                    file.seek(0)
                    self.assertEqual(vulfsjor.tree_root_file(file.fileno(), 10), wanted)

    def test_roots_of_sparse_and_growing_files(self):
        path = self.file(length=5 * MIB + 3)
        wanted = oracle.tree_root(bytes(5 * MIB + 3), 1 << 16)
        for threads in (1, 4):
            self.assertEqual(vulfsjor.tree_root_file(path, 1 << 16, threads=threads), wanted)

        def grow(done):
            with open(path, "ab") as file:
                file.write(b"more")

        self.assertEqual(vulfsjor.tree_root_file(path, 1 << 16, threads=4, progress=grow), wanted)

    def test_buffer_size_for_one_thread(self):
        """The buffer is as long as eight leaves, and has 4 to 16 MiB."""
        for leaf_size, wanted in ((1, 4), (MIB, 8), (2 * MIB, 16), (2**32 - 1, 16)):
            tracemalloc.start()
            try:
                vulfsjor.tree_root_file(self.file(b"abc"), leaf_size)
                peak = tracemalloc.get_traced_memory()[1]
            finally:
                tracemalloc.stop()
            self.assertLess(abs(peak - wanted * MIB), MIB // 4)


class TreeRootFileRefusalsTest(Test):
    """Errors of roots, each with the path."""

    @unittest.skipUnless(os.path.isdir("/dev/shm"), "no /dev/shm")
    def test_bool_and_file_are_no_descriptor(self):
        """A bool is no file descriptor, and neither is an open file."""
        for wrong in (True, False):
            self.assert_refuses(TypeError, "path must be a path or a file descriptor, not a bool",
                                vulfsjor.tree_root_file, wrong, 4096)
        self.assertRaises(TypeError, vulfsjor.tree_root_file, io.BytesIO(b"abc"), 4096)

    def test_file_of_2_to_58_bytes_is_refused(self):
        """On a file system in memory that has such lengths. A byte less is not refused: the callback is called."""
        with tempfile.NamedTemporaryFile(dir="/dev/shm") as file:
            for length, wanted in ((2**58, OverflowError), (2**58 - 1, LookupError)):
                os.truncate(file.name, length)
                for threads in (1, 2):
                    self.assertRaises(wanted, vulfsjor.tree_root_file, file.name, 2**32 - 1, threads=threads,
                                      progress=mock.Mock(side_effect=LookupError))

    def test_file_that_shrinks_is_an_error(self):
        text = "[Errno 5] the file became shorter while it was read: {!r}"
        for threads in (1, 2):
            for end in (0, MIB, 40 * MIB, 64 * MIB - 5):
                path = self.file(length=64 * MIB)
                with self.assertRaises(OSError) as caught:
                    vulfsjor.tree_root_file(path, 1 << 14, threads=threads,
                                            progress=lambda done: os.truncate(path, end))
                self.assertEqual(str(caught.exception), text.format(path))
                self.assertEqual((caught.exception.errno, caught.exception.filename), (errno.EIO, path))

    def test_errors_name_the_path(self):
        root, absent = vulfsjor.tree_root_file, os.path.join(self.folder, "absent")
        for kind, text, path, leaf_size, words in (
                (FileNotFoundError, f"[Errno 2] No such file or directory: {absent!r}", absent, 1, {}),
                (IsADirectoryError, f"[Errno 21] Is a directory: {self.folder!r}", self.folder, 1, {}),
                (OSError, "[Errno 9] Bad file descriptor", 12345, 1, {}),
                (ValueError, "embedded null byte", "a\0b", 1, {}),
                (OSError, "[Errno 5] Input/output error: '/proc/self/mem'", "/proc/self/mem", 10, {}),
                (TypeError, "progress must be callable", absent, 1, {"progress": 5}),
                (ValueError, "leaf_size must be between 1 and 4294967295", absent, 0, {}),
                (ValueError, "threads must be 0 or more", absent, 1, {"threads": -1})):
            self.assert_refuses(kind, text, root, path, leaf_size, **words)
        for path in (None, [], object()):
            self.assertRaises(TypeError, root, path, 1)
        for length in (3, MIB):
            with open(self.file(length=length), "ab") as file:
                for threads in (1, 3):
                    self.assert_refuses(OSError, f"[Errno 9] Bad file descriptor: {file.fileno()}", root, file.fileno(),
                                        1, threads=threads)
        reader, writer = os.pipe()
        fcntl.fcntl(reader, fcntl.F_SETFL, os.O_NONBLOCK)
        self.assert_refuses(BlockingIOError, f"[Errno 11] Resource temporarily unavailable: {reader}", root, reader, 1)
        os.close(reader)
        os.close(writer)

    def test_short_and_failing_reads(self):
        class File(io.FileIO):
            """A file that is read in short pieces, and may fail after the first."""
            fails = False

            def readinto(self, view):
                if self.fails and self.tell():
                    raise OSError(errno.ENXIO, "broken")
                return super().readinto(view[:999])

        path, wanted = self.file(DATA[:100_000]), oracle.tree_root(DATA[:100_000], 1 << 14)
        with mock.patch.object(io, "FileIO", File):
            self.assertEqual(vulfsjor.tree_root_file(path, 1 << 14), wanted)
            with mock.patch.object(File, "fails", True):
                self.assert_refuses(OSError, f"[Errno 6] broken: {path!r}", vulfsjor.tree_root_file, path, 1 << 14)

    def test_callback_changes_come_too_late(self):
        """What the callback changes comes too late, and what it returns is not kept."""
        length, result = 48 * MIB, object()
        path, before = self.file(length=length), sys.getrefcount(result)
        for threads in (1, 3):
            words = {name: bytearray(text) for name, text in TEXTS.items()}
            seen = []

            def change(done):
                seen.append(done)
                for text in words.values():
                    text[0] ^= 1 + len(seen)
                return result

            wanted = oracle.tree_root(bytes(length), 1 << 16, **TEXTS)
            self.assertEqual(vulfsjor.tree_root_file(path, 1 << 16, threads=threads, progress=change, **words), wanted)
            self.assertGreater(len(seen), 1)
        self.assertEqual(sys.getrefcount(result), before)

    def test_callback_exception_ends_the_call(self):
        """In a file that would take days. Nothing is left open, and a descriptor keeps its position."""
        long, before = self.file(length=1 << 43), os.listdir("/proc/self/fd")
        for kind in (ZeroDivisionError, KeyboardInterrupt, SystemExit):
            for threads in (1, 3):
                for leaf_size in (1 << 14, 2**32 - 1):
                    stop = mock.Mock(side_effect=kind("of the callback"))
                    self.assert_refuses(kind, "of the callback", vulfsjor.tree_root_file, long, leaf_size,
                                        threads=threads, progress=stop)
                    self.assertEqual((stop.call_count, have_hashing_threads_ended()), (1, True))
        full = mock.Mock(side_effect=OSError(errno.ENOSPC, "full"))
        for data in (b"short", DATA):
            with open(self.file(data), "rb", buffering=0) as file:
                file.seek(777)
                for path, threads in itertools.product((file.fileno(), file.name), (1, 3)):
                    self.assert_refuses(OSError, "[Errno 28] full", vulfsjor.tree_root_file, path, 1 << 14,
                                        threads=threads, progress=full)
                self.assertEqual(file.tell(), 777)
        vulfsjor.tree_root_file(self.file(DATA), 1 << 14, threads=2)
        self.assertRaises(OSError, vulfsjor.tree_root_file, self.folder, 1)
        self.assertEqual((os.listdir("/proc/self/fd"), have_hashing_threads_ended()), (before, True))


if __name__ == "__main__":
    unittest.main()
