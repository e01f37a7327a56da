"""Tests of the GIL, which other threads have during long calls, of objects that threads share, and of trees by threads,
which c/threads.c has: data in memory and updates, how many threads there are, and signals meanwhile. c/tests tests its
faults."""
import contextlib
import functools
import io
import itertools
import os
import signal
import sys
import threading
import time
import unittest

from families import DATA, FAMILIES, MIB, OUTPUTS, PLAIN, TEXTS, have_hashing_threads_ended, count_hashing_threads
from support import Test, WITHOUT_GIL, running_in_threads
import oracle
import vulfsjor

KIB = 1 << 10
LONG, LONGEST = bytes(1 << 24), 1 << 27
# What makes an object, the arguments of its digest, and the digest of a message, for which test_conformance.py knows
# that some objects are right.
KINDS = (*((make, (), lambda data, theirs=theirs: theirs(data).digest()) for _, make, theirs, _, _ in PLAIN),
         *((make, (), lambda data, make=make: make(data).digest()) for _, make, *_ in FAMILIES[2:]),
         *((make, (99,), lambda data, make=make: make(data).digest(99)) for _, make, *_ in OUTPUTS),
         (functools.partial(vulfsjor.TreeHasher, 1 << 12, digest_size=20), (),
          lambda data: oracle.tree_root(data, 1 << 12, 20)))


def update(hasher):
    """A long update of an object."""
    hasher.update(LONG)


def update_long_of_several(hasher):
    """The same of one object of several."""
    make = type(hasher)
    vulfsjor.update_many([make(), hasher, make()], [b"x", LONG, b"y"])


def verify_accepts(mac, tag):
    """Whether `verify` accepts the tag."""
    with contextlib.suppress(vulfsjor.InvalidTag):
        mac.verify(tag)
        return True
    return False


class GilReleaseTest(unittest.TestCase):
    """Other threads run during long calls. Here, threads switch only when one releases the GIL."""

    def setUp(self):
        self.interval, self.turns, self.ended = sys.getswitchinterval(), 0, False
        sys.setswitchinterval(1000)
        self.other = threading.Thread(target=self.count)
        self.other.start()

    def tearDown(self):
        self.ended = True
        sys.setswitchinterval(self.interval)
        self.other.join()

    def count(self):
        """Counts turns, and releases the GIL after each."""
        while not self.ended:
            self.turns += 1
            time.sleep(0)

    def turns_during(self, call):
        """How many turns the other thread has during a call."""
        before = self.turns
        call()
        return self.turns - before

    def assert_others_run_during(self, *calls):
        """Each, in one of fifty tries: on a busy machine the other thread may wait for a processor all the while."""
        for call in calls:
            self.assertTrue(any(self.turns_during(call) > 10 for _ in range(50)))

    def test_long_inputs_let_others_run(self):
        for _, make, _, many, _ in FAMILIES:
            self.assert_others_run_during(lambda: make().update(LONG), lambda: make(LONG),
                                          *[lambda: many([LONG])] * bool(many))
        for _, make, *_ in OUTPUTS:
            self.assert_others_run_during(lambda: make().update(LONG), lambda: make().digest(1 << 24),
                                          lambda: make().hexdigest(1 << 24))
        for _, make, *_ in PLAIN:
            self.assert_others_run_during(lambda: update_long_of_several(make()))
        self.assert_others_run_during(
            lambda: vulfsjor.derive_key(b"key", b"", 1 << 24), lambda: vulfsjor.derive_key(b"key", LONG, 9),
            lambda: vulfsjor.file_digest(io.BytesIO(LONG), "blake2b"),
            lambda: vulfsjor.TreeHasher(4096).update_leaves(LONG, b"x"),
            lambda: vulfsjor.tree_root(LONG, 4096),
            lambda: vulfsjor.TreeHasher(4096).update(LONG),
            lambda: vulfsjor.TreeHasher(4096).leaves_ahead(LONG),
            lambda: vulfsjor.tree_leaves(LONG, 4096, first=0, ends=True),
            lambda: vulfsjor.tree_root_of_leaves(LONG, 4096))

    def test_others_wait_for_a_long_update(self):
        """A call of an object sees all of an update that is under way, at least once in a hundred
        tries: in a single try the update may not have started."""
        several = [(update_long_of_several, make, (), lambda data, theirs=theirs: theirs(data).digest())
                   for _, make, theirs, *_ in PLAIN]
        for work, make, size, theirs in (*((update, *kind) for kind in KINDS), *several):
            wanted = theirs(LONG)
            for call in (lambda hasher: hasher.copy().digest(*size) == wanted,
                         lambda hasher: hasher.digest(*size) == wanted,
                         *[lambda hasher: hasher.load(hasher.save()).digest() == wanted] * hasattr(make, "save")):
                self.assertTrue(any(self.result_during_update(call, make(), work) for _ in range(100)))
        for _, make, *_ in FAMILIES:
            tag = make(LONG, key=b"key").digest()  # test_conformance.py knows that it is right
            self.assertTrue(any(self.result_during_update(lambda mac: verify_accepts(mac, tag), make(key=b"key"))
                                for _ in range(100)))

    def result_during_update(self, call, hasher, work=update):
        """The result of a call while another thread updates the object."""
        with running_in_threads(1, lambda: work(hasher)):
            time.sleep(0.002)
            return call(hasher)

    @unittest.skipIf(WITHOUT_GIL, "no GIL")
    def test_short_inputs_keep_the_gil(self):
        for _, make, _, _, _ in FAMILIES:
            hasher, short = make(), bytes(2047)
            self.assertEqual(self.turns_during(lambda: [hasher.update(short) for _ in range(3000)]), 0)
        for _, make, *_ in PLAIN:
            several, short = [make() for _ in range(3)], [bytes(1024), b"", bytes(1023)]
            self.assertEqual(self.turns_during(lambda: [vulfsjor.update_many(several, short) for _ in range(3000)]), 0)

    def test_2048_bytes_release_the_gil(self):
        """Of one object, or of several together."""
        for call in (*(functools.partial(make().update, bytes(2048)) for make, *_ in KINDS),
                     *(functools.partial(vulfsjor.update_many, [make(), make()], [bytes(1024)] * 2)
                       for _, make, *_ in PLAIN)):
            before, end = self.turns, time.monotonic() + 20
            while self.turns == before and time.monotonic() < end:
                call()
            self.assertGreater(self.turns, before)


class SharedObjectsTest(unittest.TestCase):
    """Objects that threads share. One updates with many bytes, the others with few as long as it
    does. All are zeros, so that their order does not matter."""

    def update_by_threads_during(self, hasher, call):
        """Updates the hasher by threads, calls `call` meanwhile, and returns the number of bytes.
        Threads switch often."""
        self.addCleanup(sys.setswitchinterval, sys.getswitchinterval())
        sys.setswitchinterval(1e-5)
        counts, piece, short = [], bytes(1 << 20), bytes(100)

        def update_with_short_pieces():
            count = 0
            while long.is_alive():
                hasher.update(short)
                count += len(short)
            counts.append(count)

        long = threading.Thread(target=lambda: [hasher.update(piece) for _ in range(24)])
        others = [threading.Thread(target=update_with_short_pieces) for _ in range(2)]
        for thread in (long, *others):
            thread.start()
        call()
        while any(thread.is_alive() for thread in others):
            call()
        self.assertEqual(len(counts), 2)
        return (24 << 20) + sum(counts)

    def test_counts_never_decrease(self):
        """A count meanwhile never becomes less."""
        for make, size, wanted in KINDS:
            hasher, seen = make(), []

            def call():
                seen.append((len(hasher.digest(*size)), getattr(hasher, "count", 0), getattr(hasher, "digest_size", 0)))
                hasher.copy().update(b"x")

            length = self.update_by_threads_during(hasher, call)
            self.assertEqual(hasher.digest(*size), wanted(bytes(length)))
            self.assertEqual(seen, sorted(seen))
            self.assertEqual({(length, given) for length, _, given in seen},
                             {(len(hasher.digest(*size)), getattr(hasher, "digest_size", 0))})

    def test_short_updates_by_threads(self):
        """No thread has ever updated with many."""
        for make, size, wanted in KINDS:
            hasher, barrier = make(), threading.Barrier(4)

            def work():
                barrier.wait(20)
                for _ in range(3000):
                    hasher.update(bytes(99))

            with running_in_threads(4, work):
                pass
            self.assertEqual(hasher.digest(*size), wanted(bytes(4 * 3000 * 99)))

    def test_lists_in_other_orders_do_not_block(self):
        """Threads update the same objects, by lists in other orders and alone, with many bytes and few. None waits for
        ever, and no update is lost."""
        for _, make, theirs, *_ in PLAIN:
            ours, done = [make() for _ in range(4)], []

            def work(order, length):
                several = [ours[place] for place in order]
                for _ in range(200):
                    vulfsjor.update_many(several, [bytes(length)] * len(order))
                    several[-1].update(bytes(2048))
                    several[0].digest()
                done.extend([*order] * length + [order[-1]] * 2048)

            threads = [threading.Thread(target=work, args=(order, length), daemon=True)
                       for order, length in zip(itertools.permutations(range(4), 3), itertools.cycle((3000, 99)))]
            for thread in threads:
                thread.start()
            end = time.monotonic() + 60
            for thread in threads:
                thread.join(max(0, end - time.monotonic()))
            self.assertFalse(any(thread.is_alive() for thread in threads))
            self.assertEqual([each.digest() for each in ours],
                             [theirs(bytes(200 * done.count(place))).digest() for place in range(4)])

    def test_update_while_a_call_waits_is_kept(self):
        """A call waits for an object. Meanwhile a long update of another begins, and is not lost, whichever is the
        first of the call and by its address."""
        short, long, longest = bytes(5), LONG, bytes(3 << 24)
        for (_, make, theirs, *_), step, turned in itertools.product(PLAIN, (1, -1), (1, -1, 1, -1)):
            first, last = sorted((make(), make()), key=id)[::step]
            threads = [threading.Thread(target=call, args=given) for call, *given in (
                (last.update, long), (vulfsjor.update_many, [first, last][::turned], [short] * 2),
                (first.update, longest))]
            for thread in threads:
                thread.start()
                time.sleep(0.002)
            for thread in threads:
                thread.join()
            self.assertEqual([first.digest(), last.digest()],
                             [theirs(longest + short).digest(), theirs(long + short).digest()])

    def test_pieces_are_held_and_lists_are_not(self):
        """While a call absorbs, its pieces do not change their lengths, and it needs neither of the lists."""
        for _, make, theirs, *_ in PLAIN:
            for _ in range(100):
                ours, piece, is_held = [make(), make()], bytearray(LONG), False
                hashes, pieces = ours[:], [b"x", piece]
                with running_in_threads(1, lambda: vulfsjor.update_many(hashes, pieces)):
                    time.sleep(0.002)
                    hashes.clear(), pieces.clear()
                    try:
                        piece.append(1)
                    except BufferError:
                        is_held = True
                if is_held:
                    break
            self.assertTrue(is_held)
            self.assertEqual([each.digest() for each in ours], [theirs(b"x").digest(), theirs(LONG).digest()])

    def test_counts_are_of_whole_updates(self):
        hasher, counts, piece = vulfsjor.TreeHasher(64), set(), bytes(100_003)

        def work():
            for _ in range(100):
                hasher.update(piece)

        thread = threading.Thread(target=work)
        thread.start()
        while thread.is_alive():
            counts.add(hasher.count)
        self.assertEqual({count % len(piece) for count in counts}, {0})


class TreeThreadsTest(Test):
    """Data in memory by threads."""

    def test_roots_are_those_of_hashlib(self):
        """In one call, and by updates. From 512 KiB on there are two threads."""
        for length in (5, 512 * KIB - 1, 512 * KIB, len(DATA)):
            for leaf_size in (1000, MIB + 1, 2**32 - 1):
                data = DATA[:length]
                wanted = oracle.tree_root(data, leaf_size, 20, **TEXTS)
                for threads in (0, 5):
                    self.assertEqual(wanted, vulfsjor.tree_root(data, leaf_size, digest_size=20, threads=threads,
                                                                **TEXTS))
                    for cut in (1, leaf_size):
                        hasher = vulfsjor.TreeHasher(leaf_size, digest_size=20, **TEXTS)
                        for piece in (data[:cut], bytearray(data[cut:]), b""):
                            self.assertIsNone(hasher.update(piece, threads=threads))
                        self.assertEqual((hasher.digest(), hasher.count), (wanted, length))

    def most_threads_seen_during(self, call, wanted):
        """The most threads, with the caller's, of some calls, until there are as many as wanted."""
        found, ended = [0], threading.Event()

        def watch():
            while not ended.is_set():
                found.append(count_hashing_threads())

        for _ in range(50):
            self.assertTrue(have_hashing_threads_ended())
            with running_in_threads(1, watch):
                call()
                ended.set()
            ended.clear()
            if 1 + max(found) >= wanted:
                break
        return 1 + max(found)

    def test_numbers_of_threads_started(self):
        """With the caller's it is the number that is asked for, or that of the processors of the caller's thread, or
        one for each 256 KiB. The most of fifty tries count: on a busy machine some end before all begin."""
        processors = os.sched_getaffinity(0)
        self.addCleanup(os.sched_setaffinity, 0, processors)
        data = memoryview(bytes(64 * MIB))
        for asked, length, allowed, wanted in (
                (1, 64 * MIB, None, 1), (3, 64 * MIB, None, 3), (9, 512 * KIB - 1, None, 1),
                (9, 1024 * KIB - 1, None, 3),
                (0, 64 * MIB, 1, 1), (0, 64 * MIB, 2, 2), (0, 64 * MIB, None, len(processors))):
            if allowed and allowed > len(processors):
                continue
            os.sched_setaffinity(0, set(list(processors)[:allowed]))
            for call in (lambda: vulfsjor.tree_root(data[:length], 4096, threads=asked),
                         lambda: vulfsjor.TreeHasher(4096).update(data[:length], threads=asked)):
                self.assertEqual(self.most_threads_seen_during(call, wanted), wanted, (asked, length))
        for asked in (300, 2**32 + 1, 2**70):
            met = self.most_threads_seen_during(lambda: vulfsjor.tree_root(data, 4096, threads=asked), 3)
            self.assertTrue(3 <= met <= 256, met)

    def test_no_update_is_lost(self):
        """Each update by threads is absorbed, or refused because of another one, which it waits for if that is under
        way."""
        hasher, done, text = vulfsjor.TreeHasher(1 << 14), [], "^another thread has updated the hasher meanwhile$"

        def work():
            for turn in range(60):
                length = MIB
                try:
                    hasher.update(bytes(length), threads=2)
                except RuntimeError as error:
                    self.assertRegex(str(error), text)
                    length = (1, 1 << 17)[turn % 2]  # other threads run during the second
                    hasher.update(bytes(length))
                done.append(length)

        with running_in_threads(3, work):
            pass
        self.assertEqual(len(done), 180)
        self.assertLessEqual({1, 1 << 17}, set(done))
        self.assertEqual((hasher.count, hasher.digest()), (sum(done), oracle.tree_root(bytes(sum(done)), 1 << 14)))


class SignalsTest(Test):
    """Signals while threads hash: a handler runs in the thread that has called, and its exception ends the call."""

    @staticmethod
    def raise_lookup_error():
        raise LookupError("of the handler")

    def exception_of_interrupted_call(self, handle, call):
        """Makes a call again and again, in each of which a signal comes, until one raises an exception, which is
        returned. The handler calls `handle`."""
        is_called = threading.Event()
        before = signal.signal(signal.SIGALRM, lambda *_: is_called.is_set() and handle())
        self.addCleanup(signal.signal, signal.SIGALRM, before)
        turn, end = 0, time.monotonic() + 20
        while time.monotonic() < end:
            turn += 1
            is_called.set()
            signal.setitimer(signal.ITIMER_REAL, 0.002 * (turn % 10 + 1))
            try:
                call()
            except Exception as error:  # whatever is raised is compared
                return error
            finally:
                is_called.clear()
                signal.setitimer(signal.ITIMER_REAL, 0)
        self.fail("no signal came in time")

    def test_an_interrupted_update_changes_nothing(self):
        hasher, data = vulfsjor.TreeHasher(1 << 14), bytes(LONGEST)
        hasher.update(DATA[:5])
        whole = hasher.copy()
        whole.update(data)

        def update():
            other = hasher.copy()
            try:
                other.update(data, threads=3)
            except LookupError:
                if other.digest() == whole.digest():  # the signal came just after the update
                    return
                self.assertEqual((other.digest(), other.count), (oracle.tree_root(DATA[:5], 1 << 14), 5))
                raise

        self.assertIsInstance(self.exception_of_interrupted_call(self.raise_lookup_error, update), LookupError)
        self.assertTrue(have_hashing_threads_ended())

    def test_an_interrupted_root_raises(self):
        """Of data, of a file, and of a pipe from which nothing comes. The file would take minutes."""
        data, path, (reader, writer) = bytes(LONGEST), self.file(length=1 << 37), os.pipe()
        self.addCleanup(os.close, reader), self.addCleanup(os.close, writer)

        for call in (
            lambda: vulfsjor.tree_root(data, 1 << 14, threads=2),
            lambda: vulfsjor.tree_root(data, 1 << 14, threads=300),
            lambda: vulfsjor.tree_root_file(path, 1 << 16, threads=3),
            lambda: vulfsjor.tree_root_file(path, 1 << 16, threads=1),
            lambda: vulfsjor.tree_root_file(path, 2**32 - 1, threads=3),
            lambda: vulfsjor.tree_root_file(reader, 1 << 16),
        ):
            start, found = time.monotonic(), self.exception_of_interrupted_call(self.raise_lookup_error, call)
            self.assertEqual((type(found), str(found)), (LookupError, "of the handler"))
            self.assertLess(time.monotonic() - start, 20)
            self.assertTrue(have_hashing_threads_ended())


if __name__ == "__main__":
    unittest.main()
