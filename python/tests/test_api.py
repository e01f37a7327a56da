"""Tests of what neither a list of calls nor a comparison with hashlib shows: iterables of messages, what is left of a
key and of other memory, views that are let go, modules, and messages of more than 2^32 bytes, which take
seconds and need VULFSJOR_TEST_HUGE=1."""
import array
import contextlib
import ctypes
import gc
import importlib.util
import io
import mmap
import os
import sys
import tempfile
import tracemalloc
import unittest
import weakref
from collections import deque

from families import FAMILIES, MIB, OUTPUTS, PLAIN
from support import Test, WITHOUT_GIL, long, unreadable_buffer
import oracle
import vulfsjor


class HashManyTest(Test):
    """Several messages in one call."""

    def test_what_is_no_list_is_refused(self):
        """Of what has no order, and of one message: a buffer of single bytes, or a string."""
        with mmap.mmap(-1, 5) as mapped:
            one = "messages must be several, such as a list of bytes, not one"
            for _, _, _, many, _ in PLAIN:
                for text, *wrong in (
                        ("messages must be in an order, which a set has not", set(), {b"a", b"b"}, frozenset([b"a"])),
                        ("messages must not be a dict, whose keys they would be", {b"name": b"message"}),
                        (one, b"", b"abc", bytearray(), memoryview(b"abc"), memoryview(b"abc").cast("c"), "", "text",
                         array.array("B", b"abc"), array.array("b"), (ctypes.c_char * 3)(), mapped),
                        ("object supporting the buffer API required", [b"a", None], [1], array.array("d", [1]))):
                    for messages in wrong:
                        self.assert_refuses(TypeError, text, many, messages)
                self.assertEqual(many({b"name": b"message"}.values()), many([b"message"]))
                self.assertRaises(BufferError, many, [b"x", memoryview(b"abcd")[::2]])

    def test_more_messages_than_16_bits_count(self):
        """More than any number of lanes, of bits and of bytes would hold."""
        messages = [bytes([i & 255]) * (i % 3 + 1) for i in range(70_000)]
        for _, _, theirs, many, _ in PLAIN:
            found = many(messages)
            self.assertEqual(len(found), len(messages))
            for place in (*range(0, 1100), *range(65_500, 65_600), 69_999):
                self.assertEqual(found[place], theirs(messages[place]).digest())

    def test_reused_buffer_is_copied_each_time(self):
        """What an iterator yields is that of its time: one buffer again and again, as `readinto` fills it, whole, in
        part, and of another length each time. What is in a list is that of the call."""
        data = bytes(i % 251 for i in range(3000))

        def blocks(size, view):
            buffer = bytearray(size)
            file = io.BytesIO(data)
            while count := file.readinto(buffer):
                yield view(buffer)[:count]

        def growing():
            buffer = bytearray()
            for count in range(9):
                buffer += bytes([count])
                yield buffer

        def counted():
            numbers = array.array("I", [0])
            for numbers[0] in range(20):
                yield numbers

        def changing():
            buffer = bytearray(9)
            for place in range(1100):
                buffer[place % 9] = place & 255
                yield buffer

        class Reused(list):
            """A list whose iterator is another one."""

            def __iter__(self):
                return blocks(700, memoryview)

        for _, _, theirs, many, _ in PLAIN:
            for new in (lambda: blocks(128, memoryview), lambda: blocks(700, memoryview),
                        lambda: blocks(1000, bytearray), growing, counted, changing, Reused,
                        lambda: iter([b"bytes", bytearray(b"others")])):
                wanted = [theirs(message).digest() for message in new()]
                self.assertEqual(many(new()), wanted)
                self.assertEqual(many(message for message in new()), wanted)
            buffer = bytearray(b"last")
            for several in ([buffer] * 2, (buffer, buffer), deque([buffer] * 2)):
                self.assertEqual(many(several), [theirs(b"last").digest()] * 2)

    def test_iterator_errors_end_the_call(self):
        """A message that is refused ends the call, and no other is asked for. The iterator's exception is that of the
        call."""
        def fails(message):
            yield b"first"
            yield message
            raise KeyError

        for _, _, _, many, _ in PLAIN:
            for text, wrong in (("object supporting the buffer API required", None),
                                ("Strings must be encoded before hashing", "text")):
                self.assert_refuses(TypeError, text, many, fails(wrong))
            self.assertRaises(BufferError, many, fails(memoryview(b"abcd")[::2]))
            self.assertRaises(KeyError, many, fails(bytearray(b"second")))

    def test_key_is_that_at_the_call(self):
        """The key of all messages is that of the call, whatever the iterator's code makes of its memory."""
        def changes(key):
            for place in range(1030):
                key[0] = place & 255
                yield b"message"

        for _, _, theirs, many, _ in PLAIN:
            key, salt = bytearray(9), bytearray(8)
            wanted = theirs(b"message", key=key, salt=salt).digest()
            self.assertEqual(many(changes(key), key=key, salt=salt), [wanted] * 1030)
            self.assertEqual(many(changes(salt), key=bytes(9), salt=salt), [wanted] * 1030)

    def test_list_is_not_copied(self):
        """A mebibyte in a list, a tuple, and bytes of an iterator, takes no memory but the digests. Of what an iterator
        yields a few are held."""
        message = bytes(1 << 20)
        for _, _, _, many, _ in PLAIN:
            for new, least, most in ((lambda: [message] * 9, 0, 1 << 19), (lambda: (bytearray(message),), 0, 3 << 19),
                                     (lambda: iter([message] * 9), 0, 1 << 19),
                                     (lambda: iter([memoryview(message)] * 100), 8 << 20, 10 << 20)):
                tracemalloc.start()
                self.addCleanup(tracemalloc.stop)
                many(new())
                self.assertTrue(least <= tracemalloc.get_traced_memory()[1] <= most)
                tracemalloc.stop()

    def test_rows_of_a_buffer_are_messages(self):
        """Of a buffer of longer items than bytes, which are messages."""
        rows = ((ctypes.c_char * 3) * 2).from_buffer_copy(b"abcxyz")
        for _, _, theirs, many, _ in PLAIN:
            self.assertEqual(many(rows), [theirs(b"abc").digest(), theirs(b"xyz").digest()])
            self.assertEqual((many([]), many(())), ([], []))


# Room for a copy of a region of the memory. It is shared, so that addresses_of_copies does not search it.
COPY = mmap.mmap(-1, 1 << 28)


def addresses_of_copies(text):
    """The addresses of the copies of `text` in the memory that this process can write."""
    found = set()
    with open("/proc/self/maps") as maps, open("/proc/self/mem", "rb", 0) as memory:
        for line in maps.read().splitlines():
            start, end = (int(word, 16) for word in line.split()[0].split("-"))
            if "rw-p" not in line.split()[1] or end - start > len(COPY):
                continue
            memory.seek(start)
            try:
                read = memory.readinto(memoryview(COPY)[:end - start])
            except OSError:  # a part that the kernel keeps for itself
                continue
            place = COPY.find(text, 0, read)
            while place >= 0:
                found.add(start + place)
                place = COPY.find(text, place + 1, read)
    return found


def call_deep_in_stack(call, levels):
    """Makes a call, whose frames in C are so far down that later calls which are less deep do not overwrite them."""
    return call() if levels == 0 else next(map(call_deep_in_stack, [call], [levels - 1]))


class KeyWipingTest(unittest.TestCase):
    """What is left of a key."""

    def test_a_dead_object_has_no_byte_of_its_state(self):
        def tree(message, key):
            hasher = vulfsjor.TreeHasher(99)
            hasher.update(key)
            return hasher

        states = {"blake2b": 344, "blake2s": 176, "blake2bp": 1632, "blake2sp": 1600,
                  "blake2xb": 464, "blake2xs": 248, "tree": 752}
        for name, make, longest, fields in (
                *((name, make, longest, 24) for name, make, _, _, longest in FAMILIES),
                *((*each[:3], 16) for each in OUTPUTS), ("tree", tree, 32, 16)):
            key = bytes(range(1, longest + 1))
            mac = make(b"message", key=key)
            address, size, head = id(mac), mac.__sizeof__(), object.__basicsize__ + fields
            self.assertEqual(size, head + states[name])
            alive, dead = (ctypes.create_string_buffer(size) for _ in range(2))
            ctypes.memmove(alive, address, size)
            del mac
            ctypes.memmove(dead, address, size)
            self.assertIn(key, alive.raw)
            end = size - 8 * (size > 512)  # malloc writes to the last bytes of what it has freed
            self.assertEqual(dead.raw[head:end], bytes(end - head))

    def assert_no_copy_is_left(self, secret, calls, *objects):
        """After the calls the secret is only in these objects."""
        for depth, call in zip(range(60 * len(calls), 0, -60), calls):
            with contextlib.suppress(ValueError, OverflowError):
                call_deep_in_stack(call, depth)
        found = addresses_of_copies(secret)
        spans = [range(id(each), id(each) + each.__sizeof__()) for each in objects]
        for span in spans:
            self.assertTrue(found.intersection(span))
        found -= {place for span in spans for place in span}
        self.assertEqual(len(found), 1)  # that of the bytes of the test

    @unittest.skipIf(WITHOUT_GIL, "without the GIL the memory is too large to search")
    def test_digests_leave_no_copy_of_a_state(self):
        for make, longest, size in (*((make, longest, ()) for _, make, _, _, longest in FAMILIES),
                                    *((make, longest, (0,)) for _, make, longest, _ in OUTPUTS)):
            key = os.urandom(longest)
            mac = make(b"message", key=key)
            tag = mac.digest(*size)
            self.assert_no_copy_is_left(key, (
                lambda: mac.digest(*size), lambda: mac.hexdigest(*size), lambda: mac.copy().digest(*size),
                *([lambda: mac.digest(99)] if size else [lambda: mac.verify(b"x"), lambda: mac.verify(tag)])), mac)

    @unittest.skipIf(WITHOUT_GIL, "without the GIL the memory is too large to search")
    def test_updates_leave_no_copy_of_a_state(self):
        """Those of several objects, which are absorbed, or refused since a count is near 2^64."""
        for (_, make, *_, longest), place in zip(PLAIN, (152, 88), strict=True):
            key = os.urandom(longest)
            mac, late = make(key=key), make(key=key)
            count = ctypes.c_uint64.from_address(id(late) + object.__basicsize__ + place)
            self.assertEqual(count.value, 0)
            count.value = 2**64 - 4 * longest
            for pieces in ([bytes(300)] * 9, [b"", b"x", b""] * 3, [b""] * 2, [b""]):
                for more in ([], [late]):  # one by one: the next call overwrites what this one has left
                    self.assert_no_copy_is_left(key, [lambda: vulfsjor.update_many(
                        [*(mac.copy() for _ in pieces), *more], pieces + [bytes(300)] * len(more))], mac, late)

    @unittest.skipIf(WITHOUT_GIL, "without the GIL the memory is too large to search")
    def test_trees_leave_no_copy_of_a_state(self):
        """Here of the bytes of a message that wait in it. A digest compresses them, which leaves them on the stack."""
        message = os.urandom(32)
        ends, within = vulfsjor.TreeHasher(32), vulfsjor.TreeHasher(99)
        ends.update(message), within.update(message)
        with tempfile.TemporaryFile() as file:
            os.truncate(file.fileno(), 1 << 19)
            self.assert_no_copy_is_left(message, (
                lambda: ends.leaves_ahead(bytes(64)), lambda: within.leaves_ahead(bytes(99)),
                lambda: within.update_leaves(bytes(64), b"x"), lambda: ends.update(unreadable_buffer(2**58), threads=3),
                lambda: ends._root_of_file("file", file.fileno(), 1 << 19, 2, None)), ends, within)


class CountLimitsTest(Test):
    """Inputs end before 2^64 bytes, those of a tree before 2^58: a state whose count is set near there takes no
    more."""

    def test_an_input_that_is_too_long_is_refused(self):
        # Where the count is, what it is after 1,700 bytes, and one near the end. That of BLAKE2bp
        # and BLAKE2sp is the count of each leaf.
        counts = ((152, 1664, 2**64 - 256), (88, 1664, 2**64 - 256), (280, 256, 2**62 - 256),
                  (280, 128, 2**61 - 128), (144, 1664, 2**64 - 256), (80, 1664, 2**64 - 256))
        kinds = [(make, 64, [place]) for (_, make, *_), place in zip((*FAMILIES, *OUTPUTS), counts, strict=True)]
        # Of a tree the leaves that are closed, the count of the root, and the number of its pending bytes.
        places_of_tree = ((704, 1, 2**48 - 1), (488, 0, (2**48 - 1) * 64), (496, 64, 0))
        for make, bits, places in (*kinds, (lambda: vulfsjor.TreeHasher(1 << 10), 58, places_of_tree)):
            size = (9,) * (make in (vulfsjor.blake2xb, vulfsjor.blake2xs))
            for length in (300, 3000, 2**32 + 5):
                hasher = make()
                hasher.update(bytes(1700))
                for place, early, late in places:
                    count = ctypes.c_uint64.from_address(id(hasher) + object.__basicsize__ + place)
                    self.assertEqual(count.value, early)
                    count.value = late
                hasher.update(bytes(100))
                before = hasher.digest(*size)
                self.assert_refuses(OverflowError, f"2^{bits} bytes or more", hasher.update, unreadable_buffer(length))
                self.assertEqual(hasher.digest(*size), before)


class NothingKeptTest(unittest.TestCase):
    """Calls keep nothing, whether they succeed or fail."""

    @staticmethod
    def calls(held, key):
        """Calls of each kind, of which many are refused, with these as their arguments: 128 bytes, and a key."""
        tree, hasher, long = vulfsjor.TreeHasher, vulfsjor.TreeHasher(64, digest_size=5, salt=b"salt"), bytes(1 << 19)
        for name, make, _, many, _ in FAMILIES:
            mac, keyed = getattr(vulfsjor, f"{name}_mac"), make(b"x", key=b"key")
            yield from (
                lambda: keyed.copy().update(held), keyed.digest, keyed.hexdigest, lambda: keyed.verify(keyed.digest()),
                lambda: mac(key, held).verify(mac(key, held).digest()), lambda: keyed.verify(held),
                lambda: vulfsjor.file_digest(io.BytesIO(b"x"), mac, key=key).copy(), lambda: keyed.verify("x"),
                lambda: make(held).verify(held), lambda: mac(b""), lambda: mac(key, "x", salt=key),
                lambda: mac(key, digest_size=0), lambda: make("x", key=key, salt=key), lambda: make(digest_size=0),
                *((lambda: make(depth=0), lambda: make(leaf_size=-1), lambda: many([held] * 5, salt=key),
                   lambda: many([held, "x"], key=key, salt=key)) if many else ()))
        for _, make, *_ in PLAIN:
            first, other, update_many = make(key=b"key"), make(), vulfsjor.update_many
            yield from (
                lambda: update_many([first, other], [held, key]), lambda: update_many([first, other], [held, "x"]),
                lambda: update_many(iter([first, other]), map(memoryview, (held, key))),
                lambda: update_many([first], map(memoryview, (held, key))), lambda: update_many([first], [held, key]),
                lambda: update_many([first, held], [held, key]), lambda: update_many([first, first], [held, key]),
                lambda: update_many({first}, [held]), lambda: update_many([first], {}))
        for _, make, *_ in OUTPUTS:
            found = make(b"x", key=b"key", length=3000)
            yield from (
                lambda: found.copy().update(held), lambda: found.digest(3000), lambda: found.hexdigest(3000),
                lambda: make("x", key=key, salt=key), lambda: make(held, length=0), lambda: found.digest(3001),
                lambda: found.hexdigest(-1), lambda: found.digest("x"), lambda: vulfsjor.derive_key(key, held, 3000),
                lambda: vulfsjor.derive_key(b"", held, 1))
        yield from (
            lambda: hasher.copy().update(held), lambda: hasher.copy().update_leaves(hasher.leaves_ahead(held), held),
            hasher.digest, hasher.hexdigest, lambda: hasher.count, lambda: tree(0), lambda: hasher.update("x"),
            lambda: tree(1, salt=key, person="text"), lambda: hasher.leaves_ahead(key),
            lambda: hasher.update_leaves(key, b""), lambda: hasher.update_leaves(held, b""),
            lambda: hasher.update_leaves(held, None),
            lambda: vulfsjor.tree_root_of_leaves(vulfsjor.tree_leaves(held, 64, first=0, ends=False, salt=key), 64),
            lambda: vulfsjor.tree_leaf_count(5, 10), lambda: vulfsjor.tree_root_of_leaves(key, 10, salt=key),
            lambda: vulfsjor.tree_leaves(b"", 10, first=1, ends=True, salt=key),
            lambda: vulfsjor.tree_leaves(b"x", 1, person=key), lambda: vulfsjor.tree_leaves(b"x", 1, salt=key),
            lambda: vulfsjor.tree_root(held, 1, salt=key), lambda: vulfsjor.tree_root("x", 5, salt=key),
            lambda: vulfsjor.tree_root(held, 0, threads=2), lambda: vulfsjor.tree_root(held, 1, threads=-1),
            lambda: vulfsjor.tree_root(long, 4096, threads=2), lambda: tree(4096).update(long, threads=2),
            lambda: tree(1).update(held, threads=2), lambda: hasher.update(unreadable_buffer(2**58), threads=2),
            lambda: vulfsjor.tree_leaves(held, 1, first=2**58 - 1, ends=True))

    def test_calls_keep_no_memory_or_view(self):
        """Calls that were made before need no more memory, nor one reference more to a class, and let the views of
        their arguments go: a bytearray can then grow."""
        def work():
            for call in self.calls(held, key):
                for _ in range(400):
                    with contextlib.suppress(TypeError, ValueError, OverflowError):
                        call()
                for each in (held, key):
                    each.append(1)
                    each.pop()

        def growth():
            before = tracemalloc.get_traced_memory()[0]
            work()
            gc.collect()
            return tracemalloc.get_traced_memory()[0] - before

        kinds = [thing for module in (vulfsjor._library, vulfsjor) for thing in vars(module).values()
                 if isinstance(thing, type)]
        held, key = bytearray(128), bytearray(b"key")
        tracemalloc.start()
        self.addCleanup(tracemalloc.stop)
        work()  # what the tracing itself and the first threads keep
        gc.collect()
        references = [sys.getrefcount(kind) for kind in kinds]
        # What threads that end late still hold differs from round to round; what a call keeps grows in each.
        self.assertTrue(any(growth() < 8000 for _ in range(5)))
        self.assertEqual([sys.getrefcount(kind) for kind in kinds], references)


class ModuleStateTest(unittest.TestCase):
    """What a module keeps."""

    def test_second_module_has_own_classes(self):
        """It has classes of its own, whatever its attributes are, and is freed with them."""
        def classes():
            return sum(isinstance(each, type) and each.__module__ == "vulfsjor" for each in gc.get_objects())

        path, before = vulfsjor._library.__file__, classes()
        spec = importlib.util.spec_from_file_location("vulfsjor._library", path)
        made = importlib.util.module_from_spec(spec)
        spec.loader.exec_module(made)
        hash_type, invalid_tag, mac = made.blake2b, made.InvalidTag, made.blake2b_mac(b"key")
        made.blake2b = made.TreeHasher = made.InvalidTag = int
        self.assertRaises(invalid_tag, mac.verify, b"")
        self.assertIsNot(hash_type, vulfsjor.blake2b)
        self.assertIsNot(invalid_tag, vulfsjor.InvalidTag)
        gone = [weakref.ref(each) for each in (made, hash_type, invalid_tag)]
        del made, hash_type, invalid_tag, mac, spec
        gc.collect()
        gc.collect()  # the class of the classes, which is free once they are
        self.assertEqual(([each() for each in gone], classes()), ([None] * 3, before))

    def test_slots_declare_no_gil(self):
        """The module runs without the GIL, and in interpreters with a GIL each: the first two of
        its slots, which Python knows from 3.13 and from 3.12 on."""
        class Slot(ctypes.Structure):
            _fields_ = [("number", ctypes.c_int), ("value", ctypes.c_size_t)]

        start = ctypes.PyDLL(vulfsjor._library.__file__).PyInit__library
        start.restype = ctypes.c_void_p
        field = start() + object.__basicsize__ + 56
        skipped = (sys.version_info < (3, 13)) + (sys.version_info < (3, 12))
        first = ctypes.c_void_p.from_address(field).value - skipped * ctypes.sizeof(Slot)
        slots = (Slot * 2).from_address(first)
        self.assertEqual([(slot.number, slot.value) for slot in slots], [(4, 1), (3, 2)])


# The data is a mapping whose pages are one page of zeros until they are written, or a sparse file.
LENGTH = (1 << 32) + 5 * MIB + 5
# Bytes that are not zero: at each end, around 2^31 and 2^32, and at edges of leaves.
MARKS = (0, 4 * MIB - 1, 64 * MIB, 2**31 - 1, 2**31, 2**32 - 1, 2**32, 2**32 + 4 * MIB, LENGTH - 1)


@long
class LongMessagesTest(unittest.TestCase):
    """Calls next to hashlib."""

    @classmethod
    def setUpClass(cls):
        cls.data = mmap.mmap(-1, LENGTH, flags=mmap.MAP_PRIVATE)
        for place, mark in enumerate(MARKS, 1):
            cls.data[mark] = place

    def test_long_messages_hash_as_in_hashlib(self):
        for _, make, theirs, many, _ in PLAIN:
            wanted = theirs(self.data).digest()
            self.assertEqual(make(self.data).digest(), wanted)
            self.assertEqual(many([b"short", self.data, b"other"])[1], wanted)

    def test_long_trees_by_several_threads(self):
        """Of the mapping and of a file."""
        for leaf_size, threads in ((4 * MIB, 3), (64 * MIB, 1)):
            view, texts = memoryview(self.data), {"person": b"person"}
            wanted, whole = oracle.tree_root(view, leaf_size, **texts), view[:LENGTH // leaf_size * leaf_size]
            self.assertEqual(vulfsjor.tree_root(view, leaf_size, threads=threads, **texts), wanted)
            digests = vulfsjor.tree_leaves(view, leaf_size, first=0, ends=True, **texts)
            self.assertEqual(vulfsjor.tree_root_of_leaves(digests, leaf_size, **texts), wanted)
            hasher = vulfsjor.TreeHasher(leaf_size, **texts)
            hasher.update_leaves(hasher.leaves_ahead(whole), view[len(whole):])
            self.assertEqual((hasher.digest(), hasher.count), (wanted, LENGTH))
            with tempfile.NamedTemporaryFile() as file:
                os.truncate(file.fileno(), LENGTH)
                for mark in MARKS:
                    os.pwrite(file.fileno(), self.data[mark:mark + 64], mark)
                seen = []
                self.assertEqual(vulfsjor.tree_root_file(
                    file.name, leaf_size, threads=threads, progress=seen.append, **texts), wanted)
                self.assertEqual((seen[-1], seen), (LENGTH, sorted(set(seen))))

    def test_root_of_2_to_26_digests(self):
        """2^26 of them, and one: 4 GiB."""
        digests = memoryview(self.data)[:2**32 + 64]
        digests[-64:] = oracle.digests_of_leaf_range(bytes(7), 7, 2**26, True)
        wanted, hasher = oracle.root_of_leaves(digests, 7), vulfsjor.TreeHasher(7)
        self.assertEqual(vulfsjor.tree_root_of_leaves(digests, 7), wanted)
        hasher.update_leaves(digests[:-64], bytes(7))
        self.assertEqual((hasher.digest(), hasher.count), (wanted, 7 * 2**26 + 7))


if __name__ == "__main__":
    unittest.main()
