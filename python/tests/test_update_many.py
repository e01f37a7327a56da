"""Tests of update_many: what objects are afterwards, next to hashlib and to update of each alone, and what it refuses,
which changes no object. test_threads.py has its locks and the GIL, and test_api.py what is left of a key."""
import array
from collections import deque
import contextlib
import ctypes
import hashlib
import importlib.util
import io
import itertools
import mmap
import random
import sys
import unittest

from families import PLAIN
from support import Test, why_absent, unreadable_buffer
import vulfsjor

DICE = random.Random(25)
DATA = DICE.randbytes(8192)
# Around the lanes: four, and eight.
COUNTS = (0, 1, 2, 3, 4, 5, 7, 8, 9, 15, 16, 17, 33)
CLASS = "hashes must be objects of one class: blake2b, blake2b_mac, blake2s or blake2s_mac"


def lengths_around_blocks(block, most):
    """Lengths around the ends of blocks, from none to this many."""
    return sorted({0, *(count * block + step for count in range(most + 1) for step in (-1, 0, 1))} - {-1})


def parameter_sets(longest):
    """Parameters of an object, some of which have a key."""
    found = {"digest_size": DICE.randint(1, longest), "salt": DICE.randbytes(DICE.randint(0, longest // 4)),
             "person": DICE.randbytes(DICE.randint(0, longest // 4)), "last_node": DICE.random() < 0.5}
    return found | ({"key": DICE.randbytes(DICE.choice((1, longest)))} if DICE.random() < 0.5 else {})


def piece_in_each_type(piece):
    """The piece as objects of each kind."""
    view = memoryview(b"x" + piece + b"y")[1:-1]
    words = array.array("H", piece) if len(piece) % 2 == 0 else bytearray(piece)
    return piece, bytearray(piece), view, array.array("B", piece), words, (ctypes.c_char * len(piece))(*piece)


def saved_state_or_none(hasher):
    """All of the state, if it has no key."""
    try:
        return hasher.save()
    except (AttributeError, ValueError):
        return None


def seen(hashers):
    """What shows each byte of the states: digests, also of more input, and saved states."""
    found = [(each.digest(), saved_state_or_none(each)) for each in hashers]
    for each in hashers:
        longer = each.copy()
        with contextlib.suppress(OverflowError):
            longer.update(DATA[:300])
        found.append(longer.digest())
    return found


class UpdateManyDigestsTest(Test):
    """The objects afterwards."""

    def assert_as_hashlib(self, ours, theirs, pieces):
        """The objects are after a call what those of hashlib, which were like them, are after update of each, and in
        every byte of the state what they would be after update of each alone."""
        alone = [each.copy() for each in ours]
        self.assertIsNone(vulfsjor.update_many(ours, pieces))
        for one, other, own, piece in zip(ours, theirs, alone, pieces, strict=True):
            own.update(piece)
            other.update(piece)
            self.assertEqual(one.digest(), other.digest())
            self.assertEqual((saved_state_or_none(one), one.digest_size), (saved_state_or_none(own), other.digest_size))
        for one, other in zip(ours, theirs, strict=True):
            one.update(DATA[:199])
            other.update(DATA[:199])
            self.assertEqual(one.digest(), other.digest())

    def test_each_pending_and_piece_length(self):
        """Each pending length with each length of pieces, of objects with and without keys, in whole lanes and not."""
        for _, make, theirs, _, longest in PLAIN:
            block = 2 * longest
            for pending, length, key in itertools.product(lengths_around_blocks(block, 1),
                                                          lengths_around_blocks(block, 4), (b"", b"key")):
                new = [DATA[place:place + pending] for place in range(9)]
                self.assert_as_hashlib([make(data, key=key) for data in new], [theirs(data, key=key) for data in new],
                                       [DATA[place * 7:place * 7 + length] for place in range(9)])

    def test_mixed_parameters_and_pieces(self):
        """Objects of other parameters, at other places of their inputs, and pieces of other lengths and kinds."""
        for (_, make, theirs, _, longest), count, _ in itertools.product(PLAIN, COUNTS, range(12)):
            lengths = lengths_around_blocks(2 * longest, 4)
            words = [parameter_sets(longest) for _ in range(count)]
            new = [DATA[:DICE.choice(lengths)] for _ in range(count)]
            pieces = [DICE.choice(piece_in_each_type(DATA[start:start + DICE.choice(lengths)]))
                      for start in DICE.choices(range(1000), k=count)]
            self.assert_as_hashlib(*([kind(data, **given) for data, given in zip(new, words)]
                                     for kind in (make, theirs)), pieces)

    def test_long_and_short_pieces_in_lanes(self):
        """Objects that are far apart, in rows of long pieces which short ones end, and a long one alone."""
        for _, make, theirs, *_ in PLAIN:
            for pattern in ((3000,) * 8, (3000,) * 4 + (0,) * 4, (0, 3000) * 4, (8000,) + (1,) * 7,
                            tuple(range(700, 2900, 100)), (3000,) * 12 + (64, 64, 4000, 4000, 4000)):
                self.assert_as_hashlib([make(key=b"k") for _ in pattern], [theirs(key=b"k") for _ in pattern],
                                       [DATA[5:5 + length] for length in pattern])

    def test_macs_absorb_each_piece(self):
        """The objects of blake2b_mac and its like, whose tags are compared too."""
        for name, _, theirs, _, longest in PLAIN:
            mac = getattr(vulfsjor, f"{name}_mac")
            for count, first in itertools.product(COUNTS, (0, 1, 500)):
                keys = [DICE.randbytes(DICE.randint(1, longest)) for _ in range(count)]
                ours = [mac(key, DATA[:first], digest_size=16, person=b"p") for key in keys]
                self.assert_as_hashlib(ours, [theirs(DATA[:first], key=key, digest_size=16, person=b"p")
                                              for key in keys],
                                       [DATA[count:count + DICE.randint(0, 600)] for _ in range(count)])
                for each in ours:
                    self.assertIsNone(each.verify(each.digest()))
                    self.assertIs(type(each), mac)

    def test_more_hashes_than_16_bits_count(self):
        """More than any number of bits of a length would hold, and a longer piece than 16 bits do."""
        for _, make, theirs, *_ in PLAIN:
            ours, pieces = [make() for _ in range(66_000)], [DATA[i % 999:i % 999 + i % 5] for i in range(66_000)]
            pieces[7] = bytes(70_000)
            vulfsjor.update_many(ours, pieces)
            for place in (*range(0, 70), *range(65_500, 65_600), 65_999):
                self.assertEqual(ours[place].digest(), theirs(pieces[place]).digest())

    def test_pieces_go_by_order_not_address(self):
        """Whatever the addresses are."""
        for _, make, theirs, *_ in PLAIN:
            ours = sorted((make() for _ in range(9)), key=id)
            for order in (range(9), range(8, -1, -1), DICE.sample(range(9), 9)):
                pieces = [bytes([place]) * 200 for place in range(9)]
                given = [ours[place].copy() for place in order]
                vulfsjor.update_many(given, pieces)
                self.assertEqual([each.digest() for each in given], [theirs(piece).digest() for piece in pieces])


class UpdateManyIterablesTest(Test):
    """What the hash objects and the pieces are in, and what changes meanwhile."""

    def test_kinds_of_iterables(self):
        class Reversed(list):
            """A list whose iterator is another one."""

            def __iter__(self):
                return super().__reversed__()

        class Places:
            """A sequence of the old kind."""

            def __init__(self, found):
                self.found = found

            def __getitem__(self, place):
                return self.found[place]

        def backwards(found):
            return Reversed(found[::-1])

        kinds = (list, tuple, iter, deque, backwards, Places, lambda found: (each for each in found),
                 lambda found: dict(enumerate(found)).values(), lambda found: dict.fromkeys(found).keys())
        for _, make, theirs, *_ in PLAIN:
            for several, given in itertools.product(kinds, kinds[:-1]):
                ours, pieces = [make() for _ in range(5)], [bytes([i]) * 200 * i for i in range(5)]
                vulfsjor.update_many(several(ours), given(pieces))
                self.assertEqual([each.digest() for each in ours], [theirs(piece).digest() for piece in pieces])
            rows, ours = ((ctypes.c_char * 3) * 2).from_buffer_copy(b"abcxyz"), [make(), make()]
            vulfsjor.update_many(ours, rows)
            self.assertEqual([each.digest() for each in ours], [theirs(b"abc").digest(), theirs(b"xyz").digest()])

    def test_reused_buffer_is_copied_each_time(self):
        """What an iterator yields as a piece is that of its time: one buffer again and again, as `readinto` fills it,
        and in part. What is in a list is that of the call."""
        def blocks(view):
            buffer, file = bytearray(700), io.BytesIO(DATA)
            while count := file.readinto(buffer):
                yield view(buffer)[:count]

        for _, make, theirs, *_ in PLAIN:
            for view in (memoryview, bytearray, bytes):
                wanted = [theirs(bytes(piece)).digest() for piece in blocks(view)]
                ours = [make() for _ in wanted]
                vulfsjor.update_many(ours, blocks(view))
                self.assertEqual([each.digest() for each in ours], wanted)
            buffer, ours = bytearray(b"last"), [make() for _ in range(3)]
            vulfsjor.update_many(ours, [buffer] * 3)
            self.assertEqual({each.digest() for each in ours}, {theirs(b"last").digest()})

    def test_iterators_that_change_lists(self):
        """The iterators' code changes the lists, and updates the objects, alone and several, before the call does."""
        for _, make, theirs, *_ in PLAIN:
            ours = [make() for _ in range(3)]
            kept, pieces = list(ours), [b"p" * 200, b"q", b"r" * 500]

            def hashes():
                for each in kept:
                    each.update(b"1")
                    pieces.append(b"more")
                    yield each
                del pieces[3:]
                ours.clear()

            def changing():
                for piece in (b"p" * 200, b"q", b"r" * 500):
                    vulfsjor.update_many(kept, [b"2", b"3" * 300, b"4"])
                    ours.clear()
                    yield piece

            vulfsjor.update_many(hashes(), pieces)
            vulfsjor.update_many(kept, changing())
            self.assertEqual([each.digest() for each in kept], [
                theirs(b"1" + piece + between * 3 + piece).digest()
                for piece, between in zip(pieces, (b"2", b"3" * 300, b"4"), strict=True)])

    @unittest.skipIf(sys.version_info < (3, 12), "before 3.12 no class of Python has buffers")
    def test_buffers_made_by_python_code(self):
        """Code of Python that makes a buffer and releases it uses the objects, of which no lock is held, and changes
        the lists."""
        for _, make, theirs, *_ in PLAIN:
            ours = [make() for _ in range(3)]
            pieces, kept, seen = [], list(ours), []

            class Piece:
                def __init__(self, data):
                    self.data = data

                def __buffer__(self, flags):
                    vulfsjor.update_many(kept, [b"1"] * 3)
                    pieces.clear()
                    ours.clear()
                    return memoryview(self.data)

                def __release_buffer__(self, view):
                    seen.append([each.digest() for each in kept])
                    kept[0].update(b"2")

            pieces += map(Piece, (b"a" * 200, b"b" * 3000, b"c"))
            vulfsjor.update_many(ours, pieces)
            wanted = [theirs(b"111" + data).digest() for data in (b"a" * 200, b"b" * 3000, b"c")]
            self.assertEqual((seen[0], len(seen)), (wanted, 3))
            self.assertEqual([each.digest() for each in kept], [theirs(b"111" + b"a" * 200 + b"222").digest(),
                                                                *wanted[1:]])

    def test_iterators_are_read_no_further(self):
        """One piece more than there are objects, so that an endless iterator ends, and none after a wrong one; no
        piece if an object is wrong; and their own exceptions are those of the call."""
        def counted(pieces):
            for piece in pieces:
                asked.append(piece)
                yield piece

        def fails(*first):
            yield from first
            raise KeyError

        for _, make, *_ in PLAIN:
            ours = [make(), make()]
            before = seen(ours)
            for kind, text, hashes, pieces, count in (
                    (ValueError, "there are more pieces than hashes", ours, itertools.repeat(b"x"), 3),
                    (ValueError, "there are fewer pieces than hashes", ours, [b"x"], 1),
                    (TypeError, "Strings must be encoded before hashing", ours, itertools.repeat("x"), 1),
                    (ValueError, "one of the hashes is there twice", ours[:1] * 2, [b"x", b"x"], 0),
                    (TypeError, CLASS, [ours[0], None], [b"x", b"x"], 0)):
                asked = []
                self.assert_refuses(kind, text, vulfsjor.update_many, iter(hashes), counted(pieces))
                self.assertEqual(len(asked), count)
            for hashes, pieces in ((fails(*ours), [b"x"] * 2), (ours, fails()), (ours, fails(b"x", bytearray(b"y")))):
                self.assertRaises(KeyError, vulfsjor.update_many, hashes, pieces)
            self.assertEqual(seen(ours), before)


class UpdateManyRefusalsTest(Test):
    """What is refused. Each object is then what it was."""

    def assert_unchanged(self, kind, text, hashes, pieces, several=None):
        """The call is refused, and changes none of the objects, or of those in `several`."""
        several = hashes if several is None else several
        before = seen(several)
        self.assert_refuses(kind, text, vulfsjor.update_many, hashes, pieces)
        self.assertEqual(seen(several), before)

    def nine_hashes(self, make):
        """Nine objects at several places, some of which have a key."""
        return [make(DATA[:count * 40], key=b"key" * (count % 2)) for count in range(9)]

    def test_objects_of_other_classes_refused(self):
        """Those of other classes, whatever they have, at each place."""
        class Like:
            """What looks like an object of blake2b."""

            __class__ = vulfsjor.blake2b
            name, digest_size, update = "blake2b", 64, staticmethod(lambda data: None)

        tree = type("Tree", (vulfsjor.TreeHasher,), {})
        wrong = (None, 1, b"x", "x", [vulfsjor.blake2b()], hashlib.blake2b(), hashlib.blake2s(), vulfsjor.blake2b,
                 vulfsjor.blake2bp(), vulfsjor.blake2sp(), vulfsjor.blake2bp_mac(b"k"), vulfsjor.blake2sp_mac(b"k"),
                 vulfsjor.blake2xb(), vulfsjor.blake2xs(), tree(5), Like(), object(), vulfsjor)
        mine = (vulfsjor.blake2b(), vulfsjor.blake2s(), vulfsjor.blake2b_mac(b"k"), vulfsjor.blake2s_mac(b"k"))
        for _, make, *_ in PLAIN:
            ours = self.nine_hashes(make)
            for each in (*wrong, *(each for each in mine if type(each) is not make)):
                for place in (0, 1, 4, 8):
                    self.assert_unchanged(TypeError, CLASS, [*ours[:place], each, *ours[place + 1:]], [b"x" * 300] * 9,
                                          ours)
        for each in wrong:
            self.assert_unchanged(TypeError, CLASS, [each], [b"x"], [])
        for one, other in itertools.permutations(mine, 2):
            self.assert_unchanged(TypeError, CLASS, [one, other], [b"x", b"y"])
        for name in ("blake2b", "blake2s", "blake2b_mac", "blake2s_mac"):
            self.assertRaises(TypeError, type, "Sub", (getattr(vulfsjor, name),), {})

    def test_hashes_of_two_modules_are_refused(self):
        """Its objects are of other classes, and by themselves as good."""
        spec = importlib.util.spec_from_file_location("vulfsjor._library", vulfsjor._library.__file__)
        made = importlib.util.module_from_spec(spec)
        spec.loader.exec_module(made)
        for name, make, theirs, *_ in PLAIN:
            others = [getattr(made, name)() for _ in range(3)]
            self.assert_unchanged(TypeError, CLASS, [make(), others[0]], [b"x", b"x"])
            vulfsjor.update_many(others, [b"x", b"y", b"z"])
            self.assertEqual([each.digest() for each in others], [theirs(data).digest() for data in (b"x", b"y", b"z")])

    def test_single_objects_are_refused(self):
        """One object or one piece, and what has no order."""
        one = "{} must be several, such as a list of {}, not one"
        with mmap.mmap(-1, 5) as mapped:
            for _, make, *_ in PLAIN:
                ours = [make(b"1"), make(b"2", key=b"k")]
                for text, *wrong in (
                        (one, b"", b"ab", bytearray(2), memoryview(b"ab"), memoryview(b"ab").cast("c"), "", "ab",
                         array.array("B", b"ab"), array.array("b"), (ctypes.c_char * 2)(), mapped),
                        ("{} must be in an order, which a set has not", set(), {b"a", b"b"}, frozenset(ours)),
                        ("{} must not be a dict, whose keys they would be", {}, dict.fromkeys(ours, b"x"))):
                    for each in wrong:
                        self.assert_unchanged(TypeError, text.format("hashes", "hash objects"), each, [b"x", b"x"],
                                              ours)
                        self.assert_unchanged(TypeError, text.format("pieces", "bytes"), ours, each)
                for each in (None, 5, ours[0], object()):
                    text = f"{'vulfsjor.' * (each is ours[0])}{type(each).__name__}"
                    self.assert_unchanged(TypeError, f"'{text}' object is not iterable", each, [b"x", b"x"], ours)
                    self.assert_unchanged(TypeError, f"'{text}' object is not iterable", ours, each)

    def test_wrong_numbers_of_pieces_are_refused(self):
        for (_, make, *_), several in itertools.product(PLAIN, (list, tuple, iter)):
            for count, found in itertools.product((0, 1, 2, 4, 9), (0, 1, 3, 8, 10, 3000)):
                ours = self.nine_hashes(make)[:count]
                if count != found:
                    self.assert_unchanged(ValueError,
                                          f"there are {'more' if found > count else 'fewer'} pieces than hashes",
                                          ours, several([b"x" * 200] * found))

    def test_same_object_twice_is_refused(self):
        """Twice, at any two places, and more often. One and its copy are two."""
        for _, make, theirs, *_ in PLAIN:
            ours = self.nine_hashes(make)
            for first, second in itertools.combinations(range(9), 2):
                given = [*ours[:second], ours[first], *ours[second + 1:]]
                self.assert_unchanged(ValueError, "one of the hashes is there twice", given, [b"x" * 200] * 9, ours)
            self.assert_unchanged(ValueError, "one of the hashes is there twice", ours[:1] * 5, [b"x"] * 5)
            two = [make(b"1")]
            two.append(two[0].copy())
            vulfsjor.update_many(two, [b"x", b"y"])
            self.assertEqual([each.digest() for each in two], [theirs(b"1x").digest(), theirs(b"1y").digest()])

    def test_wrong_pieces_are_refused(self):
        """Each kind of wrong piece, at each place, in a list and from an iterator."""
        for _, make, *_ in PLAIN:
            ours = self.nine_hashes(make)
            for kind, text, wrong in (
                    (TypeError, "Strings must be encoded before hashing", "x" * 200),
                    (TypeError, "object supporting the buffer API required", None),
                    (TypeError, "object supporting the buffer API required", 5),
                    (TypeError, "object supporting the buffer API required", [b"x"]),
                    (TypeError, "object supporting the buffer API required", make()),
                    (BufferError, "memoryview: underlying buffer is not C-contiguous", memoryview(bytes(256))[::2]),
                    (BufferError, "Buffer must be single dimension", ((ctypes.c_char * 3) * 4)())):
                for place, several in itertools.product((0, 1, 8), (list, tuple, iter)):
                    pieces = [b"x" * 200] * 9
                    pieces[place] = wrong
                    self.assert_unchanged(kind, text, ours, several(pieces))

    def test_wrong_arguments_are_refused(self):
        for given, words in (((), {}), (([],), {}), (([], [], []), {}), (([],), {"pieces": []}),
                             ((), {"hashes": [], "pieces": []})):
            self.assertRaises(TypeError, vulfsjor.update_many, *given, **words)

    def test_count_of_2_to_64_is_refused(self):
        """A piece with which the count of one would be 2^64, at each place. One byte less is absorbed."""
        for _, make, _, _, longest in PLAIN:
            block = 2 * longest
            for place, blocks in itertools.product((0, 1, 4, 8), (1, 2, 6)):
                ours, pieces, room = self.nine_hashes(make), [b"x" * 300] * 9, blocks * block - 2
                ours[place] = make(bytes(block + 1))
                at = id(ours[place]) + object.__basicsize__ + {64: 152, 32: 88}[longest]
                self.assertEqual(ctypes.c_uint64.from_address(at).value, block)
                ctypes.c_uint64.from_address(at).value = 2**64 - blocks * block
                for length in (room + 1, 2 * room + 300, 2**32 + room):
                    pieces[place] = unreadable_buffer(length)
                    self.assert_unchanged(OverflowError, "2^64 bytes or more", ours, pieces)
                pieces[place] = bytes(room)
                vulfsjor.update_many(ours, pieces)
                self.assert_unchanged(OverflowError, "2^64 bytes or more", ours, [b"x"] * 9)

    @unittest.skipIf(why_absent("_testcapi"), why_absent("_testcapi"))
    def test_failed_allocation_changes_nothing(self):
        """Each allocation fails in turn: the call raises MemoryError, and changes nothing; or none has failed."""
        import _testcapi  # pylint: disable=import-outside-toplevel
        for (_, make, *_), several in itertools.product(PLAIN, (list, iter)):
            failed, pieces = 0, [bytearray(b"x" * 300)] * 9
            for turn in itertools.count():
                ours = self.nine_hashes(make)
                before, given, data, error = seen(ours), several(ours), several(pieces), None
                _testcapi.set_nomemory(turn, turn + 1)
                try:
                    vulfsjor.update_many(given, data)
                except MemoryError as raised:
                    error = raised
                finally:
                    _testcapi.remove_mem_hooks()
                if not error:
                    self.assertNotEqual(seen(ours), before)
                    break
                failed += 1
                self.assertEqual(seen(ours), before)
            self.assertGreater(failed, 10)


if __name__ == "__main__":
    unittest.main()
