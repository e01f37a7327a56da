"""Compares the package with Python's own BLAKE2 over a list of calls at the edges, which both have to answer by the
same digest or the same exception with the same message, and the objects of all hash functions with its objects.
test_conformance.py has the values of all other calls, and test_refusals.py other arguments that are refused."""
import array
import copy
import ctypes
from functools import partial
import inspect
import itertools
import mmap
import pickle
import unittest

import _blake2
from families import FAMILIES, OUTPUTS, PLAIN
import vulfsjor


def parameters_at_edges(longest):
    """Each parameter by itself, at its edges, beyond them, and of other types."""
    small, bits = longest // 4, 64 if longest == 64 else 48
    numbers = {"digest_size": (1, longest), "fanout": (0, 255), "depth": (1, 255), "leaf_size": (0, 2**32 - 1),
               "node_offset": (0, 2**bits - 1), "node_depth": (0, 255), "inner_size": (0, longest)}
    for name, (least, most) in numbers.items():
        near = [bound + step for bound in (least, most) for step in (-2, -1, 0, 1, 2)]
        far = [2**power + step for power in (8, 31, 32, 48, 63, 64, 100) for step in (-1, 0, 1)]
        index = type("Index", (), {"__index__": lambda self: 2})()
        for value in (*near, *far, *(-number for number in far), None, 1.0, "1", b"1", True, index):
            yield {name: value}
    for name, most in {"key": longest, "salt": small, "person": small}.items():
        texts = [text[:length] for length in (0, 1, most - 1, most, most + 1, 2 * most, 1000)
                 for text in (bytes(1000), bytes(range(1, 256)))]
        for value in (*texts, None, 1, "text", bytearray(b"12"), memoryview(b"12"), memoryview(b"1234")[::2],
                      array.array("H", [1, 2]), [1]):
            yield {name: value}
    for name in ("last_node", "usedforsecurity"):
        for value in (0, 1, 2, None, "", "x", True, False):
            yield {name: value}
    try:
        _blake2.blake2b(data=b"x")  # as of 3.13.4
    except TypeError:
        yield {"data": b"x"}
    yield {"size": 1}
    refused = {"digest_size": 0, "salt": bytes(99), "person": bytes(99), "fanout": -1, "depth": 0, "leaf_size": 2**32,
               "node_offset": 2**64, "node_depth": -1, "inner_size": -1, "key": bytes(99)}
    for first, second in itertools.combinations(refused, 2):  # which of two is refused first
        yield {first: refused[first], second: refused[second]}


def outcome_of(act):
    """The result of a call, or the name and the message of its exception: None for the two
    messages that differ. That of pickle goes on."""
    try:
        return act()
    except Exception as fault:  # whatever is raised is compared
        text = str(fault).replace("vulfsjor.", "_blake2.").removesuffix(": pickle what its method save returns")
        differs = isinstance(fault, OverflowError) or text.startswith("inner_size")
        return type(fault).__name__, None if differs else text


def outcomes_of_edge_calls(module, name, longest):
    """The outcome of every call at the edges."""
    make = getattr(module, name)
    for words in parameters_at_edges(longest):
        yield words, outcome_of(lambda: make(b"message", **words).hexdigest())
    for data in hashed_and_refused_inputs():
        yield data, outcome_of(lambda: make(data).hexdigest())
        yield data, outcome_of(lambda: make().update(data))
    yield "two", outcome_of(lambda: make(b"a", b"b"))


def hashed_and_refused_inputs():
    """Objects to hash, and objects that are refused."""
    mapped = mmap.mmap(-1, 5000, access=mmap.ACCESS_READ)
    yield from (b"", b"abc", bytearray(b"abc"), memoryview(b"abc"), memoryview(b"abcdef")[1:4], mapped,
                memoryview(b"abcdef")[::2], array.array("I", [1, 2, 3]), (ctypes.c_char * 8)(), ctypes.c_uint64(7),
                ((ctypes.c_char * 3) * 4)(), memoryview(bytes(12)).cast("B", (3, 4)), bytes(4096), bytearray(4096),
                "text", "", 1, None, [1, 2], object(), 1.5)


class EdgeCallsTest(unittest.TestCase):
    """All calls at the edges."""

    def test_edge_calls_are_as_in_hashlib(self):
        count = 0
        for name, *_, longest in PLAIN:
            for ours, theirs in zip(outcomes_of_edge_calls(vulfsjor, name, longest),
                                    outcomes_of_edge_calls(_blake2, name, longest),
                                    strict=True):
                self.assertEqual(ours[1:], theirs[1:], (name, ours))
                count += 1
        self.assertGreater(count, 1000)


def outcomes_of_object_calls(kind, make):
    """The outcome of calls of a class and its objects that return no digest."""
    yield "none", outcome_of(lambda: make().update())
    yield "digest", outcome_of(lambda: make().digest(1))
    yield "subclass", outcome_of(lambda: type("Sub", (kind,), {}))
    for call in (pickle.dumps, copy.copy, vars, bytes, memoryview, len):
        yield call, outcome_of(lambda: call(make()))
    yield "shown", repr(make()).partition(" at ")[0].replace("vulfsjor.", "_blake2.")
    yield "attribute", outcome_of(lambda: setattr(make(), "other", 1))
    for field in ("name", "block_size", "digest_size", "update"):
        yield field, outcome_of(lambda: setattr(make(), field, 1))[0]
    for constant in ("MAX_DIGEST_SIZE", "MAX_KEY_SIZE", "SALT_SIZE", "PERSON_SIZE"):
        yield constant, getattr(kind, constant)
        yield constant, outcome_of(lambda: setattr(kind, constant, 1))[0]
        yield constant, outcome_of(lambda: delattr(kind, constant))[0]


def with_name_replaced(thing, old, new):
    """An outcome of a call, with another name of the hash in its message."""
    if isinstance(thing, str):
        return thing.replace(old, new)
    return tuple(with_name_replaced(each, old, new) for each in thing) if isinstance(thing, tuple) else thing


class ObjectsTest(unittest.TestCase):
    """Next to those of the plain family."""

    def test_objects_are_as_in_hashlib(self):
        """They are neither changed, nor subclassed, nor pickled, and show nothing of a key."""
        for name, make, _, _, longest in FAMILIES:
            plain, mac = name[:7], getattr(vulfsjor, f"{name}_mac")
            for kind, new in ((make, make), (mac, partial(mac, b"key", allow_short=True))):
                theirs = getattr(_blake2, plain)
                for ours, wanted in zip(outcomes_of_object_calls(kind, new), outcomes_of_object_calls(theirs, theirs),
                                        strict=True):
                    self.assertEqual(ours, with_name_replaced(wanted, plain, kind.__name__))
                made = new(digest_size=5)
                self.assertEqual((made.name, made.block_size, made.digest_size), (kind.__name__, 2 * longest, 5))
                self.assertEqual((type(made.copy()), made.copy().digest_size, new().digest_size), (kind, 5, longest))
                self.assertEqual((kind.__module__, kind.__name__), ("vulfsjor", name + "_mac" * (kind is mac)))
                for other in (made.copy(), made.digest()):
                    self.assertNotEqual(made, other)
            for constant in ("MAX_DIGEST_SIZE", "MAX_KEY_SIZE", "SALT_SIZE", "PERSON_SIZE"):
                self.assertEqual(getattr(vulfsjor, f"{name.upper()}_{constant}"), getattr(make, constant))

    def test_output_objects_are_immutable(self):
        for name, make, longest, _ in OUTPUTS:
            self.assertEqual((make().name, make().block_size), (name, 2 * longest))
            self.assertRaises(TypeError, type, "Sub", (make,), {})
            with self.assertRaisesRegex(TypeError, "immutable type"):
                make.name = "other"

    def test_signatures_are_those_of_hashlib(self):
        positional = inspect.Parameter.POSITIONAL_ONLY
        for _, make, theirs, *_ in PLAIN:
            # From 3.13.4 on, hashlib accepts the data by two names too.
            wanted = [each.replace(kind=positional) if each.name == "data" else each
                      for each in inspect.signature(theirs).parameters.values()
                      if each.name != "string"]
            self.assertEqual(list(inspect.signature(make).parameters.values()), wanted)
            for method in ("copy", "digest", "hexdigest", "update"):
                self.assertEqual(*(inspect.signature(getattr(each, method)) for each in (make, theirs)))


if __name__ == "__main__":
    unittest.main()
