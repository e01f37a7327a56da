"""Makes the calls of the conformance cases (tests/conformance/README.md) by the package, and compares their outcomes.

Of every call it also tests: the bytes of the arguments, of several types, are unchanged, and no view of them is kept; a
digest has the same digits, again and of a copy; a hash in one call is that of an object in pieces, and under a key that
of the MAC, which accepts only this tag and goes on; the root of a tree is the same by threads.
"""
import array
import hmac
import os
import re
import tempfile
import unittest

from support import TOP, skip_unless_in_clone, run  # first: it builds the package

import vulfsjor

skip_unless_in_clone()
NAMES = {"size": "digest_size", "leaf": "leaf_size", "offset": "node_offset", "node": "node_depth",
         "inner": "inner_size", "last": "last_node"}
HASHES = ("blake2b", "blake2s", "blake2bp", "blake2sp", "blake2xb", "blake2xs", "tree")
FIRST = bytes((i + (i >> 8)) & 255 for i in range(1 << 16))
# The beginning of the endless message. Each 65,536 bytes are those before them, and 1.
MESSAGE = b"".join(FIRST.translate(bytes((i + k) & 255 for i in range(256))) for k in range(12))
# What the message of an exception has, by the argument that is refused. Where a number is no int of C, it has no name.
INTEGER = "|signed integer is|too (large|big) to convert|value must be positive"
REASONS = {
    "size": "digest_size|length must be|the output has|length is too large" + INTEGER,
    "key": "key", "salt": "salt", "person": "person", "fanout": "fanout" + INTEGER, "depth": "depth" + INTEGER,
    "node": "node_depth" + INTEGER, "inner": "inner_size" + INTEGER, "leaf": "leaf_size" + INTEGER,
    "offset": "node_offset" + INTEGER,
    "left": "the output has only|length must be between",
    "message": r"data must|last leaf|least one byte|must follow|empty|2\^64 bytes", "digests": "64 bytes|digests",
    "first": r"2\^58|first", "skip": r"2\^58|skip",
    "state": "leaf boundary|at the start|in the middle|boundary", "saved": "not a saved state of blake2"}
# How many cases of each hash end early, by the call that Python does not have.
SKIPPED = {
    "blake2b": {"last": 51, "equal": 98, "reset": 107, "skip": 101, "new": 3, "hash": 3, "many": 1},
    "blake2s": {"last": 50, "equal": 66, "reset": 106, "skip": 101, "new": 3, "hash": 3, "many": 1},
    "blake2bp": {"equal": 98, "reset": 99, "new": 3, "hash": 3},
    "blake2sp": {"equal": 66, "reset": 97, "new": 3, "hash": 3},
    "blake2xb": {"new": 4, "hash": 4, "reset": 88, "update": 232},
    "blake2xs": {"new": 4, "hash": 4, "reset": 99, "update": 223},
    "tree": {"verify": 108, "equal": 98, "reset": 99}}


class MissingInPython(Exception):
    """A call that Python has not, or another answer."""


class Driver:
    """The objects of a case, and a method for each call."""

    def __init__(self):
        self.objects, self.places, self.keyed, self.given = {}, {}, {}, []

    def bytes_of(self, word):
        """The bytes of a word, as one of several types by turns."""
        if word == "none":
            return None
        if ":" in word:
            start, end = map(int, word.split(":"))
            assert end <= len(MESSAGE), word
            data = MESSAGE[start:end]
        else:
            data = b"" if word == "-" else bytes.fromhex(word)
        kind = (len(data) + len(self.given)) % 4
        made = (data, bytearray(data), memoryview(b"x" + data + b"y")[1:-1], array.array("B", data))[kind]
        self.given.append((made, data))
        return made

    def outcome_of_call(self, call):
        """What a call returns, or the exception that it raises."""
        verb, *words = call.split()
        named = dict(word.split("=") for word in words if "=" in word)
        self.given = []
        try:
            value = getattr(self, verb)(*(word for word in words if "=" not in word), **named)
        except (TypeError, ValueError, OverflowError) as error:
            return error
        finally:
            for made, data in self.given:
                assert bytes(made) == data, "an argument was changed"
                if isinstance(made, bytearray):
                    made.clear()  # BufferError: a view was kept
        if isinstance(value, bytes):
            value = value.hex() or "-"
        return "" if value is None else f"= {value}"

    def to_keywords(self, name, words):
        found = {}
        if words.get("key") == "-":
            raise MissingInPython("an empty key, which is none except for a MAC")
        for word, value in words.items():
            if word in ("key", "salt", "person"):
                found[word] = self.bytes_of(value)
            elif "x" in name and word == "size":
                if value == "none":
                    raise MissingInPython("None is a length that is not known")
                found["length"] = None if value == "unknown" else int(value)
            else:
                found[NAMES.get(word, word)] = None if value == "none" else int(value)
        return found

    def of(self, slot):
        if self.objects.get(slot) is None:
            raise MissingInPython("state")
        return self.objects[slot]

    # ---- calls of an object

    def new(self, slot, name, **words):
        self.objects[slot] = self.places[slot] = None
        given = self.to_keywords(name, words)
        self.keyed[slot] = "key" in given
        made = vulfsjor.TreeHasher(**given) if name == "tree" else getattr(vulfsjor, name)(**given)
        assert name != "tree" or (made.leaf_size, made.count) == (given["leaf_size"], 0)
        self.objects[slot] = made

    def update(self, slot, message):
        hasher = self.of(slot)
        if self.places[slot] is not None:
            raise MissingInPython("an output that was read absorbs more")
        assert hasher.update(self.bytes_of(message)) is None

    def updates(self, slots, *messages):
        hashers, kind = [self.of(slot) for slot in slots], (list, tuple, iter)[len(messages) % 3]
        assert vulfsjor.update_many(kind(hashers), kind([self.bytes_of(message) for message in messages])) is None

    def copy(self, slot, other):
        one = self.of(slot)
        made = self.objects[other] = one.copy()
        for name in ("__class__", "digest_size", "leaf_size", "count"):
            assert getattr(made, name, None) == getattr(one, name, None), name
        self.places[other], self.keyed[other] = self.places[slot], self.keyed[slot]

    def wipe(self, slot):
        self.objects[slot] = None

    def save(self, slot):
        saved = self.of(slot).save()
        assert saved == self.of(slot).copy().save(), "another saved state"
        return saved

    def load(self, slot, name, saved):
        self.objects[slot] = self.places[slot] = None
        self.keyed[slot] = False
        self.objects[slot] = getattr(vulfsjor, name).load(self.bytes_of(saved))

    def digest(self, slot):
        hasher, self.objects[slot] = self.of(slot), None
        value = hasher.digest()
        assert value == hasher.copy().digest() == bytes.fromhex(hasher.hexdigest()), "another digest"
        assert len(value) == hasher.digest_size == hasher.copy().digest_size
        return value

    def verify(self, slot, tag):
        hasher, given = self.of(slot), self.bytes_of(tag)
        if not hasattr(hasher, "verify"):
            raise MissingInPython("verify")
        is_right = True
        try:
            assert hasher.verify(given) is None
        except vulfsjor.InvalidTag:
            is_right = False
        except ValueError:
            assert not self.keyed[slot] or hasher.digest_size < 16, "verify refuses a key"
            is_right = hmac.compare_digest(hasher.digest(), given)
        else:
            assert self.keyed[slot] and hasher.digest_size >= 16, "verify accepts what is no tag"
        self.objects[slot] = None
        return "yes" if is_right else "no"

    def count(self, slot):
        return getattr(self.of(slot), "count", None)

    def left(self, slot):
        self.of(slot)

    def read(self, slot, count):
        start = self.places[slot] or 0
        value = self.of(slot).digest(start + int(count))
        self.places[slot] = start + int(count)
        assert value.hex() == self.of(slot).hexdigest(self.places[slot])
        return value[start:]

    # ---- calls without an object

    def hash(self, name, message, **words):
        given, data = self.to_keywords(name, words), self.bytes_of(message)
        if name == "tree":
            value = vulfsjor.tree_root(data, **given)
            assert value == vulfsjor.tree_root(data, **given, threads=3), "another root by threads"
            hasher = vulfsjor.TreeHasher(**given)
        else:
            hasher = getattr(vulfsjor, name)(data, **given)
            value = hasher.digest(given["length"]) if "x" in name else hasher.digest()
            hasher = getattr(vulfsjor, name)(**given)
        for start in range(0, len(data), max(1, len(data) // 3)):
            hasher.update(data[start:start + max(1, len(data) // 3)])
        assert value == (hasher.digest(given["length"]) if "x" in name else hasher.digest()), "another digest in pieces"
        if "key" in given and "x" not in name and set(given) <= {"key", "digest_size", "salt", "person"}:
            mac = getattr(vulfsjor, f"{name}_mac")(data=data, **given, allow_short=True)
            assert mac.verify(value) is None
            self.assert_refuses_tags(mac, value[:-1] + bytes([value[-1] ^ 1]), value[:-1], value + b"\0")
            assert value == mac.digest() == mac.copy().digest() and len(value) == mac.digest_size, "another tag"
        return value

    @staticmethod
    def assert_refuses_tags(mac, *tags):
        for tag in tags:
            try:
                mac.verify(tag)
            except vulfsjor.InvalidTag:
                continue
            raise AssertionError(f"{tag.hex()} is accepted")

    def many(self, name, *messages, **words):
        given = self.to_keywords(name, words)
        return b"".join(getattr(vulfsjor, f"{name}_many")(map(self.bytes_of, messages), **given))

    def derive(self, context, key, size):
        return vulfsjor.derive_key(self.bytes_of(key), self.bytes_of(context), int(size))

    def leaves(self, message, first, ends, **words):
        given, data = self.to_keywords("tree", words), self.bytes_of(message)
        digests = vulfsjor.tree_leaves(data, **given, first=int(first), ends=ends == "1")
        assert len(digests) == 64 * vulfsjor.tree_leaf_count(len(data), given["leaf_size"])
        return digests

    def top(self, digests, **words):
        return vulfsjor.tree_root_of_leaves(self.bytes_of(digests), **self.to_keywords("tree", words))

    def next(self, slot, skip, message):
        return self.of(slot).leaves_ahead(self.bytes_of(message), skip=int(skip))

    def absorb(self, slot, leaves, message):
        data = self.bytes_of(leaves)
        self.of(slot).update_leaves(self.of(slot).leaves_ahead(data) if data else b"", self.bytes_of(message))


def is_wanted_outcome(got, wanted, call):
    """Whether an outcome is the wanted one."""
    if not isinstance(got, Exception):
        return got == wanted or (got == "" and call.split()[0] in ("count", "left"))
    if not wanted.startswith("! "):
        return False
    if "none" in call:
        return isinstance(got, TypeError)
    return not isinstance(got, TypeError) and any(re.search(REASONS[name], str(got)) for name in wanted[2:].split(","))


class ConformanceTest(unittest.TestCase):
    @classmethod
    def setUpClass(cls):
        cls.folder = os.environ.get("VULFSJOR_CONFORMANCE")
        if not cls.folder:
            made = tempfile.TemporaryDirectory()
            cls.addClassCleanup(made.cleanup)
            cls.folder = made.name
            run("python3", os.path.join(TOP, "tests", "conformance", "write.py"), cls.folder)

    def run_cases_of_hash(self, hash_name):
        driver, name, cases, absent = Driver(), "", 0, {}
        with open(os.path.join(self.folder, f"{hash_name}.txt"), encoding="ascii") as file:
            for line in map(str.rstrip, file):
                if line.startswith("case "):
                    driver, name, cases = Driver(), line[5:], cases + 1
                elif line and line[0] != "#" and driver:
                    call, *wanted = re.split(r" (?=[=!] )", line)
                    wanted = wanted[0] if wanted else ""
                    try:
                        got = driver.outcome_of_call(call)
                        self.assertTrue(is_wanted_outcome(got, wanted, call),
                                        f"{name}: {line[:200]}\n  gives {got!r:.200}")
                    except AssertionError as error:
                        self.fail(f"{name}: {line[:200]}\n  {error}")
                    except (MissingInPython, AttributeError) as error:
                        if str(error) != "state" or wanted != "! state":
                            absent[call.split()[0]] = absent.get(call.split()[0], 0) + 1
                            driver = None
        self.assertGreater(cases, 500)
        return absent

    def test_all_cases_of_each_hash(self):
        """The cases of each hash. A case ends early at a call that Python does not have: SKIPPED has their numbers."""
        for hash_name in HASHES:
            with self.subTest(hash_name):
                self.assertEqual(self.run_cases_of_hash(hash_name), SKIPPED[hash_name])


if __name__ == "__main__":
    unittest.main()
