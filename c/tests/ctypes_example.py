"""What c/examples/ctypes_hash.py accepts and refuses, and what tags the library verifies by ctypes:
ctypes_example.py ctypes_hash.py LIBRARY"""
import array
import ctypes
import hashlib
import runpy
import sys

blake2b = runpy.run_path(sys.argv.pop(1))["blake2b"]


def is_hashlib_digest(message, size=64, key=b""):
    """The digest is that of hashlib."""
    wanted = hashlib.blake2b(bytes(message), digest_size=size, key=key).digest()
    if blake2b(message, size, key) != wanted or blake2b(message, size=size, key=key) != wanted:
        raise SystemExit(f"another digest of {message!r} in {size} bytes under {key!r}")


for error, *arguments in (
        (TypeError, "abc"), (TypeError, b"abc", 64, "key"), (TypeError, 3), (TypeError, None), (TypeError, [1, 2]),
        (TypeError, b"abc", 64, None), (ValueError, b"abc", 0), (ValueError, b"abc", 65), (ValueError, b"abc", -1),
        (ValueError, b"abc", 64, bytes(65))):
    try:
        blake2b(*arguments)
    except error:
        continue
    raise SystemExit(f"{arguments} should raise {error.__name__}")

data = bytes(range(256)) * 3
for size in range(1, 65):
    is_hashlib_digest(data[:11 * size], size, data[:size])
for wrap in (bytes, bytearray, memoryview, lambda b: memoryview(bytearray(b)), lambda b: array.array("B", b)):
    is_hashlib_digest(wrap(b"abc"), key=wrap(b"key"))
# A view of every second byte, and one of wider items.
is_hashlib_digest(memoryview(data)[::2])
is_hashlib_digest(array.array("I", range(9)))


def verify_refuses(library, name, longest):
    """The exported verify accepts the digest of a state with a key, and of one without a key none."""
    def call_state_function(word, state, text):
        return getattr(library, f"vulfsjor_ffi_{name}_{word}")(state, text, ctypes.c_size_t(len(text)))

    for key in b"", b"key":
        length = getattr(library, f"vulfsjor_ffi_{name}_state_size")
        length.restype = ctypes.c_size_t
        states = [(ctypes.c_uint64 * (length() // 8))() for _ in range(2)]
        digest = ctypes.create_string_buffer(longest)
        for state in states:
            init = getattr(library, f"vulfsjor_ffi_{name}_init_salt_personal")
            none = b"", ctypes.c_size_t(0)
            made = init(state, ctypes.c_size_t(longest), key, ctypes.c_size_t(len(key)), *none, *none)
            if made or call_state_function("update", state, b"pay 10 to Alice"):
                raise SystemExit(f"{name} makes no state")
        before = bytes(states[1])
        if call_state_function("final", states[0], digest):
            raise SystemExit(f"{name} has no digest")
        if call_state_function("verify", states[1],
                               digest.raw) != (0 if key else -1) or (bytes(states[1]) == before) == bool(key):
            raise SystemExit(f"{name} verifies a digest of a state {'with' if key else 'without'} a key wrongly")


library = ctypes.CDLL(sys.argv[1])
for name, longest in ("blake2b", 64), ("blake2s", 32), ("blake2bp", 64), ("blake2sp", 32):
    verify_refuses(library, name, longest)
