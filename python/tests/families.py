"""What the tests of the functions share: a table of hash functions, BLAKE2bp and BLAKE2sp by the model, and data with
its root in a tree."""
import hashlib
import os
import random
import threading
import time
import types

import support  # noqa: F401  first: it builds the package
import oracle
import vulfsjor

MIB = 1 << 20
DATA = random.Random(2).randbytes(9 * MIB + 12345)
ROOT = oracle.tree_root(DATA, 1 << 14)
TEXTS = dict(salt=b"salt", person=b"a persona of 16b")


def parallel_hash_like_hashlib(name):
    """BLAKE2bp ("b") or BLAKE2sp ("s") with the interface of hashlib, which has neither, as far as
    the tests need it."""
    longest = oracle.SCALAR[name].digest

    def make(data=b"", digest_size=longest, key=b"", **texts):
        if key or digest_size < longest:
            digest = oracle.parallel_digest(name, data, digest_size, key, **texts)
        else:
            digest = oracle.parallel_digest_by_hashlib(name, data, **texts)
        return types.SimpleNamespace(digest=lambda: digest)

    return make


# The name, the class, what computes the digest, the function of several messages, the longest digest and key.
PLAIN = (("blake2b", vulfsjor.blake2b, hashlib.blake2b, vulfsjor.blake2b_many, 64),
         ("blake2s", vulfsjor.blake2s, hashlib.blake2s, vulfsjor.blake2s_many, 32))
FAMILIES = (*PLAIN, ("blake2bp", vulfsjor.blake2bp, parallel_hash_like_hashlib("b"), None, 64),
            ("blake2sp", vulfsjor.blake2sp, parallel_hash_like_hashlib("s"), None, 32))
# The name, the class, the longest key, and the longest output of known length.
OUTPUTS = (("blake2xb", vulfsjor.blake2xb, 64, 2**32 - 2), ("blake2xs", vulfsjor.blake2xs, 32, 2**16 - 2))


def count_hashing_threads():
    """The number of threads of this process that are neither Python's nor the one of `setUp`."""
    return len(os.listdir("/proc/self/task")) - threading.active_count() - 1


def have_hashing_threads_ended():
    """Whether there are no other threads. The kernel lists one for a moment after it has ended."""
    end = time.monotonic() + 20
    while count_hashing_threads() and time.monotonic() < end:
        time.sleep(0.001)
    return not count_hashing_threads()
