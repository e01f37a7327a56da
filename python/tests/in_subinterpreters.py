"""Runs the package in subinterpreters, with a GIL each where Python has that, several times, and
from 3.13 on several at once: in_subinterpreters.py FOLDER, which has the package."""
import concurrent.futures
import hashlib
import sys

try:
    import _interpreters as interpreters
except ImportError:
    import _xxsubinterpreters as interpreters

DATA = bytes(range(256)) * 12_289
WANTED = [hashlib.blake2b(DATA, key=b"key").digest(), hashlib.blake2s(DATA).digest()]
sys.path.insert(0, sys.argv[1])
import vulfsjor  # noqa: E402

PARALLEL = vulfsjor.blake2bp(DATA).digest()
ROOT = vulfsjor.tree_root(DATA, 4096)
# hashlib itself is not used there: that of 3.12.1 corrupts memory. Nor are threads before 3.13.
PROGRAM = f"""
import sys
sys.path.insert(0, {sys.argv[1]!r})
import vulfsjor
data = bytes(range(256)) * 12_289
hasher = vulfsjor.blake2b(key=b"key")
hasher.update(data)
assert [hasher.copy().digest(), vulfsjor.blake2s(data).digest()] == {WANTED!r}
hasher.verify({WANTED[0]!r})
try:
    hasher.verify(b"other")
except vulfsjor.InvalidTag:
    pass
else:
    raise AssertionError
several = [vulfsjor.blake2b(), vulfsjor.blake2b(key=b"key"), vulfsjor.blake2b()]
vulfsjor.update_many(several, [b"x", data, data])
assert several[1].digest() == {WANTED[0]!r}
assert vulfsjor.blake2bp(data).digest() == {PARALLEL!r}
assert vulfsjor.blake2s_many([data, data]) == [{WANTED[1]!r}] * 2
for threads in (1, 3 if sys.version_info >= (3, 13) else 1):
    tree = vulfsjor.TreeHasher(4096)
    tree.update(data, threads=threads)
    assert tree.digest() == vulfsjor.tree_root(data, 4096, threads=threads) == {ROOT!r}
try:
    vulfsjor.blake2b.name = 5
except TypeError:
    kept = [vulfsjor.blake2b(b"kept"), vulfsjor.TreeHasher(5), vulfsjor.blake2s_mac(b"kept")]
else:
    raise AssertionError
"""


def run_in_interpreter(each):
    """Runs the program in an interpreter. Returns why it failed, or None."""
    try:
        failed = interpreters.run_string(each, PROGRAM)
    except Exception as error:  # in 3.11 and 3.12
        failed = error
    return getattr(failed, "formatted", failed)


failures = []
for _ in range(2):
    created = [interpreters.create() for _ in range(3)]
    if sys.version_info >= (3, 13):
        with concurrent.futures.ThreadPoolExecutor(3) as pool:
            failures += filter(None, pool.map(run_in_interpreter, created))
    else:
        failures += filter(None, map(run_in_interpreter, created))
    for each in created:
        interpreters.destroy(each)
assert vulfsjor.blake2b(DATA, key=b"key").digest() == WANTED[0]
sys.exit("\n".join(map(str, failures)) or 0)
