"""BLAKE2b and BLAKE2s (RFC 7693), BLAKE2bp and BLAKE2sp, BLAKE2Xb and BLAKE2Xs by formally verified
functions, with the interface of hashlib.

    >>> import vulfsjor
    >>> vulfsjor.blake2b(b"hello world", digest_size=16).hexdigest()
    'e9a804b2e527fd3601d2ffc0bb023cd6'

A message authentication code. `verify` compares all bytes of the tag, and raises InvalidTag:

    >>> mac = vulfsjor.blake2b_mac(bytes(32), b"message", person=b"my program")
    >>> tag = mac.digest()
    >>> mac.verify(tag)
    >>> mac.verify(tag[:16])
    Traceback (most recent call last):
    vulfsjor.InvalidTag: the tag is not that of the message

BLAKE2bp and BLAKE2sp hash long messages faster than BLAKE2b and BLAKE2s, to other digests:

    >>> vulfsjor.blake2bp(b"hello world", digest_size=8).hexdigest()
    '9c84350dd8a3243f'

An output of any length, and keys that are derived from a key:

    >>> vulfsjor.blake2xb(b"hello world").hexdigest(8)
    '98214fc7e75bfd9e'
    >>> len(vulfsjor.derive_key(bytes(32), b"files 2026", 96))
    96

Several messages in one call, and the root of a tree of two levels:

    >>> [digest.hex()[:8] for digest in vulfsjor.blake2b_many([b"abc", b"xyz"])]
    ['ba80a53f', '6e592853']
    >>> vulfsjor.tree_root(b"hello world", leaf_size=4096, digest_size=8).hex()
    '15312d2d5f65d53e'
"""
# `as` says to type checkers that these are names of this package too.
from vulfsjor._library import (
    BLAKE2B_MAX_DIGEST_SIZE as BLAKE2B_MAX_DIGEST_SIZE,
    BLAKE2B_MAX_KEY_SIZE as BLAKE2B_MAX_KEY_SIZE,
    BLAKE2B_PERSON_SIZE as BLAKE2B_PERSON_SIZE,
    BLAKE2B_SALT_SIZE as BLAKE2B_SALT_SIZE,
    BLAKE2BP_MAX_DIGEST_SIZE as BLAKE2BP_MAX_DIGEST_SIZE,
    BLAKE2BP_MAX_KEY_SIZE as BLAKE2BP_MAX_KEY_SIZE,
    BLAKE2BP_PERSON_SIZE as BLAKE2BP_PERSON_SIZE,
    BLAKE2BP_SALT_SIZE as BLAKE2BP_SALT_SIZE,
    BLAKE2S_MAX_DIGEST_SIZE as BLAKE2S_MAX_DIGEST_SIZE,
    BLAKE2S_MAX_KEY_SIZE as BLAKE2S_MAX_KEY_SIZE,
    BLAKE2S_PERSON_SIZE as BLAKE2S_PERSON_SIZE,
    BLAKE2S_SALT_SIZE as BLAKE2S_SALT_SIZE,
    BLAKE2SP_MAX_DIGEST_SIZE as BLAKE2SP_MAX_DIGEST_SIZE,
    BLAKE2SP_MAX_KEY_SIZE as BLAKE2SP_MAX_KEY_SIZE,
    BLAKE2SP_PERSON_SIZE as BLAKE2SP_PERSON_SIZE,
    BLAKE2SP_SALT_SIZE as BLAKE2SP_SALT_SIZE,
    InvalidTag,
    TreeHasher,
    __build__ as __build__,
    __version__ as __version__,
    blake2b,
    blake2b_mac,
    blake2b_many,
    blake2bp,
    blake2bp_mac,
    blake2s,
    blake2s_mac,
    blake2s_many,
    blake2sp,
    blake2sp_mac,
    blake2xb,
    blake2xs,
    derive_key,
    tree_leaf_count,
    tree_leaves,
    tree_root,
    tree_root_of_leaves,
    update_many,
)
from vulfsjor._files import file_digest, tree_root_file

__all__ = [
    "InvalidTag", "TreeHasher", "blake2b", "blake2b_mac", "blake2b_many", "blake2bp",
    "blake2bp_mac", "blake2s", "blake2s_mac", "blake2s_many", "blake2sp", "blake2sp_mac",
    "blake2xb", "blake2xs", "derive_key", "file_digest", "tree_leaf_count", "tree_leaves",
    "tree_root", "tree_root_file", "tree_root_of_leaves", "update_many",
]
