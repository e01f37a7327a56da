from collections.abc import Callable, Iterable
from typing import ClassVar, Self, SupportsIndex, final

# An object with bytes: bytes, bytearray, memoryview and others. Type checkers know this module in
# stubs; no program imports it.
from _typeshed import FileDescriptorOrPath
from _typeshed import ReadableBuffer as _Bytes

__build__: str
__version__: str

BLAKE2B_MAX_DIGEST_SIZE: int
BLAKE2B_MAX_KEY_SIZE: int
BLAKE2B_PERSON_SIZE: int
BLAKE2B_SALT_SIZE: int
BLAKE2BP_MAX_DIGEST_SIZE: int
BLAKE2BP_MAX_KEY_SIZE: int
BLAKE2BP_PERSON_SIZE: int
BLAKE2BP_SALT_SIZE: int
BLAKE2S_MAX_DIGEST_SIZE: int
BLAKE2S_MAX_KEY_SIZE: int
BLAKE2S_PERSON_SIZE: int
BLAKE2S_SALT_SIZE: int
BLAKE2SP_MAX_DIGEST_SIZE: int
BLAKE2SP_MAX_KEY_SIZE: int
BLAKE2SP_PERSON_SIZE: int
BLAKE2SP_SALT_SIZE: int

class InvalidTag(ValueError):
    """The tag of a message is wrong: see verify."""

# What the hashes and message authentication codes have. Only type checkers know these classes.
class _Hasher:
    MAX_DIGEST_SIZE: ClassVar[int]
    MAX_KEY_SIZE: ClassVar[int]
    PERSON_SIZE: ClassVar[int]
    SALT_SIZE: ClassVar[int]
    @property
    def name(self) -> str:
        """The name of the hash function."""
    @property
    def block_size(self) -> int:
        """The number of bytes in a block of the hash function."""
    @property
    def digest_size(self) -> int:
        """The number of bytes in the digest."""
    def copy(self) -> Self:
        """Return a copy of the hash object."""
    def digest(self) -> bytes:
        """Return the digest value as a bytes object."""
    def hexdigest(self) -> str:
        """Return the digest value as a string of hexadecimal digits."""
    def update(self, data: _Bytes, /) -> None:
        """Update this hash object's state with the provided bytes-like object."""
    def verify(self, tag: _Bytes, /) -> None:
        """Return None if the tag is the whole digest of all input so far, and raise InvalidTag if not.

        All bytes of a tag of the digest's length are compared, wherever they differ. An object
        without a key raises ValueError: compare its digest with hmac.compare_digest. So does one with
        a digest of fewer than 16 bytes, unless it is made by blake2b_mac and its like.
        """

@final
class blake2b(_Hasher):
    """Return a new hash object.

    digest_size is 1 to 64, a key has up to 64 bytes, salt and person up to 16 each.
    """
    def __new__(
        cls,
        data: _Bytes = b"",
        /,
        *,
        digest_size: SupportsIndex = 64,
        key: _Bytes = b"",
        salt: _Bytes = b"",
        person: _Bytes = b"",
        fanout: SupportsIndex = 1,
        depth: SupportsIndex = 1,
        leaf_size: int = 0,
        node_offset: int = 0,
        node_depth: SupportsIndex = 0,
        inner_size: SupportsIndex = 0,
        last_node: bool = False,
        usedforsecurity: bool = True,
    ) -> Self: ...
    def save(self) -> bytes:
        """Return the hash object as bytes, which load reads, in every language and later version.

        They contain the input that is pending, up to a block. An object with a key raises
        ValueError: the bytes would be as good as the key.
        """
    @classmethod
    def load(cls, saved: _Bytes, /) -> Self:
        """Return the hash object that save returned as these bytes.

        Whoever can change them chooses the digest, so keep them as safe as the input. What is not
        a saved state of this hash raises ValueError.
        """

@final
class blake2s(_Hasher):
    """Return a new hash object.

    digest_size is 1 to 32, a key has up to 32 bytes, salt and person up to 8 each.
    """
    def __new__(
        cls,
        data: _Bytes = b"",
        /,
        *,
        digest_size: SupportsIndex = 32,
        key: _Bytes = b"",
        salt: _Bytes = b"",
        person: _Bytes = b"",
        fanout: SupportsIndex = 1,
        depth: SupportsIndex = 1,
        leaf_size: int = 0,
        node_offset: int = 0,
        node_depth: SupportsIndex = 0,
        inner_size: SupportsIndex = 0,
        last_node: bool = False,
        usedforsecurity: bool = True,
    ) -> Self: ...
    def save(self) -> bytes:
        """Return the hash object as bytes, which load reads, in every language and later version.

        They contain the input that is pending, up to a block. An object with a key raises
        ValueError: the bytes would be as good as the key.
        """
    @classmethod
    def load(cls, saved: _Bytes, /) -> Self:
        """Return the hash object that save returned as these bytes.

        Whoever can change them chooses the digest, so keep them as safe as the input. What is not
        a saved state of this hash raises ValueError.
        """

@final
class blake2bp(_Hasher):
    """Return a new hash object.

    digest_size is 1 to 64, a key has up to 64 bytes, salt and person up to 16 each.
    Salt and person are an extension: the BLAKE2 document gives BLAKE2bp neither.
    """
    def __new__(
        cls,
        data: _Bytes = b"",
        /,
        *,
        digest_size: SupportsIndex = 64,
        key: _Bytes = b"",
        salt: _Bytes = b"",
        person: _Bytes = b"",
        usedforsecurity: bool = True,
    ) -> Self: ...

@final
class blake2sp(_Hasher):
    """Return a new hash object.

    digest_size is 1 to 32, a key has up to 32 bytes, salt and person up to 8 each.
    Salt and person are an extension: the BLAKE2 document gives BLAKE2sp neither.
    """
    def __new__(
        cls,
        data: _Bytes = b"",
        /,
        *,
        digest_size: SupportsIndex = 32,
        key: _Bytes = b"",
        salt: _Bytes = b"",
        person: _Bytes = b"",
        usedforsecurity: bool = True,
    ) -> Self: ...

@final
class blake2b_mac(_Hasher):
    """Return a new object of a message authentication code: blake2b with a key.

    The key has 1 to 64 bytes, digest_size is 16 to 64 (with allow_short
    from 1 on), salt and person have up to 16 bytes each. Anybody makes a tag of
    n bytes in at most 256**n tries: never pass the length of a tag that came.
    """
    def __new__(
        cls,
        key: _Bytes,
        data: _Bytes = b"",
        *,
        digest_size: SupportsIndex = 64,
        salt: _Bytes = b"",
        person: _Bytes = b"",
        allow_short: bool = False,
    ) -> Self: ...

@final
class blake2s_mac(_Hasher):
    """Return a new object of a message authentication code: blake2s with a key.

    The key has 1 to 32 bytes, digest_size is 16 to 32 (with allow_short
    from 1 on), salt and person have up to 8 bytes each. Anybody makes a tag of
    n bytes in at most 256**n tries: never pass the length of a tag that came.
    """
    def __new__(
        cls,
        key: _Bytes,
        data: _Bytes = b"",
        *,
        digest_size: SupportsIndex = 32,
        salt: _Bytes = b"",
        person: _Bytes = b"",
        allow_short: bool = False,
    ) -> Self: ...

@final
class blake2bp_mac(_Hasher):
    """Return a new object of a message authentication code: blake2bp with a key.

    The key has 1 to 64 bytes, digest_size is 16 to 64 (with allow_short
    from 1 on), salt and person have up to 16 bytes each. Anybody makes a tag of
    n bytes in at most 256**n tries: never pass the length of a tag that came.
    Salt and person are an extension: the BLAKE2 document gives BLAKE2bp neither.
    """
    def __new__(
        cls,
        key: _Bytes,
        data: _Bytes = b"",
        *,
        digest_size: SupportsIndex = 64,
        salt: _Bytes = b"",
        person: _Bytes = b"",
        allow_short: bool = False,
    ) -> Self: ...

@final
class blake2sp_mac(_Hasher):
    """Return a new object of a message authentication code: blake2sp with a key.

    The key has 1 to 32 bytes, digest_size is 16 to 32 (with allow_short
    from 1 on), salt and person have up to 8 bytes each. Anybody makes a tag of
    n bytes in at most 256**n tries: never pass the length of a tag that came.
    Salt and person are an extension: the BLAKE2 document gives BLAKE2sp neither.
    """
    def __new__(
        cls,
        key: _Bytes,
        data: _Bytes = b"",
        *,
        digest_size: SupportsIndex = 32,
        salt: _Bytes = b"",
        person: _Bytes = b"",
        allow_short: bool = False,
    ) -> Self: ...

class _Output:
    @property
    def name(self) -> str:
        """The name of the function."""
    @property
    def block_size(self) -> int:
        """The bytes of a block."""
    def copy(self) -> Self:
        """Return a copy of the object."""
    def digest(self, length: int, /) -> bytes:
        """Return the first bytes of the output."""
    def hexdigest(self, length: int, /) -> str:
        """Return the first bytes of the output in hexadecimal."""
    def update(self, data: _Bytes, /) -> None:
        """Absorb data after all earlier data."""

@final
class blake2xb(_Output):
    """Return a new object of an extendable output function.

    length is that of the output, 1 to 4294967294, or None if it is not known in
    advance; the output depends on it. A key has up to 64 bytes, salt and person
    up to 16 each.
    """
    def __new__(
        cls,
        data: _Bytes = b"",
        /,
        *,
        length: int | None = None,
        key: _Bytes = b"",
        salt: _Bytes = b"",
        person: _Bytes = b"",
        usedforsecurity: bool = True,
    ) -> Self: ...

@final
class blake2xs(_Output):
    """Return a new object of an extendable output function.

    length is that of the output, 1 to 65534, or None if it is not known in
    advance; the output depends on it. A key has up to 32 bytes, salt and person
    up to 8 each.
    """
    def __new__(
        cls,
        data: _Bytes = b"",
        /,
        *,
        length: int | None = None,
        key: _Bytes = b"",
        salt: _Bytes = b"",
        person: _Bytes = b"",
        usedforsecurity: bool = True,
    ) -> Self: ...

class TreeHasher:
    """The tree of tree_root over data that comes in pieces."""
    def __new__(
        cls,
        leaf_size: int,
        *,
        digest_size: SupportsIndex = 64,
        salt: _Bytes = b"",
        person: _Bytes = b"",
    ) -> TreeHasher: ...
    @property
    def count(self) -> int:
        """The number of bytes of all data so far."""
    @property
    def digest_size(self) -> int:
        """The number of bytes of the root."""
    @property
    def leaf_size(self) -> int:
        """The number of bytes of a leaf."""
    def _root_of_file(
        self,
        path: FileDescriptorOrPath,
        file: int,
        length: int,
        threads: SupportsIndex,
        progress: Callable[[int], object] | None,
        /,
    ) -> bytes: ...
    def copy(self) -> TreeHasher:
        """Return a copy of the hasher."""
    def digest(self) -> bytes:
        """Return the root of all data so far, as bytes."""
    def hexdigest(self) -> str:
        """Return the root of all data so far, as a string of hexadecimal digits."""
    def leaves_ahead(self, data: _Bytes, /, skip: int = 0) -> bytes:
        """Return the digests of whole leaves that follow all data so far, 64 bytes each, as bytes.

        The data so far must be whole leaves too. The first leaf of the data is skip leaves after
        the next leaf of the hasher. The hasher is unchanged, so threads may hash different leaves
        with one hasher. update_leaves then absorbs the digests. The GIL is released meanwhile.
        """
    def update(self, data: _Bytes, /, *, threads: SupportsIndex = 1) -> None:
        """Absorb the data after all earlier data.

        Pieces of many leaves are fastest, since whole leaves that more data follows are hashed
        four at a time. threads is as in tree_root: threads hash the whole leaves of the data that
        more data follows. If the call is interrupted, the hasher is unchanged. If another thread
        updates it meanwhile, the call raises RuntimeError and does not absorb the data.
        """
    def update_leaves(self, digests: _Bytes, data: _Bytes, /) -> None:
        """Absorb whole leaves, given by their joined digests, and then the data.

        The digests are those of leaves_ahead from skip 0 on, in order. At least one byte of data
        must follow them, since the last leaf of a message cannot be given by its digest.
        """

def blake2b_many(
    messages: Iterable[_Bytes],
    /,
    *,
    digest_size: SupportsIndex = 64,
    key: _Bytes = b"",
    salt: _Bytes = b"",
    person: _Bytes = b"",
) -> list[bytes]:
    """Return a list of the digests of the messages, each under these parameters.

    Messages in a row of the same length are hashed four in parallel, which is faster
    on a processor with AVX2. What an iterator yields is copied when it comes, unless it is
    bytes: it may be one buffer that is filled again and again.
    """
def blake2s_many(
    messages: Iterable[_Bytes],
    /,
    *,
    digest_size: SupportsIndex = 32,
    key: _Bytes = b"",
    salt: _Bytes = b"",
    person: _Bytes = b"",
) -> list[bytes]:
    """Return a list of the digests of the messages, each under these parameters.

    Messages in a row of the same length are hashed eight in parallel, which is faster
    on a processor with AVX2. What an iterator yields is copied when it comes, unless it is
    bytes: it may be one buffer that is filled again and again.
    """
def tree_leaf_count(length: int, leaf_size: int) -> int:
    """Return the number of leaves of a message of length bytes, which is at least one."""
def tree_leaves(
    data: _Bytes,
    /,
    leaf_size: int,
    *,
    first: int,
    ends: bool,
    salt: _Bytes = b"",
    person: _Bytes = b"",
) -> bytes:
    """Return the digests of a range of the leaves of tree_root, 64 bytes each, as bytes.

    The data is leaf first, counted from 0, and the leaves after it. ends says whether the
    message ends with the data. If not, the data must be whole leaves. Compute ends from the
    length of the message: a wrong value makes a wrong root, and no error. The digests of all
    ranges of a message, joined in order, are what tree_root_of_leaves accepts. The GIL is
    released meanwhile.
    """
def tree_root(
    data: _Bytes,
    /,
    leaf_size: int,
    *,
    digest_size: SupportsIndex = 64,
    salt: _Bytes = b"",
    person: _Bytes = b"",
    threads: SupportsIndex = 1,
) -> bytes:
    """Return the root of the data in a tree of two levels over BLAKE2b, as bytes.

    The data is cut into leaves of leaf_size bytes, and the root hashes their digests of 64
    bytes (the BLAKE2 document, section 2.10: fanout 0, depth 2, inner size 64, and the
    last-node flag on the last leaf and the root). It is not a BLAKE2b digest of the data.

    threads is the number of threads that hash, the caller's among them, at most 256; 0 is one
    for each processor that the caller's thread may run on. Fewer are started for data of less
    than 256 KiB for each, or if the system refuses to start them. The root is the same for any
    number. The GIL is released meanwhile. With several threads KeyboardInterrupt ends the call.
    """
def tree_root_of_leaves(
    digests: _Bytes,
    /,
    leaf_size: int,
    *,
    digest_size: SupportsIndex = 64,
    salt: _Bytes = b"",
    person: _Bytes = b"",
) -> bytes:
    """Return the root over the joined digests of all leaves of a message: its tree_root.

    The digests have 64 bytes for each leaf. There is at least one leaf.
    """
def update_many(
    hashes: Iterable[blake2b] | Iterable[blake2b_mac] | Iterable[blake2s] | Iterable[blake2s_mac],
    pieces: Iterable[_Bytes],
    /,
) -> None:
    """Absorb each piece into the hash object at its place, as its update would.

    The objects are of one class: blake2b, blake2b_mac, blake2s or blake2s_mac. The pieces have
    any lengths. More pieces than objects, or fewer, or an object that is there twice, raise
    ValueError. After an exception all objects are unchanged. Objects in a row absorb in
    parallel up to where the shortest of their pieces ends, if each has more than a block to
    absorb, which is faster on a processor with AVX2. Pieces that an iterator yields are copied
    as by blake2b_many.
    """
def derive_key(key: _Bytes, context: _Bytes, length: int) -> bytes:
    """Return a key of this length, derived from a key of 1 to 64 bytes for a context.

    It is the BLAKE2Xb output of the context under the key. Each purpose has a context of
    its own.
    """
