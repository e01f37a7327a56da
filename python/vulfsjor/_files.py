"""The digest of a file, and the root of one in a tree."""
import errno
import io
import operator
import os
import stat
from typing import (TYPE_CHECKING, Any, Callable, Literal, Protocol, SupportsIndex, TypeVar, cast,
                    overload)

from vulfsjor import _library

if TYPE_CHECKING:
    from _typeshed import FileDescriptorOrPath
    from _typeshed import ReadableBuffer as Buffer

# The buffer of file_digest, and the least and the most of the one for a tree.
_BUFFER_BYTES = 1 << 18
_LEAST_TREE_BYTES = 1 << 22
_MOST_TREE_BYTES = 1 << 24
# A regular file of this many bytes is for threads. A shorter one may have more than it says, as those of /proc.
_LONG_FILE_BYTES = 1 << 18


class _InMemory(Protocol):
    """io.BytesIO."""

    def getbuffer(self) -> "Buffer": ...


class _Readable(Protocol):
    """A file that is open for reading bytes."""

    def readable(self) -> bool: ...
    def readinto(self, buffer: Any, /) -> int | None: ...


class _Hasher(Protocol):
    """An object of a hash function."""

    def update(self, data: "Buffer", /) -> object: ...


_Plain = TypeVar("_Plain", _library.blake2b, _library.blake2s)
_Parallel = TypeVar("_Parallel", _library.blake2bp, _library.blake2sp)
_Output = TypeVar("_Output", _library.blake2xb, _library.blake2xs)
_Mac = TypeVar("_Mac", _library.blake2b_mac, _library.blake2s_mac, _library.blake2bp_mac,
               _library.blake2sp_mac)
_Other = TypeVar("_Other", bound=_Hasher)


def _new_hasher(digest: str | Callable[..., _Hasher], parameters: dict[str, Any]) -> _Hasher:
    """An object of the function with this name, or of this one."""
    if not isinstance(digest, str):
        return digest(**parameters)
    if not digest.startswith("blake2") or not isinstance(getattr(_library, digest, None), type):
        raise ValueError(f"unsupported hash type {digest}")
    return cast(_Hasher, getattr(_library, digest)(**parameters))


def _read_some(file: _Readable, buffer: "bytearray | memoryview") -> int:
    """Reads some bytes into the buffer. Returns how many: 0 at the end of the file."""
    count = file.readinto(buffer)
    if count is None:
        raise BlockingIOError(errno.EAGAIN, os.strerror(errno.EAGAIN))
    if not 0 <= count <= len(buffer):
        raise OSError(f"readinto() returned {count} for a buffer of {len(buffer)} bytes")
    return count


@overload
def file_digest(file: _InMemory | _Readable, digest: type[_Plain], /, *,
                digest_size: SupportsIndex = ..., key: "Buffer" = ..., salt: "Buffer" = ...,
                person: "Buffer" = ..., fanout: SupportsIndex = ..., depth: SupportsIndex = ...,
                leaf_size: int = ..., node_offset: int = ..., node_depth: SupportsIndex = ...,
                inner_size: SupportsIndex = ..., last_node: bool = ...,
                usedforsecurity: bool = ...) -> _Plain: ...
@overload
def file_digest(file: _InMemory | _Readable, digest: type[_Parallel], /, *,
                digest_size: SupportsIndex = ..., key: "Buffer" = ..., salt: "Buffer" = ...,
                person: "Buffer" = ..., usedforsecurity: bool = ...) -> _Parallel: ...
@overload
def file_digest(file: _InMemory | _Readable, digest: type[_Output], /, *, length: int | None = ...,
                key: "Buffer" = ..., salt: "Buffer" = ..., person: "Buffer" = ...,
                usedforsecurity: bool = ...) -> _Output: ...
@overload
def file_digest(file: _InMemory | _Readable, digest: type[_Mac], /, *, key: "Buffer",
                digest_size: SupportsIndex = ..., salt: "Buffer" = ...,
                person: "Buffer" = ..., allow_short: bool = ...) -> _Mac: ...
@overload
def file_digest(file: _InMemory | _Readable, digest: Literal["blake2b", "blake2s"], /, *,
                digest_size: SupportsIndex = ..., key: "Buffer" = ..., salt: "Buffer" = ...,
                person: "Buffer" = ..., fanout: SupportsIndex = ..., depth: SupportsIndex = ...,
                leaf_size: int = ..., node_offset: int = ..., node_depth: SupportsIndex = ...,
                inner_size: SupportsIndex = ..., last_node: bool = ...,
                usedforsecurity: bool = ...) -> _library.blake2b | _library.blake2s: ...
@overload
def file_digest(file: _InMemory | _Readable, digest: Literal["blake2bp", "blake2sp"], /, *,
                digest_size: SupportsIndex = ..., key: "Buffer" = ..., salt: "Buffer" = ...,
                person: "Buffer" = ...,
                usedforsecurity: bool = ...) -> _library.blake2bp | _library.blake2sp: ...
@overload
def file_digest(file: _InMemory | _Readable, digest: Literal["blake2xb", "blake2xs"], /, *,
                length: int | None = ..., key: "Buffer" = ..., salt: "Buffer" = ...,
                person: "Buffer" = ...,
                usedforsecurity: bool = ...) -> _library.blake2xb | _library.blake2xs: ...
@overload
def file_digest(file: _InMemory | _Readable,
                digest: Literal["blake2b_mac", "blake2s_mac", "blake2bp_mac", "blake2sp_mac"], /, *,
                key: "Buffer", digest_size: SupportsIndex = ..., salt: "Buffer" = ...,
                person: "Buffer" = ...,
                allow_short: bool = ...) -> (_library.blake2b_mac | _library.blake2s_mac |
                                             _library.blake2bp_mac | _library.blake2sp_mac): ...
@overload
def file_digest(file: _InMemory | _Readable, digest: Callable[[], _Other], /) -> _Other: ...
def file_digest(file: Any, digest: Any, /, **parameters: Any) -> Any:
    """Return an object that has absorbed a file, from its position to its end, as
    hashlib.file_digest does.

    The file is open for reading bytes. Of io.BytesIO all bytes are absorbed, wherever its position
    is. digest is a class of this package, its name, or a function that returns an object with a
    method update. The parameters are those of the class. The GIL is released meanwhile.

    ValueError means that the file is not open for reading bytes, or that no class has the name,
    and BlockingIOError that a read would have to wait.
    """
    hasher = _new_hasher(digest, parameters)
    if hasattr(file, "getbuffer"):
        hasher.update(file.getbuffer())
        return hasher
    if not (hasattr(file, "readinto") and hasattr(file, "readable") and file.readable()):
        raise ValueError(f"'{file!r}' is not a file-like object in binary reading mode.")
    buffer = bytearray(_BUFFER_BYTES)
    view = memoryview(buffer)
    while count := _read_some(file, buffer):
        hasher.update(view[:count])
    return hasher


def _read_until_full(file: io.FileIO, view: memoryview, path: "FileDescriptorOrPath") -> int:
    """Reads into the whole view. Returns the number of bytes, which is less only at the end of the file."""
    done = 0
    try:
        while done < len(view) and (count := _read_some(file, view[done:])):
            done += count
    except OSError as error:
        error.filename = path
        raise
    return done


def _root_by_one_thread(file: io.FileIO, hasher: _library.TreeHasher, path: "FileDescriptorOrPath",
                        progress: Callable[[int], object] | None) -> bytes:
    """The root of a file from its position to its end, by this thread."""
    buffer = memoryview(bytearray(min(max(_LEAST_TREE_BYTES, 8 * hasher.leaf_size), _MOST_TREE_BYTES)))
    while True:
        count = _read_until_full(file, buffer, path)
        hasher.update(buffer[:count])
        if progress is not None and (count or not hasher.count):
            progress(hasher.count)
        if count < len(buffer):
            return hasher.digest()


def tree_root_file(path: "FileDescriptorOrPath", /, leaf_size: int, *,
                   digest_size: SupportsIndex = 64, salt: "Buffer" = b"", person: "Buffer" = b"",
                   threads: SupportsIndex = 0,
                   progress: Callable[[int], object] | None = None) -> bytes:
    """Return the root of a file: tree_root of its bytes, which are never all in memory.

    path is a path, or the descriptor of an open file. A regular file is hashed from its first
    byte, and the position of the descriptor is at the end what it was. Anything else, such as a
    pipe or a device, is read to its end by one thread. A file of 2^58 bytes or more raises
    OverflowError. If the file becomes shorter meanwhile, the call raises OSError; what is appended
    meanwhile may be left out.

    threads is the number of threads that read and hash, as in tree_root, and each has a
    buffer of up to 16 MiB. progress is called from the calling thread with the number of
    bytes that were hashed so far, which is the length of the file at the last call. If it
    raises, or at KeyboardInterrupt, the threads stop and the exception is raised.
    """
    if isinstance(path, bool):  # which io.FileIO takes for the descriptor 0 or 1
        raise TypeError("path must be a path or a file descriptor, not a bool")
    if operator.index(threads) < 0:
        raise ValueError("threads must be 0 or more")
    hasher = _library.TreeHasher(leaf_size, digest_size=digest_size, salt=salt, person=person)
    if progress is not None and not callable(progress):
        raise TypeError("progress must be callable")
    with io.FileIO(path, closefd=not isinstance(path, int)) as file:
        about = os.fstat(file.fileno())
        if not stat.S_ISREG(about.st_mode):
            return _root_by_one_thread(file, hasher, path, progress)
        if about.st_size >= _LONG_FILE_BYTES:
            return hasher._root_of_file(path, file.fileno(), about.st_size, threads, progress)
        before = file.tell()
        try:
            file.seek(0)
            return _root_by_one_thread(file, hasher, path, progress)
        finally:
            file.seek(before)
