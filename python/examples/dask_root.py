#!/usr/bin/env python3
"""Print the root of a file whose ranges the workers of a Dask cluster hash.

usage: dask_root.py [--leaf BYTES] [--scheduler ADDRESS] FILE

FILE is a path that every worker can open, on a file system that all of them share. BYTES is the
leaf length, 65,536 without the option. Without ADDRESS a cluster with one worker process for each
processor is started on this machine.

A worker reads its ranges itself and returns 64 bytes for each leaf. The root is that of
vulfsjor.tree_root and of `b2 tree b512 BYTES`, whatever the number of workers and the size of the
ranges. If a worker is lost, Dask repeats its ranges on another one.

It is proved that the digests of all ranges, joined in order, have the root of the file. It is not
proved that each range was hashed once, nor that a worker read the right bytes. Leaves have no key,
so anyone who can send digests can choose the message of the root. Use the cluster's TLS to know the
workers; docs/LARGE.md says how a worker can also send a tag.
"""
import argparse
import contextlib
import os
import sys

import vulfsjor
from distributed import Client, LocalCluster

RANGE_BYTES = 64 << 20  # a task has about this many bytes


def read_at(file, length, start):
    """The bytes of an open file from `start` on, exactly this many; EOFError if it ends before."""
    piece = bytearray(length)
    view, done = memoryview(piece), 0
    while done < length:
        count = os.preadv(file.fileno(), [view[done:]], start + done)
        if not count:
            raise EOFError(f"{file.name} has ended before byte {start + length}")
        done += count
    return piece


def hash_leaf_range(path, length, leaf_size, first, leaves):
    """The digests of this many leaves, from leaf `first` on, of a file of this length. Runs on a
    worker."""
    start = first * leaf_size
    end = min(start + leaves * leaf_size, length)
    with open(path, "rb", buffering=0) as file:
        now = os.fstat(file.fileno()).st_size
        if now != length:
            raise ValueError(f"{path} has {now} bytes on this worker, and not {length}")
        piece = read_at(file, end - start, start)
    return vulfsjor.tree_leaves(piece, leaf_size, first=first, ends=end == length)


def tree_root(client, path, leaf_size, range_bytes=RANGE_BYTES):
    """The root of a file, whose ranges of about range_bytes the workers of the client hash."""
    length = os.stat(path).st_size
    leaves = max(1, -(-length // leaf_size))
    part = max(4, range_bytes // leaf_size // 4 * 4)  # four leaves are hashed in parallel
    ranges = [(first, min(part, leaves - first)) for first in range(0, leaves, part)]
    # pure=False: the file may have changed since an earlier call, whose results Dask would
    # otherwise reuse.
    tasks = [client.submit(hash_leaf_range, path, length, leaf_size, *each, pure=False)
             for each in ranges]
    answers = client.gather(tasks)
    for (first, count), answer in zip(ranges, answers):
        if len(answer) != 64 * count:
            raise ValueError(f"{len(answer)} bytes came for {count} leaves from {first} on")
    return vulfsjor.tree_root_of_leaves(b"".join(answers), leaf_size)


def main():
    """Prints the root of the file that the arguments name."""
    parser = argparse.ArgumentParser(description="Print the root of a file by a Dask cluster.")
    parser.add_argument("--leaf", type=int, default=65536, metavar="BYTES")
    parser.add_argument("--scheduler", metavar="ADDRESS")
    parser.add_argument("file", metavar="FILE")
    given = parser.parse_args()
    if not 1 <= given.leaf < 2**32:
        parser.error("a leaf has 1 to 4294967295 bytes")
    path = os.path.abspath(given.file)
    with contextlib.ExitStack() as stack:
        scheduler = given.scheduler or stack.enter_context(
            LocalCluster(threads_per_worker=1, dashboard_address=None))
        try:
            root = tree_root(stack.enter_context(Client(scheduler)), path, given.leaf)
        except OSError as error:
            sys.exit(f"dask_root.py: {error}")
    print(f"{root.hex()}  {given.file}")


if __name__ == "__main__":
    main()
