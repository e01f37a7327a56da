"""The expected values of all tests: trees by Python's hashlib, and steps of a hash. Not a program.

A test that only needs a digest calls hashlib. The functions here are for what hashlib does not have
in one call (roots, ranges of leaves). What it does not have at all (steps, a parameter block of any
bytes, BLAKE2bp and BLAKE2sp with a key or with shorter digests, BLAKE2X) is computed by
tests/b2_model.py, for the family SCALAR["b"] or SCALAR["s"]. `compare_model_with_hashlib` compares that with
hashlib.
"""
import hashlib
import sys

from b2_model import (
    B, S, Input, Place, Tree, leaf_digests, digest_of_parallel_hash, root_of_digests, transcript_and_digest)
from common import FAMILIES

SCALAR = {"b": B, "s": S}


def tree_node(data, leaf_size, digest_size=64, salt=b"", person=b"", **place):
    """The digest of a node of the tree of two levels (the BLAKE2 document, 2.10) at this place."""
    return hashlib.blake2b(data, digest_size=digest_size, salt=salt, person=person, fanout=0,
                           depth=2, leaf_size=leaf_size, inner_size=64, **place).digest()


def digests_of_leaf_range(data, leaf_size, first=0, ends=True, **texts):
    """The joined digests of the leaves in these bytes, at least one: leaf `first` and those after it.
    The last one ends the message, or not. `texts` are salt and person."""
    leaves = [data[start:start + leaf_size] for start in range(0, len(data), leaf_size)] or [b""]
    last = len(leaves) - 1 if ends else None
    return b"".join(tree_node(leaf, leaf_size, node_offset=first + i, last_node=i == last, **texts)
                    for i, leaf in enumerate(leaves))


def root_of_leaves(digests, leaf_size, digest_size=64, **texts):
    return tree_node(digests, leaf_size, digest_size, node_depth=1, last_node=True, **texts)


def tree_root(message, leaf_size, digest_size=64, **texts):
    digests = digests_of_leaf_range(message, leaf_size, **texts)
    return root_of_leaves(digests, leaf_size, digest_size, **texts)


def parallel_digest(name, message, digest_size, key=b"", salt=b"", person=b""):
    """The digest of BLAKE2bp ("b") or BLAKE2sp ("s"). hashlib has no nodes whose output is longer than the digest
    length that they name, and no root that names a key and has no block of it."""
    return digest_of_parallel_hash(SCALAR[name], digest_size, Input(message, key, salt, person))


def parallel_digest_by_hashlib(name, message, **texts):
    """The same without a key, of the longest digest. `texts` are salt and person."""
    count = {"b": 4, "s": 8}[name]
    family = SCALAR[name]

    def node(data=b"", **place):
        return FAMILIES[name].function(data, fanout=count, depth=2, inner_size=family.digest, **place, **texts)
    leaves = [node(node_offset=j, last_node=j == count - 1) for j in range(count)]
    for start in range(0, len(message), 1 << 20):  # a whole number of stripes
        piece = message[start:start + (1 << 20)]
        blocks = [piece[i:i + family.block] for i in range(0, len(piece), family.block)]
        for j, leaf in enumerate(leaves):
            leaf.update(b"".join(blocks[j::count]))
    return node(b"".join(leaf.digest() for leaf in leaves), node_depth=1, last_node=True).digest()


def hashlib_arguments(given):
    """The arguments of hashlib's functions for an input, except its message and its key."""
    place = given.place
    return {"salt": given.salt, "person": given.persona, "fanout": place.fanout, "depth": place.depth,
            "leaf_size": place.leaf_length, "node_offset": place.node_offset, "node_depth": place.node_depth,
            "inner_size": place.inner_length, "last_node": given.last_node}


def compare_model_with_hashlib(source):
    """Ends the program if a digest of b2_model.py differs from hashlib's, over random inputs and
    tree parameters at every size of digest."""
    for name, family in SCALAR.items():
        for size in range(1, family.digest + 1):
            message = source.randbytes(source.randrange(4 * family.block))
            key = source.randbytes(source.randint(1, family.key)) if source.random() < 0.5 else None
            salt, persona = (source.randbytes(source.randint(0, family.salt)) for _ in range(2))
            place = Place(source.randrange(256), source.randrange(1, 256), source.randrange(2**32),
                          source.randrange(2**(8 * family.offset)), source.randrange(256),
                          source.randint(0, family.key))
            for given in (Input(message, key, salt, persona),
                          Input(message, key, salt, persona, place, source.random() < 0.5)):
                wanted = FAMILIES[name].function(message, digest_size=size, key=key or b"", **hashlib_arguments(given))
                if transcript_and_digest(family, size, given)[1] != wanted.digest():
                    sys.exit(f"oracle: another digest than hashlib's, BLAKE2{name} of {size} bytes")
        for length in (0, family.block, source.randrange(20 * family.block)):
            given = Input(source.randbytes(length), None, salt, persona)
            if digest_of_parallel_hash(family, family.digest, given) != parallel_digest_by_hashlib(
                    name, given.message, salt=salt, person=persona):
                sys.exit(f"oracle: another digest than hashlib's, BLAKE2{name}p of {length} bytes")
    for leaf in (1, 64, 129, 2**32 - 1):
        message, texts = source.randbytes(source.randrange(1000)), {"salt": b"salt", "person": source.randbytes(16)}
        tree, first = Tree(leaf, *texts.values()), source.randrange(2**32)
        for ends in (False, True):
            if b"".join(leaf_digests(tree, first, ends, message)) != digests_of_leaf_range(
                    message, leaf, first, ends, **texts):
                sys.exit(f"oracle: other digests of leaves of {leaf} bytes than hashlib's")
        if root_of_digests(tree, 20, leaf_digests(tree, 0, True, message)) != tree_root(message, leaf, 20, **texts):
            sys.exit(f"oracle: another root than hashlib's, with leaves of {leaf} bytes")
