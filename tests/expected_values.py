#!/usr/bin/env python3
"""Prints the expected values that are in tables of the tests, under the name that is next to each.

Digests come from Python's hashlib, and transcripts and what they are read as from b2_model.py, which is
compared with hashlib first. "The digest of X" is BLAKE2b-256 of X.

usage: tests/expected_values.py [NAME..]
"""
import itertools
import random
import struct

from b2_model import Input, Place, bytes_from_words, block_entries, parameter_words, read_transcript
from b2_model import output_of_command as printed_text
from common import FAMILIES, KINDS, Parser
from oracle import SCALAR, compare_model_with_hashlib, hashlib_arguments, digests_of_leaf_range, tree_root

ALPHABET = bytes(i % 251 for i in range(6000))
TEXTS = {"salt": b"salt", "person": b"persona"}
LENGTHS = [0, 1, 63, 64, 65, 127, 128, 129, 255, 256, 257]
LEAVES = (1, 2, 3, 64, 127, 128, 129, 200)


def hashlib_digest(family, size, message=b"", key=b"", salt=b"", persona=b""):
    return FAMILIES[family].function(message, digest_size=size, key=key, salt=salt, person=persona).digest()


def joined_digest(data):
    """BLAKE2b-256, in hexadecimal, of bytes or of several."""
    return hashlib_digest("b", 32, data if isinstance(data, bytes) else b"".join(data)).hex()


def transcript_text(kind, message, **given):
    """What `steps` prints, of a key, a salt and a persona."""
    words = ["steps", kind, *(f"{name}={value.hex()}" for name, value in given.items() if value)]
    return printed_text(words, lambda: message)


def digests_of_copied_states():
    """copies: the digest of the outputs for both pieces, for each pair of lengths in their order."""
    runs = [(kind, family, size, b"", b"", b"") for kind, (family, size) in KINDS.items()]
    runs += [(*of, key, *texts) for of in (("Blake2bMac512", "b", 64), ("Blake2sMac256", "s", 32))
             for texts in ((b"", b""), (b"salt", b"persona")) for key in (b"\x2a", b"")]
    for name, family, size, key, salt, persona in runs:
        outputs = (hashlib_digest(family, size, ALPHABET[:first + second], key, salt, persona)
                   for first in LENGTHS for second in LENGTHS)
        yield f"  {name} key={key.hex()} salt={salt.decode()} persona={persona.decode()}: {joined_digest(outputs)}"


def digests_after_resets():
    """resets: the digest of the digests of the first piece and of the second, one after the other, for each
    pair of lengths in their order."""
    for kind, of in KINDS.items():
        digests = (hashlib_digest(*of, piece) for first in LENGTHS for second in LENGTHS
                   for piece in (ALPHABET[:first], ALPHABET[first:first + second]))
        yield f"  {kind}: {joined_digest(digests)}"


def digests_of_each_length():
    """lengths: the digest of the MACs' outputs over no message, at each length that is not refused."""
    for family, numbers in FAMILIES.items():
        parts = list(itertools.product((0, 1, numbers.key), (0, numbers.salt), (0, numbers.salt)))
        outputs = (hashlib_digest(family, numbers.key, b"", *(ALPHABET[:length] for length in each)) for each in parts)
        yield f"  {family}: {len(parts)} accepted, {joined_digest(outputs)}"


def digests_of_prefixes():
    """replays: the digest of the digests of the 1,000 beginnings of 1 to 1,000 bytes."""
    for family, numbers in FAMILIES.items():
        digests = (hashlib_digest(family, numbers.key, ALPHABET[:length]) for length in range(1, 1001))
        yield f"  {family}: {joined_digest(digests)}"


def digests_of_transcripts():
    """transcripts: the digest of all entries over 5,000 bytes, without and with a key of three bytes: for
    each its counter in 8 bytes, low first, its flag and its block."""
    for family, scalar in SCALAR.items():
        for key in (b"", b"key"):
            found = block_entries(scalar, Input(ALPHABET[:5000], key or None))
            data = (struct.pack("<QB", counter, final) + block for block, counter, final, _ in found)
            yield f"  {family} key={key.decode()}: {len(found)} entries, {joined_digest(data)}"


def values_of_large_message():
    """large: over 1,048,577 bytes, byte i being i modulo 251: the line of `sum`, and the digest of what
    `steps` prints; the line of `tree b256` for each length of a leaf, if it is 1 over 65,600 bytes; and the digest of
    what `leaves` prints over all except the last byte."""
    message = bytes(i % 251 for i in range(2**20 + 1))
    for kind in ("b512", "s256"):
        text = transcript_text(kind, message)
        yield f"  {kind}: {hashlib_digest(*KINDS[kind], message).hex()}, {len(text)} bytes, {joined_digest(text)}"
    yield f"  1: {tree_root(message[:65600], 1, 32).hex()}"
    for leaf in (64, 1000, 4096, 20000, 2**20, 2**20 + 1, 2**26):
        yield f"  {leaf}: {tree_root(message, leaf, 32).hex()}"
    for leaf, first, end in ((64, 7, "more"), (64, 7, "last"), (1000, 3, "last"), (2**18, 0, "more"),
                             (2**19, 1, "last")):
        digests = digests_of_leaf_range(message[:-1], leaf, first, end == "last")
        lines = (digests[i:i + 64].hex().encode() + b"\n" for i in range(0, len(digests), 64))
        yield f"  {leaf} {first} {end}|{joined_digest(lines)}"


def digests_of_printed_texts():
    """`texts`: the digest of what each command prints over inputs of 4,090 to 4,100 and of 8,186 to 8,196 bytes:
    over that number of `a`, and for `script` over a line `u 0` of zeros and a line `f 0` with that length together."""
    inputs = [b"a" * n for n in (*range(4090, 4101), *range(8186, 8197))]

    def digest_of_hex_lines(digests):
        return joined_digest(each.hex().encode() + b"\n" for each in digests)
    for kind in ("b512", "s256"):
        of = KINDS[kind]
        yield f"sum {kind}|{digest_of_hex_lines(hashlib_digest(*of, each) for each in inputs)}"
        digests = (hashlib_digest(*of, bytes((len(each) - 8) // 2)) for each in inputs)
        yield f"script {kind}|{digest_of_hex_lines(digests)}"
        yield f"steps {kind}|{joined_digest(transcript_text(kind, each) for each in inputs)}"
    for leaf in (1, 64, 4096):
        yield f"tree b512 {leaf}|{digest_of_hex_lines(tree_root(each, leaf, 64) for each in inputs)}"


def digests_under_options():
    """options: for each KIND the digests of what `sum` and `script`, one after the other, and of what `steps`
    prints over `abc`, under each choice of a key, a salt and a persona that are absent, of 1 byte or of
    the maximum length: 0, 1, 2 and so on."""
    for kind, (family, size) in KINDS.items():
        numbers, sums, steps = FAMILIES[family], b"", b""
        for choice in itertools.product((0, 1, numbers.key), (0, 1, numbers.salt), (0, 1, numbers.salt)):
            given = {name: ALPHABET[:length] for name, length in zip(("key", "salt", "persona"), choice)}
            sums += 2 * (hashlib_digest(family, size, b"abc", **given).hex() + "\n").encode()
            steps += transcript_text(kind, b"abc", **given)
        yield f"{kind}|{joined_digest(sums)}|{joined_digest(steps)}"


def numbers_with_one_bit_flipped(number, count):
    """The number with each one of this many bits turned."""
    return (number ^ 1 << bit for bit in range(count))


def counts_of_readable_forgeries():
    """forged: of the transcripts with one bit changed, how many have a reading: by one of the first 16 bits
    of word 0, by one of words 4 to 7, of a counter, of the two flags and of a block."""
    for name, length, persona in (("b", 200, b"0123456789abcdef"), ("s", 100, b"01234567")):
        family = SCALAR[name]
        for key, salt, persona, length in ((None, b"", b"", family.block), (None, b"", b"", family.block + 1),
                                           (b"\x01", b"abc", persona, length)):
            given = Input(b"\x2a" * length, key, salt, persona)
            words, found = parameter_words(family, family.digest, given), block_entries(family, given)

            def count_with_changed_word(places, count):
                return sum(read_transcript(family, [*words[:i], word, *words[i + 1:]], found) is not None
                           for i in places for word in numbers_with_one_bit_flipped(words[i], count))

            def count_with_changed_entry(changes):
                return sum(read_transcript(family, words, [*found[:i], entry, *found[i + 1:]]) is not None
                           for i, each in enumerate(found) for entry in changes(*each))
            counters = count_with_changed_entry(lambda block, counter, *flags: (
                (block, changed, *flags) for changed in numbers_with_one_bit_flipped(counter, 64)))
            flags = count_with_changed_entry(lambda block, counter, final, last_node: (
                (block, counter, not final, last_node), (block, counter, final, not last_node)))
            blocks = count_with_changed_entry(lambda block, *others: (
                (changed.to_bytes(len(block), "little"), *others)
                for changed in numbers_with_one_bit_flipped(int.from_bytes(block, "little"), 8 * len(block))))
            assert read_transcript(family, words, found) is not None
            yield (f"  {name} {len(found)} entries: word 0 {count_with_changed_word([0], 16)}, words 4 to 7 "
                   f"{count_with_changed_word(range(4, 8), family.w)}, counters {counters}, flags {flags}, "
                   f"blocks {blocks}")


def digests_of_nodes():
    """nodes: of each family, the digest of the longest outputs of its 64 nodes, and that of their transcripts: of
    each the words, and then of each entry the counter, the two flags and the block; numbers low byte first."""
    for name, family in SCALAR.items():
        outputs = transcripts_of = b""
        for i in range(64):
            place = Place(37 * i % 256, 1 + 11 * i % 255, 0x9e3779b1 * i % 2**32,
                          0x9e3779b97f4a7c15 * i % 2**64 >> 64 - 8 * family.offset, 5 * i % 256, i % (family.key + 1))
            salt, persona = ALPHABET[:i % (family.salt + 1)], ALPHABET[:2 * i % (family.salt + 1)]
            given = Input(ALPHABET[:5 * i], None, salt, persona, place, i % 3 == 0)
            outputs += FAMILIES[name].function(given.message, **hashlib_arguments(given)).digest()
            transcripts_of += bytes_from_words(family, parameter_words(family, family.digest, given))
            for block, *numbers in block_entries(family, given):
                transcripts_of += struct.pack("<Q??", *numbers) + block
        yield f"  {name}: {joined_digest(outputs)} {joined_digest(transcripts_of)}"


def roots_of_trees():
    """trees: the roots of 64 bytes over the beginnings of `abcdefghi`, with leaves of 4 bytes; that of `abc`
    as one leaf of the maximum length, in 20 bytes; and the digest of the roots of 32 bytes under a salt and
    a persona, of messages around each number of leaves, for each length of a leaf."""
    for length in (0, 4, 5, 8, 9):
        yield f"  {length}: {tree_root(b'abcdefghi'[:length], 4, 64).hex()}"
    yield f"  abc: {tree_root(b'abc', 2**32 - 1, 20, salt=b'0123456789abcdef', person=b'fedcba9876543210').hex()}"
    for leaf in LEAVES:
        roots = (tree_root(ALPHABET[:leaf * leaves + more], leaf, 32, **TEXTS)
                 for leaves in (0, 1, 3, 4, 5, 8, 9) for more in (0, 1, leaf - 1))
        yield f"  {leaf}: {joined_digest(roots)}"


def digests_of_leaf_ranges():
    """ranges: the digest of the joined digests of ranges of leaves under a salt and a persona, for each length of a
    leaf: from places 0, 7 and 2^40 on, of whole leaves in the midst of a message, and of its end."""
    for leaf in LEAVES:
        digests = (digests_of_leaf_range(ALPHABET[:leaf * leaves - less], leaf, first, ends, **TEXTS)
                   for first in (0, 7, 2**40) for leaves in (1, 3, 4, 5, 8, 9)
                   for ends, less in ((False, 0), (True, 0), (True, leaf // 2)))
        yield f"  {leaf}: {joined_digest(digests)}"


TABLES = {
    "copies": digests_of_copied_states, "resets": digests_after_resets, "lengths": digests_of_each_length,
    "replays": digests_of_prefixes, "transcripts": digests_of_transcripts, "large": values_of_large_message,
    "texts": digests_of_printed_texts, "options": digests_under_options, "forged": counts_of_readable_forgeries,
    "nodes": digests_of_nodes, "trees": roots_of_trees, "ranges": digests_of_leaf_ranges}


def main():
    parser = Parser(description=__doc__.split("\n\n")[0])
    parser.add_argument("names", nargs="*", metavar="NAME", help=" ".join(TABLES))
    names = parser.parse_args().names
    for name in set(names) - set(TABLES):
        parser.error(f"no table has the name {name!r}")
    compare_model_with_hashlib(random.Random(7693))
    for name, table in TABLES.items():
        if not names or name in names:
            print(table.__doc__, *table(), sep="\n")


if __name__ == "__main__":
    main()
