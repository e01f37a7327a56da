#!/usr/bin/env python3
"""The program `b2`, written only from docs/SPECIFICATION.md, what it names in docs/B2.md, and RFC 7693: no other page,
no source and no other tool of the repository was used. Section numbers are those of that page.
`tests/compare_b2_model.py` compares it with `b2`.

usage: tests/b2_model.py WORDS.. < INPUT
"""
import functools
import os
import sys
from collections import namedtuple

# Section 2, the rows of SIGMA.
SIGMA = [[int(number) for number in row.split()] for row in """
0 1 2 3 4 5 6 7 8 9 10 11 12 13 14 15
14 10 4 8 9 15 13 6 1 12 0 2 11 7 5 3
11 8 12 0 5 2 15 13 10 14 3 6 7 1 9 4
7 9 3 1 13 12 11 14 2 6 5 10 4 0 15 8
9 0 5 7 2 4 10 15 14 1 11 12 6 8 3 13
2 12 6 10 0 11 8 3 4 13 7 5 15 14 1 9
12 5 1 15 14 13 4 10 0 7 6 3 9 2 8 11
13 11 7 14 12 1 3 9 5 0 15 4 8 6 2 10
6 15 14 9 11 3 0 8 12 2 13 7 1 4 10 5
10 2 8 4 7 6 1 5 15 11 9 14 3 12 13 0
""".strip().splitlines()]

# Section 5, the eight places in v of a round's mixings, in their order.
MIXINGS = [(0, 4, 8, 12), (1, 5, 9, 13), (2, 6, 10, 14), (3, 7, 11, 15),
           (0, 5, 10, 15), (1, 6, 11, 12), (2, 7, 8, 13), (3, 4, 9, 14)]


# The numbers of section 2, and the bytes of the node offset and of the reserved field (section 3).
Family = namedtuple("Family", "w block rounds turns key digest salt offset reserved iv")
B = Family(64, 128, 12, (32, 24, 16, 63), 64, 64, 16, 8, 14, (
    0x6a09e667f3bcc908, 0xbb67ae8584caa73b, 0x3c6ef372fe94f82b, 0xa54ff53a5f1d36f1,
    0x510e527fade682d1, 0x9b05688c2b3e6c1f, 0x1f83d9abfb41bd6b, 0x5be0cd19137e2179))
S = Family(32, 64, 10, (16, 12, 8, 7), 32, 32, 8, 6, 0, (
    0x6a09e667, 0xbb67ae85, 0x3c6ef372, 0xa54ff53a, 0x510e527f, 0x9b05688c, 0x1f83d9ab, 0x5be0cd19))

# Section 3: tree parameters and an input, in sequential use unless something else is said.
Place = namedtuple("Place", "fanout depth leaf_length node_offset node_depth inner_length")
SEQUENTIAL = Place(1, 1, 0, 0, 0, 0)
Input = namedtuple("Input", "message key salt persona place last_node",
                   defaults=(None, b"", b"", SEQUENTIAL, False))


def words_from_bytes(family, data):
    count = family.w // 8
    return [int.from_bytes(data[i:i + count], "little") for i in range(0, len(data), count)]


def bytes_from_words(family, words):
    return b"".join(word.to_bytes(family.w // 8, "little") for word in words)


def parameter_words(family, size, given):
    """Section 3."""
    place = given.place
    block = (bytes([size, len(given.key or b""), place.fanout, place.depth]) + place.leaf_length.to_bytes(4, "little")
             + place.node_offset.to_bytes(family.offset, "little") + bytes([place.node_depth, place.inner_length])
             + bytes(family.reserved) + given.salt.ljust(family.salt, b"\0")
             + given.persona.ljust(family.salt, b"\0"))
    return words_from_bytes(family, block)


def block_entries(family, given):
    """Sections 4 and 7: of each block the bytes, the counter, the final flag and the last-node flag."""
    data = given.message
    if given.key is not None:
        data = given.key.ljust(family.block, b"\0") + data
    count = max(1, -(-len(data) // family.block))
    found = []
    for i in range(count):
        last = i == count - 1
        block = data[i * family.block:(i + 1) * family.block].ljust(family.block, b"\0")
        found.append((block, len(data) if last else (i + 1) * family.block, last, last and given.last_node))
    return found


@functools.cache
def compile_compression(family):
    """F of section 5 over words, with a variable for each word of v and a statement for each operation, since that is
    five times as fast as loops. A sum is reduced where a word is rotated, and at the end."""
    full = (1 << family.w) - 1
    lines = ["def found(h, m, t0, t1, f0, f1):", f" {','.join(f'v{i}' for i in range(8))} = h"]
    masks = ["0"] * 4 + ["t0", "t1", "f0", "f1"]
    lines += [f" v{8 + i} = {family.iv[i]} ^ {masks[i]}" for i in range(8)]
    for number in range(family.rounds):
        s = SIGMA[number % 10]
        for i, (a, b, c, d) in enumerate(MIXINGS):
            for word, first, second in ((2 * i, *family.turns[:2]), (2 * i + 1, *family.turns[2:])):
                lines += [f" v{a} = v{a} + v{b} + m[{s[word]}] & {full}", f" x = v{d} ^ v{a}",
                          f" v{d} = x >> {first} | x << {family.w - first} & {full}", f" v{c} = v{c} + v{d} & {full}",
                          f" x = v{b} ^ v{c}", f" v{b} = x >> {second} | x << {family.w - second} & {full}"]
    lines.append(f" return [{','.join(f'h[{i}] ^ v{i} ^ v{i + 8}' for i in range(8))}]")
    made = {}
    exec("\n".join(lines), made)
    return made["found"]


def compress(family, h, entry):
    """F of section 5."""
    block, counter, final, last_node = entry
    full = (1 << family.w) - 1
    return compile_compression(family)(h, words_from_bytes(family, block), counter & full, counter >> family.w,
                                       full * final,
                               full * last_node)


def transcript_and_digest(family, size, given):
    """Sections 6 and 7: the steps, each its words and its entry, and the digest."""
    h = [a ^ b for a, b in zip(family.iv, parameter_words(family, size, given))]
    found = []
    for entry in block_entries(family, given):
        found.append((h, entry))
        h = compress(family, h, entry)
    return found, bytes_from_words(family, h)[:size]


def digest_of_parallel_hash(family, size, given):
    """Section 12: the digest of BLAKE2bp or BLAKE2sp."""
    leaves = 256 // family.w

    def output(data, node_offset, node_depth, last_node):
        place = Place(leaves, 2, 0, node_offset, node_depth, family.digest)
        h = [a ^ b for a, b in zip(family.iv, parameter_words(family, size, given._replace(place=place)))]
        for entry in block_entries(family, Input(data, last_node=last_node)):
            h = compress(family, h, entry)
        return bytes_from_words(family, h)
    blocks = [given.message[i:i + family.block] for i in range(0, len(given.message), family.block)]
    first = given.key.ljust(family.block, b"\0") if given.key else b""
    outputs = [output(first + b"".join(blocks[j::leaves]), j, 0, j == leaves - 1) for j in range(leaves)]
    return output(b"".join(outputs), 0, 1, True)[:size]


@functools.lru_cache(4096)
def node_digest(family, size, given):
    return transcript_and_digest(family, size, given)[1]


def output(family, length, given, is_known=True, xof_length=None):
    """Section 13: this many bytes of the output of BLAKE2Xb or BLAKE2Xs, of a length that is known in advance, which is
    as many or `xof_length`, or not."""
    total = xof_length or (length if is_known else unknown_length_of_output(family))
    texts = {"salt": given.salt, "persona": given.persona}
    root = node_digest(family, family.digest, given._replace(place=SEQUENTIAL._replace(node_offset=total << 32)))
    blocks = []
    for i in range(-(-length // family.digest)):
        size = family.digest if total == unknown_length_of_output(family) else min(family.digest,
                                                                                   total - i * family.digest)
        place = Place(0, 0, family.digest, (total << 32) + i, 0, family.digest)
        blocks.append(node_digest(family, size, Input(root, **texts, place=place)))
    return b"".join(blocks)[:length]


def unknown_length_of_output(family):
    """The length of an output whose length is not known in advance."""
    return 2**(8 * (family.offset - 4)) - 1


def read_transcript(family, words, listed):
    """The reader of section 7: the digest length and the input, or None."""
    p = bytes_from_words(family, words)
    at = 8 + family.offset
    size, kk, fanout, depth = p[:4]
    texts = at + 2 + family.reserved
    if size > family.digest or kk > family.key or depth < 1 or p[at + 1] > family.digest or any(p[at + 2:texts]):
        return None
    if not listed or len(listed) != max(1, -(-listed[-1][1] // family.block)):
        return None
    counter = listed[-1][1]
    inner = [entry[1:] == ((i + 1) * family.block, False, False) for i, entry in enumerate(listed[:-1])]
    z = b"".join(entry[0] for entry in listed)
    if not all(inner) or not listed[-1][2] or any(z[counter:]):
        return None
    if kk and (counter < family.block or any(z[kk:family.block])):
        return None
    place = Place(fanout, depth, int.from_bytes(p[4:8], "little"), int.from_bytes(p[8:at], "little"), *p[at:at + 2])
    key = z[:kk] if kk else None
    return size, Input(z[family.block if kk else 0:counter], key, p[texts:texts + family.salt],
                       p[texts + family.salt:], place, listed[-1][3])


def collision_witness(family, size, a, b):
    """Section 8."""
    (x, of_a), (y, of_b) = transcript_and_digest(family, size, a), transcript_and_digest(family, size, b)
    full = [given._replace(salt=given.salt.ljust(family.salt, b"\0"), persona=given.persona.ljust(family.salt, b"\0"))
            for given in (a, b)]
    if full[0] == full[1] or of_a != of_b:
        return None
    j = 1
    while x[-j] == y[-j]:
        j += 1
    return x[-j], y[-j]


# Section 9: what the nodes of a tree share.
Tree = namedtuple("Tree", "leaf_length salt persona")


def tree_node(tree, size, offset, depth, last_node, data):
    """The digest of a node, in this many bytes."""
    place = Place(0, 2, tree.leaf_length, offset, depth, 64)
    return transcript_and_digest(B, size, Input(data, None, tree.salt, tree.persona, place, last_node))[1]


def leaf_digests(tree, first, ends, data):
    """The digests of a range of leaves, from index `first` on, which ends the message or not."""
    length = tree.leaf_length
    count = max(1, -(-len(data) // length))
    return [tree_node(tree, 64, first + i, 0, ends and i == count - 1, data[i * length:(i + 1) * length])
            for i in range(count)]


def root_of_digests(tree, size, digests):
    """The root over the digests of all leaves."""
    return tree_node(tree, size, 0, 1, True, b"".join(digests))


# ---- section 10, the program

COMMON = {"b128": (B, 16), "b256": (B, 32), "b512": (B, 64), "s128": (S, 16), "s256": (S, 32)}
KINDS = {"sum": COMMON, "script": COMMON, "steps": COMMON,
         "witness": COMMON | {"b0": (B, 0), "b8": (B, 1), "s0": (S, 0), "s8": (S, 1)},
         "tree": {kind: of for kind, of in COMMON.items() if of[0] is B},
         "root": {kind: of for kind, of in COMMON.items() if of[0] is B},
         "xof": {"xb": (B, 64), "xs": (S, 32)}}


class CommandError(Exception):
    """An error of section 10.5, by what follows `b2: `."""


def hex_bytes(digits):
    if len(digits) % 2 or not all(c in "0123456789abcdefABCDEF" for c in digits):
        raise CommandError("wrong hex")
    return bytes.fromhex(digits)


def message_bytes(digits):
    if digits == "":
        raise CommandError("wrong hex")
    return b"" if digits == "-" else hex_bytes(digits)


def decimal_number(digits, most):
    """A decimal number without a leading zero, of at most this number of digits; otherwise None."""
    fits = 1 <= len(digits) <= most and all(c in "0123456789" for c in digits)
    return int(digits) if fits and (digits == "0" or digits[0] != "0") else None


def parse_named_options(words, names):
    """The words in brackets."""
    given = {}
    for word in words:
        name, equals, value = word.partition("=")
        is_text = name == "persona-text"
        name = "persona" if is_text else name
        if not equals or name not in names or name in given or is_text and not value:
            raise CommandError("wrong words")
        given[name] = value.encode() if is_text else hex_bytes(value)
    return given


def parse_length_below(end, words):
    """The length that the first of these words gives: a number from 1 on and below this one."""
    length = decimal_number(words[0] if words else "", 10)
    if not length or length >= end:
        raise CommandError("wrong words")
    return length


def parse_tree(leaf_length, words):
    given = parse_named_options(words, ("salt", "persona"))
    tree = Tree(leaf_length, given.get("salt", b""), given.get("persona", b""))
    if max(len(tree.salt), len(tree.persona)) > B.salt:
        raise CommandError("wrong length")
    return tree


def leaf_digest_lines(words, source):
    """The lines of `leaves`."""
    leaf_length = parse_length_below(2**32, words)
    first = decimal_number(words[1], 18) if len(words) > 1 else None
    if first is None or len(words) < 3 or words[2] not in ("more", "last"):
        raise CommandError("wrong words")
    tree, ends = parse_tree(leaf_length, words[3:]), words[2] == "last"
    data = source()
    is_range = (len(data) > 0 or first == 0) if ends else len(data) > 0 and len(data) % leaf_length == 0
    if not is_range or first * leaf_length + len(data) >= 2**58:
        raise CommandError("wrong length")
    return [digest.hex() for digest in leaf_digests(tree, first, ends, data)]


def parse_digest_lines(data):
    """The digests in the lines of the input of `root`."""
    found = data.split(b"\n")
    found = found[:-1] if found[-1] == b"" else found
    for number, line in enumerate(found or [b""], 1):
        if len(line) != 128 or not all(c in b"0123456789abcdefABCDEF" for c in line):
            raise CommandError(f"line {number}: wrong line")
    return [bytes.fromhex(line.decode()) for line in found]


def tree_or_root_line(command, size, words, source):
    """The line of `tree` or `root`, by the arguments after KIND."""
    tree = parse_tree(parse_length_below(2**32, words), words[1:])
    data = source()
    digests = parse_digest_lines(data) if command == "root" else leaf_digests(tree, 0, True, data)
    return root_of_digests(tree, size, digests).hex()


def derived_key_text(words, source):
    """The text of `derive`."""
    length = parse_length_below(unknown_length_of_output(B), words)
    if len(words) < 2 or words[2:] not in ([], ["raw"]):
        raise CommandError("wrong words")
    key = source()
    if not 1 <= len(key) <= B.key:
        raise CommandError("wrong length")
    return output_text(output(B, length, Input(words[1].encode(), key)), words[2:])


def output_text(data, words):
    """What is printed of these bytes: with `raw` they, and otherwise a line."""
    return data if words else join_lines([data.hex()])


def join_lines(printed):
    """These lines."""
    return "".join(line + "\n" for line in printed).encode()


def parse_script(data):
    """Section 10.3: the calls of a script's lines."""
    lines = data.split(b"\n")
    calls = []
    for number, line in enumerate(lines[:-1] if lines[-1] == b"" else lines, 1):
        fields = line.decode("latin-1").split(" ")
        wrong = CommandError(f"line {number}: wrong line")
        if len(fields) != (3 if fields[0] == "u" else 2) or fields[0] not in ("u", "c", "r", "f", "d"):
            raise wrong
        slot = decimal_number(fields[1], 9)
        if slot is None:
            raise wrong
        try:
            calls.append((fields[0], slot, message_bytes(fields[2]) if fields[0] == "u" else b""))
        except CommandError:
            raise wrong from None
    return calls


def script_output_lines(family, size, given, data):
    """Section 10.3: the lines that a script prints."""
    slots, printed = [b""], []
    for number, (name, slot, more) in enumerate(parse_script(data), 1):
        if slot >= len(slots) or slots[slot] is None:
            raise CommandError(f"line {number}: no such slot")
        if name in "fd":
            printed.append(transcript_and_digest(family, size, given._replace(message=slots[slot]))[1].hex())
        if name == "c":
            slots.append(slots[slot])
        else:
            slots[slot] = {"u": slots[slot] + more, "r": b"", "f": None, "d": b""}[name]
    return printed


def transcript_line(family, letter, words, entry=None):
    """A line of section 10.4: words, and counter, final flag and block of an entry, if it has them."""
    parts = [letter, *(f"{word:0{family.w // 4}x}" for word in words)]
    return " ".join(parts + [str(entry[1]), str(int(entry[2])), entry[0].hex()] if entry else parts)


def output_of_command(words, source):
    """What the arguments request; the source is a function that reads the input."""
    if words and words[0] == "derive":
        return derived_key_text(words[1:], source)
    if words and words[0] == "leaves":
        return join_lines(leaf_digest_lines(words[1:], source))
    if not words or words[0] not in KINDS or len(words) < 2 or words[1] not in KINDS[words[0]]:
        raise CommandError("wrong words")
    command, (family, size), rest = words[0], KINDS[words[0]][words[1]], words[2:]
    if command == "witness":
        messages = [message_bytes(word) for word in rest[:2]]
        if len(rest) != 2:
            raise CommandError("wrong words")
        pair = collision_witness(family, size, *(Input(message) for message in messages))
        return join_lines([transcript_line(family, "s", h, entry) for h, entry in pair] if pair else ["none"])
    if command in ("tree", "root"):
        return join_lines([tree_or_root_line(command, size, rest, source)])
    if command == "xof":
        length, raw = parse_length_below(unknown_length_of_output(family),
                                         rest), rest[1:2] if rest[1:2] == ["raw"] else []
        rest = rest[1 + len(raw):]
    given = Input(b"", **parse_named_options(rest, ("key", "salt", "persona")))
    if max(len(given.salt), len(given.persona)) > family.salt or given.key is not None and not (
            1 <= len(given.key) <= family.key):
        raise CommandError("wrong length")
    data = source()
    if command == "script":
        return join_lines(script_output_lines(family, size, given, data))
    given = given._replace(message=data)
    if command == "xof":
        return output_text(output(family, length, given), raw)
    if command == "sum":
        return join_lines([transcript_and_digest(family, size, given)[1].hex()])
    parts = [transcript_line(family, "w", parameter_words(family, size, given))]
    return join_lines(parts + [transcript_line(family, "e", [], entry) for entry in block_entries(family, given)])


def run_command(words, source):
    """The status and the output of the program with these words, which are bytes."""
    try:
        words = [word.decode() for word in words]
    except UnicodeDecodeError:
        return 1, b"b2: no memory\n"
    try:
        return 0, output_of_command(words, source)
    except CommandError as fault:
        return 2, f"b2: {fault}\n".encode()
    except OSError:
        return 1, b"b2: read failed\n"


if __name__ == "__main__":
    STATUS, OUTPUT = run_command([os.fsencode(word) for word in sys.argv[1:]], sys.stdin.buffer.read)
    sys.stdout.buffer.write(OUTPUT)
    sys.exit(STATUS)
