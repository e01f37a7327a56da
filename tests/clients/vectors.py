#!/usr/bin/env python3
"""Runs the vectors of BLAKE2 that Botan, Crypto++, OpenSSL and Go's golang.org/x/crypto have over a shared library, and
prints for each how many are right and how many are not.

    tests/clients/vectors.py LIBRARY FOLDER     the folder of the sources
"""
import ctypes
import re
import sys

SIZES = {"b": 64, "s": 32}
UNKNOWN = {"xb": 2**32 - 1, "xs": 2**16 - 1}  # the length of an output that is not known in advance


def read_without_comments(path):
    with open(path, encoding="utf-8") as file:
        return re.sub(r"(?m)^#.*\n", "", file.read())


def fields_of_each_block(text):
    """The fields of each block of lines `name = value` or `name: value`."""
    for block in re.split(r"\n\s*\n", text):
        yield dict(re.findall(r"(?m)^(\w+) *[=:] *(.*?)\s*$", block))


def bytes_of_field(text):
    return text[1:-1].encode() if text.startswith('"') else bytes.fromhex(text)


def botan(folder):
    """Each section is of digests of so many bits."""
    for bits, text in re.findall(r"(?ms)^\[BLAKE2b\((\d+)\)\]\n(.*?)(?=^\[|\Z)",
                                 read_without_comments(f"{folder}/botan/src/tests/data/hash/blake2b.vec")):
        for fields in fields_of_each_block(text):
            if fields:
                yield "b", int(bits) // 8, bytes_of_field(fields["In"]), b"", b"", b"", bytes_of_field(fields["Out"])


def cryptopp(folder):
    for letter in "bs":
        text = read_without_comments(f"{folder}/libcrypto++/TestVectors/blake2{letter}.txt")
        for message, digest in re.findall(r"(?m)^Message: (.*)\nDigest: (.*)$", text):
            yield letter, SIZES[letter], bytes_of_field(message.strip()), b"", b"", b"", bytes_of_field(digest.strip())


def openssl(folder):
    """Of the MACs some are for lengths that are refused."""
    for name in ("md", "mac"):
        for fields in fields_of_each_block(
            read_without_comments(f"{folder}/openssl/test/recipes/30-test_evp_data/evp{name}_blake.txt")):
            kind = fields.get("Digest", fields.get("MAC"))
            if kind:
                letter = kind[6].lower()
                size = int(fields.get("Ctrl", f"size:{SIZES[letter]}").partition(":")[2])
                wanted = None if fields.get("Result") == "MAC_INIT_ERROR" else bytes_of_field(fields["Output"])
                values = (bytes_of_field(fields.get(field, "")) for field in ("Input", "Key", "Salt", "Custom"))
                yield (letter, size, *values, wanted)


def golang(folder):
    """Each table is of messages of 0, 1, .. bytes. Those of BLAKE2X are of one of 256 bytes, and the last output is the
    beginning of one whose length is unknown. The key is as long as it may be."""
    for letter, key in (("b", bytes(range(64))), ("s", bytes(range(32)))):
        text = read_without_comments(f"{folder}/golang-go.crypto/blake2{letter}/blake2{letter}_test.go")
        for name, table in re.findall(r"(?ms)^var (hashes\w*) = \[\]string\{$(.*?)^\}$", text):
            for number, digits in enumerate(re.findall(r'"(\w+)"', table)):
                output = bytes_of_field(digits)
                if name == "hashes2X":
                    yield f"x{letter}", len(output), bytes(range(256)), key, b"", b"", output
                else:
                    yield letter, len(output), bytes(range(number)), key, b"", b"", output
        output = bytes_of_field(re.search(r'const expected = "(\w+)"', text)[1])
        yield f"x{letter}", UNKNOWN[f"x{letter}"], bytes(range(256)), key, b"", b"", output


def digest_or_none(library, letter, size, message, *texts):
    """The digest, or None if the lengths of the key, the salt and the personalization are refused."""
    call = f"vulfsjor_ffi_blake2{letter}_"
    state = ctypes.create_string_buffer(getattr(library, call + "state_size")())
    given = [part for text in texts for part in (text, ctypes.c_size_t(len(text)))]
    if getattr(library, call + "init_salt_personal")(state, ctypes.c_size_t(size), *given):
        return None
    out = ctypes.create_string_buffer(64 if size == UNKNOWN.get(letter) else size)
    final = getattr(library, call + ("squeeze" if letter[0] == "x" else "final"))
    if getattr(library, call + "update")(state, message, ctypes.c_size_t(len(message))) or \
            final(state, out, ctypes.c_size_t(len(out))):
        sys.exit("a call fails")
    return out.raw


def main():
    library, folder = ctypes.CDLL(sys.argv[1]), sys.argv[2]
    for peer in botan, cryptopp, openssl, golang:
        found = [digest_or_none(library, *values) == wanted for *values, wanted in peer(folder)]
        print(f"{peer.__name__}: {found.count(True)} right, {found.count(False)} wrong")


main()
