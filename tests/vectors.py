#!/usr/bin/env python3
"""Prints expected values that the conformance cases (tests/conformance) do not have, in lines for tests in Rust and C:

    tests/vectors.py --lines b|s        HMAC, HKDF and PBKDF2 (RFC 2104, 5869 and 8018) over the longest digest
    tests/vectors.py --authors b|s      the authors' outputs of BLAKE2X, with status 1 if Go's package is absent

The first come from Python's `hmac` and `hashlib`, over parts of the endless message of the conformance cases. Bytes are
in digits, and `-` stands for none.
"""
import hashlib
import hmac
import os
import re
import sys

from common import FAMILIES, TOP, Parser

sys.path.insert(0, os.path.join(TOP, "tests", "conformance"))
from model import sample_message_slice  # noqa: E402

GO = "/usr/share/gocode/src/golang.org/x/crypto"
LENGTHS = (0, 1, 63, 64, 65, 127, 128, 129, 500)


def hkdf_key(family, salt, secret, info, length):
    """A key by HKDF, in the two steps of RFC 5869, 2.2 and 2.3."""
    extracted = hmac.new(salt or bytes(family.key), secret, family.function).digest()
    block = key = b""
    for counter in range(1, 1 + -(-length // family.key)):
        block = hmac.new(extracted, block + info + bytes([counter]), family.function).digest()
        key += block
    return key[:length]


def mac_and_key_lines(letter):
    """The lines of a family: a kind, its inputs, and the result."""
    family = FAMILIES[letter]
    for n in LENGTHS:
        key, data = sample_message_slice(2 * n, 3 * n), sample_message_slice(n, 300 + n // 2)
        yield "hmac", key, data, hmac.new(key, data, family.function).digest()
    for n in LENGTHS:
        salt, info = sample_message_slice(3 * n, 4 * n), sample_message_slice(5 * n, 5 * n + 9)
        yield "hkdf", salt, sample_message_slice(n, 2 * n), info, hkdf_key(family, salt, sample_message_slice(n, 2 * n),
                                                                           info, 1 + n)
    for rounds in (1, 2, 100):
        password, salt = sample_message_slice(1, 10), sample_message_slice(3, 19)
        key = hashlib.pbkdf2_hmac(f"blake2{letter}", password, salt, rounds, 80)
        yield "pbkdf2", password, salt, rounds, key


def authors_vector_cases(letter):
    """The authors' vectors of BLAKE2X, which golang.org/x/crypto has in its tests: 256 outputs of 1 to 256 bytes of a
    message of 256, under the longest key, or FileNotFoundError."""
    path = os.path.join(os.environ.get("VULFSJOR_GO_CRYPTO", GO), f"blake2{letter}", f"blake2{letter}_test.go")
    with open(path, encoding="utf-8") as file:
        table = re.search(r"^var hashes2X = \[\]string\{$(.*?)^\}$", file.read(), re.MULTILINE | re.DOTALL)[1]
    for number, digits in enumerate(re.findall(r'"([0-9a-f]+)"', table), 1):
        if len(digits) != 2 * number:
            sys.exit(f"{path}: another table than that of the authors")
        yield "x", number, bytes(range(FAMILIES[letter].key)), b"", b"", bytes(range(256)), bytes.fromhex(digits)


def main():
    parser = Parser(description=__doc__.split("\n\n")[0])
    chosen = parser.add_mutually_exclusive_group(required=True)
    chosen.add_argument("--lines", choices=sorted(FAMILIES), help="print HMAC, HKDF and PBKDF2 of a family")
    chosen.add_argument("--authors", choices=sorted(FAMILIES), help="print the authors' outputs of BLAKE2X")
    given = parser.parse_args()
    try:
        for line in mac_and_key_lines(given.lines) if given.lines else authors_vector_cases(given.authors):
            print(*(field.hex() or "-" if isinstance(field, bytes) else field for field in line))
    except FileNotFoundError:
        return 1
    return 0


if __name__ == "__main__":
    sys.exit(main())
