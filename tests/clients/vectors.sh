#!/usr/bin/env bash
# The vectors of BLAKE2 of Botan, Crypto++, OpenSSL and Go's golang.org/x/crypto, over the shared library.
source "$(dirname "$(readlink -f "$0")")/common.sh"

# What vectors.py prints of a library is these lines: LIBRARY LINE..
vector_results_are() { printf '%s\n' "${@:2}" | diff - <(python3 "$clients/vectors.py" "$1" "$fetched"); }

test_vectors() {
    check "a planted byte" copy_with_wrong_iv_bit "$shared" "$work/planted.so"
    needs_sources botan libcrypto++ openssl golang-go.crypto
    has python3 || missing="no python3"
    check "the vectors of Botan, Crypto++, OpenSSL and Go" vector_results_are "$shared" "botan: 1037 right, 0 wrong" \
        "cryptopp: 218 right, 0 wrong" "openssl: 59 right, 0 wrong" "golang: 1282 right, 0 wrong"
    # Two of OpenSSL's are refused for their lengths.
    check "the vectors with a planted byte" vector_results_are "$work/planted.so" "botan: 0 right, 1037 wrong" \
        "cryptopp: 0 right, 218 wrong" "openssl: 2 right, 57 wrong" "golang: 0 right, 1282 wrong"
}

run_part_of_tests test_vectors
