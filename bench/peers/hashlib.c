// The C functions under Python's hashlib, called without Python. They take the output, the message, a
// key, and the sizes of output, message and key in bytes.
#include <stddef.h>
#include <stdint.h>

typedef int blake2_function(uint8_t *out, const void *message, const void *key, uint8_t out_size,
                            uint64_t message_size, uint8_t key_size);

// Where they stand in the running Python: bench/speed.py writes the addresses.
blake2_function *python_blake2b;
blake2_function *python_blake2s;

void blake2b512(const uint8_t *message, size_t length, uint8_t *out)
{
    python_blake2b(out, message, NULL, 64, length, 0);
}

void blake2s256(const uint8_t *message, size_t length, uint8_t *out)
{
    python_blake2s(out, message, NULL, 32, length, 0);
}
