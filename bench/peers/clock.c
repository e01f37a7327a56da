// The time that functions take which write the digest of a message.
#include <stddef.h>
#include <stdint.h>
#include <time.h>

typedef void digest_function(const uint8_t *message, size_t length, uint8_t *out);

// The nanoseconds of `count` digests of one message, one after another, each called with the stack `place` bytes lower
// than at place 0. How fast a short message is hashed depends on where the frames of the function are.
double nanoseconds(digest_function *digest, const uint8_t *message, size_t length, uint8_t *out, long count,
                   size_t place)
{
    struct timespec start, end;
    volatile uint8_t room[place + 16];
    room[0] = 0;
    clock_gettime(CLOCK_MONOTONIC, &start);
    for (long i = 0; i < count; i++)
        digest(message, length, out);
    clock_gettime(CLOCK_MONOTONIC, &end);
    return (end.tv_sec - start.tv_sec) * 1e9 + (end.tv_nsec - start.tv_nsec) + room[0];
}
