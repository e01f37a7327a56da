/* The names and numbers of the family that a test program tests: BLAKE2s if TEST_S is defined, and
 * otherwise BLAKE2b; with TEST_P too, BLAKE2sp or BLAKE2bp, and with TEST_X BLAKE2Xs or BLAKE2Xb.
 * LANES is how many messages are hashed in parallel at most. SEQUENTIAL is the hash of BLAKE2X's root. */
#include <vulfsjor.h>

enum { LANES = 8 };
#ifdef TEST_S
#define MAX 32
#define SALT 8
#define BLOCK 64
#define SEQUENTIAL(name) vulfsjor_blake2s_##name
#else
#define MAX 64
#define SALT 16
#define BLOCK 128
#define SEQUENTIAL(name) vulfsjor_blake2b_##name
#endif

#if defined(TEST_S) && defined(TEST_X)
#define LOWER xs
#define UPPER XS
#elif defined(TEST_X)
#define LOWER xb
#define UPPER XB
#elif defined(TEST_S) && defined(TEST_P)
#define LOWER sp
#define UPPER SP
#elif defined(TEST_P)
#define LOWER bp
#define UPPER BP
#elif defined(TEST_S)
#define LOWER s
#define UPPER S
#else
#define LOWER b
#define UPPER B
#endif

#define JOIN(a, b, c) a##b##c
#define JOIN_VALUES(a, b, c) JOIN(a, b, c)
#define TEXT_OF(word) #word
#define TEXT_OF_VALUE(word) TEXT_OF(word)
#define FAMILY TEXT_OF_VALUE(LOWER)
#define ONE_CALL JOIN_VALUES(vulfsjor_blake2, LOWER, )
#define BLAKE(name) JOIN_VALUES(vulfsjor_blake2, LOWER, _##name)
#define LIBRARY(name) JOIN_VALUES(vulfsjor_ffi_blake2, LOWER, _##name)
#define CONSTANT(name) JOIN_VALUES(VULFSJOR_BLAKE2, UPPER, _##name)
/* The same by the names of libb2. */
#define PLAIN_ONE_CALL JOIN_VALUES(blake2, LOWER, )
#define PLAIN(name) JOIN_VALUES(blake2, LOWER, _##name)

typedef BLAKE(state) state_t;
#if !defined(TEST_P) && !defined(TEST_X)
typedef BLAKE(param) param_t;
#endif
