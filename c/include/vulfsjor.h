/* BLAKE2b and BLAKE2s (RFC 7693), BLAKE2bp and BLAKE2sp, BLAKE2Xb and BLAKE2Xs: hashes, message
 * authentication codes, trees of hashes and outputs of any length. For C89 of GCC and Clang, C99 and
 * later, and C++11 and later.
 *
 *     unsigned char digest[32];
 *     vulfsjor_blake2b_state state;
 *     if (vulfsjor_blake2b_init(&state, sizeof digest)) abort();
 *     if (vulfsjor_blake2b_update(&state, "hello ", 6)) abort();
 *     if (vulfsjor_blake2b_update(&state, "world", 5)) abort();
 *     if (vulfsjor_blake2b_final(&state, digest, sizeof digest)) abort();
 *
 * Call the functions vulfsjor_blake2b* and the like. They are inline: each checks for null pointers
 * and then makes one call of a function vulfsjor_ffi_* of the library. The functions vulfsjor_ffi_*
 * are proved to do what this file says if the caller meets the preconditions. The inline
 * functions are tested, not proved. Other languages call vulfsjor_ffi_* directly.
 *
 * Lengths are in bytes. A pointer may be null if its length is 0. No key is a null pointer with
 * length 0. Every call refuses a pointer to a key of 0 bytes, which may be one that was not loaded.
 *
 * Return value: 0, or -1 if the call fails. The comment of each function says when it fails. The
 * last part of this file lists what -1 can mean, call by call, and has functions that return which
 * argument was refused. Every function with a status also returns -1 if a pointer to a state, an
 * output, a parameter block or tree parameters is null, if any other pointer is null and its length
 * is not 0, or if a key is not null and its length is 0. A call that fails writes nothing and leaves
 * the state unchanged, with two exceptions:
 *   - An init or a load that fails sets the state to zero.
 *   - verify and verify_short_mac return -1 for a wrong tag, and then wipe the state too.
 *
 * A state is ready after an init or a load that returned 0, until final, verify or wipe sets it to
 * zero. Calls with a status return -1 for a state that is not ready, except the inits and load.
 *
 * Preconditions, which no call can check: each pointer points to memory of at least the length that
 * is passed with it. The memory that a call writes (the state, the output) overlaps no other
 * argument.
 *
 * Memory and threads: no function allocates or frees memory, takes a lock, or keeps a pointer after
 * it returns. Threads may call at the same time, each with its own states. Several threads may use
 * one state at the same time only in functions that accept a pointer to const.
 *
 * Secrets: final and verify wipe the state. A call that is passed a key, or that compresses the
 * key's block (the first update, or a final or verify of an empty message; in BLAKE2bp and BLAKE2sp
 * also those of a short message, and each reset), overwrites its part of the stack before it
 * returns. Registers are not wiped. docs/WIPING.md says what was found and tested. */
#ifndef VULFSJOR_H
#define VULFSJOR_H

#include <stddef.h>
#include <stdint.h>
#include <string.h>

#ifdef __cplusplus
extern "C" {
#endif

/* C89 has no `inline`: to the end of this file it is the word that GCC and Clang have there. */
#if defined(__GNUC__) && !defined(__cplusplus) && !defined(inline)
#if !defined(__STDC_VERSION__) || __STDC_VERSION__ < 199901L
#define inline __inline__
#define VULFSJOR_INLINE_IS_DEFINED
#endif
#endif

/* The version of this header: as a string, as three numbers, and as the number that
 * vulfsjor_version returns for the library. That number is 65,536 times the first, plus 256 times
 * the second, plus the third. */
#define VULFSJOR_VERSION "0.1.0"
#define VULFSJOR_VERSION_MAJOR 0
#define VULFSJOR_VERSION_MINOR 1
#define VULFSJOR_VERSION_PATCH 0
#define VULFSJOR_VERSION_NUMBER 0x000100

/* For functions whose failure would otherwise go unnoticed. init, load, reset and set_last_node are
 * not marked: if they fail, every later call on the state fails too. */
#if defined(__GNUC__)
#define VULFSJOR_MUST_USE __attribute__((warn_unused_result))
#else
#define VULFSJOR_MUST_USE
#endif

/* For a pointer and the length of what it points to, by their places among the arguments: the
 * function reads or writes that many bytes or elements at most. gcc 10 and later then warns of a
 * call whose memory is known to be shorter. */
#ifdef __has_attribute
#if __has_attribute(access)
#define VULFSJOR_READS(pointer, length) __attribute__((access(read_only, pointer, length)))
#define VULFSJOR_WRITES(pointer, length) __attribute__((access(write_only, pointer, length)))
#define VULFSJOR_CHANGES(pointer, length) __attribute__((access(read_write, pointer, length)))
#endif
#endif
#ifndef VULFSJOR_READS
#define VULFSJOR_READS(pointer, length)
#define VULFSJOR_WRITES(pointer, length)
#define VULFSJOR_CHANGES(pointer, length)
#endif

/* Whether the bytes of a number are in the order of a parameter block. */
#if defined(_MSC_VER) || \
    (defined(__BYTE_ORDER__) && __BYTE_ORDER__ == __ORDER_LITTLE_ENDIAN__)
#define VULFSJOR_LITTLE_ENDIAN 1
#endif

/* Lengths in bytes: of a block, of the longest digest and key, and of the longest salt and
 * personalization. The outputs of BLAKE2Xb and BLAKE2Xs have no such lengths. */
enum {
    VULFSJOR_BLAKE2B_BLOCKBYTES = 128,
    VULFSJOR_BLAKE2B_OUTBYTES = 64,
    VULFSJOR_BLAKE2B_KEYBYTES = 64,
    VULFSJOR_BLAKE2B_SALTBYTES = 16,
    VULFSJOR_BLAKE2B_PERSONALBYTES = 16,
    VULFSJOR_BLAKE2S_BLOCKBYTES = 64,
    VULFSJOR_BLAKE2S_OUTBYTES = 32,
    VULFSJOR_BLAKE2S_KEYBYTES = 32,
    VULFSJOR_BLAKE2S_SALTBYTES = 8,
    VULFSJOR_BLAKE2S_PERSONALBYTES = 8,
    VULFSJOR_BLAKE2BP_BLOCKBYTES = 128,
    VULFSJOR_BLAKE2BP_OUTBYTES = 64,
    VULFSJOR_BLAKE2BP_KEYBYTES = 64,
    VULFSJOR_BLAKE2BP_SALTBYTES = 16,
    VULFSJOR_BLAKE2BP_PERSONALBYTES = 16,
    VULFSJOR_BLAKE2SP_BLOCKBYTES = 64,
    VULFSJOR_BLAKE2SP_OUTBYTES = 32,
    VULFSJOR_BLAKE2SP_KEYBYTES = 32,
    VULFSJOR_BLAKE2SP_SALTBYTES = 8,
    VULFSJOR_BLAKE2SP_PERSONALBYTES = 8,
    VULFSJOR_BLAKE2XB_KEYBYTES = 64,
    VULFSJOR_BLAKE2XB_SALTBYTES = 16,
    VULFSJOR_BLAKE2XB_PERSONALBYTES = 16,
    VULFSJOR_BLAKE2XS_KEYBYTES = 32,
    VULFSJOR_BLAKE2XS_SALTBYTES = 8,
    VULFSJOR_BLAKE2XS_PERSONALBYTES = 8
};

/* The bytes of the shortest tag that _mac and _init_mac make, and that _verify checks. */
enum { VULFSJOR_TAGBYTES_MIN = 16 };

/* The bytes that _save writes and _load reads. */
enum { VULFSJOR_BLAKE2B_SAVEDBYTES = 275, VULFSJOR_BLAKE2S_SAVEDBYTES = 147 };

/* The lengths of outputs of BLAKE2Xb and BLAKE2Xs that are not known in advance. */
#define VULFSJOR_BLAKE2XB_UNKNOWN_LENGTH 0xffffffffu
#define VULFSJOR_BLAKE2XS_UNKNOWN_LENGTH 0xffffu

/* A state of BLAKE2b. Keep it in any memory with the alignment of its type. Copy it by assignment;
 * copies are independent. Do not access its fields. The inits vulfsjor_* accept memory with any
 * contents, initialized or not. All other functions, and all functions vulfsjor_ffi_*, require that
 * every byte was written. No contents are unsafe: if no init wrote them, calls fail or return a
 * digest without meaning.
 *
 * A version that changes the size, the fields or their meaning also changes the soname of the
 * shared library. Do not write states to files: a later version need not read them, as it reads what
 * vulfsjor_blake2b_save writes. */
typedef struct vulfsjor_blake2b_state {
    uint64_t chain[8];       /* the chaining words */
    uint64_t first[8];       /* the chaining words before the first block */
    uint64_t counter;        /* the bytes of the blocks that were compressed */
    uint32_t pending_length; /* the bytes that are pending, 0 to 128 */
    uint32_t start_length;   /* the same after a reset: 128 with a key, otherwise 0 */
    uint32_t output_size;    /* the bytes of the digest, 1 to 64; 0 in a wiped state */
    uint32_t last_node;      /* the last-node flag: 0 is off */
    uint8_t pending[128];    /* starts with the pending bytes */
    uint8_t key[64];         /* the key, followed by zeros */
} vulfsjor_blake2b_state;

/* A state of BLAKE2s. What the comment on vulfsjor_blake2b_state says holds for it too. */
typedef struct vulfsjor_blake2s_state {
    uint32_t chain[8];       /* the chaining words */
    uint32_t first[8];       /* the chaining words before the first block */
    uint64_t counter;        /* the bytes of the blocks that were compressed */
    uint16_t pending_length; /* the bytes that are pending, 0 to 64 */
    uint16_t start_length;   /* the same after a reset: 64 with a key, otherwise 0 */
    uint16_t output_size;    /* the bytes of the digest, 1 to 32; 0 in a wiped state */
    uint16_t last_node;      /* the last-node flag: 0 is off */
    uint8_t pending[64];     /* starts with the pending bytes */
    uint8_t key[32];         /* the key, followed by zeros */
} vulfsjor_blake2s_state;

/* The leaves in a state of BLAKE2bp, and the input that is pending. */
typedef struct vulfsjor_blake2bp_lanes {
    uint64_t rows[8][4];  /* the chaining words: row k has word k of each leaf */
    uint64_t counter;     /* the bytes of the blocks that each leaf has compressed */
    uint64_t length;      /* the bytes that are pending, 0 to 896 */
    uint8_t pending[896]; /* starts with the pending bytes */
} vulfsjor_blake2bp_lanes;

/* A state of BLAKE2bp. What the comment on vulfsjor_blake2b_state says holds for it too. */
typedef struct vulfsjor_blake2bp_state {
    vulfsjor_blake2bp_lanes lanes; /* the leaves */
    uint64_t first[8][4];          /* their chaining words before the first block */
    uint64_t root[8];              /* the chaining words of the root before its first block */
    uint64_t start_length;         /* the pending bytes after a reset: 512 with a key, or 0 */
    uint64_t output_size;          /* the bytes of the digest, 1 to 64; 0 in a wiped state */
    uint8_t key_block[128];        /* the key, followed by zeros */
} vulfsjor_blake2bp_state;

/* The leaves in a state of BLAKE2sp, and the input that is pending. */
typedef struct vulfsjor_blake2sp_lanes {
    uint32_t rows[8][8];  /* the chaining words: row k has word k of each leaf */
    uint64_t counter;     /* the bytes of the blocks that each leaf has compressed */
    uint64_t length;      /* the bytes that are pending, 0 to 960 */
    uint8_t pending[960]; /* starts with the pending bytes */
} vulfsjor_blake2sp_lanes;

/* A state of BLAKE2sp. What the comment on vulfsjor_blake2b_state says holds for it too. */
typedef struct vulfsjor_blake2sp_state {
    vulfsjor_blake2sp_lanes lanes; /* the leaves */
    uint32_t first[8][8];          /* their chaining words before the first block */
    uint32_t root[8];              /* the chaining words of the root before its first block */
    uint64_t start_length;         /* the pending bytes after a reset: 512 with a key, or 0 */
    uint64_t output_size;          /* the bytes of the digest, 1 to 32; 0 in a wiped state */
    uint8_t key_block[64];         /* the key, followed by zeros */
} vulfsjor_blake2sp_state;

/* The output in a state of BLAKE2Xb. */
typedef struct vulfsjor_blake2xb_reader {
    uint8_t root[64];    /* the root hash, once the output is read */
    uint8_t texts[32];   /* the salt and the personalization, each followed by zeros */
    uint64_t xof_length; /* the bytes of the output, or 2^32 - 1 if that is not known in advance */
    uint64_t position;   /* the bytes that were read */
} vulfsjor_blake2xb_reader;

/* A state of BLAKE2Xb. What the comment on vulfsjor_blake2b_state says holds for it too. */
typedef struct vulfsjor_blake2xb_state {
    vulfsjor_blake2b_state root;     /* the hash of the message */
    vulfsjor_blake2xb_reader reader; /* the output */
    uint64_t reading;                /* 0 before the output is read */
} vulfsjor_blake2xb_state;

/* The output in a state of BLAKE2Xs. */
typedef struct vulfsjor_blake2xs_reader {
    uint8_t root[32];    /* the root hash, once the output is read */
    uint8_t texts[16];   /* the salt and the personalization, each followed by zeros */
    uint64_t xof_length; /* the bytes of the output, or 2^16 - 1 if that is not known in advance */
    uint64_t position;   /* the bytes that were read */
} vulfsjor_blake2xs_reader;

/* A state of BLAKE2Xs. What the comment on vulfsjor_blake2s_state says holds for it too. */
typedef struct vulfsjor_blake2xs_state {
    vulfsjor_blake2s_state root;     /* the hash of the message */
    vulfsjor_blake2xs_reader reader; /* the output */
    uint64_t reading;                /* 0 before the output is read */
} vulfsjor_blake2xs_state;

/* The parameter block of BLAKE2b (the BLAKE2 document, 2.8), with the field names of the reference
 * code. Without a tree, fanout and depth are 1, and node_offset, leaf_length, node_depth and
 * inner_length are 0. */
typedef struct vulfsjor_blake2b_param {
    uint8_t digest_length; /* 1 to 64 */
    uint8_t key_length;    /* 0 to 64 */
    uint8_t fanout;
    uint8_t depth;
    uint32_t leaf_length;
    uint64_t node_offset;
    uint8_t node_depth;
    uint8_t inner_length;
    uint8_t reserved[14];
    uint8_t salt[16];
    uint8_t personal[16];
} vulfsjor_blake2b_param;

/* The parameter block of BLAKE2s (the BLAKE2 document, 2.8), with the field names of the reference
 * code. Without a tree, fanout and depth are 1, and node_offset, leaf_length, node_depth and
 * inner_length are 0. */
typedef struct vulfsjor_blake2s_param {
    uint8_t digest_length; /* 1 to 32 */
    uint8_t key_length;    /* 0 to 32 */
    uint8_t fanout;
    uint8_t depth;
    uint32_t leaf_length;
    uint8_t node_offset[6];
    uint8_t node_depth;
    uint8_t inner_length;
    uint8_t salt[8];
    uint8_t personal[8];
} vulfsjor_blake2s_param;

/* Tree parameters: which node of a tree of hashes a state hashes (the BLAKE2 document, 2.10).
 * Without a tree, fanout and depth are 1 and all other fields are 0. */
typedef struct vulfsjor_tree {
    uint64_t node_offset; /* the index of this node in its level, from 0; below 2^48 in BLAKE2s */
    uint32_t leaf_length; /* the maximum length of a leaf; 0 is unlimited */
    uint8_t fanout;       /* the maximum number of children of a node; 0 is unlimited */
    uint8_t depth;        /* the number of levels of the tree, 1 to 255 */
    uint8_t node_depth;   /* the level of this node; leaves have 0 */
    uint8_t inner_length; /* the length of an inner node's digest, up to 64 (BLAKE2s: 32) */
} vulfsjor_tree;

/* A message for the functions _many. bytes is never null, even if length is 0. */
typedef struct vulfsjor_message {
    const void *bytes;
    size_t length;
} vulfsjor_message;

/* A state of the tree of two levels over BLAKE2b. What the comment on vulfsjor_blake2b_state says
 * holds for it too. */
typedef struct vulfsjor_tree_state {
    vulfsjor_blake2b_state leaf; /* the open leaf, full or not */
    vulfsjor_blake2b_state root; /* the root, which has absorbed the digests of the closed leaves */
    uint64_t closed;             /* the number of closed leaves */
    uint64_t leaf_length;        /* the bytes of a leaf, 1 to 2^32 - 1 */
    uint64_t salt_length;        /* the bytes of the salt, 0 to 16 */
    uint64_t personal_length;    /* the bytes of the personalization, 0 to 16 */
    uint8_t salt[16];            /* starts with the salt */
    uint8_t personal[16];        /* starts with the personalization */
} vulfsjor_tree_state;

/* What a plan of vulfsjor_tree_plan depends on besides lengths. Lengths are in bytes. */
typedef struct vulfsjor_limits {
    uint64_t threads;     /* the maximum number of threads, at least 1 */
    uint64_t least_bytes; /* there is at most one thread for each, at least 1 */
    uint64_t part_bytes;  /* about the maximum length of a part: fours of leaves, at least one */
    uint64_t most_bytes;  /* the maximum length of a part, unless it is one leaf */
} vulfsjor_limits;

/* A plan: the parts in which threads hash a message, or the input of an update. Offsets and lengths
 * are in bytes. All of this holds for each plan that vulfsjor_tree_plan or vulfsjor_tree_plan_update
 * has written, and vulfsjor_tree_part refuses all other plans:
 *   - leaf_length is 1 to 2^32 - 1, and part_length is a multiple of it, at least one leaf.
 *   - start is at most end, and end - start is less than 2^58.
 *   - ends is 0 or 1. part_count is (end - start) / part_length, rounded up, but at least ends.
 *   - threads is 1 to part_count, or 0 if part_count is 0.
 *   - digests_length is 64 for each leaf between start and end, or 0 if part_count is 0.
 *   - If ends is 1, rest_length is 0.
 *   - If ends is 0, start is less than leaf_length, end - start is a multiple of leaf_length,
 *     rest_length is at most leaf_length, and at least 1 if end is not start, and end + rest_length
 *     is less than 2^58.
 * So the digests of each part end at digests_length or before. */
typedef struct vulfsjor_plan {
    uint64_t start;          /* where the leaves begin */
    uint64_t end;            /* where they end */
    uint64_t rest_length;    /* how much input of an update follows them; 0 for a message */
    uint64_t leaf_length;    /* 1 to 2^32 - 1 */
    uint64_t part_length;    /* of each part, except that the last may be shorter */
    uint64_t part_count;     /* at least 1 for a message; 0 for an update without whole leaves */
    uint64_t threads;        /* the number that is worth its start, at most one for each part */
    uint64_t digests_length; /* of the digests of all parts, 64 for each leaf */
    uint64_t ends;           /* 1 if the last part ends the message, otherwise 0 */
} vulfsjor_plan;

/* A part of a plan: a range of leaves. */
typedef struct vulfsjor_part {
    uint64_t first;          /* the index of its first leaf, from the first of the plan */
    uint64_t start;          /* where its bytes begin */
    uint64_t length;         /* how many they are */
    uint64_t digests_start;  /* where its digests begin among those of all parts */
    uint64_t digests_length; /* how many bytes they are */
    uint64_t ends;           /* 1 if it ends the message, otherwise 0 */
} vulfsjor_part;

/* The library requires these layouts, which are the same on every platform. */
typedef char vulfsjor_layouts[sizeof(vulfsjor_blake2b_state) == 344 &&
                              sizeof(vulfsjor_blake2s_state) == 176 &&
                              sizeof(vulfsjor_blake2bp_state) == 1632 &&
                              sizeof(vulfsjor_blake2sp_state) == 1600 &&
                              sizeof(vulfsjor_blake2xb_state) == 464 &&
                              sizeof(vulfsjor_blake2xs_state) == 248 &&
                              sizeof(vulfsjor_tree) == 16 &&
                              sizeof(vulfsjor_tree_state) == 752 &&
                              sizeof(vulfsjor_message) == 2 * sizeof(size_t) &&
                              sizeof(vulfsjor_limits) == 32 && sizeof(vulfsjor_plan) == 72 &&
                              sizeof(vulfsjor_part) == 48 &&
                              sizeof(vulfsjor_blake2b_param) == 64 &&
                              sizeof(vulfsjor_blake2s_param) == 32 ? 1 : -1];

/* ---- The functions of the library, for other languages. Preconditions: no pointer is null, and
 * every byte of a state was written. Each function does what is said below of the function with its
 * name, with these exceptions:
 *   - A key of 0 bytes is no key. Only init_key and derive_key refuse it.
 *   - many fails if out_length is not count times output_size, and update_many if there are more
 *     inputs or fewer than states.
 *   - memcmp accepts two lengths; buffers of different lengths differ.
 *   - state_size returns the length of a state.
 *   - tree_check returns 0 if vulfsjor_tree_init accepts these lengths, and -1 otherwise. */

int32_t vulfsjor_ffi_memcmp(const uint8_t *a, size_t a_length, const uint8_t *b, size_t b_length);
void vulfsjor_ffi_wipe(uint8_t *bytes, size_t length);

int32_t vulfsjor_ffi_blake2b(uint8_t *out, size_t out_length, const uint8_t *input,
                             size_t input_length, const uint8_t *key, size_t key_length);
int32_t vulfsjor_ffi_blake2b_many(uint8_t *out, size_t out_length, size_t output_size,
                                  const vulfsjor_message *messages, size_t count,
                                  const uint8_t *key, size_t key_length, const uint8_t *salt,
                                  size_t salt_length, const uint8_t *personal,
                                  size_t personal_length);
int32_t vulfsjor_ffi_blake2b_init_salt_personal(vulfsjor_blake2b_state *state, size_t output_size,
                                                const uint8_t *key, size_t key_length,
                                                const uint8_t *salt, size_t salt_length,
                                                const uint8_t *personal, size_t personal_length);
int32_t vulfsjor_ffi_blake2b_init_key(vulfsjor_blake2b_state *state, size_t output_size,
                                      const uint8_t *key, size_t key_length);
int32_t vulfsjor_ffi_blake2b_init_tree(vulfsjor_blake2b_state *state, size_t output_size,
                                       const uint8_t *key, size_t key_length, const uint8_t *salt,
                                       size_t salt_length, const uint8_t *personal,
                                       size_t personal_length, const vulfsjor_tree *tree);
int32_t vulfsjor_ffi_blake2b_init_param(vulfsjor_blake2b_state *state, const uint8_t *block,
                                        size_t block_length);
int32_t vulfsjor_ffi_blake2b_update(vulfsjor_blake2b_state *state, const uint8_t *input,
                                    size_t input_length);
int32_t vulfsjor_ffi_blake2b_update_many(vulfsjor_blake2b_state *states, size_t state_count,
                                         const vulfsjor_message *inputs, size_t input_count);
int32_t vulfsjor_ffi_blake2b_final(vulfsjor_blake2b_state *state, uint8_t *out, size_t out_length);
int32_t vulfsjor_ffi_blake2b_verify(vulfsjor_blake2b_state *state, const uint8_t *tag,
                                    size_t tag_length);
int32_t vulfsjor_ffi_blake2b_set_last_node(vulfsjor_blake2b_state *state, uint32_t on);
int32_t vulfsjor_ffi_blake2b_reset(vulfsjor_blake2b_state *state);
int32_t vulfsjor_ffi_blake2b_save(const vulfsjor_blake2b_state *state, uint8_t *out,
                                  size_t out_length);
int32_t vulfsjor_ffi_blake2b_load(vulfsjor_blake2b_state *state, const uint8_t *saved,
                                  size_t saved_length);
void vulfsjor_ffi_blake2b_wipe(vulfsjor_blake2b_state *state);
size_t vulfsjor_ffi_blake2b_digest_size(const vulfsjor_blake2b_state *state);
uint64_t vulfsjor_ffi_blake2b_count(const vulfsjor_blake2b_state *state);
size_t vulfsjor_ffi_blake2b_state_size(void);

int32_t vulfsjor_ffi_blake2s(uint8_t *out, size_t out_length, const uint8_t *input,
                             size_t input_length, const uint8_t *key, size_t key_length);
int32_t vulfsjor_ffi_blake2s_many(uint8_t *out, size_t out_length, size_t output_size,
                                  const vulfsjor_message *messages, size_t count,
                                  const uint8_t *key, size_t key_length, const uint8_t *salt,
                                  size_t salt_length, const uint8_t *personal,
                                  size_t personal_length);
int32_t vulfsjor_ffi_blake2s_init_salt_personal(vulfsjor_blake2s_state *state, size_t output_size,
                                                const uint8_t *key, size_t key_length,
                                                const uint8_t *salt, size_t salt_length,
                                                const uint8_t *personal, size_t personal_length);
int32_t vulfsjor_ffi_blake2s_init_key(vulfsjor_blake2s_state *state, size_t output_size,
                                      const uint8_t *key, size_t key_length);
int32_t vulfsjor_ffi_blake2s_init_tree(vulfsjor_blake2s_state *state, size_t output_size,
                                       const uint8_t *key, size_t key_length, const uint8_t *salt,
                                       size_t salt_length, const uint8_t *personal,
                                       size_t personal_length, const vulfsjor_tree *tree);
int32_t vulfsjor_ffi_blake2s_init_param(vulfsjor_blake2s_state *state, const uint8_t *block,
                                        size_t block_length);
int32_t vulfsjor_ffi_blake2s_update(vulfsjor_blake2s_state *state, const uint8_t *input,
                                    size_t input_length);
int32_t vulfsjor_ffi_blake2s_update_many(vulfsjor_blake2s_state *states, size_t state_count,
                                         const vulfsjor_message *inputs, size_t input_count);
int32_t vulfsjor_ffi_blake2s_final(vulfsjor_blake2s_state *state, uint8_t *out, size_t out_length);
int32_t vulfsjor_ffi_blake2s_verify(vulfsjor_blake2s_state *state, const uint8_t *tag,
                                    size_t tag_length);
int32_t vulfsjor_ffi_blake2s_set_last_node(vulfsjor_blake2s_state *state, uint32_t on);
int32_t vulfsjor_ffi_blake2s_reset(vulfsjor_blake2s_state *state);
int32_t vulfsjor_ffi_blake2s_save(const vulfsjor_blake2s_state *state, uint8_t *out,
                                  size_t out_length);
int32_t vulfsjor_ffi_blake2s_load(vulfsjor_blake2s_state *state, const uint8_t *saved,
                                  size_t saved_length);
void vulfsjor_ffi_blake2s_wipe(vulfsjor_blake2s_state *state);
size_t vulfsjor_ffi_blake2s_digest_size(const vulfsjor_blake2s_state *state);
uint64_t vulfsjor_ffi_blake2s_count(const vulfsjor_blake2s_state *state);
size_t vulfsjor_ffi_blake2s_state_size(void);

int32_t vulfsjor_ffi_blake2bp(uint8_t *out, size_t out_length, const uint8_t *input,
                              size_t input_length, const uint8_t *key, size_t key_length);
int32_t vulfsjor_ffi_blake2bp_init_salt_personal(vulfsjor_blake2bp_state *state, size_t output_size,
                                                 const uint8_t *key, size_t key_length,
                                                 const uint8_t *salt, size_t salt_length,
                                                 const uint8_t *personal, size_t personal_length);
int32_t vulfsjor_ffi_blake2bp_init_key(vulfsjor_blake2bp_state *state, size_t output_size,
                                       const uint8_t *key, size_t key_length);
int32_t vulfsjor_ffi_blake2bp_update(vulfsjor_blake2bp_state *state, const uint8_t *input,
                                     size_t input_length);
int32_t vulfsjor_ffi_blake2bp_final(vulfsjor_blake2bp_state *state, uint8_t *out,
                                    size_t out_length);
int32_t vulfsjor_ffi_blake2bp_verify(vulfsjor_blake2bp_state *state, const uint8_t *tag,
                                     size_t tag_length);
int32_t vulfsjor_ffi_blake2bp_reset(vulfsjor_blake2bp_state *state);
void vulfsjor_ffi_blake2bp_wipe(vulfsjor_blake2bp_state *state);
size_t vulfsjor_ffi_blake2bp_digest_size(const vulfsjor_blake2bp_state *state);
uint64_t vulfsjor_ffi_blake2bp_count(const vulfsjor_blake2bp_state *state);
size_t vulfsjor_ffi_blake2bp_state_size(void);

int32_t vulfsjor_ffi_blake2sp(uint8_t *out, size_t out_length, const uint8_t *input,
                              size_t input_length, const uint8_t *key, size_t key_length);
int32_t vulfsjor_ffi_blake2sp_init_salt_personal(vulfsjor_blake2sp_state *state, size_t output_size,
                                                 const uint8_t *key, size_t key_length,
                                                 const uint8_t *salt, size_t salt_length,
                                                 const uint8_t *personal, size_t personal_length);
int32_t vulfsjor_ffi_blake2sp_init_key(vulfsjor_blake2sp_state *state, size_t output_size,
                                       const uint8_t *key, size_t key_length);
int32_t vulfsjor_ffi_blake2sp_update(vulfsjor_blake2sp_state *state, const uint8_t *input,
                                     size_t input_length);
int32_t vulfsjor_ffi_blake2sp_final(vulfsjor_blake2sp_state *state, uint8_t *out,
                                    size_t out_length);
int32_t vulfsjor_ffi_blake2sp_verify(vulfsjor_blake2sp_state *state, const uint8_t *tag,
                                     size_t tag_length);
int32_t vulfsjor_ffi_blake2sp_reset(vulfsjor_blake2sp_state *state);
void vulfsjor_ffi_blake2sp_wipe(vulfsjor_blake2sp_state *state);
size_t vulfsjor_ffi_blake2sp_digest_size(const vulfsjor_blake2sp_state *state);
uint64_t vulfsjor_ffi_blake2sp_count(const vulfsjor_blake2sp_state *state);
size_t vulfsjor_ffi_blake2sp_state_size(void);

int32_t vulfsjor_ffi_blake2xb(uint8_t *out, size_t out_length, const uint8_t *input,
                              size_t input_length, const uint8_t *key, size_t key_length);
int32_t vulfsjor_ffi_blake2xb_derive_key(uint8_t *out, size_t out_length, const uint8_t *key,
                                         size_t key_length, const uint8_t *context,
                                         size_t context_length);
int32_t vulfsjor_ffi_blake2xb_init_salt_personal(vulfsjor_blake2xb_state *state,
                                                 uint64_t xof_length, const uint8_t *key,
                                                 size_t key_length, const uint8_t *salt,
                                                 size_t salt_length, const uint8_t *personal,
                                                 size_t personal_length);
int32_t vulfsjor_ffi_blake2xb_update(vulfsjor_blake2xb_state *state, const uint8_t *input,
                                     size_t input_length);
int32_t vulfsjor_ffi_blake2xb_squeeze(vulfsjor_blake2xb_state *state, uint8_t *out,
                                      size_t out_length);
int32_t vulfsjor_ffi_blake2xb_reset(vulfsjor_blake2xb_state *state);
void vulfsjor_ffi_blake2xb_wipe(vulfsjor_blake2xb_state *state);
uint64_t vulfsjor_ffi_blake2xb_left(const vulfsjor_blake2xb_state *state);
uint64_t vulfsjor_ffi_blake2xb_count(const vulfsjor_blake2xb_state *state);
size_t vulfsjor_ffi_blake2xb_state_size(void);

int32_t vulfsjor_ffi_blake2xs(uint8_t *out, size_t out_length, const uint8_t *input,
                              size_t input_length, const uint8_t *key, size_t key_length);
int32_t vulfsjor_ffi_blake2xs_derive_key(uint8_t *out, size_t out_length, const uint8_t *key,
                                         size_t key_length, const uint8_t *context,
                                         size_t context_length);
int32_t vulfsjor_ffi_blake2xs_init_salt_personal(vulfsjor_blake2xs_state *state,
                                                 uint64_t xof_length, const uint8_t *key,
                                                 size_t key_length, const uint8_t *salt,
                                                 size_t salt_length, const uint8_t *personal,
                                                 size_t personal_length);
int32_t vulfsjor_ffi_blake2xs_update(vulfsjor_blake2xs_state *state, const uint8_t *input,
                                     size_t input_length);
int32_t vulfsjor_ffi_blake2xs_squeeze(vulfsjor_blake2xs_state *state, uint8_t *out,
                                      size_t out_length);
int32_t vulfsjor_ffi_blake2xs_reset(vulfsjor_blake2xs_state *state);
void vulfsjor_ffi_blake2xs_wipe(vulfsjor_blake2xs_state *state);
uint64_t vulfsjor_ffi_blake2xs_left(const vulfsjor_blake2xs_state *state);
uint64_t vulfsjor_ffi_blake2xs_count(const vulfsjor_blake2xs_state *state);
size_t vulfsjor_ffi_blake2xs_state_size(void);

int32_t vulfsjor_ffi_tree_root(uint8_t *out, size_t out_length, const uint8_t *input,
                               size_t input_length, const uint8_t *salt, size_t salt_length,
                               const uint8_t *personal, size_t personal_length,
                               uint32_t leaf_length);
int32_t vulfsjor_ffi_tree_init(vulfsjor_tree_state *state, size_t output_size, const uint8_t *salt,
                               size_t salt_length, const uint8_t *personal, size_t personal_length,
                               uint32_t leaf_length);
int32_t vulfsjor_ffi_tree_update(vulfsjor_tree_state *state, const uint8_t *input,
                                 size_t input_length);
int32_t vulfsjor_ffi_tree_final(vulfsjor_tree_state *state, uint8_t *out, size_t out_length);
void vulfsjor_ffi_tree_wipe(vulfsjor_tree_state *state);
size_t vulfsjor_ffi_tree_digest_size(const vulfsjor_tree_state *state);
uint64_t vulfsjor_ffi_tree_count(const vulfsjor_tree_state *state);
uint32_t vulfsjor_ffi_tree_leaf_length(const vulfsjor_tree_state *state);
size_t vulfsjor_ffi_tree_state_size(void);
uint64_t vulfsjor_ffi_tree_leaf_count(uint64_t message_length, uint32_t leaf_length);
int32_t vulfsjor_ffi_tree_leaves(uint8_t *out, size_t out_length, uint64_t first, uint32_t ends,
                                 const uint8_t *input, size_t input_length, const uint8_t *salt,
                                 size_t salt_length, const uint8_t *personal,
                                 size_t personal_length, uint32_t leaf_length);
int32_t vulfsjor_ffi_tree_root_of_leaves(uint8_t *out, size_t out_length, const uint8_t *digests,
                                         size_t digests_length, const uint8_t *salt,
                                         size_t salt_length, const uint8_t *personal,
                                         size_t personal_length, uint32_t leaf_length);
int32_t vulfsjor_ffi_tree_leaves_ahead(const vulfsjor_tree_state *state, uint8_t *out,
                                      size_t out_length, uint64_t skip, const uint8_t *input,
                                      size_t input_length);
int32_t vulfsjor_ffi_tree_update_leaves(vulfsjor_tree_state *state, const uint8_t *digests,
                                        size_t digests_length, const uint8_t *input,
                                        size_t input_length);
int32_t vulfsjor_ffi_tree_check(size_t output_size, size_t salt_length, size_t personal_length,
                                uint32_t leaf_length);
int32_t vulfsjor_ffi_tree_init_leaf(vulfsjor_blake2b_state *state, uint64_t i, uint32_t last,
                                    const uint8_t *salt, size_t salt_length,
                                    const uint8_t *personal, size_t personal_length,
                                    uint32_t leaf_length);
int32_t vulfsjor_ffi_tree_init_root(vulfsjor_blake2b_state *state, size_t output_size,
                                    const uint8_t *salt, size_t salt_length,
                                    const uint8_t *personal, size_t personal_length,
                                    uint32_t leaf_length);
int32_t vulfsjor_ffi_tree_plan(vulfsjor_plan *plan, uint64_t start, uint64_t length,
                               uint32_t leaf_length, const vulfsjor_limits *limits);
int32_t vulfsjor_ffi_tree_plan_update(vulfsjor_plan *plan, const vulfsjor_tree_state *state,
                                      uint64_t length, const vulfsjor_limits *limits);
int32_t vulfsjor_ffi_tree_part(vulfsjor_part *part, const vulfsjor_plan *plan, uint64_t i);

/* ---- For C and C++ */

/* Internal: a conversion that is implicit in C and explicit in C++. */
#ifdef __cplusplus
#define VULFSJOR_CAST(type, value) static_cast<type>(value)
#else
#define VULFSJOR_CAST(type, value) ((type)(value))
#endif

/* Internal: a null pointer. */
#if defined(__cplusplus) && __cplusplus >= 201103L
#define VULFSJOR_NULL nullptr
#else
#define VULFSJOR_NULL NULL
#endif

/* Internal: returns the pointer, or a pointer that is not null if it is null. */
static inline const uint8_t *vulfsjor_text(const void *text) {
    const void *bytes = text ? text : "";
    return VULFSJOR_CAST(const uint8_t *, bytes);
}

/* Internal: returns the pointer as one to bytes. */
static inline uint8_t *vulfsjor_bytes(void *out) {
    return VULFSJOR_CAST(uint8_t *, out);
}

/* Internal: returns whether only one of a key and its length is given: the key is null and its
 * length is not 0, or the length is 0 and the key is not null. */
VULFSJOR_MUST_USE static inline int vulfsjor_is_half_key(const void *key, size_t keylen) {
    return !key != !keylen;
}

/* Internal: returns whether the key is such a one, or another pointer is null with a length. */
VULFSJOR_MUST_USE static inline int vulfsjor_are_refused(const void *key, size_t keylen,
                                                         const void *salt, size_t saltlen,
                                                         const void *personal, size_t personallen) {
    return vulfsjor_is_half_key(key, keylen) || (!salt && saltlen) || (!personal && personallen);
}

/* Internal: returns the length of a leaf as the library has it, or 0, which it refuses, if that has
 * no such number. */
VULFSJOR_MUST_USE static inline uint32_t vulfsjor_leaf(uint64_t leaf_length) {
    return leaf_length >> 32 ? 0 : VULFSJOR_CAST(uint32_t, leaf_length);
}

/* Internal: returns VULFSJOR_VERSION_NUMBER of the header that the library was compiled with. */
uint32_t vulfsjor_library_version(void);

/* Returns the version of the library, to compare with VULFSJOR_VERSION_NUMBER of this header. */
static inline uint32_t vulfsjor_version(void) {
    return vulfsjor_library_version();
}

/* Internal: returns what vulfsjor_build does. */
const char *vulfsjor_library_build(void);

/* Returns which code runs on this processor: the line of dist/MANIFEST for it, which is the SHA-256
 * of a file of dist/ in hexadecimal, two spaces, and its name, such as x86_64/vulfsjor-v3.s. The
 * string is never freed. On an x86-64 processor below x86-64-v2 this call, like all others, aborts,
 * unless the library is portable C. */
static inline const char *vulfsjor_build(void) {
    return vulfsjor_library_build();
}

/* Returns 0 if the first length bytes of a and b are equal, and -1 otherwise. So the result is no
 * order, as that of memcmp is. Its time does not depend on the bytes, so use it for tags:
 *
 *     if (vulfsjor_memcmp(tag, want, sizeof tag) != 0) return REJECTED;
 *
 * Pass the length that a tag must have. One that came with the tag may be 0, and 0 bytes are equal.
 */
VULFSJOR_READS(1, 3) VULFSJOR_READS(2, 3)
VULFSJOR_MUST_USE static inline int vulfsjor_memcmp(const void *a, const void *b, size_t length) {
    if ((!a || !b) && length) return -1;
    return vulfsjor_ffi_memcmp(vulfsjor_text(a), length, vulfsjor_text(b), length);
}

/* Sets length bytes to zero, such as a key or a derived key that you need no more. Compilers remove
 * a memset of memory that nothing reads afterwards, and do not remove this call. Does nothing if
 * bytes is null. */
VULFSJOR_WRITES(1, 2)
static inline void vulfsjor_wipe(void *bytes, size_t length) {
    if (bytes) vulfsjor_ffi_wipe(vulfsjor_bytes(bytes), length);
}

/* Writes inlen bytes as hexadecimal digits, two for each byte, in lower case, and a null character
 * after them. outlen is the room in out, at least 2 * inlen + 1. The remaining characters are
 * unchanged. Its time does not depend on the bytes. Returns -1 and writes nothing if outlen is
 * less. */
VULFSJOR_WRITES(1, 2) VULFSJOR_READS(3, 4)
VULFSJOR_MUST_USE static inline int vulfsjor_bin2hex(char *out, size_t outlen, const void *in,
                                                     size_t inlen) {
    const uint8_t *bytes = vulfsjor_text(in);
    size_t i;
    if (!out || (!in && inlen) || !outlen || (outlen - 1) / 2 < inlen) return -1;
    for (i = 0; i < 2 * inlen; i++) {
        const unsigned digit = i % 2 ? bytes[i / 2] & 15u : bytes[i / 2] >> 4u;
        /* From 10 on the difference wraps, and all its bits from 8 on are 1. */
        out[i] = VULFSJOR_CAST(char, '0' + digit + ((9u - digit) >> 8 & ('a' - '0' - 10u)));
    }
    out[2 * inlen] = '\0';
    return 0;
}

/* Internal: returns the value of a hexadecimal digit of either case, or 256 for any other
 * character, in a time that does not depend on the character. */
static inline unsigned vulfsjor_digit(char character) {
    const unsigned code = VULFSJOR_CAST(unsigned char, character);
    const unsigned decimal = code ^ 0x30u;           /* 0 to 9 for a decimal digit */
    const unsigned letter = ((code & 0xdfu) - 'A') & 0xffu; /* 0 to 5 for A to F, and a to f */
    /* Masks of 24 bits: below zero a difference wraps. */
    const unsigned is_decimal = (decimal - 10u) >> 8, is_letter = (letter - 6u) >> 8;
    return (is_decimal & decimal) | (is_letter & (letter + 10u)) |
           (~(is_decimal | is_letter) & 256u);
}

/* Writes the bytes of hexadecimal digits, two for each byte, of either case: outlen bytes. Its time
 * depends on no digit, unless a character is not one. Returns -1 and writes nothing if hexlen is
 * not 2 * outlen, or if a character is not a hexadecimal digit. */
VULFSJOR_WRITES(1, 2) VULFSJOR_READS(3, 4)
VULFSJOR_MUST_USE static inline int vulfsjor_hex2bin(void *out, size_t outlen, const char *hex,
                                                     size_t hexlen) {
    uint8_t *bytes = vulfsjor_bytes(out);
    unsigned all = 0;
    size_t i;
    if (!out || (!hex && hexlen) || hexlen % 2 || hexlen / 2 != outlen) return -1;
    for (i = 0; i < hexlen; i++) all |= vulfsjor_digit(hex[i]);
    if (all & 256u) return -1;
    for (i = 0; i < outlen; i++)
        bytes[i] = VULFSJOR_CAST(uint8_t, vulfsjor_digit(hex[2 * i]) << 4 |
                                              vulfsjor_digit(hex[2 * i + 1]));
    return 0;
}

/* Returns the index of the first message whose bytes are null, or count if there is none. */
static inline size_t vulfsjor_null_message(const vulfsjor_message *messages, size_t count) {
    size_t i;
    for (i = 0; i < count && messages[i].bytes; i++) continue;
    return i;
}

/* -- BLAKE2b */

/* Initializes a state for BLAKE2b digests of outlen bytes, 1 to 64. The key has 1 to 64 bytes;
 * without a key, key is null and keylen is 0. With a key the digest is a message authentication
 * code. The salt and the personalization have 0 to 16 bytes each, and trailing zeros in them change
 * nothing. Use a different personalization for each purpose. Returns -1 and sets the state to zero
 * if a length is out of range. */
VULFSJOR_READS(3, 4) VULFSJOR_READS(5, 6) VULFSJOR_READS(7, 8)
static inline int vulfsjor_blake2b_init_salt_personal(
    vulfsjor_blake2b_state *S, size_t outlen, const void *key, size_t keylen, const void *salt,
    size_t saltlen, const void *personal, size_t personallen) {
    if (!S) return -1;
    memset(vulfsjor_bytes(S), 0, sizeof *S);
    if (vulfsjor_are_refused(key, keylen, salt, saltlen, personal, personallen))
        return -1;
    return vulfsjor_ffi_blake2b_init_salt_personal(S, outlen, vulfsjor_text(key), keylen,
                                                   vulfsjor_text(salt), saltlen,
                                                   vulfsjor_text(personal), personallen);
}

/* Initializes a state for BLAKE2b digests of outlen bytes, 1 to 64, without key, salt and
 * personalization. Returns -1 and sets the state to zero if outlen is out of range. */
static inline int vulfsjor_blake2b_init(vulfsjor_blake2b_state *S, size_t outlen) {
    return vulfsjor_blake2b_init_salt_personal(S, outlen, VULFSJOR_NULL, 0, "", 0, "", 0);
}

/* Initializes a state for BLAKE2b digests of outlen bytes, 1 to 64, under a key of 1 to 64 bytes,
 * without salt and personalization. Returns -1 and sets the state to zero if a length is out of
 * range. A key of 0 bytes is refused, also if it is null. */
VULFSJOR_READS(3, 4)
static inline int vulfsjor_blake2b_init_key(vulfsjor_blake2b_state *S, size_t outlen,
                                            const void *key, size_t keylen) {
    if (!S) return -1;
    memset(vulfsjor_bytes(S), 0, sizeof *S);
    if (!key) return -1;
    return vulfsjor_ffi_blake2b_init_key(S, outlen, vulfsjor_text(key), keylen);
}

/* Initializes a state as vulfsjor_blake2b_init_salt_personal does, under a key of 1 to 64 bytes and
 * for a tag of 1 to 64 bytes. Use it only for tags that are shorter than vulfsjor_blake2b_init_mac
 * accepts: anybody makes one of n bytes in at most 256^n tries. So never pass the length of a tag
 * that came. Returns -1 and sets the state to zero if a length is out of range. A key of 0 bytes is
 * refused, also if it is null. */
VULFSJOR_READS(3, 4) VULFSJOR_READS(5, 6) VULFSJOR_READS(7, 8)
static inline int vulfsjor_blake2b_init_short_mac(vulfsjor_blake2b_state *S, size_t outlen,
                                                  const void *key, size_t keylen, const void *salt,
                                                  size_t saltlen, const void *personal,
                                                  size_t personallen) {
    if (!S) return -1;
    memset(vulfsjor_bytes(S), 0, sizeof *S);
    if (!keylen) return -1;
    return vulfsjor_blake2b_init_salt_personal(S, outlen, key, keylen, salt, saltlen, personal,
                                               personallen);
}

/* Initializes a state as vulfsjor_blake2b_init_salt_personal does, under a key of 1 to 64 bytes and
 * for a tag of VULFSJOR_TAGBYTES_MIN to 64 bytes: use it for message authentication codes. Returns
 * -1 and sets the state to zero if a length is out of range. A key of 0 bytes is refused, also if it
 * is null. */
VULFSJOR_READS(3, 4) VULFSJOR_READS(5, 6) VULFSJOR_READS(7, 8)
static inline int vulfsjor_blake2b_init_mac(vulfsjor_blake2b_state *S, size_t outlen,
                                            const void *key, size_t keylen, const void *salt,
                                            size_t saltlen, const void *personal,
                                            size_t personallen) {
    if (outlen < VULFSJOR_TAGBYTES_MIN) keylen = 0; /* which is refused */
    return vulfsjor_blake2b_init_short_mac(S, outlen, key, keylen, salt, saltlen, personal,
                                           personallen);
}

/* Initializes a state for a node of a tree of hashes with these tree parameters (the BLAKE2
 * document, 2.10). The other arguments are those of vulfsjor_blake2b_init_salt_personal. The
 * last-node flag is off. Returns -1 and sets the state to zero if a length is out of range, if
 * tree->depth is 0, or if tree->inner_length is more than 64. */
VULFSJOR_READS(3, 4) VULFSJOR_READS(5, 6) VULFSJOR_READS(7, 8)
static inline int vulfsjor_blake2b_init_tree(
    vulfsjor_blake2b_state *S, size_t outlen, const void *key, size_t keylen, const void *salt,
    size_t saltlen, const void *personal, size_t personallen, const vulfsjor_tree *tree) {
    if (!S) return -1;
    memset(vulfsjor_bytes(S), 0, sizeof *S);
    if (!tree || vulfsjor_are_refused(key, keylen, salt, saltlen, personal, personallen))
        return -1;
    return vulfsjor_ffi_blake2b_init_tree(S, outlen, vulfsjor_text(key), keylen,
                                          vulfsjor_text(salt), saltlen, vulfsjor_text(personal),
                                          personallen, tree);
}

/* Initializes a state from a parameter block, whose bytes, with numbers in little-endian order, are
 * xored into the IV. If P->key_length is not 0, the first 128 bytes of input must be the key followed
 * by zeros. Returns -1 and sets the state to zero if P->digest_length is not 1 to 64, or if
 * P->key_length is more than 64. No other field is checked. */
static inline int vulfsjor_blake2b_init_param(vulfsjor_blake2b_state *S,
                                              const vulfsjor_blake2b_param *P) {
#ifndef VULFSJOR_LITTLE_ENDIAN
    uint8_t block[sizeof *P];
    int i;
#endif
    if (!S) return -1;
    memset(vulfsjor_bytes(S), 0, sizeof *S);
    if (!P) return -1;
#ifdef VULFSJOR_LITTLE_ENDIAN
    return vulfsjor_ffi_blake2b_init_param(S, vulfsjor_text(P), sizeof *P);
#else
    memcpy(block, P, sizeof block);
    for (i = 0; i < 4; i++) block[4 + i] = VULFSJOR_CAST(uint8_t, P->leaf_length >> (8 * i));
    for (i = 0; i < 8; i++) block[8 + i] = VULFSJOR_CAST(uint8_t, P->node_offset >> (8 * i));
    return vulfsjor_ffi_blake2b_init_param(S, block, sizeof block);
#endif
}

/* Absorbs inlen bytes of input. The digest does not depend on how the input is split into calls.
 * Returns -1 if the state is not ready, or if the bytes absorbed since the init or the last reset,
 * with a key's block of 128 bytes, would be 2^64 or more. The state is then unchanged. */
VULFSJOR_READS(2, 3)
VULFSJOR_MUST_USE static inline int vulfsjor_blake2b_update(vulfsjor_blake2b_state *S,
                                                            const void *in, size_t inlen) {
    if (!S || (!in && inlen)) return -1;
    return vulfsjor_ffi_blake2b_update(S, vulfsjor_text(in), inlen);
}

/* Absorbs pieces[i] into states[i], for each i below count, as vulfsjor_blake2b_update does. The
 * pieces have any lengths, and the states are at any places of their inputs. As many states in a row
 * go on in parallel as messages of vulfsjor_blake2b_many, up to where the shortest of their pieces
 * ends, if each has more than a block to absorb. Returns -1 if states, pieces or the bytes of a piece
 * are null, a state is not ready, or the bytes absorbed of one, as for vulfsjor_blake2b_update, would
 * be 2^64 or more. All states are then unchanged. */
VULFSJOR_CHANGES(1, 3) VULFSJOR_READS(2, 3)
VULFSJOR_MUST_USE static inline int vulfsjor_blake2b_update_many(
    vulfsjor_blake2b_state *states, const vulfsjor_message *pieces, size_t count) {
    if (!states || !pieces || vulfsjor_null_message(pieces, count) < count) return -1;
    return vulfsjor_ffi_blake2b_update_many(states, count, pieces, count);
}

/* Writes the digest of all input to out, and wipes the state. outlen must be the length of the
 * digest, vulfsjor_blake2b_digest_size. Returns -1 if it is another or the state is not ready. Then
 * out and the state are unchanged. */
VULFSJOR_WRITES(2, 3)
VULFSJOR_MUST_USE static inline int vulfsjor_blake2b_final(vulfsjor_blake2b_state *S, void *out,
                                                           size_t outlen) {
    if (!S || !out) return -1;
    return vulfsjor_ffi_blake2b_final(S, vulfsjor_bytes(out), outlen);
}

/* Does what vulfsjor_blake2b_verify does, also for a digest of fewer than VULFSJOR_TAGBYTES_MIN
 * bytes. Use it only for tags of vulfsjor_blake2b_init_short_mac, whose length your program has
 * chosen: never pass the length of a tag that came to the init. */
VULFSJOR_READS(2, 3)
VULFSJOR_MUST_USE static inline int vulfsjor_blake2b_verify_short_mac(vulfsjor_blake2b_state *S,
                                                                      const void *tag,
                                                                      size_t taglen) {
    if (!S || (!tag && taglen)) return -1;
    return vulfsjor_ffi_blake2b_verify(S, vulfsjor_text(tag), taglen);
}

/* Returns 0 if tag is the whole digest of all input under the key, and -1 otherwise:
 *
 *     if (vulfsjor_blake2b_verify(&state, tag, sizeof tag) != 0) return REJECTED;
 *
 * It wipes the state in either case, so copy the state first to try another tag. All bytes of a tag
 * of the right length are compared. Returns -1 too, and leaves the state unchanged, if it has no
 * key, since anybody can make its digests: compare those by final and vulfsjor_memcmp. Likewise if
 * its digest has fewer than VULFSJOR_TAGBYTES_MIN bytes, if it was not ready, or if tag is null and
 * taglen is not 0. */
VULFSJOR_READS(2, 3)
VULFSJOR_MUST_USE static inline int vulfsjor_blake2b_verify(vulfsjor_blake2b_state *S,
                                                            const void *tag, size_t taglen) {
    /* The numbers of a state are little-endian on every platform. */
    if (!S || vulfsjor_text(&S->output_size)[0] < VULFSJOR_TAGBYTES_MIN) return -1;
    return vulfsjor_blake2b_verify_short_mac(S, tag, taglen);
}

/* Sets the last-node flag, or clears it if on is 0. The flag marks the last node on its level of a
 * tree of hashes (the BLAKE2 document, 2.10). You may call it at any time before final or verify.
 * Returns -1 if the state is not ready. */
static inline int vulfsjor_blake2b_set_last_node(vulfsjor_blake2b_state *S, int on) {
    if (!S) return -1;
    return vulfsjor_ffi_blake2b_set_last_node(S, on != 0);
}

/* Discards all input. Digest length, key, salt, personalization, tree parameters and last-node flag
 * are kept. After init_param the key's block is input, so pass it again. Returns -1 if the state is
 * not ready. */
static inline int vulfsjor_blake2b_reset(vulfsjor_blake2b_state *S) {
    if (!S) return -1;
    return vulfsjor_ffi_blake2b_reset(S);
}

/* Writes a state that has no key to out, as bytes that vulfsjor_blake2b_load reads on every
 * processor, in every language of this library and in every later version (docs/SPECIFICATION.md,
 * section 14). They contain the input that is pending, up to 128 bytes. Returns -1 and leaves out
 * unchanged if the state is not ready, or if it has a key, which the bytes would be as good as. */
VULFSJOR_MUST_USE static inline int vulfsjor_blake2b_save(
    const vulfsjor_blake2b_state *S, unsigned char out[VULFSJOR_BLAKE2B_SAVEDBYTES]) {
    if (!S || !out) return -1;
    return vulfsjor_ffi_blake2b_save(S, vulfsjor_bytes(out), VULFSJOR_BLAKE2B_SAVEDBYTES);
}

/* Initializes a state from the bytes that vulfsjor_blake2b_save wrote: every call then does what it
 * would do with the state that was saved. Whoever can change the bytes chooses the digest, so keep
 * them as safe as the input. Returns -1 and sets the state to zero if savedlen is not
 * VULFSJOR_BLAKE2B_SAVEDBYTES, or if the bytes are not a saved state of this hash. */
VULFSJOR_READS(2, 3)
static inline int vulfsjor_blake2b_load(vulfsjor_blake2b_state *S, const void *saved,
                                        size_t savedlen) {
    if (!S) return -1;
    memset(vulfsjor_bytes(S), 0, sizeof *S);
    if (!saved) return -1;
    return vulfsjor_ffi_blake2b_load(S, vulfsjor_text(saved), savedlen);
}

/* Sets every byte of the state to zero, whether it is ready or not. Does nothing if S is null. */
static inline void vulfsjor_blake2b_wipe(vulfsjor_blake2b_state *S) {
    if (S) vulfsjor_ffi_blake2b_wipe(S);
}

/* Returns the length of the state's digest, 1 to 64; 0 if the state is null or not ready. */
static inline size_t vulfsjor_blake2b_digest_size(const vulfsjor_blake2b_state *S) {
    return S ? vulfsjor_ffi_blake2b_digest_size(S) : 0;
}

/* Returns the number of bytes of input absorbed since the init or the last reset; 0 if the state is
 * null or not ready. A key's block is counted only if it was passed as input after init_param. */
static inline uint64_t vulfsjor_blake2b_count(const vulfsjor_blake2b_state *S) {
    return S ? vulfsjor_ffi_blake2b_count(S) : 0;
}

/* Writes the BLAKE2b digest of the input to out: outlen bytes, 1 to 64, under a key of 1 to 64
 * bytes; without a key, key is null and keylen is 0. Returns -1 and writes nothing if a length is
 * out of range, or if the input and a key's block of 128 bytes have 2^64 bytes or more. */
VULFSJOR_WRITES(1, 2) VULFSJOR_READS(3, 4) VULFSJOR_READS(5, 6)
VULFSJOR_MUST_USE static inline int vulfsjor_blake2b(void *out, size_t outlen, const void *in,
                                                     size_t inlen, const void *key, size_t keylen) {
    if (!out || (!in && inlen) || vulfsjor_is_half_key(key, keylen)) return -1;
    return vulfsjor_ffi_blake2b(vulfsjor_bytes(out), outlen, vulfsjor_text(in), inlen,
                                vulfsjor_text(key), keylen);
}

/* Writes the tag of the input to out: outlen bytes, VULFSJOR_TAGBYTES_MIN to 64, under a key of 1 to
 * 64 bytes. Returns -1 and writes nothing if a length is out of range, or for an input that
 * vulfsjor_blake2b refuses. A key of 0 bytes is refused, also if it is null. To check a tag, use
 * vulfsjor_blake2b_verify. */
VULFSJOR_WRITES(1, 2) VULFSJOR_READS(3, 4) VULFSJOR_READS(5, 6)
VULFSJOR_MUST_USE static inline int vulfsjor_blake2b_mac(void *out, size_t outlen, const void *in,
                                                         size_t inlen, const void *key,
                                                         size_t keylen) {
    if (outlen < VULFSJOR_TAGBYTES_MIN || !keylen) return -1;
    return vulfsjor_blake2b(out, outlen, in, inlen, key, keylen);
}

/* Writes the digests of count messages to out, which has room for count * outlen bytes. Digest i is
 * at out + i * outlen. All have the same digest length, key, salt and personalization, with the
 * lengths of vulfsjor_blake2b_init_salt_personal. Messages in a row that have the same length are
 * hashed by fours in parallel, or by eights with AVX-512; on x86-64 without AVX2 one after another
 * is faster (docs/SPEED.md has times). Returns -1 and writes nothing if a length is out of range,
 * if a message and a key's block have 2^64 bytes or more, or if out, messages or the bytes of a
 * message are null, even if count or the length is 0. */
VULFSJOR_READS(3, 4) VULFSJOR_READS(5, 6) VULFSJOR_READS(7, 8) VULFSJOR_READS(9, 10)
VULFSJOR_MUST_USE static inline int vulfsjor_blake2b_many(
    void *out, size_t outlen, const vulfsjor_message *messages, size_t count, const void *key,
    size_t keylen, const void *salt, size_t saltlen, const void *personal, size_t personallen) {
    if (!out || !messages || vulfsjor_null_message(messages, count) < count) return -1;
    if (vulfsjor_are_refused(key, keylen, salt, saltlen, personal, personallen))
        return -1;
    return vulfsjor_ffi_blake2b_many(vulfsjor_bytes(out), count * outlen, outlen, messages, count,
                                     vulfsjor_text(key), keylen, vulfsjor_text(salt), saltlen,
                                     vulfsjor_text(personal), personallen);
}

/* -- BLAKE2s */

/* Initializes a state for BLAKE2s digests of outlen bytes, 1 to 32. The key has 1 to 32 bytes;
 * without a key, key is null and keylen is 0. With a key the digest is a message authentication
 * code. The salt and the personalization have 0 to 8 bytes each, and trailing zeros in them change
 * nothing. Use a different personalization for each purpose. Returns -1 and sets the state to zero
 * if a length is out of range. */
VULFSJOR_READS(3, 4) VULFSJOR_READS(5, 6) VULFSJOR_READS(7, 8)
static inline int vulfsjor_blake2s_init_salt_personal(
    vulfsjor_blake2s_state *S, size_t outlen, const void *key, size_t keylen, const void *salt,
    size_t saltlen, const void *personal, size_t personallen) {
    if (!S) return -1;
    memset(vulfsjor_bytes(S), 0, sizeof *S);
    if (vulfsjor_are_refused(key, keylen, salt, saltlen, personal, personallen))
        return -1;
    return vulfsjor_ffi_blake2s_init_salt_personal(S, outlen, vulfsjor_text(key), keylen,
                                                   vulfsjor_text(salt), saltlen,
                                                   vulfsjor_text(personal), personallen);
}

/* Initializes a state for BLAKE2s digests of outlen bytes, 1 to 32, without key, salt and
 * personalization. Returns -1 and sets the state to zero if outlen is out of range. */
static inline int vulfsjor_blake2s_init(vulfsjor_blake2s_state *S, size_t outlen) {
    return vulfsjor_blake2s_init_salt_personal(S, outlen, VULFSJOR_NULL, 0, "", 0, "", 0);
}

/* Initializes a state for BLAKE2s digests of outlen bytes, 1 to 32, under a key of 1 to 32 bytes,
 * without salt and personalization. Returns -1 and sets the state to zero if a length is out of
 * range. A key of 0 bytes is refused, also if it is null. */
VULFSJOR_READS(3, 4)
static inline int vulfsjor_blake2s_init_key(vulfsjor_blake2s_state *S, size_t outlen,
                                            const void *key, size_t keylen) {
    if (!S) return -1;
    memset(vulfsjor_bytes(S), 0, sizeof *S);
    if (!key) return -1;
    return vulfsjor_ffi_blake2s_init_key(S, outlen, vulfsjor_text(key), keylen);
}

/* Initializes a state as vulfsjor_blake2s_init_salt_personal does, under a key of 1 to 32 bytes and
 * for a tag of 1 to 32 bytes. Use it only for tags that are shorter than vulfsjor_blake2s_init_mac
 * accepts: anybody makes one of n bytes in at most 256^n tries. So never pass the length of a tag
 * that came. Returns -1 and sets the state to zero if a length is out of range. A key of 0 bytes is
 * refused, also if it is null. */
VULFSJOR_READS(3, 4) VULFSJOR_READS(5, 6) VULFSJOR_READS(7, 8)
static inline int vulfsjor_blake2s_init_short_mac(vulfsjor_blake2s_state *S, size_t outlen,
                                                  const void *key, size_t keylen, const void *salt,
                                                  size_t saltlen, const void *personal,
                                                  size_t personallen) {
    if (!S) return -1;
    memset(vulfsjor_bytes(S), 0, sizeof *S);
    if (!keylen) return -1;
    return vulfsjor_blake2s_init_salt_personal(S, outlen, key, keylen, salt, saltlen, personal,
                                               personallen);
}

/* Initializes a state as vulfsjor_blake2s_init_salt_personal does, under a key of 1 to 32 bytes and
 * for a tag of VULFSJOR_TAGBYTES_MIN to 32 bytes: use it for message authentication codes. Returns
 * -1 and sets the state to zero if a length is out of range. A key of 0 bytes is refused, also if it
 * is null. */
VULFSJOR_READS(3, 4) VULFSJOR_READS(5, 6) VULFSJOR_READS(7, 8)
static inline int vulfsjor_blake2s_init_mac(vulfsjor_blake2s_state *S, size_t outlen,
                                            const void *key, size_t keylen, const void *salt,
                                            size_t saltlen, const void *personal,
                                            size_t personallen) {
    if (outlen < VULFSJOR_TAGBYTES_MIN) keylen = 0; /* which is refused */
    return vulfsjor_blake2s_init_short_mac(S, outlen, key, keylen, salt, saltlen, personal,
                                           personallen);
}

/* Initializes a state for a node of a tree of hashes with these tree parameters (the BLAKE2
 * document, 2.10). The other arguments are those of vulfsjor_blake2s_init_salt_personal. The
 * last-node flag is off. Returns -1 and sets the state to zero if a length is out of range, if
 * tree->depth is 0, if tree->inner_length is more than 32, or if tree->node_offset is 2^48 or
 * more. */
VULFSJOR_READS(3, 4) VULFSJOR_READS(5, 6) VULFSJOR_READS(7, 8)
static inline int vulfsjor_blake2s_init_tree(
    vulfsjor_blake2s_state *S, size_t outlen, const void *key, size_t keylen, const void *salt,
    size_t saltlen, const void *personal, size_t personallen, const vulfsjor_tree *tree) {
    if (!S) return -1;
    memset(vulfsjor_bytes(S), 0, sizeof *S);
    if (!tree || vulfsjor_are_refused(key, keylen, salt, saltlen, personal, personallen))
        return -1;
    return vulfsjor_ffi_blake2s_init_tree(S, outlen, vulfsjor_text(key), keylen,
                                          vulfsjor_text(salt), saltlen, vulfsjor_text(personal),
                                          personallen, tree);
}

/* Initializes a state from a parameter block, whose bytes, with numbers in little-endian order, are
 * xored into the IV. If P->key_length is not 0, the first 64 bytes of input must be the key followed
 * by zeros. Returns -1 and sets the state to zero if P->digest_length is not 1 to 32, or if
 * P->key_length is more than 32. No other field is checked. */
static inline int vulfsjor_blake2s_init_param(vulfsjor_blake2s_state *S,
                                              const vulfsjor_blake2s_param *P) {
#ifndef VULFSJOR_LITTLE_ENDIAN
    uint8_t block[sizeof *P];
    int i;
#endif
    if (!S) return -1;
    memset(vulfsjor_bytes(S), 0, sizeof *S);
    if (!P) return -1;
#ifdef VULFSJOR_LITTLE_ENDIAN
    return vulfsjor_ffi_blake2s_init_param(S, vulfsjor_text(P), sizeof *P);
#else
    memcpy(block, P, sizeof block);
    for (i = 0; i < 4; i++) block[4 + i] = VULFSJOR_CAST(uint8_t, P->leaf_length >> (8 * i));
    return vulfsjor_ffi_blake2s_init_param(S, block, sizeof block);
#endif
}

/* Absorbs inlen bytes of input. The digest does not depend on how the input is split into calls.
 * Returns -1 if the state is not ready, or if the bytes absorbed since the init or the last reset,
 * with a key's block of 64 bytes, would be 2^64 or more. The state is then unchanged. */
VULFSJOR_READS(2, 3)
VULFSJOR_MUST_USE static inline int vulfsjor_blake2s_update(vulfsjor_blake2s_state *S,
                                                            const void *in, size_t inlen) {
    if (!S || (!in && inlen)) return -1;
    return vulfsjor_ffi_blake2s_update(S, vulfsjor_text(in), inlen);
}

/* Absorbs pieces[i] into states[i], for each i below count, as vulfsjor_blake2s_update does. The
 * pieces have any lengths, and the states are at any places of their inputs. As many states in a row
 * go on in parallel as messages of vulfsjor_blake2s_many, up to where the shortest of their pieces
 * ends, if each has more than a block to absorb. Returns -1 if states, pieces or the bytes of a piece
 * are null, a state is not ready, or the bytes absorbed of one, as for vulfsjor_blake2s_update, would
 * be 2^64 or more. All states are then unchanged. */
VULFSJOR_CHANGES(1, 3) VULFSJOR_READS(2, 3)
VULFSJOR_MUST_USE static inline int vulfsjor_blake2s_update_many(
    vulfsjor_blake2s_state *states, const vulfsjor_message *pieces, size_t count) {
    if (!states || !pieces || vulfsjor_null_message(pieces, count) < count) return -1;
    return vulfsjor_ffi_blake2s_update_many(states, count, pieces, count);
}

/* Writes the digest of all input to out, and wipes the state. outlen must be the length of the
 * digest, vulfsjor_blake2s_digest_size. Returns -1 if it is another or the state is not ready. Then
 * out and the state are unchanged. */
VULFSJOR_WRITES(2, 3)
VULFSJOR_MUST_USE static inline int vulfsjor_blake2s_final(vulfsjor_blake2s_state *S, void *out,
                                                           size_t outlen) {
    if (!S || !out) return -1;
    return vulfsjor_ffi_blake2s_final(S, vulfsjor_bytes(out), outlen);
}

/* Does what vulfsjor_blake2s_verify does, also for a digest of fewer than VULFSJOR_TAGBYTES_MIN
 * bytes. Use it only for tags of vulfsjor_blake2s_init_short_mac, whose length your program has
 * chosen: never pass the length of a tag that came to the init. */
VULFSJOR_READS(2, 3)
VULFSJOR_MUST_USE static inline int vulfsjor_blake2s_verify_short_mac(vulfsjor_blake2s_state *S,
                                                                      const void *tag,
                                                                      size_t taglen) {
    if (!S || (!tag && taglen)) return -1;
    return vulfsjor_ffi_blake2s_verify(S, vulfsjor_text(tag), taglen);
}

/* Returns 0 if tag is the whole digest of all input under the key, and -1 otherwise:
 *
 *     if (vulfsjor_blake2s_verify(&state, tag, sizeof tag) != 0) return REJECTED;
 *
 * It wipes the state in either case, so copy the state first to try another tag. All bytes of a tag
 * of the right length are compared. Returns -1 too, and leaves the state unchanged, if it has no
 * key, since anybody can make its digests: compare those by final and vulfsjor_memcmp. Likewise if
 * its digest has fewer than VULFSJOR_TAGBYTES_MIN bytes, if it was not ready, or if tag is null and
 * taglen is not 0. */
VULFSJOR_READS(2, 3)
VULFSJOR_MUST_USE static inline int vulfsjor_blake2s_verify(vulfsjor_blake2s_state *S,
                                                            const void *tag, size_t taglen) {
    /* The numbers of a state are little-endian on every platform. */
    if (!S || vulfsjor_text(&S->output_size)[0] < VULFSJOR_TAGBYTES_MIN) return -1;
    return vulfsjor_blake2s_verify_short_mac(S, tag, taglen);
}

/* Sets the last-node flag, or clears it if on is 0. The flag marks the last node on its level of a
 * tree of hashes (the BLAKE2 document, 2.10). You may call it at any time before final or verify.
 * Returns -1 if the state is not ready. */
static inline int vulfsjor_blake2s_set_last_node(vulfsjor_blake2s_state *S, int on) {
    if (!S) return -1;
    return vulfsjor_ffi_blake2s_set_last_node(S, on != 0);
}

/* Discards all input. Digest length, key, salt, personalization, tree parameters and last-node flag
 * are kept. After init_param the key's block is input, so pass it again. Returns -1 if the state is
 * not ready. */
static inline int vulfsjor_blake2s_reset(vulfsjor_blake2s_state *S) {
    if (!S) return -1;
    return vulfsjor_ffi_blake2s_reset(S);
}

/* Writes a state that has no key to out, as bytes that vulfsjor_blake2s_load reads on every
 * processor, in every language of this library and in every later version (docs/SPECIFICATION.md,
 * section 14). They contain the input that is pending, up to 64 bytes. Returns -1 and leaves out
 * unchanged if the state is not ready, or if it has a key, which the bytes would be as good as. */
VULFSJOR_MUST_USE static inline int vulfsjor_blake2s_save(
    const vulfsjor_blake2s_state *S, unsigned char out[VULFSJOR_BLAKE2S_SAVEDBYTES]) {
    if (!S || !out) return -1;
    return vulfsjor_ffi_blake2s_save(S, vulfsjor_bytes(out), VULFSJOR_BLAKE2S_SAVEDBYTES);
}

/* Initializes a state from the bytes that vulfsjor_blake2s_save wrote: every call then does what it
 * would do with the state that was saved. Whoever can change the bytes chooses the digest, so keep
 * them as safe as the input. Returns -1 and sets the state to zero if savedlen is not
 * VULFSJOR_BLAKE2S_SAVEDBYTES, or if the bytes are not a saved state of this hash. */
VULFSJOR_READS(2, 3)
static inline int vulfsjor_blake2s_load(vulfsjor_blake2s_state *S, const void *saved,
                                        size_t savedlen) {
    if (!S) return -1;
    memset(vulfsjor_bytes(S), 0, sizeof *S);
    if (!saved) return -1;
    return vulfsjor_ffi_blake2s_load(S, vulfsjor_text(saved), savedlen);
}

/* Sets every byte of the state to zero, whether it is ready or not. Does nothing if S is null. */
static inline void vulfsjor_blake2s_wipe(vulfsjor_blake2s_state *S) {
    if (S) vulfsjor_ffi_blake2s_wipe(S);
}

/* Returns the length of the state's digest, 1 to 32; 0 if the state is null or not ready. */
static inline size_t vulfsjor_blake2s_digest_size(const vulfsjor_blake2s_state *S) {
    return S ? vulfsjor_ffi_blake2s_digest_size(S) : 0;
}

/* Returns the number of bytes of input absorbed since the init or the last reset; 0 if the state is
 * null or not ready. A key's block is counted only if it was passed as input after init_param. */
static inline uint64_t vulfsjor_blake2s_count(const vulfsjor_blake2s_state *S) {
    return S ? vulfsjor_ffi_blake2s_count(S) : 0;
}

/* Writes the BLAKE2s digest of the input to out: outlen bytes, 1 to 32, under a key of 1 to 32
 * bytes; without a key, key is null and keylen is 0. Returns -1 and writes nothing if a length is
 * out of range, or if the input and a key's block of 64 bytes have 2^64 bytes or more. */
VULFSJOR_WRITES(1, 2) VULFSJOR_READS(3, 4) VULFSJOR_READS(5, 6)
VULFSJOR_MUST_USE static inline int vulfsjor_blake2s(void *out, size_t outlen, const void *in,
                                                     size_t inlen, const void *key, size_t keylen) {
    if (!out || (!in && inlen) || vulfsjor_is_half_key(key, keylen)) return -1;
    return vulfsjor_ffi_blake2s(vulfsjor_bytes(out), outlen, vulfsjor_text(in), inlen,
                                vulfsjor_text(key), keylen);
}

/* Writes the tag of the input to out: outlen bytes, VULFSJOR_TAGBYTES_MIN to 32, under a key of 1 to
 * 32 bytes. Returns -1 and writes nothing if a length is out of range, or for an input that
 * vulfsjor_blake2s refuses. A key of 0 bytes is refused, also if it is null. To check a tag, use
 * vulfsjor_blake2s_verify. */
VULFSJOR_WRITES(1, 2) VULFSJOR_READS(3, 4) VULFSJOR_READS(5, 6)
VULFSJOR_MUST_USE static inline int vulfsjor_blake2s_mac(void *out, size_t outlen, const void *in,
                                                         size_t inlen, const void *key,
                                                         size_t keylen) {
    if (outlen < VULFSJOR_TAGBYTES_MIN || !keylen) return -1;
    return vulfsjor_blake2s(out, outlen, in, inlen, key, keylen);
}

/* Writes the digests of count messages to out, which has room for count * outlen bytes. Digest i is
 * at out + i * outlen. All have the same digest length, key, salt and personalization, with the
 * lengths of vulfsjor_blake2s_init_salt_personal. Eight messages in a row that have the same length
 * are hashed in parallel. Built for x86-64-v3, that needs fewer instructions than one after another
 * (docs/SPEED.md has times). Returns -1 and writes nothing if a length is out of range, if a
 * message and a key's block have 2^64 bytes or more, or if out, messages or the bytes of a message
 * are null, even if count or the length is 0. */
VULFSJOR_READS(3, 4) VULFSJOR_READS(5, 6) VULFSJOR_READS(7, 8) VULFSJOR_READS(9, 10)
VULFSJOR_MUST_USE static inline int vulfsjor_blake2s_many(
    void *out, size_t outlen, const vulfsjor_message *messages, size_t count, const void *key,
    size_t keylen, const void *salt, size_t saltlen, const void *personal, size_t personallen) {
    if (!out || !messages || vulfsjor_null_message(messages, count) < count) return -1;
    if (vulfsjor_are_refused(key, keylen, salt, saltlen, personal, personallen))
        return -1;
    return vulfsjor_ffi_blake2s_many(vulfsjor_bytes(out), count * outlen, outlen, messages, count,
                                     vulfsjor_text(key), keylen, vulfsjor_text(salt), saltlen,
                                     vulfsjor_text(personal), personallen);
}

/* -- BLAKE2bp (the BLAKE2 document, "Parallel hashing"). The blocks of the message are dealt out to
 * four leaves of BLAKE2b, and a root hashes the digests of the leaves. One thread hashes all leaves
 * in parallel: long messages are hashed faster than by BLAKE2b, and short ones slower
 * (docs/SPEED.md has times). The digest is not the BLAKE2b digest of the message. */

/* Initializes a state for BLAKE2bp digests of outlen bytes, 1 to 64. The key has 1 to 64 bytes;
 * without a key, key is null and keylen is 0. With a key the digest is a message authentication
 * code. The salt and the personalization have 0 to 16 bytes each, and trailing zeros in them change
 * nothing. They are an extension: the BLAKE2 document gives BLAKE2bp neither. Here they are in the
 * parameter block of each node. Returns -1 and sets the state to zero if a length is out of
 * range. */
VULFSJOR_READS(3, 4) VULFSJOR_READS(5, 6) VULFSJOR_READS(7, 8)
static inline int vulfsjor_blake2bp_init_salt_personal(
    vulfsjor_blake2bp_state *S, size_t outlen, const void *key, size_t keylen, const void *salt,
    size_t saltlen, const void *personal, size_t personallen) {
    if (!S) return -1;
    memset(vulfsjor_bytes(S), 0, sizeof *S);
    if (vulfsjor_are_refused(key, keylen, salt, saltlen, personal, personallen))
        return -1;
    return vulfsjor_ffi_blake2bp_init_salt_personal(S, outlen, vulfsjor_text(key), keylen,
                                                    vulfsjor_text(salt), saltlen,
                                                    vulfsjor_text(personal), personallen);
}

/* Initializes a state for BLAKE2bp digests of outlen bytes, 1 to 64, without key, salt and
 * personalization. Returns -1 and sets the state to zero if outlen is out of range. */
static inline int vulfsjor_blake2bp_init(vulfsjor_blake2bp_state *S, size_t outlen) {
    return vulfsjor_blake2bp_init_salt_personal(S, outlen, VULFSJOR_NULL, 0, "", 0, "", 0);
}

/* Initializes a state for BLAKE2bp digests of outlen bytes, 1 to 64, under a key of 1 to 64 bytes,
 * without salt and personalization. Returns -1 and sets the state to zero if a length is out of
 * range. A key of 0 bytes is refused, also if it is null. */
VULFSJOR_READS(3, 4)
static inline int vulfsjor_blake2bp_init_key(vulfsjor_blake2bp_state *S, size_t outlen,
                                             const void *key, size_t keylen) {
    if (!S) return -1;
    memset(vulfsjor_bytes(S), 0, sizeof *S);
    if (!key) return -1;
    return vulfsjor_ffi_blake2bp_init_key(S, outlen, vulfsjor_text(key), keylen);
}

/* Initializes a state as vulfsjor_blake2bp_init_salt_personal does, under a key of 1 to 64 bytes and
 * for a tag of 1 to 64 bytes. Use it only for tags that are shorter than vulfsjor_blake2bp_init_mac
 * accepts: anybody makes one of n bytes in at most 256^n tries. So never pass the length of a tag
 * that came. Returns -1 and sets the state to zero if a length is out of range. A key of 0 bytes is
 * refused, also if it is null. */
VULFSJOR_READS(3, 4) VULFSJOR_READS(5, 6) VULFSJOR_READS(7, 8)
static inline int vulfsjor_blake2bp_init_short_mac(vulfsjor_blake2bp_state *S, size_t outlen,
                                                   const void *key, size_t keylen, const void *salt,
                                                   size_t saltlen, const void *personal,
                                                   size_t personallen) {
    if (!S) return -1;
    memset(vulfsjor_bytes(S), 0, sizeof *S);
    if (!keylen) return -1;
    return vulfsjor_blake2bp_init_salt_personal(S, outlen, key, keylen, salt, saltlen, personal,
                                                personallen);
}

/* Initializes a state as vulfsjor_blake2bp_init_salt_personal does, under a key of 1 to 64 bytes and
 * for a tag of VULFSJOR_TAGBYTES_MIN to 64 bytes: use it for message authentication codes. Returns
 * -1 and sets the state to zero if a length is out of range. A key of 0 bytes is refused, also if it
 * is null. */
VULFSJOR_READS(3, 4) VULFSJOR_READS(5, 6) VULFSJOR_READS(7, 8)
static inline int vulfsjor_blake2bp_init_mac(vulfsjor_blake2bp_state *S, size_t outlen,
                                             const void *key, size_t keylen, const void *salt,
                                             size_t saltlen, const void *personal,
                                             size_t personallen) {
    if (outlen < VULFSJOR_TAGBYTES_MIN) keylen = 0; /* which is refused */
    return vulfsjor_blake2bp_init_short_mac(S, outlen, key, keylen, salt, saltlen, personal,
                                            personallen);
}

/* Absorbs inlen bytes of input. The digest does not depend on how the input is split into calls.
 * Pieces of at least 4096 bytes are fastest. Returns -1 if the state is not ready, or if the bytes
 * absorbed since the init or the last reset, with 512 bytes for a key, would be 2^64 or more. The
 * state is then unchanged. */
VULFSJOR_READS(2, 3)
VULFSJOR_MUST_USE static inline int vulfsjor_blake2bp_update(vulfsjor_blake2bp_state *S,
                                                             const void *in, size_t inlen) {
    if (!S || (!in && inlen)) return -1;
    return vulfsjor_ffi_blake2bp_update(S, vulfsjor_text(in), inlen);
}

/* Writes the digest of all input to out, and wipes the state. outlen must be the length of the
 * digest, vulfsjor_blake2bp_digest_size. Returns -1 if it is another or the state is not ready. Then
 * out and the state are unchanged. */
VULFSJOR_WRITES(2, 3)
VULFSJOR_MUST_USE static inline int vulfsjor_blake2bp_final(vulfsjor_blake2bp_state *S, void *out,
                                                            size_t outlen) {
    if (!S || !out) return -1;
    return vulfsjor_ffi_blake2bp_final(S, vulfsjor_bytes(out), outlen);
}

/* Does what vulfsjor_blake2bp_verify does, also for a digest of fewer than VULFSJOR_TAGBYTES_MIN
 * bytes. Use it only for tags of vulfsjor_blake2bp_init_short_mac, whose length your program has
 * chosen: never pass the length of a tag that came to the init. */
VULFSJOR_READS(2, 3)
VULFSJOR_MUST_USE static inline int vulfsjor_blake2bp_verify_short_mac(vulfsjor_blake2bp_state *S,
                                                                       const void *tag,
                                                                       size_t taglen) {
    if (!S || (!tag && taglen)) return -1;
    return vulfsjor_ffi_blake2bp_verify(S, vulfsjor_text(tag), taglen);
}

/* Returns 0 if tag is the whole digest of all input under the key, and -1 otherwise, as
 * vulfsjor_blake2b_verify does. It wipes the state in either case, so copy the state first to try
 * another tag. All bytes of a tag of the right length are compared. Returns -1 too, and leaves the
 * state unchanged, if it has no key, if its digest has fewer than VULFSJOR_TAGBYTES_MIN bytes, if it
 * was not ready, or if tag is null and taglen is not 0. */
VULFSJOR_READS(2, 3)
VULFSJOR_MUST_USE static inline int vulfsjor_blake2bp_verify(vulfsjor_blake2bp_state *S,
                                                             const void *tag, size_t taglen) {
    /* The numbers of a state are little-endian on every platform. */
    if (!S || vulfsjor_text(&S->output_size)[0] < VULFSJOR_TAGBYTES_MIN) return -1;
    return vulfsjor_blake2bp_verify_short_mac(S, tag, taglen);
}

/* Discards all input. Digest length, key, salt and personalization are kept. Returns -1 if the
 * state is not ready. */
static inline int vulfsjor_blake2bp_reset(vulfsjor_blake2bp_state *S) {
    if (!S) return -1;
    return vulfsjor_ffi_blake2bp_reset(S);
}

/* Sets every byte of the state to zero, whether it is ready or not. Does nothing if S is null. */
static inline void vulfsjor_blake2bp_wipe(vulfsjor_blake2bp_state *S) {
    if (S) vulfsjor_ffi_blake2bp_wipe(S);
}

/* Returns the length of the state's digest, 1 to 64; 0 if the state is null or not ready. */
static inline size_t vulfsjor_blake2bp_digest_size(const vulfsjor_blake2bp_state *S) {
    return S ? vulfsjor_ffi_blake2bp_digest_size(S) : 0;
}

/* Returns the number of bytes of input absorbed since the init or the last reset; 0 if the state is
 * null or not ready. */
static inline uint64_t vulfsjor_blake2bp_count(const vulfsjor_blake2bp_state *S) {
    return S ? vulfsjor_ffi_blake2bp_count(S) : 0;
}

/* Writes the BLAKE2bp digest of the input to out: outlen bytes, 1 to 64, under a key of 1 to 64
 * bytes; without a key, key is null and keylen is 0. Returns -1 and writes nothing if a length is
 * out of range, or if the input and 512 bytes for a key have 2^64 bytes or more. */
VULFSJOR_WRITES(1, 2) VULFSJOR_READS(3, 4) VULFSJOR_READS(5, 6)
VULFSJOR_MUST_USE static inline int vulfsjor_blake2bp(void *out, size_t outlen, const void *in,
                                                      size_t inlen, const void *key,
                                                      size_t keylen) {
    if (!out || (!in && inlen) || vulfsjor_is_half_key(key, keylen)) return -1;
    return vulfsjor_ffi_blake2bp(vulfsjor_bytes(out), outlen, vulfsjor_text(in), inlen,
                                 vulfsjor_text(key), keylen);
}

/* Writes the tag of the input to out: outlen bytes, VULFSJOR_TAGBYTES_MIN to 64, under a key of 1 to
 * 64 bytes. Returns -1 and writes nothing if a length is out of range, or for an input that
 * vulfsjor_blake2bp refuses. A key of 0 bytes is refused, also if it is null. To check a tag, use
 * vulfsjor_blake2bp_verify. */
VULFSJOR_WRITES(1, 2) VULFSJOR_READS(3, 4) VULFSJOR_READS(5, 6)
VULFSJOR_MUST_USE static inline int vulfsjor_blake2bp_mac(void *out, size_t outlen, const void *in,
                                                          size_t inlen, const void *key,
                                                          size_t keylen) {
    if (outlen < VULFSJOR_TAGBYTES_MIN || !keylen) return -1;
    return vulfsjor_blake2bp(out, outlen, in, inlen, key, keylen);
}

/* -- BLAKE2sp (the BLAKE2 document, "Parallel hashing"). The blocks of the message are dealt out to
 * eight leaves of BLAKE2s, and a root hashes the digests of the leaves. One thread hashes all leaves
 * in parallel: long messages are hashed faster than by BLAKE2s, and short ones slower
 * (docs/SPEED.md has times). The digest is not the BLAKE2s digest of the message. */

/* Initializes a state for BLAKE2sp digests of outlen bytes, 1 to 32. The key has 1 to 32 bytes;
 * without a key, key is null and keylen is 0. With a key the digest is a message authentication
 * code. The salt and the personalization have 0 to 8 bytes each, and trailing zeros in them change
 * nothing. They are an extension: the BLAKE2 document gives BLAKE2sp neither. Here they are in the
 * parameter block of each node. Returns -1 and sets the state to zero if a length is out of
 * range. */
VULFSJOR_READS(3, 4) VULFSJOR_READS(5, 6) VULFSJOR_READS(7, 8)
static inline int vulfsjor_blake2sp_init_salt_personal(
    vulfsjor_blake2sp_state *S, size_t outlen, const void *key, size_t keylen, const void *salt,
    size_t saltlen, const void *personal, size_t personallen) {
    if (!S) return -1;
    memset(vulfsjor_bytes(S), 0, sizeof *S);
    if (vulfsjor_are_refused(key, keylen, salt, saltlen, personal, personallen))
        return -1;
    return vulfsjor_ffi_blake2sp_init_salt_personal(S, outlen, vulfsjor_text(key), keylen,
                                                    vulfsjor_text(salt), saltlen,
                                                    vulfsjor_text(personal), personallen);
}

/* Initializes a state for BLAKE2sp digests of outlen bytes, 1 to 32, without key, salt and
 * personalization. Returns -1 and sets the state to zero if outlen is out of range. */
static inline int vulfsjor_blake2sp_init(vulfsjor_blake2sp_state *S, size_t outlen) {
    return vulfsjor_blake2sp_init_salt_personal(S, outlen, VULFSJOR_NULL, 0, "", 0, "", 0);
}

/* Initializes a state for BLAKE2sp digests of outlen bytes, 1 to 32, under a key of 1 to 32 bytes,
 * without salt and personalization. Returns -1 and sets the state to zero if a length is out of
 * range. A key of 0 bytes is refused, also if it is null. */
VULFSJOR_READS(3, 4)
static inline int vulfsjor_blake2sp_init_key(vulfsjor_blake2sp_state *S, size_t outlen,
                                             const void *key, size_t keylen) {
    if (!S) return -1;
    memset(vulfsjor_bytes(S), 0, sizeof *S);
    if (!key) return -1;
    return vulfsjor_ffi_blake2sp_init_key(S, outlen, vulfsjor_text(key), keylen);
}

/* Initializes a state as vulfsjor_blake2sp_init_salt_personal does, under a key of 1 to 32 bytes and
 * for a tag of 1 to 32 bytes. Use it only for tags that are shorter than vulfsjor_blake2sp_init_mac
 * accepts: anybody makes one of n bytes in at most 256^n tries. So never pass the length of a tag
 * that came. Returns -1 and sets the state to zero if a length is out of range. A key of 0 bytes is
 * refused, also if it is null. */
VULFSJOR_READS(3, 4) VULFSJOR_READS(5, 6) VULFSJOR_READS(7, 8)
static inline int vulfsjor_blake2sp_init_short_mac(vulfsjor_blake2sp_state *S, size_t outlen,
                                                   const void *key, size_t keylen, const void *salt,
                                                   size_t saltlen, const void *personal,
                                                   size_t personallen) {
    if (!S) return -1;
    memset(vulfsjor_bytes(S), 0, sizeof *S);
    if (!keylen) return -1;
    return vulfsjor_blake2sp_init_salt_personal(S, outlen, key, keylen, salt, saltlen, personal,
                                                personallen);
}

/* Initializes a state as vulfsjor_blake2sp_init_salt_personal does, under a key of 1 to 32 bytes and
 * for a tag of VULFSJOR_TAGBYTES_MIN to 32 bytes: use it for message authentication codes. Returns
 * -1 and sets the state to zero if a length is out of range. A key of 0 bytes is refused, also if it
 * is null. */
VULFSJOR_READS(3, 4) VULFSJOR_READS(5, 6) VULFSJOR_READS(7, 8)
static inline int vulfsjor_blake2sp_init_mac(vulfsjor_blake2sp_state *S, size_t outlen,
                                             const void *key, size_t keylen, const void *salt,
                                             size_t saltlen, const void *personal,
                                             size_t personallen) {
    if (outlen < VULFSJOR_TAGBYTES_MIN) keylen = 0; /* which is refused */
    return vulfsjor_blake2sp_init_short_mac(S, outlen, key, keylen, salt, saltlen, personal,
                                            personallen);
}

/* Absorbs inlen bytes of input. The digest does not depend on how the input is split into calls.
 * Pieces of at least 4096 bytes are fastest. Returns -1 if the state is not ready, or if the bytes
 * absorbed since the init or the last reset, with 512 bytes for a key, would be 2^64 or more. The
 * state is then unchanged. */
VULFSJOR_READS(2, 3)
VULFSJOR_MUST_USE static inline int vulfsjor_blake2sp_update(vulfsjor_blake2sp_state *S,
                                                             const void *in, size_t inlen) {
    if (!S || (!in && inlen)) return -1;
    return vulfsjor_ffi_blake2sp_update(S, vulfsjor_text(in), inlen);
}

/* Writes the digest of all input to out, and wipes the state. outlen must be the length of the
 * digest, vulfsjor_blake2sp_digest_size. Returns -1 if it is another or the state is not ready. Then
 * out and the state are unchanged. */
VULFSJOR_WRITES(2, 3)
VULFSJOR_MUST_USE static inline int vulfsjor_blake2sp_final(vulfsjor_blake2sp_state *S, void *out,
                                                            size_t outlen) {
    if (!S || !out) return -1;
    return vulfsjor_ffi_blake2sp_final(S, vulfsjor_bytes(out), outlen);
}

/* Does what vulfsjor_blake2sp_verify does, also for a digest of fewer than VULFSJOR_TAGBYTES_MIN
 * bytes. Use it only for tags of vulfsjor_blake2sp_init_short_mac, whose length your program has
 * chosen: never pass the length of a tag that came to the init. */
VULFSJOR_READS(2, 3)
VULFSJOR_MUST_USE static inline int vulfsjor_blake2sp_verify_short_mac(vulfsjor_blake2sp_state *S,
                                                                       const void *tag,
                                                                       size_t taglen) {
    if (!S || (!tag && taglen)) return -1;
    return vulfsjor_ffi_blake2sp_verify(S, vulfsjor_text(tag), taglen);
}

/* Returns 0 if tag is the whole digest of all input under the key, and -1 otherwise, as
 * vulfsjor_blake2s_verify does. It wipes the state in either case, so copy the state first to try
 * another tag. All bytes of a tag of the right length are compared. Returns -1 too, and leaves the
 * state unchanged, if it has no key, if its digest has fewer than VULFSJOR_TAGBYTES_MIN bytes, if it
 * was not ready, or if tag is null and taglen is not 0. */
VULFSJOR_READS(2, 3)
VULFSJOR_MUST_USE static inline int vulfsjor_blake2sp_verify(vulfsjor_blake2sp_state *S,
                                                             const void *tag, size_t taglen) {
    /* The numbers of a state are little-endian on every platform. */
    if (!S || vulfsjor_text(&S->output_size)[0] < VULFSJOR_TAGBYTES_MIN) return -1;
    return vulfsjor_blake2sp_verify_short_mac(S, tag, taglen);
}

/* Discards all input. Digest length, key, salt and personalization are kept. Returns -1 if the
 * state is not ready. */
static inline int vulfsjor_blake2sp_reset(vulfsjor_blake2sp_state *S) {
    if (!S) return -1;
    return vulfsjor_ffi_blake2sp_reset(S);
}

/* Sets every byte of the state to zero, whether it is ready or not. Does nothing if S is null. */
static inline void vulfsjor_blake2sp_wipe(vulfsjor_blake2sp_state *S) {
    if (S) vulfsjor_ffi_blake2sp_wipe(S);
}

/* Returns the length of the state's digest, 1 to 32; 0 if the state is null or not ready. */
static inline size_t vulfsjor_blake2sp_digest_size(const vulfsjor_blake2sp_state *S) {
    return S ? vulfsjor_ffi_blake2sp_digest_size(S) : 0;
}

/* Returns the number of bytes of input absorbed since the init or the last reset; 0 if the state is
 * null or not ready. */
static inline uint64_t vulfsjor_blake2sp_count(const vulfsjor_blake2sp_state *S) {
    return S ? vulfsjor_ffi_blake2sp_count(S) : 0;
}

/* Writes the BLAKE2sp digest of the input to out: outlen bytes, 1 to 32, under a key of 1 to 32
 * bytes; without a key, key is null and keylen is 0. Returns -1 and writes nothing if a length is
 * out of range, or if the input and 512 bytes for a key have 2^64 bytes or more. */
VULFSJOR_WRITES(1, 2) VULFSJOR_READS(3, 4) VULFSJOR_READS(5, 6)
VULFSJOR_MUST_USE static inline int vulfsjor_blake2sp(void *out, size_t outlen, const void *in,
                                                      size_t inlen, const void *key,
                                                      size_t keylen) {
    if (!out || (!in && inlen) || vulfsjor_is_half_key(key, keylen)) return -1;
    return vulfsjor_ffi_blake2sp(vulfsjor_bytes(out), outlen, vulfsjor_text(in), inlen,
                                 vulfsjor_text(key), keylen);
}

/* Writes the tag of the input to out: outlen bytes, VULFSJOR_TAGBYTES_MIN to 32, under a key of 1 to
 * 32 bytes. Returns -1 and writes nothing if a length is out of range, or for an input that
 * vulfsjor_blake2sp refuses. A key of 0 bytes is refused, also if it is null. To check a tag, use
 * vulfsjor_blake2sp_verify. */
VULFSJOR_WRITES(1, 2) VULFSJOR_READS(3, 4) VULFSJOR_READS(5, 6)
VULFSJOR_MUST_USE static inline int vulfsjor_blake2sp_mac(void *out, size_t outlen, const void *in,
                                                          size_t inlen, const void *key,
                                                          size_t keylen) {
    if (outlen < VULFSJOR_TAGBYTES_MIN || !keylen) return -1;
    return vulfsjor_blake2sp(out, outlen, in, inlen, key, keylen);
}

/* -- BLAKE2Xb (the BLAKE2X document): an output of any length, which is read in pieces. A root hash
 * of BLAKE2b absorbs the message, and each 64 bytes of the output are a hash of its digest. The
 * output depends on its length: a shorter output is no beginning of a longer one. */

/* Initializes a state for an output of xoflen bytes, 1 to 2^32 - 2, or of
 * VULFSJOR_BLAKE2XB_UNKNOWN_LENGTH if the length is not known in advance: then 256 GiB can be read.
 * The key has 1 to 64 bytes; without a key, key is null and keylen is 0. The salt and the
 * personalization have 0 to 16 bytes each, and trailing zeros in them change nothing. Returns -1
 * and sets the state to zero if a length is out of range. */
VULFSJOR_READS(3, 4) VULFSJOR_READS(5, 6) VULFSJOR_READS(7, 8)
static inline int vulfsjor_blake2xb_init_salt_personal(
    vulfsjor_blake2xb_state *S, size_t xoflen, const void *key, size_t keylen, const void *salt,
    size_t saltlen, const void *personal, size_t personallen) {
    if (!S) return -1;
    memset(vulfsjor_bytes(S), 0, sizeof *S);
    if (vulfsjor_are_refused(key, keylen, salt, saltlen, personal, personallen))
        return -1;
    return vulfsjor_ffi_blake2xb_init_salt_personal(S, xoflen, vulfsjor_text(key), keylen,
                                                    vulfsjor_text(salt), saltlen,
                                                    vulfsjor_text(personal), personallen);
}

/* Initializes a state for an output of xoflen bytes, as vulfsjor_blake2xb_init_salt_personal does,
 * without key, salt and personalization. Returns -1 and sets the state to zero if xoflen is out of
 * range. */
static inline int vulfsjor_blake2xb_init(vulfsjor_blake2xb_state *S, size_t xoflen) {
    return vulfsjor_blake2xb_init_salt_personal(S, xoflen, VULFSJOR_NULL, 0, "", 0, "", 0);
}

/* Initializes a state for an output of xoflen bytes, as vulfsjor_blake2xb_init_salt_personal does,
 * under a key of 1 to 64 bytes, without salt and personalization. Returns -1 and sets the state to
 * zero if a length is out of range. A key of 0 bytes is refused, also if it is null. */
VULFSJOR_READS(3, 4)
static inline int vulfsjor_blake2xb_init_key(vulfsjor_blake2xb_state *S, size_t xoflen,
                                             const void *key, size_t keylen) {
    if (!S) return -1;
    memset(vulfsjor_bytes(S), 0, sizeof *S);
    if (!key || !keylen) return -1;
    return vulfsjor_blake2xb_init_salt_personal(S, xoflen, key, keylen, "", 0, "", 0);
}

/* Initializes a state as vulfsjor_blake2xb_init_salt_personal does, under a key of 1 to 64 bytes:
 * use it where a key is a must. Returns -1 and sets the state to zero if a length is out of range.
 * A key of 0 bytes is refused, also if it is null. */
VULFSJOR_READS(3, 4) VULFSJOR_READS(5, 6) VULFSJOR_READS(7, 8)
static inline int vulfsjor_blake2xb_init_mac(vulfsjor_blake2xb_state *S, size_t xoflen,
                                             const void *key, size_t keylen, const void *salt,
                                             size_t saltlen, const void *personal,
                                             size_t personallen) {
    if (!S) return -1;
    memset(vulfsjor_bytes(S), 0, sizeof *S);
    if (!keylen) return -1;
    return vulfsjor_blake2xb_init_salt_personal(S, xoflen, key, keylen, salt, saltlen, personal,
                                                personallen);
}

/* Absorbs inlen bytes of input. The output does not depend on how the input is split into calls.
 * Returns -1 if the state is not ready, if its output is already being read, or if the bytes
 * absorbed since the init or the last reset, with 128 bytes for a key, would be 2^64 or more. The
 * state is then unchanged. */
VULFSJOR_READS(2, 3)
VULFSJOR_MUST_USE static inline int vulfsjor_blake2xb_update(vulfsjor_blake2xb_state *S,
                                                             const void *in, size_t inlen) {
    if (!S || (!in && inlen)) return -1;
    return vulfsjor_ffi_blake2xb_update(S, vulfsjor_text(in), inlen);
}

/* Writes the next outlen bytes of the output to out. The output does not depend on how it is split
 * into calls. The first call ends the input. Returns -1 and writes nothing if the state is not
 * ready, or if fewer than outlen bytes of the output are left. The state is then unchanged. */
VULFSJOR_WRITES(2, 3)
VULFSJOR_MUST_USE static inline int vulfsjor_blake2xb_squeeze(vulfsjor_blake2xb_state *S, void *out,
                                                              size_t outlen) {
    uint8_t none;
    if (!S || (!out && outlen)) return -1;
    return vulfsjor_ffi_blake2xb_squeeze(S, out ? vulfsjor_bytes(out) : &none, outlen);
}

/* Discards all input, and what was read. Output length, key, salt and personalization are kept.
 * Returns -1 if the state is not ready. */
static inline int vulfsjor_blake2xb_reset(vulfsjor_blake2xb_state *S) {
    if (!S) return -1;
    return vulfsjor_ffi_blake2xb_reset(S);
}

/* Sets every byte of the state to zero, whether it is ready or not. Does nothing if S is null. */
static inline void vulfsjor_blake2xb_wipe(vulfsjor_blake2xb_state *S) {
    if (S) vulfsjor_ffi_blake2xb_wipe(S);
}

/* Returns how many bytes of the output are left to read; 0 if the state is null or not ready. */
static inline uint64_t vulfsjor_blake2xb_left(const vulfsjor_blake2xb_state *S) {
    return S ? vulfsjor_ffi_blake2xb_left(S) : 0;
}

/* Returns the number of bytes of input absorbed since the init or the last reset; 0 if the state is
 * null or not ready. */
static inline uint64_t vulfsjor_blake2xb_count(const vulfsjor_blake2xb_state *S) {
    return S ? vulfsjor_ffi_blake2xb_count(S) : 0;
}

/* Writes the BLAKE2Xb output of the input to out: outlen bytes, 1 to 2^32 - 2, under a key of 1 to
 * 64 bytes; without a key, key is null and keylen is 0. Returns -1 and writes nothing if a length
 * is out of range, or if the input and 128 bytes for a key have 2^64 bytes or more. */
VULFSJOR_WRITES(1, 2) VULFSJOR_READS(3, 4) VULFSJOR_READS(5, 6)
VULFSJOR_MUST_USE static inline int vulfsjor_blake2xb(void *out, size_t outlen, const void *in,
                                                      size_t inlen, const void *key,
                                                      size_t keylen) {
    if (!out || (!in && inlen) || vulfsjor_is_half_key(key, keylen)) return -1;
    return vulfsjor_ffi_blake2xb(vulfsjor_bytes(out), outlen, vulfsjor_text(in), inlen,
                                 vulfsjor_text(key), keylen);
}

/* Derives a key of outlen bytes, 1 to 2^32 - 2, from a key of 1 to 64 bytes, for a context: the
 * BLAKE2Xb output of the context under the key. Each purpose has a context of its own. Keys for
 * different contexts, and keys of different lengths, are outputs of different inputs. Returns -1 and
 * writes nothing if a length is out of range, or if the context and 128 bytes have 2^64 bytes or
 * more. */
VULFSJOR_WRITES(1, 2) VULFSJOR_READS(3, 4) VULFSJOR_READS(5, 6)
VULFSJOR_MUST_USE static inline int vulfsjor_blake2xb_derive_key(void *out, size_t outlen,
                                                                 const void *key, size_t keylen,
                                                                 const void *context,
                                                                 size_t contextlen) {
    if (!out || !key || (!context && contextlen)) return -1;
    return vulfsjor_ffi_blake2xb_derive_key(vulfsjor_bytes(out), outlen, vulfsjor_text(key), keylen,
                                            vulfsjor_text(context), contextlen);
}

/* -- BLAKE2Xs (the BLAKE2X document): an output of any length, which is read in pieces. A root hash
 * of BLAKE2s absorbs the message, and each 32 bytes of the output are a hash of its digest. The
 * output depends on its length: a shorter output is no beginning of a longer one. */

/* Initializes a state for an output of xoflen bytes, 1 to 2^16 - 2, or of
 * VULFSJOR_BLAKE2XS_UNKNOWN_LENGTH if the length is not known in advance: then 128 GiB can be read.
 * The key has 1 to 32 bytes; without a key, key is null and keylen is 0. The salt and the
 * personalization have 0 to 8 bytes each, and trailing zeros in them change nothing. Returns -1
 * and sets the state to zero if a length is out of range. */
VULFSJOR_READS(3, 4) VULFSJOR_READS(5, 6) VULFSJOR_READS(7, 8)
static inline int vulfsjor_blake2xs_init_salt_personal(
    vulfsjor_blake2xs_state *S, size_t xoflen, const void *key, size_t keylen, const void *salt,
    size_t saltlen, const void *personal, size_t personallen) {
    if (!S) return -1;
    memset(vulfsjor_bytes(S), 0, sizeof *S);
    if (vulfsjor_are_refused(key, keylen, salt, saltlen, personal, personallen))
        return -1;
    return vulfsjor_ffi_blake2xs_init_salt_personal(S, xoflen, vulfsjor_text(key), keylen,
                                                    vulfsjor_text(salt), saltlen,
                                                    vulfsjor_text(personal), personallen);
}

/* Initializes a state for an output of xoflen bytes, as vulfsjor_blake2xs_init_salt_personal does,
 * without key, salt and personalization. Returns -1 and sets the state to zero if xoflen is out of
 * range. */
static inline int vulfsjor_blake2xs_init(vulfsjor_blake2xs_state *S, size_t xoflen) {
    return vulfsjor_blake2xs_init_salt_personal(S, xoflen, VULFSJOR_NULL, 0, "", 0, "", 0);
}

/* Initializes a state for an output of xoflen bytes, as vulfsjor_blake2xs_init_salt_personal does,
 * under a key of 1 to 32 bytes, without salt and personalization. Returns -1 and sets the state to
 * zero if a length is out of range. A key of 0 bytes is refused, also if it is null. */
VULFSJOR_READS(3, 4)
static inline int vulfsjor_blake2xs_init_key(vulfsjor_blake2xs_state *S, size_t xoflen,
                                             const void *key, size_t keylen) {
    if (!S) return -1;
    memset(vulfsjor_bytes(S), 0, sizeof *S);
    if (!key || !keylen) return -1;
    return vulfsjor_blake2xs_init_salt_personal(S, xoflen, key, keylen, "", 0, "", 0);
}

/* Initializes a state as vulfsjor_blake2xs_init_salt_personal does, under a key of 1 to 32 bytes:
 * use it where a key is a must. Returns -1 and sets the state to zero if a length is out of range.
 * A key of 0 bytes is refused, also if it is null. */
VULFSJOR_READS(3, 4) VULFSJOR_READS(5, 6) VULFSJOR_READS(7, 8)
static inline int vulfsjor_blake2xs_init_mac(vulfsjor_blake2xs_state *S, size_t xoflen,
                                             const void *key, size_t keylen, const void *salt,
                                             size_t saltlen, const void *personal,
                                             size_t personallen) {
    if (!S) return -1;
    memset(vulfsjor_bytes(S), 0, sizeof *S);
    if (!keylen) return -1;
    return vulfsjor_blake2xs_init_salt_personal(S, xoflen, key, keylen, salt, saltlen, personal,
                                                personallen);
}

/* Absorbs inlen bytes of input. The output does not depend on how the input is split into calls.
 * Returns -1 if the state is not ready, if its output is already being read, or if the bytes
 * absorbed since the init or the last reset, with 64 bytes for a key, would be 2^64 or more. The
 * state is then unchanged. */
VULFSJOR_READS(2, 3)
VULFSJOR_MUST_USE static inline int vulfsjor_blake2xs_update(vulfsjor_blake2xs_state *S,
                                                             const void *in, size_t inlen) {
    if (!S || (!in && inlen)) return -1;
    return vulfsjor_ffi_blake2xs_update(S, vulfsjor_text(in), inlen);
}

/* Writes the next outlen bytes of the output to out. The output does not depend on how it is split
 * into calls. The first call ends the input. Returns -1 and writes nothing if the state is not
 * ready, or if fewer than outlen bytes of the output are left. The state is then unchanged. */
VULFSJOR_WRITES(2, 3)
VULFSJOR_MUST_USE static inline int vulfsjor_blake2xs_squeeze(vulfsjor_blake2xs_state *S, void *out,
                                                              size_t outlen) {
    uint8_t none;
    if (!S || (!out && outlen)) return -1;
    return vulfsjor_ffi_blake2xs_squeeze(S, out ? vulfsjor_bytes(out) : &none, outlen);
}

/* Discards all input, and what was read. Output length, key, salt and personalization are kept.
 * Returns -1 if the state is not ready. */
static inline int vulfsjor_blake2xs_reset(vulfsjor_blake2xs_state *S) {
    if (!S) return -1;
    return vulfsjor_ffi_blake2xs_reset(S);
}

/* Sets every byte of the state to zero, whether it is ready or not. Does nothing if S is null. */
static inline void vulfsjor_blake2xs_wipe(vulfsjor_blake2xs_state *S) {
    if (S) vulfsjor_ffi_blake2xs_wipe(S);
}

/* Returns how many bytes of the output are left to read; 0 if the state is null or not ready. */
static inline uint64_t vulfsjor_blake2xs_left(const vulfsjor_blake2xs_state *S) {
    return S ? vulfsjor_ffi_blake2xs_left(S) : 0;
}

/* Returns the number of bytes of input absorbed since the init or the last reset; 0 if the state is
 * null or not ready. */
static inline uint64_t vulfsjor_blake2xs_count(const vulfsjor_blake2xs_state *S) {
    return S ? vulfsjor_ffi_blake2xs_count(S) : 0;
}

/* Writes the BLAKE2Xs output of the input to out: outlen bytes, 1 to 2^16 - 2, under a key of 1 to
 * 32 bytes; without a key, key is null and keylen is 0. Returns -1 and writes nothing if a length
 * is out of range, or if the input and 64 bytes for a key have 2^64 bytes or more. */
VULFSJOR_WRITES(1, 2) VULFSJOR_READS(3, 4) VULFSJOR_READS(5, 6)
VULFSJOR_MUST_USE static inline int vulfsjor_blake2xs(void *out, size_t outlen, const void *in,
                                                      size_t inlen, const void *key,
                                                      size_t keylen) {
    if (!out || (!in && inlen) || vulfsjor_is_half_key(key, keylen)) return -1;
    return vulfsjor_ffi_blake2xs(vulfsjor_bytes(out), outlen, vulfsjor_text(in), inlen,
                                 vulfsjor_text(key), keylen);
}

/* Derives a key of outlen bytes, 1 to 2^16 - 2, from a key of 1 to 32 bytes, for a context: the
 * BLAKE2Xs output of the context under the key. Each purpose has a context of its own. Keys for
 * different contexts, and keys of different lengths, are outputs of different inputs. Returns -1 and
 * writes nothing if a length is out of range, or if the context and 64 bytes have 2^64 bytes or
 * more. */
VULFSJOR_WRITES(1, 2) VULFSJOR_READS(3, 4) VULFSJOR_READS(5, 6)
VULFSJOR_MUST_USE static inline int vulfsjor_blake2xs_derive_key(void *out, size_t outlen,
                                                                 const void *key, size_t keylen,
                                                                 const void *context,
                                                                 size_t contextlen) {
    if (!out || !key || (!context && contextlen)) return -1;
    return vulfsjor_ffi_blake2xs_derive_key(vulfsjor_bytes(out), outlen, vulfsjor_text(key), keylen,
                                            vulfsjor_text(context), contextlen);
}

/* -- The tree of two levels over BLAKE2b (the BLAKE2 document, 2.10). The message is cut into
 * leaves of leaf_length bytes, the last of which may be shorter. The root hashes their digests of
 * 64 bytes. All nodes have the salt and the personalization, fanout 0, depth 2, this leaf length
 * and inner length 64. The last leaf and the root have the last-node flag. The tree has no key, and
 * the root is not the BLAKE2b digest of the message. */

/* Writes the root of the input's tree to out: outlen bytes, 1 to 64. leaf_length is 1 to
 * 2^32 - 1, and the salt and the personalization have 0 to 16 bytes each. Returns -1 and writes
 * nothing if a length is out of range, or if the input has 2^58 bytes or more. */
VULFSJOR_WRITES(1, 2) VULFSJOR_READS(3, 4) VULFSJOR_READS(5, 6) VULFSJOR_READS(7, 8)
VULFSJOR_MUST_USE static inline int vulfsjor_tree_root(void *out, size_t outlen, const void *in,
                                                       size_t inlen, const void *salt,
                                                       size_t saltlen, const void *personal,
                                                       size_t personallen, uint64_t leaf_length) {
    if (!out || (!in && inlen) || (!salt && saltlen) || (!personal && personallen)) return -1;
    return vulfsjor_ffi_tree_root(vulfsjor_bytes(out), outlen, vulfsjor_text(in), inlen,
                                  vulfsjor_text(salt), saltlen, vulfsjor_text(personal),
                                  personallen, vulfsjor_leaf(leaf_length));
}

/* Initializes a state for a root of outlen bytes, 1 to 64. The other arguments are those of
 * vulfsjor_tree_root. Returns -1 and sets the state to zero if a length is out of range. */
VULFSJOR_READS(3, 4) VULFSJOR_READS(5, 6)
static inline int vulfsjor_tree_init(vulfsjor_tree_state *S, size_t outlen, const void *salt,
                                     size_t saltlen, const void *personal, size_t personallen,
                                     uint64_t leaf_length) {
    if (!S) return -1;
    memset(vulfsjor_bytes(S), 0, sizeof *S);
    if ((!salt && saltlen) || (!personal && personallen)) return -1;
    return vulfsjor_ffi_tree_init(S, outlen, vulfsjor_text(salt), saltlen, vulfsjor_text(personal),
                                  personallen, vulfsjor_leaf(leaf_length));
}

/* Absorbs inlen bytes of input. The root does not depend on how the input is split into calls.
 * Pieces of several leaves are fastest: whole leaves after the open one are hashed four in
 * parallel, if more input follows them. Returns -1 if the state is not ready, or if it would have
 * absorbed 2^58 bytes or more. The state is then unchanged. */
VULFSJOR_READS(2, 3)
VULFSJOR_MUST_USE static inline int vulfsjor_tree_update(vulfsjor_tree_state *S, const void *in,
                                                         size_t inlen) {
    if (!S || (!in && inlen)) return -1;
    return vulfsjor_ffi_tree_update(S, vulfsjor_text(in), inlen);
}

/* Writes the root of all input to out, and wipes the state. outlen must be the length of the root,
 * vulfsjor_tree_digest_size. Returns -1 if it is another or the state is not ready. Then out and the
 * state are unchanged. */
VULFSJOR_WRITES(2, 3)
VULFSJOR_MUST_USE static inline int vulfsjor_tree_final(vulfsjor_tree_state *S, void *out,
                                                        size_t outlen) {
    if (!S || !out) return -1;
    return vulfsjor_ffi_tree_final(S, vulfsjor_bytes(out), outlen);
}

/* Sets every byte of the state to zero, whether it is ready or not. Does nothing if S is null. */
static inline void vulfsjor_tree_wipe(vulfsjor_tree_state *S) {
    if (S) vulfsjor_ffi_tree_wipe(S);
}

/* Returns the length of the state's root, 1 to 64; 0 if the state is null or not ready. */
static inline size_t vulfsjor_tree_digest_size(const vulfsjor_tree_state *S) {
    return S ? vulfsjor_ffi_tree_digest_size(S) : 0;
}

/* Returns the number of bytes of input that the state has absorbed; 0 if it is null or not
 * ready. */
static inline uint64_t vulfsjor_tree_count(const vulfsjor_tree_state *S) {
    return S ? vulfsjor_ffi_tree_count(S) : 0;
}

/* Returns the length of a leaf of the state's tree, 1 to 2^32 - 1; 0 if the state is null or not
 * ready. */
static inline uint32_t vulfsjor_tree_leaf_length(const vulfsjor_tree_state *S) {
    return S ? vulfsjor_ffi_tree_leaf_length(S) : 0;
}

/* -- The same tree in parts, for threads, processes or machines. The digests of a range of leaves
 * need only the bytes of that range. Hash ranges in any order and at the same time, and join their
 * digests in the order of the leaves. vulfsjor_tree_root_of_leaves of all digests is
 * vulfsjor_tree_root of the message. If leaves have changed, hash a range that contains them again,
 * replace its digests, and compute the root again. */

/* Returns the number of leaves of a message of inlen bytes, which is at least 1; 0 if leaf_length
 * is out of range. */
static inline uint64_t vulfsjor_tree_leaf_count(uint64_t inlen, uint64_t leaf_length) {
    return vulfsjor_ffi_tree_leaf_count(inlen, vulfsjor_leaf(leaf_length));
}

/* Writes the digests of a range of leaves to out, 64 bytes each. The input is the bytes of these
 * leaves, and first is the index of the first one, counted from 0. ends is whether the message ends
 * with the input (0 if not). If it does, the last leaf may be shorter; if not, all leaves must be
 * whole. No call can check ends: a wrong value on whole leaves makes a wrong root. outlen must be
 * 64 times vulfsjor_tree_leaf_count(inlen, leaf_length). Returns -1 and writes nothing
 *
 *   - if outlen is another number, leaf_length is out of range, or the salt or the personalization
 *     has more than 16 bytes;
 *   - if ends is 0 and the input is empty or not whole leaves;
 *   - if ends is not 0 and the input is empty, unless first is 0 (an empty message has one leaf);
 *   - if the range ends at byte 2^58 of the message or after it. */
VULFSJOR_WRITES(1, 2) VULFSJOR_READS(5, 6) VULFSJOR_READS(7, 8) VULFSJOR_READS(9, 10)
VULFSJOR_MUST_USE static inline int vulfsjor_tree_leaves(void *out, size_t outlen, uint64_t first,
                                                         int ends, const void *in, size_t inlen,
                                                         const void *salt, size_t saltlen,
                                                         const void *personal, size_t personallen,
                                                         uint64_t leaf_length) {
    if (!out || (!in && inlen) || (!salt && saltlen) || (!personal && personallen)) return -1;
    return vulfsjor_ffi_tree_leaves(vulfsjor_bytes(out), outlen, first, ends != 0,
                                    vulfsjor_text(in), inlen, vulfsjor_text(salt), saltlen,
                                    vulfsjor_text(personal), personallen,
                                    vulfsjor_leaf(leaf_length));
}

/* Writes the root over the digests of all leaves, 64 bytes each, in their order, to out: outlen
 * bytes, 1 to 64. The other arguments are those of vulfsjor_tree_root. Returns -1 and writes
 * nothing if digestslen is 0 or not a multiple of 64, or if another length is out of range. */
VULFSJOR_WRITES(1, 2) VULFSJOR_READS(3, 4) VULFSJOR_READS(5, 6) VULFSJOR_READS(7, 8)
VULFSJOR_MUST_USE static inline int vulfsjor_tree_root_of_leaves(
    void *out, size_t outlen, const void *digests, size_t digestslen, const void *salt,
    size_t saltlen, const void *personal, size_t personallen, uint64_t leaf_length) {
    if (!out || !digests || (!salt && saltlen) || (!personal && personallen)) return -1;
    return vulfsjor_ffi_tree_root_of_leaves(vulfsjor_bytes(out), outlen, vulfsjor_text(digests),
                                            digestslen, vulfsjor_text(salt), saltlen,
                                            vulfsjor_text(personal), personallen,
                                            vulfsjor_leaf(leaf_length));
}

/* -- The same tree as a stream whose leaves are hashed by threads. A state is at a leaf boundary if
 * vulfsjor_tree_count is a multiple of vulfsjor_tree_leaf_length. Then threads hash the next leaves
 * with leaves_ahead, which only reads the state. One call of update_leaves absorbs the digests of
 * all of them, in order, and the input that follows. */

/* Writes the digests of whole leaves of the state's tree to out, 64 bytes each. The input is the
 * bytes of these leaves. The first is skip leaves after the next leaf of the state, and none of
 * them is the last leaf of the message. outlen must be 64 times the number of leaves. Returns -1
 * and writes nothing if the state is not ready or not at a leaf boundary, if the input is empty or
 * not whole leaves, if outlen is another number, or if the leaves end at byte 2^58 of the message
 * or after it. */
VULFSJOR_WRITES(2, 3) VULFSJOR_READS(5, 6)
VULFSJOR_MUST_USE static inline int vulfsjor_tree_leaves_ahead(const vulfsjor_tree_state *S,
                                                              void *out, size_t outlen,
                                                              uint64_t skip, const void *in,
                                                              size_t inlen) {
    if (!S || !out || (!in && inlen)) return -1;
    return vulfsjor_ffi_tree_leaves_ahead(S, vulfsjor_bytes(out), outlen, skip, vulfsjor_text(in),
                                         inlen);
}

/* Absorbs whole leaves, given by the digests that leaves_ahead wrote from skip 0 on, and then inlen
 * bytes of input. The state is then the one that vulfsjor_tree_update would make of the leaves'
 * bytes and the input. If there are digests, the state must be at a leaf boundary and inlen at
 * least 1, since the last leaf of a message has another digest. Without digests (digestslen 0) this
 * is vulfsjor_tree_update. Returns -1 if the state is not ready, if digestslen is not a multiple of
 * 64, if there are digests but the state is not at a leaf boundary or the input is empty, or if the
 * state would have absorbed 2^58 bytes or more. The state is then unchanged. */
VULFSJOR_READS(2, 3) VULFSJOR_READS(4, 5)
VULFSJOR_MUST_USE static inline int vulfsjor_tree_update_leaves(vulfsjor_tree_state *S,
                                                                const void *digests,
                                                                size_t digestslen, const void *in,
                                                                size_t inlen) {
    if (!S || (!digests && digestslen) || (!in && inlen)) return -1;
    return vulfsjor_ffi_tree_update_leaves(S, vulfsjor_text(digests), digestslen, vulfsjor_text(in),
                                           inlen);
}

/* -- A plan of the same tree, for threads. It says which parts threads hash, where the bytes of each
 * part are, and where its digests go. The parts are in order, without gap or overlap. Threads may
 * hash them in any order. */

/* Writes the plan of a message of length bytes, fewer than 2^58, that begins at offset start of a
 * file or a buffer. Hash each part with vulfsjor_tree_leaves, with the part's first and ends.
 * vulfsjor_tree_root_of_leaves of all digests is then vulfsjor_tree_root of the message. Returns -1
 * and writes nothing if leaf_length is out of range, limits->threads or limits->least_bytes is 0, if
 * length is 2^58 or more, or if start and length are 2^64 or more together. */
VULFSJOR_MUST_USE static inline int vulfsjor_tree_plan(vulfsjor_plan *plan, uint64_t start,
                                                       uint64_t length, uint64_t leaf_length,
                                                       const vulfsjor_limits *limits) {
    if (!plan || !limits) return -1;
    return vulfsjor_ffi_tree_plan(plan, start, length, vulfsjor_leaf(leaf_length), limits);
}

/* Writes the plan of an update of the state with length bytes. First vulfsjor_tree_update absorbs
 * the first plan->start bytes. Then hash each part with vulfsjor_tree_leaves_ahead, whose skip is the
 * part's first. Then vulfsjor_tree_update_leaves absorbs all digests and the plan->rest_length bytes
 * from plan->end on. Returns -1 and writes nothing if the state is not ready, if it would have
 * absorbed 2^58 bytes or more, or if limits->threads or limits->least_bytes is 0. */
VULFSJOR_MUST_USE static inline int vulfsjor_tree_plan_update(vulfsjor_plan *plan,
                                                              const vulfsjor_tree_state *S,
                                                              uint64_t length,
                                                              const vulfsjor_limits *limits) {
    if (!plan || !S || !limits) return -1;
    return vulfsjor_ffi_tree_plan_update(plan, S, length, limits);
}

/* Writes part i of a plan, counted from 0. Returns -1 and writes nothing if i is not below
 * plan->part_count, or if the plan is not as the comment on vulfsjor_plan says. */
VULFSJOR_MUST_USE static inline int vulfsjor_tree_part(vulfsjor_part *part,
                                                       const vulfsjor_plan *plan, uint64_t i) {
    if (!part || !plan) return -1;
    return vulfsjor_ffi_tree_part(part, plan, i);
}

/* Initializes a state of BLAKE2b for leaf i of a message, for a leaf that is too long for one call.
 * It absorbs the bytes of the leaf, and its digest has 64 bytes. last is whether the leaf is the
 * message's last (0 if not). Returns -1 and sets the state to zero if leaf_length is out of range,
 * or if the salt or the personalization has more than 16 bytes. */
VULFSJOR_READS(4, 5) VULFSJOR_READS(6, 7)
static inline int vulfsjor_tree_init_leaf(vulfsjor_blake2b_state *S, uint64_t i, int last,
                                          const void *salt, size_t saltlen, const void *personal,
                                          size_t personallen, uint64_t leaf_length) {
    if (!S) return -1;
    memset(vulfsjor_bytes(S), 0, sizeof *S);
    if ((!salt && saltlen) || (!personal && personallen)) return -1;
    return vulfsjor_ffi_tree_init_leaf(S, i, last != 0, vulfsjor_text(salt), saltlen,
                                       vulfsjor_text(personal), personallen,
                                       vulfsjor_leaf(leaf_length));
}

/* Initializes a state of BLAKE2b for the root of a message, for digests that come in pieces. It
 * absorbs the digests of all leaves in order, and its digest is the root: outlen bytes, 1 to 64.
 * The other arguments are those of vulfsjor_tree_root. Returns -1 and sets the state to zero if a
 * length is out of range. */
VULFSJOR_READS(3, 4) VULFSJOR_READS(5, 6)
static inline int vulfsjor_tree_init_root(vulfsjor_blake2b_state *S, size_t outlen,
                                          const void *salt, size_t saltlen, const void *personal,
                                          size_t personallen, uint64_t leaf_length) {
    if (!S) return -1;
    memset(vulfsjor_bytes(S), 0, sizeof *S);
    if ((!salt && saltlen) || (!personal && personallen)) return -1;
    return vulfsjor_ffi_tree_init_root(S, outlen, vulfsjor_text(salt), saltlen,
                                       vulfsjor_text(personal), personallen,
                                       vulfsjor_leaf(leaf_length));
}

/* -- What -1 means, call by call. A null pointer is a reason in every call: to a state, an output,
 * digests for tree_root_of_leaves, messages, a parameter block or tree parameters, and any other if
 * its length is not 0. So is a key that is not null and has length 0. The other reasons are:
 *
 *   memcmp                         the bytes differ
 *   bin2hex                        outlen is less than 2 * inlen + 1
 *   hex2bin                        hexlen is not 2 * outlen, or a character is not a digit
 *   BLAKE2b and BLAKE2s, and of these calls those that BLAKE2bp and BLAKE2sp have:
 *   _init, _init_salt_personal,    an argument that _refused returns
 *   _init_tree
 *   _init_key, _init_short_mac     an argument that _refused returns, or a key of 0 bytes
 *   _init_mac, _mac                the same, an outlen of less than VULFSJOR_TAGBYTES_MIN, or for
 *                                  _mac an input that the hash in one call refuses
 *   _init_param                    a field that _param_refused returns
 *   the hash in one call           an argument that _refused returns, or input and a key's block of
 *                                  2^64 bytes or more (BLAKE2bp and BLAKE2sp: 512 bytes for a key)
 *   _many                          the same of any message, or one with null bytes, which
 *                                  vulfsjor_null_message returns
 *   _update                        the state is not ready (_digest_size returns 0 for it), or it
 *                                  would have absorbed 2^64 bytes or more
 *   _final                         the state is not ready, or outlen is not _digest_size
 *   _verify_short_mac              the tag or its length is another, or the state was not ready or
 *                                  has no key
 *   _verify                        the same, or the digest has fewer than VULFSJOR_TAGBYTES_MIN bytes
 *   _set_last_node, _reset         the state is not ready
 *   _save                          the same, or it has a key
 *   _load                          savedlen, or the bytes are not a saved state of this hash
 *   BLAKE2Xb and BLAKE2Xs:
 *   _init, _init_salt_personal     an argument that _refused returns
 *   _init_key, _init_mac           an argument that _refused returns, or a key of 0 bytes
 *   the output in one call         an argument that _refused returns, outlen that is the number for
 *                                  an unknown length, or input and a key's block of 2^64 bytes or
 *                                  more
 *   _derive_key                    the same of the context, or a key of 0 bytes
 *   _update                        the state is not ready (_left and _count return 0 for it), its
 *                                  output is being read, or it would have absorbed 2^64 bytes or
 *                                  more
 *   _squeeze                       the state is not ready, or outlen is more than _left
 *   _reset                         the state is not ready
 *   The tree of two levels:
 *   tree_init                      an argument that vulfsjor_tree_refused returns
 *   tree_root                      the same, or input of 2^58 bytes or more
 *   tree_update                    the state is not ready (tree_digest_size returns 0 for it), or
 *                                  it would have absorbed 2^58 bytes or more
 *   tree_final                     the state is not ready, or outlen is not tree_digest_size
 *   tree_leaves                    salt, personal or leaf_length, which vulfsjor_tree_refused
 *                                  returns, outlen, or a range that its comment excludes
 *   tree_root_of_leaves            an argument that vulfsjor_tree_refused returns, or digestslen
 *   tree_leaves_ahead,              the state is not ready or not at a leaf boundary, or a length
 *   tree_update_leaves             that their comments exclude
 *   tree_init_leaf, _init_root     an argument that vulfsjor_tree_refused returns
 *   tree_plan, tree_plan_update    a length or a limit that their comments exclude, or a state that
 *                                  is not ready
 *   tree_part                      there is no such part, or the comment on vulfsjor_plan excludes
 *                                  the plan
 *
 * The functions below make scratch states from one argument at a time, so the proved checks decide.
 * They write nothing else, and leave nothing of a key on the stack. */

/* The arguments that an init may refuse, in the order in which they are tried. */
typedef enum vulfsjor_argument {
    VULFSJOR_ARGUMENT_NONE = 0, /* no argument is refused */
    VULFSJOR_ARGUMENT_PARAM,    /* the parameter block is null */
    VULFSJOR_ARGUMENT_OUTLEN,   /* the length of the digest is out of range */
    VULFSJOR_ARGUMENT_KEY,      /* keylen is out of range, or only one of key and keylen is 0 */
    VULFSJOR_ARGUMENT_SALT,     /* saltlen is out of range, or salt is null and saltlen is not 0 */
    VULFSJOR_ARGUMENT_PERSONAL, /* the same of personal and personallen */
    VULFSJOR_ARGUMENT_NODE_OFFSET,  /* tree->node_offset is out of range */
    VULFSJOR_ARGUMENT_DEPTH,        /* tree->depth is 0 */
    VULFSJOR_ARGUMENT_INNER_LENGTH, /* tree->inner_length is out of range */
    VULFSJOR_ARGUMENT_LEAF_LENGTH   /* leaf_length of the tree of two levels is out of range */
} vulfsjor_argument;

/* Returns the name of an argument for a message, such as "outlen" or "tree->depth"; "no argument"
 * for VULFSJOR_ARGUMENT_NONE and for any other number. */
static inline const char *vulfsjor_argument_name(vulfsjor_argument argument) {
    static const char *const names[] = {
        "no argument",       "P",           "outlen",             "key",        "salt", "personal",
        "tree->node_offset", "tree->depth", "tree->inner_length", "leaf_length"};
    const unsigned at = VULFSJOR_CAST(unsigned, argument);
    return at < sizeof names / sizeof *names ? names[at] : names[0];
}

/* Returns the first of these arguments, in this order, that an init of BLAKE2b refuses, or
 * VULFSJOR_ARGUMENT_NONE. They are those of vulfsjor_blake2b_init_tree; tree is null for the other
 * inits, the hash in one call and _many. */
static inline vulfsjor_argument vulfsjor_blake2b_refused(size_t outlen, const void *key,
                                                          size_t keylen, const void *salt,
                                                          size_t saltlen, const void *personal,
                                                          size_t personallen,
                                                          const vulfsjor_tree *tree) {
    vulfsjor_tree one = {0, 0, 1, 1, 0, 0};
    vulfsjor_blake2b_state S;
    int refused;
    if (vulfsjor_blake2b_init(&S, outlen)) return VULFSJOR_ARGUMENT_OUTLEN;
    refused = vulfsjor_blake2b_init_salt_personal(&S, 1, key, keylen, salt, 0, personal, 0);
    vulfsjor_blake2b_wipe(&S);
    if (refused) return VULFSJOR_ARGUMENT_KEY;
    if (vulfsjor_blake2b_init_salt_personal(&S, 1, VULFSJOR_NULL, 0, salt, saltlen, personal, 0))
        return VULFSJOR_ARGUMENT_SALT;
    if (vulfsjor_blake2b_init_salt_personal(&S, 1, VULFSJOR_NULL, 0, salt, 0, personal,
                                            personallen))
        return VULFSJOR_ARGUMENT_PERSONAL;
    if (!tree) return VULFSJOR_ARGUMENT_NONE;
    one.node_offset = tree->node_offset;
    if (vulfsjor_blake2b_init_tree(&S, 1, VULFSJOR_NULL, 0, salt, 0, personal, 0, &one))
        return VULFSJOR_ARGUMENT_NODE_OFFSET;
    one.depth = tree->depth;
    if (vulfsjor_blake2b_init_tree(&S, 1, VULFSJOR_NULL, 0, salt, 0, personal, 0, &one))
        return VULFSJOR_ARGUMENT_DEPTH;
    one.inner_length = tree->inner_length;
    if (vulfsjor_blake2b_init_tree(&S, 1, VULFSJOR_NULL, 0, salt, 0, personal, 0, &one))
        return VULFSJOR_ARGUMENT_INNER_LENGTH;
    return VULFSJOR_ARGUMENT_NONE;
}

/* Returns what vulfsjor_blake2b_init_param refuses: VULFSJOR_ARGUMENT_PARAM if P is null,
 * VULFSJOR_ARGUMENT_OUTLEN for its digest_length, VULFSJOR_ARGUMENT_KEY for its key_length, or
 * VULFSJOR_ARGUMENT_NONE. */
static inline vulfsjor_argument vulfsjor_blake2b_param_refused(const vulfsjor_blake2b_param *P) {
    vulfsjor_blake2b_param one;
    vulfsjor_blake2b_state S;
    if (!P) return VULFSJOR_ARGUMENT_PARAM;
    one = *P;
    one.key_length = 0;
    if (vulfsjor_blake2b_init_param(&S, &one)) return VULFSJOR_ARGUMENT_OUTLEN;
    return vulfsjor_blake2b_init_param(&S, P) ? VULFSJOR_ARGUMENT_KEY : VULFSJOR_ARGUMENT_NONE;
}

/* Returns the first of these arguments, in this order, that an init of BLAKE2s refuses, or
 * VULFSJOR_ARGUMENT_NONE. They are those of vulfsjor_blake2s_init_tree; tree is null for the other
 * inits, the hash in one call and _many. */
static inline vulfsjor_argument vulfsjor_blake2s_refused(size_t outlen, const void *key,
                                                          size_t keylen, const void *salt,
                                                          size_t saltlen, const void *personal,
                                                          size_t personallen,
                                                          const vulfsjor_tree *tree) {
    vulfsjor_tree one = {0, 0, 1, 1, 0, 0};
    vulfsjor_blake2s_state S;
    int refused;
    if (vulfsjor_blake2s_init(&S, outlen)) return VULFSJOR_ARGUMENT_OUTLEN;
    refused = vulfsjor_blake2s_init_salt_personal(&S, 1, key, keylen, salt, 0, personal, 0);
    vulfsjor_blake2s_wipe(&S);
    if (refused) return VULFSJOR_ARGUMENT_KEY;
    if (vulfsjor_blake2s_init_salt_personal(&S, 1, VULFSJOR_NULL, 0, salt, saltlen, personal, 0))
        return VULFSJOR_ARGUMENT_SALT;
    if (vulfsjor_blake2s_init_salt_personal(&S, 1, VULFSJOR_NULL, 0, salt, 0, personal,
                                            personallen))
        return VULFSJOR_ARGUMENT_PERSONAL;
    if (!tree) return VULFSJOR_ARGUMENT_NONE;
    one.node_offset = tree->node_offset;
    if (vulfsjor_blake2s_init_tree(&S, 1, VULFSJOR_NULL, 0, salt, 0, personal, 0, &one))
        return VULFSJOR_ARGUMENT_NODE_OFFSET;
    one.depth = tree->depth;
    if (vulfsjor_blake2s_init_tree(&S, 1, VULFSJOR_NULL, 0, salt, 0, personal, 0, &one))
        return VULFSJOR_ARGUMENT_DEPTH;
    one.inner_length = tree->inner_length;
    if (vulfsjor_blake2s_init_tree(&S, 1, VULFSJOR_NULL, 0, salt, 0, personal, 0, &one))
        return VULFSJOR_ARGUMENT_INNER_LENGTH;
    return VULFSJOR_ARGUMENT_NONE;
}

/* Returns what vulfsjor_blake2s_init_param refuses: VULFSJOR_ARGUMENT_PARAM if P is null,
 * VULFSJOR_ARGUMENT_OUTLEN for its digest_length, VULFSJOR_ARGUMENT_KEY for its key_length, or
 * VULFSJOR_ARGUMENT_NONE. */
static inline vulfsjor_argument vulfsjor_blake2s_param_refused(const vulfsjor_blake2s_param *P) {
    vulfsjor_blake2s_param one;
    vulfsjor_blake2s_state S;
    if (!P) return VULFSJOR_ARGUMENT_PARAM;
    one = *P;
    one.key_length = 0;
    if (vulfsjor_blake2s_init_param(&S, &one)) return VULFSJOR_ARGUMENT_OUTLEN;
    return vulfsjor_blake2s_init_param(&S, P) ? VULFSJOR_ARGUMENT_KEY : VULFSJOR_ARGUMENT_NONE;
}

/* Returns the first of these arguments, in this order, that an init of BLAKE2bp refuses, or
 * VULFSJOR_ARGUMENT_NONE. They are those of vulfsjor_blake2bp_init_salt_personal. */
static inline vulfsjor_argument vulfsjor_blake2bp_refused(size_t outlen, const void *key,
                                                           size_t keylen, const void *salt,
                                                           size_t saltlen, const void *personal,
                                                           size_t personallen) {
    vulfsjor_blake2bp_state S;
    int refused;
    if (vulfsjor_blake2bp_init(&S, outlen)) return VULFSJOR_ARGUMENT_OUTLEN;
    refused = vulfsjor_blake2bp_init_salt_personal(&S, 1, key, keylen, salt, 0, personal, 0);
    vulfsjor_blake2bp_wipe(&S);
    if (refused) return VULFSJOR_ARGUMENT_KEY;
    if (vulfsjor_blake2bp_init_salt_personal(&S, 1, VULFSJOR_NULL, 0, salt, saltlen, personal, 0))
        return VULFSJOR_ARGUMENT_SALT;
    if (vulfsjor_blake2bp_init_salt_personal(&S, 1, VULFSJOR_NULL, 0, salt, 0, personal,
                                             personallen))
        return VULFSJOR_ARGUMENT_PERSONAL;
    return VULFSJOR_ARGUMENT_NONE;
}

/* Returns the first of these arguments, in this order, that an init of BLAKE2sp refuses, or
 * VULFSJOR_ARGUMENT_NONE. They are those of vulfsjor_blake2sp_init_salt_personal. */
static inline vulfsjor_argument vulfsjor_blake2sp_refused(size_t outlen, const void *key,
                                                           size_t keylen, const void *salt,
                                                           size_t saltlen, const void *personal,
                                                           size_t personallen) {
    vulfsjor_blake2sp_state S;
    int refused;
    if (vulfsjor_blake2sp_init(&S, outlen)) return VULFSJOR_ARGUMENT_OUTLEN;
    refused = vulfsjor_blake2sp_init_salt_personal(&S, 1, key, keylen, salt, 0, personal, 0);
    vulfsjor_blake2sp_wipe(&S);
    if (refused) return VULFSJOR_ARGUMENT_KEY;
    if (vulfsjor_blake2sp_init_salt_personal(&S, 1, VULFSJOR_NULL, 0, salt, saltlen, personal, 0))
        return VULFSJOR_ARGUMENT_SALT;
    if (vulfsjor_blake2sp_init_salt_personal(&S, 1, VULFSJOR_NULL, 0, salt, 0, personal,
                                             personallen))
        return VULFSJOR_ARGUMENT_PERSONAL;
    return VULFSJOR_ARGUMENT_NONE;
}

/* Returns the first of these arguments, in this order, that an init of BLAKE2Xb refuses, or
 * VULFSJOR_ARGUMENT_NONE. They are those of vulfsjor_blake2xb_init_salt_personal, and
 * VULFSJOR_ARGUMENT_OUTLEN is for xoflen. */
static inline vulfsjor_argument vulfsjor_blake2xb_refused(size_t xoflen, const void *key,
                                                           size_t keylen, const void *salt,
                                                           size_t saltlen, const void *personal,
                                                           size_t personallen) {
    vulfsjor_blake2xb_state S;
    int refused;
    if (vulfsjor_blake2xb_init(&S, xoflen)) return VULFSJOR_ARGUMENT_OUTLEN;
    refused = vulfsjor_blake2xb_init_salt_personal(&S, 1, key, keylen, salt, 0, personal, 0);
    vulfsjor_blake2xb_wipe(&S);
    if (refused) return VULFSJOR_ARGUMENT_KEY;
    if (vulfsjor_blake2xb_init_salt_personal(&S, 1, VULFSJOR_NULL, 0, salt, saltlen, personal, 0))
        return VULFSJOR_ARGUMENT_SALT;
    if (vulfsjor_blake2xb_init_salt_personal(&S, 1, VULFSJOR_NULL, 0, salt, 0, personal,
                                             personallen))
        return VULFSJOR_ARGUMENT_PERSONAL;
    return VULFSJOR_ARGUMENT_NONE;
}

/* Returns the first of these arguments, in this order, that an init of BLAKE2Xs refuses, or
 * VULFSJOR_ARGUMENT_NONE. They are those of vulfsjor_blake2xs_init_salt_personal, and
 * VULFSJOR_ARGUMENT_OUTLEN is for xoflen. */
static inline vulfsjor_argument vulfsjor_blake2xs_refused(size_t xoflen, const void *key,
                                                           size_t keylen, const void *salt,
                                                           size_t saltlen, const void *personal,
                                                           size_t personallen) {
    vulfsjor_blake2xs_state S;
    int refused;
    if (vulfsjor_blake2xs_init(&S, xoflen)) return VULFSJOR_ARGUMENT_OUTLEN;
    refused = vulfsjor_blake2xs_init_salt_personal(&S, 1, key, keylen, salt, 0, personal, 0);
    vulfsjor_blake2xs_wipe(&S);
    if (refused) return VULFSJOR_ARGUMENT_KEY;
    if (vulfsjor_blake2xs_init_salt_personal(&S, 1, VULFSJOR_NULL, 0, salt, saltlen, personal, 0))
        return VULFSJOR_ARGUMENT_SALT;
    if (vulfsjor_blake2xs_init_salt_personal(&S, 1, VULFSJOR_NULL, 0, salt, 0, personal,
                                             personallen))
        return VULFSJOR_ARGUMENT_PERSONAL;
    return VULFSJOR_ARGUMENT_NONE;
}

/* Returns the first argument, in this order, that vulfsjor_tree_init with these arguments refuses,
 * or VULFSJOR_ARGUMENT_NONE. */
static inline vulfsjor_argument vulfsjor_tree_refused(size_t outlen, const void *salt,
                                                      size_t saltlen, const void *personal,
                                                      size_t personallen, uint64_t leaf_length) {
    if (vulfsjor_ffi_tree_check(outlen, 0, 0, 1)) return VULFSJOR_ARGUMENT_OUTLEN;
    if ((!salt && saltlen) || vulfsjor_ffi_tree_check(1, saltlen, 0, 1))
        return VULFSJOR_ARGUMENT_SALT;
    if ((!personal && personallen) || vulfsjor_ffi_tree_check(1, 0, personallen, 1))
        return VULFSJOR_ARGUMENT_PERSONAL;
    if (vulfsjor_ffi_tree_check(1, 0, 0, vulfsjor_leaf(leaf_length)))
        return VULFSJOR_ARGUMENT_LEAF_LENGTH;
    return VULFSJOR_ARGUMENT_NONE;
}

#ifdef VULFSJOR_INLINE_IS_DEFINED
#undef VULFSJOR_INLINE_IS_DEFINED
#undef inline
#endif

#ifdef __cplusplus
}
#endif
#endif
