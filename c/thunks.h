/* The functions vulfsjor_ffi_* for systems that are not ELF: Windows and macOS. choose.c includes
 * this file there. It is tested, not proved.
 *
 * Each function has the calling convention of the system, and calls the build that this processor
 * supports. On x86-64 the assembly has System V's convention, on Windows too. On 64-bit ARM it has
 * Arm's, by which each argument on the stack takes 8 bytes. Apple packs arguments there, but puts
 * those of these functions where Arm does: tools/exports.py, which writes the list below, refuses
 * others. */

#undef CALL

/* A function of the assembly. */
#if defined(_WIN32) && defined(__x86_64__)
#define OF_TEXT __attribute__((sysv_abi)) extern
#else
#define OF_TEXT extern
#endif
#define NAMED(name, build) __asm__(TEXT(__USER_LABEL_PREFIX__) IN_BUILD(#name, build))

#ifdef CHOOSE_ONE
#define DECLARE(name, type, parameters) \
    OF_TEXT type name##_one parameters NAMED(name, TEXT(CHOOSE_ONE));
#define CHOSEN(name, arguments) name##_one arguments
#else
static unsigned char chosen_level(void) {
    unsigned char found = __atomic_load_n(&vulfsjor_ffi_level, __ATOMIC_RELAXED);
    return found ? found : vulfsjor_ffi_find();
}
#define DECLARE(name, type, parameters)                  \
    OF_TEXT type name##_v2 parameters NAMED(name, "v2"); \
    OF_TEXT type name##_v3 parameters NAMED(name, "v3"); \
    OF_TEXT type name##_v4 parameters NAMED(name, "v4");
#define CHOSEN(name, arguments)               \
    (chosen_level() > 3   ? name##_v4 arguments      \
     : chosen_level() > 2 ? name##_v3 arguments      \
                   : name##_v2 arguments)
#endif

#define CALL(name, type, parameters, arguments) \
    DECLARE(name, type, parameters)             \
    SHOWN type name parameters { return CHOSEN(name, arguments); }
#define CALL_VOID(name, parameters, arguments) \
    DECLARE(name, void, parameters)            \
    SHOWN void name parameters { CHOSEN(name, arguments); }

/* The functions that vulfsjor.h declares, as tools/exports.py writes them. */
CALL(vulfsjor_ffi_memcmp, int32_t, (const uint8_t *a, size_t a_length, const uint8_t *b,
     size_t b_length), (a, a_length, b, b_length))
CALL_VOID(vulfsjor_ffi_wipe, (uint8_t *bytes, size_t length), (bytes, length))

CALL(vulfsjor_ffi_blake2b, int32_t, (uint8_t *out, size_t out_length, const uint8_t *input,
     size_t input_length, const uint8_t *key, size_t key_length), (out, out_length, input,
     input_length, key, key_length))
CALL(vulfsjor_ffi_blake2b_many, int32_t, (uint8_t *out, size_t out_length, size_t output_size,
     const vulfsjor_message *messages, size_t count, const uint8_t *key, size_t key_length,
     const uint8_t *salt, size_t salt_length, const uint8_t *personal, size_t personal_length),
     (out, out_length, output_size, messages, count, key, key_length, salt, salt_length, personal,
     personal_length))
CALL(vulfsjor_ffi_blake2b_init_salt_personal, int32_t, (vulfsjor_blake2b_state *state,
     size_t output_size, const uint8_t *key, size_t key_length, const uint8_t *salt,
     size_t salt_length, const uint8_t *personal, size_t personal_length), (state, output_size, key,
     key_length, salt, salt_length, personal, personal_length))
CALL(vulfsjor_ffi_blake2b_init_key, int32_t, (vulfsjor_blake2b_state *state, size_t output_size,
     const uint8_t *key, size_t key_length), (state, output_size, key, key_length))
CALL(vulfsjor_ffi_blake2b_init_tree, int32_t, (vulfsjor_blake2b_state *state, size_t output_size,
     const uint8_t *key, size_t key_length, const uint8_t *salt, size_t salt_length,
     const uint8_t *personal, size_t personal_length, const vulfsjor_tree *tree), (state,
     output_size, key, key_length, salt, salt_length, personal, personal_length, tree))
CALL(vulfsjor_ffi_blake2b_init_param, int32_t, (vulfsjor_blake2b_state *state, const uint8_t *block,
     size_t block_length), (state, block, block_length))
CALL(vulfsjor_ffi_blake2b_update, int32_t, (vulfsjor_blake2b_state *state, const uint8_t *input,
     size_t input_length), (state, input, input_length))
CALL(vulfsjor_ffi_blake2b_update_many, int32_t, (vulfsjor_blake2b_state *states, size_t state_count,
     const vulfsjor_message *inputs, size_t input_count), (states, state_count, inputs,
     input_count))
CALL(vulfsjor_ffi_blake2b_final, int32_t, (vulfsjor_blake2b_state *state, uint8_t *out,
     size_t out_length), (state, out, out_length))
CALL(vulfsjor_ffi_blake2b_verify, int32_t, (vulfsjor_blake2b_state *state, const uint8_t *tag,
     size_t tag_length), (state, tag, tag_length))
CALL(vulfsjor_ffi_blake2b_set_last_node, int32_t, (vulfsjor_blake2b_state *state, uint32_t on),
     (state, on))
CALL(vulfsjor_ffi_blake2b_reset, int32_t, (vulfsjor_blake2b_state *state), (state))
CALL(vulfsjor_ffi_blake2b_save, int32_t, (const vulfsjor_blake2b_state *state, uint8_t *out,
     size_t out_length), (state, out, out_length))
CALL(vulfsjor_ffi_blake2b_load, int32_t, (vulfsjor_blake2b_state *state, const uint8_t *saved,
     size_t saved_length), (state, saved, saved_length))
CALL_VOID(vulfsjor_ffi_blake2b_wipe, (vulfsjor_blake2b_state *state), (state))
CALL(vulfsjor_ffi_blake2b_digest_size, size_t, (const vulfsjor_blake2b_state *state), (state))
CALL(vulfsjor_ffi_blake2b_count, uint64_t, (const vulfsjor_blake2b_state *state), (state))
CALL(vulfsjor_ffi_blake2b_state_size, size_t, (void), ())

CALL(vulfsjor_ffi_blake2s, int32_t, (uint8_t *out, size_t out_length, const uint8_t *input,
     size_t input_length, const uint8_t *key, size_t key_length), (out, out_length, input,
     input_length, key, key_length))
CALL(vulfsjor_ffi_blake2s_many, int32_t, (uint8_t *out, size_t out_length, size_t output_size,
     const vulfsjor_message *messages, size_t count, const uint8_t *key, size_t key_length,
     const uint8_t *salt, size_t salt_length, const uint8_t *personal, size_t personal_length),
     (out, out_length, output_size, messages, count, key, key_length, salt, salt_length, personal,
     personal_length))
CALL(vulfsjor_ffi_blake2s_init_salt_personal, int32_t, (vulfsjor_blake2s_state *state,
     size_t output_size, const uint8_t *key, size_t key_length, const uint8_t *salt,
     size_t salt_length, const uint8_t *personal, size_t personal_length), (state, output_size, key,
     key_length, salt, salt_length, personal, personal_length))
CALL(vulfsjor_ffi_blake2s_init_key, int32_t, (vulfsjor_blake2s_state *state, size_t output_size,
     const uint8_t *key, size_t key_length), (state, output_size, key, key_length))
CALL(vulfsjor_ffi_blake2s_init_tree, int32_t, (vulfsjor_blake2s_state *state, size_t output_size,
     const uint8_t *key, size_t key_length, const uint8_t *salt, size_t salt_length,
     const uint8_t *personal, size_t personal_length, const vulfsjor_tree *tree), (state,
     output_size, key, key_length, salt, salt_length, personal, personal_length, tree))
CALL(vulfsjor_ffi_blake2s_init_param, int32_t, (vulfsjor_blake2s_state *state, const uint8_t *block,
     size_t block_length), (state, block, block_length))
CALL(vulfsjor_ffi_blake2s_update, int32_t, (vulfsjor_blake2s_state *state, const uint8_t *input,
     size_t input_length), (state, input, input_length))
CALL(vulfsjor_ffi_blake2s_update_many, int32_t, (vulfsjor_blake2s_state *states, size_t state_count,
     const vulfsjor_message *inputs, size_t input_count), (states, state_count, inputs,
     input_count))
CALL(vulfsjor_ffi_blake2s_final, int32_t, (vulfsjor_blake2s_state *state, uint8_t *out,
     size_t out_length), (state, out, out_length))
CALL(vulfsjor_ffi_blake2s_verify, int32_t, (vulfsjor_blake2s_state *state, const uint8_t *tag,
     size_t tag_length), (state, tag, tag_length))
CALL(vulfsjor_ffi_blake2s_set_last_node, int32_t, (vulfsjor_blake2s_state *state, uint32_t on),
     (state, on))
CALL(vulfsjor_ffi_blake2s_reset, int32_t, (vulfsjor_blake2s_state *state), (state))
CALL(vulfsjor_ffi_blake2s_save, int32_t, (const vulfsjor_blake2s_state *state, uint8_t *out,
     size_t out_length), (state, out, out_length))
CALL(vulfsjor_ffi_blake2s_load, int32_t, (vulfsjor_blake2s_state *state, const uint8_t *saved,
     size_t saved_length), (state, saved, saved_length))
CALL_VOID(vulfsjor_ffi_blake2s_wipe, (vulfsjor_blake2s_state *state), (state))
CALL(vulfsjor_ffi_blake2s_digest_size, size_t, (const vulfsjor_blake2s_state *state), (state))
CALL(vulfsjor_ffi_blake2s_count, uint64_t, (const vulfsjor_blake2s_state *state), (state))
CALL(vulfsjor_ffi_blake2s_state_size, size_t, (void), ())

CALL(vulfsjor_ffi_blake2bp, int32_t, (uint8_t *out, size_t out_length, const uint8_t *input,
     size_t input_length, const uint8_t *key, size_t key_length), (out, out_length, input,
     input_length, key, key_length))
CALL(vulfsjor_ffi_blake2bp_init_salt_personal, int32_t, (vulfsjor_blake2bp_state *state,
     size_t output_size, const uint8_t *key, size_t key_length, const uint8_t *salt,
     size_t salt_length, const uint8_t *personal, size_t personal_length), (state, output_size, key,
     key_length, salt, salt_length, personal, personal_length))
CALL(vulfsjor_ffi_blake2bp_init_key, int32_t, (vulfsjor_blake2bp_state *state, size_t output_size,
     const uint8_t *key, size_t key_length), (state, output_size, key, key_length))
CALL(vulfsjor_ffi_blake2bp_update, int32_t, (vulfsjor_blake2bp_state *state, const uint8_t *input,
     size_t input_length), (state, input, input_length))
CALL(vulfsjor_ffi_blake2bp_final, int32_t, (vulfsjor_blake2bp_state *state, uint8_t *out,
     size_t out_length), (state, out, out_length))
CALL(vulfsjor_ffi_blake2bp_verify, int32_t, (vulfsjor_blake2bp_state *state, const uint8_t *tag,
     size_t tag_length), (state, tag, tag_length))
CALL(vulfsjor_ffi_blake2bp_reset, int32_t, (vulfsjor_blake2bp_state *state), (state))
CALL_VOID(vulfsjor_ffi_blake2bp_wipe, (vulfsjor_blake2bp_state *state), (state))
CALL(vulfsjor_ffi_blake2bp_digest_size, size_t, (const vulfsjor_blake2bp_state *state), (state))
CALL(vulfsjor_ffi_blake2bp_count, uint64_t, (const vulfsjor_blake2bp_state *state), (state))
CALL(vulfsjor_ffi_blake2bp_state_size, size_t, (void), ())

CALL(vulfsjor_ffi_blake2sp, int32_t, (uint8_t *out, size_t out_length, const uint8_t *input,
     size_t input_length, const uint8_t *key, size_t key_length), (out, out_length, input,
     input_length, key, key_length))
CALL(vulfsjor_ffi_blake2sp_init_salt_personal, int32_t, (vulfsjor_blake2sp_state *state,
     size_t output_size, const uint8_t *key, size_t key_length, const uint8_t *salt,
     size_t salt_length, const uint8_t *personal, size_t personal_length), (state, output_size, key,
     key_length, salt, salt_length, personal, personal_length))
CALL(vulfsjor_ffi_blake2sp_init_key, int32_t, (vulfsjor_blake2sp_state *state, size_t output_size,
     const uint8_t *key, size_t key_length), (state, output_size, key, key_length))
CALL(vulfsjor_ffi_blake2sp_update, int32_t, (vulfsjor_blake2sp_state *state, const uint8_t *input,
     size_t input_length), (state, input, input_length))
CALL(vulfsjor_ffi_blake2sp_final, int32_t, (vulfsjor_blake2sp_state *state, uint8_t *out,
     size_t out_length), (state, out, out_length))
CALL(vulfsjor_ffi_blake2sp_verify, int32_t, (vulfsjor_blake2sp_state *state, const uint8_t *tag,
     size_t tag_length), (state, tag, tag_length))
CALL(vulfsjor_ffi_blake2sp_reset, int32_t, (vulfsjor_blake2sp_state *state), (state))
CALL_VOID(vulfsjor_ffi_blake2sp_wipe, (vulfsjor_blake2sp_state *state), (state))
CALL(vulfsjor_ffi_blake2sp_digest_size, size_t, (const vulfsjor_blake2sp_state *state), (state))
CALL(vulfsjor_ffi_blake2sp_count, uint64_t, (const vulfsjor_blake2sp_state *state), (state))
CALL(vulfsjor_ffi_blake2sp_state_size, size_t, (void), ())

CALL(vulfsjor_ffi_blake2xb, int32_t, (uint8_t *out, size_t out_length, const uint8_t *input,
     size_t input_length, const uint8_t *key, size_t key_length), (out, out_length, input,
     input_length, key, key_length))
CALL(vulfsjor_ffi_blake2xb_derive_key, int32_t, (uint8_t *out, size_t out_length,
     const uint8_t *key, size_t key_length, const uint8_t *context, size_t context_length), (out,
     out_length, key, key_length, context, context_length))
CALL(vulfsjor_ffi_blake2xb_init_salt_personal, int32_t, (vulfsjor_blake2xb_state *state,
     uint64_t xof_length, const uint8_t *key, size_t key_length, const uint8_t *salt,
     size_t salt_length, const uint8_t *personal, size_t personal_length), (state, xof_length, key,
     key_length, salt, salt_length, personal, personal_length))
CALL(vulfsjor_ffi_blake2xb_update, int32_t, (vulfsjor_blake2xb_state *state, const uint8_t *input,
     size_t input_length), (state, input, input_length))
CALL(vulfsjor_ffi_blake2xb_squeeze, int32_t, (vulfsjor_blake2xb_state *state, uint8_t *out,
     size_t out_length), (state, out, out_length))
CALL(vulfsjor_ffi_blake2xb_reset, int32_t, (vulfsjor_blake2xb_state *state), (state))
CALL_VOID(vulfsjor_ffi_blake2xb_wipe, (vulfsjor_blake2xb_state *state), (state))
CALL(vulfsjor_ffi_blake2xb_left, uint64_t, (const vulfsjor_blake2xb_state *state), (state))
CALL(vulfsjor_ffi_blake2xb_count, uint64_t, (const vulfsjor_blake2xb_state *state), (state))
CALL(vulfsjor_ffi_blake2xb_state_size, size_t, (void), ())

CALL(vulfsjor_ffi_blake2xs, int32_t, (uint8_t *out, size_t out_length, const uint8_t *input,
     size_t input_length, const uint8_t *key, size_t key_length), (out, out_length, input,
     input_length, key, key_length))
CALL(vulfsjor_ffi_blake2xs_derive_key, int32_t, (uint8_t *out, size_t out_length,
     const uint8_t *key, size_t key_length, const uint8_t *context, size_t context_length), (out,
     out_length, key, key_length, context, context_length))
CALL(vulfsjor_ffi_blake2xs_init_salt_personal, int32_t, (vulfsjor_blake2xs_state *state,
     uint64_t xof_length, const uint8_t *key, size_t key_length, const uint8_t *salt,
     size_t salt_length, const uint8_t *personal, size_t personal_length), (state, xof_length, key,
     key_length, salt, salt_length, personal, personal_length))
CALL(vulfsjor_ffi_blake2xs_update, int32_t, (vulfsjor_blake2xs_state *state, const uint8_t *input,
     size_t input_length), (state, input, input_length))
CALL(vulfsjor_ffi_blake2xs_squeeze, int32_t, (vulfsjor_blake2xs_state *state, uint8_t *out,
     size_t out_length), (state, out, out_length))
CALL(vulfsjor_ffi_blake2xs_reset, int32_t, (vulfsjor_blake2xs_state *state), (state))
CALL_VOID(vulfsjor_ffi_blake2xs_wipe, (vulfsjor_blake2xs_state *state), (state))
CALL(vulfsjor_ffi_blake2xs_left, uint64_t, (const vulfsjor_blake2xs_state *state), (state))
CALL(vulfsjor_ffi_blake2xs_count, uint64_t, (const vulfsjor_blake2xs_state *state), (state))
CALL(vulfsjor_ffi_blake2xs_state_size, size_t, (void), ())

CALL(vulfsjor_ffi_tree_root, int32_t, (uint8_t *out, size_t out_length, const uint8_t *input,
     size_t input_length, const uint8_t *salt, size_t salt_length, const uint8_t *personal,
     size_t personal_length, uint32_t leaf_length), (out, out_length, input, input_length, salt,
     salt_length, personal, personal_length, leaf_length))
CALL(vulfsjor_ffi_tree_init, int32_t, (vulfsjor_tree_state *state, size_t output_size,
     const uint8_t *salt, size_t salt_length, const uint8_t *personal, size_t personal_length,
     uint32_t leaf_length), (state, output_size, salt, salt_length, personal, personal_length,
     leaf_length))
CALL(vulfsjor_ffi_tree_update, int32_t, (vulfsjor_tree_state *state, const uint8_t *input,
     size_t input_length), (state, input, input_length))
CALL(vulfsjor_ffi_tree_final, int32_t, (vulfsjor_tree_state *state, uint8_t *out,
     size_t out_length), (state, out, out_length))
CALL_VOID(vulfsjor_ffi_tree_wipe, (vulfsjor_tree_state *state), (state))
CALL(vulfsjor_ffi_tree_digest_size, size_t, (const vulfsjor_tree_state *state), (state))
CALL(vulfsjor_ffi_tree_count, uint64_t, (const vulfsjor_tree_state *state), (state))
CALL(vulfsjor_ffi_tree_leaf_length, uint32_t, (const vulfsjor_tree_state *state), (state))
CALL(vulfsjor_ffi_tree_state_size, size_t, (void), ())
CALL(vulfsjor_ffi_tree_leaf_count, uint64_t, (uint64_t message_length, uint32_t leaf_length),
     (message_length, leaf_length))
CALL(vulfsjor_ffi_tree_leaves, int32_t, (uint8_t *out, size_t out_length, uint64_t first,
     uint32_t ends, const uint8_t *input, size_t input_length, const uint8_t *salt,
     size_t salt_length, const uint8_t *personal, size_t personal_length, uint32_t leaf_length),
     (out, out_length, first, ends, input, input_length, salt, salt_length, personal,
     personal_length, leaf_length))
CALL(vulfsjor_ffi_tree_root_of_leaves, int32_t, (uint8_t *out, size_t out_length,
     const uint8_t *digests, size_t digests_length, const uint8_t *salt, size_t salt_length,
     const uint8_t *personal, size_t personal_length, uint32_t leaf_length), (out, out_length,
     digests, digests_length, salt, salt_length, personal, personal_length, leaf_length))
CALL(vulfsjor_ffi_tree_leaves_ahead, int32_t, (const vulfsjor_tree_state *state, uint8_t *out,
     size_t out_length, uint64_t skip, const uint8_t *input, size_t input_length), (state, out,
     out_length, skip, input, input_length))
CALL(vulfsjor_ffi_tree_update_leaves, int32_t, (vulfsjor_tree_state *state, const uint8_t *digests,
     size_t digests_length, const uint8_t *input, size_t input_length), (state, digests,
     digests_length, input, input_length))
CALL(vulfsjor_ffi_tree_check, int32_t, (size_t output_size, size_t salt_length,
     size_t personal_length, uint32_t leaf_length), (output_size, salt_length, personal_length,
     leaf_length))
CALL(vulfsjor_ffi_tree_init_leaf, int32_t, (vulfsjor_blake2b_state *state, uint64_t i,
     uint32_t last, const uint8_t *salt, size_t salt_length, const uint8_t *personal,
     size_t personal_length, uint32_t leaf_length), (state, i, last, salt, salt_length, personal,
     personal_length, leaf_length))
CALL(vulfsjor_ffi_tree_init_root, int32_t, (vulfsjor_blake2b_state *state, size_t output_size,
     const uint8_t *salt, size_t salt_length, const uint8_t *personal, size_t personal_length,
     uint32_t leaf_length), (state, output_size, salt, salt_length, personal, personal_length,
     leaf_length))
CALL(vulfsjor_ffi_tree_plan, int32_t, (vulfsjor_plan *plan, uint64_t start, uint64_t length,
     uint32_t leaf_length, const vulfsjor_limits *limits), (plan, start, length, leaf_length,
     limits))
CALL(vulfsjor_ffi_tree_plan_update, int32_t, (vulfsjor_plan *plan, const vulfsjor_tree_state *state,
     uint64_t length, const vulfsjor_limits *limits), (plan, state, length, limits))
CALL(vulfsjor_ffi_tree_part, int32_t, (vulfsjor_part *part, const vulfsjor_plan *plan, uint64_t i),
     (part, plan, i))
