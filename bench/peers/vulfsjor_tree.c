// The root of the tree of vulfsjor with leaves of this many bytes, as a digest of a message.
#include "../../c/include/vulfsjor.h"

static uint32_t leaf_length = 1;

// Sets the bytes of a leaf.
void set_leaf(size_t length)
{
    leaf_length = (uint32_t)length;
}

void tree_blake2b512(const uint8_t *message, size_t length, uint8_t *out)
{
    static const uint8_t none;
    vulfsjor_ffi_tree_root(out, 64, message, length, &none, 0, &none, 0, leaf_length);
}
