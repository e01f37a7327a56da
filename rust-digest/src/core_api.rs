//! The cores of BLAKE2b and BLAKE2s, by the names of the crate `blake2` 0.10: hash functions without
//! their buffer, for code over `digest::core_api`. The wrappers there keep the pending bytes, and do
//! not wipe them; a core is wiped when it is dropped. The other types of this crate need no core.

use core::fmt;

use digest::block_buffer::Lazy;
use digest::consts::{U128, U32, U64};
use digest::core_api::{
    AlgorithmName, Block, BlockSizeUser, Buffer, BufferKindUser, CtVariableCoreWrapper,
    OutputSizeUser, TruncSide, UpdateCore, VariableOutputCore,
};
use digest::{HashMarker, InvalidOutputSize, Output, Reset};
use vulfsjor::Params;

macro_rules! core_of {
    ($core:ident, $hasher:ident, $mac:ident, $max:ty, $block:ty, $build:ident) => {
        #[doc = concat!("The core of [`", stringify!($hasher), "`](crate::", stringify!($hasher), "),")]
        /// with a size that is chosen at run time.
        #[must_use = "its input is lost with it"]
        #[derive(Clone)]
        pub struct $core(vulfsjor::$hasher);

        impl $core {
            /// Returns a core with a salt, a persona and digests of `output_size` bytes.
            ///
            /// # Panics
            ///
            /// Panics if a length is more than the family accepts, if `output_size` is 0, or if
            #[doc = concat!("`key_size` is not 0: a key is that of [`", stringify!($mac), "`](crate::")]
            #[doc = concat!(stringify!($mac), "::new_with_salt_and_personal).")]
            pub fn new_with_params(
                salt: &[u8],
                persona: &[u8],
                key_size: usize,
                output_size: usize,
            ) -> Self {
                assert!(key_size == 0, concat!("a key is that of ", stringify!($mac)));
                let params = Params::new().salt(salt).persona(persona).output_size(output_size);
                $core(params.$build().expect("lengths of the family"))
            }
        }

        impl HashMarker for $core {}

        impl BlockSizeUser for $core {
            type BlockSize = $block;
        }

        impl BufferKindUser for $core {
            type BufferKind = Lazy;
        }

        impl OutputSizeUser for $core {
            type OutputSize = $max;
        }

        impl UpdateCore for $core {
            fn update_blocks(&mut self, blocks: &[Block<Self>]) {
                for block in blocks {
                    self.0.update(block);
                }
            }
        }

        impl VariableOutputCore for $core {
            const TRUNC_SIDE: TruncSide = TruncSide::Left;

            fn new(output_size: usize) -> Result<Self, InvalidOutputSize> {
                let made = Params::new().output_size(output_size).$build();
                made.map($core).map_err(|_| InvalidOutputSize)
            }

            fn finalize_variable_core(&mut self, buffer: &mut Buffer<Self>, out: &mut Output<Self>) {
                self.0.update(buffer.get_data());
                let digest = self.0.finalize_reset();
                out[..digest.as_bytes().len()].copy_from_slice(digest.as_bytes());
            }
        }

        impl Reset for $core {
            fn reset(&mut self) {
                self.0.reset();
            }
        }

        impl AlgorithmName for $core {
            fn write_alg_name(f: &mut fmt::Formatter<'_>) -> fmt::Result {
                f.write_str(stringify!($hasher))
            }
        }

        impl fmt::Debug for $core {
            fn fmt(&self, f: &mut fmt::Formatter<'_>) -> fmt::Result {
                f.write_str(concat!(stringify!($core), " { .. }"))
            }
        }
    };
}

core_of!(Blake2bVarCore, Blake2b, Blake2bMac, U64, U128, blake2b);
core_of!(Blake2sVarCore, Blake2s, Blake2sMac, U32, U64, blake2s);

/// The core of BLAKE2b with digests of `N` bytes.
pub type Blake2bCore<N> = CtVariableCoreWrapper<Blake2bVarCore, N>;
/// The core of BLAKE2s with digests of `N` bytes.
pub type Blake2sCore<N> = CtVariableCoreWrapper<Blake2sVarCore, N>;
