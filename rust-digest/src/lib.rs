//! The hashers and MACs of the crate `vulfsjor` under the traits of the crate `digest` 0.10, for
//! generic code that requires a `Digest`, a `Mac`, a `VariableOutput` or an `ExtendableOutput`. Names, key lengths and
//! results are those of the crate `blake2` 0.10, except that an empty key is refused. BLAKE2bp and
//! BLAKE2sp, BLAKE2Xb and BLAKE2Xs, which `blake2` does not have, are here too. This code is not proved; it calls
//! `vulfsjor`, which calls the proved functions. A value is wiped when it is dropped.
//!
//! `hmac::SimpleHmac`, `hkdf::SimpleHkdf` and `pbkdf2` accept these hash functions. `hmac::Hmac`
//! does not: it requires one that compresses each block as soon as the block is full. BLAKE2 needs
//! no HMAC construction: use [`Blake2bMac`].
//!
//! With the feature `std`, which is on by default, all types that absorb input are
//! `std::io::Write`, and the readers of outputs `std::io::Read`.
//!
//! It is a separate crate, so that `vulfsjor` builds without a registry.
//!
//! ```
//! use vulfsjor_digest::{digest, Blake2b512, Digest};
//!
//! fn twice<D: Digest>(message: &[u8]) -> digest::Output<D> {
//!     D::digest(D::digest(message))
//! }
//! assert_eq!(twice::<Blake2b512>(b"abc").len(), 64);
//! ```
#![no_std]
#![forbid(unsafe_code)]
#![deny(missing_docs)]

#[cfg(feature = "std")]
extern crate std;

mod core_api;
#[cfg(feature = "serde")]
pub mod serde;

pub use core_api::{Blake2bCore, Blake2bVarCore, Blake2sCore, Blake2sVarCore};
pub use digest::{self, Digest};

use core::fmt;
use core::marker::PhantomData;

use digest::consts::{True, U128, U16, U32, U64};
use digest::crypto_common::{
    AlgorithmName, BlockSizeUser, InvalidLength, Key, KeyInit, KeySizeUser,
};
use digest::generic_array::ArrayLength;
use digest::typenum::{IsLessOrEqual, NonZero, Unsigned};
use digest::{
    ExtendableOutput, ExtendableOutputReset, FixedOutput, FixedOutputReset, HashMarker,
    InvalidBufferSize, InvalidOutputSize, MacMarker, Output, OutputSizeUser, Reset, Update,
    VariableOutput, VariableOutputReset, XofReader,
};
use vulfsjor::Params;

// `std::io::Write` of a type that absorbs input, by that of `vulfsjor`.
macro_rules! write_by {
    ($type:ident $(<$n:ident>)?) => {
        /// Absorbs all that is written. A write never fails.
        #[cfg(feature = "std")]
        impl $(<$n>)? std::io::Write for $type $(<$n>)? {
            fn write(&mut self, bytes: &[u8]) -> std::io::Result<usize> {
                std::io::Write::write(&mut self.0, bytes)
            }

            fn flush(&mut self) -> std::io::Result<()> {
                std::io::Write::flush(&mut self.0)
            }
        }
    };
}

macro_rules! family {
    ($name:literal, $hasher:ident, $mac:ident, $var:ident, $max:ty, $block:ty, $build:ident) => {
        #[doc = concat!("The hash function ", $name, " with digests of `N` bytes, a number of")]
        #[doc = concat!("`typenum` from 1 to `", stringify!($max), "`.")]
        #[must_use = "its input is lost with it"]
        #[derive(Clone)]
        pub struct $hasher<N>(vulfsjor::$hasher, PhantomData<N>);

        impl<N> $hasher<N>
        where
            N: ArrayLength<u8> + IsLessOrEqual<$max, Output = True> + NonZero,
        {
            fn with(params: Params<'_>) -> Result<Self, InvalidLength> {
                let made = params.output_size(N::USIZE).$build();
                made.map(|hasher| $hasher(hasher, PhantomData)).map_err(|_| InvalidLength)
            }

            /// Returns a hasher with a salt and a persona. The error is `InvalidLength`, exactly if
            /// one of them is longer than the family accepts. In BLAKE2bp and BLAKE2sp both are an
            /// extension, which the BLAKE2 document does not have.
            pub fn new_with_salt_and_personal(
                salt: &[u8],
                persona: &[u8],
            ) -> Result<Self, InvalidLength> {
                Self::with(Params::new().salt(salt).persona(persona))
            }
        }

        impl<N> Default for $hasher<N>
        where
            N: ArrayLength<u8> + IsLessOrEqual<$max, Output = True> + NonZero,
        {
            fn default() -> Self {
                Self::with(Params::new()).expect("a size of the family")
            }
        }

        impl<N> HashMarker for $hasher<N> {}

        impl<N> fmt::Debug for $hasher<N> {
            fn fmt(&self, f: &mut fmt::Formatter<'_>) -> fmt::Result {
                f.write_str(concat!(stringify!($hasher), " { .. }"))
            }
        }

        #[doc = concat!("The MAC of ", $name, " with tags of `N` bytes.")]
        #[must_use = "its input is lost with it"]
        #[derive(Clone)]
        pub struct $mac<N>(vulfsjor::$mac, PhantomData<N>);

        impl<N> $mac<N>
        where
            N: ArrayLength<u8> + IsLessOrEqual<$max, Output = True> + NonZero,
        {
            /// Returns a MAC with a key of at least 1 byte, a salt and a persona. The error is
            /// `InvalidLength`, exactly if the key is empty or a length is more than the family
            /// accepts.
            pub fn new_with_salt_and_personal(
                key: &[u8],
                salt: &[u8],
                persona: &[u8],
            ) -> Result<Self, InvalidLength> {
                let params = Params::new().output_size(N::USIZE).key(key);
                let params = params.salt(salt).persona(persona);
                let params = params.allow_short(true); // the type names the length
                let made = vulfsjor::$mac::with_params(&params);
                made.map(|mac| $mac(mac, PhantomData)).map_err(|_| InvalidLength)
            }
        }

        impl<N> KeySizeUser for $mac<N> {
            type KeySize = $max;
        }

        /// `new_from_slice` accepts a key of 1 to that number of bytes.
        impl<N> KeyInit for $mac<N>
        where
            N: ArrayLength<u8> + IsLessOrEqual<$max, Output = True> + NonZero,
        {
            fn new(key: &Key<Self>) -> Self {
                Self::new_from_slice(key).expect("a key of the family")
            }

            fn new_from_slice(key: &[u8]) -> Result<Self, InvalidLength> {
                Self::new_with_salt_and_personal(key, b"", b"")
            }
        }

        impl<N> MacMarker for $mac<N> {}

        impl<N> fmt::Debug for $mac<N> {
            fn fmt(&self, f: &mut fmt::Formatter<'_>) -> fmt::Result {
                f.write_str(concat!(stringify!($mac), " { .. }"))
            }
        }

        family!(@both $name, $hasher, $max, $block);
        family!(@both concat!($name, "Mac"), $mac, $max, $block);

        #[doc = concat!($name, " with a size that is chosen at run time.")]
        #[must_use = "its input is lost with it"]
        #[derive(Clone)]
        pub struct $var(vulfsjor::$hasher, usize);

        impl Update for $var {
            fn update(&mut self, data: &[u8]) {
                self.0.update(data);
            }
        }

        write_by!($var);

        impl Reset for $var {
            fn reset(&mut self) {
                self.0.reset();
            }
        }

        impl VariableOutput for $var {
            const MAX_OUTPUT_SIZE: usize = <$max as Unsigned>::USIZE;

            fn new(output_size: usize) -> Result<Self, InvalidOutputSize> {
                let made = Params::new().output_size(output_size).$build();
                made.map(|hasher| $var(hasher, output_size)).map_err(|_| InvalidOutputSize)
            }

            fn output_size(&self) -> usize {
                self.1
            }

            fn finalize_variable(self, out: &mut [u8]) -> Result<(), InvalidBufferSize> {
                if out.len() != self.1 {
                    return Err(InvalidBufferSize);
                }
                out.copy_from_slice(self.0.finalize().as_bytes());
                Ok(())
            }
        }

        impl VariableOutputReset for $var {
            fn finalize_variable_reset(&mut self, out: &mut [u8]) -> Result<(), InvalidBufferSize> {
                if out.len() != self.1 {
                    return Err(InvalidBufferSize);
                }
                out.copy_from_slice(self.0.finalize_reset().as_bytes());
                Ok(())
            }
        }

        impl fmt::Debug for $var {
            fn fmt(&self, f: &mut fmt::Formatter<'_>) -> fmt::Result {
                f.write_str(concat!(stringify!($var), " { .. }"))
            }
        }
    };

    // What the hasher and the MAC both have.
    (@both $name:expr, $type:ident, $max:ty, $block:ty) => {
        impl<N> OutputSizeUser for $type<N>
        where
            N: ArrayLength<u8> + IsLessOrEqual<$max, Output = True> + NonZero + 'static,
        {
            type OutputSize = N;
        }

        impl<N> BlockSizeUser for $type<N> {
            type BlockSize = $block;
        }

        impl<N> AlgorithmName for $type<N>
        where
            N: Unsigned,
        {
            fn write_alg_name(f: &mut fmt::Formatter<'_>) -> fmt::Result {
                write!(f, "{}{}", $name, 8 * N::USIZE)
            }
        }

        impl<N> Update for $type<N> {
            fn update(&mut self, data: &[u8]) {
                self.0.update(data);
            }
        }

        write_by!($type<N>);

        impl<N> Reset for $type<N> {
            fn reset(&mut self) {
                self.0.reset();
            }
        }

        impl<N> FixedOutput for $type<N>
        where
            N: ArrayLength<u8> + IsLessOrEqual<$max, Output = True> + NonZero + 'static,
        {
            fn finalize_into(self, out: &mut Output<Self>) {
                out.copy_from_slice(self.0.finalize().as_bytes());
            }
        }

        impl<N> FixedOutputReset for $type<N>
        where
            N: ArrayLength<u8> + IsLessOrEqual<$max, Output = True> + NonZero + 'static,
        {
            fn finalize_into_reset(&mut self, out: &mut Output<Self>) {
                out.copy_from_slice(self.0.finalize_reset().as_bytes());
            }
        }
    };
}

family!("Blake2b", Blake2b, Blake2bMac, Blake2bVar, U64, U128, blake2b);
family!("Blake2s", Blake2s, Blake2sMac, Blake2sVar, U32, U64, blake2s);
family!("Blake2bp", Blake2bp, Blake2bpMac, Blake2bpVar, U64, U128, blake2bp);
family!("Blake2sp", Blake2sp, Blake2spMac, Blake2spVar, U32, U64, blake2sp);

macro_rules! xof {
    ($name:literal, $hasher:ident, $reader:ident, $max:ty, $block:ty, $build:ident) => {
        #[doc = concat!("The extendable output function ", $name, ". `default` has an output whose")]
        /// length is not known in advance.
        #[must_use = "its input is lost with it"]
        #[derive(Clone, Default)]
        pub struct $hasher(vulfsjor::$hasher);

        impl $hasher {
            /// Returns a hasher with these parameters, whose `output_size` is the length of the
            /// output. The error is `InvalidLength`, exactly if `vulfsjor` refuses them.
            pub fn with_params(params: &Params<'_>) -> Result<Self, InvalidLength> {
                params.$build().map($hasher).map_err(|_| InvalidLength)
            }
        }

        impl HashMarker for $hasher {}

        impl KeySizeUser for $hasher {
            type KeySize = $max;
        }

        /// `new_from_slice` accepts a key of 1 to that number of bytes. The length of the output is
        /// not known in advance.
        impl KeyInit for $hasher {
            fn new(key: &Key<Self>) -> Self {
                Self::new_from_slice(key).expect("a key of the family")
            }

            fn new_from_slice(key: &[u8]) -> Result<Self, InvalidLength> {
                Self::with_params(&Params::new().key(key))
            }
        }

        impl BlockSizeUser for $hasher {
            type BlockSize = $block;
        }

        impl AlgorithmName for $hasher {
            fn write_alg_name(f: &mut fmt::Formatter<'_>) -> fmt::Result {
                f.write_str($name)
            }
        }

        impl Update for $hasher {
            fn update(&mut self, data: &[u8]) {
                self.0.update(data);
            }
        }

        write_by!($hasher);

        impl Reset for $hasher {
            fn reset(&mut self) {
                self.0.reset();
            }
        }

        impl ExtendableOutput for $hasher {
            type Reader = $reader;

            fn finalize_xof(self) -> Self::Reader {
                $reader(self.0.finalize_xof())
            }
        }

        impl ExtendableOutputReset for $hasher {
            fn finalize_xof_reset(&mut self) -> Self::Reader {
                let reader = self.0.finalize_xof();
                self.0.reset();
                $reader(reader)
            }
        }

        impl fmt::Debug for $hasher {
            fn fmt(&self, f: &mut fmt::Formatter<'_>) -> fmt::Result {
                f.write_str(concat!(stringify!($hasher), " { .. }"))
            }
        }

        #[doc = concat!("The output of ", $name, ". `read` panics past the end.")]
        #[must_use = "nothing is read from it"]
        #[derive(Clone)]
        pub struct $reader(vulfsjor::$reader);

        impl XofReader for $reader {
            fn read(&mut self, buffer: &mut [u8]) {
                self.0.read(buffer).expect("bytes that are left");
            }
        }

        /// Reads as many bytes as there is room for, or as are left: 0 at the end.
        #[cfg(feature = "std")]
        impl std::io::Read for $reader {
            fn read(&mut self, buffer: &mut [u8]) -> std::io::Result<usize> {
                std::io::Read::read(&mut self.0, buffer)
            }
        }

        impl fmt::Debug for $reader {
            fn fmt(&self, f: &mut fmt::Formatter<'_>) -> fmt::Result {
                f.write_str(concat!(stringify!($reader), " { .. }"))
            }
        }
    };
}

xof!("Blake2xb", Blake2xb, Blake2xbReader, U64, U128, blake2xb);
xof!("Blake2xs", Blake2xs, Blake2xsReader, U32, U64, blake2xs);

/// BLAKE2b with digests of 64 bytes.
pub type Blake2b512 = Blake2b<U64>;
/// BLAKE2b with digests of 32 bytes.
pub type Blake2b256 = Blake2b<U32>;
/// BLAKE2b with digests of 16 bytes.
pub type Blake2b128 = Blake2b<U16>;
/// BLAKE2s with digests of 32 bytes.
pub type Blake2s256 = Blake2s<U32>;
/// BLAKE2s with digests of 16 bytes.
pub type Blake2s128 = Blake2s<U16>;
/// BLAKE2bp with digests of 64 bytes.
pub type Blake2bp512 = Blake2bp<U64>;
/// BLAKE2bp with digests of 32 bytes.
pub type Blake2bp256 = Blake2bp<U32>;
/// BLAKE2sp with digests of 32 bytes.
pub type Blake2sp256 = Blake2sp<U32>;
/// BLAKE2b's MAC with tags of 64 bytes.
pub type Blake2bMac512 = Blake2bMac<U64>;
/// BLAKE2s's MAC with tags of 32 bytes.
pub type Blake2sMac256 = Blake2sMac<U32>;
/// BLAKE2bp's MAC with tags of 64 bytes.
pub type Blake2bpMac512 = Blake2bpMac<U64>;
/// BLAKE2sp's MAC with tags of 32 bytes.
pub type Blake2spMac256 = Blake2spMac<U32>;
