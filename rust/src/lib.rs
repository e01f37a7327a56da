//! BLAKE2b and BLAKE2s (RFC 7693), BLAKE2bp and BLAKE2sp, BLAKE2Xb and BLAKE2Xs: safe bindings to
//! formally verified functions. The crate contains the assembly that the proved source compiles to. It has no
//! dependencies, and allocates memory only in the calls that use several threads or read. The Rust
//! code of the crate is tested, not proved.
//!
//! The assembly is for Linux, macOS and Windows, on 64-bit ARM and on x86-64 from x86-64-v2 on
//! (SSE4.2 and POPCNT), and uses AVX2 and AVX-512 if the processor has them. On an older x86-64
//! processor the first call panics. On all other targets the crate is a translation of the proved
//! code to Rust, which is not proved.
//!
//! A digest of a message, in one call or in pieces:
//!
//! ```
//! use vulfsjor::Blake2b;
//!
//! let digest = Blake2b::digest(b"hello world");
//! assert_eq!(Blake2b::new().update(b"hello ").update(b"world").finalize(), digest);
//! assert!(Blake2b::digest(b"abc").to_hex().starts_with("ba80a53f981c4d0d"));
//! ```
//!
//! Another digest length, a salt and a personalization (`persona`):
//!
//! ```
//! use vulfsjor::Params;
//!
//! let params = Params::new().output_size(16).salt(b"salt").persona(b"my program");
//! let digest = params.blake2b_hash(b"abc")?;
//! assert_eq!(digest.as_bytes().len(), 16);
//! assert_eq!(params.blake2b()?.update(b"a").update(b"bc").finalize(), digest);
//! let error = params.output_size(65).blake2b().unwrap_err();
//! assert_eq!(error.to_string(), "output_size is 65, and must be 1 to 64");
//! # Ok::<(), vulfsjor::InvalidArgument>(())
//! ```
//!
//! A message authentication code under a random key of 32 bytes. `verify` compares all bytes of
//! the tag:
//!
//! ```
//! use vulfsjor::{Blake2bMac, Params};
//!
//! # let key = [7; 32];
//! let params = Params::new().key(&key).output_size(32).persona(b"invoices");
//! let mut mac = Blake2bMac::with_params(&params)?;
//! mac.update(b"message");
//! let tag = mac.finalize();
//! assert!(mac.verify(tag.as_bytes()).is_ok());
//! assert!(mac.verify(b"another tag").is_err());
//! # Ok::<(), vulfsjor::InvalidArgument>(())
//! ```
//!
//! Several messages in one call:
//!
//! ```
//! use vulfsjor::{Blake2s, Params};
//!
//! let mut digests = [[0; 32]; 2];
//! Blake2s::digest_many(&Params::new(), &["abc", "xyz"], &mut digests)?;
//! assert_eq!(Blake2s::digest(b"xyz"), digests[1]);
//! # Ok::<(), vulfsjor::InvalidArgument>(())
//! ```
//!
//! A node of a tree of hashes, here the last of its level:
//!
//! ```
//! use vulfsjor::{Params, Tree};
//!
//! let place = Tree {
//!     fanout: 2, depth: 2, leaf_length: 4096, node_offset: 1, node_depth: 0, inner_length: 64,
//! };
//! let leaf = Params::new().tree(place).last_node(true).blake2b_hash(b"the second leaf")?;
//! assert_eq!(leaf.as_bytes().len(), 64);
//! # Ok::<(), vulfsjor::InvalidArgument>(())
//! ```
//!
//! The root of a message in a tree of two levels, in one call or in pieces. It is not a BLAKE2b
//! digest of the message:
//!
//! ```
//! use vulfsjor::TreeParams;
//!
//! let params = TreeParams::new(1 << 16).persona(b"files");
//! let root = params.root(b"hello world")?;
//! assert_eq!(params.hasher()?.update(b"hello ").update(b"world").finalize(), root);
//! # Ok::<(), vulfsjor::InvalidArgument>(())
//! ```
//!
//! With the feature `std`, `TreeParams::root_threads` computes the same root on all processors,
//! `TreeParams::root_file` that of a file, and `TreeHasher::update_threads` absorbs a piece with
//! several threads. [`TreeParams::leaves`] and [`TreeParams::root_of_leaves`] compute it in parts,
//! on any threads, processes or machines.
//!
//! BLAKE2bp and BLAKE2sp hash four or eight leaves in parallel on one processor, and are faster on
//! long messages. Their digests are other ones than those of BLAKE2b and BLAKE2s:
//!
//! ```
//! use vulfsjor::{Blake2b, Blake2bp};
//!
//! let digest = Blake2bp::digest(b"hello world");
//! assert_eq!(Blake2bp::new().update(b"hello ").update(b"world").finalize(), digest);
//! assert_ne!(Blake2b::digest(b"hello world"), digest);
//! ```
//!
//! An output of any length, in pieces, and keys that are derived from a key, by BLAKE2Xb and
//! BLAKE2Xs:
//!
//! ```
//! use vulfsjor::{Blake2xb, Params};
//!
//! let mut mask = [0; 1000];
//! let params = Params::new().output_size(mask.len());
//! params.blake2xb()?.update(b"seed").finalize_xof().read(&mut mask)?;
//! # let key = [7; 32];
//! let mut file_key = [0; 32];
//! Blake2xb::derive_key(&key, "encrypt files", &mut file_key)?;
//! # Ok::<(), vulfsjor::InvalidArgument>(())
//! ```
//!
//! A stream, with the feature `std`: a hasher reads from an `io::Read`, and is an `io::Write`.
//!
//! ```
//! # #[cfg(feature = "std")] {
//! use std::io::Write;
//! use vulfsjor::Blake2s;
//!
//! let digest = Blake2s::new().update_reader(&b"abc"[..])?.finalize();
//! assert!(digest.to_hex().starts_with("508c5e8c327c14e2"));
//! let mut hasher = Blake2s::new();
//! write!(hasher, "a{}", "bc")?;
//! assert_eq!(hasher.finalize(), digest);
//! # }
//! # Ok::<(), std::io::Error>(())
//! ```
//!
//! # Safe use
//!
//! The project's README, "Use it safely", has the rules for keys, tags, personalization and
//! passwords. In this crate:
//!
//! - Compare tags with `verify` of a MAC or with `==` of a [`Digest`]. Both compare all bytes.
//! - Make tags by [`Blake2bMac`] and its like: `std::mem::take` of a [`Blake2b`] with a key leaves
//!   one without.
//! - A hasher is wiped when it is dropped, and its `Debug` shows no byte of it. Calls that accept a
//!   key or compress its block overwrite their part of the stack. If a value is moved, the bytes at
//!   its old address are not wiped.
//! - The root of a tree depends on the length of the leaves. Use a tree for large inputs whose
//!   parts are hashed in parallel or checked separately.
//!
//! # Features
//!
//! `std`, which is on by default, adds `std::io::Write` and `update_reader` for hashers,
//! `std::error::Error` for errors, comparisons with `Vec<u8>`, and the calls that use several
//! threads or read files. Without it the crate is `no_std` and does not allocate.
#![no_std]
#![deny(missing_docs, unsafe_op_in_unsafe_fn)]

// Items for targets whose assembly `dist/` has, and items for all others, which get the library in
// portable Rust.
macro_rules! with_assembly {
    ($($item:item)*) => {
        $(
            #[cfg(all(
                not(vulfsjor_build = "portable"),
                any(target_arch = "x86_64", target_arch = "aarch64"),
                any(target_os = "linux", target_os = "macos", windows),
                target_pointer_width = "64",
                target_endian = "little",
            ))]
            $item
        )*
    };
}
macro_rules! without_assembly {
    ($($item:item)*) => {
        $(
            #[cfg(any(
                vulfsjor_build = "portable",
                not(any(target_arch = "x86_64", target_arch = "aarch64")),
                not(any(target_os = "linux", target_os = "macos", windows)),
                not(target_pointer_width = "64"),
                not(target_endian = "little"),
            ))]
            $item
        )*
    };
}

#[cfg(any(feature = "std", test))]
extern crate std;

// What all types that absorb input in pieces have: `update_reader`, `std::io::Write`, and a `Debug`
// that shows nothing.
macro_rules! impl_stream_methods {
    ($type:ident) => {
        /// Shows no byte of the state, since that may hold a key.
        impl core::fmt::Debug for $type {
            #[inline]
            fn fmt(&self, f: &mut core::fmt::Formatter<'_>) -> core::fmt::Result {
                f.write_str(concat!(stringify!($type), " { .. }"))
            }
        }

        #[cfg(feature = "std")]
        impl $type {
            /// Absorbs all bytes of the reader, to its end, through a buffer of 1 MiB.
            ///
            /// A read that was interrupted is repeated.
            ///
            /// # Errors
            ///
            /// An error of the reader. All bytes that were read before it are absorbed.
            ///
            /// # Panics
            ///
            /// As [`update`](Self::update).
            pub fn update_reader(
                &mut self,
                reader: impl std::io::Read,
            ) -> std::io::Result<&mut Self> {
                crate::read_all::read_all(reader, |bytes| {
                    self.update(bytes);
                    Ok(())
                })?;
                Ok(self)
            }
        }

        /// Absorbs all that is written. A write never fails.
        #[cfg(feature = "std")]
        impl std::io::Write for $type {
            #[inline]
            fn write(&mut self, bytes: &[u8]) -> std::io::Result<usize> {
                self.update(bytes);
                Ok(bytes.len())
            }

            #[inline]
            fn flush(&mut self) -> std::io::Result<()> {
                Ok(())
            }
        }
    };
}

mod digest;
mod error;
mod family;
#[allow(unused_macros)] // those for assembly
mod library;
mod params;
with_assembly! {
    #[cfg(target_arch = "x86_64")]
    mod processor;
}
#[cfg(feature = "std")]
mod read_all;
#[cfg(test)]
mod tests;
#[cfg(feature = "std")]
mod threads;
mod tree;
#[cfg(feature = "std")]
mod tree_file;
mod tree_params;
mod xof;

pub use digest::{Digest, HexString};
pub use error::{Bounds, HexError, InvalidArgument, InvalidState, KeyedState, MacError};
pub use family::{
    Blake2b, Blake2bMac, Blake2bp, Blake2bpMac, Blake2s, Blake2sMac, Blake2sp, Blake2spMac,
};
pub use params::{Params, Tree};
pub use tree::TreeHasher;
pub use tree_params::TreeParams;
pub use xof::{Blake2xb, Blake2xbReader, Blake2xs, Blake2xsReader};

/// The code that runs on this processor: the line of `dist/MANIFEST` for it, which is the SHA-256 of
/// a file of `dist/` in hexadecimal, two spaces, and its name, such as `x86_64/vulfsjor-v3.s`.
///
/// # Panics
///
/// On an x86-64 processor below x86-64-v2.
#[must_use]
pub fn build() -> &'static str {
    let name = library::text_name();
    let mut lines = include_str!("../../dist/MANIFEST").lines();
    lines.find(|line| line.split("  ").nth(1) == Some(name)).unwrap_or_default()
}
