use crate::error::check_range;
use crate::library::{self, Blake2xbState, Blake2xsState};
use crate::params::FamilyLimits;
use crate::{InvalidArgument, Params};

// What both have, on top of the states and the functions of `library`.
macro_rules! xof {
    (
        $family:literal, $hasher:ident, $reader:ident, $state:ident, $max:literal, $unknown:literal,
        $longest:literal, $whole:literal, $limits:expr, $init:ident, $update:ident, $squeeze:ident,
        $reset:ident, $wipe:ident, $left:ident, $count:ident, $derive_key:ident
    ) => {
        #[doc = concat!("A message for ", $family, ", whose output has any length. It is wiped")]
        /// when it is dropped.
        ///
        /// A clone is independent: each absorbs its own further input.
        #[must_use = "its input is lost with it"]
        pub struct $hasher {
            pub(crate) state: $state,
        }

        impl $hasher {
            /// Returns a hasher without a key, with an output whose length is not known in advance:
            #[doc = concat!($whole, " can be read.")]
            #[inline]
            pub fn new() -> Self {
                Self::with_params(&Params::new()).expect("lengths of the family")
            }

            /// Returns a hasher with these parameters. Their `output_size` is the length of the
            #[doc = concat!("output, 1 to ", $longest, "; without one it is not known in advance.")]
            /// The output depends on its length.
            ///
            /// # Errors
            ///
            /// [`InvalidArgument`] exactly if a length is out of the family's range, or the
            /// parameters set tree parameters or the last-node flag.
            #[inline]
            pub fn with_params(params: &Params<'_>) -> Result<Self, InvalidArgument> {
                params.check_sequential()?;
                params.check_key($max)?;
                let Params { output_size, salt, persona, .. } = *params;
                let length = output_size.map_or($unknown, |size| size as u64);
                if output_size.is_some() {
                    check_range("output_size", length, 1, $unknown - 1)?;
                }
                let key = params.key_or_none();
                library::panic_without_build();
                let mut hasher = $hasher { state: $state::ZEROS };
                // Safety: the pointers come from slices of these lengths, and none is null. The
                // state overlaps none of them.
                let status = unsafe {
                    library::$init(
                        &mut hasher.state,
                        length,
                        key.as_ptr(),
                        key.len(),
                        salt.as_ptr(),
                        salt.len(),
                        persona.as_ptr(),
                        persona.len(),
                    )
                };
                let rest = Params { output_size: None, ..*params };
                InvalidArgument::ok_if_status_is_zero(status, || rest.check(&$limits))?;
                Ok(hasher)
            }

            /// Absorbs the input after all earlier input.
            ///
            /// # Panics
            ///
            /// If the input since the last reset, with the block of a key, would have 2^64 bytes or
            /// more. The hasher is then unchanged.
            pub fn update(&mut self, input: impl AsRef<[u8]>) -> &mut Self {
                let input = input.as_ref();
                // Safety: the pointer comes from a slice of this length, which the state cannot
                // overlap.
                let status =
                    unsafe { library::$update(&mut self.state, input.as_ptr(), input.len()) };
                assert_eq!(status, 0, "an input of 2^64 bytes");
                self
            }

            /// Returns a reader of the output for all input since the last reset. The hasher is
            /// unchanged, and can absorb more input.
            ///
            /// ```
            #[doc = concat!("use vulfsjor::", stringify!($hasher), ";")]
            ///
            /// let mut bytes = [0; 96];
            #[doc = concat!("let mut hasher = ", stringify!($hasher), "::new();")]
            /// let mut reader = hasher.update(b"abc").finalize_xof();
            /// reader.read(&mut bytes[..50])?;
            /// reader.read(&mut bytes[50..])?;
            /// # Ok::<(), vulfsjor::InvalidArgument>(())
            /// ```
            #[inline]
            pub fn finalize_xof(&self) -> $reader {
                let mut copy = $reader { state: $state::ZEROS };
                copy.state.0.copy_from_slice(&self.state.0);
                copy
            }

            /// Discards all input. The parameters stay.
            #[inline]
            pub fn reset(&mut self) {
                // Safety: the state has initialized bytes.
                let status = unsafe { library::$reset(&mut self.state) };
                assert_eq!(status, 0, "a state that new has made");
            }

            /// Returns the number of bytes of input since the last reset, without the key.
            #[must_use]
            #[inline]
            pub fn count(&self) -> u64 {
                // Safety: the state has initialized bytes.
                unsafe { library::$count(&self.state) }
            }

            /// Derives a key of as many bytes as `out` has from a key, for a context: the output of
            /// the context under the key.
            ///
            /// Each purpose has a context of its own. Keys for different contexts, and keys of
            /// different lengths, are outputs of different inputs.
            ///
            /// ```
            #[doc = concat!("use vulfsjor::", stringify!($hasher), ";")]
            ///
            /// # let key = [7; 32];
            /// let (mut files, mut cookies) = ([0; 32], [0; 96]);
            #[doc = concat!(stringify!($hasher), "::derive_key(&key, b\"files 2026\", &mut files)?;")]
            #[doc = concat!(stringify!($hasher), "::derive_key(&key, b\"cookies\", &mut cookies)?;")]
            /// # Ok::<(), vulfsjor::InvalidArgument>(())
            /// ```
            ///
            /// # Errors
            ///
            #[doc = concat!("[`InvalidArgument`] exactly if the key has 0 or more than ", stringify!($max))]
            #[doc = concat!("bytes, or `out` has 0 or more than ", $longest, ".")]
            pub fn derive_key(
                key: &[u8],
                context: impl AsRef<[u8]>,
                out: &mut [u8],
            ) -> Result<(), InvalidArgument> {
                let context = context.as_ref();
                // Safety: the pointers come from slices of these lengths. `out` overlaps neither of
                // the others, since it is mutable.
                let status = unsafe {
                    library::$derive_key(
                        out.as_mut_ptr(),
                        out.len(),
                        key.as_ptr(),
                        key.len(),
                        context.as_ptr(),
                        context.len(),
                    )
                };
                InvalidArgument::ok_if_status_is_zero(status, || {
                    check_range("key.len()", key.len() as u64, 1, $max)?;
                    check_range("out.len()", out.len() as u64, 1, $unknown - 1)
                })
            }
        }

        impl Clone for $hasher {
            #[inline]
            fn clone(&self) -> Self {
                let mut copy = $hasher { state: $state::ZEROS };
                copy.state.0.copy_from_slice(&self.state.0);
                copy
            }
        }

        impl Default for $hasher {
            #[inline]
            fn default() -> Self {
                Self::new()
            }
        }

        impl Drop for $hasher {
            #[inline]
            fn drop(&mut self) {
                // Safety: the state has initialized bytes.
                unsafe { library::$wipe(&mut self.state) }
            }
        }

        impl_stream_methods!($hasher);

        #[doc = concat!("The output of ", $family, ", which is read in pieces. It is wiped when it")]
        /// is dropped.
        #[must_use = "nothing is read from it"]
        pub struct $reader {
            state: $state,
        }

        impl $reader {
            /// Reads the next bytes of the output into `out`. The output does not depend on how it
            /// is split into reads.
            ///
            /// # Errors
            ///
            /// [`InvalidArgument`] exactly if fewer bytes are [left](Self::left) than `out` has.
            /// Then nothing is read.
            #[inline]
            pub fn read(&mut self, out: &mut [u8]) -> Result<(), InvalidArgument> {
                // Safety: the output has this length, and does not overlap the state.
                let status =
                    unsafe { library::$squeeze(&mut self.state, out.as_mut_ptr(), out.len()) };
                InvalidArgument::ok_if_status_is_zero(status, || {
                    check_range("out.len()", out.len() as u64, 0, self.left())
                })
            }

            /// Returns how many bytes of the output are left to read.
            #[must_use]
            #[inline]
            pub fn left(&self) -> u64 {
                // Safety: the state has initialized bytes.
                unsafe { library::$left(&self.state) }
            }
        }

        impl Clone for $reader {
            #[inline]
            fn clone(&self) -> Self {
                let mut copy = $reader { state: $state::ZEROS };
                copy.state.0.copy_from_slice(&self.state.0);
                copy
            }
        }

        impl Drop for $reader {
            #[inline]
            fn drop(&mut self) {
                // Safety: the state has initialized bytes.
                unsafe { library::$wipe(&mut self.state) }
            }
        }

        /// Shows no byte of the state, since that may hold a key.
        impl core::fmt::Debug for $reader {
            #[inline]
            fn fmt(&self, f: &mut core::fmt::Formatter<'_>) -> core::fmt::Result {
                f.write_str(concat!(stringify!($reader), " { .. }"))
            }
        }

        /// Reads as many bytes as there is room for, or as are left: 0 at the end.
        #[cfg(feature = "std")]
        impl std::io::Read for $reader {
            #[inline]
            fn read(&mut self, out: &mut [u8]) -> std::io::Result<usize> {
                let length = self.left().min(out.len() as u64) as usize;
                $reader::read(self, &mut out[..length])?;
                Ok(length)
            }
        }
    };
}

xof!(
    "BLAKE2Xb",
    Blake2xb,
    Blake2xbReader,
    Blake2xbState,
    64,
    0xffff_ffff,
    "2^32 - 2",
    "256 GiB",
    FamilyLimits::BLAKE2B,
    blake2xb_init_salt_personal,
    blake2xb_update,
    blake2xb_squeeze,
    blake2xb_reset,
    blake2xb_wipe,
    blake2xb_left,
    blake2xb_count,
    blake2xb_derive_key
);

xof!(
    "BLAKE2Xs",
    Blake2xs,
    Blake2xsReader,
    Blake2xsState,
    32,
    0xffff,
    "65,534",
    "128 GiB",
    FamilyLimits::BLAKE2S,
    blake2xs_init_salt_personal,
    blake2xs_update,
    blake2xs_squeeze,
    blake2xs_reset,
    blake2xs_wipe,
    blake2xs_left,
    blake2xs_count,
    blake2xs_derive_key
);
