use crate::digest::Digest;
use crate::error::{check_equal, check_range};
use crate::library::{self, Blake2bState, Blake2bpState, Blake2sState, Blake2spState, Text};
use crate::params::FamilyLimits;
use crate::{InvalidArgument, InvalidState, KeyedState, MacError, Params};

// The number of messages that one call of the library gets in `digest_many` and `update_many`.
// Their pointers are on the stack.
pub(crate) const PART: usize = 16;

// Pointers to at most PART messages, and then to empty ones. They are valid as long as these are.
fn message_pointers_of(messages: &[impl AsRef<[u8]>]) -> [Text; PART] {
    let mut texts = [Text::of(b""); PART];
    for (text, message) in texts.iter_mut().zip(messages) {
        *text = Text::of(message.as_ref());
    }
    texts
}

// What all families have, on top of the states and the functions of `library`.
macro_rules! family {
    (
        $family:literal, $hasher:ident, $mac:ident, $state:ident, $max:literal, $one_call:ident,
        $update:ident, $end:ident, $verify:ident, $reset:ident, $wipe:ident, $digest_size:ident,
        $count:ident
    ) => {
        #[doc = concat!("A ", $family, " hash in progress. It is wiped when it is dropped.")]
        ///
        /// A clone is independent: each absorbs its own further input.
        #[must_use = "its input is lost with it"]
        #[repr(transparent)] // so that hashers in a slice are states in a row
        pub struct $hasher {
            pub(crate) state: $state,
        }

        impl $hasher {
            #[doc = concat!("Returns a hasher with digests of ", stringify!($max), " bytes and")]
            /// no key.
            #[inline]
            pub fn new() -> Self {
                Self::with_params(&Params::new()).expect("lengths of the family")
            }

            #[doc = concat!("Returns the digest of a message, in ", stringify!($max), " bytes.")]
            #[doc(alias = "hash")]
            pub fn digest(message: impl AsRef<[u8]>) -> Digest {
                Self::digest_in_one_call(message.as_ref(), b"").expect("no key, and no input of 2^64 bytes")
            }

            // The digest under a key, or without one if that is empty.
            #[inline]
            fn digest_in_one_call(message: &[u8], key: &[u8]) -> Result<Digest, InvalidArgument> {
                let mut digest = Digest::zeros($max);
                // Safety: the pointers come from slices of these lengths. The output overlaps none
                // of them and has 64 bytes, which is at least what the call writes.
                let status = unsafe {
                    library::$one_call(
                        digest.bytes.as_mut_ptr(),
                        $max,
                        message.as_ptr(),
                        message.len(),
                        key.as_ptr(),
                        key.len(),
                    )
                };
                let explain = || check_range("key.len()", key.len() as u64, 1, $max);
                InvalidArgument::ok_if_status_is_zero(status, explain).map(|()| digest)
            }

            /// Absorbs the input after all earlier input.
            ///
            /// # Panics
            ///
            /// If the input since the last reset, with the blocks of a key, would have 2^64 bytes
            /// or more. The hasher is then unchanged.
            pub fn update(&mut self, input: impl AsRef<[u8]>) -> &mut Self {
                let input = input.as_ref();
                // Safety: the pointer comes from a slice of this length, which the state cannot
                // overlap.
                let status =
                    unsafe { library::$update(&mut self.state, input.as_ptr(), input.len()) };
                assert_eq!(status, 0, "an input of 2^64 bytes");
                self
            }

            /// Returns the digest of all input since the last reset. The hasher is unchanged, and
            /// can absorb more input.
            ///
            /// ```
            #[doc = concat!("use vulfsjor::", stringify!($hasher), ";")]
            ///
            #[doc = concat!("let digest = ", stringify!($hasher), "::digest(b\"abc\");")]
            #[doc = concat!(
                "assert_eq!(", stringify!($hasher), "::new().update(b\"abc\").finalize(), digest);"
            )]
            /// ```
            #[inline]
            pub fn finalize(&self) -> Digest {
                let mut copy = $hasher { state: $state::ZEROS };
                copy.state.0.copy_from_slice(&self.state.0);
                // Safety: the state has initialized bytes.
                let mut digest = Digest::zeros(unsafe { library::$digest_size(&copy.state) });
                // Safety: the output has this length, and does not overlap the state.
                let status = unsafe {
                    library::$end(&mut copy.state, digest.bytes.as_mut_ptr(), digest.size)
                };
                assert_eq!(status, 0, "a state that new has made");
                digest
            }

            /// Returns the digest of all input, and [resets](Self::reset) the hasher.
            #[inline]
            pub fn finalize_reset(&mut self) -> Digest {
                let digest = self.finalize();
                self.reset();
                digest
            }

            /// Discards all input. The parameters stay, and so does a last-node flag.
            #[inline]
            pub fn reset(&mut self) {
                // Safety: the state has initialized bytes.
                let status = unsafe { library::$reset(&mut self.state) };
                assert_eq!(status, 0, "a state that new has made");
            }

            /// Returns the number of bytes of input since the last reset, without the key.
            #[must_use]
            #[inline]
            pub fn count(&self) -> u64 {
                // Safety: the state has initialized bytes.
                unsafe { library::$count(&self.state) }
            }
        }

        impl Clone for $hasher {
            #[inline]
            fn clone(&self) -> Self {
                let mut copy = $hasher { state: $state::ZEROS };
                copy.state.0.copy_from_slice(&self.state.0);
                copy
            }
        }

        impl Default for $hasher {
            #[inline]
            fn default() -> Self {
                Self::new()
            }
        }

        impl Drop for $hasher {
            #[inline]
            fn drop(&mut self) {
                // Safety: the state has initialized bytes.
                unsafe { library::$wipe(&mut self.state) }
            }
        }

        impl_stream_methods!($hasher);

        #[doc = concat!("A ", $family, " message authentication code in progress. It is wiped")]
        /// when it is dropped.
        ///
        /// Compare tags with `verify`. The project's README, "Use it safely", has the rules for
        /// keys, tags and personalization.
        #[must_use = "its input is lost with it"]
        #[derive(Clone)]
        pub struct $mac($hasher);

        impl $mac {
            #[doc = concat!("Returns a MAC with tags of ", stringify!($max), " bytes.")]
            ///
            /// # Errors
            ///
            /// [`InvalidArgument`] exactly if the key does not have
            #[doc = concat!("1 to ", stringify!($max), " bytes.")]
            #[inline]
            pub fn new(key: &[u8]) -> Result<Self, InvalidArgument> {
                Self::with_params(&Params::new().key(key))
            }

            /// Returns a MAC with these parameters, which include the key.
            ///
            /// # Errors
            ///
            /// [`InvalidArgument`] exactly if there is no key, the tag has fewer than 16 bytes
            /// without [`allow_short`](Params::allow_short), or a hasher with these parameters is
            /// refused.
            #[inline]
            pub fn with_params(params: &Params<'_>) -> Result<Self, InvalidArgument> {
                params.check_key_and_tag_length($max)?;
                $hasher::with_params(params).map($mac)
            }

            #[doc = concat!("Returns the tag of a message, in ", stringify!($max), " bytes.")]
            ///
            /// # Errors
            ///
            /// [`InvalidArgument`] exactly if the key does not have
            #[doc = concat!("1 to ", stringify!($max), " bytes.")]
            pub fn tag(key: &[u8], message: impl AsRef<[u8]>) -> Result<Digest, InvalidArgument> {
                check_range("key.len()", key.len() as u64, 1, $max)?;
                $hasher::digest_in_one_call(message.as_ref(), key)
            }

            /// Absorbs the input after all earlier input.
            ///
            /// # Panics
            ///
            /// If the input since the last reset, with the blocks of the key, would have 2^64 bytes
            /// or more. The MAC is then unchanged.
            pub fn update(&mut self, input: impl AsRef<[u8]>) -> &mut Self {
                self.0.update(input);
                self
            }

            /// Returns the tag of all input since the last reset. The MAC is unchanged, and can
            /// absorb more input.
            #[inline]
            pub fn finalize(&self) -> Digest {
                self.0.finalize()
            }

            /// Returns the tag of all input, and [resets](Self::reset) the MAC.
            #[inline]
            pub fn finalize_reset(&mut self) -> Digest {
                self.0.finalize_reset()
            }

            /// Returns `Ok` exactly if the tag is the whole tag of all input. All bytes of a tag
            /// of the same length are compared, wherever they differ. The MAC is unchanged.
            ///
            /// # Errors
            ///
            /// [`MacError`] for any other tag.
            #[doc(alias = "verify_slice")]
            #[inline]
            pub fn verify(&self, tag: &[u8]) -> Result<(), MacError> {
                let mut copy = $hasher { state: $state::ZEROS };
                copy.state.0.copy_from_slice(&self.0.state.0);
                // Safety: the pointer comes from a slice of this length, which the state cannot
                // overlap.
                let status =
                    unsafe { library::$verify(&mut copy.state, tag.as_ptr(), tag.len()) };
                if status == 0 { Ok(()) } else { Err(MacError) }
            }

            /// Discards all input. The key and the other parameters stay.
            #[inline]
            pub fn reset(&mut self) {
                self.0.reset();
            }

            /// Returns the number of bytes of input since the last reset, without the key.
            #[must_use]
            #[inline]
            pub fn count(&self) -> u64 {
                self.0.count()
            }
        }

        impl_stream_methods!($mac);
    };
}

// What BLAKE2b and BLAKE2s have besides: tree parameters, the last-node flag, several messages and
// saved states.
macro_rules! sequential {
    (
        $at_once:literal, $hasher:ident, $make:ident, $state:ident, $max:literal, $limits:expr,
        $many:ident, $update_many:ident, $init_tree:ident, $set_last_node:ident, $block:literal,
        $saved:literal, $save:ident, $load:ident
    ) => {
        impl $hasher {
            /// Returns a hasher with these parameters.
            ///
            /// # Errors
            ///
            /// [`InvalidArgument`] exactly if a length or a tree parameter is out of the family's
            /// range.
            #[inline]
            pub fn with_params(params: &Params<'_>) -> Result<Self, InvalidArgument> {
                params.check_key($max)?;
                let Params { output_size, salt, persona, tree, last_node, .. } = *params;
                let key = params.key_or_none();
                library::panic_without_build();
                let mut hasher = $hasher { state: $state::ZEROS };
                let node = library::Tree {
                    node_offset: tree.node_offset,
                    leaf_length: tree.leaf_length,
                    fanout: tree.fanout,
                    depth: tree.depth,
                    node_depth: tree.node_depth,
                    inner_length: tree.inner_length,
                };
                // Safety: the pointers come from slices of these lengths, and none is null. The
                // state overlaps none of them.
                let status = unsafe {
                    library::$init_tree(
                        &mut hasher.state,
                        output_size.unwrap_or($max),
                        key.as_ptr(),
                        key.len(),
                        salt.as_ptr(),
                        salt.len(),
                        persona.as_ptr(),
                        persona.len(),
                        &node,
                    )
                };
                InvalidArgument::ok_if_status_is_zero(status, || params.check(&$limits))?;
                if last_node {
                    hasher.set_last_node(true);
                }
                Ok(hasher)
            }

            /// Writes the digests of several messages under these parameters, each of `N` bytes.
            ///
            /// Messages in a row that have the same length are hashed
            #[doc = concat!($at_once, ", which is faster on a processor with AVX2.")]
            ///
            /// ```
            #[doc = concat!("use vulfsjor::{Params, ", stringify!($hasher), "};")]
            ///
            /// let mut digests = [[0; 32]; 3];
            /// let messages = [b"one", b"two", b"six"];
            #[doc = concat!(
                stringify!($hasher),
                "::digest_many(&Params::new(), &messages, &mut digests)?;"
            )]
            /// let params = Params::new().output_size(32);
            #[doc = concat!("let mut hasher = params.", stringify!($make), "()?;")]
            /// hasher.update(b"six");
            /// assert_eq!(hasher.finalize(), digests[2]);
            /// # Ok::<(), vulfsjor::InvalidArgument>(())
            /// ```
            ///
            /// # Errors
            ///
            /// [`InvalidArgument`] exactly if a length is out of the family's range, the parameters
            /// set another size than `N` (they need not set one), tree parameters or the last-node
            /// flag, or there are more or fewer digests than messages. No digest is then written.
            /// The error's `output_size` is `N` if the parameters set none.
            #[doc(alias = "hash_many")]
            pub fn digest_many<const N: usize>(
                params: &Params<'_>,
                messages: &[impl AsRef<[u8]>],
                digests: &mut [[u8; N]],
            ) -> Result<(), InvalidArgument> {
                check_equal("digests.len()", digests.len() as u64, messages.len() as u64)?;
                check_equal("output_size", params.output_size.unwrap_or(N) as u64, N as u64)?;
                params.check_sequential()?;
                params.check_key($max)?;
                let params = &params.output_size(N);
                if messages.is_empty() {
                    return Self::with_params(params).map(|_| ());
                }
                let mut parts = messages.chunks(PART).zip(digests.chunks_mut(PART));
                parts.try_for_each(|(part, digests)| Self::digest_up_to_16_messages(params, part, digests))
            }

            // The same for at most PART messages.
            fn digest_up_to_16_messages<const N: usize>(
                params: &Params<'_>,
                messages: &[impl AsRef<[u8]>],
                digests: &mut [[u8; N]],
            ) -> Result<(), InvalidArgument> {
                let Params { salt, persona, .. } = *params;
                let key = params.key_or_none();
                let texts = message_pointers_of(messages);
                // Safety: the pointers come from slices of these lengths, also those of the
                // messages. The output overlaps none of them.
                let status = unsafe {
                    library::$many(
                        digests.as_mut_ptr().cast(),
                        digests.len() * N,
                        N,
                        texts.as_ptr(),
                        messages.len(),
                        key.as_ptr(),
                        key.len(),
                        salt.as_ptr(),
                        salt.len(),
                        persona.as_ptr(),
                        persona.len(),
                    )
                };
                InvalidArgument::ok_if_status_is_zero(status, || params.check(&$limits))
            }

            /// Absorbs the inputs, each into the hasher at its place, as [`update`](Self::update)
            /// of each would.
            ///
            /// The inputs have any lengths, and the hashers any parameters and earlier input. As
            /// many hashers in a row go on at a time as messages of
            /// [`digest_many`](Self::digest_many), up to where the shortest of their inputs ends,
            /// if each has more than a block to absorb.
            ///
            /// ```
            #[doc = concat!("use vulfsjor::", stringify!($hasher), ";")]
            ///
            #[doc = concat!("let mut hashers = vec![", stringify!($hasher), "::new(); 2];")]
            #[doc = concat!(
                stringify!($hasher), "::update_many(&mut hashers, &[\"hello \", \"good\"]);"
            )]
            #[doc = concat!(
                stringify!($hasher), "::update_many(&mut hashers, &[\"world\", \"bye\"]);"
            )]
            #[doc = concat!(
                "assert_eq!(hashers[1].finalize(), ", stringify!($hasher), "::digest(\"goodbye\"));"
            )]
            /// ```
            ///
            /// # Panics
            ///
            /// If there are more inputs or fewer than hashers, or if the input of one hasher since
            /// its last reset, with the block of a key, would have 2^64 bytes or more. All hashers
            /// are then unchanged, if an input has the same length each time `as_ref` is called.
            pub fn update_many(hashers: &mut [Self], inputs: &[impl AsRef<[u8]>]) {
                assert_eq!(inputs.len(), hashers.len(), "an input for each hasher");
                let mut pairs = hashers.iter().zip(inputs);
                let can_all = pairs.all(|(hasher, input)| hasher.can_absorb(input.as_ref()));
                assert!(can_all, "an input of 2^64 bytes");
                for (part, inputs) in hashers.chunks_mut(PART).zip(inputs.chunks(PART)) {
                    Self::update_up_to_16_hashers(part, inputs);
                }
            }

            // Whether `update` absorbs the input. If less than a block is left before 2^64, only a
            // hasher without a key does, and that can be saved.
            fn can_absorb(&self, input: &[u8]) -> bool {
                let count = self.count().checked_add(input.len() as u64);
                count.map_or(false, |count| count <= u64::MAX - $block || self.save().is_ok())
            }

            // `update_many` of at most PART hashers.
            fn update_up_to_16_hashers(hashers: &mut [Self], inputs: &[impl AsRef<[u8]>]) {
                let texts = message_pointers_of(inputs);
                // Safety: a hasher has the layout of its state, since it is transparent. The
                // pointers come from slices of these lengths, also those of the inputs, which the
                // states cannot overlap.
                let status = unsafe {
                    library::$update_many(
                        hashers.as_mut_ptr().cast::<$state>(),
                        hashers.len(),
                        texts.as_ptr(),
                        inputs.len(),
                    )
                };
                assert_eq!(status, 0, "an input of 2^64 bytes");
            }

            /// Sets or clears the last-node flag (the BLAKE2 document, section 2.10), at any time
            /// before the digest.
            #[inline]
            pub fn set_last_node(&mut self, on: bool) {
                // Safety: the state has initialized bytes.
                let status = unsafe { library::$set_last_node(&mut self.state, u32::from(on)) };
                assert_eq!(status, 0, "a state that new has made");
            }

            /// Returns the hasher as bytes that [`load`](Self::load) reads, on every processor, in
            /// every language of the library, and in every later version. They contain the input
            /// that is pending, which is less than a block, or one.
            ///
            /// ```
            #[doc = concat!("use vulfsjor::", stringify!($hasher), ";")]
            ///
            #[doc = concat!("let mut hasher = ", stringify!($hasher), "::new();")]
            /// let saved = hasher.update(b"hello ").save().unwrap();
            #[doc = concat!("let mut later = ", stringify!($hasher), "::load(&saved).unwrap();")]
            /// assert_eq!(later.update(b"world").finalize(), hasher.update(b"world").finalize());
            /// ```
            ///
            /// # Errors
            ///
            /// [`KeyedState`] exactly if the hasher has a key.
            pub fn save(&self) -> Result<[u8; $saved], KeyedState> {
                let mut saved = [0; $saved];
                // Safety: the state has initialized bytes. The output has this length, and does not
                // overlap the state.
                let status = unsafe { library::$save(&self.state, saved.as_mut_ptr(), $saved) };
                if status == 0 { Ok(saved) } else { Err(KeyedState) }
            }

            /// Returns the hasher that was saved as these bytes. Whoever can change them chooses the
            /// digest, so keep them as safe as the input.
            ///
            /// # Errors
            ///
            /// [`InvalidState`] exactly if [`save`](Self::save) returns these bytes for no hasher,
            /// such as those of another hash, of a later version, or cut off.
            pub fn load(saved: &[u8]) -> Result<Self, InvalidState> {
                library::panic_without_build();
                let mut hasher = $hasher { state: $state::ZEROS };
                // Safety: the pointer comes from a slice of this length, which the state cannot
                // overlap.
                let status =
                    unsafe { library::$load(&mut hasher.state, saved.as_ptr(), saved.len()) };
                if status == 0 { Ok(hasher) } else { Err(InvalidState) }
            }
        }
    };
}

// What BLAKE2bp and BLAKE2sp have instead.
macro_rules! parallel_methods {
    ($hasher:ident, $state:ident, $max:literal, $limits:expr, $init:ident) => {
        impl $hasher {
            /// Returns a hasher with these parameters.
            ///
            /// A salt and a persona are an extension: the BLAKE2 document gives this hash function
            /// neither. They are in the parameter block of each node.
            ///
            /// # Errors
            ///
            /// [`InvalidArgument`] exactly if a length is out of the family's range, or the
            /// parameters set tree parameters or the last-node flag.
            #[inline]
            pub fn with_params(params: &Params<'_>) -> Result<Self, InvalidArgument> {
                params.check_sequential()?;
                params.check_key($max)?;
                let Params { output_size, salt, persona, .. } = *params;
                let key = params.key_or_none();
                library::panic_without_build();
                let mut hasher = $hasher { state: $state::ZEROS };
                // Safety: the pointers come from slices of these lengths, and none is null. The
                // state overlaps none of them.
                let status = unsafe {
                    library::$init(
                        &mut hasher.state,
                        output_size.unwrap_or($max),
                        key.as_ptr(),
                        key.len(),
                        salt.as_ptr(),
                        salt.len(),
                        persona.as_ptr(),
                        persona.len(),
                    )
                };
                InvalidArgument::ok_if_status_is_zero(status, || params.check(&$limits))?;
                Ok(hasher)
            }
        }
    };
}

family!(
    "BLAKE2b",
    Blake2b,
    Blake2bMac,
    Blake2bState,
    64,
    blake2b,
    blake2b_update,
    blake2b_final,
    blake2b_verify,
    blake2b_reset,
    blake2b_wipe,
    blake2b_digest_size,
    blake2b_count
);

family!(
    "BLAKE2s",
    Blake2s,
    Blake2sMac,
    Blake2sState,
    32,
    blake2s,
    blake2s_update,
    blake2s_final,
    blake2s_verify,
    blake2s_reset,
    blake2s_wipe,
    blake2s_digest_size,
    blake2s_count
);

family!(
    "BLAKE2bp",
    Blake2bp,
    Blake2bpMac,
    Blake2bpState,
    64,
    blake2bp,
    blake2bp_update,
    blake2bp_final,
    blake2bp_verify,
    blake2bp_reset,
    blake2bp_wipe,
    blake2bp_digest_size,
    blake2bp_count
);

family!(
    "BLAKE2sp",
    Blake2sp,
    Blake2spMac,
    Blake2spState,
    32,
    blake2sp,
    blake2sp_update,
    blake2sp_final,
    blake2sp_verify,
    blake2sp_reset,
    blake2sp_wipe,
    blake2sp_digest_size,
    blake2sp_count
);

sequential!(
    "four at a time, or eight with AVX-512",
    Blake2b,
    blake2b,
    Blake2bState,
    64,
    FamilyLimits::BLAKE2B,
    blake2b_many,
    blake2b_update_many,
    blake2b_init_tree,
    blake2b_set_last_node,
    128,
    275,
    blake2b_save,
    blake2b_load
);

sequential!(
    "eight at a time",
    Blake2s,
    blake2s,
    Blake2sState,
    32,
    FamilyLimits::BLAKE2S,
    blake2s_many,
    blake2s_update_many,
    blake2s_init_tree,
    blake2s_set_last_node,
    64,
    147,
    blake2s_save,
    blake2s_load
);

parallel_methods!(
    Blake2bp,
    Blake2bpState,
    64,
    FamilyLimits::BLAKE2B,
    blake2bp_init_salt_personal
);

parallel_methods!(
    Blake2sp,
    Blake2spState,
    32,
    FamilyLimits::BLAKE2S,
    blake2sp_init_salt_personal
);
