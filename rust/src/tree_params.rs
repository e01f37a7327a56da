use crate::digest::Digest;
use crate::error::{check, check_equal, check_range, Bounds};
use crate::{library, InvalidArgument, TreeHasher};

// The longest message of a tree, in bytes.
pub(crate) const MOST_BYTES: u64 = (1 << 58) - 1;

/// The parameters of a tree of hashes with two levels over BLAKE2b: leaf length, length of the
/// root, salt and persona.
///
/// The message is cut into leaves of `leaf_length` bytes, and the root hashes their digests of 64
/// bytes. All nodes have the salt and the persona, fanout 0, depth 2, this leaf length and inner
/// length 64. The last leaf and the root have the last-node flag (the BLAKE2 document, section
/// 2.10). The root is not a BLAKE2b digest of the message, and it depends on all four parameters.
/// A tree has no key.
///
/// Lengths are checked when they are used, not when they are set.
///
/// ```
/// use vulfsjor::TreeParams;
///
/// let params = TreeParams::new(1 << 16).salt(b"salt").persona(b"files").output_size(32);
/// assert_eq!(params.root(b"message")?.as_bytes().len(), 32);
/// let error = TreeParams::new(0).root(b"message").unwrap_err();
/// assert_eq!(error.to_string(), "leaf_length is 0, and must be 1 to 4294967295");
/// # Ok::<(), vulfsjor::InvalidArgument>(())
/// ```
#[must_use = "a setter returns new parameters and leaves the old ones as they are"]
#[derive(Clone, Copy, Debug)]
pub struct TreeParams<'a> {
    pub(crate) leaf_length: u32,
    pub(crate) output_size: usize,
    pub(crate) salt: &'a [u8],
    pub(crate) persona: &'a [u8],
}

impl<'a> TreeParams<'a> {
    /// Returns parameters for a root of 64 bytes over leaves of this number of bytes, at least 1,
    /// without salt and persona.
    #[inline]
    pub fn new(leaf_length: u32) -> Self {
        TreeParams {
            leaf_length,
            output_size: 64,
            salt: b"",
            persona: b"",
        }
    }

    /// Sets the number of bytes in the root, 1 to 64.
    #[inline]
    pub fn output_size(self, bytes: usize) -> Self {
        TreeParams {
            output_size: bytes,
            ..self
        }
    }

    /// Sets the salt, of up to 16 bytes. Trailing zeros change nothing.
    #[inline]
    pub fn salt(self, salt: &'a [u8]) -> Self {
        TreeParams { salt, ..self }
    }

    /// Sets the persona, of up to 16 bytes. Trailing zeros change nothing. Use a different persona
    /// for each purpose.
    #[inline]
    pub fn persona(self, persona: &'a [u8]) -> Self {
        TreeParams { persona, ..self }
    }

    /// Returns the root of a message.
    ///
    /// # Errors
    ///
    /// [`InvalidArgument`] exactly if the leaf length is 0, the length of the root is not 1 to 64,
    /// or the salt or the persona has more than 16 bytes.
    pub fn root(&self, message: impl AsRef<[u8]>) -> Result<Digest, InvalidArgument> {
        let message = message.as_ref();
        let TreeParams {
            leaf_length,
            salt,
            persona,
            ..
        } = *self;
        // Safety: the pointers come from slices of these lengths, and the output overlaps none of
        // them.
        let write = |out: &mut [u8]| unsafe {
            library::tree_root(
                out.as_mut_ptr(),
                out.len(),
                message.as_ptr(),
                message.len(),
                salt.as_ptr(),
                salt.len(),
                persona.as_ptr(),
                persona.len(),
                leaf_length,
            )
        };
        self.root_by_library_call(write, || self.check())
    }

    // The root that a call of the library writes into its room, or the argument that it refused.
    #[inline]
    fn root_by_library_call(
        &self,
        write: impl FnOnce(&mut [u8]) -> i32,
        explain: impl FnOnce() -> Result<(), InvalidArgument>,
    ) -> Result<Digest, InvalidArgument> {
        let mut root = Digest::zeros(self.output_size);
        let status = root.bytes.get_mut(..self.output_size).map_or(-1, write);
        InvalidArgument::ok_if_status_is_zero(status, explain).map(|()| root)
    }

    /// Returns a hasher for a message that comes in pieces.
    ///
    /// # Errors
    ///
    /// As [`root`](Self::root).
    #[inline]
    pub fn hasher(&self) -> Result<TreeHasher, InvalidArgument> {
        let mut hasher = TreeHasher::uninitialized();
        let TreeParams {
            leaf_length,
            output_size,
            salt,
            persona,
        } = *self;
        // Safety: the pointers come from slices of these lengths, and none is null. The state
        // overlaps none of them.
        let status = unsafe {
            library::tree_init(
                &mut hasher.state,
                output_size,
                salt.as_ptr(),
                salt.len(),
                persona.as_ptr(),
                persona.len(),
                leaf_length,
            )
        };
        InvalidArgument::ok_if_status_is_zero(status, || self.check()).map(|()| hasher)
    }

    /// Returns the number of leaves of a message of this number of bytes, which is at least 1; 0 if
    /// the leaf length is 0. The other parameters change nothing.
    #[must_use]
    #[inline]
    pub fn leaf_count(&self, message_length: u64) -> u64 {
        // Safety: the call accepts any two numbers.
        unsafe { library::tree_leaf_count(message_length, self.leaf_length) }
    }

    /// Writes the digests of a range of the leaves to `digests`, 64 bytes each and in order.
    ///
    /// `bytes` is leaf `first`, counted from 0, and the leaves after it. If the range `ends` the
    /// message, its last leaf may be shorter; otherwise all its leaves are whole. Compute `ends`
    /// from the length of the message: a wrong value produces a wrong root, and no error.
    ///
    /// The digests of the ranges of a message, joined in the order of the leaves, are what
    /// [`root_of_leaves`](Self::root_of_leaves) accepts, however the message was cut. So ranges can
    /// be hashed in any order, on threads, processes or machines, and after a change only the
    /// ranges that changed. The length of the root changes nothing.
    ///
    /// ```
    /// use vulfsjor::TreeParams;
    ///
    /// let (message, params) = ([7; 10_000], TreeParams::new(4096).persona(b"files"));
    /// assert_eq!(params.leaf_count(10_000), 3);
    /// let mut digests = [0; 3 * 64];
    /// let (front, last) = digests.split_at_mut(2 * 64);
    /// params.leaves(&message[8192..], 2, true, last)?;
    /// params.leaves(&message[..8192], 0, false, front)?;
    /// assert_eq!(params.root_of_leaves(&digests)?, params.root(message)?);
    /// # Ok::<(), vulfsjor::InvalidArgument>(())
    /// ```
    ///
    /// # Errors
    ///
    /// [`InvalidArgument`] exactly if the leaf length is 0, the salt or the persona has more than
    /// 16 bytes, the range does not end before byte 2^58 of the message, `digests` does not have 64
    /// bytes for each of the [`leaf_count`](Self::leaf_count) leaves, or the bytes are not whole
    /// leaves although the range does not end the message. An empty range is an error too, unless
    /// it is all of an empty message (`first` is 0 and `ends` is true). Nothing is then written.
    #[inline]
    pub fn leaves(
        &self,
        bytes: &[u8],
        first: u64,
        ends: bool,
        digests: &mut [u8],
    ) -> Result<(), InvalidArgument> {
        let TreeParams {
            leaf_length,
            salt,
            persona,
            ..
        } = *self;
        // Safety: the pointers come from slices of these lengths, and the output overlaps none of
        // them.
        let status = unsafe {
            library::tree_leaves(
                digests.as_mut_ptr(),
                digests.len(),
                first,
                u32::from(ends),
                bytes.as_ptr(),
                bytes.len(),
                salt.as_ptr(),
                salt.len(),
                persona.as_ptr(),
                persona.len(),
                leaf_length,
            )
        };
        InvalidArgument::ok_if_status_is_zero(status, || {
            self.check_range(bytes.len() as u64, first, ends, digests.len() as u64)
        })
    }

    /// Returns the root over the joined digests of all leaves of a message. It is
    /// [`root`](Self::root) of the message.
    ///
    /// # Errors
    ///
    /// As [`root`](Self::root), and [`InvalidArgument`] if `digests` is empty or not a multiple of
    /// 64 bytes.
    #[inline]
    pub fn root_of_leaves(&self, digests: &[u8]) -> Result<Digest, InvalidArgument> {
        let TreeParams {
            leaf_length,
            salt,
            persona,
            ..
        } = *self;
        // Safety: the pointers come from slices of these lengths, and the output overlaps none of
        // them.
        let write = |out: &mut [u8]| unsafe {
            library::tree_root_of_leaves(
                out.as_mut_ptr(),
                out.len(),
                digests.as_ptr(),
                digests.len(),
                salt.as_ptr(),
                salt.len(),
                persona.as_ptr(),
                persona.len(),
                leaf_length,
            )
        };
        self.root_by_library_call(write, || {
            self.check()?;
            check(
                "digests.len()",
                digests.len() as u64,
                Bounds::PositiveMultiple(64),
            )
        })
    }

    // An error unless a tree accepts the parameters.
    #[cfg(feature = "std")]
    #[inline]
    pub(crate) fn check_accepted_by_tree(&self) -> Result<(), InvalidArgument> {
        let (salt, persona) = (self.salt.len(), self.persona.len());
        // Safety: the call accepts any numbers.
        let status =
            unsafe { library::tree_check(self.output_size, salt, persona, self.leaf_length) };
        InvalidArgument::ok_if_status_is_zero(status, || self.check())
    }

    // Why the parameters are refused.
    #[inline]
    fn check(&self) -> Result<(), InvalidArgument> {
        check_range("output_size", self.output_size as u64, 1, 64)?;
        self.check_leaves()
    }

    // The same for those that the leaves have.
    #[inline]
    fn check_leaves(&self) -> Result<(), InvalidArgument> {
        check_range("salt.len()", self.salt.len() as u64, 0, 16)?;
        check_range("persona.len()", self.persona.len() as u64, 0, 16)?;
        check_range("leaf_length", self.leaf_length.into(), 1, u32::MAX.into())
    }

    // Why a range of leaves is refused.
    #[inline]
    fn check_range(
        &self,
        length: u64,
        first: u64,
        ends: bool,
        room: u64,
    ) -> Result<(), InvalidArgument> {
        self.check_leaves()?;
        let leaf_length = u64::from(self.leaf_length);
        if !ends {
            check("bytes.len()", length, Bounds::PositiveMultiple(leaf_length))?;
        }
        check_range(
            "first",
            first,
            0,
            (MOST_BYTES - length.max(1)) / leaf_length,
        )?;
        if first > 0 {
            check_range("bytes.len()", length, 1, MOST_BYTES - first * leaf_length)?;
        }
        check_equal("digests.len()", room, 64 * self.leaf_count(length))
    }
}
