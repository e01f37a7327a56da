use crate::digest::Digest;
use crate::error::{check, check_equal, check_range, Bounds};
use crate::library::{self, TreeState};
use crate::tree_params::MOST_BYTES;
use crate::InvalidArgument;

/// The root of a message that comes in pieces. [`TreeParams::hasher`](crate::TreeParams::hasher)
/// makes one.
///
/// It allocates no memory. Whole leaves after the open one are hashed four at a time, if more
/// input follows them, so pieces of several leaves suit it best. A hasher is wiped when it is
/// dropped.
#[must_use = "its input is lost with it"]
pub struct TreeHasher {
    pub(crate) state: TreeState,
}

impl TreeHasher {
    // A hasher that refuses every call, before the library initializes it.
    pub(crate) fn uninitialized() -> Self {
        library::panic_without_build();
        TreeHasher {
            state: TreeState::ZEROS,
        }
    }

    /// Absorbs the input after all earlier input.
    ///
    /// # Panics
    ///
    /// If the input, with all earlier input, has 2^58 bytes or more. The hasher is then unchanged.
    pub fn update(&mut self, input: impl AsRef<[u8]>) -> &mut Self {
        let input = input.as_ref();
        // Safety: the pointer comes from a slice of this length, which the state cannot overlap.
        let status = unsafe { library::tree_update(&mut self.state, input.as_ptr(), input.len()) };
        assert_eq!(status, 0, "an input of 2^58 bytes");
        self
    }

    /// Writes the digests of whole leaves of this tree to `digests`, 64 bytes each and in order.
    ///
    /// The hasher must be at a leaf boundary: its [`count`](Self::count) is a multiple of the
    /// [leaf length](Self::leaf_length). The first leaf of `leaves` is `skip` leaves after the
    /// next leaf of the hasher. The hasher is unchanged, so threads may hash different leaves with
    /// one hasher at the same time. None of the leaves is the last of the message.
    /// [`update_leaves`](Self::update_leaves) then absorbs the digests.
    ///
    /// # Errors
    ///
    /// [`InvalidArgument`] exactly if the hasher is not at a leaf boundary, `leaves` is empty or
    /// not whole leaves, `digests` does not have 64 bytes for each leaf, or the leaves do not end
    /// within the first 2^58 - 1 bytes of the message. Nothing is then written.
    #[inline]
    pub fn leaves_ahead(
        &self,
        skip: u64,
        leaves: &[u8],
        digests: &mut [u8],
    ) -> Result<(), InvalidArgument> {
        // Safety: the pointers come from slices of these lengths, and the output overlaps neither
        // the leaves nor the state.
        let status = unsafe {
            library::tree_leaves_ahead(
                &self.state,
                digests.as_mut_ptr(),
                digests.len(),
                skip,
                leaves.as_ptr(),
                leaves.len(),
            )
        };
        InvalidArgument::ok_if_status_is_zero(status, || {
            self.check_leaves_ahead(skip, leaves.len() as u64, digests.len() as u64)
        })
    }

    /// Absorbs whole leaves, given by their digests, and then the input.
    ///
    /// `digests` is what [`leaves_ahead`](Self::leaves_ahead) writes from `skip` 0 on, joined in
    /// order. The hasher is then the one that [`update`](Self::update) makes of the leaves
    /// followed by the input. At least one byte of input must follow the digests, since the last
    /// leaf of a message cannot be given by its digest. If `digests` is empty, this call is
    /// `update`.
    ///
    /// # Errors
    ///
    /// [`InvalidArgument`] exactly if the length of `digests` is not a multiple of 64, if there are
    /// digests but the hasher is not at a leaf boundary or the input is empty, or if all input
    /// would have 2^58 bytes or more. The hasher is then unchanged.
    #[inline]
    pub fn update_leaves(
        &mut self,
        digests: &[u8],
        input: impl AsRef<[u8]>,
    ) -> Result<&mut Self, InvalidArgument> {
        let input = input.as_ref();
        // Safety: the pointers come from slices of these lengths, which the state cannot overlap.
        let status = unsafe {
            library::tree_update_leaves(
                &mut self.state,
                digests.as_ptr(),
                digests.len(),
                input.as_ptr(),
                input.len(),
            )
        };
        InvalidArgument::ok_if_status_is_zero(status, || {
            self.check_update_leaves(digests.len() as u64, input.len() as u64)
        })?;
        Ok(self)
    }

    /// Returns the root of all input. The hasher is unchanged, and can absorb more input.
    #[inline]
    pub fn finalize(&self) -> Digest {
        let mut copy = self.clone();
        // Safety: the state has initialized bytes.
        let mut root = Digest::zeros(unsafe { library::tree_digest_size(&copy.state) });
        // Safety: the output has this length, and does not overlap the state.
        let status =
            unsafe { library::tree_final(&mut copy.state, root.bytes.as_mut_ptr(), root.size) };
        assert_eq!(status, 0, "a state that new has made");
        root
    }

    /// Returns the number of bytes of all input.
    #[must_use]
    #[inline]
    pub fn count(&self) -> u64 {
        // Safety: the state has initialized bytes.
        unsafe { library::tree_count(&self.state) }
    }

    /// Returns the number of bytes in a leaf.
    #[must_use]
    #[inline]
    pub fn leaf_length(&self) -> u32 {
        // Safety: the state has initialized bytes.
        unsafe { library::tree_leaf_length(&self.state) }
    }

    // An error unless the hasher is at a leaf boundary. Otherwise the number of bytes that more
    // input may have.
    #[inline]
    fn check_is_at_leaf_boundary(&self) -> Result<u64, InvalidArgument> {
        let leaf_length = u64::from(self.leaf_length());
        check_range("leaf_length()", leaf_length, 1, u32::MAX.into())?;
        check("count()", self.count(), Bounds::Multiple(leaf_length))?;
        Ok(MOST_BYTES - self.count())
    }

    // Why `leaves_ahead` refuses this.
    #[inline]
    fn check_leaves_ahead(&self, skip: u64, length: u64, room: u64) -> Result<(), InvalidArgument> {
        let leaf_length = u64::from(self.leaf_length());
        let rest = self.check_is_at_leaf_boundary()?;
        check(
            "leaves.len()",
            length,
            Bounds::PositiveMultiple(leaf_length),
        )?;
        check_equal("digests.len()", room, length / leaf_length * 64)?;
        check_range("leaves.len()", length, leaf_length, rest)?;
        check_range("skip", skip, 0, (rest - length) / leaf_length)
    }

    // Why `update_leaves` refuses this.
    #[inline]
    fn check_update_leaves(&self, digests: u64, length: u64) -> Result<(), InvalidArgument> {
        check("digests.len()", digests, Bounds::Multiple(64))?;
        if digests == 0 {
            return check_range("input.len()", length, 0, MOST_BYTES - self.count());
        }
        let rest = self.check_is_at_leaf_boundary()?;
        let leaf_length = u64::from(self.leaf_length());
        let most = rest.saturating_sub(1) / leaf_length;
        check_range("digests.len()", digests, 0, most.saturating_mul(64))?;
        check_range("input.len()", length, 1, rest - digests / 64 * leaf_length)
    }
}

impl Clone for TreeHasher {
    #[inline]
    fn clone(&self) -> Self {
        let mut copy = TreeHasher {
            state: TreeState::ZEROS,
        };
        copy.state.0.copy_from_slice(&self.state.0);
        copy
    }
}

impl Drop for TreeHasher {
    #[inline]
    fn drop(&mut self) {
        // Safety: the state has initialized bytes.
        unsafe { library::tree_wipe(&mut self.state) }
    }
}

impl_stream_methods!(TreeHasher);
