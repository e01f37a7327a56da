use core::fmt;

use crate::error::{check_equal, check_range};
use crate::{
    Blake2b, Blake2bMac, Blake2bp, Blake2bpMac, Blake2s, Blake2sMac, Blake2sp, Blake2spMac, Blake2xb,
    Blake2xs, Digest, InvalidArgument,
};

// The bytes of the shortest tag of a MAC, unless `allow_short` is set.
const LEAST_TAG: u64 = 16;

// The largest lengths of a family, in bytes, and its last node offset.
pub(crate) struct FamilyLimits {
    output_size: u64, // and of a key and an inner node's digest
    salt: u64,        // and of a persona
    node_offset: u64,
}

impl FamilyLimits {
    pub(crate) const BLAKE2B: Self = FamilyLimits {
        output_size: 64,
        salt: 16,
        node_offset: u64::MAX,
    };
    pub(crate) const BLAKE2S: Self = FamilyLimits {
        output_size: 32,
        salt: 8,
        node_offset: (1 << 48) - 1,
    };
}

/// Tree parameters: which node of a tree of hashes a hash is (the BLAKE2 document, 2.10).
///
/// The default is sequential hashing, so name only the fields that differ:
///
/// ```
/// use vulfsjor::Tree;
///
/// let leaf = Tree { fanout: 0, depth: 2, leaf_length: 4096, inner_length: 64, ..Tree::default() };
/// assert_eq!(leaf.node_offset, 0);
/// ```
#[derive(Clone, Copy, Debug, PartialEq, Eq, Hash)]
pub struct Tree {
    /// The maximum number of children of a node; 0 is unlimited.
    pub fanout: u8,
    /// The number of levels of the tree, at least 1.
    pub depth: u8,
    /// The maximum number of bytes in a leaf; 0 is unlimited.
    pub leaf_length: u32,
    /// The index of this node in its level, from 0; less than 2^48 in BLAKE2s.
    pub node_offset: u64,
    /// The level of this node; leaves have 0.
    pub node_depth: u8,
    /// The number of bytes in an inner node's digest, at most 64 in BLAKE2b and 32 in BLAKE2s.
    pub inner_length: u8,
}

impl Tree {
    /// The parameters of sequential hashing: fanout and depth are 1, and all other fields are 0.
    pub const SEQUENTIAL: Tree = Tree {
        fanout: 1,
        depth: 1,
        leaf_length: 0,
        node_offset: 0,
        node_depth: 0,
        inner_length: 0,
    };
}

/// [`Tree::SEQUENTIAL`].
impl Default for Tree {
    fn default() -> Self {
        Tree::SEQUENTIAL
    }
}

/// The parameters of a hash: digest length, key, salt, persona, tree parameters and last-node flag.
///
/// The default is the longest digest, and none of the others. Lengths are checked when a hasher is
/// made, not here. The persona is what the BLAKE2 document calls personalization. `Debug` shows the
/// length of the key, and no byte of it.
#[must_use = "a setter returns new parameters and leaves the old ones as they are"]
#[derive(Clone, Copy)]
pub struct Params<'a> {
    pub(crate) output_size: Option<usize>,
    pub(crate) key: Option<&'a [u8]>,
    pub(crate) salt: &'a [u8],
    pub(crate) persona: &'a [u8],
    pub(crate) tree: Tree,
    pub(crate) last_node: bool,
    pub(crate) allow_short: bool,
}

impl<'a> Params<'a> {
    /// Returns parameters for the longest digest of the family, without key, salt and persona.
    #[inline]
    pub const fn new() -> Self {
        Params {
            output_size: None,
            key: None,
            salt: b"",
            persona: b"",
            tree: Tree::SEQUENTIAL,
            last_node: false,
            allow_short: false,
        }
    }

    /// Sets the number of bytes in the digest: 1 to 64 for BLAKE2b, 1 to 32 for BLAKE2s. The limits
    /// of BLAKE2bp and BLAKE2sp are here and below those of BLAKE2b and BLAKE2s.
    #[doc(alias = "hash_length")]
    #[doc(alias = "digest_length")]
    #[doc(alias = "digest_size")]
    #[doc(alias = "out_len")]
    #[inline]
    pub fn output_size(self, bytes: usize) -> Self {
        Params {
            output_size: Some(bytes),
            ..self
        }
    }

    /// Sets the key: 1 to 64 bytes for BLAKE2b, 1 to 32 for BLAKE2s. A key of no bytes is refused, so
    /// that a missing key never leaves a hash without one. For a hash without a key, do not call
    /// this.
    #[inline]
    pub fn key(self, key: &'a [u8]) -> Self {
        Params {
            key: Some(key),
            ..self
        }
    }

    /// Sets the salt: up to 16 bytes for BLAKE2b, up to 8 for BLAKE2s. Trailing zeros change
    /// nothing.
    #[inline]
    pub fn salt(self, salt: &'a [u8]) -> Self {
        Params { salt, ..self }
    }

    /// Sets the persona: up to 16 bytes for BLAKE2b, up to 8 for BLAKE2s. Trailing zeros change
    /// nothing. Use a different persona for each purpose.
    #[doc(alias = "personal")]
    #[doc(alias = "personalization")]
    #[doc(alias = "person")]
    #[inline]
    pub fn persona(self, persona: &'a [u8]) -> Self {
        Params { persona, ..self }
    }

    /// Sets the tree parameters, within the limits that [`Tree`] states.
    #[doc(alias = "fanout")]
    #[doc(alias = "max_depth")]
    #[doc(alias = "node_offset")]
    #[doc(alias = "max_leaf_length")]
    #[doc(alias = "inner_hash_length")]
    #[doc(alias = "node_depth")]
    #[inline]
    pub fn tree(self, tree: Tree) -> Self {
        Params { tree, ..self }
    }

    /// Sets whether the hash is the last node on its level of a tree of hashes (the BLAKE2
    /// document, 2.10).
    #[inline]
    pub fn last_node(self, last_node: bool) -> Self {
        Params { last_node, ..self }
    }

    /// Sets whether a MAC may have tags of fewer than 16 bytes, which it refuses otherwise. Anybody
    /// makes a tag of `n` bytes in at most 256^n tries. So never pass the length of a tag that came.
    /// Hashers do not look at this.
    ///
    /// ```
    /// use vulfsjor::Params;
    ///
    /// let params = Params::new().key(&[7; 32]).output_size(8);
    /// let error = params.blake2b_mac().unwrap_err();
    /// assert_eq!(error.to_string(), "output_size is 8, and must be 16 to 64");
    /// assert!(params.allow_short(true).blake2b_mac().is_ok());
    /// ```
    #[inline]
    pub fn allow_short(self, allow_short: bool) -> Self {
        Params {
            allow_short,
            ..self
        }
    }

    /// Returns a BLAKE2b hasher with these parameters.
    ///
    /// With a key its digests are tags. [`blake2b_mac`](Self::blake2b_mac) returns a MAC, which also
    /// compares them by `verify`.
    ///
    /// # Errors
    ///
    /// [`InvalidArgument`] exactly if a length or a tree parameter is out of BLAKE2b's range.
    #[inline]
    pub fn blake2b(&self) -> Result<Blake2b, InvalidArgument> {
        Blake2b::with_params(self)
    }

    /// Returns a BLAKE2b MAC with these parameters, which include the key.
    ///
    /// # Errors
    ///
    /// [`InvalidArgument`] exactly if [`Blake2bMac::with_params`] refuses them.
    #[inline]
    pub fn blake2b_mac(&self) -> Result<Blake2bMac, InvalidArgument> {
        Blake2bMac::with_params(self)
    }

    /// Returns the BLAKE2b digest of a message under these parameters.
    ///
    /// ```
    /// use vulfsjor::Params;
    ///
    /// let digest = Params::new().output_size(20).persona(b"program").blake2b_hash("message")?;
    /// assert_eq!(digest.to_hex().len(), 40);
    /// # Ok::<(), vulfsjor::InvalidArgument>(())
    /// ```
    ///
    /// # Errors
    ///
    /// [`InvalidArgument`] exactly if a length or a tree parameter is out of BLAKE2b's range.
    pub fn blake2b_hash(&self, message: impl AsRef<[u8]>) -> Result<Digest, InvalidArgument> {
        Ok(self.blake2b()?.update(message).finalize())
    }

    /// Returns a BLAKE2s hasher with these parameters.
    ///
    /// With a key its digests are tags. [`blake2s_mac`](Self::blake2s_mac) returns a MAC, which also
    /// compares them by `verify`.
    ///
    /// # Errors
    ///
    /// [`InvalidArgument`] exactly if a length or a tree parameter is out of BLAKE2s's range.
    #[inline]
    pub fn blake2s(&self) -> Result<Blake2s, InvalidArgument> {
        Blake2s::with_params(self)
    }

    /// Returns a BLAKE2s MAC with these parameters, which include the key.
    ///
    /// # Errors
    ///
    /// [`InvalidArgument`] exactly if [`Blake2sMac::with_params`] refuses them.
    #[inline]
    pub fn blake2s_mac(&self) -> Result<Blake2sMac, InvalidArgument> {
        Blake2sMac::with_params(self)
    }

    /// Returns the BLAKE2s digest of a message under these parameters.
    ///
    /// ```
    /// use vulfsjor::Params;
    ///
    /// let digest = Params::new().output_size(20).persona(b"program").blake2s_hash("message")?;
    /// assert_eq!(digest.to_hex().len(), 40);
    /// # Ok::<(), vulfsjor::InvalidArgument>(())
    /// ```
    ///
    /// # Errors
    ///
    /// [`InvalidArgument`] exactly if a length or a tree parameter is out of BLAKE2s's range.
    pub fn blake2s_hash(&self, message: impl AsRef<[u8]>) -> Result<Digest, InvalidArgument> {
        Ok(self.blake2s()?.update(message).finalize())
    }

    /// Returns a BLAKE2bp hasher with these parameters.
    ///
    /// With a key its digests are tags. [`blake2bp_mac`](Self::blake2bp_mac) returns a MAC, which also
    /// compares them by `verify`.
    ///
    /// # Errors
    ///
    /// [`InvalidArgument`] exactly if a length is out of BLAKE2bp's range, or tree parameters or
    /// the last-node flag are set.
    #[inline]
    pub fn blake2bp(&self) -> Result<Blake2bp, InvalidArgument> {
        Blake2bp::with_params(self)
    }

    /// Returns a BLAKE2bp MAC with these parameters, which include the key.
    ///
    /// # Errors
    ///
    /// [`InvalidArgument`] exactly if [`Blake2bpMac::with_params`] refuses them.
    #[inline]
    pub fn blake2bp_mac(&self) -> Result<Blake2bpMac, InvalidArgument> {
        Blake2bpMac::with_params(self)
    }

    /// Returns the BLAKE2bp digest of a message under these parameters.
    ///
    /// ```
    /// use vulfsjor::Params;
    ///
    /// let digest = Params::new().output_size(20).blake2bp_hash("message")?;
    /// assert_ne!(digest, Params::new().output_size(20).blake2b_hash("message")?);
    /// # Ok::<(), vulfsjor::InvalidArgument>(())
    /// ```
    ///
    /// # Errors
    ///
    /// [`InvalidArgument`] exactly if a length is out of BLAKE2bp's range, or tree parameters or
    /// the last-node flag are set.
    pub fn blake2bp_hash(&self, message: impl AsRef<[u8]>) -> Result<Digest, InvalidArgument> {
        Ok(self.blake2bp()?.update(message).finalize())
    }

    /// Returns a BLAKE2sp hasher with these parameters.
    ///
    /// With a key its digests are tags. [`blake2sp_mac`](Self::blake2sp_mac) returns a MAC, which also
    /// compares them by `verify`.
    ///
    /// # Errors
    ///
    /// [`InvalidArgument`] exactly if a length is out of BLAKE2sp's range, or tree parameters or
    /// the last-node flag are set.
    #[inline]
    pub fn blake2sp(&self) -> Result<Blake2sp, InvalidArgument> {
        Blake2sp::with_params(self)
    }

    /// Returns a BLAKE2sp MAC with these parameters, which include the key.
    ///
    /// # Errors
    ///
    /// [`InvalidArgument`] exactly if [`Blake2spMac::with_params`] refuses them.
    #[inline]
    pub fn blake2sp_mac(&self) -> Result<Blake2spMac, InvalidArgument> {
        Blake2spMac::with_params(self)
    }

    /// Returns the BLAKE2sp digest of a message under these parameters.
    ///
    /// ```
    /// use vulfsjor::Params;
    ///
    /// let digest = Params::new().output_size(20).blake2sp_hash("message")?;
    /// assert_ne!(digest, Params::new().output_size(20).blake2s_hash("message")?);
    /// # Ok::<(), vulfsjor::InvalidArgument>(())
    /// ```
    ///
    /// # Errors
    ///
    /// [`InvalidArgument`] exactly if a length is out of BLAKE2sp's range, or tree parameters or
    /// the last-node flag are set.
    pub fn blake2sp_hash(&self, message: impl AsRef<[u8]>) -> Result<Digest, InvalidArgument> {
        Ok(self.blake2sp()?.update(message).finalize())
    }

    /// Returns a BLAKE2Xb hasher with these parameters. `output_size` is the length of its output,
    /// 1 to 2^32 - 2; without one that is not known in advance.
    ///
    /// # Errors
    ///
    /// [`InvalidArgument`] exactly if a length is out of BLAKE2Xb's range, or tree parameters or
    /// the last-node flag are set.
    #[inline]
    pub fn blake2xb(&self) -> Result<Blake2xb, InvalidArgument> {
        Blake2xb::with_params(self)
    }

    /// Returns a BLAKE2Xs hasher with these parameters. `output_size` is the length of its output,
    /// 1 to 65,534; without one that is not known in advance.
    ///
    /// # Errors
    ///
    /// [`InvalidArgument`] exactly if a length is out of BLAKE2Xs's range, or tree parameters or
    /// the last-node flag are set.
    #[inline]
    pub fn blake2xs(&self) -> Result<Blake2xs, InvalidArgument> {
        Blake2xs::with_params(self)
    }

    // The key, or no bytes if there is none.
    #[inline]
    pub(crate) fn key_or_none(&self) -> &'a [u8] {
        self.key.unwrap_or(b"")
    }

    // An error unless there is no key, or one that a family with keys of up to `max` bytes accepts.
    pub(crate) fn check_key(&self, max: u64) -> Result<(), InvalidArgument> {
        self.key.map_or(Ok(()), |key| {
            check_range("key.len()", key.len() as u64, 1, max)
        })
    }

    // An error unless a MAC of a family with keys and tags of up to `max` bytes accepts the key and
    // the length of the tag.
    pub(crate) fn check_key_and_tag_length(&self, max: u64) -> Result<(), InvalidArgument> {
        check_range("key.len()", self.key_or_none().len() as u64, 1, max)?;
        let least = if self.allow_short { 1 } else { LEAST_TAG };
        self.output_size.map_or(Ok(()), |size| {
            check_range("output_size", size as u64, least, max)
        })
    }

    // Why a family with these limits refuses the parameters, whose key it accepts.
    pub(crate) fn check(&self, limits: &FamilyLimits) -> Result<(), InvalidArgument> {
        let FamilyLimits {
            output_size: max,
            salt,
            node_offset,
        } = *limits;
        check_range(
            "output_size",
            self.output_size.map_or(max, |size| size as u64),
            1,
            max,
        )?;
        check_range("salt.len()", self.salt.len() as u64, 0, salt)?;
        check_range("persona.len()", self.persona.len() as u64, 0, salt)?;
        check_range("tree.depth", self.tree.depth.into(), 1, 255)?;
        check_range("tree.node_offset", self.tree.node_offset, 0, node_offset)?;
        check_range("tree.inner_length", self.tree.inner_length.into(), 0, max)
    }

    // An error unless the hash is sequential and not the last node of a level.
    pub(crate) fn check_sequential(&self) -> Result<(), InvalidArgument> {
        let (tree, wanted) = (self.tree, Tree::SEQUENTIAL);
        check_equal("tree.fanout", tree.fanout.into(), wanted.fanout.into())?;
        check_equal("tree.depth", tree.depth.into(), wanted.depth.into())?;
        check_equal(
            "tree.leaf_length",
            tree.leaf_length.into(),
            wanted.leaf_length.into(),
        )?;
        check_equal("tree.node_offset", tree.node_offset, wanted.node_offset)?;
        check_equal(
            "tree.node_depth",
            tree.node_depth.into(),
            wanted.node_depth.into(),
        )?;
        check_equal(
            "tree.inner_length",
            tree.inner_length.into(),
            wanted.inner_length.into(),
        )?;
        check_equal("last_node", self.last_node.into(), 0)
    }
}

impl Default for Params<'_> {
    fn default() -> Self {
        Params::new()
    }
}

impl fmt::Debug for Params<'_> {
    fn fmt(&self, f: &mut fmt::Formatter<'_>) -> fmt::Result {
        f.debug_struct("Params")
            .field("output_size", &self.output_size)
            .field("key_length", &self.key.map(<[u8]>::len))
            .field("salt", &self.salt)
            .field("persona", &self.persona)
            .field("tree", &self.tree)
            .field("last_node", &self.last_node)
            .field("allow_short", &self.allow_short)
            .finish()
    }
}
