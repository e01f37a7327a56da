use core::borrow::Borrow;
use core::cmp::Ordering;
use core::hash::{Hash, Hasher};
use core::str::FromStr;
use core::{fmt, ops};

use crate::error::{check_equal, check_range};
use crate::{library, HexError, InvalidArgument};

/// A digest of 1 to 64 bytes.
///
/// `==` with another digest, an array or a slice of the same length compares all bytes, wherever
/// they differ, so you may compare tags with it. Bytes of another length are not equal. The order
/// (`<`, [`Ord`]), [`Hash`], [`to_hex`](Self::to_hex) and the conversions below do not protect
/// secrets in this way. The order is that of the bytes, as for slices.
///
/// ```
/// use vulfsjor::Blake2s;
///
/// let digest = Blake2s::digest(b"abc");
/// let bytes: [u8; 32] = digest.try_into()?;
/// assert!(digest == bytes && bytes[..] == digest);
/// assert!(digest != bytes[..31]);
/// assert!(Blake2s::digest(b"xyz") < digest || digest < Blake2s::digest(b"xyz"));
/// assert_eq!(format!("{digest:X}")[..16], *"508C5E8C327C14E2");
/// # Ok::<(), vulfsjor::InvalidArgument>(())
/// ```
#[must_use = "a digest that nothing compares or keeps is lost"]
#[derive(Clone, Copy)]
pub struct Digest {
    pub(crate) bytes: [u8; 64],
    pub(crate) size: usize,
}

impl Digest {
    // A digest of this number of zeros.
    #[inline]
    pub(crate) fn zeros(size: usize) -> Self {
        Digest {
            bytes: [0; 64],
            size,
        }
    }

    /// Returns the bytes.
    #[doc(alias = "to_vec")]
    #[doc(alias = "as_slice")]
    #[must_use]
    #[inline]
    pub fn as_bytes(&self) -> &[u8] {
        &self.bytes[..self.size]
    }

    /// Returns the number of bytes, 1 to 64.
    #[allow(clippy::len_without_is_empty)] // none is empty
    #[must_use]
    #[inline]
    pub fn len(&self) -> usize {
        self.size
    }

    /// Returns the digest with these hexadecimal digits, two for each byte, in lower or upper case.
    /// [`FromStr`] does the same. The call does not allocate.
    ///
    /// ```
    /// use vulfsjor::{Blake2s, Digest};
    ///
    /// let digest = Blake2s::digest(b"abc");
    /// assert_eq!(Digest::from_hex(digest.to_hex().as_str())?, digest);
    /// assert_eq!(format!("{digest:X}").parse::<Digest>()?, digest);
    /// # Ok::<(), vulfsjor::HexError>(())
    /// ```
    ///
    /// # Errors
    ///
    /// [`HexError`] exactly if the text has another number of bytes than an even one from 2 to 128,
    /// or a byte that is not a hexadecimal digit.
    pub fn from_hex(digits: impl AsRef<[u8]>) -> Result<Self, HexError> {
        let digits = digits.as_ref();
        let length = digits.len();
        if length % 2 != 0 || !(2..=128).contains(&length) {
            return Err(HexError::Length(length));
        }
        let mut digest = Digest::zeros(length / 2);
        for (index, &byte) in digits.iter().enumerate() {
            let digit = char::from(byte).to_digit(16);
            let digit = digit.ok_or(HexError::Digit { index, byte })?;
            digest.bytes[index / 2] = digest.bytes[index / 2] << 4 | digit as u8;
        }
        Ok(digest)
    }

    /// Returns the lower-case hexadecimal digits, two for each byte. The call does not allocate.
    ///
    /// ```
    /// let hex = vulfsjor::Blake2s::digest(b"abc").to_hex();
    /// assert!(hex.starts_with("508c5e8c") && hex.len() == 64);
    /// ```
    #[inline]
    pub fn to_hex(&self) -> HexString {
        self.hex(b"0123456789abcdef")
    }

    fn hex(&self, digits: &[u8; 16]) -> HexString {
        let mut text = [0; 128];
        for (pair, byte) in text.chunks_exact_mut(2).zip(self.as_bytes()) {
            pair[0] = digits[usize::from(byte >> 4)];
            pair[1] = digits[usize::from(byte & 15)];
        }
        HexString {
            text,
            length: 2 * self.size,
        }
    }
}

/// The hexadecimal digits of a [`Digest`], which [`Digest::to_hex`] returns: a `str` of 2 to 128
/// characters.
#[must_use]
#[derive(Clone, Copy, PartialEq, Eq, Hash)]
pub struct HexString {
    text: [u8; 128],
    length: usize,
}

impl HexString {
    /// Returns the digits.
    #[must_use]
    #[inline]
    pub fn as_str(&self) -> &str {
        core::str::from_utf8(&self.text[..self.length]).expect("digits are ASCII")
    }
}

impl ops::Deref for HexString {
    type Target = str;

    #[inline]
    fn deref(&self) -> &str {
        self.as_str()
    }
}

impl AsRef<str> for HexString {
    #[inline]
    fn as_ref(&self) -> &str {
        self.as_str()
    }
}

impl PartialEq<str> for HexString {
    #[inline]
    fn eq(&self, other: &str) -> bool {
        self.as_str() == other
    }
}

impl PartialEq<&str> for HexString {
    #[inline]
    fn eq(&self, other: &&str) -> bool {
        self.as_str() == *other
    }
}

impl fmt::Display for HexString {
    #[inline]
    fn fmt(&self, f: &mut fmt::Formatter<'_>) -> fmt::Result {
        f.pad(self)
    }
}

impl fmt::Debug for HexString {
    #[inline]
    fn fmt(&self, f: &mut fmt::Formatter<'_>) -> fmt::Result {
        fmt::Debug::fmt(self.as_str(), f)
    }
}

impl AsRef<[u8]> for Digest {
    #[inline]
    fn as_ref(&self) -> &[u8] {
        self.as_bytes()
    }
}

impl PartialEq<[u8]> for Digest {
    #[inline]
    fn eq(&self, other: &[u8]) -> bool {
        let bytes = self.as_bytes();
        // Safety: both pointers come from slices of these lengths, and nothing is written.
        unsafe { library::memcmp(bytes.as_ptr(), bytes.len(), other.as_ptr(), other.len()) == 0 }
    }
}

// `==` of a digest with a type that holds bytes, in both orders.
macro_rules! equal_to {
    ([$($of:tt)*] $type:ty) => {
        impl<$($of)*> PartialEq<$type> for Digest {
            #[inline]
            fn eq(&self, other: &$type) -> bool {
                *self == other[..]
            }
        }

        impl<$($of)*> PartialEq<Digest> for $type {
            #[inline]
            fn eq(&self, other: &Digest) -> bool {
                *other == self[..]
            }
        }
    };
}

equal_to!([] & [u8]);
equal_to!([const N: usize] [u8; N]);
equal_to!([const N: usize] &[u8; N]);
#[cfg(feature = "std")]
equal_to!([] std::vec::Vec<u8>);

impl PartialEq<Digest> for [u8] {
    #[inline]
    fn eq(&self, other: &Digest) -> bool {
        *other == *self
    }
}

impl PartialEq for Digest {
    #[inline]
    fn eq(&self, other: &Digest) -> bool {
        *self == *other.as_bytes()
    }
}

impl Eq for Digest {}

/// The order of the bytes. It stops at the first difference: compare tags with `==`.
impl Ord for Digest {
    #[inline]
    fn cmp(&self, other: &Digest) -> Ordering {
        self.as_bytes().cmp(other.as_bytes())
    }
}

impl PartialOrd for Digest {
    #[inline]
    fn partial_cmp(&self, other: &Digest) -> Option<Ordering> {
        Some(self.cmp(other))
    }
}

impl Hash for Digest {
    fn hash<H: Hasher>(&self, state: &mut H) {
        self.as_bytes().hash(state);
    }
}

/// [`Digest::from_hex`].
impl FromStr for Digest {
    type Err = HexError;

    fn from_str(digits: &str) -> Result<Self, HexError> {
        Digest::from_hex(digits)
    }
}

/// The digest of these bytes. The error is [`InvalidArgument`], exactly if there are not 1 to 64.
impl TryFrom<&[u8]> for Digest {
    type Error = InvalidArgument;

    #[inline]
    fn try_from(bytes: &[u8]) -> Result<Self, InvalidArgument> {
        check_range("the slice's length", bytes.len() as u64, 1, 64)?;
        let mut digest = Digest::zeros(bytes.len());
        digest.bytes[..bytes.len()].copy_from_slice(bytes);
        Ok(digest)
    }
}

struct Length<const N: usize>;

impl<const N: usize> Length<N> {
    const IS_OF_A_DIGEST: () = assert!(N >= 1 && N <= 64, "a digest has 1 to 64 bytes");
}

/// The digest of these bytes. An array of no bytes or of more than 64 does not compile:
///
/// ```
/// assert_eq!(vulfsjor::Digest::from([1, 2]).as_bytes(), [1, 2]);
/// ```
/// ```compile_fail
/// vulfsjor::Digest::from([0; 65]);
/// ```
/// ```compile_fail
/// vulfsjor::Digest::from([0; 0]);
/// ```
impl<const N: usize> From<[u8; N]> for Digest {
    #[inline]
    fn from(bytes: [u8; N]) -> Self {
        let () = Length::<N>::IS_OF_A_DIGEST;
        let mut digest = Digest::zeros(N);
        digest.bytes[..N].copy_from_slice(&bytes);
        digest
    }
}

/// The bytes, which have the same [`Eq`], [`Ord`] and [`Hash`]: a map with digests as keys can be
/// searched by a slice.
impl Borrow<[u8]> for Digest {
    #[inline]
    fn borrow(&self) -> &[u8] {
        self.as_bytes()
    }
}

/// The bytes of a digest of this length. The error is [`InvalidArgument`], exactly for another
/// length.
impl<const N: usize> TryFrom<Digest> for [u8; N] {
    type Error = InvalidArgument;

    #[inline]
    fn try_from(digest: Digest) -> Result<Self, InvalidArgument> {
        check_equal("the array's length", N as u64, digest.size as u64)?;
        let mut array = [0; N];
        array.copy_from_slice(digest.as_bytes());
        Ok(array)
    }
}

/// Lower-case hexadecimal digits, as with `{:x}`. A precision truncates them: `{:.8}` shows the
/// first 8.
impl fmt::Display for Digest {
    #[inline]
    fn fmt(&self, f: &mut fmt::Formatter<'_>) -> fmt::Result {
        f.pad(&self.to_hex())
    }
}

/// Lower-case hexadecimal digits, two for each byte; `{:#x}` begins with 0x.
impl fmt::LowerHex for Digest {
    #[inline]
    fn fmt(&self, f: &mut fmt::Formatter<'_>) -> fmt::Result {
        f.pad_integral(true, "0x", &self.to_hex())
    }
}

/// Upper-case hexadecimal digits, two for each byte; `{:#X}` begins with 0x.
impl fmt::UpperHex for Digest {
    #[inline]
    fn fmt(&self, f: &mut fmt::Formatter<'_>) -> fmt::Result {
        f.pad_integral(true, "0x", &self.hex(b"0123456789ABCDEF"))
    }
}

impl fmt::Debug for Digest {
    #[inline]
    fn fmt(&self, f: &mut fmt::Formatter<'_>) -> fmt::Result {
        write!(f, "Digest({self})")
    }
}
