//! Reads and writes a [`Digest`] by `serde`, as a field with the attribute
//! `#[serde(with = "vulfsjor_digest::serde")]`: as hexadecimal digits in formats that people read,
//! such as JSON, and as bytes in others.
//!
//! ```text
//! #[derive(Serialize, Deserialize)]
//! struct Download {
//!     name: String,
//!     #[serde(with = "vulfsjor_digest::serde")]
//!     digest: vulfsjor::Digest,
//! }
//! ```
use core::fmt;

use ::serde::de::{Error, Visitor};
use ::serde::{Deserializer, Serializer};
use vulfsjor::Digest;

/// Writes a digest.
///
/// # Errors
///
/// Those of the serializer.
pub fn serialize<S: Serializer>(digest: &Digest, serializer: S) -> Result<S::Ok, S::Error> {
    if serializer.is_human_readable() {
        serializer.serialize_str(&digest.to_hex())
    } else {
        serializer.serialize_bytes(digest.as_bytes())
    }
}

/// Reads a digest of 1 to 64 bytes, of any size.
///
/// # Errors
///
/// Those of the deserializer, of [`Digest::from_hex`], and of `Digest::try_from` of bytes.
pub fn deserialize<'de, D: Deserializer<'de>>(deserializer: D) -> Result<Digest, D::Error> {
    if deserializer.is_human_readable() {
        deserializer.deserialize_str(Reader)
    } else {
        deserializer.deserialize_bytes(Reader)
    }
}

struct Reader;

impl Visitor<'_> for Reader {
    type Value = Digest;

    fn expecting(&self, f: &mut fmt::Formatter<'_>) -> fmt::Result {
        f.write_str("a digest of 1 to 64 bytes")
    }

    fn visit_str<E: Error>(self, digits: &str) -> Result<Digest, E> {
        Digest::from_hex(digits).map_err(E::custom)
    }

    fn visit_bytes<E: Error>(self, bytes: &[u8]) -> Result<Digest, E> {
        Digest::try_from(bytes).map_err(E::custom)
    }
}
