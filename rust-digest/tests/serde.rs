//! Bytes that a format of `serde` lends for one call, as those of a file, and that it lends for longer; and what is
//! refused.
#![cfg(feature = "serde")]
use serde::de::value::{BorrowedBytesDeserializer, BytesDeserializer, Error, SeqDeserializer};
use vulfsjor_digest::serde::deserialize;

#[test]
fn owned_bytes_are_deserialized() {
    for bytes in [&[7, 8][..], &[7; 64]] {
        assert_eq!(deserialize(BytesDeserializer::<Error>::new(bytes)).unwrap(), bytes);
        assert_eq!(deserialize(BorrowedBytesDeserializer::<Error>::new(bytes)).unwrap(), bytes);
    }
    for length in [0, 65] {
        assert!(deserialize(BytesDeserializer::<Error>::new(&[7; 65][..length])).is_err());
        assert!(deserialize(BorrowedBytesDeserializer::<Error>::new(&[7; 65][..length])).is_err());
    }
    assert!(deserialize(SeqDeserializer::<_, Error>::new([7u8, 8].into_iter())).is_err());
}
