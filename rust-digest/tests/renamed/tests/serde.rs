//! Digests that formats of `serde` hold, text and binary.
use serde::{Deserialize, Serialize};
use vulfsjor::Digest;

#[derive(Serialize, Deserialize)]
#[serde(transparent)]
struct Field(#[serde(with = "blake2::serde")] Digest);

#[test]
fn text_formats_have_hex_digits() {
    let zeros = format!("{:?}", "00".repeat(64));
    for (bytes, text) in [(&[1, 0xaf][..], "\"01af\""), (&[0; 64], &zeros)] {
        let field = Field(Digest::try_from(bytes).unwrap());
        assert_eq!(serde_json::to_string(&field).unwrap(), *text);
        let Field(read) = serde_json::from_str(&text.to_uppercase()).unwrap();
        assert_eq!(read, *bytes);
    }
    for (text, error) in [
        ("\"0\"", "1 hexadecimal digits, and not an even number from 2 to 128"),
        ("\"0x\"", "the byte 0x78 at index 1 is not a hexadecimal digit"),
        ("\" 01\"", "3 hexadecimal digits, and not an even number from 2 to 128"),
        ("[1]", "invalid type: sequence, expected a digest of 1 to 64 bytes"),
    ] {
        let message = serde_json::from_str::<Field>(text).err().unwrap().to_string();
        assert!(message.starts_with(error), "{message}");
    }
}

#[test]
fn binary_formats_have_bytes() {
    let written = bincode::serialize(&Field(Digest::from([7, 8]))).unwrap();
    assert_eq!(written, [2, 0, 0, 0, 0, 0, 0, 0, 7, 8]);
    let Field(read) = bincode::deserialize(&written).unwrap();
    assert_eq!(read, [7, 8]);
    // A reader, whose bytes are not borrowed.
    let Field(read) = bincode::deserialize_from(std::io::Cursor::new(&written)).unwrap();
    assert_eq!(read, [7, 8]);
    let none = bincode::deserialize::<Field>(&[0; 8]).err().unwrap().to_string();
    assert_eq!(none, "the slice's length is 0, and must be 1 to 64");
}
