//! Compares a tag with bytes that differ from it at one place, 2,000 times. tests/programs.rs counts
//! the instructions with valgrind, and the count must not depend on the place.
//!
//!     equal_time digest|verify PLACE
use vulfsjor::Blake2bMac;

fn main() {
    let words: Vec<String> = std::env::args().collect();
    let place: usize = words[2].parse().expect("a place");
    let mac = Blake2bMac::new(b"key").expect("a key");
    let tag = mac.clone().finalize();
    let mut wrong: [u8; 64] = tag.try_into().expect("64 bytes");
    wrong[place] ^= 1;
    for _ in 0..2000 {
        let is_refused = match words[1].as_str() {
            "digest" => tag != wrong && tag != wrong[..],
            _ => mac.clone().verify(&wrong).is_err(),
        };
        assert!(is_refused);
    }
}
