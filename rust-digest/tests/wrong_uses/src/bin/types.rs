//! Sizes that no hash has, MACs without a key, and checks that are taken for values.
use digest::consts::{U0, U33, U65};
use digest::{KeyInit, Mac};
use vulfsjor_digest::*;

fn main() -> Result<(), Box<dyn std::error::Error>> {
    let key = &b"key"[..];
    let _ = <Blake2b<U0> as Digest>::digest(b"abc"); // refused
    let _ = <Blake2b<U65> as Digest>::digest(b"abc"); // refused
    let _ = <Blake2sp<U33> as Digest>::digest(b"abc"); // refused
    let _ = Blake2bMac::<U0>::new_with_salt_and_personal(key, b"", b""); // refused
    let _ = <Blake2sMac<U0> as KeyInit>::new_from_slice(key); // refused
    let _ = <Blake2bpMac<U65> as KeyInit>::new_from_slice(key); // refused
    let _ = Blake2bMac512::default(); // refused
    let _ = <Blake2bMac512 as Digest>::digest(b"abc"); // refused
    let _ = <Blake2b512 as KeyInit>::new_from_slice(key); // refused
    let _ = <Blake2bMac512 as KeyInit>::new(key); // refused
    let mac = <Blake2bMac512 as KeyInit>::new_from_slice(key)?;
    if mac.clone().verify_slice(b"tag") { // refused
        println!("accepted");
    }
    let _ = mac == mac; // refused
    let _ = mac.finalize() == *b"tag"; // refused
    Ok(())
}
