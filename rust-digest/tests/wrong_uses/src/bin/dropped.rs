//! Results that nobody uses, one of each kind of type.
#![deny(unused_must_use)]
use digest::{ExtendableOutput, KeyInit, Mac, Update, VariableOutput};
use std::io::{Read, Write};
use vulfsjor_digest::*;

fn main() -> Result<(), Box<dyn std::error::Error>> {
    let (key, bytes) = (&b"key"[..], &b"abc"[..]);
    <Blake2b512 as Digest>::new().chain_update(bytes); // refused
    Blake2s256::new_with_salt_and_personal(key, key)?; // refused
    Blake2sp256::default(); // refused
    <Blake2bVar as VariableOutput>::new(20)?; // refused
    <Blake2sVar as VariableOutput>::new(20)?.finalize_variable(&mut [0; 20]); // refused
    Blake2bMac512::new_with_salt_and_personal(key, key, key)?; // refused
    <Blake2bpMac512 as KeyInit>::new_from_slice(key)?; // refused
    <Blake2sMac256 as KeyInit>::new_from_slice(key)?.verify_truncated_left(bytes); // refused
    Blake2xs::with_params(&vulfsjor::Params::new())?; // refused
    Blake2xb::default().finalize_xof(); // refused
    Blake2xs::default().finalize_xof().read_exact(&mut [0; 9]); // refused
    Blake2xs::default().write_all(bytes); // refused
    let mut mac = <Blake2bMac512 as KeyInit>::new_from_slice(key)?;
    Update::update(&mut mac, bytes);
    mac.clone(); // refused
    Ok(())
}
