//! What programs do with the crate `blake2` 0.10, each way once. Prints digests and tags, which the
//! test compares with hashlib.
use blake2::digest::consts::U10;
use blake2::digest::{self, FixedOutput, Mac};
use blake2::{Blake2b, Blake2b512, Blake2bMac, Blake2bMac512, Blake2s256, Digest};

fn print(bytes: impl AsRef<[u8]>) {
    for byte in bytes.as_ref() {
        print!("{byte:02x}");
    }
    println!();
}

// A function over any hash function, by a path through the renamed crate.
fn digest_of_message_twice<D: digest::Digest>(message: &[u8]) -> digest::Output<D> {
    D::digest(D::digest(message))
}

// A size that is known at run time only.
fn digest_of_size(size: usize, message: &[u8]) -> Result<Vec<u8>, Box<dyn std::error::Error>> {
    use blake2::digest::{Update, VariableOutput};
    let mut hasher = blake2::Blake2bVar::new(size)?;
    hasher.update(message);
    let mut digest = vec![0; size];
    hasher.finalize_variable(&mut digest)?;
    Ok(digest)
}

// The recipe for files of that crate.
fn digest_of_file(path: &str) -> std::io::Result<[u8; 32]> {
    let mut hasher = Blake2s256::new();
    std::io::copy(&mut std::fs::File::open(path)?, &mut hasher)?;
    Ok(hasher.finalize().into())
}

fn main() -> Result<(), Box<dyn std::error::Error>> {
    let mut hasher = Blake2b512::new();
    hasher.update(b"hello ");
    hasher.update(b"world");
    print(hasher.finalize());
    print(Blake2s256::digest("hello world"));
    print(Blake2b::<U10>::new().chain_update("my input").finalize());
    print(digest_of_message_twice::<Blake2s256>(b"abc"));
    print(digest_of_size(10, b"my input")?);

    let mac = <Blake2bMac512 as Mac>::new_from_slice(b"key")?.chain_update(b"my input");
    print(mac.clone().finalize().into_bytes());
    mac.verify_slice(b"wrong").unwrap_err();
    let mac = Blake2bMac::<U10>::new_with_salt_and_personal(b"key", b"salt", b"persona")?;
    print(mac.chain_update(b"my input").finalize_fixed());
    print(digest_of_file("Cargo.toml")?);
    Ok(())
}
