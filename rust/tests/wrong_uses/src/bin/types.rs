//! Arguments in a wrong order or of a wrong type, and tags that have no key.
use vulfsjor::*;

fn main() -> Result<(), InvalidArgument> {
    let (params, tree) = (Params::new(), TreeParams::new(64));
    let (bytes, mut digests, text) = ([7; 64], [0; 64], String::from("text"));
    // In C the digests come first.
    tree.leaves(&mut digests, 0, true, &bytes)?; // refused
    tree.leaves(&bytes, true, 0, &mut digests)?; // refused
    tree.hasher()?.leaves_ahead(&bytes, 0, &mut digests)?; // refused
    tree.root_threads(0, &bytes)?; // refused
    Blake2xb::derive_key(&bytes, &mut digests, b"context")?; // refused
    Blake2b::digest_many(&[bytes], &params, &mut [digests])?; // refused
    Blake2b::update_many(&[bytes], &mut [Blake2b::new()]); // refused
    Blake2b::update_many(&mut [Blake2s::new()], &[bytes]); // refused
    Blake2b::update_many(&mut [Blake2b::new()], &bytes); // refused
    let _ = params.key(&text); // refused
    let _ = params.output_size(b"key"); // refused
    let _ = Blake2bMac::default(); // refused
    let _ = Blake2bMac::new(); // refused
    let mac = Blake2bMac::new(b"key")?;
    if mac.verify(b"tag") == true { // refused
        println!("accepted");
    }
    let _ = mac.verify == Ok(()); // refused
    let _ = mac == mac; // refused
    let _ = mac.finalize() == mac; // refused
    Ok(())
}
