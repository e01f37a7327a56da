//! Results that nobody uses. A setter's is the worst: its key is then in no digest. All families have their types and
//! calls from the same lines of the crate, so one of them is here.
#![deny(unused_must_use)]
use std::io::{Read, Write};
use vulfsjor::*;

// What is right in `blake2b_simd`, whose setters change the parameters.
fn use_of_ported_setters<'a>(k: &'a [u8], m: &[u8]) -> Result<Digest, InvalidArgument> {
    let mut p = Params::new();
    p.output_size(16); // refused
    p.key(k); // refused
    p.persona(b"purpose 1"); // refused
    let first = p.blake2b_hash(m)?;
    p.persona(b"purpose 2"); // refused
    p.output_size(32).key(k); // refused
    p = p.key(k);
    Ok(if p.blake2b_hash(m)? == first { first } else { p.blake2s_hash(m)? })
}

fn dropped_parameters(params: &Params<'_>, tree: &mut TreeParams<'_>) -> Result<(), InvalidArgument> {
    Params::new(); // refused
    Params::default(); // refused
    params.salt(b"salt"); // refused
    params.tree(Tree::default()); // refused
    params.last_node(true); // refused
    params.blake2b(); // refused
    params.blake2b()?; // refused
    params.blake2b_hash(b"abc")?; // refused
    params.blake2xs()?; // refused
    TreeParams::new(4096); // refused
    tree.output_size(32); // refused
    tree.salt(b"salt"); // refused
    tree.persona(b"files"); // refused
    *tree = tree.persona(b"files");
    Ok(())
}

fn dropped_hasher_results(params: &Params<'_>, tag: &[u8]) -> Result<(), InvalidArgument> {
    Blake2b::new(); // refused
    Blake2b::default(); // refused
    Blake2b::digest(b"abc"); // refused
    Blake2b::with_params(params)?; // refused
    Blake2b::digest_many::<64>(params, &[b"abc"], &mut [[0; 64]]); // refused
    let mut hasher = Blake2b::new();
    hasher.finalize_reset(); // refused
    hasher.count(); // refused
    hasher.clone(); // refused
    hasher.update_reader(&b"abc"[..]); // refused
    hasher.write_all(b"abc"); // refused
    hasher.set_last_node(true);
    hasher.update(b"abc").reset();

    Blake2bMac::with_params(params)?; // refused
    Blake2bMac::tag(b"key", b"abc")?; // refused
    let mut mac = Blake2bMac::new(b"key")?;
    mac.update(b"abc").verify(tag); // refused
    mac.finalize(); // refused
    mac.finalize_reset(); // refused
    mac.count(); // refused
    mac.update(b"abc").reset();
    Ok(())
}

fn dropped_output_results(key: &[u8], out: &mut [u8]) {
    Blake2xb::new(); // refused
    Blake2xb::derive_key(key, "files", out); // refused
    let mut hasher = Blake2xb::new();
    hasher.update(b"abc").finalize_xof(); // refused
    hasher.count(); // refused
    let mut reader = hasher.finalize_xof();
    reader.read(out); // refused
    reader.left(); // refused
    reader.read_exact(out); // refused
}

fn dropped_tree_results(tree: &TreeParams<'_>, bytes: &[u8], out: &mut [u8]) -> Result<(), InvalidArgument> {
    tree.root(bytes)?; // refused
    tree.hasher()?; // refused
    tree.leaf_count(1); // refused
    tree.leaves(bytes, 0, true, out); // refused
    tree.root_file("data", 0); // refused
    let mut hasher = tree.hasher()?;
    hasher.leaves_ahead(0, bytes, out); // refused
    hasher.update_leaves(bytes, bytes); // refused
    hasher.update_threads(bytes, 0).finalize(); // refused
    hasher.count(); // refused
    hasher.leaf_length(); // refused
    Ok(())
}

fn dropped_digest_results(digest: &Digest, error: &InvalidArgument) -> Result<(), HexError> {
    Digest::from_hex("0102")?; // refused
    Digest::from([1, 2]); // refused
    digest.as_bytes(); // refused
    digest.to_hex(); // refused
    digest.to_hex().as_str(); // refused
    error.argument(); // refused
    error.value(); // refused
    error.bounds(); // refused
    Ok(())
}

fn main() {
    let (params, mut tree, mut out) = (Params::new().key(b"key"), TreeParams::new(64), [0; 64]);
    let _ = (use_of_ported_setters(b"key", b"abc"), dropped_parameters(&params, &mut tree));
    let _ = dropped_hasher_results(&params, b"tag");
    let _ = (dropped_output_results(b"key", &mut out), dropped_tree_results(&tree, b"abc", &mut out));
    let _ = dropped_digest_results(&Blake2b::digest(b"abc"), &params.output_size(0).blake2b().unwrap_err());
}
