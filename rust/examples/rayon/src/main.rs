//! Prints the root of each file, in leaves of 64 KiB, as rayon's threads
//! hash it. They are those of the current pool, here the global one; `RAYON_NUM_THREADS` sets how
//! many.
//!
//!     cargo run --release -- FILE..
use rayon::prelude::*;
use std::process::ExitCode;
use std::{env, fs};
use vulfsjor::{Digest, InvalidArgument, TreeParams};

const LEAF: usize = 1 << 16;
// The leaves that one task hashes: a multiple of four, since four are hashed at a time.
const PART: usize = 16;

fn root(message: &[u8]) -> Result<Digest, InvalidArgument> {
    let params = TreeParams::new(LEAF as u32);
    let leaf_count = params.leaf_count(message.len() as u64) as usize;
    let mut digests = vec![0; 64 * leaf_count];
    let parts = digests.par_chunks_mut(64 * PART).enumerate();
    parts.try_for_each(|(i, out)| {
        let first = i * PART;
        let end = message.len().min((first + PART) * LEAF);
        let ends = first + out.len() / 64 == leaf_count;
        params.leaves(&message[first * LEAF..end], first as u64, ends, out)
    })?;
    params.root_of_leaves(&digests)
}

fn main() -> ExitCode {
    let mut status = ExitCode::SUCCESS;
    for name in env::args().skip(1) {
        match fs::read(&name) {
            Ok(message) => println!("{}  {name}", root(&message).expect("lengths of a tree")),
            Err(error) => {
                eprintln!("{name}: {error}");
                status = ExitCode::FAILURE;
            }
        }
    }
    status
}
