//! The digest of standard input by `blake2b_simd` (the word b512) or `blake2s_simd`, in hexadecimal.
use std::io::{self, Read};

/// Hands all of standard input to `take`, 64 KiB at a time.
fn read_all(mut take: impl FnMut(&[u8])) -> io::Result<()> {
    let mut input = io::stdin().lock();
    let mut piece = vec![0; 1 << 16];
    loop {
        let count = input.read(&mut piece)?;
        if count == 0 {
            return Ok(());
        }
        take(&piece[..count]);
    }
}

fn main() -> io::Result<()> {
    if std::env::args().nth(1).as_deref() == Some("b512") {
        let mut state = blake2b_simd::State::new();
        read_all(|piece| {
            state.update(piece);
        })?;
        println!("{}", state.finalize().to_hex());
    } else {
        let mut state = blake2s_simd::State::new();
        read_all(|piece| {
            state.update(piece);
        })?;
        println!("{}", state.finalize().to_hex());
    }
    Ok(())
}
