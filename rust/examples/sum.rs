//! Prints the digests of files as `b2sum` does, each read in pieces.
//!
//!     cargo run --release --example sum FILE..
use std::fs::File;
use std::process::ExitCode;
use vulfsjor::Blake2b;

fn main() -> ExitCode {
    let mut status = ExitCode::SUCCESS;
    for name in std::env::args().skip(1) {
        let mut hasher = Blake2b::new();
        match File::open(&name).and_then(|file| hasher.update_reader(file).map(|_| ())) {
            Ok(()) => println!("{}  {name}", hasher.finalize()),
            Err(error) => {
                eprintln!("{name}: {error}");
                status = ExitCode::FAILURE;
            }
        }
    }
    status
}
