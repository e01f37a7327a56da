//! Refuses to compile a file of the library that is not the one that dist/MANIFEST names. It needs no other crate, and
//! runs again only after a change of one of these files.
use std::{env, fs, path::Path, process};

fn main() {
    let dist = Path::new(&env::var_os("CARGO_MANIFEST_DIR").expect("the folder of the crate")).join("dist");
    let manifest = fs::read_to_string(dist.join("MANIFEST")).expect("dist/MANIFEST");
    println!("cargo:rerun-if-changed=dist/MANIFEST");
    let lines = manifest.lines().filter_map(|line| line.split_once("  "));
    for (sum, name) in lines.filter(|(_, name)| is_file_compiled(name)) {
        let path = format!("dist/{name}").replace("dist/../", "");
        println!("cargo:rerun-if-changed={path}");
        if fs::read(dist.join(name)).map(|file| sha256(&file)).ok().as_deref() != Some(sum) {
            eprintln!("vulfsjor: {path} is not as in dist/MANIFEST, so it is not what was tested");
            process::exit(1);
        }
    }
}

/// Whether the crate compiles this file, by its name in MANIFEST: a text of the library, its macros, or Rust.
fn is_file_compiled(name: &str) -> bool {
    name.ends_with(".inc") || name.ends_with(".rs") || name.ends_with(".s") && name.contains("/vulfsjor")
}

/// The first 32 bits after the point of the root of this degree of a prime.
fn fractional_root_bits(prime: u64, degree: u32) -> u32 {
    let target = u128::from(prime) << (32 * degree);
    let mut root = 0_u128;
    for bit in (0..36).rev() {
        if (root | 1 << bit).pow(degree) <= target {
            root |= 1 << bit;
        }
    }
    root as u32
}

/// The SHA-256 of these bytes (FIPS 180-4), in hexadecimal.
fn sha256(bytes: &[u8]) -> String {
    let primes: Vec<u64> = (2..312).filter(|n| (2..*n).all(|d| n % d != 0)).collect();
    let k: Vec<u32> = primes.iter().map(|prime| fractional_root_bits(*prime, 3)).collect();
    let mut h: Vec<u32> = primes.iter().take(8).map(|prime| fractional_root_bits(*prime, 2)).collect();
    let mut padded = bytes.to_vec();
    padded.push(0x80);
    padded.resize((bytes.len() + 72) / 64 * 64 - 8, 0);
    padded.extend((bytes.len() as u64 * 8).to_be_bytes());
    for block in padded.chunks(64) {
        compress(&mut h, block, &k);
    }
    h.iter().map(|word| format!("{word:08x}")).collect()
}

fn compress(h: &mut [u32], block: &[u8], k: &[u32]) {
    let mut w = [0_u32; 64];
    let mut v: [u32; 8] = (&*h).try_into().unwrap();
    let mut i = 0;
    while i < 64 {
        w[i] = if i < 16 {
            u32::from_be_bytes([block[4 * i], block[4 * i + 1], block[4 * i + 2], block[4 * i + 3]])
        } else {
            let (a, b) = (w[i - 15], w[i - 2]);
            let s0 = a.rotate_right(7) ^ a.rotate_right(18) ^ a >> 3;
            let s1 = b.rotate_right(17) ^ b.rotate_right(19) ^ b >> 10;
            w[i - 16].wrapping_add(s0).wrapping_add(w[i - 7]).wrapping_add(s1)
        };
        let [a, b, c, d, e, f, g, last] = v;
        let s1 = e.rotate_right(6) ^ e.rotate_right(11) ^ e.rotate_right(25);
        let t1 = last.wrapping_add(s1).wrapping_add(e & f ^ !e & g).wrapping_add(k[i]).wrapping_add(w[i]);
        let s0 = a.rotate_right(2) ^ a.rotate_right(13) ^ a.rotate_right(22);
        let t2 = s0.wrapping_add(a & b ^ a & c ^ b & c);
        v = [t1.wrapping_add(t2), a, b, c, d.wrapping_add(t1), e, f, g];
        i += 1;
    }
    for (h, v) in h.iter_mut().zip(v) {
        *h = h.wrapping_add(v);
    }
}
