//! Generic code over the traits of `digest`, and of crates that need them, compared with hashlib.
#[allow(dead_code)]
#[path = "../../rust/tests/common/mod.rs"]
mod common;

use common::{bytes, lines};
use digest::consts::{U16, U32, U64};
use digest::crypto_common::{AlgorithmName, BlockSizeUser, KeySizeUser};
use digest::generic_array::GenericArray;
use digest::{
    Digest, DynDigest, ExtendableOutput, ExtendableOutputReset, KeyInit, Mac, Output, OutputSizeUser, VariableOutput,
    XofReader,
};
#[cfg(feature = "std")]
use std::io::{self, Write};
use vulfsjor_digest::*;

fn algorithm_name_of<T: AlgorithmName>() -> String {
    struct Name<T>(T);
    impl<T: AlgorithmName> std::fmt::Display for Name<std::marker::PhantomData<T>> {
        fn fmt(&self, f: &mut std::fmt::Formatter<'_>) -> std::fmt::Result {
            T::write_alg_name(f)
        }
    }
    Name(std::marker::PhantomData::<T>).to_string()
}

macro_rules! family {
    ($test:ident, $letter:literal, $hasher:ident, $mac:ident, $max:literal, $longest:ty) => {
        mod $test {
            use super::*;

            #[test]
            fn default_is_longest_and_unkeyed() {
                let wanted = vulfsjor::$hasher::digest(b"abc");
                assert_eq!($hasher::<$longest>::digest(b"abc")[..], *wanted.as_bytes());
                let mut boxed: Box<dyn DynDigest> = Box::<$hasher<$longest>>::default();
                boxed.update(b"abc");
                assert_eq!(boxed.finalize()[..], *wanted.as_bytes());
                let wanted = vulfsjor::$mac::tag(&[7; $max], b"abc").unwrap();
                let mac = <$mac<$longest> as KeyInit>::new(GenericArray::from_slice(&[7; $max]));
                assert_eq!(mac.chain_update(b"abc").finalize().into_bytes()[..], *wanted.as_bytes());
            }

            // Checks that other crates over these types agree with Python's hmac and hashlib.
            #[test]
            fn hmac_hkdf_and_pbkdf2_are_as_in_python() {
                type Hmac = hmac::SimpleHmac<$hasher<$longest>>;
                for fields in lines($letter, "hmac") {
                    let [key, message, wanted] = [0, 1, 2].map(|i| bytes(&fields[i]).unwrap());
                    let start = <Hmac as KeyInit>::new_from_slice(&key).unwrap();
                    let tag = start.chain_update(message).finalize().into_bytes();
                    assert_eq!(tag[..], wanted);
                }
                for fields in lines($letter, "hkdf") {
                    let [salt, secret, info, wanted] = [0, 1, 2, 3].map(|i| bytes(&fields[i]).unwrap());
                    let mut key = vec![0; wanted.len()];
                    let salt = Some(&salt[..]).filter(|salt| !salt.is_empty());
                    let extracted = hkdf::SimpleHkdf::<$hasher<$longest>>::new(salt, &secret);
                    extracted.expand(&info, &mut key).unwrap();
                    assert_eq!(key, wanted);
                }
                for fields in lines($letter, "pbkdf2") {
                    let [password, salt, wanted] = [0, 1, 3].map(|i| bytes(&fields[i]).unwrap());
                    let mut key = vec![0; wanted.len()];
                    pbkdf2::pbkdf2::<Hmac>(&password, &salt, fields[2].parse().unwrap(), &mut key);
                    assert_eq!(key, wanted);
                }
            }
        }
    };
}

family!(blake2b, "b", Blake2b, Blake2bMac, 64, U64);
family!(blake2s, "s", Blake2s, Blake2sMac, 32, U32);

macro_rules! names_and_sizes_are_right {
    ($($hasher:ident $mac:ident $var:ident $max:literal $block:literal,)*) => {
        #[test]
        fn names_and_sizes_are_right() {
            $(assert_eq!(algorithm_name_of::<$hasher<U16>>(), concat!(stringify!($hasher), "128"));
            assert_eq!(algorithm_name_of::<$mac<U16>>(), concat!(stringify!($mac), "128"));
            assert_eq!(<$hasher<U16> as BlockSizeUser>::block_size(), $block);
            assert_eq!(<$mac<U16> as BlockSizeUser>::block_size(), $block);
            assert_eq!(<$mac<U16> as KeySizeUser>::key_size(), $max);
            let mac = <$mac<U16> as KeyInit>::new_from_slice(b"secret").unwrap();
            assert_eq!(format!("{mac:?}"), concat!(stringify!($mac), " { .. }"));
            assert_eq!(format!("{:?}", $hasher::<U16>::default()), concat!(stringify!($hasher), " { .. }"));
            assert_eq!(format!("{:?}", $var::new(1).unwrap()), concat!(stringify!($var), " { .. }"));
            assert_eq!($var::MAX_OUTPUT_SIZE, $max);
            // Other keys, salts and personas are those of the conformance cases.
            assert!(<$mac<U16> as KeyInit>::new_from_slice(b"").is_err());
            assert!($mac::<U16>::new_with_salt_and_personal(b"", b"", b"").is_err());)*
        }
    };
}
names_and_sizes_are_right! {
    Blake2b Blake2bMac Blake2bVar 64 128,
    Blake2s Blake2sMac Blake2sVar 32 64,
    Blake2bp Blake2bpMac Blake2bpVar 64 128,
    Blake2sp Blake2spMac Blake2spVar 32 64,
}

#[test]
fn aliases_are_the_generic_types() {
    assert_eq!(Output::<Blake2b512>::default().len(), 64);
    assert_eq!(Blake2b256::digest(b"x"), Blake2b::<U32>::digest(b"x"));
    assert_eq!(Blake2b512::digest(b"x"), Blake2b::<U64>::digest(b"x"));
    assert_eq!(Blake2b128::digest(b"x"), Blake2b::<U16>::digest(b"x"));
    assert_eq!(Blake2s128::digest(b"x"), Blake2s::<U16>::digest(b"x"));
    assert_eq!(Blake2s256::digest(b"x"), Blake2s::<U32>::digest(b"x"));
    assert_eq!(Blake2bp512::digest(b"x"), Blake2bp::<U64>::digest(b"x"));
    assert_eq!(Blake2bp256::digest(b"x"), Blake2bp::<U32>::digest(b"x"));
    assert_eq!(Blake2sp256::digest(b"x"), Blake2sp::<U32>::digest(b"x"));
    assert_eq!(<Blake2bpMac512 as OutputSizeUser>::output_size(), 64);
    assert_eq!(<Blake2spMac256 as OutputSizeUser>::output_size(), 32);
    assert_eq!(<Blake2bMac512 as OutputSizeUser>::output_size(), 64);
    assert_eq!(<Blake2sMac256 as OutputSizeUser>::output_size(), 32);
}

#[test]
fn xof_lengths_sizes_and_names_are_right() {
    assert!(Blake2xs::with_params(&vulfsjor::Params::new().output_size(0)).is_err());
    for length in 0..=65 {
        let key = &[1; 65][..length];
        let is_key = |max| (1..=max).contains(&length);
        assert_eq!(<Blake2xb as KeyInit>::new_from_slice(key).is_ok(), is_key(64));
        assert_eq!(<Blake2xs as KeyInit>::new_from_slice(key).is_ok(), is_key(32));
    }
    let _hasher = <Blake2xb as KeyInit>::new(&GenericArray::default());
    let _hasher = <Blake2xs as KeyInit>::new(&GenericArray::default());
    assert_eq!((Blake2xb::block_size(), Blake2xs::block_size()), (128, 64));
    assert_eq!((Blake2xb::key_size(), Blake2xs::key_size()), (64, 32));
    assert_eq!(algorithm_name_of::<Blake2xb>(), "Blake2xb");
    assert_eq!(algorithm_name_of::<Blake2xs>(), "Blake2xs");
    let text = format!("{:?} {:?}", Blake2xb::default(), Blake2xs::default().finalize_xof());
    assert_eq!(text, "Blake2xb { .. } Blake2xsReader { .. }");
}

// A stream is copied into a hasher, and its output out of the reader, to the end.
#[test]
#[cfg(feature = "std")]
fn outputs_are_written_and_read_as_streams() {
    use std::io::Read;
    let mut wanted = [0; 100];
    let params = vulfsjor::Params::new().output_size(100);
    let reader = params.blake2xb().unwrap().update(b"abc").finalize_xof();
    reader.take(100).read_exact(&mut wanted).unwrap();
    let mut hasher = Blake2xb::with_params(&params).unwrap();
    io::copy(&mut &b"abc"[..], &mut hasher).unwrap();
    hasher.flush().unwrap();
    let (mut reader, mut output) = (hasher.finalize_xof(), Vec::new());
    assert_eq!(io::copy(&mut reader, &mut output).unwrap(), 100);
    assert_eq!((output, Read::read(&mut reader, &mut [0]).unwrap()), (wanted.to_vec(), 0));
    let mut hasher = Blake2xs::default();
    assert_eq!(hasher.write(b"abc").unwrap(), 3);
    let _reader = hasher.finalize_xof_reset();
    assert_eq!(hasher.finalize_boxed(50), Blake2xs::default().finalize_boxed(50));
}

#[test]
#[should_panic(expected = "bytes that are left")]
fn reading_past_the_end_panics() {
    let hasher = Blake2xb::with_params(&vulfsjor::Params::new().output_size(9)).unwrap();
    hasher.finalize_xof().read(&mut [0; 10]);
}

// The cores, which digest's macros test as hash functions, by their own functions.
mod cores {
    use super::*;
    use digest::core_api::{Buffer, UpdateCore, VariableOutputCore};
    use digest::Reset;

    macro_rules! core {
        ($test:ident, $core:ident, $hasher:ident, $build:ident, $salt:literal, $max:literal) => {
            #[test]
            fn $test() {
                let (salt, persona) = (&[3; $salt][..], &[5; $salt][..]);
                for size in [1, 20, $max] {
                    let mut params = vulfsjor::Params::new();
                    params = params.salt(salt).persona(persona).output_size(size);
                    let wanted = params.$build().unwrap().update(&[7; 300]).finalize();
                    let mut core = $core::new_with_params(salt, persona, 0, size);
                    for _ in 0..2 {
                        let (mut buffer, mut out) = (Buffer::<$core>::default(), Output::<$core>::default());
                        buffer.digest_blocks(&[7; 300], |blocks| core.update_blocks(blocks));
                        core.finalize_variable_core(&mut buffer, &mut out);
                        assert_eq!(&out[..size], wanted.as_bytes());
                        assert!(out[size..].iter().all(|&byte| byte == 0));
                        core.update_blocks(&[Default::default()]);
                        core.reset();
                    }
                }
                assert!($core::new(0).is_err() && $core::new($max + 1).is_err());
                assert_eq!(($core::block_size(), $core::output_size()), (2 * $max, $max));
                assert_eq!(algorithm_name_of::<$core>(), stringify!($hasher));
                let text = concat!(stringify!($core), " { .. }");
                assert_eq!(format!("{:?}", $core::new_with_params(b"", b"", 0, 1)), text);
            }
        };
    }

    core!(of_blake2b, Blake2bVarCore, Blake2b, blake2b, 16, 64);
    core!(of_blake2s, Blake2sVarCore, Blake2s, blake2s, 8, 32);

    #[test]
    fn wrong_lengths_and_keys_panic() {
        let lengths = [(17, 0, 0, 1), (0, 17, 0, 1), (0, 0, 1, 1), (0, 0, 0, 65), (0, 0, 0, 0)];
        for (salt, persona, key_size, output_size) in lengths {
            let made = std::panic::catch_unwind(|| {
                Blake2bVarCore::new_with_params(&[0; 17][..salt], &[0; 17][..persona], key_size, output_size)
            });
            assert!(made.is_err(), "{salt} {persona} {key_size} {output_size}");
        }
    }
}
