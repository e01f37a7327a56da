//! Makes the calls of the conformance cases (tests/conformance/README.md) by generic code over the traits of `digest`,
//! and compares their outcomes. Of every digest, tag and output it tests each way that these traits have.
#![cfg(feature = "std")]
#[allow(dead_code)]
#[path = "../../rust/tests/common/mod.rs"]
mod common;

use common::{bytes, no_value, hex, run, yes_or_no, Driver, Given, Hash};
use digest::consts::{U1, U16, U20, U28, U32, U48, U63, U64};
use digest::{
    Digest, ExtendableOutput, ExtendableOutputReset, FixedOutput, FixedOutputReset, KeyInit, Mac, Output, Reset, Update,
    VariableOutput, VariableOutputReset, XofReader,
};
use std::io::{Read, Write};
use vulfsjor_digest::*;

// An error of these traits does not name the argument.
type Outcome = common::Outcome<()>;
type Made = common::Made<()>;

/// Absorbs a message in two pieces.
fn absorb(to: &mut (impl Update + Write), message: &[u8]) -> Outcome {
    let (one, other) = message.split_at(message.len() / 3);
    to.update(one);
    to.write_all(other).unwrap();
    to.flush().unwrap();
    no_value()
}

/// A hasher, a MAC or a hasher whose size is chosen at run time, with what it was before its input.
#[derive(Clone)]
struct Fixed<T>(T, T);
#[derive(Clone)]
struct Tagged<T>(T, T);
#[derive(Clone)]
struct Variable<T>(T, T);

macro_rules! hash {
    ($kind:ident($($bounds:tt)*): $is_tag:expr) => {
        impl<T: $($bounds)* + Update + Write + Reset + Clone + 'static> Hash<()> for $kind<T> {
            fn update(&mut self, message: &[u8]) -> Outcome {
                absorb(&mut self.0, message)
            }
            fn reset(&mut self) -> Outcome {
                Reset::reset(&mut self.0);
                no_value()
            }
            fn digest(&mut self) -> Outcome {
                let digest = self.checked_digest(self.0.clone());
                self.checked_digest(self.1.clone());
                Some(Ok(hex(&digest)))
            }
            fn verify(&mut self, tag: &[u8]) -> Outcome {
                let is_tag: fn(T, &[u8]) -> bool = $is_tag;
                yes_or_no(is_tag(self.0.clone(), tag))
            }
        }
    };
}
hash!(Fixed(Digest + FixedOutputReset): |hasher, tag| hasher.finalize()[..] == *tag);
hash!(Tagged(Mac + FixedOutputReset): |mac, tag| mac.verify_slice(tag).is_ok());
hash!(Variable(VariableOutputReset): |hasher, tag| *hasher.finalize_boxed() == *tag);

impl<T: Digest + FixedOutputReset + Reset + Update + Clone> Fixed<T> {
    fn checked_digest(&self, mut hasher: T) -> Vec<u8> {
        let digest = hasher.clone().finalize();
        let mut out = Output::<T>::default();
        FixedOutput::finalize_into(hasher.clone(), &mut out);
        assert!(out == digest && <T as Digest>::output_size() == digest.len());
        assert_eq!(Digest::finalize_reset(&mut hasher), digest);
        assert_eq!(hasher.finalize(), self.1.clone().finalize());
        digest.to_vec()
    }
}

impl<T: Mac + FixedOutputReset + Reset + Clone> Tagged<T> {
    fn checked_digest(&self, mut mac: T) -> Vec<u8> {
        let tag = mac.clone().finalize().into_bytes();
        assert_eq!(Mac::finalize_reset(&mut mac).into_bytes(), tag);
        assert!(mac.finalize() == self.1.clone().finalize());
        tag.to_vec()
    }
}

impl<T: VariableOutputReset + Clone> Variable<T> {
    fn checked_digest(&self, mut hasher: T) -> Vec<u8> {
        let size = hasher.output_size();
        for other in [0, size - 1, size + 1] {
            let mut out = vec![7; other];
            assert!(hasher.clone().finalize_variable(&mut out).is_err());
            assert!(hasher.finalize_variable_reset(&mut out).is_err() && out.iter().all(|byte| *byte == 7));
        }
        let digest = hasher.clone().finalize_boxed();
        assert_eq!(hasher.finalize_boxed_reset(), digest);
        assert_eq!(hasher.finalize_boxed(), self.1.clone().finalize_boxed());
        digest.to_vec()
    }
}

/// A hasher of an output, and the output if it was read.
#[derive(Clone)]
struct Long<T: ExtendableOutput>(T, Option<T::Reader>);

impl<T> Hash<()> for Long<T>
where
    T: ExtendableOutputReset + Update + Write + Reset + Clone + 'static,
    T::Reader: Read + Clone,
{
    fn update(&mut self, message: &[u8]) -> Outcome {
        if self.1.is_some() {
            return None; // the hasher absorbs more even so
        }
        absorb(&mut self.0, message)
    }
    fn reset(&mut self) -> Outcome {
        Reset::reset(&mut self.0);
        self.1 = None;
        no_value()
    }
    fn read(&mut self, count: u64) -> Outcome {
        let mut hasher = self.0.clone();
        let (mut reader, mut by_trait) = (self.1.clone().unwrap_or_else(|| hasher.finalize_xof_reset()), Vec::new());
        if count > 1 << 20 {
            return None;
        }
        reader.clone().take(count).read_to_end(&mut by_trait).unwrap();
        if by_trait.len() as u64 != count {
            return Some(Err(())); // where `read` panics
        }
        let mut out = vec![0; by_trait.len()];
        XofReader::read(&mut reader, &mut out);
        assert_eq!(out, by_trait);
        if self.1.is_none() {
            assert_eq!(*self.0.clone().finalize_boxed(out.len()), out);
            let mut again = self.0.clone();
            absorb(&mut again, b"more").unwrap().unwrap();
            assert_eq!(self.0.clone().finalize_boxed_reset(out.len()), self.0.clone().finalize_boxed(out.len()));
        }
        self.1 = Some(reader);
        Some(Ok(hex(&out)))
    }
}

/// What was made, in a box with what its kind of hash adds.
fn boxed_hash<T, H: Hash<()> + 'static, E>(made: Result<T, E>, add: fn(T) -> H) -> Made {
    Some(made.map(|made| Box::new(add(made)) as _).map_err(|_| ()))
}

macro_rules! family {
    ($make:ident, $hasher:ident, $mac:ident, $var:ident, $longest:ty, $($size:ty)*) => {
        /// A hasher or MAC with these arguments, if the size is one of those here, or at run time.
        fn $make(given: &Given) -> Made {
            use digest::typenum::Unsigned;
            let [key, salt, persona] = [given.text("key")?, given.text("salt")?, given.text("person")?];
            let size = given.number("size", <$longest>::USIZE)?;
            $(if size == <$size>::USIZE && given.has("key") {
                let made = $mac::<$size>::new_with_salt_and_personal(&key, &salt, &persona);
                if given.has_only(&["size", "key"]) {
                    assert_eq!(<$mac<$size> as KeyInit>::new_from_slice(&key).is_ok(), made.is_ok());
                }
                return boxed_hash(made, |made| Tagged(made.clone(), made));
            }
            if size == <$size>::USIZE && given.has_only(&["size", "salt", "person"]) {
                let made = $hasher::<$size>::new_with_salt_and_personal(&salt, &persona);
                return boxed_hash(made, |made| Fixed(made.clone(), made));
            })*
            if given.has_only(&["size"]) {
                return boxed_hash($var::new(size), |made| Variable(made.clone(), made));
            }
            None
        }
    };
}
family!(blake2b, Blake2b, Blake2bMac, Blake2bVar, U64, U1 U20 U48 U63 U64);
family!(blake2s, Blake2s, Blake2sMac, Blake2sVar, U32, U1 U16 U20 U28 U32);
family!(blake2bp, Blake2bp, Blake2bpMac, Blake2bpVar, U64, U16 U64);
family!(blake2sp, Blake2sp, Blake2spMac, Blake2spVar, U32, U16 U32);

struct Crate;

impl Driver for Crate {
    type Error = ();

    fn make(&self, name: &str, given: &Given) -> Made {
        if !given.has_only(&["size", "key", "salt", "person"]) {
            return None; // there are no nodes of trees
        }
        match name {
            "blake2b" => blake2b(given),
            "blake2s" => blake2s(given),
            "blake2bp" => blake2bp(given),
            "blake2sp" => blake2sp(given),
            "blake2xb" => given.params(|params| boxed_hash(Blake2xb::with_params(params), |hasher| Long(hasher, None))),
            _ => given.params(|params| boxed_hash(Blake2xs::with_params(params), |hasher| Long(hasher, None))),
        }
    }

    fn call(&self, call: &[&str], given: &Given) -> Outcome {
        if call[0] != "hash" {
            return None;
        }
        let message = bytes(call[2])?;
        match self.make(call[1], given)? {
            Ok(mut hash) => {
                hash.update(&message)?.unwrap();
                if call[1].contains('x') { hash.read(given.number("size", 0)?) } else { hash.digest() }
            }
            Err(error) => Some(Err(error)),
        }
    }

    fn is_error(&self, _: &(), _: &str, _: &[&str], _: &Given) -> bool {
        true
    }
}

#[test]
fn conformance_cases_have_expected_outcomes() {
    let names = ["blake2b", "blake2s", "blake2bp", "blake2sp", "blake2xb", "blake2xs"];
    let skipped = [
        ("derive", 15), ("equal", 328), ("hash", 709), ("load", 565), ("many", 178), ("new", 1347), ("save", 119),
        ("skip", 192), ("updates", 224),
    ];
    run(&Crate, &names, (36445, &skipped));
}
