//! Makes the calls of the conformance cases (tests/conformance/README.md) by the crate, and compares their outcomes.
//!
//! Of every call it also tests: a call that is refused writes nothing and says which argument has which value and
//! bounds, a digest is the same again, of a clone, before a reset, in one call and by `std::io::Write`, and a hasher
//! under a key has the tags of its MAC.
#![cfg(feature = "std")]
#[allow(dead_code)]
mod common;

use common::{bytes, no_value, hex, run, yes_or_no, Driver, Given};
use std::io::{Read, Write};
use std::panic::{catch_unwind, AssertUnwindSafe};
use vulfsjor::*;

type Outcome = common::Outcome<InvalidArgument>;
type Made = Result<Box<dyn common::Hash<InvalidArgument>>, InvalidArgument>;

/// The names that errors have for an argument of a hash, and its least and its most if no other arguments decide.
fn argument_name_and_bounds(argument: &str, hash: &str) -> (&'static str, Option<(u64, u64)>) {
    let is_s = hash.starts_with("blake2s") || hash == "blake2xs";
    let (most, small) = if is_s { (32, 8) } else { (64, 16) };
    match (argument, hash) {
        ("size", "blake2xb" | "derive") => ("output_size out.len()", Some((1, (1 << 32) - 2))),
        ("size", "blake2xs") => ("output_size", Some((1, (1 << 16) - 2))),
        ("size", _) => ("output_size", Some((1, most))),
        ("key", _) => ("key.len()", Some((1, most))),
        ("salt", _) => ("salt.len()", Some((0, small))),
        ("person", _) => ("persona.len()", Some((0, small))),
        ("offset", _) => ("tree.node_offset", Some((0, u64::MAX >> (16 * u32::from(is_s))))),
        ("depth", _) => ("tree.depth", Some((1, 255))),
        ("inner", _) => ("tree.inner_length", Some((0, most))),
        ("leaf", _) => ("leaf_length", Some((1, u64::from(u32::MAX)))),
        ("message", _) => ("bytes.len() leaves.len() input.len()", None),
        ("first", _) => ("first", None),
        ("digests", _) => ("digests.len()", None),
        ("left", _) => ("out.len()", None),
        ("skip", _) => ("skip", None),
        ("state", _) => ("count()", None),
        _ => unreachable!(),
    }
}

/// Writes by a call into room of this length. A call that is refused writes nothing.
fn write_into_room(length: usize, call: impl Fn(&mut [u8]) -> Result<(), InvalidArgument>) -> Outcome {
    let mut out = vec![0xaa; length];
    let status = call(&mut out);
    assert!(status.is_ok() || out.iter().all(|byte| *byte == 0xaa));
    Some(status.map(|()| hex(&out)))
}

/// The same for the digests of leaves, which also need as much room as that.
fn write_digests_into_room(count: usize, call: impl Fn(&mut [u8]) -> Result<(), InvalidArgument>) -> Outcome {
    let room = 64 * count;
    for other in [0, room.saturating_sub(64), room.saturating_sub(1), room + 1, room + 64] {
        assert!(other == room || write_into_room(other, &call).unwrap().is_err());
    }
    write_into_room(room, call)
}

/// A hasher, with what it was before its input, and the MAC with the same input if it has a key.
#[derive(Clone)]
struct Sequential<H, M> {
    hasher: H,
    start: H,
    mac: Option<M>,
}

macro_rules! sequential {
    ($make:ident, $hash:ident, $hasher:ident, $mac:ident, $max:literal $(, $last:ident, $many:ident)?) => {
        impl common::Hash<InvalidArgument> for Sequential<$hasher, $mac> {
            fn update(&mut self, message: &[u8]) -> Outcome {
                if self.hasher.count().checked_add(message.len() as u64).is_none() {
                    let (digest, count) = (self.hasher.finalize(), self.hasher.count());
                    assert!(catch_unwind(AssertUnwindSafe(|| self.hasher.update(message).count())).is_err());
                    assert_eq!((self.hasher.finalize(), self.hasher.count()), (digest, count));
                    return Some(Ok("! message".into()));
                }
                let (one, other) = message.split_at(message.len() / 2);
                self.hasher.update(one).write_all(other).unwrap();
                if let Some(mac) = &mut self.mac {
                    mac.update(one).write_all(other).unwrap();
                }
                no_value()
            }
            fn digest(&mut self) -> Outcome {
                let digest = self.hasher.finalize();
                let (mut hasher, start) = (self.hasher.clone(), self.start.finalize());
                assert_eq!([hasher.finalize(), hasher.finalize_reset(), hasher.finalize()], [digest, digest, start]);
                assert_eq!(hasher.count(), 0);
                if let Some(mut mac) = self.mac.clone() {
                    assert_eq!(mac.count(), self.hasher.count());
                    assert_eq!([mac.finalize(), mac.finalize_reset(), mac.finalize()], [digest, digest, start]);
                    assert_eq!(mac.count(), 0);
                }
                Some(Ok(hex(digest.as_bytes())))
            }
            fn count(&mut self) -> Outcome {
                Some(Ok(format!("= {}", self.hasher.count())))
            }
            fn reset(&mut self) -> Outcome {
                self.hasher.reset();
                self.mac.iter_mut().for_each(|mac| mac.reset());
                no_value()
            }
            fn verify(&mut self, tag: &[u8]) -> Outcome {
                let is_right = self.hasher.finalize() == *tag;
                let wanted = if is_right { Ok(()) } else { Err(MacError) };
                assert!(self.mac.iter().all(|mac| mac.verify(tag) == wanted));
                yes_or_no(is_right)
            }
            $(fn last(&mut self, on: bool) -> Outcome {
                self.hasher.$last(on);
                self.start.$last(on);
                self.mac = None; // a MAC has no such call
                no_value()
            }
            fn save(&mut self) -> Outcome {
                let saved = self.hasher.save();
                assert_eq!(self.hasher.save(), saved);
                Some(Ok(saved.map_or_else(|KeyedState| "! key".into(), |saved| hex(&saved))))
            })?
        }

        /// A hasher and its MAC, which are refused alike. A MAC has to have a key.
        fn $make(params: &Params, has_key: bool) -> Made {
            let made = params.$make();
            assert_eq!($hasher::with_params(params).err(), made.as_ref().err().copied());
            let mac = $mac::with_params(&if has_key { *params } else { params.key(b"k") });
            assert_eq!(mac.as_ref().err(), made.as_ref().err());
            if !has_key && made.is_ok() {
                let error = $mac::with_params(params).unwrap_err().to_string();
                assert_eq!(error, concat!("key.len() is 0, and must be 1 to ", $max));
            }
            let mac = if has_key { mac.ok() } else { None };
            made.map(|hasher| Box::new(Sequential { start: hasher.clone(), hasher, mac }) as _)
        }

        /// The digest in one call, by each call that has the arguments.
        fn $hash(message: &[u8], given: &Given) -> Option<Result<Digest, InvalidArgument>> {
            let digest = given.params(|params| Some(params.$hash(message)))?;
            if given.has("key") && given.has_only(&["key"]) {
                let key = &given.text("key")?;
                assert_eq!($mac::tag(key, message), digest);
                assert_eq!($mac::new(key).map(|mut mac| mac.update(message).finalize()), digest);
            } else if given.has_only(&["size"]) && given.number("size", $max) == Some($max) {
                let by_default = $hasher::default().update(message).finalize();
                assert_eq!([Ok($hasher::digest(message)), Ok(by_default)], [digest; 2]);
                assert_eq!(Ok($hasher::new().update(message).finalize()), digest);
            }
            Some(digest)
        }

        $(/// Several hashers of this family absorb in one call, and each MAC alone. What is refused changes no digest of
        /// the rest of a case.
        fn $many(hashes: &mut [Box<dyn common::Hash<InvalidArgument>>], messages: &[Vec<u8>]) -> Outcome {
            let typed = hashes.iter_mut().map(|hash| hash.any().downcast_mut::<Sequential<$hasher, $mac>>());
            let runs = typed.collect::<Option<Vec<_>>>()?;
            let mut hashers: Vec<_> = runs.iter().map(|run| run.hasher.clone()).collect();
            let mut counts = hashers.iter().map(|hasher| hasher.count()).zip(messages);
            let is_too_long = counts.any(|(count, message)| count.checked_add(message.len() as u64).is_none());
            let update = AssertUnwindSafe(|| $hasher::update_many(&mut hashers, messages));
            assert_eq!(catch_unwind(update).is_err(), is_too_long);
            for ((run, hasher), message) in runs.into_iter().zip(hashers).zip(messages) {
                run.hasher = hasher;
                for mac in run.mac.iter_mut().filter(|_| !is_too_long) {
                    mac.update(message);
                }
            }
            Some(Ok(String::from(if is_too_long { "! message" } else { "" })))
        })?
    };
}
sequential!(blake2b, blake2b_hash, Blake2b, Blake2bMac, 64, set_last_node, blake2b_update_many);
sequential!(blake2s, blake2s_hash, Blake2s, Blake2sMac, 32, set_last_node, blake2s_update_many);
sequential!(blake2bp, blake2bp_hash, Blake2bp, Blake2bpMac, 64);
sequential!(blake2sp, blake2sp_hash, Blake2sp, Blake2spMac, 32);

macro_rules! output {
    ($hasher:ident, $reader:ident) => {
        impl common::Hash<InvalidArgument> for ($hasher, Option<$reader>) {
            fn update(&mut self, message: &[u8]) -> Outcome {
                if self.1.is_some() {
                    return None; // the hasher absorbs more even so
                }
                let (one, other) = message.split_at(message.len() / 2);
                self.0.update(one).write_all(other).unwrap();
                no_value()
            }
            fn count(&mut self) -> Outcome {
                Some(Ok(format!("= {}", self.0.count())))
            }
            fn reset(&mut self) -> Outcome {
                self.0.reset();
                self.1 = None;
                no_value()
            }
            fn left(&mut self) -> Outcome {
                let left = self.1.as_ref().map_or_else(|| self.0.finalize_xof().left(), |reader| reader.left());
                Some(Ok(format!("= {left}")))
            }
            fn read(&mut self, count: u64) -> Outcome {
                let mut reader = self.1.clone().unwrap_or_else(|| self.0.finalize_xof());
                let (left, mut by_trait) = (reader.left(), Vec::new());
                if count > left.min(1 << 20) + 1 {
                    return None; // not for want of memory
                }
                let mut out = vec![0xaa; count as usize];
                Read::take(reader.clone(), count).read_to_end(&mut by_trait).unwrap();
                if let Err(error) = reader.read(&mut out) {
                    assert_eq!((error.argument(), error.value()), ("out.len()", count));
                    assert_eq!(error.bounds(), Bounds::Range { min: 0, max: left });
                    assert!(out.iter().all(|byte| *byte == 0xaa) && reader.left() == left);
                    assert_eq!(by_trait.len() as u64, left);
                    return Some(Err(error));
                }
                assert!(by_trait == out && reader.left() == left - count);
                self.1 = Some(reader);
                Some(Ok(hex(&out)))
            }
        }
    };
}
output!(Blake2xb, Blake2xbReader);
output!(Blake2xs, Blake2xsReader);

impl common::Hash<InvalidArgument> for TreeHasher {
    fn update(&mut self, message: &[u8]) -> Outcome {
        let (one, other) = message.split_at(message.len() / 2);
        TreeHasher::update(self, one).write_all(other).unwrap();
        no_value()
    }
    fn digest(&mut self) -> Outcome {
        assert_eq!(self.finalize(), self.clone().finalize());
        Some(Ok(hex(self.finalize().as_bytes())))
    }
    fn count(&mut self) -> Outcome {
        Some(Ok(format!("= {}", TreeHasher::count(self))))
    }
    fn next(&mut self, skip: u64, leaves: &[u8]) -> Outcome {
        let count = leaves.len() / self.leaf_length() as usize;
        write_digests_into_room(count, |out| self.leaves_ahead(skip, leaves, out))
    }
    fn absorb(&mut self, leaves: &[u8], message: &[u8]) -> Outcome {
        let (leaf_length, count) = (self.leaf_length() as usize, TreeHasher::count(self));
        let mut digests = vec![0; leaves.len() / leaf_length * 64];
        let next = if leaves.is_empty() { Ok(()) } else { self.leaves_ahead(0, leaves, &mut digests) };
        let all = (leaves.len() + message.len()) as u64;
        let absorbed = next.and_then(|()| self.update_leaves(&digests, message).map(|_| String::new()));
        assert_eq!(TreeHasher::count(self), count + if absorbed.is_ok() { all } else { 0 });
        Some(absorbed)
    }
}

/// Calls with the parameters of a tree, if Rust has types for their values.
fn with_tree_params<R>(given: &Given, call: impl FnOnce(&TreeParams) -> Option<R>) -> Option<R> {
    let [salt, persona] = [given.text("salt")?, given.text("person")?];
    let params = TreeParams::new(given.number("leaf", 0)?).salt(&salt).persona(&persona);
    if given.has("size") {
        return call(&params.output_size(given.number("size", 0)?));
    }
    call(&params)
}

/// Several messages, into arrays of this length: the parameters need not have it too.
fn digest_many_by_arrays<const N: usize>(name: &str, messages: &[Vec<u8>], given: &Given) -> Outcome {
    let mut digests = vec![[0xaa; N]; messages.len()];
    let mut of = |params: &Params| match name {
        "blake2b" => Blake2b::digest_many(params, messages, &mut digests),
        _ => Blake2s::digest_many(params, messages, &mut digests),
    };
    let status = given.params(|params| {
        let status = of(params);
        assert_eq!(of(&params.output_size(N)), status);
        Some(status)
    })?;
    assert!(status.is_ok() || digests.iter().all(|digest| *digest == [0xaa; N]));
    Some(status.map(|()| hex(&digests.concat())))
}

struct Crate;

impl Driver for Crate {
    type Error = InvalidArgument;

    fn make(&self, name: &str, given: &Given) -> Option<Made> {
        let has_key = given.has("key");
        if name == "tree" {
            return with_tree_params(given, |params| Some(params.hasher().map(|hasher| Box::new(hasher) as _)));
        }
        given.params(|params| Some(match name {
            "blake2b" => blake2b(params, has_key),
            "blake2s" => blake2s(params, has_key),
            "blake2bp" => blake2bp(params, has_key),
            "blake2sp" => blake2sp(params, has_key),
            "blake2xb" => params.blake2xb().map(|hasher| Box::new((hasher, None)) as _),
            _ => params.blake2xs().map(|hasher| Box::new((hasher, None)) as _),
        }))
    }

    fn load(&self, name: &str, saved: &[u8]) -> Option<Option<Box<dyn common::Hash<InvalidArgument>>>> {
        macro_rules! load {
            ($hasher:ident, $mac:ident) => {{
                let made = $hasher::load(saved);
                assert!(made.as_ref().err().map_or(true, |error| *error == InvalidState));
                made.ok().map(|hasher| {
                    let mut start = hasher.clone();
                    start.reset();
                    Box::new(Sequential::<$hasher, $mac> { start, hasher, mac: None }) as _
                })
            }};
        }
        Some(if name == "blake2b" { load!(Blake2b, Blake2bMac) } else { load!(Blake2s, Blake2sMac) })
    }

    fn update_many(&self, hashes: &mut [Box<dyn common::Hash<InvalidArgument>>], messages: &[Vec<u8>]) -> Outcome {
        blake2b_update_many(hashes, messages).or_else(|| blake2s_update_many(hashes, messages))
    }

    fn call(&self, call: &[&str], given: &Given) -> Outcome {
        match call[0] {
            "hash" => hash(call[1], &bytes(call[2])?, given),
            "many" => {
                let messages: Option<Vec<_>> = call[2..].iter().map(|word| bytes(word)).collect();
                macro_rules! of_sizes {
                    ($($size:literal)*) => {
                        match given.number("size", if call[1] == "blake2b" { 64 } else { 32 })? {
                            $($size => digest_many_by_arrays::<$size>(call[1], &messages?, given),)*
                            _ => None,
                        }
                    };
                }
                of_sizes!(0 1 2 4 8 20 32 33 64 65)
            }
            "equal" => {
                let (one, other) = (Digest::try_from(&bytes(call[1])?[..]).ok()?, bytes(call[2])?);
                let (is_equal, slice) = (one == other, &other[..]);
                assert!((other == one) == is_equal && (one == slice) == is_equal);
                assert!((one == *slice) == is_equal);
                assert!((*slice == one) == is_equal && (slice == one) == is_equal);
                assert!(Digest::try_from(slice).map_or(true, |other| (one == other) == is_equal));
                yes_or_no(is_equal)
            }
            "derive" => {
                let (context, key, size) = (bytes(call[1])?, given.text("key")?, given.number("size", 0)?);
                (size < 1 << 20).then(|| write_into_room(size, |out| Blake2xb::derive_key(&key, &context, out)))?
            }
            "leaves" => with_tree_params(given, |params| {
                let (message, first) = (bytes(call[1])?, call[2].parse().ok()?);
                let count = params.leaf_count(message.len() as u64) as usize;
                write_digests_into_room(count, |out| params.leaves(&message, first, call[3] == "1", out))
            }),
            _ => with_tree_params(given, |params| {
                Some(params.root_of_leaves(&bytes(call[1])?).map(|root| hex(root.as_bytes())))
            }),
        }
    }

    fn is_error(&self, error: &InvalidArgument, argument: &str, call: &[&str], given: &Given) -> bool {
        let hash = match call[0] {
            "new" => call[2],
            "hash" | "many" => call[1],
            other => other,
        };
        let (names, bounds) = argument_name_and_bounds(argument, hash);
        if !names.split(' ').any(|name| error.argument() == name) {
            return false;
        }
        if let Some((least, most)) = bounds {
            let said = format!("{} is {}, and must be {least} to {most}", error.argument(), given.value(argument));
            assert_eq!(error.to_string(), said);
            assert_eq!(error.bounds(), Bounds::Range { min: least, max: most });
        }
        true
    }
}

/// A hash in one call and in pieces.
fn hash(name: &str, message: &[u8], given: &Given) -> Outcome {
    let by_run = match Crate.make(name, given)? {
        Ok(mut run) => {
            message.chunks(1 + message.len() / 3).try_for_each(|piece| run.update(piece).map(drop))?;
            if name.contains('x') { run.read(given.number("size", 0)?)? } else { run.digest()? }
        }
        Err(error) => Err(error),
    };
    let in_one = match name {
        "blake2b" => blake2b_hash(message, given)?,
        "blake2s" => blake2s_hash(message, given)?,
        "blake2bp" => blake2bp_hash(message, given)?,
        "blake2sp" => blake2sp_hash(message, given)?,
        "tree" => with_tree_params(given, |params| {
            let root = params.root(message);
            assert_eq!(params.root_threads(message, 2), root);
            Some(root)
        })?,
        _ => return Some(by_run),
    };
    let in_one = in_one.map(|digest| hex(digest.as_bytes()));
    assert_eq!(in_one, by_run);
    Some(in_one)
}

#[test]
fn conformance_cases_have_expected_outcomes() {
    let names = ["blake2b", "blake2s", "blake2bp", "blake2sp", "blake2xb", "blake2xs", "tree"];
    run(&Crate, &names, (71571, &[("equal", 25), ("reset", 83), ("skip", 202), ("verify", 108)]));
}
