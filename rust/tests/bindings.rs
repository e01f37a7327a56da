//! Refusals, traits and what is left of a key: the lines of the crate around the calls of the
//! library.
// Both orders, references, copies and what is not equal are compared, as programs may write them.
#![allow(clippy::op_ref, clippy::clone_on_copy, clippy::nonminimal_bool, clippy::precedence)]
#![cfg(feature = "std")]
use std::collections::HashMap;
use std::error::Error;
use std::io;
use std::mem::{size_of, MaybeUninit};
use std::panic::{catch_unwind, AssertUnwindSafe};
use std::sync::Mutex;
use vulfsjor::*;

// How many hashers absorb in one call: some of them in fours or eights, and in up to three calls of the library.
const COUNTS: [usize; 11] = [0, 1, 3, 4, 5, 7, 8, 9, 16, 17, 33];

// A value's bytes, before it is dropped and after.
fn bytes_before_and_after_drop<T>(value: T) -> [Vec<u8>; 2] {
    let mut slot = MaybeUninit::new(value);
    // Safety: the types here have no padding, and a drop writes only bytes of the value.
    let look = |slot: &MaybeUninit<T>| unsafe {
        std::slice::from_raw_parts(slot.as_ptr().cast::<u8>(), size_of::<T>()).to_vec()
    };
    let before = look(&slot);
    // Safety: the slot holds the value, and nobody uses it later.
    unsafe { slot.assume_init_drop() };
    [before, look(&slot)]
}

fn contains_bytes(bytes: &[u8], text: &[u8]) -> bool {
    bytes.windows(text.len()).any(|window| window == text)
}

// The bytes of the stack that calls before this one have used.
#[inline(never)]
fn read_dead_stack() -> Vec<u8> {
    let room = MaybeUninit::<[u8; 1 << 16]>::uninit();
    let start = room.as_ptr().cast::<u8>();
    // Safety: the bytes are the frame's, and are only looked at.
    (0..1 << 16).map(|i| unsafe { start.add(i).read_volatile() }).collect()
}

// Calls below 2 KiB of the stack, so that the frame of `read_dead_stack` overwrites nothing of the call.
#[inline(never)]
fn call_deeper_in_the_stack(call: &dyn Fn()) {
    let mut room = [0; 2048];
    // Safety: both are a byte of the array.
    unsafe { room.as_mut_ptr().write_volatile(7u8) };
    call();
    assert_eq!(unsafe { room.as_ptr().read_volatile() }, 7);
}

// How many of the 8 bytes' pieces of the key are on the stack after the call, in a new thread.
fn count_key_pieces_left(key: &[u8], call: &(dyn Fn() + Sync)) -> usize {
    let left = || {
        call_deeper_in_the_stack(call);
        let stack = read_dead_stack();
        key.chunks(8).filter(|piece| contains_bytes(&stack, piece)).count()
    };
    std::thread::scope(|scope| scope.spawn(left).join().unwrap())
}

// Parameters of a node, and what is said of each where there are no nodes.
fn node_params_and_errors() -> [(Params<'static>, &'static str); 7] {
    let (new, tree) = (Params::new(), Tree::SEQUENTIAL);
    [
        (new.last_node(true), "last_node is 1, and must be 0"),
        (new.tree(Tree { fanout: 2, ..tree }), "tree.fanout is 2, and must be 1"),
        (new.tree(Tree { depth: 3, ..tree }), "tree.depth is 3, and must be 1"),
        (new.tree(Tree { leaf_length: 4, ..tree }), "tree.leaf_length is 4, and must be 0"),
        (new.tree(Tree { node_offset: 5, ..tree }), "tree.node_offset is 5, and must be 0"),
        (new.tree(Tree { node_depth: 6, ..tree }), "tree.node_depth is 6, and must be 0"),
        (new.tree(Tree { inner_length: 7, ..tree }), "tree.inner_length is 7, and must be 0"),
    ]
}

macro_rules! family {
    ($test:ident, $hasher:ident, $mac:ident, $make:ident, $max:literal, $small:literal) => {
        mod $test {
            use super::*;

            // What the conformance cases have not: wrong lengths, parameters of nodes, and refusals with no message.
            // The digests then stay as they were.
            #[test]
            fn several_messages_are_refused() {
                let refused = |params: Params, messages: usize, count: usize, said: &str| {
                    let mut digests = vec![[7; 1]; count];
                    let made = $hasher::digest_many(&params, &vec![b"x"; messages], &mut digests);
                    assert_eq!((made.unwrap_err().to_string(), digests), (said.into(), vec![[7; 1]; count]));
                };
                let new = Params::new;
                let others = [
                    (new().output_size(2), "output_size is 2, and must be 1"),
                    (new().key(b""), concat!("key.len() is 0, and must be 1 to ", $max)),
                    (new().salt(&[1; 17]), concat!("salt.len() is 17, and must be 0 to ", $small)),
                ];
                for count in [0, 1, 17] {
                    for other in [count + 1, count + 256, 16].into_iter().filter(|other| *other != count) {
                        refused(new(), count, other, &format!("digests.len() is {other}, and must be {count}"));
                    }
                    for (params, said) in node_params_and_errors().into_iter().chain(others) {
                        refused(params, count, count, said);
                    }
                    assert!($hasher::digest_many(&new(), &vec![b"x"; count], &mut vec![[7; 1]; count]).is_ok());
                }
            }

            // The number of a hasher decides its parameters.
            fn hasher_with_own_params(i: usize) -> $hasher {
                let node = Tree { fanout: 2, depth: 2, node_offset: i as u64, ..Tree::SEQUENTIAL };
                let params = Params::new().output_size(1 + i % $max).persona(b"several");
                let all = [params, params.key(&[9; $max]), params.tree(node).last_node(true), params.key(b"k").salt(b"s")];
                all[i % all.len()].$make().unwrap()
            }

            fn digests(hashers: &[$hasher]) -> Vec<(Digest, u64)> {
                hashers.iter().map(|hasher| (hasher.finalize(), hasher.count())).collect()
            }

            // Of up to four blocks before the call, and of up to four in it, each length after each length.
            #[test]
            fn several_hashers_absorb_as_each_would() {
                let bytes: Vec<u8> = (0..8 * $max + 200).map(|i| (i * i / 3) as u8).collect();
                let multiples = (0..=4).map(|blocks| blocks * 2 * $max);
                let lengths: Vec<usize> = multiples.flat_map(|n| [n, n + 1, n + 2 * $max - 1]).collect();
                let length = |i: usize| lengths[i % lengths.len()];
                let rounds = (0..lengths.len()).flat_map(|first| [0, 1, 4].map(|step| (first, step)));
                for ((first, step), count) in rounds.flat_map(|round| COUNTS.map(|count| (round, count))) {
                    let mut hashers: Vec<_> = (0..count).map(hasher_with_own_params).collect();
                    let mut wanted = hashers.clone();
                    for start in [8 * first, first] {
                        let input = |i| &bytes[i..][..length(start + step * i)];
                        let (inputs, copies): (Vec<_>, _) = ((0..count).map(input).collect(), hashers.clone());
                        let before = digests(&copies);
                        $hasher::update_many(&mut hashers, &inputs);
                        for (hasher, input) in wanted.iter_mut().zip(&inputs) {
                            hasher.update(input);
                        }
                        assert_eq!(digests(&hashers), digests(&wanted), "{count} {first} {step} {start}");
                        assert_eq!(digests(&copies), before);
                    }
                }
            }

            #[test]
            fn several_hashers_absorb_inputs_of_any_type() {
                let mut hashers = vec![$hasher::new(); 2];
                $hasher::update_many(&mut hashers, &["a", ""]);
                $hasher::update_many(&mut hashers, &[String::from("b"), String::from("xy")]);
                $hasher::update_many(&mut hashers, &[vec![b'c'], vec![]]);
                $hasher::update_many(&mut hashers[1..], &[b"z"]);
                $hasher::update_many(&mut [], &[""; 0]);
                assert_eq!(digests(&hashers), [($hasher::digest("abc"), 3), ($hasher::digest("xyz"), 3)]);
            }

            #[test]
            fn several_hashers_have_an_input_each() {
                for (count, others) in COUNTS.map(|count| (count, [0, 1, count + 1, count + 16, count + 256])) {
                    for other in others.into_iter().chain(count.checked_sub(1)).filter(|other| *other != count) {
                        let mut hashers: Vec<_> = (0..count).map(hasher_with_own_params).collect();
                        let (before, inputs) = (digests(&hashers), vec![[7; 300]; other]);
                        let update = AssertUnwindSafe(|| $hasher::update_many(&mut hashers, &inputs));
                        let said = catch_unwind(update).unwrap_err().downcast::<String>().unwrap();
                        assert!(said.contains("an input for each hasher"));
                        assert_eq!(digests(&hashers), before);
                    }
                }
            }

            // Calls that copy a state leave no copy of the key that is in it.
            #[test]
            fn nothing_of_a_key_is_left_on_the_stack() {
                let key: Vec<u8> = (0..$max).map(|i| 100 + 2 * i as u8).collect();
                let hasher = Box::new(Params::new().key(&key).$make().unwrap());
                let mac = Box::new($mac::new(&key).unwrap());
                let tag = mac.finalize();
                let left = |call: &(dyn Fn() + Sync)| count_key_pieces_left(&key, call);
                assert_eq!(left(&|| assert_eq!(hasher.finalize(), tag)), 0);
                assert_eq!(left(&|| assert_eq!(mac.finalize(), tag)), 0);
                assert_eq!(left(&|| assert!(mac.verify(tag.as_bytes()).is_ok())), 0);
                assert_eq!(left(&|| assert!(mac.verify(b"wrong").is_err())), 0);
                let several = Mutex::new(vec![hasher.as_ref().clone(); 9]);
                assert_eq!(left(&|| $hasher::update_many(&mut several.lock().unwrap(), &[[7; 300]; 9])), 0);
                // The test sees a copy.
                let copy = || {
                    let mut copy = [0u8; $max];
                    for (to, byte) in copy.iter_mut().zip(&key) {
                        // Safety: it is a byte of the array.
                        unsafe { (to as *mut u8).write_volatile(*byte) };
                    }
                    assert_eq!(copy[..], key);
                };
                assert!(left(&copy) > 0);
            }
        }
    };
}

family!(blake2b, Blake2b, Blake2bMac, blake2b, 64, 16);
family!(blake2s, Blake2s, Blake2sMac, blake2s, 32, 8);

#[test]
fn no_text_shows_a_key() {
    let params = Params::new().key(b"secret").salt(b"salt").output_size(9).last_node(true).allow_short(true);
    let shown = "Params { output_size: Some(9), key_length: Some(6), salt: [115, 97, 108, 116], persona: [], \
                 tree: Tree { fanout: 1, depth: 1, leaf_length: 0, node_offset: 0, node_depth: 0, inner_length: 0 }, \
                 last_node: true, allow_short: true }";
    assert_eq!(format!("{params:?}"), shown);
    let hashers = (params.blake2b().unwrap(), params.blake2s().unwrap());
    let macs = (Blake2bMac::with_params(&params).unwrap(), Blake2sMac::with_params(&params).unwrap());
    let shown = "((Blake2b { .. }, Blake2s { .. }), (Blake2bMac { .. }, Blake2sMac { .. }))";
    assert_eq!(format!("{:?}", (&hashers, &macs)), shown);
    assert_eq!(format!("{:#?}", macs.1), "Blake2sMac { .. }");
    let (b, s) = (Blake2xb::new(), Blake2xs::new());
    let shown = format!("{b:?} {s:?} {:?} {:?}", b.finalize_xof(), s.finalize_xof());
    assert_eq!(shown, "Blake2xb { .. } Blake2xs { .. } Blake2xbReader { .. } Blake2xsReader { .. }");
    let macs = (Blake2bpMac::new(b"secret").unwrap(), Blake2spMac::new(b"secret").unwrap());
    let shown = format!("{:?} {:?} {macs:?}", Blake2bp::new(), Blake2sp::new());
    assert_eq!(shown, "Blake2bp { .. } Blake2sp { .. } (Blake2bpMac { .. }, Blake2spMac { .. })");
    assert_eq!(format!("{:?}", TreeParams::new(1).hasher().unwrap()), "TreeHasher { .. }");
}

// With slices and vectors the conformance cases compare them.
#[test]
fn digests_are_compared_as_their_bytes() {
    let digest = Blake2b::digest(b"abc");
    let array: [u8; 64] = digest.try_into().unwrap();
    assert_eq!((digest.as_ref(), &array[..]), (digest.as_bytes(), digest.as_bytes()));
    assert!(digest == array && array == digest && &array == digest && digest == &array);
    for bit in 0..8 * array.len() {
        let mut wrong = array;
        wrong[bit / 8] ^= 1 << bit % 8;
        assert!(digest != wrong && wrong != digest && digest != wrong[..]);
    }
    for length in 0..array.len() {
        assert!(digest != array[..length]);
        assert!(digest != Params::new().output_size(length.max(1)).blake2b_hash(b"abc").unwrap());
    }
    let said = |error: Option<InvalidArgument>| error.map(|error| error.to_string()).unwrap_or_default();
    let short = Blake2s::digest(b"abc");
    assert_eq!(said(<[u8; 63]>::try_from(digest).err()), "the array's length is 63, and must be 64");
    assert_eq!(said(<[u8; 65]>::try_from(digest).err()), "the array's length is 65, and must be 64");
    assert_eq!(said(<[u8; 31]>::try_from(short).err()), "the array's length is 31, and must be 32");
    assert_eq!(said(<[u8; 33]>::try_from(short).err()), "the array's length is 33, and must be 32");
}

#[test]
fn digests_are_ordered_as_their_bytes() {
    let texts: [&[u8]; 8] = [&[0], &[0, 0], &[0, 1], &[1], &[1, 0], &[1, 0, 0], &[1, 1], &[255; 64]];
    for (one, other) in texts.iter().flat_map(|one| texts.map(|other| (*one, other))) {
        let digests = [one, other].map(|text| Digest::try_from(text).unwrap());
        assert_eq!(digests[0].cmp(&digests[1]), one.cmp(other));
        assert_eq!(digests[0].partial_cmp(&digests[1]), one.partial_cmp(other));
        assert_eq!(digests[0] == digests[1], one == other);
    }
}

#[test]
fn digests_are_shown_in_digits() {
    let digest = Digest::from([0x0a, 0xf1]);
    for (shown, wanted) in [
        (format!("{digest}"), "0af1"),
        (format!("{digest:?}"), "Digest(0af1)"),
        (format!("{digest:x}"), "0af1"),
        (format!("{digest:X}"), "0AF1"),
        (format!("{digest:#x}"), "0x0af1"),
        (format!("{digest:#X}"), "0x0AF1"),
        (format!("{digest:>6}"), "  0af1"),
        (format!("{digest:.3}"), "0af"),
    ] {
        assert_eq!(shown, wanted);
    }
    for long in [Blake2b::digest(b"abc"), Blake2s::digest(b"abc")] {
        let digits: String = long.as_bytes().iter().map(|byte| format!("{byte:02x}")).collect();
        assert_eq!((long.to_string(), format!("{long:X}")), (digits.clone(), digits.to_uppercase()));
        let hex = long.to_hex();
        assert!(hex == *digits && hex == digits.as_str() && hex != "y" && hex != *"x");
        assert!(hex != digits[..2] && hex != &digits[..2]);
        assert_eq!((hex.as_str(), hex.as_ref(), hex.len()), (&*digits, &*digits, digits.len()));
        assert_eq!(format!("{hex}, {hex:.3}, {hex:?}"), format!("{digits}, {digits:.3}, {digits:?}"));
        assert!(hex == hex.clone() && hex != digest.to_hex());
    }
}

#[test]
fn node_params_are_refused_without_nodes() {
    for (params, said) in node_params_and_errors() {
        let keyed = params.key(b"k");
        let all = [params.blake2bp().err(), params.blake2sp().err(), params.blake2xb().err(), params.blake2xs().err()];
        let macs = [Blake2bpMac::with_params(&keyed).err(), Blake2spMac::with_params(&keyed).err()];
        assert!(all.into_iter().chain(macs).all(|error| error.unwrap().to_string() == said), "{said}");
    }
}

macro_rules! short_tag_test {
    ($test:ident, $mac:ident, $make:ident, $make_mac:ident, $max:literal) => {
        // A MAC has at least 16 bytes, unless the caller says otherwise. A hasher has any length.
        #[test]
        fn $test() {
            let keyed = Params::new().key(b"key");
            for size in 1..=$max {
                let params = keyed.output_size(size);
                let tag = params.$make().unwrap().update(b"abc").finalize();
                assert_eq!((tag.as_bytes().len(), tag.len()), (size, size));
                for allowed in [params.allow_short(true).$make_mac(), $mac::with_params(&params.allow_short(true))] {
                    let mut mac = allowed.unwrap();
                    assert!(mac.verify(tag.as_bytes()).is_err());
                    assert!(mac.update(b"abc").verify(tag.as_bytes()).is_ok() && mac.finalize() == tag);
                }
                for made in [params.$make_mac(), $mac::with_params(&params), params.allow_short(false).$make_mac()] {
                    match made {
                        Ok(mut mac) => assert!(size >= 16 && mac.update(b"abc").verify(tag.as_bytes()).is_ok()),
                        Err(error) => {
                            assert!(size < 16);
                            let said = format!("output_size is {size}, and must be 16 to {}", $max);
                            assert_eq!(error.to_string(), said);
                        }
                    }
                }
            }
            for (size, least) in [(0, 1), ($max + 1, 1)] {
                let error = keyed.output_size(size).allow_short(true).$make_mac().unwrap_err();
                assert_eq!(error.to_string(), format!("output_size is {size}, and must be {least} to {}", $max));
            }
            let error = Params::new().output_size(8).$make_mac().unwrap_err();
            assert_eq!(error.to_string(), format!("key.len() is 0, and must be 1 to {}", $max));
            assert_eq!(keyed.$make_mac().unwrap().finalize().as_bytes().len(), $max);
        }
    };
}

short_tag_test!(blake2b_tags_need_16_bytes, Blake2bMac, blake2b, blake2b_mac, 64);
short_tag_test!(blake2s_tags_need_16_bytes, Blake2sMac, blake2s, blake2s_mac, 32);
short_tag_test!(blake2bp_tags_need_16_bytes, Blake2bpMac, blake2bp, blake2bp_mac, 64);
short_tag_test!(blake2sp_tags_need_16_bytes, Blake2spMac, blake2sp, blake2sp_mac, 32);

macro_rules! output_end_test {
    ($test:ident, $hasher:ident, $make:ident, $most:literal, $whole:expr) => {
        #[test]
        fn $test() {
            let mut reader = Params::new().output_size(9).$make().unwrap().finalize_xof();
            let mut out = [0xaa; 10];
            assert_eq!(io::Read::read(&mut reader, &mut out).unwrap(), 9);
            assert!(out[9] == 0xaa && io::Read::read(&mut reader, &mut out).unwrap() == 0);
            assert_eq!(reader.read(&mut [0]).unwrap_err().to_string(), "out.len() is 1, and must be 0");
            let refused = $hasher::derive_key(b"key", b"", &mut []).unwrap_err().to_string();
            assert_eq!(refused, concat!("out.len() is 0, and must be 1 to ", $most));
            let refused = $hasher::derive_key(b"", b"", &mut [0; 3]).unwrap_err();
            assert_eq!((refused.argument(), refused.value()), ("key.len()", 0));
            assert!($hasher::derive_key(&[1; 65], b"", &mut [0; 3]).is_err());
            let mut wanted = [0; 30];
            let mut hasher = Params::new().key(b"key").output_size(30).$make().unwrap();
            hasher.update(b"context").finalize_xof().read(&mut wanted).unwrap();
            let mut derived = [0; 30];
            $hasher::derive_key(b"key", b"context", &mut derived).unwrap();
            assert_eq!(derived, wanted);
            // The documentation of `new` has the same number.
            assert_eq!($hasher::default().finalize_xof().left(), $whole);
            let source = include_str!("../src/xof.rs");
            let (_, rest) = source.split_once(concat!("    ", stringify!($hasher), ",\n")).unwrap();
            let said = format!("\"{} GiB\"", $hasher::new().finalize_xof().left() >> 30);
            assert!(rest.split_once(");").unwrap().0.contains(&said));
        }
    };
}
output_end_test!(ends_of_outputs_of_blake2xb, Blake2xb, blake2xb, 4294967294u64, 64 << 32);
output_end_test!(ends_of_outputs_of_blake2xs, Blake2xs, blake2xs, 65534, 32 << 32);

#[test]
fn nothing_is_left_of_a_key_or_a_message() {
    let key: Vec<u8> = (1..=32).collect();
    let params = Params::new().key(&key).salt(b"salt");
    let (xb, xs) = (params.blake2xb().unwrap(), params.blake2xs().unwrap());
    let mut hasher = Blake2b::new();
    hasher.update(&key);
    let mut tree = TreeParams::new(1000).salt(b"salt").hasher().unwrap();
    tree.update([7; 2400]).update(&key);
    for (i, [before, after]) in [
        bytes_before_and_after_drop(params.blake2b().unwrap()),
        bytes_before_and_after_drop(params.blake2s().unwrap()),
        bytes_before_and_after_drop(params.blake2bp().unwrap()),
        bytes_before_and_after_drop(params.blake2sp().unwrap()),
        bytes_before_and_after_drop(params.blake2b().unwrap().clone()),
        bytes_before_and_after_drop(params.blake2s().unwrap().clone()),
        bytes_before_and_after_drop(Blake2bMac::new(&key).unwrap()),
        bytes_before_and_after_drop(Blake2sMac::new(&key).unwrap()),
        bytes_before_and_after_drop(Blake2bpMac::new(&key).unwrap()),
        bytes_before_and_after_drop(Blake2spMac::new(&key).unwrap()),
        bytes_before_and_after_drop(xb.finalize_xof()),
        bytes_before_and_after_drop(xs.finalize_xof()),
        bytes_before_and_after_drop(xb),
        bytes_before_and_after_drop(xs),
        bytes_before_and_after_drop(hasher),
        bytes_before_and_after_drop(tree),
    ]
    .into_iter()
    .enumerate()
    {
        assert!(contains_bytes(&before, &key) && before.len() >= 176, "{i}");
        assert!(after.iter().all(|byte| *byte == 0), "{i}");
    }
}

#[test]
fn errors_convert_and_defaults_are_unkeyed() {
    let tags = [Blake2bMac::tag(b"", b"x"), Blake2sMac::tag(b"", b"x"), Blake2bpMac::tag(b"", b"x")];
    for error in tags.map(Result::unwrap_err).into_iter().chain(Blake2spMac::tag(b"", b"x").err()) {
        assert_eq!((error.argument(), error.value()), ("key.len()", 0));
    }
    let shown = |error: &dyn Error| error.to_string();
    let error = Params::new().output_size(0).blake2b().unwrap_err();
    assert_eq!(shown(&error), "output_size is 0, and must be 1 to 64");
    let of_io = io::Error::from(error);
    assert_eq!((of_io.kind(), of_io.to_string()), (io::ErrorKind::InvalidInput, shown(&error)));
    assert_eq!(shown(&MacError), "a wrong tag");
    assert_eq!(shown(&KeyedState), "a hasher with a key is not saved");
    assert_eq!(shown(&InvalidState), "not a saved state of this hash");
    assert_eq!(Tree::default(), Tree::SEQUENTIAL);
    let sequential =
        Tree { fanout: 1, depth: 1, leaf_length: 0, node_offset: 0, node_depth: 0, inner_length: 0 };
    assert_eq!(Tree::SEQUENTIAL, sequential);
    let of_default = Params::default().blake2b().unwrap().finalize();
    assert_eq!(of_default, Blake2b::digest(b""));
}

// A digest of the bytes 0x07, 0x1e, 0x35 .., and its digits.
fn digest_and_its_digits(size: usize) -> (Vec<u8>, String) {
    let bytes: Vec<u8> = (0..size).map(|i| (23 * i + 7) as u8).collect();
    let digits = bytes.iter().map(|byte| format!("{byte:02x}")).collect();
    (bytes, digits)
}

#[test]
fn digests_are_parsed_from_their_digits() {
    for size in 1..=64 {
        let (bytes, digits) = digest_and_its_digits(size);
        let digest = Digest::from_hex(&digits).unwrap();
        assert_eq!(digest, bytes);
        assert_eq!(digest.to_string(), digits);
        assert_eq!(digits.to_uppercase().parse(), Ok(digest));
        assert_eq!(Digest::try_from(&bytes[..]), Ok(digest));
    }
    assert_eq!(Digest::from([7]), digest_and_its_digits(1).0);
    assert_eq!(Digest::from([7, 30, 53]), digest_and_its_digits(3).0);
    let longest: [u8; 64] = digest_and_its_digits(64).0.try_into().unwrap();
    assert_eq!(Digest::from(longest), longest);
    // Each has the hash of its bytes.
    let digests = HashMap::from([(Digest::from([1, 2]), "here"), (Digest::from(longest), "there")]);
    assert_eq!((digests.get(&[1u8, 2][..]), digests.get(&longest[..])), (Some(&"here"), Some(&"there")));
    assert_eq!(digests.get(&[1u8][..]), None);
}

#[test]
fn wrong_digest_texts_are_refused() {
    let long = [b'1'; 300];
    for length in (1..=129).step_by(2).chain([0, 130, 256, 258]) {
        let refused = Err(HexError::Length(length));
        assert_eq!(Digest::from_hex(&long[..length]), refused);
    }
    for byte in 0..=255 {
        for index in 0..4 {
            let mut digits = *b"0aF9";
            digits[index] = byte;
            let refused = Digest::from_hex(digits);
            if let Ok(text) = std::str::from_utf8(&digits) {
                assert_eq!(text.parse(), refused);
            }
            if byte.is_ascii_hexdigit() {
                let text = std::str::from_utf8(&digits).unwrap();
                assert_eq!(refused.unwrap().to_string(), text.to_lowercase());
            } else {
                assert_eq!(refused, Err(HexError::Digit { index, byte }));
            }
        }
    }
    let first = HexError::Digit { index: 1, byte: b'/' };
    assert_eq!("0/:g".parse::<Digest>(), Err(first));
    let shown: &dyn Error = &first;
    assert_eq!(shown.to_string(), "the byte 0x2f at index 1 is not a hexadecimal digit");
    for length in [0, 65, 300] {
        let text = format!("the slice's length is {length}, and must be 1 to 64");
        assert_eq!(Digest::try_from(&long[..length]).unwrap_err().to_string(), text);
    }
}

// A hasher is loaded from a slice of any length, and goes on alone. Of a key nothing is saved.
#[test]
fn saved_states_load_and_keyed_do_not_save() {
    macro_rules! family {
        ($type:ident, $hasher:ident, $other:ident, $size:literal) => {
            let mut hasher = Params::new().output_size(9).persona(b"saved").$hasher().unwrap();
            let saved: [u8; $size] = hasher.update(b"message").save().unwrap();
            let mut loaded = $type::load(&saved).unwrap();
            assert_eq!([loaded.finalize(), loaded.clone().finalize()], [hasher.finalize(); 2]);
            loaded.update(b"more");
            assert_eq!(hasher.save(), Ok(saved));
            assert_eq!(hasher.update(b"more").save(), loaded.save());
            for wrong in [&saved[..$size - 1], b"", &[&saved[..], b"x"].concat(), &[0; $size]] {
                assert_eq!($type::load(wrong).err(), Some(InvalidState));
            }
            let other = Params::new().$other().unwrap().save().unwrap();
            assert_eq!($type::load(&other).err(), Some(InvalidState));
            let keyed = Params::new().key(b"key").$hasher().unwrap();
            assert_eq!([keyed.save(), keyed.clone().update(b"m").save()], [Err(KeyedState); 2]);
        };
    }
    family!(Blake2b, blake2b, blake2s, 275);
    family!(Blake2s, blake2s, blake2b, 147);
}
