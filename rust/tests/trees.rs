//! The tree by threads, what errors of trees say, and lengths beyond 2^32 bytes, compared with hashlib. What hashes
//! such a message takes seconds, and is ignored: `VULFSJOR_TEST_HUGE=1 rust/run_tests.sh` runs it.
#![cfg(all(feature = "std", unix, target_pointer_width = "64"))]
use std::env;
use std::fs::{self, File};
use std::io::Write;
use std::os::unix::fs::FileExt;
use std::process::Command;
use vulfsjor::*;

#[test]
fn leaf_counts_are_rounded_up() {
    for leaf in [1, 2, 64, 1000, u32::MAX] {
        let length = u64::from(leaf);
        let count = |message| TreeParams::new(leaf).leaf_count(message);
        assert_eq!([0, 1, length].map(count), [1; 3]);
        assert_eq!(count(length + 1), 2);
        assert_eq!([5 * length - (leaf > 1) as u64, 5 * length].map(count), [5; 2]);
        assert_eq!(count(u64::MAX), u64::MAX / length + u64::from(u64::MAX % length != 0));
    }
    assert_eq!([0, 1, u64::MAX].map(|length| TreeParams::new(0).leaf_count(length)), [0; 3]);
}

// The other calls with parameters are those of the conformance cases.
#[test]
fn parameters_are_refused_for_a_file() {
    for (params, said) in [
        (TreeParams::new(0), "leaf_length is 0, and must be 1 to 4294967295"),
        (TreeParams::new(1).output_size(65), "output_size is 65, and must be 1 to 64"),
        (TreeParams::new(1).salt(&[0; 17]), "salt.len() is 17, and must be 0 to 16"),
        (TreeParams::new(1).persona(&[0; 17]), "persona.len() is 17, and must be 0 to 16"),
    ] {
        let error = params.root_file(concat!(env!("CARGO_MANIFEST_DIR"), "/Cargo.toml"), 1).unwrap_err();
        assert_eq!(error.kind(), std::io::ErrorKind::InvalidInput);
        assert_eq!(error.into_inner().unwrap().downcast::<InvalidArgument>().unwrap().to_string(), said);
        assert_eq!(params.root_threads([0; 99], 0).unwrap_err().to_string(), said);
    }
}

// Of ranges of leaves, of a hasher at a leaf boundary, and of one within a leaf.
#[test]
fn wrong_leaves_are_refused() {
    let (tree, most) = (TreeParams::new, (1u64 << 58) - 1);
    let last = most / 100 - 2;
    let hasher = |length: usize| {
        let mut hasher = tree(100).hasher().unwrap();
        hasher.update(vec![0; length]);
        hasher
    };
    let within = "count() is 101, and must be a multiple of 100";
    let (leaves, room) = ([0; 200], &mut [0; 128]);
    let mut at = |skip, length, digests: usize| hasher(0).leaves_ahead(skip, &leaves[..length], &mut room[..digests]);
    for (refused, said) in [
        (at(0, 0, 64), "leaves.len() is 0, and must be a positive multiple of 100".into()),
        (at(0, 1, 64), "leaves.len() is 1, and must be a positive multiple of 100".into()),
        (at(0, 101, 64), "leaves.len() is 101, and must be a positive multiple of 100".into()),
        (at(0, 200, 64), "digests.len() is 64, and must be 128".into()),
        (at(last + 1, 200, 128), format!("skip is {}, and must be 0 to {last}", last + 1)),
        (hasher(101).leaves_ahead(0, &[0; 100], &mut [0; 64]), within.into()),
        (hasher(0).update_leaves(&[0; 65], b"x").map(drop), "digests.len() is 65, and must be a multiple of 64".into()),
        (hasher(0).update_leaves(&[0; 128], b"").map(drop), format!("input.len() is 0, and must be 1 to {}", most - 200)),
        (hasher(101).update_leaves(&[0; 64], b"x").map(drop), within.into()),
        (tree(9).leaves(&[0; 8], 0, false, &mut [0; 64]), "bytes.len() is 8, and must be a positive multiple of 9".into()),
        (tree(9).leaves(&[], 0, false, &mut [0; 64]), "bytes.len() is 0, and must be a positive multiple of 9".into()),
        (tree(9).leaves(&[0; 20], 0, true, &mut [0; 65]), "digests.len() is 65, and must be 192".into()),
        (tree(1).leaves(b"x", most, true, &mut [0; 64]), format!("first is {most}, and must be 0 to {}", most - 1)),
        (tree(1).leaves(b"", most, true, &mut [0; 64]), format!("first is {most}, and must be 0 to {}", most - 1)),
        (tree(9).leaves(b"x", !0, true, &mut [0; 64]), format!("first is {}, and must be 0 to {}", u64::MAX, most / 9)),
        (tree(9).leaves(b"", 1, true, &mut [0; 64]), format!("bytes.len() is 0, and must be 1 to {}", most - 9)),
        (tree(0).leaves(b"", 1, true, &mut [0; 64]), "leaf_length is 0, and must be 1 to 4294967295".into()),
        (tree(1).root_of_leaves(&[]).map(drop), "digests.len() is 0, and must be a positive multiple of 64".into()),
        (tree(1).root_of_leaves(&[0; 9]).map(drop), "digests.len() is 9, and must be a positive multiple of 64".into()),
    ] {
        assert_eq!(refused.unwrap_err().to_string(), said);
    }
    assert!(at(last, 200, 128).is_ok());
    assert_eq!([0, 101].map(|length| hasher(length).update_leaves(b"", b"").unwrap().count()), [0, 101]);
}

// Where the system starts no thread, since their stacks are too large for it, the caller's thread
// does all. It is this test that runs again, in another process.
#[test]
fn tree_is_hashed_without_new_threads() {
    if env::var_os("RUST_MIN_STACK").is_none() {
        let status = Command::new(env::current_exe().unwrap())
            .args(["--exact", "tree_is_hashed_without_new_threads", "--test-threads=1"])
            .env("RUST_MIN_STACK", (1u64 << 46).to_string())
            .status();
        assert!(status.unwrap().success());
        return;
    }
    assert!(std::thread::Builder::new().spawn(|| ()).is_err());
    let message = vec![7; 1 << 22];
    let params = TreeParams::new(1 << 14);
    let wanted = params.root(&message);
    assert_eq!(params.root_threads(&message, 4), wanted);
    let mut hasher = params.hasher().unwrap();
    hasher.update_threads(&message, 4);
    assert_eq!(Ok(hasher.finalize()), wanted);
}

// The long message is zeros, except at five places around multiples of 2^31.
const LENGTH: usize = (1 << 32) + 1000;
const MARKS: [(usize, u8); 5] = [(0, 1), (1 << 31, 2), ((1 << 32) - 1, 3), (1 << 32, 4), (LENGTH - 1, 5)];

// What hashlib computes of the message: the root with the persona `files`, and 64 bytes.
const BLAKE2B: &str = "5129d8fb71987970f5af5ac48b4df817a8f7d599523ba3951ebeb7471dab9c0c\
                       ffdfe8851097e30fcbd137b96d042d5115fd48bd48f6107f8824078685395586";
const BLAKE2S: &str = "f0086540373fc864d4ee4c2840e3380208a054b0d6e775915955a7a8b418f657";
const BLAKE2B_KEY: &str = "11b24d87f1affb26e0255928079f37268df36719d0782823960fc4103b00b134\
                           72a78685fdc49139244742738fed035c94920f41c1afa043c3b6c29409b88df6";
const BLAKE2S_KEY: &str = "638e8bcc626b3db9f89c5b92846bbaf208100e8bcda613925f2e73231db7794b";
const ROOT: &str = "66383ab03278a4f5db6fb06c6f84d990ec10bd64668c2cff212e831b0084023b\
                    249089f16e3e87f7cd8f8139ff7a2ce77488ef6f49318069a0594e42aa1a1b23";
// The root over 2^26 + 1 digests with the marks below their end, for leaves of one byte; and that
// of these leaves and one more, `x`.
const ROOT_OF_DIGESTS: &str = "fbf7a9b23fa891b56efe885daca61486b5c9441c4f4518c067c0ee70bd193ac3\
                               2e30fc6d19e9b54f902fe17501c2f2a0beb78c650f614758d210624f9bda86cd";
const ROOT_OF_MORE: &str = "d791033fc05293273107205607be5920509f9d598bb91164f8ee70b3804f0a51\
                            79f41ee27558c85411ff75ef48fd9953df442912328edb7850d3d7c3716ba944";

// Zeros, which are one page of the system's where nobody writes them, with the marks below this length.
fn marked_zeros(length: usize) -> Vec<u8> {
    let mut bytes = vec![0; length];
    for (place, mark) in MARKS.into_iter().filter(|(place, _)| *place < length) {
        bytes[place] = mark;
    }
    bytes
}

fn params() -> TreeParams<'static> {
    TreeParams::new(64 << 20).persona(b"files")
}

// A length whose low 32 bits would be accepted is refused, and named. The conformance cases have such sizes.
#[test]
fn lengths_are_not_cut_to_32_bits() {
    let long = vec![0; (1 << 32) + 8];
    let (new, text) = (Params::new, &long[..]);
    let of = |error: InvalidArgument| {
        assert_eq!(error.value(), (1 << 32) + 8);
        error.argument()
    };
    for (params, name) in [(new().key(text), "key.len()"), (new().salt(text), "salt.len()"),
        (new().persona(text), "persona.len()")]
    {
        assert_eq!([params.blake2b().err(), params.blake2bp().err()].map(|error| error.map(of)), [Some(name); 2]);
        assert_eq!([params.blake2s().err(), params.blake2sp().err()].map(|error| error.map(of)), [Some(name); 2]);
        assert_eq!([params.blake2xb().err(), params.blake2xs().err()].map(|error| error.map(of)), [Some(name); 2]);
        assert_eq!(Blake2b::digest_many(&params, &[b"x"], &mut [[0; 32]]).map_err(of), Err(name));
        assert_eq!(Blake2s::digest_many(&params, &[b"x"], &mut [[0; 32]]).map_err(of), Err(name));
    }
    assert_eq!(Blake2bMac::new(text).map_err(of).err(), Some("key.len()"));
    assert_eq!(Blake2sMac::tag(text, b"x").map_err(of), Err("key.len()"));
    let tree = TreeParams::new(1);
    for (params, name) in [(tree.salt(text), "salt.len()"), (tree.persona(text), "persona.len()")] {
        assert_eq!(params.hasher().map_err(of).err(), Some(name));
        for root in [params.root(b"x"), params.root_of_leaves(&[0; 64]), params.root_threads(b"x", 2)] {
            assert_eq!(root.map_err(of), Err(name));
        }
        assert_eq!(params.leaves(b"x", 0, true, &mut [0; 64]).map_err(of), Err(name));
    }
}

#[test]
fn room_lengths_are_not_cut_to_32_bits() {
    let mut room = vec![0; (1 << 32) + 64];
    let (one, two) = (TreeParams::new(1), TreeParams::new(2));
    let mut hasher = one.hasher().unwrap();
    let said = "digests.len() is 4294967360, and must be 64";
    assert_eq!(one.leaves(b"x", 0, true, &mut room).unwrap_err().to_string(), said);
    assert_eq!(hasher.leaves_ahead(0, b"x", &mut room).unwrap_err().to_string(), said);
    let (leaves, digests) = (&room[..(1 << 32) + 1], &room[..(1 << 32) + 63]);
    for (refused, said) in [
        (two.leaves(leaves, 0, false, &mut [0; 64]), "bytes.len() is 4294967297, and must be a positive multiple of 2"),
        (hasher.update_leaves(leaves, b"x").map(drop), "digests.len() is 4294967297, and must be a multiple of 64"),
        (
            one.root_of_leaves(digests).map(drop),
            "digests.len() is 4294967359, and must be a positive multiple of 64",
        ),
    ] {
        assert_eq!(refused.unwrap_err().to_string(), said);
    }
}

#[test]
fn comparison_is_not_cut_to_32_bits() {
    let mut long = vec![0; (1 << 32) + 64];
    let digest = Blake2b::digest(b"x");
    long[..64].copy_from_slice(digest.as_bytes());
    assert!(digest == long[..64] && digest != long[..]);
    assert!(long[..] != digest);
    let tag = Blake2bMac::tag(b"key", b"x").unwrap();
    long[..64].copy_from_slice(tag.as_bytes());
    let mut mac = Blake2bMac::new(b"key").unwrap();
    mac.update(b"x");
    assert_eq!([mac.verify(&long[..64]), mac.verify(&long)], [Ok(()), Err(MacError)]);
    let mac = Blake2sMac::new(b"key").unwrap();
    long[..32].copy_from_slice(mac.finalize().as_bytes());
    assert_eq!([mac.verify(&long[..32]), mac.verify(&long[..(1 << 32) + 32])], [Ok(()), Err(MacError)]);
}

macro_rules! long_message_tests {
    ($test:ident, $hasher:ident, $mac:ident, $hash:ident, $max:literal, $digest:ident, $tag:ident) => {
        #[test]
        #[ignore = "more than 4 GiB, several times"]
        fn $test() {
            let message = marked_zeros(LENGTH);
            let mut hasher = $hasher::new();
            assert_eq!(hasher.write(&message).unwrap(), LENGTH);
            assert_eq!(hasher.count(), LENGTH as u64);
            let mut mac = $mac::new(b"key").unwrap();
            let tag = mac.update(&message).finalize();
            assert!(mac.verify(tag.as_bytes()).is_ok());
            let mut digests = [[0; $max]; 2];
            $hasher::digest_many(&Params::new(), &[b"x", &message[..]], &mut digests).unwrap();
            let digests = [
                $hasher::digest(&message),
                Params::new().$hash(&message).unwrap(),
                hasher.finalize(),
                Digest::from(digests[1]),
            ];
            assert_eq!(digests.map(|digest| digest.to_string()), [$digest; 4]);
            let tags = [tag, $mac::tag(b"key", &message).unwrap()];
            assert_eq!(tags.map(|tag| tag.to_string()), [$tag; 2]);
        }
    };
}
long_message_tests!(long_messages_of_blake2b, Blake2b, Blake2bMac, blake2b_hash, 64, BLAKE2B, BLAKE2B_KEY);
long_message_tests!(long_messages_of_blake2s, Blake2s, Blake2sMac, blake2s_hash, 32, BLAKE2S, BLAKE2S_KEY);

#[test]
#[ignore = "more than 4 GiB, several times"]
fn trees_past_4_gib_have_their_roots() {
    let (message, params) = (marked_zeros(LENGTH), params());
    let absorbed = |absorb: &dyn Fn(&mut TreeHasher)| {
        let mut hasher = params.hasher().unwrap();
        absorb(&mut hasher);
        assert_eq!(hasher.count(), LENGTH as u64);
        hasher.finalize()
    };
    let mut digests = vec![0; 64 * 65];
    params.leaves(&message, 0, true, &mut digests).unwrap();
    let roots = [
        params.root(&message).unwrap(),
        params.root_threads(&message, 0).unwrap(),
        params.root_of_leaves(&digests).unwrap(),
        absorbed(&|hasher| hasher.write_all(&message).unwrap()),
        absorbed(&|hasher| assert!(hasher.update_threads(&message, 4).count() > 0)),
        // Whole leaves of 2^32 bytes, and the last bytes of the message.
        absorbed(&|hasher| {
            let mut next = vec![0; 64 * 64];
            hasher.leaves_ahead(0, &message[..1 << 32], &mut next).unwrap();
            hasher.update_leaves(&next, &message[1 << 32..]).unwrap().flush().unwrap();
        }),
        // An input of more than 2^32 bytes after no digests.
        absorbed(&|hasher| hasher.update_leaves(b"", &message).unwrap().flush().unwrap()),
    ];
    assert_eq!(roots.map(|root| root.to_string()), [ROOT; 7]);
}

#[test]
#[ignore = "4 GiB by all threads, and by one"]
fn files_past_4_gib_have_their_roots() {
    let path = format!("{}/huge-{}", env!("CARGO_TARGET_TMPDIR"), std::process::id());
    let file = File::options().read(true).write(true).create_new(true).open(&path).unwrap();
    file.set_len(LENGTH as u64).unwrap();
    for (place, mark) in MARKS {
        file.write_all_at(&[mark], place as u64).unwrap();
    }
    let roots = [0, 1].map(|threads| {
        let mut last = 0;
        let root = params().root_file_with_progress(&path, threads, |bytes| {
            last = bytes;
            Ok(())
        });
        (root.unwrap().to_string(), last)
    });
    assert_eq!(roots, [0, 1].map(|_| (ROOT.to_string(), LENGTH as u64)));
    let mut hasher = Blake2b::new();
    assert_eq!(hasher.update_reader(&file).unwrap().finalize().to_string(), BLAKE2B);
    fs::remove_file(&path).unwrap();
}

#[test]
#[ignore = "8 GiB by one thread"]
fn root_over_more_than_2_to_the_26_digests() {
    let (digests, params) = (marked_zeros((1 << 32) + 64), TreeParams::new(1).persona(b"files"));
    assert_eq!(params.root_of_leaves(&digests).unwrap().to_string(), ROOT_OF_DIGESTS);
    let mut hasher = params.hasher().unwrap();
    assert_eq!(hasher.update_leaves(&digests, b"x").unwrap().count(), (1 << 26) + 2);
    assert_eq!(hasher.finalize().to_string(), ROOT_OF_MORE);
}
