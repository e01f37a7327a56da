//! What no public call shows: counts near their ends, states that no call has made, layouts, the
//! choice of the build, and how threads share their work.
use std::format;
use std::mem::size_of;
use std::panic::{catch_unwind, AssertUnwindSafe};
use std::string::{String, ToString};

use crate::library::{self, Blake2bState, Blake2bpState, Blake2sState, Blake2spState};
use crate::library::{Blake2xbState, Blake2xsState, TreeState};
use crate::*;

// 2^32 on machines of 64 bits: no bytes, if it is cut to 32 bits.
const LONG: usize = 1 << (usize::BITS / 2);

// The text of the panic that a call ends with.
fn panic_of<R>(call: impl FnOnce() -> R) -> String {
    let fault = catch_unwind(AssertUnwindSafe(call)).err().expect("a panic");
    fault.downcast_ref::<String>().cloned().unwrap_or_else(|| (*fault.downcast_ref::<&str>().unwrap()).into())
}

#[test]
fn layouts_are_those_of_the_library() {
    // Safety: these calls have no arguments.
    unsafe {
        assert_eq!(library::blake2b_state_size(), size_of::<Blake2bState>());
        assert_eq!(library::blake2s_state_size(), size_of::<Blake2sState>());
        assert_eq!(library::blake2bp_state_size(), size_of::<Blake2bpState>());
        assert_eq!(library::blake2sp_state_size(), size_of::<Blake2spState>());
        assert_eq!(library::blake2xb_state_size(), size_of::<Blake2xbState>());
        assert_eq!(library::blake2xs_state_size(), size_of::<Blake2xsState>());
        assert_eq!(library::tree_state_size(), size_of::<TreeState>());
        // A plan and its parts are as large as vulfsjor.h says: its test compares.
        #[cfg(feature = "std")]
        assert_eq!(
            [size_of::<library::Limits>(), size_of::<library::Plan>(), size_of::<library::Part>()],
            [32, 72, 48]
        );
    }
}

// What a hasher returns, and what it panics with if no call has made its state.
macro_rules! family {
    (
        $test:ident, $hasher:ident, $state:ident, $counter:literal, $pending:literal, $leaves:literal, $end:literal,
        $key:literal, $result:ident, $($call:ident($($on:literal)?)),*
    ) => {
        mod $test {
            use super::*;

            // A hasher that has compressed this number of bytes less than 2^64, a multiple of its leaves.
            // c/include/vulfsjor.h names the word of a leaf's counter, and the next, whose first $pending bits are the
            // number of pending bytes.
            pub(super) fn hasher_near_2_to_the_64(mut hasher: $hasher, bytes: u64) -> $hasher {
                hasher.state.0[$counter] = (0u64.wrapping_sub(bytes) / $leaves).to_le();
                let others = !0u64 << ($pending - 1) << 1;
                hasher.state.0[$counter + 1] &= others.to_le();
                hasher
            }

            #[test]
            fn a_state_that_no_init_has_made_is_refused() {
                let none = || $hasher { state: $state::ZEROS };
                assert_eq!(none().count(), 0);
                assert!(panic_of(|| none().update(b"").count()).contains("an input of 2^64 bytes"));
                $(assert!(panic_of(|| none().$call($($on)?)).contains("a state that new has made"));)*
            }

            #[test]
            fn inputs_end_before_2_to_the_64() {
                let mut hasher = hasher_near_2_to_the_64($hasher::new(), $end);
                hasher.update([7; $end - 1]);
                assert_eq!(hasher.count(), u64::MAX);
                let before = $result!(hasher);
                hasher.update(b"");
                for length in [1, LONG] {
                    let update = || hasher.update(std::vec![0; length]).count();
                    assert!(panic_of(update).contains("an input of 2^64 bytes"));
                }
                assert_eq!((hasher.count(), $result!(hasher)), (u64::MAX, before));
                assert_ne!(before, $result!($hasher::new().update([7; $end - 1])));
            }

            #[test]
            fn count_of_input_excludes_the_key_block() {
                let params = Params::new().key(b"key").output_size(1);
                let hasher = $hasher::with_params(&params).unwrap();
                assert_eq!(hasher.count(), 0);
                let mut hasher = hasher_near_2_to_the_64(hasher, $end / 2);
                hasher.update([7; $end / 2 - 1]);
                assert_eq!(hasher.count(), u64::MAX - $key);
                assert!(panic_of(|| hasher.update(b"x").count()).contains("an input of 2^64 bytes"));
            }
        }
    };
}

macro_rules! digest {
    ($hasher:expr) => {
        $hasher.finalize()
    };
}
macro_rules! output {
    ($hasher:expr) => {{
        let mut out = [0; 9];
        $hasher.finalize_xof().read(&mut out).unwrap();
        out
    }};
}

family!(blake2b, Blake2b, Blake2bState, 16, 32, 1, 256, 128, digest,
    finalize(), finalize_reset(), reset(), set_last_node(true));
family!(blake2s, Blake2s, Blake2sState, 8, 16, 1, 128, 64, digest,
    finalize(), finalize_reset(), reset(), set_last_node(true));
family!(blake2bp, Blake2bp, Blake2bpState, 32, 64, 4, 2048, 512, digest, finalize(), finalize_reset(), reset());
family!(blake2sp, Blake2sp, Blake2spState, 32, 64, 8, 2048, 512, digest, finalize(), finalize_reset(), reset());
family!(blake2xb, Blake2xb, Blake2xbState, 16, 32, 1, 256, 128, output, reset());
family!(blake2xs, Blake2xs, Blake2xsState, 8, 16, 1, 128, 64, output, reset());

// Several hashers in one call, of which one cannot absorb its input. In the crate, a part of 16 is a call of the library.
macro_rules! several {
    ($test:ident, $hasher:ident, $state:ident, $make:ident, $block:literal) => {
        mod $test {
            use super::*;
            use std::vec::Vec;

            fn state_words_of(hashers: &[$hasher]) -> Vec<[u64; $state::ZEROS.0.len()]> {
                hashers.iter().map(|hasher| hasher.state.0).collect()
            }

            // This number of hashers, and the one at the place can absorb one byte less than a block.
            fn hashers_with_one_near_the_end(count: usize, place: usize, key: &[u8]) -> Vec<$hasher> {
                let params = if key.is_empty() { Params::new() } else { Params::new().key(key) };
                let mut hashers = std::vec![$hasher::new(); count];
                hashers[place] = $make::hasher_near_2_to_the_64(params.$make().unwrap(), $block);
                hashers
            }

            #[test]
            fn all_absorb_or_none() {
                let long = std::vec![0; LONG];
                let places = |count| (0..count).map(move |place| (count, place));
                for (count, place) in [1, 4, 9, 16, 17, 33].into_iter().flat_map(places) {
                    for key in [&b""[..], b"key"] {
                        let mut hashers = hashers_with_one_near_the_end(count, place, key);
                        let mut inputs = std::vec![&long[..3 * $block]; count];
                        let before = state_words_of(&hashers);
                        for length in [$block, $block + 1, LONG] {
                            inputs[place] = &long[..length];
                            let update = || $hasher::update_many(&mut hashers, &inputs);
                            assert!(panic_of(update).contains("an input of 2^64 bytes"));
                            assert_eq!(state_words_of(&hashers), before);
                        }
                        inputs[place] = &long[..$block - 1];
                        let mut wanted = hashers.clone();
                        for (hasher, input) in wanted.iter_mut().zip(&inputs) {
                            hasher.update(input);
                        }
                        $hasher::update_many(&mut hashers, &inputs);
                        let key_block = if key.is_empty() { 0 } else { $block };
                        assert_eq!(hashers[place].count(), u64::MAX - key_block);
                        for (hasher, wanted) in hashers.iter().zip(&wanted) {
                            assert_eq!((hasher.finalize(), hasher.count()), (wanted.finalize(), wanted.count()));
                        }
                    }
                }
            }

            #[test]
            fn none_absorbs_if_no_init_has_made_one() {
                for place in 0..9 {
                    let mut hashers = std::vec![$hasher::new(); 9];
                    hashers[place].state = $state::ZEROS;
                    let before = state_words_of(&hashers);
                    let update = || $hasher::update_many(&mut hashers, &[[7; 3 * $block]; 9]);
                    assert!(panic_of(update).contains("an input of 2^64 bytes"));
                    assert_eq!(state_words_of(&hashers), before);
                }
            }

            // An input that is one byte when it is looked at, and a block from then on.
            struct Growing(std::cell::Cell<usize>);

            impl AsRef<[u8]> for Growing {
                fn as_ref(&self) -> &[u8] {
                    &[7; $block][..self.0.replace($block)]
                }
            }

            #[test]
            fn an_input_that_grows_is_refused() {
                for count in [1, 9, 16, 17, 33] {
                    let mut hashers = hashers_with_one_near_the_end(count, count - 1, b"");
                    let before = state_words_of(&hashers);
                    let inputs: Vec<_> = (0..count).map(|_| Growing(1.into())).collect();
                    let update = || $hasher::update_many(&mut hashers, &inputs);
                    assert!(panic_of(update).contains("an input of 2^64 bytes"));
                    let of_last_call = (count - 1) / 16 * 16;
                    assert_eq!(state_words_of(&hashers)[of_last_call..], before[of_last_call..]);
                }
            }
        }
    };
}

several!(several_of_blake2b, Blake2b, Blake2bState, blake2b, 128);
several!(several_of_blake2s, Blake2s, Blake2sState, blake2s, 64);

#[test]
fn a_tree_that_no_init_has_made_is_refused() {
    let none = || TreeHasher { state: TreeState::ZEROS };
    assert!(panic_of(|| none().update(b"").count()).contains("an input of 2^58 bytes"));
    assert!(panic_of(|| none().finalize()).contains("a state that new has made"));
    assert_eq!((none().count(), none().leaf_length()), (0, 0));
    let mut digests = [0; 64];
    let said = "leaf_length() is 0, and must be 1 to 4294967295";
    assert_eq!(none().leaves_ahead(0, b"x", &mut digests).unwrap_err().to_string(), said);
    assert_eq!(none().update_leaves(&digests, b"x").unwrap_err().to_string(), said);
}

// A hasher of a tree with leaves of 1 KiB that has absorbed this number of leaves less than 2^58
// bytes, and one byte more, which is in the open leaf. The words are those of `closed` and of the
// root's counter in c/include/vulfsjor.h.
fn tree_hasher_near_2_to_the_58(leaves: u64) -> TreeHasher {
    const CLOSED: usize = 2 * 43;
    const ROOT_COUNTER: usize = 43 + 16;
    let mut hasher = TreeParams::new(1 << 10).hasher().unwrap();
    hasher.update([7; 1 << 10]).update([7; 1]);
    let closed = u64::from_le(hasher.state.0[CLOSED]);
    assert_eq!((closed, hasher.count()), (1, 1025));
    hasher.state.0[CLOSED] = ((1 << 48) - leaves).to_le();
    hasher.state.0[ROOT_COUNTER] = (((1 << 48) - leaves) * 64).to_le();
    hasher.state.0[ROOT_COUNTER + 1] = 0;
    assert_eq!(hasher.count(), (1 << 58) - leaves * 1024 + 1);
    hasher
}

#[test]
fn inputs_of_a_tree_end_before_2_to_the_58() {
    let mut hasher = tree_hasher_near_2_to_the_58(1);
    hasher.update([7; 1022]);
    assert_eq!(hasher.count(), (1 << 58) - 1);
    hasher.update(b"");
    for length in [1, LONG] {
        assert!(panic_of(|| hasher.update(std::vec![0; length]).count()).contains("an input of 2^58 bytes"));
        let said = format!("input.len() is {length}, and must be 0");
        assert_eq!(hasher.update_leaves(b"", std::vec![0; length]).unwrap_err().to_string(), said);
    }
    assert_eq!(hasher.count(), (1 << 58) - 1);
}

#[test]
fn leaves_by_their_digests_end_before_2_to_the_58() {
    let mut hasher = tree_hasher_near_2_to_the_58(3);
    hasher.update([7; 1023]); // a leaf boundary, with room for 2,047 bytes
    let next = |skip, length: usize| {
        let (leaves, digests) = (&[7; 2048][..length], &mut [0; 128][..length / 16]);
        hasher.leaves_ahead(skip, leaves, digests)
    };
    let error = |result: Result<(), InvalidArgument>| result.unwrap_err().to_string();
    assert!(next(0, 1024).is_ok());
    assert_eq!(error(next(1, 1024)), "skip is 1, and must be 0");
    assert_eq!(error(next(0, 2048)), "leaves.len() is 2048, and must be 1024 to 2047");
    let mut update = |digests: usize, length: usize| {
        hasher.update_leaves(&[7; 128][..digests], &[7; 2048][..length]).map(drop)
    };
    assert_eq!(error(update(128, 1)), "digests.len() is 128, and must be 0 to 64");
    assert_eq!(error(update(64, 1024)), "input.len() is 1024, and must be 1 to 1023");
    assert_eq!(error(update(0, 2048)), "input.len() is 2048, and must be 0 to 2047");
    assert!(update(64, 1023).is_ok());
    assert_eq!(hasher.count(), (1 << 58) - 1);
}

#[cfg(feature = "std")]
mod threads {
    use super::*;
    use crate::tree_file::MOST_BUFFER_BYTES;
    use crate::library::{Limits, Part, Plan};
    use crate::read_all::BUFFER_BYTES;
    use crate::threads::{LEAST_BYTES, PART_BYTES};
    use std::collections::HashSet;
    use std::sync::atomic::{AtomicU64, AtomicUsize, Ordering::SeqCst};
    use std::sync::{mpsc, Mutex};
    use std::time::{Duration, Instant};
    use std::vec::Vec;
    use std::{thread, vec};

    #[test]
    fn updates_by_threads_end_before_2_to_the_58() {
        // The bytes that the open leaf lacks would fit.
        let mut hasher = tree_hasher_near_2_to_the_58(2);
        let update = || hasher.update_threads([7; 5000], 3).count();
        assert!(panic_of(update).contains("an input of 2^58 bytes"));
        assert_eq!(hasher.count(), (1 << 58) - 2047);
        let mut hasher = tree_hasher_near_2_to_the_58(1);
        for too_long in [1023, 1024, 5000] {
            let message = vec![7; too_long];
            let update = || hasher.update_threads(&message, 3).count();
            assert!(panic_of(update).contains("an input of 2^58 bytes"));
            assert_eq!(hasher.count(), (1 << 58) - 1023);
        }
        hasher.update_threads([7; 1022], 3);
        assert_eq!(hasher.count(), (1 << 58) - 1);
    }

    fn plan_for(length: u64, leaf_length: u32, threads: usize, most: u64) -> Plan {
        Plan::of_message(length, leaf_length, &Limits::of(threads, most)).unwrap()
    }

    // What a call returns. A call that waits for ever fails here.
    fn result_within_30_seconds<R: Send + 'static>(call: impl FnOnce() -> R + Send + 'static) -> R {
        let (sender, receiver) = mpsc::channel();
        let thread = thread::spawn(move || sender.send(call()));
        match receiver.recv_timeout(Duration::from_secs(30)) {
            Ok(result) => result,
            Err(mpsc::RecvTimeoutError::Timeout) => panic!("a call waits for ever"),
            Err(_) => std::panic::resume_unwind(thread.join().expect_err("a panic")),
        }
    }

    // What the proof of a plan does not say: the numbers that it gets here.
    #[test]
    fn a_thread_has_at_least_256_kib_of_message() {
        let least = LEAST_BYTES;
        assert_eq!((least, PART_BYTES), (256 << 10, 1 << 20));
        assert_eq!((MOST_BUFFER_BYTES, BUFFER_BYTES), (16 << 20, 1 << 20));
        let threads = |asked, length| plan_for(length, 1000, asked, u64::MAX).threads;
        assert_eq!([3, 2].map(|n| threads(3, n * least)), [3, 2]);
        assert_eq!([threads(3, 2 * least - 1), threads(1, 10 * least)], [1, 1]);
        assert!(threads(usize::MAX, 1 << 40) > 1 << 20); // there is no other limit
        let all = thread::available_parallelism().unwrap().get() as u64;
        assert_eq!(threads(0, 1 << 40), all);
        assert!(Plan::of_message(5, 0, &Limits::of(1, u64::MAX)).is_none());
        assert!(Plan::of_message(1 << 58, 1, &Limits::of(1, u64::MAX)).is_none());
    }

    // Parts of a file with other marks at the same places below 4 GiB, read in one piece and in more.
    #[cfg(unix)]
    #[test]
    fn parts_past_4_gib_are_read_in_place() {
        use std::os::unix::fs::FileExt;
        let path = std::env::temp_dir().join(format!("vulfsjor-{}", std::process::id()));
        let made = std::fs::OpenOptions::new().read(true).write(true).create_new(true).open(&path);
        std::fs::remove_file(&path).unwrap();
        let (file, start) = (made.unwrap(), (1 << 32) + 7);
        for length in [100_000, MOST_BUFFER_BYTES, MOST_BUFFER_BYTES + 3] {
            let mut bytes = vec![0; length as usize];
            for place in [0, length / 2, length - 1] {
                file.write_all_at(&[5], start + place).unwrap();
                file.write_all_at(&[6], (start + place) & 0xffff_ffff).unwrap();
                bytes[place as usize] = 5;
            }
            let params = TreeParams::new(1 << 25);
            let [mut digest, mut wanted] = [[0; 64]; 2];
            let first = (1 << 32) + 9;
            params.leaves(&bytes, first, true, &mut wanted).unwrap();
            let mut part = Part::default();
            (part.first, part.start, part.length, part.ends) = (first, start, length, 1);
            let hashed = params.hash_part(&file, &part, &mut digest, &mut Vec::new());
            assert!(hashed.is_ok() && digest == wanted, "{length}");
            file.set_len(0).unwrap();
        }
    }

    // Each thread keeps its buffer, and a part is reported when it is hashed, not before.
    #[test]
    fn a_thread_keeps_its_buffer_and_reports_what_is_hashed() {
        for threads in [1, 3] {
            let plan = plan_for(1 << 26, 1 << 20, threads, u64::MAX);
            let (bytes, buffers) = (AtomicU64::new(0), AtomicUsize::new(0));
            let hash = |part: &Part, _: &mut [u8], buffer: &mut Vec<u8>| {
                buffers.fetch_add(usize::from(buffer.is_empty()), SeqCst);
                buffer.push(1);
                thread::sleep(Duration::from_millis(1));
                bytes.fetch_add(part.length, SeqCst);
                Ok::<(), ()>(())
            };
            let mut last = 0;
            let report = |reported| {
                assert!((1..=bytes.load(SeqCst)).contains(&reported));
                last = reported;
                Ok(())
            };
            let hashed = plan.hash(&mut vec![0; plan.room()], hash, |_| (), report);
            assert_eq!((hashed, last), (Ok(()), 1 << 26));
            assert!((1..=threads).contains(&buffers.load(SeqCst)));
        }
    }

    // Parts whose first leaves have more than 32 bits, in a plan and in each call that hashes one.
    #[test]
    fn parts_past_2_to_the_32_leaves_are_right() {
        let plan = plan_for((1 << 32) + (1 << 15), 1, 3, u64::MAX);
        let hash = |part: &Part, out: &mut [u8], _: &mut Vec<u8>| {
            out[..8].copy_from_slice(&part.first.to_le_bytes());
            Ok::<(), ()>(())
        };
        let mut next = 0;
        let absorb = |digests: &[u8]| {
            let first = u64::from_le_bytes(digests[..8].try_into().unwrap());
            assert_eq!(first, next);
            next += digests.len() as u64 / 64;
        };
        let hashed = plan.hash(&mut vec![0; plan.room()], hash, absorb, |_| Ok(()));
        assert_eq!((hashed, next), (Ok(()), (1 << 32) + (1 << 15)));

        let (params, bytes) = (TreeParams::new(100), [7; 300]);
        for (first, ends) in [(3, 0), ((1 << 32) + 3, 0), (3, 1), ((1 << 32) + 3, 1)] {
            let mut part = Part::default();
            (part.first, part.length, part.ends) = (first, 300, ends);
            let [mut wanted, mut out, mut ahead] = [[0; 192]; 3];
            params.leaves(&bytes, first, ends == 1, &mut wanted).unwrap();
            params.hash_leaves(&part, &bytes, &mut out).unwrap();
            assert_eq!(out, wanted);
            params.hasher().unwrap().hash_leaves(&part, &bytes, &mut ahead); // others follow these
            assert_eq!(ahead == wanted, ends == 0);
        }
    }

    // After an error of one thread, or of the report, no part is begun: the 4,096 parts of a
    // millisecond are not all begun.
    #[test]
    fn errors_stop_the_threads() {
        fn run(wrong: u64, report: fn() -> Result<(), &'static str>) -> &'static str {
            result_within_30_seconds(move || {
                let plan = plan_for(1 << 34, 1 << 20, 3, u64::MAX);
                assert_eq!(plan.part_count, 4096);
                let begun = AtomicUsize::new(0);
                let hash = |part: &Part, _: &mut [u8], _: &mut Vec<u8>| {
                    assert!(begun.fetch_add(1, SeqCst) < 2048, "nothing stops the threads");
                    thread::sleep(Duration::from_millis(1));
                    if part.first == wrong { Err("a part") } else { Ok(()) }
                };
                let hashed = plan.hash(&mut vec![0; plan.room()], hash, |_| (), |_| report());
                hashed.unwrap_err()
            })
        }
        assert_eq!(run(20, || Ok(())), "a part");
        assert_eq!(run(1, || Err("a report")), "a report");
        assert_eq!(panic_of(|| run(1, || panic!("a report"))), "a report");
    }

    // While the first part is hashed, the others are, as far as there is room for their digests.
    // Then this part fails, or another one later, and no thread waits for it.
    fn result_of_failing_part(wrong: u64) -> (&'static str, u8) {
        let plan = plan_for(1 << 34, 1 << 10, 3, u64::MAX);
        let rooms = plan.room() >> 16; // of 1,024 digests each
        assert_eq!((rooms, plan.part_count), (16, 1 << 14));
        let begun = AtomicUsize::new(0);
        let start = Instant::now();
        let hash = |part: &Part, out: &mut [u8], _: &mut Vec<u8>| {
            out.fill((part.first >> 10) as u8);
            begun.fetch_add(1, SeqCst);
            if part.first == 0 {
                while begun.load(SeqCst) < rooms && start.elapsed() < Duration::from_secs(20) {
                    thread::yield_now();
                }
                // The others wait for room now.
                thread::sleep(Duration::from_millis(300));
                assert_eq!(begun.load(SeqCst), rooms);
            }
            if part.first >> 10 == wrong { Err("a part") } else { Ok(()) }
        };
        let mut next = 0u8;
        let absorb = |digests: &[u8]| {
            assert_eq!(digests.len(), 1 << 16);
            assert!(digests.iter().all(|byte| *byte == next));
            next += 1;
        };
        let result = plan.hash(&mut vec![0; plan.room()], hash, absorb, |_| Ok(()));
        (result.unwrap_err(), next)
    }

    #[test]
    fn threads_wait_for_the_first_part() {
        assert_eq!(result_within_30_seconds(|| result_of_failing_part(0)), ("a part", 0));
        let (error, absorbed) = result_within_30_seconds(|| result_of_failing_part(100));
        assert_eq!(error, "a part");
        assert!((85..=100).contains(&absorbed), "{absorbed}");
    }

    // A message that is longer needs no more room for digests.
    #[test]
    fn room_for_digests_is_bounded() {
        let room = |length, leaf| plan_for(length, leaf, 4, u64::MAX).room();
        for leaf in [1, 64, 100, 1 << 10, 1 << 16, 1 << 20] {
            let most = room(1 << 40, leaf);
            assert_eq!(room(1 << 57, leaf), most);
            assert!((64..=8 << 20).contains(&most), "{leaf}");
            assert!(most > 1 << 19, "{leaf}");
        }
    }

    // Whether this number of threads hash at the same time: each part waits for the others.
    fn threads_hash_at_the_same_time(threads: usize) -> bool {
        let least = LEAST_BYTES as u32;
        let bytes = vec![0; threads * least as usize];
        let plan = plan_for(bytes.len() as u64, least, threads, u64::MAX);
        let seen = Mutex::new(HashSet::new());
        let start = Instant::now();
        let hash = |_: &Part, _: &[u8], _: &mut [u8]| {
            seen.lock().unwrap().insert(thread::current().id());
            while seen.lock().unwrap().len() < threads && start.elapsed() < Duration::from_secs(20) {
                thread::yield_now();
            }
        };
        plan.hash_bytes(&bytes, hash, |_| ());
        let seen = seen.into_inner().unwrap();
        assert!(seen.contains(&thread::current().id()));
        seen.len() == threads
    }

    #[test]
    fn as_many_threads_hash_as_are_asked_for() {
        assert!([1, 2, 5].into_iter().all(threads_hash_at_the_same_time));
    }
}

#[cfg(feature = "std")]
mod files {
    use crate::tree_file::fill;
    use std::io::{Error, ErrorKind, Result};

    // Fills ten bytes from the offset 5 of these, three at a time. The second read is interrupted.
    fn ten_bytes_by_short_reads(data: &[u8]) -> Result<[u8; 10]> {
        let mut bytes = [0; 10];
        let mut reads = 0;
        fill(&mut bytes, 5, |bytes, start| {
            reads += 1;
            if reads == 2 {
                return Err(ErrorKind::Interrupted.into());
            }
            let rest = data.get(start as usize..).unwrap_or(&[]);
            let count = rest.len().min(bytes.len()).min(3);
            bytes[..count].copy_from_slice(&rest[..count]);
            Ok(count)
        })?;
        Ok(bytes)
    }

    #[test]
    fn a_buffer_is_filled_by_several_reads() {
        let data: std::vec::Vec<u8> = (0..40).collect();
        assert_eq!(ten_bytes_by_short_reads(&data).unwrap(), data[5..15]);
        assert_eq!(ten_bytes_by_short_reads(&data[..15]).unwrap(), data[5..15]);
        let kind = ten_bytes_by_short_reads(&data[..14]).unwrap_err().kind();
        assert_eq!(kind, ErrorKind::UnexpectedEof);
        let refused = fill(&mut [0; 2], 0, |_, _| Err(Error::from(ErrorKind::Other)));
        assert_eq!(refused.unwrap_err().kind(), ErrorKind::Other);
    }
}

#[cfg(all(
    target_arch = "x86_64",
    not(any(vulfsjor_build = "v2", vulfsjor_build = "v3", vulfsjor_build = "portable"))
))]
mod choice {
    use super::*;
    use crate::processor::{level, level_of_processor, level_of, Leaves};
    use std::is_x86_feature_detected as has;

    // tests/programs.rs runs a program on other processors, which qemu emulates.
    #[test]
    fn the_level_is_that_of_the_standard_library() {
        let v2 = has!("sse3") && has!("ssse3") && has!("sse4.2") && has!("popcnt") && has!("cmpxchg16b");
        let bits = has!("bmi1") && has!("bmi2") && has!("lzcnt");
        let v3 = v2 && bits && has!("avx2") && has!("f16c") && has!("fma");
        let v4 = has!("avx512f") && has!("avx512vl") && has!("avx512bw");
        let v4 = v3 && v4 && has!("avx512cd") && has!("avx512dq");
        let wanted = 2 + u8::from(v3) + u8::from(v4);
        assert_eq!(level_of_processor(), wanted);
        library::panic_without_build();
        assert_eq!(level(), wanted);
    }

    // A processor that is made up: level 4, its bits cleared one by one, and each set of registers
    // that a system may save.
    #[test]
    fn level_needs_each_feature_and_register() {
        const ALL: [u32; 3] = [0x38d8_3201 | 1 << 20, 0xd003_0128, 0x21];
        let level = |[first, seventh, extended]: [u32; 3], saved| {
            level_of(&Leaves { first, seventh, extended }, || {
                assert_ne!(first & 1 << 27, 0, "there is no XCR0");
                saved
            })
        };
        let of_bit = |word: usize, bit: u32| match (word, bit) {
            (0, 0 | 9 | 13 | 19 | 20 | 23) | (2, 0) => 1,
            (0, 12 | 22 | 27 | 28 | 29) | (1, 3 | 5 | 8) | (2, 5) => 2,
            (1, 16 | 17 | 28 | 30 | 31) => 3,
            _ => 4,
        };
        for (word, bit) in (0..3).flat_map(|word| (0..32).map(move |bit| (word, bit))) {
            for mut leaves in [ALL, [!0; 3]] {
                leaves[word] &= !(1 << bit);
                assert_eq!(level(leaves, !0), of_bit(word, bit), "{word} {bit}");
            }
        }
        for saved in 0..=255 {
            let wanted = match (saved & 0x06, saved & 0xe0) {
                (0x06, 0xe0) => 4,
                (0x06, _) => 3,
                _ => 2,
            };
            assert_eq!(level(ALL, saved), wanted, "{saved}");
        }
    }
}
