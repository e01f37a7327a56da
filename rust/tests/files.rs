//! Roots of files and of readers, compared with hashlib: every kind of file, changes meanwhile,
//! progress and errors.
#![cfg(feature = "std")]
use std::cell::RefCell;
use std::fs::{self, File};
use std::io::{self, ErrorKind, Read};
use std::path::{Path, PathBuf};
use std::process::Command;
use vulfsjor::*;

const MIB: usize = 1 << 20;

// The leaf length, the length of the message, and the root by hashlib: all with the persona
// `files`. Each MiB of the message has one byte, 7 times its index and 1.
#[rustfmt::skip]
const ROOTS: [(u32, usize, &str); 8] = [
    (1 << 16, 0, "53a7b7b0b986868b36dd9fc28d168638f08f280360f2119420df97e996e3f151\
        0e1fa799bb86070158345377b9b8ed04e8c190da1cf7c0d60ca36d22caa9a941"),
    (1 << 16, 5, "01d3f8b94f1383c56984d57e790cac2150e7b727b656bf1428a5627710cc8f07\
        5bb4b4d7ad08ef4ed37d2e0f89ecf0c690a54caf2f78b1874f26e5760045bab6"),
    (1 << 16, 3 * MIB + 5, "cbabeadb941bd2931ec54a0f98deba4c5106e547414528729b509b6a0b6f551e\
        591a02c78288ffce495006ccac4fe957cc8c44ae9f8f190792ae5ce821376b2f"),
    (1000, MIB + 5, "4b3381d8a29fa797d30f28afe6caafaaac1e808ebcb3638dab7e1bcee666e07a\
        570ce80e13dedbd0e446f86d069028580fda41bfbfd88129ab5c100ca57d21f2"),
    (1 << 20, 4 * MIB, "8e921470dc6b2510ce41fdbf7d1e29b8b0f1b96012ce6c28859f53dd5cd654fa\
        66aa5c3251ca2d8b404e4756b42bdbefdfd635f5fc5e3131cd8737ca9f6eb1a5"),
    (5 << 20, 20 * MIB, "682025f8384b2856bc15a051fc5d230049c2b1aeaa179ea81810ed945cbb4975\
        fc5ee6e76625d4ecab594538875b1f55fb6c0148a4946ea7cdc4e23470a8db4c"),
    (17 << 20, 20 * MIB + 1, "8ce19454ad82d2e9c573b3d598ab6e39728010d5e0279b7cbd05bcc5809cdb8c\
        c19a295d20a04ae3903a3fcb65aa3cca5dbb2d90707d0fae1ae71bb8c902f6e0"),
    (64 << 20, 200 * MIB + 7, "0e4728dd5c05cbe5ad87f5aef874238b171831b37d1b42692e2c5b7d540e58bb\
        86de0cdb0fcfa5c84af6605fb4dec6bbf327930c6456cb93918ccb6a38c69392"),
];

fn message_of_length(length: usize) -> Vec<u8> {
    let mut bytes = vec![0; length];
    for (i, part) in bytes.chunks_mut(MIB).enumerate() {
        part.fill((7 * i + 1) as u8);
    }
    bytes
}

// A file of the test of this name, which is removed at the end.
struct Temporary(PathBuf);

impl Temporary {
    fn new(name: &str) -> Self {
        let name = format!("files-{name}-{}", std::process::id());
        Temporary(Path::new(env!("CARGO_TARGET_TMPDIR")).join(name))
    }

    fn with(name: &str, bytes: &[u8]) -> Self {
        let file = Self::new(name);
        fs::write(&file.0, bytes).unwrap();
        file
    }
}

impl Drop for Temporary {
    fn drop(&mut self) {
        let _ = fs::remove_file(&self.0);
    }
}

fn tree_params(leaf_length: u32) -> TreeParams<'static> {
    TreeParams::new(leaf_length).persona(b"files")
}

// Each root by memory, by updates, by a reader and by a file, whose progress is reported.
#[test]
fn root_of_file_is_that_of_memory() {
    let huge = std::env::var_os("VULFSJOR_TEST_HUGE").is_some(); // else not the longest
    let count = ROOTS.len() - usize::from(!huge);
    for (i, (leaf_length, length, wanted)) in ROOTS.into_iter().enumerate().take(count) {
        let (bytes, params) = (message_of_length(length), tree_params(leaf_length));
        let file = Temporary::with(&format!("roots-{i}"), &bytes);
        for threads in [0, 1, 3] {
            let mut seen = Vec::new();
            let caller = std::thread::current().id();
            let root = params.root_file_with_progress(&file.0, threads, |bytes| {
                assert_eq!(std::thread::current().id(), caller);
                seen.push(bytes);
                Ok(())
            });
            assert_eq!(root.unwrap().to_hex(), wanted);
            assert_eq!(seen.last(), Some(&(length as u64)));
            assert!(seen.windows(2).all(|pair| pair[0] <= pair[1]));
            assert!(length == 0 || seen[0] > 0);
            if threads == 1 {
                assert!(seen.iter().all(|bytes| *bytes % (1 << 20) == 0 || *bytes == length as u64));
                assert!(seen.len() > length / MIB);
            }
            for cut in [0, leaf_length as usize, length / 3] {
                let (first, second) = bytes.split_at(cut.min(length));
                let mut hasher = params.hasher().unwrap();
                assert_eq!(hasher.update_threads(first, threads).count(), first.len() as u64);
                hasher.update_threads(second, threads).update_threads(b"", threads);
                assert_eq!(hasher.finalize().to_hex(), wanted);
            }
        }
        assert_eq!([0, 3, 300].map(|n| params.root_threads(&bytes, n).unwrap().to_hex()), [wanted; 3]);
        assert_eq!(params.root(&bytes).unwrap().to_hex(), wanted);
        let others = params.salt(b"salt").output_size(20);
        let root = others.root(&bytes).unwrap();
        assert_eq!([0, 3].map(|n| others.root_file(&file.0, n).unwrap()), [root; 2]);
        let mut hasher = params.hasher().unwrap();
        let reader = hasher.update_reader(File::open(&file.0).unwrap());
        assert_eq!(reader.unwrap().finalize().to_hex(), wanted);
    }
}

#[test]
fn progress_error_stops_the_call() {
    let file = Temporary::with("stops", b"");
    File::options().write(true).open(&file.0).unwrap().set_len(1 << 32).unwrap();
    for threads in [1, 3] {
        for last in [0, 1, 2] {
            let mut calls = 0;
            let root = tree_params(1 << 16).root_file_with_progress(&file.0, threads, |_| {
                calls += 1;
                if calls > last {
                    Err(io::Error::new(ErrorKind::Other, "enough"))
                } else {
                    Ok(())
                }
            });
            let error = root.unwrap_err();
            assert_eq!((error.kind(), error.to_string()), (ErrorKind::Other, "enough".into()));
            assert_eq!(calls, last + 1);
        }
        let call = || tree_params(1 << 16).root_file_with_progress(&file.0, threads, |_| panic!("why"));
        let fault = std::panic::catch_unwind(call).unwrap_err();
        assert_eq!(fault.downcast_ref(), Some(&"why"));
    }
}

// Both sizes of leaf: of a part, and of a leaf that is read in pieces. A file that loses its last byte
// is long, so that its end is not read before that.
#[test]
fn changed_files_are_errors_or_old_roots() {
    let bytes = message_of_length(18 * MIB);
    for leaf_length in [1 << 20, 17 << 20] {
        let file = Temporary::with(&format!("changes-{leaf_length}"), &bytes);
        let opened = File::options().write(true).open(&file.0).unwrap();
        let change = |length: u64| {
            let set = |_| opened.set_len(length);
            tree_params(leaf_length).root_file_with_progress(&file.0, 2, set)
        };
        assert_eq!(change(36 << 20).unwrap(), tree_params(leaf_length).root(&bytes).unwrap());
        for shorter in [if leaf_length < 17 << 20 { (1 << 30) - 1 } else { 1 << 24 }, 0] {
            opened.set_len(1 << 30).unwrap();
            assert_eq!(change(shorter).unwrap_err().kind(), ErrorKind::UnexpectedEof);
        }
    }
}

#[cfg(unix)]
#[test]
fn pipes_folders_and_absent_files() {
    let params = tree_params(1 << 16);
    for threads in [0, 1, 4] {
        let root = |path: &str| params.root_file(path, threads);
        assert_eq!(root("/dev/null").unwrap().to_hex(), ROOTS[0].2);
        let version = fs::read("/proc/version").unwrap();
        assert_eq!(root("/proc/version").unwrap(), params.root(version).unwrap());
        assert_eq!(root("/absent").unwrap_err().kind(), ErrorKind::NotFound);
        assert!(root("/proc").unwrap_err().to_string().contains("directory"));
        let pipe = Temporary::new(&format!("pipe-{threads}"));
        assert!(Command::new("mkfifo").arg(&pipe.0).status().unwrap().success());
        std::thread::scope(|scope| {
            scope.spawn(|| fs::write(&pipe.0, message_of_length(3 * MIB + 5)).unwrap());
            assert_eq!(params.root_file(&pipe.0, threads).unwrap().to_hex(), ROOTS[2].2);
        });
    }
}

// Sparse files, on a file system in memory that has such lengths.
#[test]
fn files_of_2_to_58_bytes_are_refused() {
    let file = Temporary(format!("/dev/shm/vulfsjor-files-{}", std::process::id()).into());
    let opened = File::create(&file.0).unwrap();
    opened.set_len(1 << 58).unwrap();
    let stop = |_| Err(ErrorKind::Interrupted.into()); // a file that is not refused takes years
    let root = tree_params(u32::MAX).root_file_with_progress(&file.0, 2, stop);
    let error = root.unwrap_err();
    assert_eq!(error.kind(), ErrorKind::InvalidInput);
    let said = "the file's length is 288230376151711744, and must be 0 to 288230376151711743";
    assert_eq!(error.to_string(), said);
    opened.set_len((1 << 58) - 1).unwrap();
    // One byte less is hashed, in leaves whose digests would have 64 times as many bytes.
    let root = tree_params(1).root_file_with_progress(&file.0, 2, stop);
    assert_eq!(root.unwrap_err().kind(), ErrorKind::Interrupted);
}

// Bytes that come in pieces of these lengths, where a length of 0 is an interrupted read, and an error at the end if
// there is one.
struct Slow<'a, Lengths>(&'a [u8], Lengths, Option<ErrorKind>);

impl<Lengths: Iterator<Item = usize>> Read for Slow<'_, Lengths> {
    fn read(&mut self, buffer: &mut [u8]) -> io::Result<usize> {
        assert_ne!(buffer.len(), 0);
        match self.1.next().unwrap().min(buffer.len()) {
            0 => Err(ErrorKind::Interrupted.into()),
            _ if self.0.is_empty() && self.2.is_some() => Err(self.2.unwrap().into()),
            length => self.0.read(&mut buffer[..length]),
        }
    }
}

macro_rules! reader_tests {
    ($test:ident, $new:expr) => {
        #[test]
        fn $test() {
            for length in [0, 1, MIB - 1, MIB, MIB + 1, 2 * MIB] {
                let bytes = message_of_length(length);
                let wanted = $new.update(&bytes).finalize();
                for lengths in [&[1 << 30][..], &[4096], &[MIB - 1, 1, 3]] {
                    let read = |error| {
                        let mut hasher = $new;
                        hasher.update(b"");
                        // Over and over, with an interrupted read before each.
                        let lengths = lengths.iter().flat_map(|length| [0, *length]).cycle();
                        let result = hasher.update_reader(Slow(&bytes, lengths, error));
                        let kind = result.err().map(|error| error.kind());
                        assert_eq!(kind, error);
                        (hasher.count(), hasher.finalize())
                    };
                    assert_eq!(read(None), (length as u64, wanted));
                    let broken = Some(ErrorKind::ConnectionReset);
                    assert_eq!(read(broken), (length as u64, wanted));
                }
            }
            let mut hasher = $new;
            hasher.update_reader(&b"ab"[..]).unwrap().update(b"c");
            assert_eq!(hasher.finalize(), $new.update(b"abc").finalize());
        }
    };
}

reader_tests!(readers_of_blake2b, Blake2b::new());
reader_tests!(readers_of_blake2s, Blake2s::new());
reader_tests!(readers_of_blake2b_mac, Blake2bMac::new(b"key").unwrap());
reader_tests!(readers_of_blake2s_mac, Blake2sMac::new(b"key").unwrap());
reader_tests!(readers_of_trees, tree_params(1 << 16).hasher().unwrap());

// What a tree absorbs at a time is a whole buffer, whatever a read returns.
#[test]
fn a_reader_fills_the_buffer() {
    let bytes = message_of_length(2 * MIB);
    let lengths = RefCell::new(Vec::new());
    struct Count<'a>(&'a RefCell<Vec<usize>>, &'a [u8]);
    impl Read for Count<'_> {
        fn read(&mut self, buffer: &mut [u8]) -> io::Result<usize> {
            self.0.borrow_mut().push(buffer.len());
            let room = buffer.len().min(1 << 19);
            self.1.read(&mut buffer[..room])
        }
    }
    Blake2b::new().update_reader(Count(&lengths, &bytes)).unwrap();
    let (whole, half) = (MIB, MIB / 2);
    assert_eq!(*lengths.borrow(), [whole, half, whole, half, whole]);
}
