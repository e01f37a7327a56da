//! The root of a file, which several threads read.
use std::fs::File;
use std::io::{Error, ErrorKind, Result};
#[cfg(unix)]
use std::os::unix::fs::FileExt;
#[cfg(windows)]
use std::os::windows::fs::FileExt;
use std::path::Path;
use std::vec::Vec;

use crate::error::check_range;
use crate::library::{self, Blake2bState, Limits, Part, Plan};
use crate::read_all::{read_all, BUFFER_BYTES};
use crate::tree_params::MOST_BYTES;
use crate::{Blake2b, Digest, TreeParams};

// A thread reads longer leaves in pieces.
pub(crate) const MOST_BUFFER_BYTES: u64 = 1 << 24;

// Reads exactly these bytes of the file, from this offset on.
#[cfg(unix)]
fn read_exact_at(file: &File, bytes: &mut [u8], start: u64) -> Result<()> {
    file.read_exact_at(bytes, start)
}
#[cfg(windows)]
fn read_exact_at(file: &File, bytes: &mut [u8], start: u64) -> Result<()> {
    fill(bytes, start, |bytes, start| file.seek_read(bytes, start))
}

// Fills these bytes by a function that reads some of them, from an offset on. A read that was
// interrupted is repeated.
#[cfg(any(windows, test))]
pub(crate) fn fill(
    mut bytes: &mut [u8],
    mut start: u64,
    mut read: impl FnMut(&mut [u8], u64) -> Result<usize>,
) -> Result<()> {
    while !bytes.is_empty() {
        match read(bytes, start) {
            Ok(0) => return Err(ErrorKind::UnexpectedEof.into()),
            Ok(count) => {
                bytes = &mut bytes[count..];
                start += count as u64;
            }
            Err(error) if error.kind() == ErrorKind::Interrupted => {}
            Err(error) => return Err(error),
        }
    }
    Ok(())
}

impl TreeParams<'_> {
    /// Returns the root of a file: [`root`](Self::root) of its bytes, which are never all in
    /// memory.
    ///
    /// A regular file of at least 512 KiB is read and hashed by `threads` threads, as in
    /// [`root_threads`](Self::root_threads). Its length is the one that it had when the call began:
    /// bytes that are appended meanwhile are not hashed. Any other file, such as a pipe, a device
    /// or a file of `/proc`, is read to its end by the caller's thread. Each thread has a buffer of
    /// at most 16 MiB, and at most 2 MiB for digests, however long the file is.
    ///
    /// ```
    /// use vulfsjor::TreeParams;
    ///
    /// let root = TreeParams::new(1 << 16).root_file("Cargo.toml", 0)?;
    /// assert_eq!(root, TreeParams::new(1 << 16).root(std::fs::read("Cargo.toml")?)?);
    /// # Ok::<(), std::io::Error>(())
    /// ```
    ///
    /// # Errors
    ///
    /// - An error of the kind `InvalidInput` that holds an
    ///   [`InvalidArgument`](crate::InvalidArgument), if
    ///   [`root`](Self::root) returns that or the file has 2^58 bytes or more.
    /// - `UnexpectedEof` if the file became shorter meanwhile.
    /// - `OutOfMemory` if there is no memory for the digests of the leaves.
    /// - Any error of opening and reading the file. A directory is an error.
    pub fn root_file(&self, path: impl AsRef<Path>, threads: usize) -> Result<Digest> {
        self.root_file_with_progress(path, threads, |_| Ok(()))
    }

    /// Returns the root of a file as [`root_file`](Self::root_file) does, and reports how far it
    /// is.
    ///
    /// `progress` is called from the caller's thread with the number of bytes that were hashed so
    /// far, about once for each MiB that this thread hashes. The last call has the length of the
    /// file.
    ///
    /// ```
    /// use vulfsjor::TreeParams;
    ///
    /// let mut hashed = 0;
    /// TreeParams::new(1 << 16).root_file_with_progress("Cargo.toml", 0, |bytes| {
    ///     hashed = bytes;
    ///     Ok(())
    /// })?;
    /// assert_eq!(hashed, std::fs::metadata("Cargo.toml")?.len());
    /// # Ok::<(), std::io::Error>(())
    /// ```
    ///
    /// # Errors
    ///
    /// As [`root_file`](Self::root_file). If `progress` returns an error, or panics, the threads
    /// stop, and the call returns that error, or panics.
    pub fn root_file_with_progress(
        &self,
        path: impl AsRef<Path>,
        threads: usize,
        mut progress: impl FnMut(u64) -> Result<()>,
    ) -> Result<Digest> {
        let mut hasher = self.hasher()?;
        let file = File::open(path)?;
        let about = file.metadata()?;
        if about.is_file() {
            check_range("the file's length", about.len(), 0, MOST_BYTES)?;
            let limits = Limits::of(threads, MOST_BUFFER_BYTES);
            let plan = Plan::of_message(about.len(), self.leaf_length, &limits)
                .expect("a message of fewer than 2^58 bytes");
            if plan.threads > 1 {
                return self.root_of_file(&file, &plan, progress);
            }
        }
        read_all(file, |bytes| {
            hasher.update(bytes);
            progress(hasher.count())
        })?;
        Ok(hasher.finalize())
    }

    // The same of an open file, from its beginning, by the threads of its plan.
    fn root_of_file(
        &self,
        file: &File,
        plan: &Plan,
        progress: impl FnMut(u64) -> Result<()>,
    ) -> Result<Digest> {
        let mut room = Vec::new();
        room.try_reserve_exact(plan.room())
            .map_err(|_| Error::from(ErrorKind::OutOfMemory))?;
        room.resize(plan.room(), 0);
        let hash = |part: &Part, out: &mut [u8], buffer: &mut Vec<u8>| {
            self.hash_part(file, part, out, buffer)
        };
        let mut root = self.root_hasher();
        let absorb = |digests: &[u8]| {
            root.update(digests);
        };
        plan.hash(&mut room, hash, absorb, progress)?;
        Ok(root.finalize())
    }

    // Writes the digests of the leaves of a part, which is one leaf if it is longer than a buffer.
    pub(crate) fn hash_part(
        &self,
        file: &File,
        part: &Part,
        out: &mut [u8],
        buffer: &mut Vec<u8>,
    ) -> Result<()> {
        if part.length > MOST_BUFFER_BYTES {
            return self.hash_long_leaf(file, part, out, buffer);
        }
        buffer.resize(part.length as usize, 0);
        read_exact_at(file, buffer, part.start)?;
        Ok(self.hash_leaves(part, buffer, out)?)
    }

    // Writes the digest of a leaf that is longer than a buffer.
    fn hash_long_leaf(
        &self,
        file: &File,
        part: &Part,
        out: &mut [u8],
        buffer: &mut Vec<u8>,
    ) -> Result<()> {
        let mut hasher = self.leaf_hasher(part.first, part.ends != 0);
        let end = part.start + part.length;
        for start in (part.start..end).step_by(BUFFER_BYTES) {
            buffer.resize((end - start).min(BUFFER_BYTES as u64) as usize, 0);
            read_exact_at(file, buffer, start)?;
            hasher.update(&buffer);
        }
        out.copy_from_slice(hasher.finalize().as_bytes());
        Ok(())
    }

    // A hasher of leaf i, which is the message's last or not.
    fn leaf_hasher(&self, i: u64, last: bool) -> Blake2b {
        let mut hasher = Blake2b {
            state: Blake2bState::ZEROS,
        };
        // Safety: the pointers come from slices of these lengths, and none is null. The state
        // overlaps none of them.
        let status = unsafe {
            library::tree_init_leaf(
                &mut hasher.state,
                i,
                u32::from(last),
                self.salt.as_ptr(),
                self.salt.len(),
                self.persona.as_ptr(),
                self.persona.len(),
                self.leaf_length,
            )
        };
        assert_eq!(status, 0, "parameters that a tree accepts");
        hasher
    }
}
