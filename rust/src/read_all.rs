//! Reading to the end.
use std::io::{ErrorKind, Read, Result};
use std::vec;

// The bytes that `read_all` passes on at a time: four leaves of a tree, or more, in most trees.
pub(crate) const BUFFER_BYTES: usize = 1 << 20;

// Passes all bytes of the reader to `absorb`, to the end or the first error: as many as the buffer
// holds, and then those that are left.
pub(crate) fn read_all(
    mut reader: impl Read,
    mut absorb: impl FnMut(&[u8]) -> Result<()>,
) -> Result<()> {
    let mut buffer = vec![0; BUFFER_BYTES];
    loop {
        let mut length = 0;
        let end = loop {
            if length == BUFFER_BYTES {
                break Ok(false);
            }
            match reader.read(&mut buffer[length..]) {
                Ok(0) => break Ok(true),
                Ok(n) => length += n,
                Err(error) if error.kind() == ErrorKind::Interrupted => {}
                Err(error) => break Err(error),
            }
        };
        absorb(&buffer[..length])?;
        if end? {
            return Ok(());
        }
    }
}
