//! Reading what a program is given.

use std::io::{self, Read};

/// The bytes of an input up to the limit and one more, which is enough to see that it is too long.
pub fn read(input: impl Read, limit: usize) -> io::Result<Vec<u8>> {
    let mut bytes = Vec::new();
    input.take(limit as u64 + 1).read_to_end(&mut bytes)?;
    Ok(bytes)
}
