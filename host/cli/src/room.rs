//! Room for what the library writes.

use tardorelga::Verdict;

/// What is written into room for the most that there can be, which takes up memory only as far as it is filled.
pub fn filled(
    most: usize,
    write: impl FnOnce(&mut [u8]) -> Result<usize, Verdict>,
) -> Result<Vec<u8>, Verdict> {
    let mut room = vec![0; most];
    let length = write(&mut room)?;
    room.truncate(length);
    Ok(room)
}
