//! Listing code.

use crate::constants::{answer, CODE_WORDS, LINE};
use crate::ffi;
use crate::refusal::Refusal;

/// Lists code: a line of text for each instruction, such as `store $2[$0] $1`. A line that some jump names starts with its
/// label, as `L7: `, and each line ends with a newline.
///
/// # Errors
///
/// Refusals 13 and 21.
pub fn listing(code: &[i32]) -> Result<String, Refusal> {
    let mut text = vec![0; LINE * (code.len().min(CODE_WORDS) / 4)];
    let bytes = listing_into(code, &mut text)?;
    text.truncate(bytes);
    Ok(String::from_utf8_lossy(&text).into_owned()) // a listing is ASCII: nothing is lost
}

/// Lists code into a buffer, and gives the bytes that its listing takes there; those beyond stay as they are.
///
/// [`LINE`] bytes for each instruction are enough.
///
/// # Errors
///
/// Refusals 13, 21 and 22.
pub fn listing_into(code: &[i32], text: &mut [u8]) -> Result<usize, Refusal> {
    let mut answer = [0; answer::WORDS];
    // SAFETY: each pointer comes with the length of its slice, and nothing overlaps what is lent to be written.
    let number = unsafe {
        ffi::sauskinna_listing(
            code.as_ptr(),
            code.len(),
            text.as_mut_ptr(),
            text.len(),
            &mut answer,
        )
    };
    Refusal::unless_accepted(number, answer[answer::VALUE])?;
    Ok(answer[answer::BYTES] as usize)
}
