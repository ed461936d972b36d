//! What both engines share: the lent buffers, and the number that a call of the library returns, which is the reply plus 256
//! times the place.

use crate::{Answer, Record, Refused, Reply};
#[cfg(any(mishantral_write, mishantral_lower_write))]
use crate::{LENGTH, WRITTEN};
use alloc::{boxed::Box, format, string::String, vec, vec::Vec};

/// The reply in a returned number.
pub(crate) fn reply_of(number: u64) -> Reply {
    Reply::from_number(number % 256)
        .unwrap_or_else(|| panic!("a library with other replies is linked: {number}"))
}

/// The reply and the place in a returned number.
pub(crate) fn answered(number: u64) -> Answer {
    let reply = reply_of(number);
    let place = usize::try_from(number / 256).expect("a place is below the input's length");
    Answer { reply, place }
}

/// The result of a load.
pub(crate) fn loaded(number: u64) -> Result<(), Refused> {
    match answered(number) {
        answer if answer.is_granted() => Ok(()),
        Answer { reply, place } => Err(Refused { reply, place }),
    }
}

/// The number of records that a call has written, or its refusal.
#[cfg(any(mishantral_write, mishantral_lower_write, mishantral_mend))]
pub(crate) fn counted(number: u64) -> Result<usize, Reply> {
    match answered(number) {
        answer if answer.is_granted() => Ok(answer.place),
        Answer { reply, .. } => Err(reply),
    }
}

/// All that a call writes, in a buffer that grows until it is large enough: most policies are far smaller than the largest
/// possible one.
#[cfg(any(mishantral_write, mishantral_lower_write))]
pub(crate) fn written(write: impl Fn(&mut [u8]) -> Result<usize, Reply>) -> Result<Vec<u8>, Reply> {
    let mut room = 1 << 10;
    loop {
        let mut output = vec![0; room.min(WRITTEN) * LENGTH];
        match write(&mut output) {
            Ok(records) => {
                output.truncate(records * LENGTH);
                return Ok(output);
            }
            Err(Reply::Room) if room < WRITTEN => room *= 8,
            Err(refused) => return Err(refused),
        }
    }
}

/// The bytes of a policy.
pub(crate) fn bytes(policy: &[Record]) -> Vec<u8> {
    policy.iter().flat_map(|record| record.0).collect()
}

/// The bytes of a slice of records.
#[cfg(mishantral_pile)]
pub(crate) fn flat(records: &[Record]) -> &[u8] {
    let length = core::mem::size_of_val(records);
    // SAFETY: a record is exactly its sixteen bytes (`repr(transparent)`), and any byte is a valid u8.
    unsafe { core::slice::from_raw_parts(records.as_ptr().cast(), length) }
}

/// A buffer of this number of words, all zero.
pub(crate) fn zeroed(words: u64) -> Box<[u64]> {
    let words = usize::try_from(words).expect("a buffer's length fits a usize");
    vec![0; words].into_boxed_slice()
}

/// A buffer in debug output: only its length, because it has thousands of words.
pub(crate) fn shown(buffer: &[u64]) -> String {
    format!("{} words", buffer.len())
}
