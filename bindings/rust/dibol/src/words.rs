//! The library's words for a number: of a stop, or of a fence rule.

/// A function of the library that writes as many bytes of a number's words as fit, and gives their
/// whole length.
type Writes = unsafe extern "C" fn(u64, *mut u8, usize) -> u64;

/// The words of a number; none for one that has no words.
pub(crate) fn of(number: u64, writes: Writes) -> String {
    let mut text = vec![0; into(&mut [], number, writes)];
    into(&mut text, number, writes);
    String::from_utf8_lossy(&text).into_owned()
}

/// Writes as much of the words as fits, and gives their whole length.
fn into(text: &mut [u8], number: u64, writes: Writes) -> usize {
    // SAFETY: the pointer is that of a slice, lent for its length.
    let length = unsafe { writes(number, text.as_mut_ptr(), text.len()) };
    length as usize
}
