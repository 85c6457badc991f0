//! The proved check, through C.

extern "C" {
    fn nostrimel_check(words: *const u32, count: usize) -> u32;
}

/// What the proved check answers: 1 if the words begin with the encoding of a legal state, else 0.
///
/// It only reads. The words are lent for writing all the same: whoever compares them afterwards
/// must see it if the check wrote, and of words lent for reading the compiler may take it that
/// nobody does.
#[inline]
pub fn check(words: &mut [u32]) -> u32 {
    // SAFETY: pointer and count are those of one slice, which nothing else reaches meanwhile.
    unsafe { nostrimel_check(words.as_mut_ptr(), words.len()) }
}
