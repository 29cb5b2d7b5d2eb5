//! The proved `check`, as the library exports it.

unsafe extern "C" {
    fn wurgelzit_check(text: *const u8, text_len: usize, out: *mut u8, out_len: usize) -> usize;
}

/// How many bytes of `out` are the answer to `text`; none where the answer does not fit.
pub fn check(text: &[u8], out: &mut [u8]) -> Option<usize> {
    // SAFETY: both pointers are those of slices with these lengths, and the call keeps neither.
    let told = unsafe { wurgelzit_check(text.as_ptr(), text.len(), out.as_mut_ptr(), out.len()) };
    (told != usize::MAX).then_some(told)
}
