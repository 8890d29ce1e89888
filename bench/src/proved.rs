//! The proved code's functions, as safe Rust.

mod ffi {
    // Not bundled, so that programs that don't call it can be built without the archive.
    #[link(name = "classifier", kind = "static", modifiers = "-bundle")]
    extern "C" {
        pub fn ctr_classify(word: u32, taken: bool, zc: bool) -> u8;

        pub fn ctr_length(word: u32) -> u8;

        pub fn ctr_classify_all(
            words: *const u32,
            word_count: usize,
            zc: bool,
            types: *mut u8,
            type_count: usize,
        ) -> usize;
    }
}

/// The type of a word; of a branch, `taken` says whether it is 5 or 4.
pub fn classify(word: u32, taken: bool, zc: bool) -> u8 {
    // SAFETY: it takes and answers numbers only.
    unsafe { ffi::ctr_classify(word, taken, zc) }
}

/// The length of a word's instruction in bytes.
pub fn length(word: u32) -> u8 {
    // SAFETY: it takes and answers numbers only.
    unsafe { ffi::ctr_length(word) }
}

/// The type of each word, a branch as taken, for as many as both slices hold.
pub fn classify_all(words: &[u32], zc: bool, types: &mut [u8]) -> usize {
    let (word_count, type_count) = (words.len(), types.len());
    // SAFETY: both slices are valid for their lengths, and `types` is borrowed by nobody else.
    unsafe {
        ffi::ctr_classify_all(
            words.as_ptr(),
            word_count,
            zc,
            types.as_mut_ptr(),
            type_count,
        )
    }
}
