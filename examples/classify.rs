//! Types and lengths of a few words, one at a time and all at once.

mod ffi {
    extern "C" {
        pub fn ctr_classify(word: u32, taken: bool, zc: bool) -> u8;
        pub fn ctr_length(word: u32) -> u8;
        pub fn ctr_classify_all(
            words: *const u32,
            word_count: usize,
            zc: bool,
            types: *mut u8,
            type_count: usize,
        ) -> usize;
    }
}

fn classify(word: u32, taken: bool, zc: bool) -> u8 {
    // SAFETY: the function takes every word.
    unsafe { ffi::ctr_classify(word, taken, zc) }
}

fn length(word: u32) -> u8 {
    // SAFETY: the function takes every word.
    unsafe { ffi::ctr_length(word) }
}

fn classify_all(words: &[u32], zc: bool, types: &mut [u8]) -> usize {
    let (word_count, type_count) = (words.len(), types.len());
    // SAFETY: both slices are valid for their lengths, and `types` is borrowed by nobody else.
    unsafe {
        ffi::ctr_classify_all(
            words.as_ptr(),
            word_count,
            zc,
            types.as_mut_ptr(),
            type_count,
        )
    }
}

fn main() {
    let words = [
        0x0000_00ef,
        0x0000_8067,
        0x0002_80e7,
        0x0000_0063,
        0x0000_0013,
        0x0000_a082,
    ];
    let mut types = [0; 6];
    let done = classify_all(&words, false, &mut types);
    for (word, kind) in words.iter().zip(&types).take(done) {
        let length = length(*word);
        println!("{word:#010x} is of type {kind} and has {length} bytes");
    }
    println!(
        "a branch not taken is of type {}",
        classify(0x0000_0063, false, false)
    );
    println!(
        "with Zcmt 0x0000a082, CM.JALT, is of type {}",
        classify(0x0000_a082, false, true)
    );
}
