//! Holds the proved classifier to the model on every one of the 2^32 words, with the switch off and on: in
//! long runs, which go by a table, and one by one, taken and not; and the lengths.

use bench::{classify, classify_all, length};
use model::classifier;
use model::classifier::transfer_type;

const BLOCK: usize = 1 << 20;

fn main() {
    let mut words = vec![0; BLOCK];
    let mut types = vec![0; BLOCK];
    for block in 0..1 << 12 {
        for (low, word) in words.iter_mut().enumerate() {
            *word = block << 20 | low as u32;
        }
        for zc in [false, true] {
            classify_all(&words, zc, &mut types);
            for (&word, &kind) in words.iter().zip(&types) {
                check(word, zc, kind);
            }
        }
        for &word in &words {
            let expected = classifier::length(word);
            assert_eq!(length(word), expected, "the length of {word:#010x}");
        }
    }
    println!(
        "every word: 4294967296 of 4294967296 agree with the model, switch off and on, in runs and one by one"
    );
}

/// Panics if the type that the word has in a run, or one that it is given by itself, is not the model's.
fn check(word: u32, zc: bool, kind: u8) {
    let expected = transfer_type(word, true, zc);
    assert_eq!(kind, expected, "the type of {word:#010x} in a run, {zc}");
    for taken in [true, false] {
        let expected = transfer_type(word, taken, zc);
        let given = classify(word, taken, zc);
        assert_eq!(given, expected, "the type of {word:#010x}, {zc}");
    }
}
