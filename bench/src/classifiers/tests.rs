//! Holds every classifier to the model.

use super::{Classifier, BEFORE, LARGE, SMALL, SWITCHED_ON};
use model::classifier::transfer_type;
use model::digest::{xorshift64, SEED};

/// Every word by its low 20 bits, which decide, with the other 12 drawn at random.
fn words() -> Vec<u32> {
    let mut state = SEED;
    let mut random = || {
        state = xorshift64(state);
        (state >> 32) as u32
    };
    (0..1 << 20).map(|low| random() << 20 | low).collect()
}

/// Each with the switch that it goes by.
fn classifiers() -> impl Iterator<Item = (Classifier, bool)> {
    let off = [BEFORE, LARGE].into_iter().chain(SMALL);
    off.map(|classifier| (classifier, false))
        .chain(SWITCHED_ON.map(|classifier| (classifier, true)))
}

#[test]
fn types_are_the_models() {
    let words = words();
    let mut types = vec![0; words.len()];
    for (classifier, zc) in classifiers() {
        types.fill(u8::MAX);
        let count = (classifier.classify_all)(&words, &mut types);
        assert_eq!(count, words.len(), "{}", classifier.name);
        for (&word, &number) in words.iter().zip(&types) {
            let expected = transfer_type(word, true, zc);
            assert_eq!(number, expected, "{}: {word:#010x}", classifier.name);
        }
    }
}

/// Lengths that are no multiple of a block's, and one slice longer than the other.
#[test]
fn as_many_as_both_slices_hold() {
    let words: Vec<u32> = words().into_iter().step_by(5003).take(200).collect();
    for (classifier, zc) in classifiers() {
        let expected: Vec<u8> = words
            .iter()
            .map(|&word| transfer_type(word, true, zc))
            .collect();
        for count in 0..words.len() {
            for (word_count, type_count) in [(count, 200), (200, count)] {
                let mut types = vec![u8::MAX; type_count];
                let answer = (classifier.classify_all)(&words[..word_count], &mut types);
                let (filled, rest) = types.split_at(count);
                assert_eq!(answer, count, "{}", classifier.name);
                assert_eq!(filled, &expected[..count], "{}", classifier.name);
                assert!(rest.iter().all(|&t| t == u8::MAX), "{}", classifier.name);
            }
        }
    }
}
