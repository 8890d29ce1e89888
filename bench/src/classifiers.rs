//! Classifiers in Rust that the proved one is timed beside. They take every branch as taken. Those of
//! `SWITCHED_ON` know table jumps and pop-returns, the others don't.

mod before;
mod by_halves;
mod by_key;
mod by_masks;
mod by_match;
mod by_parts;
mod classes;
#[cfg(test)]
mod tests;

/// Puts the type of each word into the other slice, as many as both hold, and answers how many.
pub type ClassifyAll = fn(&[u32], &mut [u8]) -> usize;

#[derive(Clone, Copy)]
pub struct Classifier {
    pub name: &'static str,
    pub classify_all: ClassifyAll,
}

const fn classifier(name: &'static str, classify_all: ClassifyAll) -> Classifier {
    Classifier { name, classify_all }
}

/// The proved decision as it was before request 5.
pub const BEFORE: Classifier = classifier("before", before::classify_all);

/// Written for speed, with no table larger than 4 KB.
pub const SMALL: [Classifier; 4] = [
    classifier("match", by_match::classify_all),
    classifier("masks", by_masks::classify_all),
    classifier("key", by_key::classify_all),
    classifier("parts", by_parts::classify_all),
];

/// Written for speed, with a table of 64 KB.
pub const LARGE: Classifier = classifier("halves", by_halves::classify_all);

/// Written for speed, each with a table jump or a pop-return as a transfer.
pub const SWITCHED_ON: [Classifier; 3] = [
    classifier("match", by_match::classify_all_switched),
    classifier("parts", by_parts::classify_all_switched),
    classifier("halves", by_halves::classify_all_switched),
];

/// Sorts one word after the other.
#[inline(always)]
fn one_by_one(words: &[u32], types: &mut [u8], type_of: impl Fn(u32) -> u8) -> usize {
    for (&word, place) in words.iter().zip(&mut *types) {
        *place = type_of(word);
    }
    words.len().min(types.len())
}

/// Sorts eight words a turn, which the compiler makes one stretch of code without a loop.
#[inline(always)]
fn by_eights(words: &[u32], types: &mut [u8], type_of: impl Fn(u32) -> u8) -> usize {
    let count = words.len().min(types.len());
    let (blocks, last_words) = words[..count].as_chunks::<8>();
    let (places, last_places) = types[..count].as_chunks_mut::<8>();
    for (block, places) in blocks.iter().zip(places) {
        one_by_one(block, places, &type_of);
    }
    one_by_one(last_words, last_places, type_of);
    count
}
