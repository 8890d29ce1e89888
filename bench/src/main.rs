//! Times the proved classifier beside classifiers in Rust, on the same words, in one run.

use bench::classifiers::{Classifier, BEFORE, LARGE, SMALL, SWITCHED_ON};
use bench::classify_all;
use model::classifier::transfer_type;
use model::digest::{xorshift64, SEED};
use std::hint::black_box;
use std::time::Instant;

const WORDS: usize = 1_000_000;
const ROUNDS: usize = 20;

/// A 32-bit control transfer: JALR, JAL or a branch, with link registers as often as others.
fn control_transfer(choice: u32, bits: u32) -> u32 {
    let register = |shift: u32| [0, 1, 5, 6][(bits >> shift & 3) as usize];
    match choice {
        0 => bits & 0xfff0_0000 | register(0) << 15 | register(2) << 7 | 0x67,
        1 => bits & 0xffff_f000 | register(0) << 7 | 0x6f,
        _ => bits & 0xffff_8f80 | [0, 1, 4, 5, 6, 7][(bits % 6) as usize] << 12 | 0x63,
    }
}

/// A third 16-bit words, a third 32-bit control transfers, a third other 32-bit words, in random order.
fn mixed_words() -> Vec<u32> {
    let mut state = SEED;
    let mut next = || {
        state = xorshift64(state);
        (state >> 32) as u32
    };
    let mut mixed = || {
        let (kind, choice, bits) = (next() % 3, next() % 3, next());
        match kind {
            0 => bits & !0x3 | choice,
            1 => control_transfer(choice, bits),
            _ => bits & !0x7f | [0x13, 0x33, 0x03][choice as usize],
        }
    };
    (0..WORDS).map(|_| mixed()).collect()
}

/// Panics if one of the answers is not the model's.
fn check(classifier: &Classifier, zc: bool, words: &[u32], types: &mut [u8]) {
    let name = classifier.name;
    types.fill(u8::MAX);
    let count = (classifier.classify_all)(words, types);
    assert_eq!(count, words.len(), "{name}: how many words are sorted");
    for (&word, &number) in words.iter().zip(types.iter()) {
        let expected = transfer_type(word, true, zc);
        assert_eq!(number, expected, "{name}: the type of {word:#010x}");
    }
}

/// The time of one round, in ns a word.
fn time(classifier: &Classifier, words: &[u32], types: &mut [u8]) -> f64 {
    let start = Instant::now();
    black_box((classifier.classify_all)(
        black_box(words),
        black_box(types),
    ));
    start.elapsed().as_secs_f64() * 1e9 / words.len() as f64
}

/// The least time of each in several rounds, in which they take turns.
fn best(classifiers: &[Classifier], words: &[u32], types: &mut [u8]) -> Vec<f64> {
    let mut least = vec![f64::INFINITY; classifiers.len()];
    for _ in 0..ROUNDS {
        for (classifier, least) in classifiers.iter().zip(&mut least) {
            *least = least.min(time(classifier, words, types));
        }
    }
    least
}

fn main() {
    let words = mixed_words();
    let mut types = vec![0; WORDS];
    let mut classifiers = vec![OURS, BEFORE];
    classifiers.extend(SMALL);
    classifiers.push(LARGE);
    classifiers.push(OURS_SWITCHED_ON);
    classifiers.extend(SWITCHED_ON);
    let switched = classifiers.len() - SWITCHED_ON.len() - 1;
    for (index, classifier) in classifiers.iter().enumerate() {
        check(classifier, index >= switched, &words, &mut types);
    }
    let times = best(&classifiers, &words, &mut types);
    let (off, on) = times.split_at(switched);
    report(off[0], off[1], &off[2..]);
    report_switched_on(on[0], off[0], &on[1..]);
}

const OURS: Classifier = Classifier {
    name: "ours",
    classify_all: |words, types| classify_all(words, false, types),
};

const OURS_SWITCHED_ON: Classifier = Classifier {
    name: "ours, switch on",
    classify_all: |words, types| classify_all(words, true, types),
};

/// `rust` has the times of `SWITCHED_ON`.
fn report_switched_on(ours: f64, off: f64, rust: &[f64]) {
    let ratio = ours / off;
    println!("classifier, switch on: ours {ours:.2} ns a word, {ratio:.2} of its time with the switch off");
    for (Classifier { name, .. }, ns) in SWITCHED_ON.iter().zip(rust) {
        let ratio = ours / ns;
        println!("classifier, switch on, rust {name}: {ns:.2} ns, ours {ratio:.2} of it");
    }
}

/// `rust` has the times of `SMALL`, then that of `LARGE`.
fn report(ours: f64, before: f64, rust: &[f64]) {
    let faster = before / ours;
    println!(
        "classifier: ours {ours:.2} ns a word, before, in Rust, {before:.2} ns: {faster:.1} times as fast"
    );
    for (Classifier { name, .. }, ns) in SMALL.iter().chain([&LARGE]).zip(rust) {
        let ratio = ours / ns;
        println!("classifier, rust {name}: {ns:.2} ns, ours {ratio:.2} of it");
    }
    let (Classifier { name, .. }, ns) = SMALL
        .iter()
        .zip(rust)
        .min_by(|a, b| a.1.total_cmp(b.1))
        .expect("there are some");
    let ratio = ours / ns;
    println!(
        "classifier: ours {ratio:.2} of the best in Rust with no table larger than 4 KB ({name}, {ns:.2} ns)"
    );
}
