//! The expected output of the programs below crates/, the input they are fed with, and setups for
//! the traces of examples/.

mod access_sweep;
mod dump_sweep;
mod random;
mod recorder_sweep;
mod replay_sweep;
mod step_bench;
mod trace_sweep;
mod traces;

use std::fs;
use std::iter::successors;
use std::path::{Path, PathBuf};

pub use self::access_sweep::access_sweep;
pub use self::dump_sweep::{dump_sweep, dump_sweep_input};
pub use self::recorder_sweep::{random_events, recorder_sweep};
pub use self::replay_sweep::{replay_sweep, replay_sweep_input};
pub use self::step_bench::{step_bench, step_bench_input};
pub use self::trace_sweep::trace_sweep;
use self::traces::{check_dump_files, replay_files, setup_files};
use crate::classifier::{length, transfer_type};
use crate::classify::classify;
use crate::digest::{extended, xorshift64, SEED};
use crate::encode::{branch, c_jalr, c_jr, jal, jalr};

/// The stored files: path from the repository's root, and contents.
pub fn files() -> Vec<(&'static str, Vec<u8>)> {
    let input = classify_input();
    let output = classify(&[], &input).stdout;
    let mut files = vec![
        ("crates/classify/stdin", input),
        ("crates/classify/stdout", output),
        (
            "crates/classifier_sweep/stdout",
            classifier_sweep().into_bytes(),
        ),
        ("crates/access_sweep/stdout", access_sweep().into_bytes()),
        ("crates/dump_sweep/stdin", dump_sweep_input()),
        ("crates/dump_sweep/stdout", dump_sweep().into_bytes()),
        ("crates/trace_sweep/stdout", trace_sweep().into_bytes()),
        (
            "crates/recorder_sweep/stdout",
            recorder_sweep().into_bytes(),
        ),
        ("crates/replay_sweep/stdin", replay_sweep_input()),
        ("crates/replay_sweep/stdout", replay_sweep().into_bytes()),
        ("crates/step_bench/stdin", step_bench_input()),
        ("crates/step_bench/stdout", step_bench().into_bytes()),
    ];
    files.extend(setup_files());
    files.extend(replay_files());
    files.extend(check_dump_files());
    files
}

/// The folder that the paths of `files` start from.
pub fn root() -> PathBuf {
    Path::new(env!("CARGO_MANIFEST_DIR")).join("..")
}

/// Writes all files below `root`, into folders that must be there already.
pub fn write_files(root: &Path) -> Result<(), String> {
    for (path, contents) in files() {
        let (folder, _) = path.rsplit_once('/').expect("a path with a folder");
        if !root.join(folder).is_dir() {
            return Err(format!("the folder {folder} is missing"));
        }
        fs::write(root.join(path), contents).map_err(|error| format!("{path}: {error}"))?;
    }
    Ok(())
}

/// The bytes that `classify` is fed with: many words, and three bytes of a further one.
pub fn classify_input() -> Vec<u8> {
    sample_words()
        .into_iter()
        .cycle()
        .take(16_400)
        .flat_map(u32::to_le_bytes)
        .chain([0x6f, 0x00, 0x00])
        .collect()
}

/// The published words (docs/RULES.md, T14).
const PUBLISHED_WORDS: [u32; 11] = [
    0x000000ef, 0x00008067, 0x000280e7, 0x00009282, 0x00009082, 0x00008082, 0x00030067, 0x00038367,
    0x0000036f, 0x00008367, 0x00009002,
];

/// x0, both link registers, their neighbours and the last one.
const REGISTERS: [u32; 7] = [0, 1, 2, 4, 5, 6, 31];

/// C.J, C.BEQZ and C.BNEZ with offset 0 and with all other bits set.
const COMPRESSED_OFFSET_JUMPS: [u32; 6] = [0xa001, 0xbffd, 0xc001, 0xdffd, 0xe001, 0xfffd];

/// C.J below upper halves that look like the start of JAL, like C.JR x1, and with the top bit set.
const UPPER_HALVES: [u32; 4] = [0x006fa001, 0x8082a001, 0x8000a001, 0xffffa001];

/// No transfers: C.JR x0, C.MV, C.ADD, the code of C.JAL on RV32, C.NOP, all zeros, all ones,
/// NOP, AUIPC, LUI, ECALL, EBREAK, SRET, MRET, WFI; and with the switch off CM.JT, CM.JALT and CM.POPRET.
const OTHER_WORDS: [u32; 18] = [
    0x00008002, 0x00008086, 0x00009086, 0x00002001, 0x00000001, 0x00000000, 0xffffffff, 0x00000013,
    0x00000097, 0x000000b7, 0x00000073, 0x00100073, 0x10200073, 0x30200073, 0x10500073, 0x0000a002,
    0x0000a082, 0x0000be42,
];

/// Distinct words of every type and of none.
fn sample_words() -> Vec<u32> {
    let mut words = PUBLISHED_WORDS.to_vec();
    for rd in REGISTERS {
        words.extend(REGISTERS.map(|rs1| jalr(0x7ff0_0000, rs1, 0, rd)));
        words.extend([jal(0x8000_0000, rd), jal(0x7fff_f000, rd)]);
    }
    for rs1 in REGISTERS {
        words.extend([c_jr(0x5a5a_0000, rs1), c_jalr(0xa5a5_0000, rs1)]);
    }
    for funct3 in 0..8 {
        words.extend([jalr(0x0040_0000, 5, funct3, 1), branch(0, funct3, 8)]);
    }
    words.extend(COMPRESSED_OFFSET_JUMPS);
    words.extend(UPPER_HALVES);
    words.extend(OTHER_WORDS);
    words
}

/// What `classifier_sweep` prints: a block of lines for each group of words, with the switch off and then
/// with it on.
pub fn classifier_sweep() -> String {
    [false, true].map(blocks).concat()
}

fn blocks(zc: bool) -> String {
    let mut text = String::new();
    for upper in [0x0000, 0xffff, 0x0002, 0xa5a8] {
        let words = (0..=0xffff).map(|low| upper << 16 | low);
        text += &block(&format!("low halves under 0x{upper:04x}"), zc, words);
    }
    text += &block("low halves in runs", zc, 0..=0xffff);
    let jalr_words = under_each_pattern(8192, |p, i| jalr(p, i / 32 % 32, i / 1024, i % 32));
    let jal_words = under_each_pattern(32, jal);
    let branch_words = under_each_pattern(256, |p, i| branch(p, i / 32, i % 32));
    text += &block("jalr", zc, jalr_words);
    text += &block("jal", zc, jal_words);
    text += &block("branch", zc, branch_words);
    text += &block("random", zc, random_words().take(100_000));
    text
}

/// For each of some patterns in the bits that don't decide, the words of the indices below `count`.
fn under_each_pattern(count: u32, word: fn(u32, u32) -> u32) -> impl Iterator<Item = u32> {
    const PATTERNS: [u32; 6] = [
        0x00000000, 0xffffffff, 0x5a5a5a5a, 0xa5a5a5a5, 0x12345678, 0x87654321,
    ];
    PATTERNS
        .into_iter()
        .flat_map(move |pattern| (0..count).map(move |index| word(pattern, index)))
}

/// The low halves of the pseudo-random numbers after the seed.
fn random_words() -> impl Iterator<Item = u32> {
    successors(Some(SEED), |x| Some(xorshift64(*x)))
        .skip(1)
        .map(|x| x as u32)
}

/// The types that words have, a branch as taken.
const WORD_TYPES: [u8; 10] = [0, 5, 8, 9, 10, 11, 12, 13, 14, 15];

/// How many words of each type and of each length there are, branches as taken, and the digest of words,
/// types and lengths.
fn block(title: &str, zc: bool, words: impl Iterator<Item = u32>) -> String {
    let mut counts = [0; 16];
    let mut lengths = [0; 5];
    let mut sum = 0;
    for word in words {
        let (number, length) = (transfer_type(word, true, zc), length(word));
        counts[usize::from(number)] += 1;
        lengths[usize::from(length)] += 1;
        sum = extended(sum, [word.into(), number.into(), length.into()]);
    }
    let total: u32 = counts.iter().sum();
    let switch = if zc { "on" } else { "off" };
    let mut text = format!("{title}, switch {switch}\n  words {total}\n");
    for number in WORD_TYPES {
        text += &format!("  type {number} {}\n", counts[usize::from(number)]);
    }
    for length in [2, 4] {
        text += &format!("  length {length} {}\n", lengths[length]);
    }
    text + &format!("  digest 0x{sum:016x}\n")
}

#[cfg(test)]
mod tests {
    use super::*;
    use std::collections::HashSet;

    #[test]
    fn sample_words_are_distinct_and_of_every_type() {
        let words = sample_words();
        let distinct: HashSet<u32> = words.iter().copied().collect();
        assert!(words.len() >= 60);
        assert_eq!(distinct.len(), words.len());
        let types: HashSet<u8> = words
            .iter()
            .map(|word| transfer_type(*word, true, false))
            .collect();
        assert_eq!(types, HashSet::from(WORD_TYPES));
    }

    #[test]
    fn classify_input_ends_within_a_word() {
        let input = classify_input();
        assert_eq!(input.len(), 16_400 * 4 + 3);
        assert_eq!(input[..4], 0x000000ef_u32.to_le_bytes());
        assert_eq!(input[input.len() - 3..], [0x6f, 0, 0]);
    }

    /// The counts under one pattern are reckoned from the kinds of register: x0, two link registers
    /// and 29 others. The types are those of `WORD_TYPES`, in that order.
    #[test]
    fn sweep_counts_jalr_jal_and_branch_words() {
        let sweep = classifier_sweep();
        let (reserved, call, other) = (7 * 32 * 32, 2 * 32 - 2, 29 * 30);
        let jalr_counts = [reserved, 0, call, 0, 30, 0, 2, 30 * 2, other, 0];
        assert_eq!(
            counts_of(&sweep, "jalr, switch on"),
            jalr_counts.map(|count| 6 * count)
        );
        let jal_counts = [0, 0, 0, 2, 0, 1, 0, 0, 0, 29];
        assert_eq!(
            counts_of(&sweep, "jal, switch on"),
            jal_counts.map(|count| 6 * count)
        );
        let branch_counts = [2 * 32, 6 * 32, 0, 0, 0, 0, 0, 0, 0, 0];
        assert_eq!(
            counts_of(&sweep, "branch, switch on"),
            branch_counts.map(|count| 6 * count)
        );
    }

    /// 32, 224 and 2 times 48 of C.FSDSP's 2,048 codes have a type with the switch on, and lengths go by
    /// the two low bits.
    #[test]
    fn sweep_counts_what_the_switch_adds() {
        let sweep = classifier_sweep();
        let off = counts_of(&sweep, "low halves in runs, switch off");
        let on = counts_of(&sweep, "low halves in runs, switch on");
        let added: Vec<i64> = on.iter().zip(&off).map(|(on, off)| on - off).collect();
        assert_eq!(added, [-352, 0, 0, 224, 0, 32, 0, 96, 0, 0]);
        for title in ["switch off", "switch on"] {
            let lengths = "\n  length 2 49152\n  length 4 16384\n";
            let block = sweep.split_once(&format!("low halves in runs, {title}\n"));
            assert!(block.expect("the block").1.contains(lengths));
        }
    }

    /// The counts in the lines "  type T COUNT" of one block.
    fn counts_of(sweep: &str, title: &str) -> Vec<i64> {
        sweep
            .lines()
            .skip_while(|line| *line != title)
            .filter_map(|line| line.strip_prefix("  type "))
            .take(WORD_TYPES.len())
            .map(|line| line.split_once(' ').expect("a type and a count").1)
            .map(|count| count.parse().expect("a number"))
            .collect()
    }
}
