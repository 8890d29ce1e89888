//! The expected output of `dump_sweep`, and the specimens that it is fed with: words of every kind, each
//! with its type and the way that it goes.

use crate::digest::extended;
use crate::dump::{check, Checked};
use crate::encode::{branch_by, c_branch_by, c_j_by, c_jalr, c_jr, jal_by, jalr};

/// How many specimens there are.
const SPECIMENS: usize = 136;

/// The bytes of an image.
const SIZE: usize = 16;

/// What the counts of a line are of.
const HEAD: &str = "group accepted outside cut-off type target 6 11\n";

/// The numbers of the answers, in the order of their counts.
const NUMBERS: [u64; 7] = [0, 1, 2, 3, 4, 6, 11];

/// Bits above a 16-bit instruction, which have no influence.
const UPPER: u32 = 0xA5A7_0000;

/// Names of the groups, and how many cases each has.
const GROUPS: [(&str, u64); 9] = [
    ("good", 1),
    ("types", 48),
    ("source-bits", 64),
    ("target-bits", 64),
    ("data-bits", 60),
    ("images-cut", 5),
    ("bases", 16),
    ("lengths", 8),
    ("pairs", 16),
];

/// An instruction word, its type, and how far its target is from it.
#[derive(Clone, Copy)]
struct Specimen {
    word: u32,
    kind: u64,
    way: i64,
}

fn specimen(word: u32, kind: u64, way: i64) -> Specimen {
    Specimen { word, kind, way }
}

/// Each bit of an offset by itself, its sign too, all bits but the sign, all bits, and a mixed pattern;
/// `sign` is the place of the sign.
fn offsets(sign: u32) -> impl Iterator<Item = i64> {
    let least = -(1 << sign);
    (1..sign)
        .map(|place| 1 << place)
        .chain([least, -least - 2, -2, 0x5A5A5A & (-least - 2)])
}

/// All specimens. A branch stands there taken and not taken; what goes anywhere goes far.
fn specimens() -> Vec<Specimen> {
    const FAR: i64 = 0x1234_5678_9ABC_DEF0;
    let mut all = vec![];
    for (k, offset) in offsets(20).enumerate() {
        let (rd, kind) = [(0, 11), (1, 9), (5, 9), (6, 15)][k % 4];
        all.push(specimen(jal_by(offset, rd), kind, offset));
    }
    for (k, offset) in offsets(12).enumerate() {
        let word = branch_by(offset, [0, 1, 4, 5, 6, 7][k % 6]);
        all.extend([specimen(word, 5, offset), specimen(word, 4, 4)]);
    }
    for offset in offsets(11) {
        all.push(specimen(UPPER | c_j_by(offset), 11, offset));
    }
    for (k, offset) in offsets(8).enumerate() {
        for funct3 in [6, 7] {
            let word = UPPER | c_branch_by(offset, funct3, k as u32 % 8);
            all.extend([specimen(word, 5, offset), specimen(word, 4, 2)]);
        }
    }
    for (rs1, rd, kind) in [
        (6, 1, 8),
        (1, 1, 8),
        (5, 1, 12),
        (1, 5, 12),
        (1, 0, 13),
        (5, 7, 13),
        (7, 0, 10),
        (7, 6, 14),
    ] {
        all.push(specimen(jalr(0x7FF0_0000, rs1, 0, rd), kind, FAR));
    }
    // CM.JT 0 and 31, CM.JALT 32 and 255, CM.POPRET and CM.POPRETZ with rlist 4 and 15, and rlist 3.
    for (code, kind) in [
        (0xA002, 11),
        (0xA07E, 11),
        (0xA082, 9),
        (0xA3FE, 9),
        (0xBE42, 13),
        (0xBCF2, 13),
        (0xBC32, 13),
    ] {
        all.push(specimen(UPPER | code, kind, FAR));
    }
    all.extend([
        specimen(c_jr(UPPER, 1), 13, FAR),
        specimen(c_jr(UPPER, 6), 10, FAR),
        specimen(c_jalr(UPPER, 5), 12, FAR),
        specimen(c_jalr(UPPER, 7), 8, FAR),
        // C.EBREAK, C.JR x0, ADDI, a branch with funct3 2, JALR with funct3 1 and MRET are no transfers.
        specimen(c_jalr(UPPER, 0), 8, FAR),
        specimen(c_jr(UPPER, 0), 10, FAR),
        specimen(0x0000_0013, 11, 4),
        specimen(branch_by(8, 2), 5, 8),
        specimen(jalr(0, 6, 1, 1), 8, FAR),
        specimen(0x3020_0073, 3, FAR),
    ]);
    all
}

/// What `dump_sweep` reads: three words to a specimen.
pub fn dump_sweep_input() -> Vec<u8> {
    specimens()
        .iter()
        .flat_map(|s| [s.word.into(), s.kind, s.way as u64])
        .flat_map(u64::to_le_bytes)
        .collect()
}

/// An entry for a specimen in its image at a base.
#[derive(Clone, Copy)]
struct Setting {
    base: u64,
    place: usize,
    entry: [u64; 3],
    zc: bool,
}

/// What is checked: code, its base, and a dump.
type Case = (Vec<u8>, u64, Vec<u64>);

/// What `dump_sweep` prints.
pub fn dump_sweep() -> String {
    let specimens = specimens();
    assert_eq!(specimens.len(), SPECIMENS);
    let mut text = HEAD.to_string();
    let mut sum = 0;
    for (name, cases) in GROUPS {
        let mut counts = [0; NUMBERS.len()];
        for (k, specimen) in specimens.iter().enumerate() {
            let place = 2 * (k % 5);
            let image = image(specimen.word, place);
            for setting in settings(specimen, place) {
                for case in 0..cases {
                    let (code, base, dump) = changed(name, case, &image, setting);
                    let (number, index) = answer(check(&code, base, &dump, setting.zc));
                    let at = NUMBERS.iter().position(|n| *n == number);
                    counts[at.expect("one of the numbers")] += 1;
                    sum = extended(sum, [number, index]);
                }
            }
        }
        let counts: String = counts.iter().map(|count| format!(" {count}")).collect();
        text += &format!("{name}{counts}\n");
    }
    text + &format!("digest 0x{sum:016x}\n")
}

/// C.NOPs, and the word at a place.
fn image(word: u32, place: usize) -> [u8; SIZE] {
    let mut image = [1, 0, 1, 0, 1, 0, 1, 0, 1, 0, 1, 0, 1, 0, 1, 0];
    image[place..place + 4].copy_from_slice(&word.to_le_bytes());
    image
}

/// At the start of the address space, elsewhere, around its middle and at its end; the switch off and on.
fn settings(specimen: &Specimen, place: usize) -> impl Iterator<Item = Setting> + use<'_> {
    let bases = [0, 0x8040_0000, (1 << 63) - 8, u64::MAX - 15];
    bases.into_iter().flat_map(move |base| {
        let pc = base + place as u64;
        [false, true].map(|zc| Setting {
            base,
            place,
            entry: [pc | 1, pc.wrapping_add_signed(specimen.way), specimen.kind],
            zc,
        })
    })
}

/// A case of a group: the good entry, or it with something changed.
fn changed(group: &str, case: u64, image: &[u8], setting: Setting) -> Case {
    let Setting { base, place, .. } = setting;
    let [source, target, data] = setting.entry;
    let mut code = image.to_vec();
    let dump = match group {
        "types" => {
            let source = if case / 16 == 1 {
                source ^ 0x1_0000
            } else {
                source
            };
            if case / 16 == 2 {
                code.truncate(place + 1);
            }
            vec![source, target, case % 16]
        }
        "source-bits" => vec![source ^ 1 << case, target, data],
        "target-bits" => vec![source, target ^ 1 << case, data],
        "data-bits" => vec![source, target, data ^ 1 << (case + 4)],
        "images-cut" => {
            code.truncate(place + case as usize);
            setting.entry.to_vec()
        }
        "bases" => {
            code.truncate(SIZE - case as usize % 2);
            return (code, u64::MAX - 19 + case / 2, setting.entry.to_vec());
        }
        "lengths" => {
            let words = [setting.entry, setting.entry, setting.entry].concat();
            words[..case as usize].to_vec()
        }
        "pairs" => [case / 4, case % 4].map(|k| variant(setting, k)).concat(),
        _ => setting.entry.to_vec(),
    };
    (code, base, dump)
}

/// The good entry, one that isn't valid, one of a type that no word has, one with another target.
fn variant(setting: Setting, k: u64) -> [u64; 3] {
    let [source, target, data] = setting.entry;
    match k {
        1 => [source ^ 1, target, 0],
        2 => [source, target, 6],
        3 => [source, target ^ 4, data],
        _ => setting.entry,
    }
}

/// The number of an answer, and the index of a misfit.
fn answer(checked: Checked) -> (u64, u64) {
    match checked {
        Checked::Accepted => (0, 0),
        Checked::Refused(number) => (number, 0),
        Checked::Misfit { index, reason } => (reason.number(), index as u64),
    }
}

#[cfg(test)]
mod tests {
    use super::*;

    /// The sum of the counts of each answer, over all groups.
    fn totals() -> [u64; NUMBERS.len()] {
        let mut totals = [0; NUMBERS.len()];
        for (name, _) in GROUPS {
            for (total, count) in totals.iter_mut().zip(counts_of(name)) {
                *total += count;
            }
        }
        totals
    }

    fn counts_of(name: &str) -> Vec<u64> {
        let text = dump_sweep();
        let line = text.lines().find(|line| line.starts_with(name));
        let (_, counts) = line.expect("a line").split_once(' ').expect("counts");
        counts
            .split(' ')
            .map(|count| count.parse().expect("a number"))
            .collect()
    }

    #[test]
    fn each_answer_is_given() {
        assert!(totals().iter().all(|count| *count > 0), "{:?}", totals());
    }

    /// Each of the specimens but six that are no transfers and a pop-return with rlist 3, with the switch
    /// on; and but six table jumps and pop-returns with it off. An event's entry fits.
    #[test]
    fn good_entries_fit() {
        let accepted = counts_of("good")[0];
        let words = SPECIMENS as u64 - 6;
        assert_eq!(accepted, 4 * words + 4 * (words - 6));
    }

    /// Only bit 0 of a target may be another, unless the word goes anywhere.
    #[test]
    fn targets_are_asked_for() {
        let [accepted, .., wrong, _, _] = counts_of("target-bits")[..] else {
            panic!("seven counts");
        };
        assert!(accepted > 0 && wrong > 50 * 8 * 100, "{accepted} {wrong}");
    }
}
