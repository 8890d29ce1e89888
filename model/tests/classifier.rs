//! The model's classifier against the published words (docs/RULES.md, T14), and against the rules'
//! prose written once more, as decisions on fields: without table jumps and pop-returns, and with them.

use model::classifier::{length, name, transfer_type};

/// Without table jumps and pop-returns, and with them.
const SWITCHES: [bool; 2] = [false, true];

/// The published words with their types.
const PUBLISHED: [(u32, u8); 11] = [
    (0x000000ef, 9),
    (0x00008067, 13),
    (0x000280e7, 12),
    (0x9282, 12),
    (0x9082, 8),
    (0x8082, 13),
    (0x00030067, 10),
    (0x00038367, 14),
    (0x0000036f, 15),
    (0x00008367, 13),
    (0x9002, 0),
];

/// Table jumps and pop-returns at the ends of their indices, register lists and stack adjustments,
/// with their types.
const SWITCHED: [(u32, u8); 14] = [
    (0xa002, 11), // cm.jt 0
    (0xa006, 11), // cm.jt 1
    (0xa07e, 11), // cm.jt 31
    (0xa082, 9),  // cm.jalt 32
    (0xa086, 9),  // cm.jalt 33
    (0xa3fe, 9),  // cm.jalt 255
    (0xbe42, 13), // cm.popret {ra}, 16
    (0xbe4e, 13), // cm.popret {ra}, 64
    (0xbe52, 13), // cm.popret {ra, s0}, 16
    (0xbefe, 13), // cm.popret {ra, s0-s11}, 160
    (0xbc42, 13), // cm.popretz {ra}, 16
    (0xbc4e, 13), // cm.popretz {ra}, 64
    (0xbcf2, 13), // cm.popretz {ra, s0-s11}, 112
    (0xbcfe, 13), // cm.popretz {ra, s0-s11}, 160
];

/// Words of the same codes that are no transfers: of Zcmp those that only push, pop or move; reserved
/// ones with a table jump's index but other bits above, with rlist 0 and 3, and with bit 8 set.
const NEIGHBOURS: [u32; 16] = [
    0xb842, // cm.push {ra}, -16
    0xb8fe, // cm.push {ra, s0-s11}, -160
    0xba42, // cm.pop {ra}, 16
    0xbafe, // cm.pop {ra, s0-s11}, 160
    0xaca2, // cm.mvsa01 s1, s0
    0xace2, // cm.mva01s s1, s0
    0xaffe, // cm.mva01s s7, s7
    0xa402, 0xa802, 0xb002, 0xbe02, 0xbe3e, 0xbc02, 0xbc3e, 0xbf42, 0xbd42,
];

/// Upper halves, or upper bits, that must not matter.
const UPPER: [u32; 6] = [0x0000, 0xffff, 0x0073, 0x8082, 0x5a5a, 0xa5a5];

fn bits(word: u32, high: u32, low: u32) -> u32 {
    word >> low & ((1 << (high - low + 1)) - 1)
}

fn is_link(register: u32) -> bool {
    register == 1 || register == 5
}

fn is_compressed(word: u32) -> bool {
    bits(word, 1, 0) != 0b11
}

/// Whether it lies where C.FSDSP does: funct3 101 in quadrant 2.
fn is_c_fsdsp(word: u32) -> bool {
    bits(word, 1, 0) == 2 && bits(word, 15, 13) == 5
}

fn type_by_prose(word: u32, zc: bool) -> u8 {
    if is_c_fsdsp(word) {
        return if zc { zc_type_by_prose(word) } else { 0 };
    }
    if is_compressed(word) {
        return compressed_type_by_prose(word);
    }
    let (rd, funct3, rs1) = (bits(word, 11, 7), bits(word, 14, 12), bits(word, 19, 15));
    match bits(word, 6, 0) {
        0x63 if funct3 != 2 && funct3 != 3 => 5,
        0x67 if funct3 == 0 => jalr_type_by_prose(rd, rs1),
        0x6f if is_link(rd) => 9,
        0x6f if rd == 0 => 11,
        0x6f => 15,
        _ => 0,
    }
}

fn jalr_type_by_prose(rd: u32, rs1: u32) -> u8 {
    if is_link(rd) {
        if is_link(rs1) && rs1 != rd {
            12
        } else {
            8
        }
    } else if is_link(rs1) {
        13
    } else if rd == 0 {
        10
    } else {
        14
    }
}

/// C.JR is JALR x0 and C.JALR is JALR x1, but for the base x0.
fn compressed_type_by_prose(word: u32) -> u8 {
    let (rs1, rs2) = (bits(word, 11, 7), bits(word, 6, 2));
    match (bits(word, 1, 0), bits(word, 15, 13)) {
        (1, 5) => 11,
        (1, 6 | 7) => 5,
        (2, 4) if rs1 != 0 && rs2 == 0 => jalr_type_by_prose(bits(word, 12, 12), rs1),
        _ => 0,
    }
}

/// Bits 12 to 10 are 0 in table jumps, whose index is below them; bits 12 to 8 are 28 in CM.POPRETZ and
/// 30 in CM.POPRET, whose rlist is below them.
fn zc_type_by_prose(word: u32) -> u8 {
    let (index, rlist) = (bits(word, 9, 2), bits(word, 7, 4));
    let is_table_jump = bits(word, 12, 10) == 0;
    let is_pop_return = matches!(bits(word, 12, 8), 28 | 30);
    match (is_table_jump, is_pop_return) {
        (true, _) if index <= 31 => 11,
        (true, _) => 9,
        (_, true) if rlist >= 4 => 13,
        _ => 0,
    }
}

/// All low halves that are compressed words.
fn compressed_words() -> impl Iterator<Item = u32> {
    (0..1 << 16).filter(|word| is_compressed(*word))
}

/// All 2048 low halves that are C.FSDSP or one of the codes in its place.
fn c_fsdsp_words() -> impl Iterator<Item = u32> {
    (0..1 << 11).map(|code| 5 << 13 | code << 2 | 2)
}

fn count(words: impl Iterator<Item = u32>, number: u8, zc: bool) -> usize {
    words
        .filter(|word| transfer_type(*word, true, zc) == number)
        .count()
}

#[track_caller]
fn assert_type(word: u32, zc: bool, number: u8) {
    let found = transfer_type(word, true, zc);
    assert_eq!(found, number, "word {word:#010x}, switch {zc}");
}

#[test]
fn published_words_have_their_types() {
    for zc in SWITCHES {
        for (word, number) in PUBLISHED {
            assert_type(word, zc, number);
        }
    }
}

#[test]
fn table_jumps_and_pop_returns_have_their_types_with_the_switch_on() {
    for (word, number) in SWITCHED {
        assert_type(word, true, number);
        assert_type(word, false, 0);
    }
}

#[test]
fn their_neighbours_are_no_transfers() {
    for zc in SWITCHES {
        for word in NEIGHBOURS {
            assert_type(word, zc, 0);
        }
    }
}

/// Only the low 20 bits decide: opcode, rd, funct3 and rs1, or the whole compressed word.
#[test]
fn all_words_have_the_type_of_the_prose() {
    for zc in SWITCHES {
        for upper in UPPER {
            for low in 0..1 << 20 {
                let word = upper << 20 | low;
                assert_type(word, zc, type_by_prose(word, zc));
            }
        }
    }
}

#[test]
fn taken_matters_to_branches_only() {
    for zc in SWITCHES {
        for word in 0..1 << 20 {
            let number = match transfer_type(word, true, zc) {
                5 => 4,
                other => other,
            };
            let found = transfer_type(word, false, zc);
            assert_eq!(found, number, "word {word:#010x}, switch {zc}");
        }
    }
}

#[test]
fn upper_half_of_a_compressed_word_has_no_influence() {
    for zc in SWITCHES {
        for low in compressed_words() {
            for upper in UPPER {
                assert_type(upper << 16 | low, zc, transfer_type(low, true, zc));
            }
        }
    }
}

#[test]
fn the_switch_matters_only_in_place_of_c_fsdsp() {
    for upper in UPPER {
        for low in 0..1 << 20 {
            let word = upper << 20 | low;
            if !is_c_fsdsp(word) {
                assert_type(word, true, transfer_type(word, true, false));
            }
        }
    }
}

/// 32 indices jump and 224 call; two words return with 12 rlists and four stack adjustments each.
#[test]
fn words_in_place_of_c_fsdsp_of_each_type() {
    let (pop_returns, all) = (2 * 12 * 4, 2048);
    assert_eq!(count(c_fsdsp_words(), 11, true), 32);
    assert_eq!(count(c_fsdsp_words(), 9, true), 224);
    assert_eq!(count(c_fsdsp_words(), 13, true), pop_returns);
    assert_eq!(count(c_fsdsp_words(), 0, true), all - 352);
    assert_eq!(count(c_fsdsp_words(), 0, false), all);
    assert_eq!(
        c_fsdsp_words().filter(|word| is_c_fsdsp(*word)).count(),
        all
    );
}

/// C.J, C.BEQZ and C.BNEZ have 11 free bits each, C.JR and C.JALR 31 registers.
#[test]
fn compressed_words_of_each_type() {
    let counts = |zc| [0, 5, 8, 9, 10, 11, 12, 13].map(|n| count(compressed_words(), n, zc));
    let none = 3 * 16384 - 3 * 2048 - 2 * 31;
    assert_eq!(counts(false), [none, 2 * 2048, 30, 0, 29, 2048, 1, 2]);
    let expected = [none - 352, 2 * 2048, 30, 224, 29, 2048 + 32, 1, 2 + 96];
    assert_eq!(counts(true), expected);
}

#[test]
fn equal_link_registers_call() {
    for zc in SWITCHES {
        assert_type(0x000080e7, zc, 8); // JALR x1,x1
        assert_type(0x000282e7, zc, 8); // JALR x5,x5
    }
}

/// All low halves: only their two lowest bits decide.
#[test]
fn words_that_end_in_two_ones_have_four_bytes_and_others_two() {
    for upper in UPPER {
        for low in 0..1 << 16 {
            let expected = if low % 4 == 3 { 4 } else { 2 };
            let word = upper << 16 | low;
            assert_eq!(length(word), expected, "word {word:#010x}");
        }
    }
}

/// Words that start one of more than 32 bits end in five ones.
#[test]
fn words_of_longer_formats_have_four_bytes_and_no_type() {
    for upper in UPPER {
        for low in (0..1 << 16).filter(|low| bits(*low, 4, 0) == 0b11111) {
            let word = upper << 16 | low;
            assert_eq!(length(word), 4);
            assert_type(word, false, 0);
            assert_type(word, true, 0);
        }
    }
}

#[test]
fn table_jumps_and_pop_returns_have_two_bytes() {
    for word in c_fsdsp_words() {
        assert_eq!(length(word), 2, "word {word:#010x}");
    }
}

#[test]
fn every_type_of_a_word_has_a_name() {
    assert_eq!(name(0), "none");
    assert_eq!(name(4), "branch");
    assert_eq!(name(5), "branch");
    assert_eq!(name(8), "indirect call");
    assert_eq!(name(9), "direct call");
    assert_eq!(name(10), "indirect jump");
    assert_eq!(name(11), "direct jump");
    assert_eq!(name(12), "co-routine swap");
    assert_eq!(name(13), "function return");
    assert_eq!(name(14), "other indirect jump");
    assert_eq!(name(15), "other direct jump");
}
