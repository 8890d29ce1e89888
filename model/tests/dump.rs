//! Dumps held against firmware: which entries fit the code, which is the first that doesn't, and why.

use std::fs;
use std::path::Path;

use model::classifier::{length, transfer_type};
use model::dump::Reason::*;
use model::dump::{check, Checked, Reason};
use model::recorder::{Event, Retired};
use model::replay::{decode, row_of};

use Checked::{Accepted, Misfit, Refused};

const BASE: u64 = 0x8000_0000;

const FLAGS: [bool; 2] = [false, true];

/// Words as an assembler gives them, and their offsets: each bit by itself, the sign among them, the
/// largest, and some at large.
const JAL: [(u32, i64); 27] = [
    (0x0000_006f, 0),          // j .
    (0x0020_006f, 2),          // j .+2
    (0x0040_006f, 4),          // j .+4
    (0x0080_00ef, 8),          // jal .+8
    (0x0100_00ef, 16),         // jal .+16
    (0x0200_006f, 32),         // j .+32
    (0x0400_006f, 64),         // j .+64
    (0x0800_006f, 128),        // j .+128
    (0x1000_006f, 256),        // j .+256
    (0x2000_006f, 512),        // j .+512
    (0x4000_006f, 1_024),      // j .+1024
    (0x0010_006f, 2_048),      // j .+2048
    (0x0000_106f, 4_096),      // j .+4096
    (0x0000_206f, 8_192),      // j .+8192
    (0x0000_406f, 16_384),     // j .+16384
    (0x0000_806f, 32_768),     // j .+32768
    (0x0001_006f, 65_536),     // j .+65536
    (0x0002_006f, 131_072),    // j .+131072
    (0x0004_02ef, 262_144),    // jal t0, .+262144
    (0x0008_036f, 524_288),    // jal t1, .+524288
    (0x8000_006f, -1_048_576), // j .-1048576
    (0x7fff_f06f, 1_048_574),  // j .+1048574
    (0xffff_f06f, -2),         // j .-2
    (0xffdf_f06f, -4),         // j .-4
    (0xff1f_f0ef, -16),        // jal .-16
    (0x8010_00ef, -1_046_528), // jal .-1046528
    (0x1234_50ef, 0x4_5922),   // jal .+284962
];

const BRANCHES: [(u32, i64); 21] = [
    (0x0000_0063, 0),      // beqz zero, .
    (0x0000_0163, 2),      // beqz zero, .+2
    (0x0000_0263, 4),      // beqz zero, .+4
    (0x0005_0463, 8),      // beqz a0, .+8
    (0x00b5_0863, 16),     // beq a0, a1, .+16
    (0x0200_0063, 32),     // beqz zero, .+32
    (0x0400_0063, 64),     // beqz zero, .+64
    (0x0800_1063, 128),    // bnez zero, .+128
    (0x1000_4063, 256),    // bltz zero, .+256
    (0x2000_5063, 512),    // bgez zero, .+512
    (0x4000_6063, 1_024),  // bltu zero, zero, .+1024
    (0x0000_70e3, 2_048),  // bgeu zero, zero, .+2048
    (0x8000_0063, -4_096), // beqz zero, .-4096
    (0x7e00_0fe3, 4_094),  // beqz zero, .+4094
    (0xfe00_0fe3, -2),     // beqz zero, .-2
    (0xfe05_1ee3, -4),     // bnez a0, .-4
    (0xfeb5_48e3, -16),    // blt a0, a1, .-16
    (0xfff5_5fe3, -2),     // bge a0, t6, .-2
    (0x8000_00e3, -2_048), // beqz zero, .-2048
    (0xc000_0063, -3_072), // beqz zero, .-3072
    (0x01ff_f463, 8),      // bgeu t6, t6, .+8
];

const C_J: [(u32, i64); 15] = [
    (0xa001, 0),      // c.j .
    (0xa009, 2),      // c.j .+2
    (0xa011, 4),      // c.j .+4
    (0xa021, 8),      // c.j .+8
    (0xa801, 16),     // c.j .+16
    (0xa005, 32),     // c.j .+32
    (0xa081, 64),     // c.j .+64
    (0xa041, 128),    // c.j .+128
    (0xa201, 256),    // c.j .+256
    (0xa401, 512),    // c.j .+512
    (0xa101, 1_024),  // c.j .+1024
    (0xb001, -2_048), // c.j .-2048
    (0xaffd, 2_046),  // c.j .+2046
    (0xbffd, -2),     // c.j .-2
    (0xbff5, -4),     // c.j .-4
];

const C_BRANCHES: [(u32, i64); 17] = [
    (0xc001, 0),    // c.beqz s0, .
    (0xc009, 2),    // c.beqz s0, .+2
    (0xe011, 4),    // c.bnez s0, .+4
    (0xc781, 8),    // c.beqz a5, .+8
    (0xc911, 20),   // c.beqz a0, .+20
    (0xe801, 16),   // c.bnez s0, .+16
    (0xc005, 32),   // c.beqz s0, .+32
    (0xe021, 64),   // c.bnez s0, .+64
    (0xc041, 128),  // c.beqz s0, .+128
    (0xd001, -256), // c.beqz s0, .-256
    (0xf001, -256), // c.bnez s0, .-256
    (0xcc7d, 254),  // c.beqz s0, .+254
    (0xeffd, 254),  // c.bnez a5, .+254
    (0xdc7d, -2),   // c.beqz s0, .-2
    (0xfffd, -2),   // c.bnez a5, .-2
    (0xfff5, -4),   // c.bnez a5, .-4
    (0xdff5, -4),   // c.beqz a5, .-4
];

/// Words that go anywhere, and their types with the switch off and on.
const ANYWHERE: [(u32, u64, u64); 21] = [
    (0x0000_80e7, 8, 8),   // jalr ra, ra
    (0x0003_02e7, 8, 8),   // jalr t0, t1
    (0x7ff5_00e7, 8, 8),   // jalr ra, 2047(a0)
    (0x0003_0067, 10, 10), // jr t1
    (0x8003_8067, 10, 10), // jr -2048(t2)
    (0x0002_80e7, 12, 12), // jalr ra, t0
    (0x0000_82e7, 12, 12), // jalr t0, ra
    (0x0000_8067, 13, 13), // ret
    (0x0002_8367, 13, 13), // jalr t1, t0
    (0x0003_8367, 14, 14), // jalr t1, t2
    (0x9082, 8, 8),        // c.jalr ra
    (0x9502, 8, 8),        // c.jalr a0
    (0x8502, 10, 10),      // c.jr a0
    (0x9282, 12, 12),      // c.jalr t0
    (0x8082, 13, 13),      // c.jr ra
    (0xa002, 0, 11),       // cm.jt 0
    (0xa07e, 0, 11),       // cm.jt 31
    (0xa082, 0, 9),        // cm.jalt 32
    (0xa3fe, 0, 9),        // cm.jalt 255
    (0xbe42, 0, 13),       // cm.popret {ra}, 16
    (0xbcfe, 0, 13),       // cm.popretz {ra, s0-s11}, 160
];

/// Words that are no transfers, whatever the switch: NOP, LUI, ECALL, EBREAK, MRET, SRET, JALR with
/// funct3 1, branches with funct3 2 and 3, all ones, C.NOP, all zeros, C.EBREAK, C.JR zero, C.MV, C.ADD,
/// C.JAL of RV32, CM.POP, CM.PUSH, CM.MVSA01, and CM.POPRET with rlist 3.
const NO_TRANSFERS: [u32; 21] = [
    0x0000_0013,
    0x0000_00b7,
    0x0000_0073,
    0x0010_0073,
    0x3020_0073,
    0x1020_0073,
    0x0000_9067,
    0x0000_2063,
    0x0000_3063,
    0xffff_ffff,
    0x0001,
    0x0000,
    0x9002,
    0x8002,
    0x8086,
    0x9086,
    0x2001,
    0xba42,
    0xb842,
    0xaca2,
    0xbe32,
];

const TARGETS: [u64; 8] = [0, 1, 2, BASE, BASE + 2, 1 << 63, u64::MAX - 1, u64::MAX];

/// Direct jumps and calls with their types, and branches.
fn jumps() -> impl Iterator<Item = (u32, i64, u64)> {
    let typed = |(word, offset)| (word, offset, u64::from(transfer_type(word, true, false)));
    JAL.into_iter().chain(C_J).map(typed)
}

fn branches() -> impl Iterator<Item = (u32, i64)> {
    BRANCHES.into_iter().chain(C_BRANCHES)
}

/// As many bytes as the word has.
fn bytes_of(word: u32) -> Vec<u8> {
    word.to_le_bytes()[..size(word)].to_vec()
}

fn size(word: u32) -> usize {
    if word & 3 == 3 {
        4
    } else {
        2
    }
}

/// A valid entry.
fn entry(pc: u64, target: u64, number: u64) -> [u64; 3] {
    [pc | 1, target, number]
}

fn sum(pc: u64, distance: i64) -> u64 {
    pc.wrapping_add_signed(distance)
}

/// What is given for one entry and an image of this word at the base.
fn checked(word: u32, entry: [u64; 3], zc: bool) -> Checked {
    check(&bytes_of(word), BASE, &entry, zc)
}

fn misfit(reason: Reason) -> Checked {
    Misfit { index: 0, reason }
}

#[track_caller]
fn assert_goes(word: u32, number: u64, distance: i64) {
    for zc in FLAGS {
        let target = sum(BASE, distance);
        for misp in [0, 1] {
            let fitting = entry(BASE, target | misp, number);
            assert_eq!(checked(word, fitting, zc), Accepted, "{word:#x}");
            for bit in 1..64 {
                let other = entry(BASE, (target | misp) ^ 1 << bit, number);
                let result = checked(word, other, zc);
                assert_eq!(result, misfit(TargetWrong), "{word:#x}, bit {bit}");
            }
        }
    }
}

#[test]
fn jumps_and_calls_with_an_offset_go_to_pc_plus_offset() {
    for (word, offset, number) in jumps() {
        assert_goes(word, number, offset);
    }
}

#[test]
fn jumps_and_calls_with_an_offset_have_types_9_11_and_15() {
    let mut numbers: Vec<u64> = jumps().map(|(.., number)| number).collect();
    numbers.sort_unstable();
    numbers.dedup();
    assert_eq!(numbers, [9, 11, 15]);
}

#[test]
fn taken_branches_go_to_pc_plus_offset() {
    for (word, offset) in branches() {
        assert_goes(word, 5, offset);
    }
}

#[test]
fn branches_not_taken_go_to_pc_plus_length() {
    for (word, _) in BRANCHES {
        assert_goes(word, 4, 4);
    }
    for (word, _) in C_BRANCHES {
        assert_goes(word, 4, 2);
    }
}

/// Words of every offset, put together as the manual's tables tell: the target fits, and the two
/// beside it don't.
#[track_caller]
fn assert_all_offsets_are_read(bits: u32, number: u64, word_of: impl Fn(u32) -> u32) {
    let half = 1_i64 << bits;
    for offset in (-half..half).step_by(2) {
        let word = word_of(offset as u32);
        let code = bytes_of(word);
        let result = |distance| check(&code, BASE, &entry(BASE, sum(BASE, distance), number), true);
        assert_eq!(result(offset), Accepted, "{word:#x}");
        assert_eq!(result(offset + 2), misfit(TargetWrong), "{word:#x}");
        assert_eq!(result(offset - 2), misfit(TargetWrong), "{word:#x}");
    }
}

/// Bits `high` to `low` of the offset, shifted up to `place`.
fn bits(offset: u32, high: u32, low: u32, place: u32) -> u32 {
    let mask = (1 << (high - low + 1)) - 1;
    (offset >> low & mask) << place
}

fn jal(offset: u32) -> u32 {
    bits(offset, 20, 20, 31)
        | bits(offset, 10, 1, 21)
        | bits(offset, 11, 11, 20)
        | bits(offset, 19, 12, 12)
        | 0xef
}

fn bne(offset: u32) -> u32 {
    bits(offset, 12, 12, 31)
        | bits(offset, 10, 5, 25)
        | 0x00b5_1063
        | bits(offset, 4, 1, 8)
        | bits(offset, 11, 11, 7)
}

fn c_j(offset: u32) -> u32 {
    0xa001
        | bits(offset, 11, 11, 12)
        | bits(offset, 4, 4, 11)
        | bits(offset, 9, 8, 9)
        | bits(offset, 10, 10, 8)
        | bits(offset, 6, 6, 7)
        | bits(offset, 7, 7, 6)
        | bits(offset, 3, 1, 3)
        | bits(offset, 5, 5, 2)
}

fn c_branch(offset: u32) -> u32 {
    0xc001
        | bits(offset, 8, 8, 12)
        | bits(offset, 4, 3, 10)
        | bits(offset, 7, 6, 5)
        | bits(offset, 2, 1, 3)
        | bits(offset, 5, 5, 2)
}

#[test]
fn all_offsets_of_each_range_are_read() {
    assert_all_offsets_are_read(20, 9, jal);
    assert_all_offsets_are_read(12, 5, bne);
    assert_all_offsets_are_read(11, 11, c_j);
    for register in 0..8 {
        assert_all_offsets_are_read(8, 5, |offset| c_branch(offset) | register << 7);
        assert_all_offsets_are_read(8, 5, |offset| c_branch(offset) | 0x2000 | register << 7);
    }
}

/// Bits of registers and of funct3 are no bits of the offset.
#[test]
fn registers_have_no_part_in_the_offset() {
    for register in 0..32 {
        let word = 0xffdf_f06f | register << 7;
        let number = u64::from(transfer_type(word, true, false));
        assert_goes(word, number, -4);
        for funct3 in [0, 1, 4, 5, 6, 7] {
            let word = 0xfe00_0ee3 | funct3 << 12 | register << 15 | (31 - register) << 20;
            assert_goes(word, 5, -4);
        }
    }
}

/// What is given for a word that lies at `pc`, at the start of an image or its end.
#[track_caller]
fn assert_goes_from(pc: u64, word: u32, number: u64, target: u64) {
    for padding in [0, 2, 16] {
        if pc < padding {
            continue;
        }
        let code = [vec![0; padding as usize], bytes_of(word)].concat();
        for misp in [0, 1] {
            let entry = entry(pc, target | misp, number);
            let result = check(&code, pc - padding, &entry, false);
            assert_eq!(result, Accepted, "{word:#x} at {pc:#x}");
        }
        for other in [target.wrapping_add(2), target.wrapping_sub(2)] {
            let result = check(&code, pc - padding, &entry(pc, other, number), false);
            assert_eq!(result, misfit(TargetWrong), "{word:#x} at {pc:#x}");
        }
    }
}

/// 2^64 less `distance`.
fn below_the_end(distance: u64) -> u64 {
    0_u64.wrapping_sub(distance)
}

#[test]
fn sums_wrap_at_the_end_of_the_address_space() {
    let last_word = below_the_end(4);
    assert_goes_from(last_word, 0x0080_00ef, 9, 4);
    assert_goes_from(last_word, 0x0040_006f, 11, 0);
    assert_goes_from(last_word, 0x7fff_f06f, 11, 0xF_FFFA);
    assert_goes_from(last_word, 0x7e00_0fe3, 5, 0xFFA);
    let last_half = below_the_end(2);
    assert_goes_from(last_half, 0xa009, 11, 0);
    assert_goes_from(last_half, 0xaffd, 11, 0x7FC);
    assert_goes_from(last_half, 0xcc7d, 5, 0xFC);
    assert_goes_from(last_half, 0xfff5, 5, below_the_end(6));
}

#[test]
fn sums_wrap_at_the_start_of_the_address_space() {
    assert_goes_from(0, 0xffdf_f06f, 11, below_the_end(4));
    assert_goes_from(0, 0x8000_006f, 11, below_the_end(0x10_0000));
    assert_goes_from(2, 0x8000_006f, 11, below_the_end(0xF_FFFE));
    assert_goes_from(0, 0x8000_0063, 5, below_the_end(0x1000));
    assert_goes_from(16, 0xb001, 11, below_the_end(0x7F0));
    assert_goes_from(0, 0xd001, 5, below_the_end(0x100));
    assert_goes_from(4, 0xfff5, 5, 0);
    assert_goes_from(4, 0xffdf_f06f, 11, 0);
}

#[test]
fn pc_plus_length_wraps_too() {
    assert_goes_from(below_the_end(4), 0x0000_0063, 4, 0);
    assert_goes_from(below_the_end(8), 0x0000_0063, 4, below_the_end(4));
    assert_goes_from(below_the_end(2), 0xc001, 4, 0);
    assert_goes_from(below_the_end(4), 0xe001, 4, below_the_end(2));
}

#[test]
fn sums_of_the_middle_do_not_wrap() {
    for pc in [1 << 63, (1 << 63) - 4, 1 << 32, (1 << 32) - 4, 1 << 31] {
        assert_goes_from(pc, 0x7fff_f06f, 11, pc + 0xF_FFFE);
        assert_goes_from(pc, 0x8000_006f, 11, pc - 0x10_0000);
        assert_goes_from(pc, 0xfe05_1ee3, 5, pc - 4);
        assert_goes_from(pc, 0xfe05_1ee3, 4, pc + 4);
    }
}

/// Table jumps too, although others of their types don't.
#[test]
fn indirect_jumps_table_jumps_and_pop_returns_go_anywhere() {
    for (word, off, on) in ANYWHERE {
        for (zc, number) in [(false, off), (true, on)] {
            for target in TARGETS {
                let result = checked(word, entry(BASE, target, number), zc);
                let expected = match number {
                    0 => misfit(TypeUnlike),
                    _ => Accepted,
                };
                assert_eq!(result, expected, "{word:#x}");
            }
        }
    }
}

/// What each type gives at a word that is a transfer of `number`, under any target.
#[track_caller]
fn assert_type_alone_fits(word: u32, number: u64, target: Option<u64>, zc: bool) {
    for tried in 0..16 {
        for other in TARGETS.into_iter().chain(target) {
            let expected = match tried {
                1..=3 => Accepted,
                0 | 6 | 7 => misfit(TypeUnlike),
                _ if tried != number => misfit(TypeUnlike),
                _ if target.is_none_or(|target| target == other & !1) => Accepted,
                _ => misfit(TargetWrong),
            };
            let result = checked(word, entry(BASE, other, tried), zc);
            assert_eq!(result, expected, "{word:#x}, type {tried}, to {other:#x}");
        }
    }
}

#[test]
fn each_word_fits_the_type_of_its_own() {
    for (word, offset, number) in jumps() {
        for zc in FLAGS {
            assert_type_alone_fits(word, number, Some(sum(BASE, offset)), zc);
        }
    }
    for (word, off, on) in ANYWHERE {
        assert_type_alone_fits(word, off, None, false);
        assert_type_alone_fits(word, on, None, true);
    }
}

/// 4 with the one target and 5 with the other, which may be the same.
#[test]
fn branches_fit_types_4_and_5() {
    for (word, offset) in branches() {
        let (next, taken) = (BASE + size(word) as u64, sum(BASE, offset));
        for zc in FLAGS {
            for number in 0..16 {
                for target in TARGETS.into_iter().chain([next, taken]) {
                    let expected = match number {
                        1..=3 => Accepted,
                        4 if target & !1 == next => Accepted,
                        5 if target & !1 == taken => Accepted,
                        4 | 5 => misfit(TargetWrong),
                        _ => misfit(TypeUnlike),
                    };
                    let result = checked(word, entry(BASE, target, number), zc);
                    assert_eq!(result, expected, "{word:#x}, type {number}");
                }
            }
        }
    }
}

#[test]
fn words_that_are_no_transfers_fit_no_type_of_a_word() {
    for word in NO_TRANSFERS {
        for zc in FLAGS {
            assert_type_alone_fits(word, 0, None, zc);
        }
    }
}

#[test]
fn the_switch_alone_decides_of_table_jumps_and_pop_returns() {
    for (word, _, on) in ANYWHERE.into_iter().filter(|(_, off, _)| *off == 0) {
        let entry = entry(BASE, 0x1234, on);
        assert_eq!(checked(word, entry, false), misfit(TypeUnlike));
        assert_eq!(checked(word, entry, true), Accepted);
    }
}

/// A branch as taken and as not taken.
#[test]
fn all_16_bit_words_fit_as_they_are_classified() {
    for zc in FLAGS {
        for half in (0..=0xFFFF).filter(|half| half & 3 != 3) {
            let own = [false, true].map(|taken| u64::from(transfer_type(half, taken, zc)));
            for number in (4..16).filter(|number| ![6, 7].contains(number)) {
                let result = checked(half, entry(BASE, 0x1234, number), zc);
                let is_unlike = result == misfit(TypeUnlike);
                assert_eq!(is_unlike, !own.contains(&number), "{half:#x}");
            }
        }
    }
}

/// Outside on either side, cut off, at a word of no type, at a jump; to anywhere.
#[test]
fn types_1_to_3_always_fit() {
    let code = [bytes_of(0x13), bytes_of(0xa001), vec![0xef, 0]].concat();
    for pc in [0, BASE - 2, BASE, BASE + 4, BASE + 6, BASE + 8, u64::MAX] {
        for number in 1..=3 {
            for target in TARGETS {
                let entry = entry(pc, target, number);
                assert_eq!(check(&code, BASE, &entry, true), Accepted);
                assert_eq!(check(&[], BASE, &entry, false), Accepted);
            }
        }
    }
}

#[test]
fn types_0_6_and_7_never_fit_whatever_the_source() {
    let code = [bytes_of(0x13), bytes_of(0xa001), vec![0xef, 0]].concat();
    for pc in [0, BASE - 2, BASE, BASE + 4, BASE + 6, BASE + 8, u64::MAX] {
        for number in [0, 6, 7] {
            for target in TARGETS {
                let entry = entry(pc, target, number);
                assert_eq!(check(&code, BASE, &entry, true), misfit(TypeUnlike));
                assert_eq!(check(&[], BASE, &entry, false), misfit(TypeUnlike));
            }
        }
    }
}

#[test]
fn entries_that_are_not_valid_are_not_looked_at() {
    for source in [0, BASE - 2, BASE, BASE + 2, BASE + 4, u64::MAX - 1] {
        for data in (0..16).chain([u64::MAX]) {
            let words = [source, 0x1234, data];
            assert_eq!(check(&bytes_of(0x6f), BASE, &words, false), Accepted);
        }
    }
}

/// Bits of ctrdata above TYPE, defined or not, and MISP.
#[test]
fn other_bits_have_no_part_in_it() {
    for upper in (4..64).map(|bit| 1_u64 << bit).chain([0, !0xF]) {
        for misp in [0, 1] {
            let result = |target, number| {
                let words = [BASE | 1, target | misp, upper | number];
                checked(0x0080_00ef, words, false)
            };
            assert_eq!(result(BASE + 8, 9), Accepted);
            assert_eq!(result(BASE + 4, 9), misfit(TargetWrong));
            assert_eq!(result(BASE + 8, 11), misfit(TypeUnlike));
            assert_eq!(result(BASE + 4, 2), Accepted);
            assert_eq!(result(BASE + 8, 7), misfit(TypeUnlike));
        }
    }
}

/// From the base up to the last byte.
#[test]
fn sources_outside_the_image_do_not_fit() {
    let code = bytes_of(0xa001).repeat(3);
    let result = |pc| check(&code, BASE, &entry(pc, pc, 11), false);
    for pc in [BASE, BASE + 2, BASE + 4] {
        assert_eq!(result(pc), Accepted, "{pc:#x}");
    }
    for pc in [
        0,
        2,
        BASE - 4,
        BASE - 2,
        BASE + 6,
        BASE + 8,
        BASE + (1 << 32),
        BASE + (1 << 63),
        below_the_end(2),
    ] {
        assert_eq!(result(pc), misfit(SourceOutside), "{pc:#x}");
    }
}

#[test]
fn images_at_both_ends_of_the_address_space_have_an_outside() {
    let code = bytes_of(0xa001).repeat(2);
    let result = |base, pc| check(&code, base, &entry(pc, pc, 11), false);
    for (pc, expected) in [
        (0, Accepted),
        (2, Accepted),
        (4, misfit(SourceOutside)),
        (below_the_end(2), misfit(SourceOutside)),
    ] {
        assert_eq!(result(0, pc), expected);
    }
    for (pc, expected) in [
        (below_the_end(6), misfit(SourceOutside)),
        (below_the_end(4), Accepted),
        (below_the_end(2), Accepted),
        (0, misfit(SourceOutside)),
    ] {
        assert_eq!(result(below_the_end(4), pc), expected);
    }
}

#[test]
fn all_sources_are_outside_an_empty_image() {
    for base in [0, BASE, below_the_end(2)] {
        for pc in [0, BASE - 2, BASE, below_the_end(4), below_the_end(2)] {
            for number in [4, 5, 8, 9, 10, 11, 12, 13, 14, 15] {
                let result = check(&[], base, &entry(pc, pc, number), false);
                assert_eq!(result, misfit(SourceOutside));
            }
        }
    }
}

/// One byte of a word, whatever it is; and two or three of one whose low bits are 11.
#[test]
fn words_cut_off_by_the_end_do_not_fit() {
    for (word, offset, number) in jumps() {
        let whole = [bytes_of(0x13), bytes_of(word)].concat();
        let pc = BASE + 4;
        for length in 0..=whole.len() {
            let result = check(
                &whole[..length],
                BASE,
                &entry(pc, sum(pc, offset), number),
                false,
            );
            let expected = match length.checked_sub(4) {
                None | Some(0) => misfit(SourceOutside),
                Some(left) if left < size(word) => misfit(CutOff),
                Some(_) => Accepted,
            };
            assert_eq!(result, expected, "{word:#x}, {length} bytes");
        }
    }
}

#[test]
fn low_bits_tell_whether_two_or_three_bytes_are_enough() {
    for half in 0..=0xFFFF_u16 {
        let code = [half.to_le_bytes(), [0, 0]].concat();
        for left in [1, 2, 3] {
            let result = check(&code[..left], BASE, &entry(BASE, 0x1235, 15), true);
            let is_short = left == 1 || half & 3 == 3;
            let reason = if is_short { CutOff } else { TypeUnlike };
            assert_eq!(result, misfit(reason), "{half:#x}, {left} bytes");
        }
    }
}

/// Behind a word of two bytes there may be one more, or anything.
#[test]
fn what_comes_behind_a_word_has_no_part_in_it() {
    for behind in [&[][..], &[0xFF], &[0xFF, 0xFF], &[0xEF, 0, 0, 0x80, 7]] {
        for (word, offset, number) in jumps() {
            let code = [&bytes_of(word)[..], behind].concat();
            let entry = entry(BASE, sum(BASE, offset), number);
            assert_eq!(check(&code, BASE, &entry, false), Accepted);
        }
    }
}

#[test]
fn code_is_little_endian() {
    let call = entry(BASE, BASE + 8, 9);
    assert_eq!(
        check(&[0xef, 0x00, 0x80, 0x00], BASE, &call, false),
        Accepted
    );
    let result = check(&[0x00, 0x80, 0x00, 0xef], BASE, &call, false);
    assert_eq!(result, misfit(TypeUnlike));
    let result = check(&[0x80, 0x00, 0xef, 0x00], BASE, &call, false);
    assert_eq!(result, misfit(TypeUnlike));
    let jump = entry(BASE, BASE - 4, 11);
    assert_eq!(check(&[0xf5, 0xbf], BASE, &jump, false), Accepted);
    assert_eq!(check(&[0xbf, 0xf5], BASE, &jump, false), misfit(CutOff));
}

/// LUI, whose upper half is C.J -4: the source may be in the middle of it.
#[test]
fn any_even_source_is_the_start_of_a_word() {
    let code = bytes_of(0xbff5_50b7);
    let result = |pc, number| check(&code, BASE, &entry(pc, pc - 4, number), false);
    assert_eq!(result(BASE, 11), misfit(TypeUnlike));
    assert_eq!(result(BASE + 2, 11), Accepted);
}

/// One that is cut off and one outside would have an unlike type and a wrong target as well.
#[test]
fn of_several_reasons_the_first_counts() {
    let code = [bytes_of(0x0080_00ef), vec![0xef, 0]].concat();
    for (pc, target, number, reason) in [
        (BASE + 6, 0, 9, SourceOutside),
        (BASE + 6, 0, 10, SourceOutside),
        (BASE - 2, BASE, 4, SourceOutside),
        (BASE + 4, 0, 9, CutOff),
        (BASE + 4, 0, 10, CutOff),
        (BASE + 4, BASE + 8, 5, CutOff),
        (BASE, 0, 10, TypeUnlike),
        (BASE, 0, 15, TypeUnlike),
        (BASE, BASE + 4, 4, TypeUnlike),
        (BASE, 0, 9, TargetWrong),
    ] {
        let result = check(&code, BASE, &entry(pc, target, number), false);
        assert_eq!(result, misfit(reason));
    }
}

/// Whatever the reason of those behind it; entries that are not valid are counted too.
#[test]
fn the_first_misfit_in_logical_order_is_given() {
    let code = [bytes_of(0x0080_00ef), vec![0xef, 0]].concat();
    let fitting = [
        entry(BASE, BASE + 8, 9),
        entry(0, 0, 1),
        [BASE, 0, 0],
        entry(BASE, BASE + 9, 9),
    ];
    let misfits = [
        (entry(BASE - 2, 0, 9), SourceOutside),
        (entry(BASE + 4, 0, 9), CutOff),
        (entry(BASE, 0, 8), TypeUnlike),
        (entry(0, 0, 6), TypeUnlike),
        (entry(BASE, 0, 9), TargetWrong),
    ];
    for (first, reason) in misfits {
        for (second, _) in misfits {
            for before in 0..9 {
                for between in 0..4 {
                    let mut words: Vec<[u64; 3]> =
                        fitting.into_iter().cycle().take(before).collect();
                    words.push(first);
                    words.extend(&fitting[..between]);
                    words.push(second);
                    words.extend(fitting);
                    let result = check(&code, BASE, &words.concat(), false);
                    let index = before;
                    assert_eq!(result, Misfit { index, reason });
                }
            }
        }
    }
}

#[test]
fn no_entries_are_accepted() {
    for code in [&[][..], &[0], &[0xef], &[0; 64]] {
        for zc in FLAGS {
            assert_eq!(check(code, 0, &[], zc), Accepted);
            assert_eq!(check(code, BASE, &[], zc), Accepted);
        }
    }
}

/// There may be more than any recorder has.
#[test]
fn entries_are_not_bounded_by_a_depth() {
    let mut words = entry(BASE, BASE + 8, 9).repeat(5_000);
    let code = bytes_of(0x0080_00ef);
    assert_eq!(check(&code, BASE, &words, false), Accepted);
    words[3 * 4_999 + 1] = 0;
    let expected = Misfit {
        index: 4_999,
        reason: TargetWrong,
    };
    assert_eq!(check(&code, BASE, &words, false), expected);
}

/// Also where the words before would not fit.
#[test]
fn a_length_that_is_no_multiple_of_three_is_refused_with_6() {
    for words in [[0; 12], [u64::MAX; 12]] {
        for length in (0..12).filter(|length| length % 3 != 0) {
            let result = check(&bytes_of(0x13), BASE, &words[..length], false);
            assert_eq!(result, Refused(6), "{length} words");
        }
    }
}

#[test]
fn an_odd_base_is_refused_with_11() {
    for base in [1, 3, BASE + 1, BASE - 1, u64::MAX - 2, u64::MAX] {
        for code in [&[][..], &[0], &[0xef, 0, 0, 0]] {
            assert_eq!(check(code, base, &[], false), Refused(11), "{base:#x}");
        }
    }
}

/// An end at 2^64 is none.
#[test]
fn an_end_past_the_address_space_is_refused_with_11() {
    for distance in [2, 4, 6, 100, 4_096] {
        let base = below_the_end(distance);
        for length in 0..=distance + 4 {
            let code = vec![0; length as usize];
            let expected = if length <= distance {
                Accepted
            } else {
                Refused(11)
            };
            assert_eq!(check(&code, base, &[], true), expected);
        }
    }
}

#[test]
fn refusals_come_6_before_11_and_both_before_misfits() {
    let code = bytes_of(0x0080_00ef);
    let misfitting = [BASE | 1, 0, 9, BASE | 1];
    for base in [BASE + 1, below_the_end(2), u64::MAX] {
        assert_eq!(check(&code, base, &misfitting, false), Refused(6));
        assert_eq!(check(&code, base, &misfitting[..3], false), Refused(11));
    }
    assert_eq!(check(&code, BASE, &misfitting, false), Refused(6));
    let result = check(&code, BASE, &misfitting[..3], false);
    assert_eq!(result, misfit(TargetWrong));
}

#[test]
fn reasons_have_their_numbers() {
    let reasons = [SourceOutside, CutOff, TypeUnlike, TargetWrong];
    assert_eq!(reasons.map(Reason::number), [1, 2, 3, 4]);
}

/// The retired words of a sample trace, which were executed.
fn sample(name: &str) -> Vec<Retired> {
    let folder = Path::new(env!("CARGO_MANIFEST_DIR")).join("../examples/traces");
    let bytes = fs::read(folder.join(name)).expect("a sample trace");
    let (rows, _) = bytes.as_chunks();
    rows.iter()
        .map(|bytes| decode(row_of(bytes)).expect("a well-formed row"))
        .filter_map(|event| match event {
            Event::Retired(retired) => Some(retired),
            _ => None,
        })
        .collect()
}

/// The code that the words lie in, as far as it is known, and its base.
fn image_of(sample: &[Retired]) -> (Vec<u8>, u64) {
    let pcs = || sample.iter().map(|retired| retired.pc);
    let (base, last) = (pcs().min().unwrap_or(0), pcs().max().unwrap_or(0));
    let mut code = vec![0; (last - base) as usize + 4];
    for retired in sample {
        let bytes = bytes_of(retired.word);
        let place = (retired.pc - base) as usize;
        code[place..place + bytes.len()].copy_from_slice(&bytes);
    }
    (code, base)
}

/// None of them has another target, if it has an offset.
#[test]
fn executed_words_went_where_they_must() {
    for name in ["user.rows", "guest.rows"] {
        let sample = sample(name);
        let (code, base) = image_of(&sample);
        let mut with_offset = 0;
        for retired in &sample {
            let number = u64::from(transfer_type(retired.word, retired.taken, false));
            let fitting = entry(retired.pc, retired.target, number);
            assert_eq!(
                check(&code, base, &fitting, false),
                Accepted,
                "{retired:x?}"
            );
            let other = entry(retired.pc, retired.target ^ 2, number);
            let result = check(&code, base, &other, false);
            let has_offset = matches!(number, 4 | 5 | 9 | 11 | 15);
            let expected = if has_offset {
                misfit(TargetWrong)
            } else {
                Accepted
            };
            assert_eq!(result, expected, "{retired:x?}");
            with_offset += usize::from(has_offset);
        }
        assert!(with_offset > 2_000, "{name}: {with_offset}");
    }
}

/// The rules once more, by shifts on signed numbers and by sums that wrap.
fn expected(code: &[u8], base: u64, [source, target, data]: [u64; 3], zc: bool) -> u64 {
    let (pc, number) = (source & !1, data & 15);
    if source & 1 == 0 || (1..=3).contains(&number) {
        return 0;
    }
    if number == 0 || number == 6 || number == 7 {
        return 3;
    }
    let at = pc.wrapping_sub(base);
    if at >= code.len() as u64 {
        return 1;
    }
    let rest = &code[at as usize..];
    if rest.len() < 2 || rest[0] & 3 == 3 && rest.len() < 4 {
        return 2;
    }
    let low = u32::from(rest[0]) | u32::from(rest[1]) << 8;
    let word = match low & 3 {
        3 => low | u32::from(rest[2]) << 16 | u32::from(rest[3]) << 24,
        _ => low,
    };
    let own = u64::from(transfer_type(word, true, zc));
    if own != number && (own, number) != (5, 4) {
        return 3;
    }
    let distance = match (number, signed_offset(word)) {
        (_, None) => return 0,
        (4, _) => i64::from(length(word)),
        (_, Some(offset)) => i64::from(offset),
    };
    4 * u64::from(pc.wrapping_add(distance as u64) != target & !1)
}

/// The sign comes down with the shifts of a signed number.
fn signed_offset(word: u32) -> Option<i32> {
    let word = word as i32;
    let compressed = word << 19;
    if word & 0x7f == 0x6f {
        Some(word >> 31 << 20 | word & 0xff000 | word >> 9 & 0x800 | word >> 20 & 0x7fe)
    } else if word & 0x7f == 0x63 {
        Some(word >> 31 << 12 | word << 4 & 0x800 | word >> 20 & 0x7e0 | word >> 7 & 0x1e)
    } else if word & 0xe003 == 0xa001 {
        let middle = word << 2 & 0x400 | word >> 1 & 0x300 | word << 1 & 0x80 | word >> 1 & 0x40;
        let low = word << 3 & 0x20 | word >> 7 & 0x10 | word >> 2 & 0xe;
        Some(compressed >> 31 << 11 | middle | low)
    } else if word & 0xc003 == 0xc001 {
        let low = word << 3 & 0x20 | word >> 7 & 0x18 | word >> 2 & 0x6;
        Some(compressed >> 31 << 8 | word << 1 & 0xc0 | low)
    } else {
        None
    }
}

fn next(state: &mut u64) -> u64 {
    *state ^= *state << 13;
    *state ^= *state >> 7;
    *state ^= *state << 17;
    *state
}

/// A word of any kind: any bits, or those of a kind with an offset or of the switched kinds.
fn random_word(state: &mut u64) -> Vec<u8> {
    let bits = next(state) as u32;
    let word = match next(state) % 8 {
        0 => bits,
        1 => bits & !0x7f | 0x6f,
        2 => bits & !0x107f | 0x63,
        3 => bits & 0x1ffc | 0xa001,
        4 => bits & 0x3ffc | 0xc001,
        5 => bits & 0x1ffc | 0xa002,
        6 => bits & 0x1f80 | 0x8002,
        _ => bits & !0x707f | 0x67,
    };
    bytes_of(word)
}

/// Images at both ends of the address space and elsewhere, with entries in them and around them, most
/// with the type that the word has, and many with a target that it has.
#[test]
fn random_entries_are_judged_as_by_other_arithmetic() {
    let mut state = 0x9E37_79B9_7F4A_7C15;
    let mut counts = [0; 5];
    for _ in 0..40_000 {
        let mut code: Vec<u8> = (0..next(&mut state) % 12)
            .flat_map(|_| random_word(&mut state))
            .collect();
        code.truncate(code.len().saturating_sub((next(&mut state) % 4) as usize));
        let room = code.len() as u64 + next(&mut state) % 3;
        let base = match next(&mut state) % 4 {
            0 => 0,
            1 => below_the_end(room + room % 2),
            _ => next(&mut state) & !1 & u64::MAX >> 1,
        };
        let zc = next(&mut state) % 2 == 1;
        for _ in 0..8 {
            let span = code.len() as u64 + 4;
            let pc = base.wrapping_add(next(&mut state) % span).wrapping_sub(2) & !1;
            let at = pc.wrapping_sub(base).min(code.len() as u64) as usize;
            let mut start = [0; 4];
            for (place, byte) in start.iter_mut().zip(&code[at..]) {
                *place = *byte;
            }
            let word = u32::from_le_bytes(start);
            let taken = next(&mut state) % 2 == 1;
            let number = match next(&mut state) % 4 {
                0 => next(&mut state) % 16,
                _ => transfer_type(word, taken, zc).into(),
            };
            let offset = signed_offset(word).unwrap_or(0);
            let target = match next(&mut state) % 4 {
                0 => next(&mut state),
                1 => pc.wrapping_add(length(word).into()),
                _ => pc.wrapping_add_signed(offset.into()),
            };
            let misp = next(&mut state) % 2;
            let upper = next(&mut state) & !0xF;
            let valid = (next(&mut state) % 8).min(1);
            let words = [pc | valid, target ^ misp, upper | number];
            let answer = expected(&code, base, words, zc);
            let given = match check(&code, base, &words, zc) {
                Accepted => 0,
                Misfit { index: 0, reason } => reason.number(),
                other => panic!("{other:?}"),
            };
            assert_eq!(given, answer, "{code:x?} at {base:#x}, {words:x?}");
            counts[answer as usize] += 1;
        }
    }
    assert!(counts.iter().all(|count| *count > 5_000), "{counts:?}");
}
