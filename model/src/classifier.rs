//! The type of a retired instruction word, found in a list of masks and patterns, and its length.

pub(crate) const NONE: u8 = 0;
pub(crate) const NOT_TAKEN_BRANCH: u8 = 4;
pub(crate) const TAKEN_BRANCH: u8 = 5;
pub(crate) const INDIRECT_CALL: u8 = 8;
pub(crate) const DIRECT_CALL: u8 = 9;
const INDIRECT_JUMP: u8 = 10;
const DIRECT_JUMP: u8 = 11;
pub(crate) const SWAP: u8 = 12;
pub(crate) const RETURN: u8 = 13;
const OTHER_INDIRECT_JUMP: u8 = 14;
const OTHER_DIRECT_JUMP: u8 = 15;

// The fields of 32-bit words.
pub(crate) const OPCODE: u32 = 0x7f;
const RD: u32 = 0x1f << 7;
const FUNCT3: u32 = 0x7 << 12;
const RS1: u32 = 0x1f << 15;

const fn rd(register: u32) -> u32 {
    register << 7
}

const fn funct3(code: u32) -> u32 {
    code << 12
}

const fn rs1(register: u32) -> u32 {
    register << 15
}

pub(crate) const JAL: u32 = 0x6f;
const JALR: u32 = 0x67 | funct3(0);
pub(crate) const BRANCH: u32 = 0x63;

/// The bits that tell JALR from all other 32-bit words.
const IS_JALR: u32 = OPCODE | FUNCT3;

// The fields of compressed words. Their rs1 lies where 32-bit words have rd.
const QUADRANT: u32 = 0x3;
const C_RS2: u32 = 0x1f << 2;
const C_RS1: u32 = 0x1f << 7;
const C_FUNCT4: u32 = 0xf << 12;
const C_FUNCT3: u32 = 0x7 << 13;

const fn c_rs1(register: u32) -> u32 {
    register << 7
}

const C_JR: u32 = 0b1000 << 12 | 0b10;
const C_JALR: u32 = 0b1001 << 12 | 0b10;
pub(crate) const C_J: u32 = 0b101 << 13 | 0b01;
pub(crate) const C_BEQZ: u32 = 0b110 << 13 | 0b01;
pub(crate) const C_BNEZ: u32 = 0b111 << 13 | 0b01;

/// The bits that tell C.JR and C.JALR from all others; with rs2 not 0 they are C.MV and C.ADD.
const IS_C_REGISTER_JUMP: u32 = C_FUNCT4 | C_RS2 | QUADRANT;

/// The bits that tell C.J, C.BEQZ and C.BNEZ from all others.
pub(crate) const IS_C_OFFSET_JUMP: u32 = C_FUNCT3 | QUADRANT;

// The fields of table jumps (Zcmt) and of words that push and pop (Zcmp).
const CM_FUNCT6: u32 = 0x3f << 10;
const CM_FUNCT2: u32 = 0x3 << 8;

const fn cm_funct2(code: u32) -> u32 {
    code << 8
}

const fn cm_rlist(code: u32) -> u32 {
    code << 4
}

const fn cm_index(number: u32) -> u32 {
    number << 2
}

// CM.JT and CM.JALT differ in the index alone.
const CM_JT: u32 = 0b101000 << 10 | 0b10;
const CM_JALT: u32 = CM_JT;
const CM_POPRETZ: u32 = 0b101111 << 10 | cm_funct2(0b00) | 0b10;
const CM_POPRET: u32 = 0b101111 << 10 | cm_funct2(0b10) | 0b10;

/// The bits that tell table jumps from all others.
const IS_CM_TABLE_JUMP: u32 = CM_FUNCT6 | QUADRANT;

/// The bits of the index that are all 0 up to 31, and never from 32 on.
const CM_LARGE_INDEX: u32 = cm_index(0b1110_0000);

/// The bits that tell CM.POPRET and CM.POPRETZ from all others, CM.PUSH and CM.POP among them.
const IS_CM_POP_RETURN: u32 = CM_FUNCT6 | CM_FUNCT2 | QUADRANT;

/// The bits of rlist that are all 0 up to 3, and never from 4 on.
const CM_LARGE_RLIST: u32 = cm_rlist(0b1100);

/// The words that equal `pattern` in the bits of `mask` have the type `number`.
struct Rule {
    mask: u32,
    pattern: u32,
    number: u8,
}

const fn rule(mask: u32, pattern: u32, number: u8) -> Rule {
    Rule {
        mask,
        pattern,
        number,
    }
}

/// 32-bit words. The first rule that fits decides, so "other" registers need no rule of their own.
const RULES: &[Rule] = &[
    // JALR x1,x5 and JALR x5,x1; all other JALR with link rd are calls.
    rule(IS_JALR | RD | RS1, JALR | rd(1) | rs1(5), SWAP),
    rule(IS_JALR | RD | RS1, JALR | rd(5) | rs1(1), SWAP),
    rule(IS_JALR | RD, JALR | rd(1), INDIRECT_CALL),
    rule(IS_JALR | RD, JALR | rd(5), INDIRECT_CALL),
    // From here on rd is not link: a link base returns, then only rd counts.
    rule(IS_JALR | RS1, JALR | rs1(1), RETURN),
    rule(IS_JALR | RS1, JALR | rs1(5), RETURN),
    rule(IS_JALR | RD, JALR | rd(0), INDIRECT_JUMP),
    rule(IS_JALR, JALR, OTHER_INDIRECT_JUMP),
    // JAL
    rule(OPCODE | RD, JAL | rd(1), DIRECT_CALL),
    rule(OPCODE | RD, JAL | rd(5), DIRECT_CALL),
    rule(OPCODE | RD, JAL | rd(0), DIRECT_JUMP),
    rule(OPCODE, JAL, OTHER_DIRECT_JUMP),
    // BEQ and BNE have funct3 00x; BLT, BGE, BLTU and BGEU have 1xx; 01x is reserved.
    rule(OPCODE | funct3(0b110), BRANCH, TAKEN_BRANCH),
    rule(OPCODE | funct3(0b100), BRANCH | funct3(0b100), TAKEN_BRANCH),
];

/// Compressed words. No mask reaches into the upper half.
const COMPRESSED_RULES: &[Rule] = &[
    // C.JR x0 is reserved, and the code of C.JALR x0 is C.EBREAK.
    rule(IS_C_REGISTER_JUMP | C_RS1, C_JR | c_rs1(0), NONE),
    rule(IS_C_REGISTER_JUMP | C_RS1, C_JALR | c_rs1(0), NONE),
    // C.JR
    rule(IS_C_REGISTER_JUMP | C_RS1, C_JR | c_rs1(1), RETURN),
    rule(IS_C_REGISTER_JUMP | C_RS1, C_JR | c_rs1(5), RETURN),
    rule(IS_C_REGISTER_JUMP, C_JR, INDIRECT_JUMP),
    // C.JALR, whose rd is always x1
    rule(IS_C_REGISTER_JUMP | C_RS1, C_JALR | c_rs1(5), SWAP),
    rule(IS_C_REGISTER_JUMP, C_JALR, INDIRECT_CALL),
    // Jumps and branches with an offset
    rule(IS_C_OFFSET_JUMP, C_J, DIRECT_JUMP),
    rule(IS_C_OFFSET_JUMP, C_BEQZ, TAKEN_BRANCH),
    rule(IS_C_OFFSET_JUMP, C_BNEZ, TAKEN_BRANCH),
];

/// Table jumps and pop-returns, which lie where other machines have C.FSDSP. No other compressed rule
/// reaches there, and no mask into the upper half.
const ZC_RULES: &[Rule] = &[
    rule(IS_CM_TABLE_JUMP | CM_LARGE_INDEX, CM_JT, DIRECT_JUMP),
    rule(IS_CM_TABLE_JUMP, CM_JALT, DIRECT_CALL),
    // rlist 0 to 3 is reserved.
    rule(IS_CM_POP_RETURN | CM_LARGE_RLIST, CM_POPRET, NONE),
    rule(IS_CM_POP_RETURN | CM_LARGE_RLIST, CM_POPRETZ, NONE),
    rule(IS_CM_POP_RETURN, CM_POPRET, RETURN),
    rule(IS_CM_POP_RETURN, CM_POPRETZ, RETURN),
];

/// How many bytes the word has. Those of longer formats have 4 here, and no type.
pub fn length(word: u32) -> u8 {
    if word & QUADRANT == 0b11 {
        4
    } else {
        2
    }
}

/// The number of the word's transfer type, 0 if it has none; `taken` matters to branches only, and
/// `zc` to table jumps and pop-returns only.
pub fn transfer_type(word: u32, taken: bool, zc: bool) -> u8 {
    let number = rules(word, zc)
        .find(|rule| word & rule.mask == rule.pattern)
        .map_or(NONE, |rule| rule.number);
    if number == TAKEN_BRANCH && !taken {
        NOT_TAKEN_BRANCH
    } else {
        number
    }
}

/// The rules for words of this word's length.
fn rules(word: u32, zc: bool) -> impl Iterator<Item = &'static Rule> {
    let (rules, switched): (&[Rule], &[Rule]) = match (length(word), zc) {
        (4, _) => (RULES, &[]),
        (_, false) => (COMPRESSED_RULES, &[]),
        (_, true) => (COMPRESSED_RULES, ZC_RULES),
    };
    rules.iter().chain(switched)
}

/// The name of a number that `transfer_type` gives. Panics for all others.
pub fn name(number: u8) -> &'static str {
    match number {
        NONE => "none",
        NOT_TAKEN_BRANCH | TAKEN_BRANCH => "branch",
        INDIRECT_CALL => "indirect call",
        DIRECT_CALL => "direct call",
        INDIRECT_JUMP => "indirect jump",
        DIRECT_JUMP => "direct jump",
        SWAP => "co-routine swap",
        RETURN => "function return",
        OTHER_INDIRECT_JUMP => "other indirect jump",
        OTHER_DIRECT_JUMP => "other direct jump",
        _ => panic!("no word has the type {number}"),
    }
}

#[cfg(test)]
mod tests {
    use super::*;

    #[test]
    fn patterns_lie_in_their_masks() {
        for rule in [RULES, COMPRESSED_RULES, ZC_RULES].into_iter().flatten() {
            assert_eq!(rule.pattern & !rule.mask, 0, "pattern {:#x}", rule.pattern);
        }
    }

    /// With ones in all bits outside its mask, a word names no register, index or rlist of an earlier
    /// rule.
    #[test]
    fn no_rule_is_hidden_by_an_earlier_one() {
        for rules in [RULES, COMPRESSED_RULES, ZC_RULES] {
            for (index, rule) in rules.iter().enumerate() {
                let word = rule.pattern | !rule.mask;
                let first = rules.iter().position(|r| word & r.mask == r.pattern);
                assert_eq!(first, Some(index), "pattern {:#x}", rule.pattern);
            }
        }
    }

    #[test]
    fn compressed_masks_stay_in_the_low_half() {
        let mut rules = COMPRESSED_RULES.iter().chain(ZC_RULES);
        assert!(rules.all(|rule| rule.mask <= 0xffff));
    }

    /// C.FSDSP has funct3 101 in quadrant 10.
    #[test]
    fn only_the_switched_rules_reach_the_codes_of_c_fsdsp() {
        for code in 0..1 << 11 {
            let word = 0b101 << 13 | code << 2 | 0b10;
            let mut rules = COMPRESSED_RULES.iter();
            assert!(rules.all(|rule| word & rule.mask != rule.pattern));
        }
        for rule in ZC_RULES {
            assert_eq!(rule.mask & 0xe003, 0xe003);
            assert_eq!(rule.pattern & 0xe003, 0xa002);
        }
    }
}
