//! Instruction words: their fields, their operations and their lines.

#[derive(Clone, Copy, Debug, PartialEq, Eq)]
#[repr(u8)]
pub enum Op {
    Nop = 0,
    Ld = 1,
    Ldr = 2,
    St = 3,
    Str = 4,
    La = 5,
    Lar = 6,
    Br = 8,
    Brl = 9,
    Add = 12,
    Addi = 13,
    Sub = 14,
    Neg = 15,
    And = 20,
    Andi = 21,
    Or = 22,
    Ori = 23,
    Not = 24,
    Shr = 26,
    Shra = 27,
    Shl = 28,
    Shc = 29,
    Stop = 31,
}

pub const OPS: [Op; 23] = [
    Op::Nop,
    Op::Ld,
    Op::Ldr,
    Op::St,
    Op::Str,
    Op::La,
    Op::Lar,
    Op::Br,
    Op::Brl,
    Op::Add,
    Op::Addi,
    Op::Sub,
    Op::Neg,
    Op::And,
    Op::Andi,
    Op::Or,
    Op::Ori,
    Op::Not,
    Op::Shr,
    Op::Shra,
    Op::Shl,
    Op::Shc,
    Op::Stop,
];

impl Op {
    pub fn code(self) -> u32 {
        self as u32
    }

    pub fn of_code(code: u32) -> Option<Op> {
        let op = match code {
            0 => Op::Nop,
            1 => Op::Ld,
            2 => Op::Ldr,
            3 => Op::St,
            4 => Op::Str,
            5 => Op::La,
            6 => Op::Lar,
            8 => Op::Br,
            9 => Op::Brl,
            12 => Op::Add,
            13 => Op::Addi,
            14 => Op::Sub,
            15 => Op::Neg,
            20 => Op::And,
            21 => Op::Andi,
            22 => Op::Or,
            23 => Op::Ori,
            24 => Op::Not,
            26 => Op::Shr,
            27 => Op::Shra,
            28 => Op::Shl,
            29 => Op::Shc,
            31 => Op::Stop,
            _ => return None,
        };
        Some(op)
    }

    pub fn name(self) -> &'static str {
        match self {
            Op::Nop => "nop",
            Op::Ld => "ld",
            Op::Ldr => "ldr",
            Op::St => "st",
            Op::Str => "str",
            Op::La => "la",
            Op::Lar => "lar",
            Op::Br => "br",
            Op::Brl => "brl",
            Op::Add => "add",
            Op::Addi => "addi",
            Op::Sub => "sub",
            Op::Neg => "neg",
            Op::And => "and",
            Op::Andi => "andi",
            Op::Or => "or",
            Op::Ori => "ori",
            Op::Not => "not",
            Op::Shr => "shr",
            Op::Shra => "shra",
            Op::Shl => "shl",
            Op::Shc => "shc",
            Op::Stop => "stop",
        }
    }
}

/// A word read as an instruction.
#[derive(Clone, Copy, Debug, PartialEq, Eq)]
pub struct Word(pub u32);

impl Word {
    fn bits(self, high: u32, low: u32) -> u32 {
        (self.0 >> low) & ((1 << (high - low + 1)) - 1)
    }

    /// The bits `sign` to 0 as a signed number, extended to 32 bits.
    fn signed(self, sign: u32) -> u32 {
        let up = 31 - sign;
        (((self.0 << up) as i32) >> up) as u32
    }

    pub fn op(self) -> Option<Op> {
        Op::of_code(self.bits(31, 27))
    }

    pub fn ra(self) -> usize {
        self.bits(26, 22) as usize
    }

    pub fn rb(self) -> usize {
        self.bits(21, 17) as usize
    }

    pub fn rc(self) -> usize {
        self.bits(16, 12) as usize
    }

    pub fn c1(self) -> u32 {
        self.signed(21)
    }

    pub fn c2(self) -> u32 {
        self.signed(16)
    }

    pub fn condition_code(self) -> u32 {
        self.bits(2, 0)
    }

    pub fn shift_count(self) -> u32 {
        self.bits(4, 0)
    }
}

/// Whether the condition with the code `k` holds for a value.
pub fn condition_holds(k: u32, value: u32) -> bool {
    let negative = value >> 31 == 1;
    match k {
        1 => true,
        2 => value == 0,
        3 => value != 0,
        4 => !negative,
        5 => negative,
        _ => false,
    }
}

#[derive(Clone, Copy, Debug, PartialEq, Eq)]
pub enum Form {
    Bare,
    Displaced,
    Relative,
    Branch,
    BranchAndLink,
    TwoSources,
    Immediate,
    OneSource,
    ShiftByConstant,
    ShiftByRegister,
}

pub fn form(op: Op, word: Word) -> Form {
    match op {
        Op::Nop | Op::Stop => Form::Bare,
        Op::Ld | Op::St | Op::La => Form::Displaced,
        Op::Ldr | Op::Str | Op::Lar => Form::Relative,
        Op::Br => Form::Branch,
        Op::Brl => Form::BranchAndLink,
        Op::Add | Op::Sub | Op::And | Op::Or => Form::TwoSources,
        Op::Addi | Op::Andi | Op::Ori => Form::Immediate,
        Op::Neg | Op::Not => Form::OneSource,
        Op::Shr | Op::Shra | Op::Shl | Op::Shc if word.shift_count() == 0 => Form::ShiftByRegister,
        Op::Shr | Op::Shra | Op::Shl | Op::Shc => Form::ShiftByConstant,
    }
}

const fn span(high: u32, low: u32) -> u32 {
    (u32::MAX >> (31 - high)) & (u32::MAX << low)
}

/// The bits that the line of such a word does not show.
pub fn stray_bits(form: Form) -> u32 {
    match form {
        Form::Bare => span(26, 0),
        Form::Branch => span(26, 22) | span(11, 3),
        Form::BranchAndLink => span(11, 3),
        Form::TwoSources => span(11, 0),
        Form::OneSource => span(21, 17) | span(11, 0),
        Form::ShiftByConstant => span(16, 12) | span(11, 5),
        Form::ShiftByRegister => span(11, 5),
        Form::Displaced | Form::Relative | Form::Immediate => 0,
    }
}

/// The line of a word.
pub fn line(value: u32) -> String {
    let word = Word(value);
    match word.op() {
        Some(op) if value & stray_bits(form(op, word)) == 0 => instruction_line(op, word),
        _ => format!("word {value:08X}"),
    }
}

fn instruction_line(op: Op, word: Word) -> String {
    let name = op.name();
    let (ra, rb, rc) = (word.ra(), word.rb(), word.rc());
    let (c1, c2) = (word.c1() as i32, word.c2() as i32);
    let (k, n) = (word.condition_code(), word.shift_count());
    match form(op, word) {
        Form::Bare => name.to_string(),
        Form::Displaced if rb == 0 => format!("{name} r{ra}, {c2}"),
        Form::Displaced => format!("{name} r{ra}, {c2}(r{rb})"),
        Form::Relative => format!("{name} r{ra}, {c1}"),
        Form::Branch => format!("{name} r{rb}, r{rc}, {k}"),
        Form::BranchAndLink => format!("{name} r{ra}, r{rb}, r{rc}, {k}"),
        Form::TwoSources | Form::ShiftByRegister => format!("{name} r{ra}, r{rb}, r{rc}"),
        Form::Immediate => format!("{name} r{ra}, r{rb}, {c2}"),
        Form::OneSource => format!("{name} r{ra}, r{rc}"),
        Form::ShiftByConstant => format!("{name} r{ra}, r{rb}, {n}"),
    }
}

/// Putting fields into their places. Values are cut to their field.
pub mod put {
    use super::Op;

    fn field(value: u32, high: u32, low: u32) -> u32 {
        (value & ((1 << (high - low + 1)) - 1)) << low
    }

    pub fn registers(op: Op, ra: u32, rb: u32, rc: u32, low: u32) -> u32 {
        field(op.code(), 31, 27)
            | field(ra, 26, 22)
            | field(rb, 21, 17)
            | field(rc, 16, 12)
            | field(low, 11, 0)
    }

    pub fn with_c2(op: Op, ra: u32, rb: u32, c2: u32) -> u32 {
        field(op.code(), 31, 27) | field(ra, 26, 22) | field(rb, 21, 17) | field(c2, 16, 0)
    }

    pub fn with_c1(op: Op, ra: u32, c1: u32) -> u32 {
        field(op.code(), 31, 27) | field(ra, 26, 22) | field(c1, 21, 0)
    }
}

#[cfg(test)]
mod tests {
    use super::*;
    use crate::random::Random;

    #[test]
    fn codes_and_operations_go_both_ways() {
        for op in OPS {
            assert_eq!(Op::of_code(op.code()), Some(op));
        }
        let unassigned: Vec<u32> = (0..32).filter(|&c| Op::of_code(c).is_none()).collect();
        assert_eq!(unassigned, [7, 10, 11, 16, 17, 18, 19, 25, 30]);
    }

    #[test]
    fn the_lines_of_the_page() {
        assert_eq!(line(0x68C2003A), "addi r3, r1, 58");
        assert_eq!(line(0xE1C60004), "shl r7, r3, 4");
        assert_eq!(line(0x61885000), "add r6, r4, r5");
        assert_eq!(line(0x1A4000D4), "st r9, 212");
        assert_eq!(line(0x0841FFFF), "ld r1, -1");
        assert_eq!(line(0x60000001), "word 60000001");
    }

    #[test]
    fn constants_keep_their_sign() {
        assert_eq!(Word(0x0020_0000).c1() as i32, -(1 << 21));
        assert_eq!(Word(0x001F_FFFF).c1() as i32, (1 << 21) - 1);
        assert_eq!(Word(0x0001_0000).c2() as i32, -(1 << 16));
        assert_eq!(Word(0x0000_FFFF).c2() as i32, (1 << 16) - 1);
    }

    #[test]
    fn conditions() {
        let values = [0, 1, 0x7FFF_FFFF, 0x8000_0000, 0xFFFF_FFFF];
        let holding = |k| values.map(|v| condition_holds(k, v));
        assert_eq!(holding(0), [false; 5]);
        assert_eq!(holding(1), [true; 5]);
        assert_eq!(holding(2), [true, false, false, false, false]);
        assert_eq!(holding(3), [false, true, true, true, true]);
        assert_eq!(holding(4), [true, true, true, false, false]);
        assert_eq!(holding(5), [false, false, false, true, true]);
        assert_eq!(holding(6), [false; 5]);
        assert_eq!(holding(7), [false; 5]);
    }

    /// The fields that a line shows, put back, give the word again.
    fn put_back(op: Op, word: Word) -> u32 {
        let (ra, rb, rc) = (word.ra() as u32, word.rb() as u32, word.rc() as u32);
        match form(op, word) {
            Form::Bare => put::registers(op, 0, 0, 0, 0),
            Form::Displaced | Form::Immediate => put::with_c2(op, ra, rb, word.c2()),
            Form::Relative => put::with_c1(op, ra, word.c1()),
            Form::Branch => put::registers(op, 0, rb, rc, word.condition_code()),
            Form::BranchAndLink => put::registers(op, ra, rb, rc, word.condition_code()),
            Form::TwoSources | Form::ShiftByRegister => put::registers(op, ra, rb, rc, 0),
            Form::OneSource => put::registers(op, ra, 0, rc, 0),
            Form::ShiftByConstant => put::registers(op, ra, rb, 0, word.shift_count()),
        }
    }

    #[test]
    fn a_line_that_is_no_word_line_tells_its_word() {
        let mut random = Random::new(11);
        let mut shown = 0;
        for _ in 0..200_000 {
            let value = random.u32() & random.u32();
            if line(value).starts_with("word ") {
                continue;
            }
            let word = Word(value);
            assert_eq!(put_back(word.op().unwrap(), word), value);
            shown += 1;
        }
        assert!(shown > 1000);
    }

    #[test]
    fn exactly_the_stray_bits_make_a_word_line() {
        let plain = [
            put::registers(Op::Nop, 0, 0, 0, 0),
            put::registers(Op::Br, 0, 3, 4, 5),
            put::registers(Op::Brl, 2, 3, 4, 5),
            put::registers(Op::Add, 1, 2, 3, 0),
            put::registers(Op::Not, 1, 0, 3, 0),
            put::registers(Op::Shc, 1, 2, 0, 31),
            put::registers(Op::Shr, 1, 2, 3, 0),
            put::with_c2(Op::Ori, 1, 2, 0x1ABCD),
            put::with_c1(Op::Lar, 1, 0x3ABCDE),
        ];
        for value in plain {
            let word = Word(value);
            let op = word.op().unwrap();
            let stray = stray_bits(form(op, word));
            for bit in 0..27 {
                let flipped = value ^ (1 << bit);
                let same_form = form(op, Word(flipped)) == form(op, word);
                if same_form {
                    let is_word = line(flipped).starts_with("word ");
                    assert_eq!(is_word, stray >> bit & 1 == 1, "{value:08X} bit {bit}");
                }
            }
        }
    }
}
