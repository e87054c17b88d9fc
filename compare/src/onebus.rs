//! The one-bus core: one control step a clock, from a table of rows of signals.

use crate::isa::{condition_holds, Op, Word};
use crate::memory::Memory;

/// The signals, in the order of the bits of a control word.
#[derive(Clone, Copy, Debug, PartialEq, Eq)]
#[repr(u8)]
pub enum Signal {
    PcOut,
    MdOut,
    COut,
    ROut,
    BaOut,
    C1Out,
    C2Out,
    MaIn,
    MdIn,
    IrIn,
    PcIn,
    ConToPcIn,
    AIn,
    CIn,
    RIn,
    ConIn,
    Ld,
    Gra,
    Grb,
    Grc,
    Add,
    Sub,
    And,
    Or,
    Neg,
    Not,
    CEqualsB,
    Inc4,
    Shr,
    Shra,
    Shl,
    Shc,
    Read,
    Write,
    Wait,
    Decr,
    Goto6,
    Stop,
    End,
    NIsZero,
    NIsNotZero,
}

use Signal::*;

/// A control word: the signals of one step.
#[derive(Clone, Copy, Debug, PartialEq, Eq)]
pub struct Row(u64);

const fn row(signals: &[Signal]) -> Row {
    let mut bits = 0;
    let mut at = 0;
    while at < signals.len() {
        bits |= 1 << signals[at] as u64;
        at += 1;
    }
    Row(bits)
}

impl Row {
    pub fn has(self, signal: Signal) -> bool {
        self.0 >> signal as u64 & 1 == 1
    }

    const fn with(self, signal: Signal) -> Row {
        Row(self.0 | 1 << signal as u64)
    }
}

const FETCH: [Row; 3] = [
    row(&[PcOut, MaIn, Inc4, CIn]),
    row(&[COut, PcIn, Read, Wait]),
    row(&[MdOut, IrIn]),
];

const RESULT_TO_RA: Row = row(&[COut, Gra, RIn, End]);
const RB_TO_A: Row = row(&[Grb, ROut, AIn]);
const BASE_TO_A: Row = row(&[Grb, BaOut, AIn]);
const PC_TO_A: Row = row(&[PcOut, AIn]);
const ADD_C2: Row = row(&[C2Out, Add, CIn]);
const ADD_C1: Row = row(&[C1Out, Add, CIn]);
const RESULT_TO_MA: Row = row(&[COut, MaIn]);
const LOAD: Row = row(&[Read, Wait]);
const LOADED_TO_RA: Row = row(&[MdOut, Gra, RIn, End]);
const RA_TO_MD: Row = row(&[Gra, ROut, MdIn]);
const STORE: Row = row(&[Write, Wait, End]);
const TEST_RC: Row = row(&[Grc, ROut, ConIn]);

const NOP: [Row; 1] = [row(&[End])];
const STOP: [Row; 1] = [row(&[Stop, End])];
const BR: [Row; 2] = [TEST_RC, row(&[Grb, ROut, ConToPcIn, End])];
const BRL: [Row; 4] = [
    TEST_RC,
    row(&[PcOut, CEqualsB, CIn]),
    row(&[Grb, ROut, ConToPcIn]),
    RESULT_TO_RA,
];
const LA: [Row; 3] = [BASE_TO_A, ADD_C2, RESULT_TO_RA];
const LAR: [Row; 3] = [PC_TO_A, ADD_C1, RESULT_TO_RA];
const LD: [Row; 5] = [BASE_TO_A, ADD_C2, RESULT_TO_MA, LOAD, LOADED_TO_RA];
const LDR: [Row; 5] = [PC_TO_A, ADD_C1, RESULT_TO_MA, LOAD, LOADED_TO_RA];
const ST: [Row; 5] = [BASE_TO_A, ADD_C2, RESULT_TO_MA, RA_TO_MD, STORE];
const STR: [Row; 5] = [PC_TO_A, ADD_C1, RESULT_TO_MA, RA_TO_MD, STORE];

const fn one_source(function: Signal) -> [Row; 2] {
    [row(&[Grc, ROut, CIn]).with(function), RESULT_TO_RA]
}

const fn two_sources(function: Signal) -> [Row; 3] {
    [RB_TO_A, row(&[Grc, ROut, CIn]).with(function), RESULT_TO_RA]
}

const fn immediate(function: Signal) -> [Row; 3] {
    [RB_TO_A, row(&[C2Out, CIn]).with(function), RESULT_TO_RA]
}

const fn shift(function: Signal) -> [Row; 5] {
    [
        row(&[C1Out, Ld]),
        row(&[NIsZero, Grc, ROut, Ld]),
        row(&[Grb, ROut, CEqualsB, CIn]),
        row(&[NIsNotZero, COut, CIn, Decr, Goto6]).with(function),
        RESULT_TO_RA,
    ]
}

const NEG: [Row; 2] = one_source(Neg);
const NOT: [Row; 2] = one_source(Not);
const ADD: [Row; 3] = two_sources(Add);
const SUB: [Row; 3] = two_sources(Sub);
const AND: [Row; 3] = two_sources(And);
const OR: [Row; 3] = two_sources(Or);
const ADDI: [Row; 3] = immediate(Add);
const ANDI: [Row; 3] = immediate(And);
const ORI: [Row; 3] = immediate(Or);
const SHR: [Row; 5] = shift(Shr);
const SHRA: [Row; 5] = shift(Shra);
const SHL: [Row; 5] = shift(Shl);
const SHC: [Row; 5] = shift(Shc);

/// The rows of an operation, from T3 on.
pub fn rows(op: Op) -> &'static [Row] {
    match op {
        Op::Nop => &NOP,
        Op::Stop => &STOP,
        Op::Br => &BR,
        Op::Brl => &BRL,
        Op::Neg => &NEG,
        Op::Not => &NOT,
        Op::Add => &ADD,
        Op::Sub => &SUB,
        Op::And => &AND,
        Op::Or => &OR,
        Op::Addi => &ADDI,
        Op::Andi => &ANDI,
        Op::Ori => &ORI,
        Op::La => &LA,
        Op::Lar => &LAR,
        Op::Ld => &LD,
        Op::Ldr => &LDR,
        Op::St => &ST,
        Op::Str => &STR,
        Op::Shr => &SHR,
        Op::Shra => &SHRA,
        Op::Shl => &SHL,
        Op::Shc => &SHC,
    }
}

#[derive(Clone, Debug, Default, PartialEq, Eq)]
pub struct Core {
    pub pc: u32,
    pub registers: [u32; 32],
    pub ir: u32,
    pub ma: u32,
    pub md: u32,
    pub a: u32,
    pub c: u32,
    pub n: u32,
    pub con: bool,
    pub t: usize,
}

fn alu(row: Row, a: u32, bus: u32) -> u32 {
    if row.has(Add) {
        a.wrapping_add(bus)
    } else if row.has(Sub) {
        a.wrapping_sub(bus)
    } else if row.has(And) {
        a & bus
    } else if row.has(Or) {
        a | bus
    } else if row.has(Neg) {
        bus.wrapping_neg()
    } else if row.has(Not) {
        !bus
    } else if row.has(Inc4) {
        bus.wrapping_add(4)
    } else if row.has(Shr) {
        bus >> 1
    } else if row.has(Shra) {
        (bus >> 1) | (bus & 1 << 31)
    } else if row.has(Shl) {
        bus << 1
    } else if row.has(Shc) {
        bus.rotate_left(1)
    } else {
        bus
    }
}

impl Core {
    /// The row of the step at hand; none where the operation is unassigned.
    pub fn row(&self) -> Option<Row> {
        match self.t {
            0..=2 => Some(FETCH[self.t]),
            _ => rows(Word(self.ir).op()?).get(self.t - 3).copied(),
        }
    }

    /// The address of the instruction at hand: PC is raised in T1.
    pub fn instruction(&self) -> u32 {
        match self.t {
            0 | 1 => self.pc,
            _ => self.pc.wrapping_sub(4),
        }
    }

    fn selected(&self, row: Row) -> usize {
        let ir = Word(self.ir);
        if row.has(Gra) {
            ir.ra()
        } else if row.has(Grb) {
            ir.rb()
        } else {
            ir.rc()
        }
    }

    fn bus(&self, row: Row, selected: usize) -> u32 {
        if row.has(PcOut) {
            self.pc
        } else if row.has(MdOut) {
            self.md
        } else if row.has(COut) {
            self.c
        } else if row.has(ROut) || row.has(BaOut) && selected != 0 {
            self.registers[selected]
        } else if row.has(C1Out) {
            Word(self.ir).c1()
        } else if row.has(C2Out) {
            Word(self.ir).c2()
        } else {
            0
        }
    }

    fn condition_fails(&self, row: Row) -> bool {
        row.has(NIsZero) && self.n != 0 || row.has(NIsNotZero) && self.n == 0
    }

    /// Does the step of a row. MA fits where the row reads or writes. Tells whether the row's
    /// signals counted, that is, its condition did not fail.
    pub fn step(&mut self, row: Row, memory: &mut Memory) -> bool {
        if self.condition_fails(row) {
            self.t += 1;
            return false;
        }
        let selected = self.selected(row);
        let bus = self.bus(row, selected);
        let result = alu(row, self.a, bus);
        self.access(row, memory);
        self.store(row, selected, bus, result);
        self.t = if row.has(End) {
            0
        } else if row.has(Goto6) {
            6
        } else {
            self.t + 1
        };
        true
    }

    fn access(&mut self, row: Row, memory: &mut Memory) {
        if row.has(Read) {
            self.md = memory.read(self.ma / 4).expect("the address was checked");
        }
        if row.has(Write) {
            memory
                .write(self.ma / 4, self.md)
                .expect("the address was checked");
        }
    }

    fn store(&mut self, row: Row, selected: usize, bus: u32, result: u32) {
        if row.has(MaIn) {
            self.ma = bus;
        }
        if row.has(MdIn) {
            self.md = bus;
        }
        if row.has(PcIn) || row.has(ConToPcIn) && self.con {
            self.pc = bus;
        }
        if row.has(ConIn) {
            self.con = condition_holds(Word(self.ir).condition_code(), bus);
        }
        if row.has(IrIn) {
            self.ir = bus;
        }
        if row.has(AIn) {
            self.a = bus;
        }
        if row.has(CIn) {
            self.c = result;
        }
        if row.has(RIn) {
            self.registers[selected] = bus;
        }
        if row.has(Decr) {
            self.n = (self.n + 31) % 32;
        }
        if row.has(Ld) {
            self.n = bus % 32;
        }
    }
}

#[cfg(test)]
mod tests {
    use super::*;
    use crate::isa::{put, OPS};

    const GATES: [Signal; 7] = [PcOut, MdOut, COut, ROut, BaOut, C1Out, C2Out];
    const FUNCTIONS: [Signal; 12] = [
        Add, Sub, And, Or, Neg, Not, CEqualsB, Inc4, Shr, Shra, Shl, Shc,
    ];

    fn all_rows() -> Vec<Row> {
        let mut all = FETCH.to_vec();
        for op in OPS {
            all.extend(rows(op));
        }
        all
    }

    #[test]
    fn the_last_signal_is_bit_40() {
        assert_eq!(PcOut as u8, 0);
        assert_eq!(NIsNotZero as u8, 40);
    }

    #[test]
    fn no_step_has_two_gates_two_selects_or_two_functions() {
        let count = |row: Row, kind: &[Signal]| kind.iter().filter(|&&s| row.has(s)).count();
        for row in all_rows() {
            assert!(count(row, &GATES) <= 1);
            assert!(count(row, &[Gra, Grb, Grc]) <= 1);
            assert_eq!(count(row, &FUNCTIONS), usize::from(row.has(CIn)));
            assert_eq!(row.has(Wait), row.has(Read) || row.has(Write));
        }
    }

    #[test]
    fn the_last_row_of_an_operation_and_no_other_ends_it() {
        for op in OPS {
            let ends: Vec<bool> = rows(op).iter().map(|row| row.has(End)).collect();
            let (last, others) = ends.split_last().unwrap();
            assert!(*last && !others.contains(&true));
        }
    }

    #[test]
    fn a_shift_takes_eight_clocks_and_its_count() {
        for n in 0..32 {
            let mut memory = Memory::Words(vec![put::registers(Op::Shc, 1, 2, 3, n)]);
            let mut core = Core::default();
            core.registers[2] = 0x8421_1248;
            let mut clocks = 0;
            loop {
                let row = core.row().unwrap();
                core.step(row, &mut memory);
                clocks += 1;
                if core.t == 0 {
                    break;
                }
            }
            assert_eq!(clocks, 8 + n);
            assert_eq!(core.registers[1], 0x8421_1248u32.rotate_left(n));
        }
    }

    #[test]
    fn an_unassigned_operation_has_no_row_from_t3_on() {
        let core = Core {
            ir: 30 << 27,
            t: 3,
            ..Core::default()
        };
        assert_eq!(core.row(), None);
    }
}
