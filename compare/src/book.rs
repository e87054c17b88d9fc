//! The book machine: one instruction at a time, in one statement, with no clock.

use crate::fault::{word_number, Cause, Fault};
use crate::isa::{condition_holds, Op, Word};

#[derive(Clone, Debug)]
pub struct Book {
    pub run: bool,
    pub mark: bool,
    pub pc: u32,
    pub registers: [u32; 32],
    pub words: Vec<u32>,
}

/// What one instruction does, read off before anything is written.
#[derive(Clone, Copy, Debug, PartialEq, Eq)]
pub struct Effect {
    pub op: Op,
    pub pc: u32,
    pub register: Option<(usize, u32)>,
    pub word: Option<(u32, u32)>,
    pub stop: bool,
    /// What the one-bus core needs for it, besides waits.
    pub clocks: u64,
}

/// A fault, with the clocks that the one-bus core needs to meet it.
#[derive(Clone, Copy, Debug, PartialEq, Eq)]
pub struct Failure {
    pub fault: Fault,
    pub clocks: u64,
}

impl Effect {
    /// The steps of the one-bus core that may wait.
    pub fn accesses(&self) -> u64 {
        match self.op {
            Op::Ld | Op::Ldr | Op::St | Op::Str => 2,
            _ => 1,
        }
    }
}

fn shifted(op: Op, value: u32, n: u32) -> u32 {
    match op {
        Op::Shr => value >> n,
        Op::Shra => ((value as i32) >> n) as u32,
        Op::Shl => value << n,
        _ => value.rotate_left(n),
    }
}

/// How far a shift goes.
fn places(word: Word, rc: u32) -> u32 {
    match word.shift_count() {
        0 => rc % 32,
        n => n,
    }
}

fn combined(op: Op, left: u32, right: u32) -> u32 {
    match op {
        Op::Add | Op::Addi => left.wrapping_add(right),
        Op::Sub => left.wrapping_sub(right),
        Op::And | Op::Andi => left & right,
        _ => left | right,
    }
}

impl Book {
    pub fn new(words: Vec<u32>) -> Book {
        Book {
            run: false,
            mark: false,
            pc: 0,
            registers: [0; 32],
            words,
        }
    }

    fn number(&self, address: u32) -> Result<u32, Cause> {
        word_number(address, self.words.len() as u32)
    }

    fn failure(&self, cause: Cause, address: u32, clocks: u64) -> Failure {
        Failure {
            fault: Fault {
                cause,
                address,
                instruction: self.pc,
            },
            clocks,
        }
    }

    /// What the instruction at PC does, or the fault that it meets.
    pub fn next(&self) -> Result<Effect, Failure> {
        let number = self
            .number(self.pc)
            .map_err(|cause| self.failure(cause, self.pc, 2))?;
        let word = Word(self.words[number as usize]);
        match word.op() {
            Some(op) => self.effect(op, word),
            None => Err(self.failure(Cause::Unassigned, self.pc, 4)),
        }
    }

    fn effect(&self, op: Op, word: Word) -> Result<Effect, Failure> {
        let plain = self.no_effect(op);
        let ra = word.ra();
        let rb = self.registers[word.rb()];
        let rc = self.registers[word.rc()];
        let c2 = word.c2();
        let sets = |value, clocks| Effect {
            register: Some((ra, value)),
            clocks,
            ..plain
        };
        let holds = condition_holds(word.condition_code(), rc);
        let pc = if holds { rb } else { plain.pc };
        let effect = match op {
            Op::Nop => plain,
            Op::Stop => Effect {
                stop: true,
                ..plain
            },
            Op::Ld | Op::Ldr => sets(self.words[self.access(op, word, 7)? as usize], 8),
            Op::St | Op::Str => self.store(op, word)?,
            Op::La | Op::Lar => sets(self.address(op, word), 6),
            Op::Br => Effect {
                pc,
                clocks: 5,
                ..plain
            },
            Op::Brl => Effect {
                pc,
                ..sets(plain.pc, 7)
            },
            Op::Add | Op::Sub | Op::And | Op::Or => sets(combined(op, rb, rc), 6),
            Op::Addi | Op::Andi | Op::Ori => sets(combined(op, rb, c2), 6),
            Op::Neg => sets(rc.wrapping_neg(), 5),
            Op::Not => sets(!rc, 5),
            Op::Shr | Op::Shra | Op::Shl | Op::Shc => {
                let n = places(word, rc);
                sets(shifted(op, rb, n), 8 + u64::from(n))
            }
        };
        Ok(effect)
    }

    /// What every instruction does: PC is raised.
    fn no_effect(&self, op: Op) -> Effect {
        Effect {
            op,
            pc: self.pc.wrapping_add(4),
            register: None,
            word: None,
            stop: false,
            clocks: 4,
        }
    }

    fn store(&self, op: Op, word: Word) -> Result<Effect, Failure> {
        let number = self.access(op, word, 8)?;
        Ok(Effect {
            word: Some((number, self.registers[word.ra()])),
            clocks: 8,
            ..self.no_effect(op)
        })
    }

    /// The number of the word at the address, which is found unfit in the clock `clocks`.
    fn access(&self, op: Op, word: Word, clocks: u64) -> Result<u32, Failure> {
        let address = self.address(op, word);
        self.number(address)
            .map_err(|cause| self.failure(cause, address, clocks))
    }

    fn address(&self, op: Op, word: Word) -> u32 {
        match op {
            Op::Ldr | Op::Str | Op::Lar => self.pc.wrapping_add(4).wrapping_add(word.c1()),
            _ if word.rb() == 0 => word.c2(),
            _ => self.registers[word.rb()].wrapping_add(word.c2()),
        }
    }

    /// Does one instruction.
    pub fn step(&mut self) -> Result<Effect, Failure> {
        let next = self.next();
        match &next {
            Ok(effect) => self.apply(effect),
            Err(_) => {
                self.run = false;
                self.mark = true;
            }
        }
        next
    }

    fn apply(&mut self, effect: &Effect) {
        self.pc = effect.pc;
        if let Some((register, value)) = effect.register {
            self.registers[register] = value;
        }
        if let Some((number, value)) = effect.word {
            self.words[number as usize] = value;
        }
        if effect.stop {
            self.run = false;
        }
    }
}

#[cfg(test)]
mod tests {
    use super::*;
    use crate::isa::put;

    fn book(words: &[u32]) -> Book {
        let mut book = Book::new(words.to_vec());
        book.run = true;
        book
    }

    #[test]
    fn stray_bits_do_not_alter_what_a_word_does() {
        let mut book = book(&[0x6000_0001]);
        book.registers[0] = 21;
        book.step().unwrap();
        assert_eq!(book.registers[0], 42);
    }

    #[test]
    fn a_linking_branch_goes_to_the_old_register() {
        let mut book = book(&[put::registers(Op::Brl, 5, 5, 0, 1)]);
        book.registers[5] = 400;
        book.step().unwrap();
        assert_eq!((book.pc, book.registers[5]), (400, 4));
    }

    #[test]
    fn register_0_counts_but_not_as_a_base() {
        let mut book = book(&[
            put::with_c2(Op::La, 1, 0, 8),
            put::with_c2(Op::Addi, 2, 0, 8),
            put::with_c2(Op::Ld, 3, 0, 0),
        ]);
        book.registers[0] = 100;
        (0..3).for_each(|_| assert!(book.step().is_ok()));
        assert_eq!(book.registers[1..4], [8, 108, book.words[0]]);
    }

    #[test]
    fn constants_of_logic_are_sign_extended_too() {
        let minus = (-2i32) as u32;
        let mut book = book(&[
            put::with_c2(Op::Andi, 1, 2, minus),
            put::with_c2(Op::Ori, 3, 4, minus),
        ]);
        book.registers[2] = 0xF000_0003;
        (0..2).for_each(|_| assert!(book.step().is_ok()));
        assert_eq!((book.registers[1], book.registers[3]), (0xF000_0002, minus));
    }

    #[test]
    fn shifts_by_the_low_five_bits_of_a_register() {
        let mut book = book(&[
            put::registers(Op::Shl, 1, 2, 3, 0),
            put::registers(Op::Shc, 4, 2, 3, 0),
        ]);
        book.registers[2] = 0x8000_0001;
        book.registers[3] = 32 + 4;
        assert_eq!(book.step().unwrap().clocks, 12);
        assert_eq!(book.registers[1], 0x10);
        book.registers[3] = 64;
        assert_eq!(book.step().unwrap().clocks, 8);
        assert_eq!(book.registers[4], 0x8000_0001);
    }

    #[test]
    fn relative_addresses_count_from_the_raised_pc() {
        let mut book = book(&[0, put::with_c1(Op::Lar, 1, (-8i32) as u32), 0]);
        book.pc = 4;
        book.step().unwrap();
        assert_eq!(book.registers[1], 0);
    }

    #[test]
    fn faults_change_nothing_but_run_and_mark() {
        let words = [
            put::with_c2(Op::Ld, 1, 0, 6),
            put::with_c2(Op::St, 1, 0, 12),
            7 << 27,
        ];
        let no_word = Cause::NoWord { number: 3, size: 3 };
        for (instruction, cause, address, clocks) in [
            (0, Cause::NotAMultipleOfFour, 6, 7),
            (4, no_word, 12, 8),
            (8, Cause::Unassigned, 8, 4),
            (12, no_word, 12, 2),
        ] {
            let mut book = book(&words);
            book.pc = instruction;
            let failure = book.step().unwrap_err();
            let fault = Fault {
                cause,
                address,
                instruction,
            };
            assert_eq!(failure, Failure { fault, clocks });
            assert!(book.mark && !book.run);
            assert_eq!(book.words, words);
            assert_eq!(book.registers, [0; 32]);
        }
    }
}
