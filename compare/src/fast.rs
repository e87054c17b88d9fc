//! The same machine once more, written for speed: clock by clock, a match on step and operation.
//! It is what the benchmark sets beside the proved program.

use crate::fault::{Cause, Fault};
use crate::isa::{condition_holds, Word};
use crate::machine::Clocked;
use crate::script::Board;

pub struct Fast {
    pub pc: u32,
    pub registers: [u32; 32],
    ir: u32,
    ma: u32,
    md: u32,
    a: u32,
    c: u32,
    n: u32,
    con: bool,
    pub t: u32,
    pub run: bool,
    pub mark: bool,
    /// One more than the waits left, and 0 where no step waits.
    waiting: u32,
    pub clocks: u64,
    pub waits: u64,
    pub finished: u64,
    words: Vec<u32>,
    slow_first: u32,
    slow_length: u32,
    slow_extra: u32,
    row_extra: u32,
    open_row: u32,
}

const NO_ROW: u32 = u32::MAX;

impl Fast {
    pub fn new(board: &Board) -> Fast {
        let size = (board.words.min(8192) + board.bytes / 4).min(8192);
        let (slow_first, slow_length, slow_extra) = board.slow.unwrap_or((0, 0, 0));
        Fast {
            pc: 0,
            registers: [0; 32],
            ir: 0,
            ma: 0,
            md: 0,
            a: 0,
            c: 0,
            n: 0,
            con: false,
            t: 0,
            run: false,
            mark: false,
            waiting: 0,
            clocks: 0,
            waits: 0,
            finished: 0,
            words: vec![0; size as usize],
            slow_first,
            slow_length,
            slow_extra: u32::from(slow_extra),
            row_extra: u32::from(board.row.unwrap_or(0)),
            open_row: NO_ROW,
        }
    }

    pub fn size(&self) -> u32 {
        self.words.len() as u32
    }

    pub fn set_word(&mut self, number: u32, value: u32) {
        self.words[number as usize] = value;
        self.open_row = number / 64;
    }

    pub fn start(&mut self) {
        self.run = true;
        self.mark = false;
        self.pc = 0;
        self.t = 0;
        self.registers = [0; 32];
        self.clocks = 0;
        self.waits = 0;
        self.finished = 0;
    }

    /// Spends clocks of a running machine.
    pub fn clock(&mut self, wanted: u64) -> Clocked {
        let before = (self.clocks, self.finished);
        let end = self.clocks + wanted;
        let mut fault = None;
        while self.run && self.clocks < end {
            self.clocks += 1;
            if let Err(cause) = self.one_clock() {
                fault = Some(self.faulted(cause));
            }
        }
        Clocked {
            spent: self.clocks - before.0,
            finished: self.finished - before.1,
            fault,
        }
    }

    #[cold]
    fn faulted(&mut self, cause: Cause) -> (Fault, usize) {
        let step = self.t;
        let instruction = if step == 1 {
            self.pc
        } else {
            self.pc.wrapping_sub(4)
        };
        let address = if cause == Cause::Unassigned {
            instruction
        } else {
            self.ma
        };
        self.run = false;
        self.mark = true;
        self.t = 0;
        (
            Fault {
                cause,
                address,
                instruction,
            },
            step as usize,
        )
    }

    #[cold]
    fn unfit(&self) -> Cause {
        if !self.ma.is_multiple_of(4) {
            return Cause::NotAMultipleOfFour;
        }
        Cause::NoWord {
            number: self.ma / 4,
            size: self.size(),
        }
    }

    /// Whether the access at MA is done in this clock; else the clock was a wait.
    #[inline(always)]
    fn ready(&mut self) -> Result<bool, Cause> {
        if self.waiting == 0 {
            let number = self.ma / 4;
            if !self.ma.is_multiple_of(4) || number >= self.size() {
                return Err(self.unfit());
            }
            let slow = number.wrapping_sub(self.slow_first) < self.slow_length
                && number >= self.slow_first;
            let row = number / 64 != self.open_row;
            let delay = u32::from(slow) * self.slow_extra + u32::from(row) * self.row_extra;
            self.waiting = delay.min(255) + 1;
        }
        self.waiting -= 1;
        if self.waiting > 0 {
            self.waits += 1;
            return Ok(false);
        }
        self.open_row = self.ma / 256;
        Ok(true)
    }

    #[inline(always)]
    fn ra(&self) -> usize {
        (self.ir >> 22 & 31) as usize
    }

    #[inline(always)]
    fn rb(&self) -> usize {
        (self.ir >> 17 & 31) as usize
    }

    #[inline(always)]
    fn rc(&self) -> usize {
        (self.ir >> 12 & 31) as usize
    }

    #[inline(always)]
    fn end(&mut self) -> Result<(), Cause> {
        self.t = 0;
        self.finished += 1;
        Ok(())
    }

    #[inline(always)]
    fn set_ra(&mut self, value: u32) -> Result<(), Cause> {
        let ra = self.ra();
        self.registers[ra] = value;
        self.end()
    }

    #[inline(always)]
    fn one_clock(&mut self) -> Result<(), Cause> {
        match self.t {
            0 => {
                self.ma = self.pc;
                self.c = self.pc.wrapping_add(4);
            }
            1 => {
                if !self.ready()? {
                    return Ok(());
                }
                self.pc = self.c;
                self.md = self.words[self.ma as usize / 4];
            }
            2 => self.ir = self.md,
            3 => return self.step_3(),
            4 => return self.step_4(),
            5 => return self.step_5(),
            6 => return self.step_6(),
            _ => return self.step_7(),
        }
        self.t += 1;
        Ok(())
    }

    #[inline(always)]
    fn step_3(&mut self) -> Result<(), Cause> {
        match self.ir >> 27 {
            0 => return self.end(),
            31 => {
                self.run = false;
                return self.end();
            }
            1 | 3 | 5 => {
                self.a = if self.rb() == 0 {
                    0
                } else {
                    self.registers[self.rb()]
                }
            }
            2 | 4 | 6 => self.a = self.pc,
            8 | 9 => self.con = condition_holds(self.ir & 7, self.registers[self.rc()]),
            15 => self.c = self.registers[self.rc()].wrapping_neg(),
            24 => self.c = !self.registers[self.rc()],
            12 | 13 | 14 | 20 | 21 | 22 | 23 => self.a = self.registers[self.rb()],
            26..=29 => self.n = self.ir & 31,
            _ => return Err(Cause::Unassigned),
        }
        self.t = 4;
        Ok(())
    }

    #[inline(always)]
    fn step_4(&mut self) -> Result<(), Cause> {
        match self.ir >> 27 {
            1 | 3 | 5 | 13 => self.c = self.a.wrapping_add(Word(self.ir).c2()),
            2 | 4 | 6 => self.c = self.a.wrapping_add(Word(self.ir).c1()),
            8 => {
                if self.con {
                    self.pc = self.registers[self.rb()];
                }
                return self.end();
            }
            9 => self.c = self.pc,
            12 => self.c = self.a.wrapping_add(self.registers[self.rc()]),
            14 => self.c = self.a.wrapping_sub(self.registers[self.rc()]),
            20 => self.c = self.a & self.registers[self.rc()],
            22 => self.c = self.a | self.registers[self.rc()],
            21 => self.c = self.a & Word(self.ir).c2(),
            23 => self.c = self.a | Word(self.ir).c2(),
            15 | 24 => return self.set_ra(self.c),
            _ => {
                if self.n == 0 {
                    self.n = self.registers[self.rc()] & 31;
                }
            }
        }
        self.t = 5;
        Ok(())
    }

    #[inline(always)]
    fn step_5(&mut self) -> Result<(), Cause> {
        match self.ir >> 27 {
            1..=4 => self.ma = self.c,
            9 => {
                if self.con {
                    self.pc = self.registers[self.rb()];
                }
            }
            26..=29 => self.c = self.registers[self.rb()],
            _ => return self.set_ra(self.c),
        }
        self.t = 6;
        Ok(())
    }

    #[inline(always)]
    fn step_6(&mut self) -> Result<(), Cause> {
        let op = self.ir >> 27;
        match op {
            1 | 2 => {
                if !self.ready()? {
                    return Ok(());
                }
                self.md = self.words[self.ma as usize / 4];
            }
            3 | 4 => self.md = self.registers[self.ra()],
            9 => return self.set_ra(self.c),
            _ if self.n != 0 => {
                self.n -= 1;
                self.c = match op {
                    26 => self.c >> 1,
                    27 => ((self.c as i32) >> 1) as u32,
                    28 => self.c << 1,
                    _ => self.c.rotate_left(1),
                };
                return Ok(());
            }
            _ => {}
        }
        self.t = 7;
        Ok(())
    }

    #[inline(always)]
    fn step_7(&mut self) -> Result<(), Cause> {
        match self.ir >> 27 {
            1 | 2 => self.set_ra(self.md),
            3 | 4 => {
                if !self.ready()? {
                    return Ok(());
                }
                self.words[self.ma as usize / 4] = self.md;
                self.end()
            }
            _ => self.set_ra(self.c),
        }
    }
}

#[cfg(test)]
mod tests {
    use super::*;
    use crate::machine::Machine;
    use crate::program::{endless, program, Place};
    use crate::random::Random;

    fn some_board(random: &mut Random) -> Board {
        Board {
            words: random.pick(&[1, 30, 200, 500, 8192]),
            bytes: random.pick(&[0, 7, 400, 2000]),
            slow: Some((
                random.below(100),
                random.below(100),
                random.below(256) as u8,
            )),
            row: Some(random.pick(&[0, 1, 100, 255])),
        }
    }

    fn assert_same(fast: &Fast, machine: &Machine) {
        assert_eq!(fast.registers, machine.core.registers);
        assert_eq!(
            (fast.pc, fast.t as usize),
            (machine.core.pc, machine.core.t)
        );
        assert_eq!((fast.run, fast.mark), (machine.run, machine.mark));
        assert_eq!(
            (fast.clocks, fast.waits, fast.finished),
            (machine.clocks, machine.waits, machine.finished)
        );
        assert!(machine.memory.holds(&fast.words));
    }

    #[test]
    fn it_does_what_the_readable_machine_does() {
        let mut random = Random::new(4);
        for round in 0..300 {
            let board = some_board(&mut random);
            let mut fast = Fast::new(&board);
            let mut machine = Machine::new(board.memory());
            let place = Place {
                size: fast.size(),
                seam: board.words,
            };
            let made = match round % 10 {
                0 => endless(&mut random, place),
                _ => program(&mut random, place),
            };
            for segment in made.segments {
                for (number, &word) in (segment.first..).zip(&segment.words) {
                    fast.set_word(number, word);
                    machine.set_word(number, word).unwrap();
                }
            }
            fast.start();
            machine.start().unwrap();
            for _ in 0..40 {
                let clocks = u64::from(random.between(1, 400));
                if machine.run {
                    assert_eq!(Ok(fast.clock(clocks)), machine.clock(clocks));
                }
                assert_same(&fast, &machine);
            }
        }
    }
}
