//! The machine: a core over a memory, with run control, counts and calls.

use crate::fault::{word_number, Cause, Fault};
use crate::image;
use crate::memory::Memory;
use crate::onebus::{Core, Row, Signal};
use crate::refusal::Refusal;

pub const MOST_CLOCKS_A_CALL: u64 = 1_000_000;
pub const MOST_CLOCKS_IN_ALL: u64 = 1_000_000_000_000;

#[derive(Clone, Debug)]
pub struct Machine {
    pub core: Core,
    pub memory: Memory,
    pub run: bool,
    pub mark: bool,
    pub reset_waits: bool,
    /// The waits left of a Wait step that has begun.
    waits_left: Option<u8>,
    pub clocks: u64,
    pub waits: u64,
    pub finished: u64,
}

/// What a clock call did.
#[derive(Clone, Copy, Debug, PartialEq, Eq)]
pub struct Clocked {
    pub spent: u64,
    pub finished: u64,
    /// The fault that came, and the step T at which it came.
    pub fault: Option<(Fault, usize)>,
}

enum Clock {
    Passed,
    Finished,
    Faulted(Fault, usize),
}

impl Machine {
    pub fn new(memory: Memory) -> Machine {
        Machine {
            core: Core::default(),
            memory,
            run: false,
            mark: false,
            reset_waits: false,
            waits_left: None,
            clocks: 0,
            waits: 0,
            finished: 0,
        }
    }

    fn must_be_stopped(&self) -> Result<(), Refusal> {
        if self.run {
            return Err(Refusal::Running);
        }
        Ok(())
    }

    fn must_run(&self) -> Result<(), Refusal> {
        if !self.run {
            return Err(Refusal::Stopped);
        }
        Ok(())
    }

    fn zero_counts(&mut self) {
        self.clocks = 0;
        self.waits = 0;
        self.finished = 0;
    }

    pub fn start(&mut self) -> Result<(), Refusal> {
        self.must_be_stopped()?;
        self.run = true;
        self.mark = false;
        self.core.pc = 0;
        self.core.t = 0;
        self.core.registers = [0; 32];
        self.zero_counts();
        Ok(())
    }

    pub fn resume(&mut self) -> Result<(), Refusal> {
        self.must_be_stopped()?;
        if self.mark {
            return Err(Refusal::Marked);
        }
        self.run = true;
        self.core.t = 0;
        self.zero_counts();
        Ok(())
    }

    pub fn reset(&mut self) -> Result<(), Refusal> {
        self.must_run()?;
        self.reset_waits = true;
        Ok(())
    }

    pub fn set_register(&mut self, number: u32, value: u32) -> Result<(), Refusal> {
        self.must_be_stopped()?;
        let register = self
            .core
            .registers
            .get_mut(number as usize)
            .ok_or(Refusal::NoRegister)?;
        *register = value;
        Ok(())
    }

    pub fn set_word(&mut self, number: u32, value: u32) -> Result<(), Refusal> {
        self.must_be_stopped()?;
        self.memory
            .write(number, value)
            .map_err(|_| Refusal::NoWord)
    }

    /// Writes the words of an image in ascending order.
    pub fn load(&mut self, bytes: &[u8]) -> Result<(), Refusal> {
        self.must_be_stopped()?;
        for segment in image::read(bytes, self.memory.size())? {
            for (number, &word) in (segment.first..).zip(&segment.words) {
                self.memory
                    .write(number, word)
                    .expect("the image was checked");
            }
        }
        Ok(())
    }

    pub fn clock(&mut self, wanted: u64) -> Result<Clocked, Refusal> {
        self.must_run()?;
        if !(1..=MOST_CLOCKS_A_CALL).contains(&wanted) {
            return Err(Refusal::ClocksWanted);
        }
        let counted = if self.reset_waits { 0 } else { self.clocks };
        if counted + wanted > MOST_CLOCKS_IN_ALL {
            return Err(Refusal::ClocksInAll);
        }
        Ok(self.spend(wanted))
    }

    fn spend(&mut self, wanted: u64) -> Clocked {
        let mut done = Clocked {
            spent: 0,
            finished: 0,
            fault: None,
        };
        while self.run && done.spent < wanted {
            done.spent += 1;
            match self.one_clock() {
                Clock::Passed => {}
                Clock::Finished => done.finished += 1,
                Clock::Faulted(fault, step) => done.fault = Some((fault, step)),
            }
        }
        done
    }

    fn one_clock(&mut self) -> Clock {
        if self.reset_waits {
            self.do_reset();
            return Clock::Passed;
        }
        self.clocks += 1;
        let Some(row) = self.core.row() else {
            return self.fault(Cause::Unassigned, self.core.instruction());
        };
        if row.has(Signal::Wait) && self.waits_left.is_none() {
            match word_number(self.core.ma, self.memory.size()) {
                Ok(number) => self.waits_left = Some(self.memory.delay(number)),
                Err(cause) => return self.fault(cause, self.core.ma),
            }
        }
        if let Some(left @ 1..) = self.waits_left {
            self.waits_left = Some(left - 1);
            self.waits += 1;
            return Clock::Passed;
        }
        self.do_step(row)
    }

    fn do_reset(&mut self) {
        self.core.pc = 0;
        self.core.t = 0;
        self.reset_waits = false;
        self.waits_left = None;
        self.zero_counts();
    }

    fn do_step(&mut self, row: Row) -> Clock {
        self.waits_left = None;
        let counted = self.core.step(row, &mut self.memory);
        if counted && row.has(Signal::Stop) {
            self.run = false;
        }
        if counted && row.has(Signal::End) {
            self.finished += 1;
            return Clock::Finished;
        }
        Clock::Passed
    }

    fn fault(&mut self, cause: Cause, address: u32) -> Clock {
        let fault = Fault {
            cause,
            address,
            instruction: self.core.instruction(),
        };
        let step = self.core.t;
        self.run = false;
        self.mark = true;
        self.core.t = 0;
        Clock::Faulted(fault, step)
    }

    pub fn register(&self, number: u32) -> Result<u32, Refusal> {
        self.core
            .registers
            .get(number as usize)
            .copied()
            .ok_or(Refusal::NoRegister)
    }

    /// Reading a word may change later delays.
    pub fn word(&mut self, number: u32) -> Result<u32, Refusal> {
        self.memory.read(number).map_err(|_| Refusal::NoWord)
    }

    /// Whether a step has begun to wait and is not done.
    pub fn in_a_wait(&self) -> bool {
        self.waits_left.is_some()
    }
}

#[cfg(test)]
mod tests {
    use super::*;
    use crate::isa::{put, Op};

    fn machine(words: &[u32]) -> Machine {
        Machine::new(Memory::Words(words.to_vec()))
    }

    fn spent(spent: u64, finished: u64) -> Result<Clocked, Refusal> {
        Ok(Clocked {
            spent,
            finished,
            fault: None,
        })
    }

    const STOP: u32 = 31 << 27;

    #[test]
    fn calls_refuse_in_their_order() {
        let mut m = machine(&[0, 0]);
        assert_eq!(m.reset(), Err(Refusal::Stopped));
        assert_eq!(m.clock(0), Err(Refusal::Stopped));
        assert_eq!(m.set_register(32, 1), Err(Refusal::NoRegister));
        assert_eq!(m.set_word(2, 1), Err(Refusal::NoWord));
        m.start().unwrap();
        assert_eq!(m.start(), Err(Refusal::Running));
        assert_eq!(m.resume(), Err(Refusal::Running));
        assert_eq!(m.set_register(32, 1), Err(Refusal::Running));
        assert_eq!(m.set_word(2, 1), Err(Refusal::Running));
        assert_eq!(m.load(&[]), Err(Refusal::Running));
        assert_eq!(m.clock(0), Err(Refusal::ClocksWanted));
        assert_eq!(m.clock(1_000_001), Err(Refusal::ClocksWanted));
        assert_eq!(m.register(32), Err(Refusal::NoRegister));
        assert_eq!(m.word(2), Err(Refusal::NoWord));
    }

    #[test]
    fn the_clocks_in_all_end_at_a_million_millions() {
        let mut m = machine(&[0; 8]);
        m.start().unwrap();
        m.clocks = MOST_CLOCKS_IN_ALL - 2;
        assert_eq!(m.clock(3), Err(Refusal::ClocksInAll));
        assert_eq!(m.clock(1_000_001), Err(Refusal::ClocksWanted));
        m.clone().clock(2).unwrap();
        m.reset().unwrap();
        assert_eq!(m.clock(3), spent(3, 0));
    }

    #[test]
    fn a_stop_is_finished_and_stops() {
        let mut m = machine(&[0x68C2_003A, STOP]);
        m.start().unwrap();
        assert_eq!(m.clock(1_000_000), spent(10, 2));
        assert_eq!(
            (m.run, m.mark, m.core.pc, m.core.registers[3]),
            (false, false, 8, 58)
        );
        m.resume().unwrap();
        let fault = Fault {
            cause: Cause::NoWord { number: 2, size: 2 },
            address: 8,
            instruction: 8,
        };
        let wanted = Clocked {
            spent: 2,
            finished: 0,
            fault: Some((fault, 1)),
        };
        assert_eq!(m.clock(5), Ok(wanted));
        assert_eq!(m.resume(), Err(Refusal::Marked));
        assert_eq!(m.clocks, 2);
    }

    #[test]
    fn the_first_clocks_of_a_waiting_step_are_waits() {
        let memory = Memory::Words(vec![0, STOP]).slow(0, 1, 3);
        let mut m = Machine::new(memory);
        m.start().unwrap();
        assert_eq!(m.clock(4), spent(4, 0));
        assert_eq!((m.core.t, m.waits), (1, 3));
        assert_eq!(m.clock(1), spent(1, 0));
        assert_eq!((m.core.t, m.waits, m.core.pc), (2, 3, 4));
        assert_eq!(m.clock(100), spent(6, 2));
        assert_eq!((m.clocks, m.waits, m.finished), (11, 3, 2));
    }

    #[test]
    fn a_reset_in_a_stores_wait_keeps_the_word() {
        let store = put::with_c2(Op::St, 1, 0, 8);
        let mut m = Machine::new(Memory::Words(vec![store, STOP, 77]).slow(2, 1, 200));
        m.set_register(1, 5).unwrap();
        m.resume().unwrap();
        m.clock(207).unwrap();
        assert_eq!((m.core.t, m.waits), (7, 200));
        m.reset().unwrap();
        m.reset().unwrap();
        assert_eq!(m.clock(1), spent(1, 0));
        assert_eq!((m.core.pc, m.core.t, m.clocks, m.waits), (0, 0, 0, 0));
        assert_eq!((m.word(2), m.register(1)), (Ok(77), Ok(5)));
        assert_eq!(m.clock(208), spent(208, 1));
        assert_eq!(m.word(2), Ok(5));
    }

    #[test]
    fn an_unassigned_operation_faults_in_its_fourth_clock() {
        let mut m = machine(&[0, 7 << 27]);
        m.start().unwrap();
        let fault = Fault {
            cause: Cause::Unassigned,
            address: 4,
            instruction: 4,
        };
        let wanted = Clocked {
            spent: 8,
            finished: 1,
            fault: Some((fault, 3)),
        };
        assert_eq!(m.clock(100), Ok(wanted));
        assert_eq!((m.core.t, m.core.pc, m.mark, m.run), (0, 8, true, false));
        m.start().unwrap();
        assert!(!m.mark);
    }

    #[test]
    fn a_refused_load_writes_nothing() {
        let mut m = machine(&[1, 2, 3]);
        let bytes = [
            vec![0; 12],
            vec![0, 0, 0, 1, 0, 0, 0, 3],
            image::trailer_bytes(1, 20),
        ]
        .concat();
        assert_eq!(m.load(&bytes), Err(Refusal::SegmentPlace));
        assert!(m.memory.holds(&[1, 2, 3]));
    }
}
