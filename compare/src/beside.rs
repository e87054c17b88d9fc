//! The book machine beside the machine: it is fed each call and, of the answer, whether it was
//! refused, how many instructions it finished and whether it told a fault. After each call the
//! two must agree.

use crate::book::Book;
use crate::coverage::Coverage;
use crate::fault::Fault;
use crate::image;
use crate::isa::Op;
use crate::machine::{Clocked, Machine};
use crate::memory::Memory;
use crate::refusal::Refusal;

#[derive(Clone, Debug, PartialEq, Eq)]
pub enum Call {
    Start,
    Resume,
    Reset,
    SetRegister(u32, u32),
    SetWord(u32, u32),
    Load(Vec<u8>),
    Clock(u64),
}

#[derive(Clone, Copy, Debug, PartialEq, Eq)]
pub enum Done {
    Ok,
    Clocked(Clocked),
}

pub struct Beside {
    pub machine: Machine,
    book: Book,
    /// A reset that the book machine has been told of and not yet done.
    reset_waits: bool,
    /// Sums over the book's finished instructions since the counts were zeroed.
    finished: u64,
    clocks: u64,
    accesses: u64,
    pub coverage: Coverage,
}

fn must(holds: bool, what: &str) -> Result<(), String> {
    if holds {
        return Ok(());
    }
    Err(format!("the book machine parts from the machine: {what}"))
}

impl Beside {
    pub fn new(memory: Memory) -> Beside {
        let words = vec![0; memory.size() as usize];
        Beside {
            machine: Machine::new(memory),
            book: Book::new(words),
            reset_waits: false,
            finished: 0,
            clocks: 0,
            accesses: 0,
            coverage: Coverage::default(),
        }
    }

    /// Performs a call. The second answer tells where the book machine parts from the machine.
    pub fn perform(&mut self, call: &Call) -> (Result<Done, Refusal>, Result<(), String>) {
        self.coverage.calls += 1;
        self.note_reset(call);
        let waits = if self.machine.reset_waits {
            0
        } else {
            self.machine.waits
        };
        let answer = self.call_machine(call);
        self.coverage.waits += self.machine.waits.saturating_sub(waits);
        let checked = match &answer {
            Ok(done) => self.follow(call, done),
            Err(refusal) => {
                self.coverage.refused(*refusal);
                Ok(())
            }
        };
        (answer, checked.and_then(|()| self.check()))
    }

    fn note_reset(&mut self, call: &Call) {
        let machine = &self.machine;
        if matches!(call, Call::Reset) && machine.run && !machine.reset_waits {
            self.coverage
                .reset_done(machine.core.t, machine.in_a_wait());
        }
    }

    fn call_machine(&mut self, call: &Call) -> Result<Done, Refusal> {
        let machine = &mut self.machine;
        let done = match call {
            Call::Start => machine.start(),
            Call::Resume => machine.resume(),
            Call::Reset => machine.reset(),
            Call::SetRegister(number, value) => machine.set_register(*number, *value),
            Call::SetWord(number, value) => machine.set_word(*number, *value),
            Call::Load(bytes) => machine.load(bytes),
            Call::Clock(wanted) => return machine.clock(*wanted).map(Done::Clocked),
        };
        done.map(|()| Done::Ok)
    }

    fn zero_sums(&mut self) {
        self.finished = 0;
        self.clocks = 0;
        self.accesses = 0;
    }

    fn follow(&mut self, call: &Call, done: &Done) -> Result<(), String> {
        let book = &mut self.book;
        match (call, done) {
            (Call::Start, _) => {
                *book = Book {
                    run: true,
                    ..Book::new(std::mem::take(&mut book.words))
                };
                self.zero_sums();
            }
            (Call::Resume, _) => {
                book.run = true;
                self.zero_sums();
            }
            (Call::Reset, _) => self.reset_waits = true,
            (Call::SetRegister(number, value), _) => book.registers[*number as usize] = *value,
            (Call::SetWord(number, value), _) => book.words[*number as usize] = *value,
            (Call::Load(bytes), _) => {
                let size = book.words.len() as u32;
                for segment in
                    image::read(bytes, size).map_err(|r| format!("{r:?} when read again"))?
                {
                    let first = segment.first as usize;
                    book.words[first..first + segment.words.len()].copy_from_slice(&segment.words);
                }
            }
            (Call::Clock(_), Done::Clocked(clocked)) => return self.follow_clocks(clocked),
            (Call::Clock(_), Done::Ok) => unreachable!("clock answers with counts"),
        }
        Ok(())
    }

    fn follow_clocks(&mut self, clocked: &Clocked) -> Result<(), String> {
        self.coverage.clocks += clocked.spent;
        if self.reset_waits {
            self.reset_waits = false;
            self.book.pc = 0;
            self.zero_sums();
        }
        for _ in 0..clocked.finished {
            must(self.book.run, "it is stopped where an instruction finished")?;
            let effect = self.book.step().map_err(|failure| {
                format!("the book machine parts from the machine: it meets {failure:?}, but none was told")
            })?;
            self.finished += 1;
            self.clocks += effect.clocks;
            self.accesses += effect.accesses();
            self.coverage.finished(effect.op, effect.clocks);
        }
        match clocked.fault {
            Some((fault, _)) => self.follow_fault(fault),
            None => Ok(()),
        }
    }

    fn follow_fault(&mut self, told: Fault) -> Result<(), String> {
        must(self.book.run, "it is stopped where a fault was told")?;
        let word = self.book.words.get(self.book.pc as usize / 4).copied();
        let number = told.cause.number();
        self.coverage
            .faulted(number, word.filter(|_| number == 17).map(|word| word >> 27));
        match self.book.step() {
            Ok(effect) => Err(format!(
                "the book machine does {effect:?} where {told:?} was told"
            )),
            Err(failure) if failure.fault != told => Err(format!(
                "the book machine meets {:?} where {told:?} was told",
                failure.fault
            )),
            Err(failure) => must(
                self.steps() == self.clocks + failure.clocks,
                "the clocks of a faulting instruction",
            ),
        }
    }

    /// Clocks less waits.
    fn steps(&self) -> u64 {
        self.machine.clocks - self.machine.waits
    }

    fn check(&self) -> Result<(), String> {
        let (machine, book) = (&self.machine, &self.book);
        must(machine.core.registers == book.registers, "registers")?;
        must(machine.memory.holds(&book.words), "words")?;
        must(machine.run == book.run, "Run")?;
        must(machine.mark == book.mark, "the fault mark")?;
        must(machine.finished == self.finished, "finished instructions")?;
        if machine.core.t == 0 && !machine.mark {
            must(machine.core.pc == book.pc, "PC between instructions")?;
            must(
                self.steps() == self.clocks,
                "clocks less waits between instructions",
            )?;
        }
        must(self.steps() >= self.clocks, "clocks less waits, at least")?;
        if machine.run {
            let next = book
                .next()
                .map_or_else(|failure| failure.clocks, |effect| effect.clocks);
            must(
                self.steps() < self.clocks + next,
                "clocks less waits, below",
            )?;
        }
        must(
            machine.waits <= 255 * (self.accesses + self.begun_accesses()),
            "waits",
        )
    }

    /// The accesses made or at hand of the instruction under way.
    fn begun_accesses(&self) -> u64 {
        let into = self.steps() - self.clocks;
        let second = match self.book.next().map(|effect| effect.op) {
            Ok(Op::Ld | Op::Ldr) => into >= 6,
            Ok(Op::St | Op::Str) => into >= 7,
            _ => false,
        };
        u64::from(into >= 1) + u64::from(second)
    }
}

#[cfg(test)]
mod tests {
    use super::*;
    use crate::isa::put;

    fn beside() -> Beside {
        let mut beside = Beside::new(Memory::Words(vec![0; 8]).slow(0, 8, 2));
        for (number, word) in [
            (0, put::with_c2(Op::Addi, 1, 1, 1)),
            (1, put::with_c2(Op::St, 1, 0, 28)),
            (2, put::registers(Op::Br, 0, 2, 0, 1)),
        ] {
            let (answer, checked) = beside.perform(&Call::SetWord(number, word));
            assert_eq!((answer, checked), (Ok(Done::Ok), Ok(())));
        }
        assert_eq!(beside.perform(&Call::Start).1, Ok(()));
        beside
    }

    #[test]
    fn it_agrees_at_every_clock() {
        let mut beside = beside();
        for clock in 0..300 {
            assert_eq!(beside.perform(&Call::Clock(1)).1, Ok(()), "clock {clock}");
        }
        // Three instructions take 6, 8 and 5 clocks, and four accesses of 2 waits each.
        assert_eq!(beside.machine.finished, 3 * (300 / 27));
    }

    #[test]
    fn it_agrees_after_a_reset_at_every_clock() {
        let mut beside = beside();
        for clocks in 1..60 {
            assert_eq!(beside.perform(&Call::Clock(clocks)).1, Ok(()));
            assert_eq!(beside.perform(&Call::Reset).1, Ok(()));
        }
    }

    #[test]
    fn it_tells_where_they_part() {
        let mut beside = beside();
        beside.machine.core.registers[9] = 1;
        assert!(beside.perform(&Call::Clock(1)).1.is_err());
    }

    #[test]
    fn it_tells_a_wrong_count_of_waits() {
        let mut beside = beside();
        assert_eq!(beside.perform(&Call::Clock(5)).1, Ok(()));
        beside.machine.waits += 1;
        assert!(beside.perform(&Call::Clock(3)).1.is_err());
    }
}
