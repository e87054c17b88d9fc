//! What a run has met.

use crate::isa::{Op, OPS};
use crate::refusal::Refusal;

#[derive(Clone, Debug, Default)]
pub struct Coverage {
    pub scripts: u64,
    pub lines: u64,
    pub calls: u64,
    pub clocks: u64,
    pub waits: u64,
    pub instructions: u64,
    pub bad_lines: u64,
    /// By their numbers.
    refusals: [u64; 14],
    faults: [u64; 20],
    /// By the codes of the operations.
    ops: [u64; 32],
    unassigned: [u64; 32],
    shift_counts: [u64; 32],
    /// Resets by the step T at hand, and those of them inside a wait.
    resets: [u64; 8],
    resets_in_waits: [u64; 8],
}

/// Reaching 10^12 clocks would need a million calls of a million clocks each.
const OUT_OF_REACH: usize = Refusal::ClocksInAll as usize;

fn listed<'a, T: ToString>(counts: impl Iterator<Item = (T, &'a u64)>) -> String {
    let shown: Vec<String> = counts
        .map(|(name, count)| format!("{}:{count}", name.to_string()))
        .collect();
    shown.join(" ")
}

impl Coverage {
    pub fn refused(&mut self, refusal: Refusal) {
        self.refusals[refusal.number()] += 1;
    }

    pub fn faulted(&mut self, number: usize, code: Option<u32>) {
        self.faults[number] += 1;
        if let Some(code) = code {
            self.unassigned[code as usize] += 1;
        }
    }

    pub fn finished(&mut self, op: Op, clocks: u64) {
        self.instructions += 1;
        self.ops[op.code() as usize] += 1;
        if matches!(op, Op::Shr | Op::Shra | Op::Shl | Op::Shc) {
            self.shift_counts[clocks as usize - 8] += 1;
        }
    }

    pub fn reset_done(&mut self, step: usize, in_a_wait: bool) {
        self.resets[step] += 1;
        self.resets_in_waits[step] += u64::from(in_a_wait);
    }

    pub fn add(&mut self, other: &Coverage) {
        fn into<const N: usize>(sum: &mut [u64; N], more: &[u64; N]) {
            sum.iter_mut()
                .zip(more)
                .for_each(|(sum, more)| *sum += more);
        }
        self.scripts += other.scripts;
        self.lines += other.lines;
        self.calls += other.calls;
        self.clocks += other.clocks;
        self.waits += other.waits;
        self.instructions += other.instructions;
        self.bad_lines += other.bad_lines;
        into(&mut self.refusals, &other.refusals);
        into(&mut self.faults, &other.faults);
        into(&mut self.ops, &other.ops);
        into(&mut self.unassigned, &other.unassigned);
        into(&mut self.shift_counts, &other.shift_counts);
        into(&mut self.resets, &other.resets);
        into(&mut self.resets_in_waits, &other.resets_in_waits);
    }

    /// The numbers of the refusals and faults that were never met, but could have been.
    pub fn never_met(&self) -> Vec<usize> {
        let refusals = (1..=13).filter(|&n| n != OUT_OF_REACH && self.refusals[n] == 0);
        refusals
            .chain((17..=19).filter(|&n| self.faults[n] == 0))
            .collect()
    }

    pub fn line(&self) -> String {
        let at_step = |(t, count)| (format!("T{t}"), count);
        let met = |counts: &[u64; 32]| counts.iter().filter(|&&count| count > 0).count();
        let ops = OPS.map(|op| (op.name(), &self.ops[op.code() as usize]));
        format!(
            "scripts {} lines {} calls {} clocks {} waits {} instructions {} bad-lines {} \
             refusals {} faults {} ops {} resets {} resets-in-waits {} \
             shift-counts {} of 32 unassigned-codes {} of 9",
            self.scripts,
            self.lines,
            self.calls,
            self.clocks,
            self.waits,
            self.instructions,
            self.bad_lines,
            listed(self.refusals.iter().enumerate().skip(1)),
            listed(self.faults.iter().enumerate().skip(17)),
            listed(ops.into_iter()),
            listed(self.resets.iter().enumerate().map(at_step)),
            listed(
                self.resets_in_waits
                    .iter()
                    .enumerate()
                    .filter(|(t, _)| [1, 6, 7].contains(t))
                    .map(at_step)
            ),
            met(&self.shift_counts),
            met(&self.unassigned),
        )
    }
}

#[cfg(test)]
mod tests {
    use super::*;

    #[test]
    fn what_is_out_of_reach_is_not_missed() {
        let mut coverage = Coverage::default();
        assert_eq!(
            coverage.never_met(),
            [1, 2, 3, 4, 5, 6, 8, 9, 10, 11, 12, 13, 17, 18, 19]
        );
        coverage.refused(Refusal::Marked);
        coverage.faulted(18, None);
        assert_eq!(
            coverage.never_met(),
            [1, 3, 4, 5, 6, 8, 9, 10, 11, 12, 13, 17, 19]
        );
    }
}
