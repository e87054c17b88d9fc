//! Random programs for the comparison: loops with calls, programs that rewrite themselves, soups
//! of any instructions, wild addresses.

use crate::image::Segment;
use crate::isa::{form, put, stray_bits, Op, Word, OPS};
use crate::random::Random;

/// The memory that a program is made for.
#[derive(Clone, Copy, Debug)]
pub struct Place {
    pub size: u32,
    /// The number of the second memory's first word.
    pub seam: u32,
}

pub struct Program {
    pub segments: Vec<Segment>,
    /// Made to stop or fault by itself after a bounded number of clocks.
    pub ends: bool,
}

const UNASSIGNED: [u32; 9] = [7, 10, 11, 16, 17, 18, 19, 25, 30];
const STOP: u32 = 31 << 27;

// Registers of the looped programs that their bodies leave alone.
const TARGET: u32 = 25;
const COUNTER: u32 = 26;
const LOOP: u32 = 27;
const BASE: u32 = 28;
const LINK: u32 = 29;
const ROUTINE: u32 = 30;

fn negative(value: u32) -> u32 {
    value.wrapping_neg()
}

/// One bit or some bits of a mask.
fn some_bits(random: &mut Random, mask: u32) -> u32 {
    if random.once_in(2) {
        return random.u32() & mask;
    }
    let bits: Vec<u32> = (0..32)
        .map(|bit| 1 << bit)
        .filter(|bit| bit & mask != 0)
        .collect();
    if bits.is_empty() {
        0
    } else {
        random.pick(&bits)
    }
}

/// Sets some of the bits that do not alter what a word does.
fn stray(random: &mut Random, word: u32) -> u32 {
    let mask = match Word(word).op() {
        Some(op) => stray_bits(form(op, Word(word))),
        None => u32::MAX >> 5,
    };
    word | some_bits(random, mask)
}

fn sometimes_stray(random: &mut Random, word: u32) -> u32 {
    if random.once_in(12) {
        stray(random, word)
    } else {
        word
    }
}

pub fn unassigned(random: &mut Random) -> u32 {
    let word = random.pick(&UNASSIGNED) << 27;
    if random.once_in(2) {
        stray(random, word)
    } else {
        word
    }
}

/// A value at which something changes: near 0, near the memory's end, near 2^31 and 2^32.
pub fn edge_value(random: &mut Random, size: u32) -> u32 {
    let near = match random.weighted(&[3, 3, 3, 2, 3, 1, 2]) {
        0 => 0,
        1 => 4 * size,
        2 => return random.pick(&[0, 1, 0x7FFF_FFFF, 0x8000_0000, 0xFFFF_FFFF]),
        3 => 1 << 31,
        4 => random.below(size.max(1)) * 4,
        5 => 1 << random.below(32),
        _ => return random.u32(),
    };
    let off = random.pick(&[0, 0, 0, 1, 2, 3, 4, 8, 31, 32, 33]);
    if random.once_in(2) {
        near + off
    } else {
        near.wrapping_sub(off)
    }
}

fn edge_values(random: &mut Random, size: u32, count: u32) -> Vec<u32> {
    (0..count).map(|_| edge_value(random, size)).collect()
}

fn some_register(random: &mut Random) -> u32 {
    if random.once_in(4) {
        random.below(32)
    } else {
        random.below(8)
    }
}

fn some_c2(random: &mut Random, size: u32) -> u32 {
    match random.weighted(&[3, 3, 2, 2, 1]) {
        0 => random.below(64),
        1 => 4 * random.below(size.max(1)),
        2 => negative(random.below(64)),
        3 => edge_value(random, size),
        _ => random.u32(),
    }
}

fn some_c1(random: &mut Random, size: u32) -> u32 {
    match random.weighted(&[3, 2, 1, 1]) {
        0 => 4 * random.below(32),
        1 => negative(4 * random.below(32)),
        2 => edge_value(random, size),
        _ => random.u32(),
    }
}

fn with_fields(random: &mut Random, op: Op, size: u32) -> u32 {
    let (ra, rb, rc) = (
        some_register(random),
        some_register(random),
        some_register(random),
    );
    match op {
        Op::Nop | Op::Stop => put::registers(op, 0, 0, 0, 0),
        Op::Ld | Op::St | Op::La | Op::Addi | Op::Andi | Op::Ori => {
            put::with_c2(op, ra, rb, some_c2(random, size))
        }
        Op::Ldr | Op::Str | Op::Lar => put::with_c1(op, ra, some_c1(random, size)),
        Op::Br => put::registers(op, 0, rb, rc, random.below(8)),
        Op::Brl => put::registers(op, ra, rb, rc, random.below(8)),
        Op::Add | Op::Sub | Op::And | Op::Or => put::registers(op, ra, rb, rc, 0),
        Op::Neg | Op::Not => put::registers(op, ra, 0, rc, 0),
        Op::Shr | Op::Shra | Op::Shl | Op::Shc => shift(random, op, ra, rb, rc),
    }
}

fn shift(random: &mut Random, op: Op, ra: u32, rb: u32, rc: u32) -> u32 {
    match random.below(4) {
        0 => put::registers(op, ra, rb, rc, 0),
        1 => put::registers(op, ra, rb, 0, random.pick(&[1, 31])),
        _ => put::registers(op, ra, rb, 0, random.between(1, 31)),
    }
}

/// Any instruction at all, now and then with stray bits or an unassigned code.
pub fn any_instruction(random: &mut Random, size: u32) -> u32 {
    if random.once_in(60) {
        return unassigned(random);
    }
    let op = random.pick(&OPS);
    let word = with_fields(random, op, size);
    sometimes_stray(random, word)
}

/// Code under construction, from a word number on.
struct Code<'a> {
    random: &'a mut Random,
    size: u32,
    base: u32,
    words: Vec<u32>,
    /// The words that the program loads and stores.
    data: u32,
    data_length: u32,
}

impl Code<'_> {
    fn push(&mut self, word: u32) {
        self.words.push(word);
    }

    /// The byte address of the next word.
    fn here(&self) -> u32 {
        4 * (self.base + self.words.len() as u32)
    }

    fn segment(self) -> Segment {
        Segment {
            first: self.base,
            words: self.words,
        }
    }

    fn scratch(&mut self) -> u32 {
        if self.random.once_in(4) {
            self.random.pick(&[8, 12, 15, 16, 20, 24, 31])
        } else {
            self.random.below(8)
        }
    }

    fn data_address(&mut self) -> u32 {
        4 * (self.data + self.random.below(self.data_length))
    }

    /// One instruction that goes on to the next and changes no reserved register.
    fn plain(&mut self) {
        let (ra, rb, rc) = (self.scratch(), self.scratch(), self.scratch());
        let word = match self.random.weighted(&[4, 4, 4, 2, 5, 1]) {
            0 => {
                let op = self.random.pick(&[Op::Add, Op::Sub, Op::And, Op::Or]);
                put::registers(op, ra, rb, rc, 0)
            }
            1 => {
                let op = self.random.pick(&[Op::Addi, Op::Andi, Op::Ori, Op::La]);
                put::with_c2(op, ra, rb, some_c2(self.random, self.size))
            }
            2 => {
                let op = self.random.pick(&[Op::Shr, Op::Shra, Op::Shl, Op::Shc]);
                shift(self.random, op, ra, rb, rc)
            }
            3 => {
                let op = self.random.pick(&[Op::Neg, Op::Not]);
                put::registers(op, ra, 0, rc, 0)
            }
            4 => self.access(ra),
            _ if self.random.once_in(2) => put::registers(Op::Nop, 0, 0, 0, 0),
            _ => put::with_c1(Op::Lar, ra, some_c1(self.random, self.size)),
        };
        let word = sometimes_stray(self.random, word);
        self.push(word);
    }

    /// A load or store of the data.
    fn access(&mut self, ra: u32) -> u32 {
        let address = self.data_address();
        let (load, store) = match self.random.below(3) {
            0 => (
                put::with_c2(Op::Ld, ra, 0, address),
                put::with_c2(Op::St, ra, 0, address),
            ),
            1 => {
                let off = address.wrapping_sub(4 * self.data);
                (
                    put::with_c2(Op::Ld, ra, BASE, off),
                    put::with_c2(Op::St, ra, BASE, off),
                )
            }
            _ => {
                let off = address.wrapping_sub(self.here() + 4);
                (
                    put::with_c1(Op::Ldr, ra, off),
                    put::with_c1(Op::Str, ra, off),
                )
            }
        };
        if self.random.once_in(2) {
            load
        } else {
            store
        }
    }

    /// A branch over some plain instructions, taken or not.
    fn skip(&mut self) {
        let over = self.random.below(4);
        let tested = self.scratch();
        let k = self.random.below(8);
        self.push(put::with_c1(Op::Lar, TARGET, 4 * (1 + over)));
        if self.random.once_in(2) {
            let link = self.scratch();
            self.push(put::registers(Op::Brl, link, TARGET, tested, k));
        } else {
            self.push(put::registers(Op::Br, 0, TARGET, tested, k));
        }
        (0..over).for_each(|_| self.plain());
    }

    fn body(&mut self, most: u32) {
        for _ in 0..self.random.between(1, most) {
            if self.random.once_in(6) {
                self.skip();
            } else {
                self.plain();
            }
        }
    }

    /// The way a program ends.
    fn ending(&mut self) {
        let size = self.size;
        let odd = 4 * self.random.below(size) + self.random.between(1, 3);
        let outside = 4 * (size + self.random.pick(&[0, 0, 1, 7]));
        let low = negative(4 * self.random.between(1, 4));
        let address = self.random.pick(&[odd, outside, low]);
        match self.random.weighted(&[8, 3, 2, 2, 2, 2]) {
            0 => self.push(STOP),
            1 => {
                let word = unassigned(self.random);
                self.push(word);
            }
            2 => self.push(put::with_c2(Op::Ld, 3, 0, address)),
            3 => self.push(put::with_c2(Op::St, 3, 0, address)),
            4 => {
                let off = address.wrapping_sub(self.here() + 4);
                let op = self.random.pick(&[Op::Ldr, Op::Str]);
                self.push(put::with_c1(op, 3, off));
            }
            _ => {
                let k = self.random.pick(&[1, 1, 1, 2, 4]);
                self.push(put::with_c2(Op::La, TARGET, 0, address));
                self.push(put::with_c2(Op::La, 3, 0, 0));
                self.push(put::registers(Op::Br, 0, TARGET, 3, k));
            }
        }
    }
}

/// Words for the data of a program with code from `base` on, over the seam where there is one.
fn data_place(random: &mut Random, place: Place, base: u32) -> (u32, u32, bool) {
    let Place { size, seam } = place;
    let after = base + 110;
    let (first, apart) = if seam > after + 4 && seam < size {
        (seam - random.between(1, 4), true)
    } else if after < size {
        (after + random.below(size - after), true)
    } else if base > 24 {
        (4 + random.below(base - 24), true)
    } else {
        (random.below(size), false)
    };
    let room = if apart && first < base {
        base - first
    } else {
        size - first
    };
    (first, random.between(1, room.min(16)), apart)
}

/// An entry that leads to code that does not begin at 0.
fn entry(base: u32) -> Segment {
    let words = vec![
        put::with_c2(Op::La, TARGET, 0, 4 * base),
        put::registers(Op::Br, 0, TARGET, 0, 1),
    ];
    Segment { first: 0, words }
}

fn new_code(random: &mut Random, place: Place) -> (Code<'_>, bool) {
    let size = place.size;
    let base = match random.below(4) {
        0 if size > 140 => random.between(2, size - 130),
        1 if place.seam > 40 && place.seam + 100 < size => place.seam - random.below(30),
        _ => 0,
    };
    let (data, data_length, apart) = data_place(random, place, base);
    (
        Code {
            random,
            size,
            base,
            words: Vec::new(),
            data,
            data_length,
        },
        apart,
    )
}

fn with_entry(code: Segment) -> Vec<Segment> {
    if code.first == 0 {
        return vec![code];
    }
    vec![entry(code.first), code]
}

/// A loop with a counted number of rounds, or without an end.
fn looped(random: &mut Random, place: Place, rounds: Option<u32>) -> Program {
    let (mut code, apart) = new_code(random, place);
    let data = code.data;
    code.push(put::with_c2(Op::La, COUNTER, 0, rounds.unwrap_or(1)));
    code.push(put::with_c2(Op::La, BASE, 0, 4 * data));
    let routine_at = code.words.len();
    code.push(put::with_c1(Op::Lar, ROUTINE, 0));
    (0..code.random.below(4)).for_each(|_| code.plain());
    code.push(put::with_c1(Op::Lar, LOOP, 0));
    code.body(8);
    let calls = code.random.once_in(2);
    if calls {
        code.push(put::registers(Op::Brl, LINK, ROUTINE, 0, 1));
        code.body(4);
    }
    if rounds.is_some() {
        code.push(put::with_c2(Op::Addi, COUNTER, COUNTER, negative(1)));
    }
    code.push(put::registers(Op::Br, 0, LOOP, COUNTER, 3));
    code.ending();
    if calls {
        let off = 4 * (code.words.len() - routine_at - 1) as u32;
        code.words[routine_at] = put::with_c1(Op::Lar, ROUTINE, off);
        code.body(5);
        code.push(put::registers(Op::Br, 0, LINK, 0, 1));
    }
    let words = edge_values(code.random, code.size, code.data_length);
    let data = Segment { first: data, words };
    let mut segments = with_entry(code.segment());
    if apart {
        segments.push(data);
        segments.sort_by_key(|segment| segment.first);
    }
    Program {
        segments,
        ends: apart && rounds.is_some(),
    }
}

/// Branches on values from a list, each over an instruction that leaves its trace.
fn deciding(random: &mut Random, place: Place) -> Program {
    let tests = random.between(1, 8);
    let values = 6;
    let list = place.size - values;
    let mut words: Vec<u32> = (0..values)
        .map(|n| put::with_c2(Op::Ld, 1 + n, 0, 4 * (list + n)))
        .collect();
    for test in 0..tests {
        let (tested, k) = (random.between(1, values), random.below(8));
        words.push(put::with_c1(Op::Lar, TARGET, 8));
        words.push(match random.below(2) {
            0 => put::registers(Op::Br, 0, TARGET, tested, k),
            _ => put::registers(Op::Brl, LINK, TARGET, tested, k),
        });
        words.push(put::with_c2(Op::Addi, 10, 10, 1 << test));
    }
    words.push(STOP);
    let data = edge_values(random, place.size, values);
    let segments = vec![
        Segment { first: 0, words },
        Segment {
            first: list,
            words: data,
        },
    ];
    Program {
        segments,
        ends: true,
    }
}

/// A loop that adds to one of its own instructions in every round.
fn growing(random: &mut Random, place: Place) -> Program {
    let target = 6;
    let op = random.pick(&OPS);
    let first = match random.below(3) {
        0 => put::registers(
            random.pick(&[Op::Shr, Op::Shra, Op::Shl, Op::Shc]),
            5,
            4,
            4,
            0,
        ),
        1 => put::with_c2(Op::Addi, 4, 4, random.below(100)),
        _ => with_fields(random, op, place.size),
    };
    let step = random.pick(&[1, 1, 1, 3, 4, 0x1000, negative(1)]);
    let words = vec![
        put::with_c2(Op::La, COUNTER, 0, random.between(2, 70)),
        put::with_c2(Op::La, 4, 0, random.u32()),
        put::with_c1(Op::Lar, LOOP, 0),
        put::with_c2(Op::Ld, 3, 0, 4 * target),
        put::with_c2(Op::Addi, 3, 3, step),
        put::with_c2(Op::St, 3, 0, 4 * target),
        first,
        put::with_c2(Op::Addi, COUNTER, COUNTER, negative(1)),
        put::registers(Op::Br, 0, LOOP, COUNTER, 3),
        STOP,
    ];
    Program {
        segments: vec![Segment { first: 0, words }],
        ends: false,
    }
}

/// A loop that fetches instructions from a list and puts each into its own way.
fn fed(random: &mut Random, place: Place) -> Program {
    let count = random.between(4, 24.min(place.size - 18));
    let start = if place.seam > 20 && place.seam + 24 < place.size {
        place.seam - random.below(4)
    } else {
        18 + random.below(place.size - 18 - count + 1)
    };
    let code = vec![
        put::with_c2(Op::La, COUNTER, 0, count),
        put::with_c2(Op::La, BASE, 0, 4 * start),
        put::with_c2(Op::La, 1, 0, edge_value(random, place.size)),
        put::with_c2(Op::La, 2, 0, 4 * random.below(place.size)),
        put::with_c1(Op::Lar, LOOP, 0),
        put::with_c2(Op::Ld, LINK, BASE, 0),
        put::with_c1(Op::Str, LINK, 4),
        put::with_c2(Op::Addi, BASE, BASE, 4),
        0,
        put::with_c2(Op::Addi, COUNTER, COUNTER, negative(1)),
        put::registers(Op::Br, 0, LOOP, COUNTER, 3),
        STOP,
    ];
    let list = (0..count)
        .map(|_| any_instruction(random, place.size))
        .collect();
    let segments = vec![
        Segment {
            first: 0,
            words: code,
        },
        Segment {
            first: start,
            words: list,
        },
    ];
    Program {
        segments,
        ends: false,
    }
}

/// Instructions of every kind, after some addresses have been put into registers.
fn soup(random: &mut Random, place: Place) -> Program {
    let size = place.size;
    let length = random.between(1, 60.min(size));
    let words = (0..length)
        .map(|at| match at {
            0..=5 if length > 10 => {
                put::with_c2(Op::La, random.below(8), 0, 4 * random.below(size))
            }
            _ => any_instruction(random, size),
        })
        .collect();
    Program {
        segments: vec![Segment { first: 0, words }],
        ends: false,
    }
}

fn noise(random: &mut Random, place: Place) -> Program {
    let length = random.between(1, 40.min(place.size));
    let words = (0..length).map(|_| random.u32()).collect();
    Program {
        segments: vec![Segment { first: 0, words }],
        ends: false,
    }
}

/// Goes to, loads from or stores to an address near an edge.
fn to_the_edge(random: &mut Random, place: Place) -> Program {
    let size = place.size;
    let off = edge_value(random, size);
    let mut words = match random.below(3) {
        0 => vec![put::with_c2(Op::La, 4, 0, off)],
        1 => vec![put::with_c1(Op::Lar, 4, off)],
        _ => vec![
            put::with_c2(Op::La, 4, 0, random.pick(&[1, negative(1), negative(4), 3])),
            put::registers(
                random.pick(&[Op::Shl, Op::Shr, Op::Shc]),
                4,
                4,
                0,
                random.between(1, 31),
            ),
        ],
    };
    let small = random.pick(&[0, 0, 1, 2, 4, negative(1), negative(4), negative(8)]);
    words.push(match random.below(6) {
        0 => put::registers(Op::Br, 0, 4, 4, random.below(8)),
        1 => put::registers(Op::Brl, random.pick(&[4, 5]), 4, 4, random.below(8)),
        2 => put::with_c2(Op::Ld, 5, 4, small),
        3 => put::with_c2(Op::St, 5, 4, small),
        4 => put::with_c1(Op::Ldr, 5, off),
        _ => put::with_c1(Op::Str, 5, off),
    });
    words.push(STOP);
    words.truncate(size as usize);
    Program {
        segments: vec![Segment { first: 0, words }],
        ends: false,
    }
}

/// Nothing but nops, perhaps with a word at the memory's end.
fn slide(random: &mut Random, place: Place) -> Program {
    let last = random.pick(&[STOP, 0, 1, STOP | 1]);
    let words = vec![last];
    Program {
        segments: vec![Segment {
            first: place.size - 1,
            words,
        }],
        ends: true,
    }
}

/// A loop without an end, for many clocks.
pub fn endless(random: &mut Random, place: Place) -> Program {
    if place.size < 130 {
        return soup(random, place);
    }
    looped(random, place, None)
}

pub fn program(random: &mut Random, place: Place) -> Program {
    if place.size < 48 {
        return match random.weighted(&[4, 1, 3, 1]) {
            0 => soup(random, place),
            1 => noise(random, place),
            2 => to_the_edge(random, place),
            _ => slide(random, place),
        };
    }
    match random.weighted(&[16, 4, 6, 7, 2, 5, 1, 4]) {
        0 if place.size >= 130 => {
            let most = random.pick(&[1, 3, 8, 8, 20, 20, 60, 200]);
            let rounds = random.between(1, most);
            looped(random, place, Some(rounds))
        }
        0 | 1 => growing(random, place),
        2 => fed(random, place),
        3 => soup(random, place),
        4 => noise(random, place),
        5 => to_the_edge(random, place),
        6 => slide(random, place),
        _ => deciding(random, place),
    }
}

#[cfg(test)]
mod tests {
    use super::*;
    use crate::image;

    #[test]
    fn programs_fit_their_memories() {
        let mut random = Random::new(5);
        for round in 0..4000 {
            let size = random.pick(&[1, 2, 3, 17, 47, 48, 64, 129, 130, 131, 200, 600, 8192]);
            let seam = random.between(0, size);
            let place = Place { size, seam };
            let made = match round % 8 {
                0 => endless(&mut random, place),
                _ => program(&mut random, place),
            };
            let image = image::write(&made.segments);
            assert_eq!(
                image::read(&image, size).as_ref(),
                Ok(&made.segments),
                "{size} {seam}"
            );
        }
    }
}
