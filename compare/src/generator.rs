//! Random scripts: the same seed gives the same script.

use crate::damage::{damaged, files, some_segments, with_bytes_before};
use crate::image::Segment;
use crate::isa::{put, Op, OPS};
use crate::memory::MOST_WORDS;
use crate::program::{any_instruction, edge_value, endless, program, Place};
use crate::random::Random;

/// Numbers that are small again where they are cut to 32 or 64 bits.
const HUGE: [&str; 10] = [
    "4294967296",
    "4294967297",
    "0x100000000",
    "0x100000001",
    "18446744073709551616",
    "18446744073709551617",
    "0x10000000000000001",
    "340282366920938463463374607431768211457",
    "0xFFFFFFFFFFFFFFFFFFFFFFFFFFFFFFFFFFFFFFFF",
    "99999999999999999999999999999999999999999999999999",
];

const BAD_NUMBERS: [&str; 16] = [
    "-1", "+1", "0x", "0X10", "x1", "1_000", "12a", "0xg", "1.5", "1e3", "ten", "0x-1", "$5", "5h",
    "''", "00x1",
];

const BAD_LINES: [&str; 30] = [
    "START",
    "Start",
    "start 1",
    "resume now",
    "reset 0",
    "stop",
    "run",
    "step",
    "clock",
    "clock 1 2",
    "image",
    "image 6",
    "image 68C",
    "image 0x68C2003A",
    "image 68 C2 0G",
    "load",
    "load good.img 0",
    "load missing.img",
    "load .",
    "state 1",
    "registers 0",
    "register",
    "register 1 2",
    "word",
    "line",
    "line 1 2",
    "list 1",
    "list 1 2 3",
    " # words after a blank",
    "?",
];

struct Maker {
    random: Random,
    lines: Vec<String>,
    place: Place,
}

fn hex(random: &mut Random, bytes: &[u8]) -> String {
    let blanks = random.weighted(&[6, 2, 1]);
    let small = random.once_in(3);
    let mut text = String::with_capacity(2 * bytes.len());
    for byte in bytes {
        text.push_str(&if small {
            format!("{byte:02x}")
        } else {
            format!("{byte:02X}")
        });
        let part = match blanks {
            0 => false,
            1 => true,
            _ => random.once_in(4),
        };
        if part {
            text.push(' ');
        }
    }
    text
}

impl Maker {
    fn say(&mut self, line: impl Into<String>) {
        let mut line = line.into();
        if !line.starts_with('#') && self.random.once_in(40) {
            line = self.with_more_blanks(&line);
        }
        self.lines.push(line);
    }

    fn with_more_blanks(&mut self, line: &str) -> String {
        match self.random.below(3) {
            0 => format!("  {line}"),
            1 => format!("{line} "),
            _ => line.replace(' ', "   "),
        }
    }

    fn number(&mut self, value: u32) -> String {
        match self.random.weighted(&[10, 3, 3, 1, 1]) {
            0 => format!("{value}"),
            1 => format!("0x{value:X}"),
            2 => format!("0x{value:x}"),
            3 => format!("000{value}"),
            _ => format!("0x{value:030x}"),
        }
    }

    fn huge(&mut self) -> String {
        self.random.pick(&HUGE).to_string()
    }

    fn bad_number(&mut self) -> String {
        self.random.pick(&BAD_NUMBERS).to_string()
    }

    /// A number of a word, mostly one that is there.
    fn word_number(&mut self) -> String {
        let size = self.place.size;
        let number = match self.random.weighted(&[6, 3, 1, 2, 1, 1]) {
            0 => self.random.below(size),
            1 => self.random.below(size.min(24)),
            2 => self.place.seam.wrapping_sub(self.random.below(2)),
            3 => size.wrapping_sub(self.random.below(2)),
            4 => self.random.u32(),
            _ => return self.huge(),
        };
        self.number(number)
    }

    fn register_number(&mut self) -> String {
        let number = match self.random.weighted(&[12, 1, 1, 1]) {
            0 => self.random.below(32),
            1 => self.random.between(31, 33),
            2 => self.random.u32(),
            _ => return self.huge(),
        };
        self.number(number)
    }

    fn value(&mut self) -> String {
        let value = edge_value(&mut self.random, self.place.size);
        self.number(value)
    }

    // The board.

    fn board(&mut self) {
        let (words, bytes) = self.sizes();
        if self.random.once_in(6) {
            self.board_noise();
        }
        if let Some(words) = words {
            let count = self.number(words);
            self.say(format!("words {count}"));
        }
        if let Some(bytes) = bytes {
            let count = self.number(bytes);
            self.say(format!("bytes {count}"));
        }
        let seam = words.unwrap_or(MOST_WORDS).min(MOST_WORDS);
        let size = (seam + bytes.unwrap_or(0) / 4).min(MOST_WORDS);
        self.place = Place { size, seam };
        self.delays();
        if self.random.once_in(12) {
            self.board_refusals();
        }
    }

    fn sizes(&mut self) -> (Option<u32>, Option<u32>) {
        let random = &mut self.random;
        let words = match random.weighted(&[2, 1, 1, 3, 6, 5, 2, 1]) {
            0 => None,
            1 => Some(0),
            2 => Some(1),
            3 => Some(random.between(2, 40)),
            4 => Some(random.between(48, 260)),
            5 => Some(random.between(130, 900)),
            6 => Some(random.between(8150, 8195)),
            _ => Some(random.pick(&[8191, 8192, 8193, 65_535, 65_536])),
        };
        let bytes = match random.weighted(&[6, 1, 2, 6, 1, 1]) {
            0 => None,
            1 => Some(random.below(8)),
            2 => Some(random.between(8, 200)),
            3 => Some(4 * random.between(60, 400) + random.below(4)),
            4 => Some(random.between(30_000, 34_000)),
            _ => Some(random.pick(&[0, 32_767, 32_768, 262_143, 262_144])),
        };
        (words, bytes)
    }

    fn extra(&mut self) -> u32 {
        match self.random.weighted(&[8, 4, 1, 1, 1]) {
            0 => self.random.between(1, 4),
            1 => self.random.between(5, 20),
            2 => self.random.below(256),
            3 => 255,
            _ => 0,
        }
    }

    fn delays(&mut self) {
        let size = self.place.size;
        if self.random.once_in(2) {
            let first = self.random.below(size + 2);
            let length = match self.random.below(4) {
                0 => self.random.u32().to_string(),
                1 => self.huge(),
                2 => size.to_string(),
                _ => self.random.below(size + 2).to_string(),
            };
            let first = match self.random.weighted(&[10, 6, 1, 1]) {
                0 => self.number(first),
                1 => "0".to_string(),
                2 => self.huge(),
                _ => self.random.u32().to_string(),
            };
            let extra = self.extra();
            self.say(format!("slow {first} {length} {extra}"));
        }
        if self.random.once_in(2) {
            let extra = self.extra();
            self.say(format!("row {extra}"));
        }
    }

    /// Board commands that later ones replace, but for the stretch and the row.
    fn board_noise(&mut self) {
        for _ in 0..self.random.between(1, 3) {
            match self.random.below(4) {
                0 => self.say("help"),
                1 => {
                    self.say("slow 3 5 200");
                    self.say("slow 0 0 0");
                }
                2 => {
                    self.say("row 77");
                    self.say("row 0");
                }
                _ => self.board_refusals(),
            }
        }
    }

    /// Board lines with bad numbers or with words missing: they change nothing.
    fn board_refusals(&mut self) {
        let bad = self.bad_number();
        let huge = self.huge();
        let line = match self.random.below(12) {
            0 => "words 65537".to_string(),
            1 => "bytes 262145".to_string(),
            2 => "slow 1 2 256".to_string(),
            3 => "row 256".to_string(),
            4 => format!("words {huge}"),
            5 => format!("bytes {huge}"),
            6 => format!("slow 1 2 {huge}"),
            7 => format!("row {huge}"),
            8 => format!("words {bad}"),
            9 => format!("slow {bad} 1 1"),
            10 => format!("slow 1 {bad} 1"),
            _ => self
                .random
                .pick(&["words", "bytes", "row", "slow 1 2", "words 5 5", "row 1 1"])
                .to_string(),
        };
        self.say(line);
    }

    // Settings while the machine is stopped.

    fn image(&mut self, bytes: &[u8]) {
        let text = hex(&mut self.random, bytes);
        self.say(format!("image {text}"));
    }

    fn load(&mut self, segments: &[Segment]) {
        let few = segments.iter().map(|s| s.words.len()).sum::<usize>() < 12;
        if few && self.random.once_in(3) {
            for segment in segments {
                for (number, word) in (segment.first..).zip(&segment.words) {
                    let (number, word) = (self.number(number), self.number(*word));
                    self.say(format!("set-word {number} {word}"));
                }
            }
            return;
        }
        let bytes = with_bytes_before(&mut self.random, segments);
        self.image(&bytes);
    }

    fn load_damaged(&mut self) {
        let bytes = damaged(&mut self.random, self.place.size);
        self.image(&bytes);
    }

    fn load_file(&mut self) {
        let files = files();
        let (name, _) = files[self.random.below(files.len() as u32) as usize];
        self.say(format!("load {name}"));
    }

    fn set_register(&mut self) {
        let (number, value) = (self.register_number(), self.value());
        self.say(format!("set-register {number} {value}"));
    }

    fn set_word(&mut self) {
        let number = self.word_number();
        let value = if self.random.once_in(2) {
            let word = any_instruction(&mut self.random, self.place.size);
            self.number(word)
        } else {
            self.value()
        };
        self.say(format!("set-word {number} {value}"));
    }

    fn clear_words(&mut self) {
        let length = self.place.size.min(120);
        if length > 0 {
            self.load(&[Segment {
                first: 0,
                words: vec![0; length as usize],
            }]);
        }
    }

    fn settings(&mut self) {
        for _ in 0..self.random.below(4) {
            match self.random.weighted(&[6, 2, 2, 3, 3]) {
                0 => self.load_damaged(),
                1 => self.load_file(),
                2 => {
                    let segments = some_segments(&mut self.random, self.place.size);
                    self.load(&segments);
                }
                3 => self.set_word(),
                _ => self.set_register(),
            }
        }
        if self.random.once_in(3) {
            self.clear_words();
        }
    }

    // Clocks and what comes between them.

    fn clock(&mut self, clocks: u32) {
        let text = self.number(clocks);
        self.say(format!("clock {text}"));
    }

    fn question(&mut self) {
        let line = match self.random.weighted(&[6, 4, 4, 3, 1, 2]) {
            0 => "state".to_string(),
            1 => format!("register {}", self.register_number()),
            2 => format!("word {}", self.word_number()),
            3 => format!("line {}", self.word_number()),
            4 => "registers".to_string(),
            _ => self.list_line(),
        };
        self.say(line);
    }

    fn list_line(&mut self) -> String {
        let first = self.word_number();
        let all = self.place.size < 80 || self.random.once_in(60);
        match self.random.weighted(&[1, 12, 1]) {
            0 => format!("list {first} 0"),
            2 if all => format!("list {first} {}", self.huge()),
            _ => format!("list {first} {}", self.random.between(1, 9)),
        }
    }

    /// Calls that are mostly refused here.
    fn out_of_place(&mut self) {
        match self.random.below(9) {
            0 => self.say("start"),
            1 => self.say("resume"),
            2 => self.set_register(),
            3 => self.set_word(),
            4 => self.load_damaged(),
            5 => self.load_file(),
            6 => self.clock(0),
            7 => {
                let number = self.random.between(1_000_001, 1_000_003);
                self.clock(number);
            }
            _ => {
                let huge = self.huge();
                self.say(format!("clock {huge}"));
            }
        }
    }

    fn bad_line(&mut self) {
        let bad = self.bad_number();
        let line = match self.random.weighted(&[12, 1, 1, 1, 1, 1, 1, 1, 1, 2, 1]) {
            0 => self.random.pick(&BAD_LINES).to_string(),
            1 => format!("clock {bad}"),
            2 => format!("register {bad}"),
            3 => format!("word {bad}"),
            4 => format!("line {bad}"),
            5 => format!("list {bad} 1"),
            6 => format!("list 0 {bad}"),
            7 => format!("set-register 1 {bad}"),
            8 => format!("set-word {bad} 1"),
            9 => format!("set-register 99 {}", self.huge()),
            _ => self
                .random
                .pick(&["words 5", "bytes 8", "slow 0 9 9", "row 9"])
                .to_string(),
        };
        self.say(line);
    }

    fn passed_over(&mut self) {
        let line = self
            .random
            .pick(&["", " ", "#", "# a remark", "#start", "   "]);
        self.say(line);
    }

    fn reset(&mut self) {
        self.say("reset");
        if self.random.once_in(4) {
            self.say("reset");
        }
    }

    fn between(&mut self) {
        for _ in 0..self.random.pick(&[0, 0, 1, 1, 2, 3]) {
            match self.random.weighted(&[16, 4, 3, 1, 1]) {
                0 => self.question(),
                1 => self.out_of_place(),
                2 => self.bad_line(),
                3 => self.passed_over(),
                _ => self.say("help"),
            }
        }
    }

    fn launch(&mut self) {
        match self.random.weighted(&[6, 3, 1]) {
            0 => self.say("start"),
            1 => {
                (0..self.random.below(6)).for_each(|_| self.set_register());
                self.say("resume");
            }
            _ => self.say("resume"),
        }
        if self.random.once_in(4) {
            self.say("start");
        }
    }

    fn piece(&mut self) -> u32 {
        match self.random.weighted(&[6, 6, 5, 3]) {
            0 => 1,
            1 => self.random.between(2, 9),
            2 => self.random.between(10, 100),
            _ => self.random.between(101, 1500),
        }
    }

    fn pieces(&mut self) {
        for _ in 0..self.random.between(1, 14) {
            let piece = self.piece();
            self.clock(piece);
            self.between();
            if self.random.once_in(12) {
                self.reset();
                self.between();
            }
            if self.random.once_in(14) {
                self.launch();
            }
        }
    }

    fn run_on(&mut self, ends: bool) {
        let clocks = match (ends, self.random.below(8)) {
            (true, 0) => 1_000_000,
            (true, _) => 25_000,
            (false, _) => self.random.between(500, 6000),
        };
        self.clock(clocks);
        self.between();
    }

    /// A program, run in pieces, and gone on with after its end.
    fn run_program(&mut self) {
        self.settings();
        let program = program(&mut self.random, self.place);
        self.load(&program.segments);
        self.between();
        self.launch();
        self.pieces();
        self.run_on(program.ends);
        if self.random.once_in(2) {
            self.launch();
            self.pieces();
            let far = program.ends && self.random.once_in(3);
            self.run_on(far);
        }
    }

    /// A reset after every number of clocks, from 0 on, with one instruction at the front.
    fn sweep(&mut self) {
        let size = self.place.size;
        let tested = match self.random.below(3) {
            0 => any_instruction(&mut self.random, size),
            _ => self.good_instruction(),
        };
        let mut words: Vec<u32> = vec![tested];
        words.extend((1..size.min(4)).map(|_| any_instruction(&mut self.random, size)));
        self.load(&[Segment { first: 0, words }]);
        (0..4).for_each(|_| self.set_register());
        self.say("resume");
        self.say("start");
        let from = self.random.below(4);
        let to = from + self.random.between(10, 50);
        let marked = self.random.once_in(2);
        for clocks in from..to {
            self.clock(clocks);
            self.say("reset");
            if self.random.once_in(3) {
                self.between();
            }
            if marked {
                self.clock(1);
                self.say("state");
            }
            if self.random.once_in(5) {
                self.say("start");
            }
        }
    }

    /// An instruction that meets no fault while the registers are small.
    fn good_instruction(&mut self) -> u32 {
        let random = &mut self.random;
        let address = 4 * random.below(self.place.size);
        let op = match random.below(2) {
            0 => random.pick(&OPS),
            _ => random.pick(&[Op::Ld, Op::Ldr, Op::St, Op::Str]),
        };
        match op {
            Op::Ld | Op::St => put::with_c2(op, random.below(8), 0, address),
            Op::Ldr | Op::Str => put::with_c1(op, random.below(8), address.wrapping_sub(4)),
            _ => put::registers(
                op,
                random.below(8),
                random.below(8),
                random.below(8),
                random.below(32),
            ),
        }
    }

    /// The most clocks that a call spends, some times over.
    fn long_run(&mut self) {
        let program = endless(&mut self.random, self.place);
        self.load(&program.segments);
        self.say("start");
        for _ in 0..self.random.between(1, 2) {
            self.say("clock 1000000");
            self.question();
            self.say("clock 1000001");
            let odd = self.random.between(1, 99_999);
            self.clock(odd);
            self.say("state");
        }
    }

    /// Words of every kind, for their lines.
    fn reading(&mut self) {
        let length = self.place.size.min(60);
        let words = (0..length)
            .map(|_| any_instruction(&mut self.random, self.place.size))
            .collect();
        self.load(&[Segment { first: 0, words }]);
        self.say(format!("list 0 {length}"));
    }

    fn memoryless(&mut self) {
        self.settings();
        self.launch();
        self.pieces();
    }

    fn episode(&mut self) {
        if self.place.size == 0 {
            return self.memoryless();
        }
        match self.random.weighted(&[160, 40, 20, 1]) {
            0 => self.run_program(),
            1 => self.sweep(),
            2 => self.reading(),
            _ => self.long_run(),
        }
    }

    fn ending(&mut self) {
        self.say("state");
        self.say("registers");
        let count = self.random.between(1, 30);
        self.say(format!("list 0 {count}"));
        let near = self.place.seam.saturating_sub(4);
        self.say(format!("list {near} 8"));
    }
}

/// The lines of the script of a seed.
pub fn script(seed: u64) -> Vec<String> {
    let place = Place { size: 0, seam: 0 };
    let mut maker = Maker {
        random: Random::new(seed),
        lines: Vec::new(),
        place,
    };
    maker.board();
    for _ in 0..maker.random.between(1, 3) {
        maker.episode();
    }
    maker.ending();
    maker.lines
}

#[cfg(test)]
mod tests {
    use super::*;
    use crate::coverage::Coverage;
    use crate::script::Session;

    #[test]
    fn a_seed_gives_its_script_again() {
        assert_eq!(script(77), script(77));
        assert_ne!(script(77), script(78));
    }

    #[test]
    fn scripts_meet_every_refusal_and_fault_and_the_book_agrees() {
        let mut coverage = Coverage::default();
        for seed in 0..60 {
            let mut session = Session::new();
            for line in script(seed) {
                session.answer(&line);
            }
            assert_eq!(session.trouble, None, "seed {seed}");
            coverage.add(&session.coverage());
        }
        assert_eq!(
            coverage.never_met(),
            Vec::<usize>::new(),
            "{}",
            coverage.line()
        );
    }
}
