//! The script language: one command a line, performed on one machine.

use crate::beside::{Beside, Call, Done};
use crate::coverage::Coverage;
use crate::isa;
use crate::machine::Clocked;
use crate::memory::Memory;
use crate::refusal::Refusal;

/// A number as a script gives it: any number of digits, cut at the largest of 64 bits.
fn number(text: &str) -> Option<u64> {
    let (digits, base) = match text.strip_prefix("0x") {
        Some(digits) => (digits, 16),
        None => (text, 10),
    };
    if digits.is_empty() {
        return None;
    }
    let mut value = 0u64;
    for digit in digits.chars() {
        let digit = digit.to_digit(base)?;
        value = value
            .saturating_mul(u64::from(base))
            .saturating_add(u64::from(digit));
    }
    Some(value)
}

/// A number cut at the largest of 32 bits.
fn cut(value: u64) -> u32 {
    value.min(u64::from(u32::MAX)) as u32
}

#[derive(Clone, Copy, Debug, PartialEq, Eq)]
pub struct Board {
    pub words: u32,
    pub bytes: u32,
    pub slow: Option<(u32, u32, u8)>,
    pub row: Option<u8>,
}

impl Default for Board {
    fn default() -> Board {
        Board {
            words: 8192,
            bytes: 0,
            slow: None,
            row: None,
        }
    }
}

impl Board {
    pub fn memory(&self) -> Memory {
        let low = Memory::Words(vec![0; self.words as usize]);
        let high = Memory::Bytes(vec![0; self.bytes as usize]);
        let mut memory = low.paired_with(high);
        if let Some((first, length, extra)) = self.slow {
            memory = memory.slow(first, length, extra);
        }
        if let Some(extra) = self.row {
            memory = memory.open_row(extra);
        }
        memory
    }
}

#[derive(Clone, Debug, PartialEq, Eq)]
pub enum Setting {
    Words(u32),
    Bytes(u32),
    Slow(u32, u32, u8),
    Row(u8),
}

impl Setting {
    pub fn apply(&self, board: &mut Board) {
        match *self {
            Setting::Words(count) => board.words = count,
            Setting::Bytes(count) => board.bytes = count,
            Setting::Slow(first, length, extra) => board.slow = Some((first, length, extra)),
            Setting::Row(extra) => board.row = Some(extra),
        }
    }
}

#[derive(Clone, Debug, PartialEq, Eq)]
pub enum Question {
    Register(u32),
    Word(u32),
    Line(u32),
    State,
    Registers,
    List(u32, u32),
}

#[derive(Clone, Debug, PartialEq, Eq)]
pub enum Command {
    Board(Setting),
    Call(Call),
    LoadFile(String),
    Question(Question),
    Help,
}

const BAD_NUMBER: &str = "a bad number";
const NO_COMMAND: &str = "no such command";

fn any(text: &str) -> Result<u64, &'static str> {
    number(text).ok_or(BAD_NUMBER)
}

fn at_most(text: &str, most: u32) -> Result<u32, &'static str> {
    match number(text) {
        Some(value) if value <= u64::from(most) => Ok(value as u32),
        _ => Err(BAD_NUMBER),
    }
}

fn index(text: &str) -> Result<u32, &'static str> {
    any(text).map(cut)
}

fn value(text: &str) -> Result<u32, &'static str> {
    at_most(text, u32::MAX)
}

fn extra(text: &str) -> Result<u8, &'static str> {
    at_most(text, 255).map(|value| value as u8)
}

fn hex_bytes(words: &[&str]) -> Result<Vec<u8>, &'static str> {
    let digits: Option<Vec<u8>> = words
        .iter()
        .flat_map(|word| word.chars())
        .map(|c| c.to_digit(16).map(|d| d as u8))
        .collect();
    match digits {
        Some(digits) if digits.len().is_multiple_of(2) => Ok(digits
            .chunks_exact(2)
            .map(|two| 16 * two[0] + two[1])
            .collect()),
        _ => Err("image wants two hexadecimal digits a byte"),
    }
}

/// The command of a line; none where the line is passed over.
pub fn parse(line: &str) -> Option<Result<Command, &'static str>> {
    if line.starts_with('#') {
        return None;
    }
    let words: Vec<&str> = line.split(' ').filter(|word| !word.is_empty()).collect();
    if words.is_empty() {
        return None;
    }
    Some(command(&words))
}

fn command(words: &[&str]) -> Result<Command, &'static str> {
    use Question::*;
    Ok(match *words {
        ["words", n] => Command::Board(Setting::Words(at_most(n, 65_536)?)),
        ["bytes", n] => Command::Board(Setting::Bytes(at_most(n, 262_144)?)),
        ["slow", first, length, more] => {
            Command::Board(Setting::Slow(index(first)?, index(length)?, extra(more)?))
        }
        ["row", more] => Command::Board(Setting::Row(extra(more)?)),
        ["start"] => Command::Call(Call::Start),
        ["resume"] => Command::Call(Call::Resume),
        ["reset"] => Command::Call(Call::Reset),
        ["set-register", i, v] => Command::Call(Call::SetRegister(index(i)?, value(v)?)),
        ["set-word", i, v] => Command::Call(Call::SetWord(index(i)?, value(v)?)),
        ["image", _, ..] => Command::Call(Call::Load(hex_bytes(&words[1..])?)),
        ["load", file] => Command::LoadFile(file.to_string()),
        ["clock", k] => Command::Call(Call::Clock(any(k)?)),
        ["register", i] => Command::Question(Register(index(i)?)),
        ["word", i] => Command::Question(Word(index(i)?)),
        ["line", i] => Command::Question(Line(index(i)?)),
        ["state"] => Command::Question(State),
        ["registers"] => Command::Question(Registers),
        ["list", first, count] => Command::Question(List(index(first)?, index(count)?)),
        ["help"] => Command::Help,
        _ => return Err(NO_COMMAND),
    })
}

#[derive(Clone, Debug, PartialEq, Eq)]
pub enum Answer {
    Lines(Vec<String>),
    /// The text of `help` is each program's own.
    Help,
}

pub const HELP: [&str; 19] = [
    "words N: a word memory over N words",
    "bytes N: a byte memory over N bytes, after the words",
    "slow FIRST LENGTH EXTRA: a slow stretch over that",
    "row EXTRA: an open row over that",
    "start",
    "resume",
    "reset",
    "set-register I V",
    "set-word I V",
    "image HEX: load the bytes",
    "load FILE: load the bytes of a file",
    "clock K",
    "register I",
    "word I",
    "line I: the line of word I",
    "state",
    "registers",
    "list FIRST COUNT",
    "help",
];

pub fn refused(refusal: Refusal) -> String {
    format!("refused {} ({})", refusal.number(), refusal.reason())
}

pub fn clocked_line(clocked: &Clocked) -> String {
    use crate::fault::Cause;
    let Clocked {
        spent,
        finished,
        fault,
    } = clocked;
    let Some((fault, step)) = fault else {
        return format!("spent {spent} finished {finished}");
    };
    let place = match fault.cause {
        Cause::NoWord { number, size } => format!(" number {number} size {size}"),
        _ => String::new(),
    };
    format!(
        "fault {} ({}){place} address {} step {step} instruction {} spent {spent} finished {finished}",
        fault.cause.number(),
        fault.cause.reason(),
        fault.address,
        fault.instruction,
    )
}

pub fn state_line(pc: u32, step: usize, run: bool, counts: [u64; 3]) -> String {
    let [clocks, waits, finished] = counts;
    let run = u32::from(run);
    format!("pc {pc:08X} step {step} run {run} clocks {clocks} waits {waits} finished {finished}")
}

pub fn register_lines(registers: &[u32; 32]) -> Vec<String> {
    let shown: Vec<String> = registers
        .iter()
        .enumerate()
        .map(|(i, value)| format!("r{i} {value:08X}"))
        .collect();
    shown.chunks(8).map(|eight| eight.join(" ")).collect()
}

/// One machine and its script so far.
#[derive(Default)]
pub struct Session {
    board: Board,
    /// Made at the first call or question.
    beside: Option<Beside>,
    bad_lines: u64,
    lines: u64,
    /// The first place where the book machine parted from the machine.
    pub trouble: Option<String>,
}

impl Session {
    pub fn new() -> Session {
        Session::default()
    }

    fn beside(&mut self) -> &mut Beside {
        let board = self.board;
        self.beside
            .get_or_insert_with(|| Beside::new(board.memory()))
    }

    /// The answer to a line; none where the line is passed over.
    pub fn answer(&mut self, line: &str) -> Option<Answer> {
        let parsed = parse(line)?;
        self.lines += 1;
        let answered = parsed
            .map_err(str::to_string)
            .and_then(|command| self.perform(command));
        Some(answered.unwrap_or_else(|reason| {
            self.bad_lines += 1;
            Answer::Lines(vec![format!("? {reason}")])
        }))
    }

    fn perform(&mut self, command: Command) -> Result<Answer, String> {
        let lines = match command {
            Command::Help => return Ok(Answer::Help),
            Command::Board(setting) => vec![self.set_board(&setting)?],
            Command::Call(call) => vec![self.call(&call)],
            Command::LoadFile(file) => {
                let bytes =
                    std::fs::read(&file).map_err(|e| format!("{file} cannot be read: {e}"))?;
                vec![self.call(&Call::Load(bytes))]
            }
            Command::Question(question) => self.question(&question),
        };
        Ok(Answer::Lines(lines))
    }

    fn set_board(&mut self, setting: &Setting) -> Result<String, String> {
        if self.beside.is_some() {
            return Err("the board is fixed at the first call or question".to_string());
        }
        setting.apply(&mut self.board);
        Ok("ok".to_string())
    }

    fn call(&mut self, call: &Call) -> String {
        let (answer, checked) = self.beside().perform(call);
        if let Err(trouble) = checked {
            self.trouble.get_or_insert(trouble);
        }
        match answer {
            Ok(Done::Ok) => "ok".to_string(),
            Ok(Done::Clocked(clocked)) => clocked_line(&clocked),
            Err(refusal) => refused(refusal),
        }
    }

    fn question(&mut self, question: &Question) -> Vec<String> {
        let beside = self.beside();
        let machine = &mut beside.machine;
        let one = match *question {
            Question::Register(i) => machine.register(i).map(|value| format!("{value:08X}")),
            Question::Word(i) => machine.word(i).map(|value| format!("{value:08X}")),
            Question::Line(i) => machine.word(i).map(isa::line),
            Question::State => {
                let counts = [machine.clocks, machine.waits, machine.finished];
                Ok(state_line(
                    machine.core.pc,
                    machine.core.t,
                    machine.run,
                    counts,
                ))
            }
            Question::Registers => return register_lines(&machine.core.registers),
            Question::List(first, count) => return list(beside, first, count),
        };
        vec![one.unwrap_or_else(|refusal| {
            beside.coverage.refused(refusal);
            refused(refusal)
        })]
    }

    pub fn coverage(&self) -> Coverage {
        let mut coverage = match &self.beside {
            Some(beside) => beside.coverage.clone(),
            None => Coverage::default(),
        };
        coverage.scripts = 1;
        coverage.lines = self.lines;
        coverage.bad_lines = self.bad_lines;
        coverage
    }
}

fn list(beside: &mut Beside, first: u32, count: u32) -> Vec<String> {
    let mut lines = Vec::new();
    for number in (u64::from(first)..).take(count as usize) {
        match beside.machine.word(cut(number)) {
            Ok(word) => {
                lines.push(format!(
                    "{number} {} {word:08X} {}",
                    4 * number,
                    isa::line(word)
                ));
            }
            Err(refusal) => {
                beside.coverage.refused(refusal);
                lines.push(refused(refusal));
                break;
            }
        }
    }
    lines
}

/// Reads a whole script and gives what `src_sim` prints for it.
pub fn run(script: &str) -> (String, Option<String>) {
    let mut session = Session::new();
    let mut printed = String::new();
    for line in script.split('\n') {
        let lines: Vec<String> = match session.answer(line) {
            None => continue,
            Some(Answer::Help) => HELP.map(str::to_string).to_vec(),
            Some(Answer::Lines(lines)) => lines,
        };
        for line in lines {
            printed.push_str(&line);
            printed.push('\n');
        }
    }
    (printed, session.trouble)
}

#[cfg(test)]
mod tests {
    use super::*;

    fn answers(script: &str) -> Vec<String> {
        let (printed, trouble) = run(script);
        assert_eq!(trouble, None);
        printed.lines().map(str::to_string).collect()
    }

    #[test]
    fn numbers() {
        assert_eq!(number("0"), Some(0));
        assert_eq!(number("0012"), Some(12));
        assert_eq!(number("0xfF"), Some(255));
        assert_eq!(number("99999999999999999999999"), Some(u64::MAX));
        for bad in ["", "0x", "0X1", "-1", "+1", "1_0", "12a", "0xg", "x1"] {
            assert_eq!(number(bad), None, "{bad}");
        }
    }

    #[test]
    fn the_example_image_runs() {
        let script = "\
# a program of two words
words 4

image 68 C2 00 3A F8 00 00 00 00 00 00 00 00 00 00 02 53 52 43 49 00 00 00 01 00 00 00 10
list 0 9
start
clock 1000000
register 3
state
";
        let wanted = [
            "ok",
            "ok",
            "0 0 68C2003A addi r3, r1, 58",
            "1 4 F8000000 stop",
            "2 8 00000000 nop",
            "3 12 00000000 nop",
            "refused 5 (no such word)",
            "ok",
            "spent 10 finished 2",
            "0000003A",
            "pc 00000008 step 0 run 0 clocks 10 waits 0 finished 2",
        ];
        assert_eq!(answers(script), wanted);
    }

    #[test]
    fn the_board_is_fixed_by_the_first_call_or_question() {
        let got = answers(
            "words 3\nhelp\nwords 2\nwords 65537\nregister x\nbytes 7\nword 3\nrow 1\nword 2",
        );
        let board: Vec<&String> = got
            .iter()
            .filter(|line| !HELP.contains(&line.as_str()))
            .collect();
        let wanted = [
            "ok",
            "ok",
            "? a bad number",
            "? a bad number",
            "ok",
            "refused 5 (no such word)",
        ];
        assert_eq!(board[..6], wanted);
        assert!(board[6].starts_with("? "));
        assert_eq!(board[7], "00000000");
    }

    #[test]
    fn numbers_too_large_are_refused_as_the_call_refuses_them() {
        let script = "\
words 1
clock 18446744073709551617
set-register 4294967296 1
set-word 0x100000000 1
set-word 0 0x100000000
register 4294967296
list 4294967296 0
list 4294967296 1
start
clock 18446744073709551617
set-register 4294967296 1
";
        let got: Vec<String> = answers(script)
            .iter()
            .map(|line| line.split(" (").next().unwrap().to_string())
            .collect();
        let wanted = [
            "ok",
            "refused 3",
            "refused 4",
            "refused 5",
            "? a bad number",
            "refused 4",
            "refused 5",
            "ok",
            "refused 6",
            "refused 1",
        ];
        assert_eq!(got, wanted);
    }

    #[test]
    fn lines_that_are_no_command() {
        for line in [
            "START",
            "start 1",
            "clock",
            "image",
            "image 6",
            "image 6G",
            "image 0x68",
            "load",
            "load a b",
            " # not at the beginning",
            "set-register 1",
            "list 1",
            "?",
            "words",
            "slow 1 2",
            "slow 1 2 256",
            "row 256",
            "bytes 262145",
            "load /no/such/file",
        ] {
            let got = answers(line);
            assert_eq!(got.len(), 1, "{line}");
            assert!(got[0].starts_with("? "), "{line}: {}", got[0]);
        }
        assert!(answers("\n   \n#\n# start\n#start\n").is_empty());
        assert_eq!(answers("  start  "), ["ok"]);
        assert_eq!(
            answers("image 68C2 00 1122"),
            [refused(Refusal::ImageLength)]
        );
    }

    #[test]
    fn faults_are_told_in_decimal() {
        let got = answers("words 2\nset-word 1 0x08000006\nstart\nclock 99\nresume\n");
        assert_eq!(
            got[3..],
            [
                "fault 18 (the address is no multiple of four) address 6 step 6 instruction 4 spent 11 finished 1",
                "refused 2 (the fault mark is set)"
            ]
        );
        let got = answers("words 2\nstart\nclock 99");
        assert_eq!(
            got[2],
            "fault 19 (no word has that number) number 2 size 2 address 8 step 1 instruction 8 spent 10 finished 2"
        );
    }

    #[test]
    fn reading_a_word_opens_its_row() {
        let waits = |question: &str| {
            let script = format!("words 128\nrow 3\n{question}\nstart\nclock 100\nstate");
            answers(&script).last().unwrap().clone()
        };
        assert!(waits("word 64").contains(" waits 3 "));
        assert!(waits("word 63").contains(" waits 0 "));
        assert!(waits("line 5").contains(" waits 0 "));
        assert!(waits("word 200").contains(" waits 3 "));
    }

    #[test]
    fn delays_do_not_alter_clocks_less_waits() {
        let program = "set-word 0 0x68420001\nset-word 1 0x18400100\nset-word 2 0x08800100\n\
                       set-word 3 0xF8000000\nstart\nclock 1000000\nstate";
        let steps = |board: &str| {
            let last = answers(&format!("{board}\n{program}")).pop().unwrap();
            let counts: Vec<u64> = last
                .split(' ')
                .filter_map(|word| word.parse().ok())
                .collect();
            let [.., clocks, waits, finished] = counts[..] else {
                panic!("{last}")
            };
            (clocks - waits, finished, waits > 0)
        };
        assert_eq!(steps(""), (26, 4, false));
        assert_eq!(steps("slow 1 100 200"), (26, 4, true));
        assert_eq!(steps("row 7\nslow 0 1 255"), (26, 4, true));
    }

    #[test]
    fn registers_stand_eight_a_line() {
        let got = answers("set-register 9 0xabc\nregisters");
        assert_eq!(got.len(), 5);
        assert!(got[1].starts_with("r0 00000000 r1 00000000 "));
        assert!(got[2].starts_with("r8 00000000 r9 00000ABC r10 "));
        assert!(got[4].ends_with(" r31 00000000"));
    }
}
