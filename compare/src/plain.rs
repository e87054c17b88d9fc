//! The script commands that the benchmark needs, performed on the machine written for speed.

use crate::beside::Call;
use crate::fast::Fast;
use crate::image;
use crate::script::{
    clocked_line, parse, refused, register_lines, state_line, Board, Command, Question,
};

struct Plain {
    board: Board,
    fast: Option<Fast>,
}

impl Plain {
    fn fast(&mut self) -> &mut Fast {
        let board = self.board;
        self.fast.get_or_insert_with(|| Fast::new(&board))
    }

    fn load(&mut self, bytes: &[u8]) -> String {
        let fast = self.fast();
        match image::read(bytes, fast.size()) {
            Err(refusal) => refused(refusal),
            Ok(segments) => {
                for segment in segments {
                    for (number, &word) in (segment.first..).zip(&segment.words) {
                        fast.set_word(number, word);
                    }
                }
                "ok".to_string()
            }
        }
    }

    fn perform(&mut self, command: Command) -> Vec<String> {
        let line = match command {
            Command::Board(setting) => {
                setting.apply(&mut self.board);
                "ok".to_string()
            }
            Command::Call(Call::Load(bytes)) => self.load(&bytes),
            Command::Call(Call::Start) => {
                self.fast().start();
                "ok".to_string()
            }
            Command::Call(Call::Clock(wanted)) => clocked_line(&self.fast().clock(wanted)),
            Command::Question(Question::State) => {
                let fast = self.fast();
                let counts = [fast.clocks, fast.waits, fast.finished];
                state_line(fast.pc, fast.t as usize, fast.run, counts)
            }
            Command::Question(Question::Registers) => {
                return register_lines(&self.fast().registers)
            }
            _ => "? not for the benchmark".to_string(),
        };
        vec![line]
    }
}

pub fn run(script: &str) -> String {
    let mut plain = Plain {
        board: Board::default(),
        fast: None,
    };
    let commands = script.lines().filter_map(parse);
    let answers = commands.flat_map(|parsed| match parsed {
        Ok(command) => plain.perform(command),
        Err(reason) => vec![format!("? {reason}")],
    });
    answers.map(|line| line + "\n").collect()
}
