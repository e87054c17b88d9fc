//! One script through both programs, and their answers side by side.

use std::fs::File;
use std::io::Read;
use std::path::{Path, PathBuf};
use std::process::{Child, Command, Stdio};
use std::sync::mpsc;
use std::thread;
use std::time::Duration;

use crate::coverage::Coverage;
use crate::script::{Answer, Session};

/// The proved program.
pub struct Proved {
    path: PathBuf,
    /// The file from which it reads its script.
    script: PathBuf,
    /// How long one script may take.
    limit: Duration,
    help_lines: usize,
}

/// The proved program at work on a script.
struct Running {
    child: Child,
    printed: mpsc::Receiver<std::io::Result<Vec<u8>>>,
}

impl Proved {
    /// Asks the program once how many lines its help has.
    pub fn new(path: &Path, script: PathBuf, limit: Duration) -> Result<Proved, String> {
        let mut proved = Proved {
            path: path.to_path_buf(),
            script,
            limit,
            help_lines: 0,
        };
        let (printed, ended) = proved.start("help\n")?.finish(limit)?;
        ended?;
        proved.help_lines = printed.lines().count();
        if proved.help_lines == 0 {
            return Err("the proved program prints no help".to_string());
        }
        Ok(proved)
    }

    fn start(&self, script: &str) -> Result<Running, String> {
        let told = |e: std::io::Error| format!("{}: {e}", self.path.display());
        std::fs::write(&self.script, script).map_err(told)?;
        let input = File::open(&self.script).map_err(told)?;
        let mut child = Command::new(&self.path)
            .stdin(input)
            .stdout(Stdio::piped())
            .stderr(Stdio::null())
            .spawn()
            .map_err(told)?;
        let mut output = child.stdout.take().expect("the output is piped");
        let (sender, printed) = mpsc::channel();
        thread::spawn(move || {
            let mut bytes = Vec::new();
            let read = output.read_to_end(&mut bytes).map(|_| bytes);
            // Nobody listens any more where the time was over.
            let _ = sender.send(read);
        });
        Ok(Running { child, printed })
    }
}

impl Running {
    /// What was printed, and whether the program ended well.
    fn finish(mut self, limit: Duration) -> Result<(String, Result<(), String>), String> {
        let printed = match self.printed.recv_timeout(limit) {
            Ok(printed) => printed.map_err(|e| e.to_string())?,
            Err(_) => {
                let _ = self.child.kill();
                let _ = self.child.wait();
                return Err(format!(
                    "the proved program did not end in {} s",
                    limit.as_secs()
                ));
            }
        };
        let status = self.child.wait().map_err(|e| e.to_string())?;
        let ended = if status.success() {
            Ok(())
        } else {
            Err(format!("the proved program ended with {status}"))
        };
        Ok((String::from_utf8_lossy(&printed).into_owned(), ended))
    }
}

/// Where the two part.
#[derive(Debug)]
pub struct Difference {
    /// The number of the script's line, from 1, and its text.
    pub command: Option<(usize, String)>,
    pub own: String,
    pub proved: String,
}

/// A line without what each program says in its own words.
fn bare(line: &str) -> String {
    if line.starts_with("? ") {
        return "?".to_string();
    }
    let told = line.starts_with("refused ") || line.starts_with("fault ");
    match (line.find(" ("), line.rfind(')')) {
        (Some(from), Some(to)) if told && from < to => {
            format!("{} (){}", &line[..from], &line[to + 1..])
        }
        _ => line.to_string(),
    }
}

fn same(own: &str, proved: &str) -> bool {
    own == proved || bare(own) == bare(proved)
}

const NOTHING: &str = "(no line)";

/// Compares the own answers with the printed lines.
fn judge(
    lines: &[String],
    answers: &[(usize, Answer)],
    printed: &str,
    help_lines: usize,
) -> Option<Difference> {
    let mut printed = printed.lines();
    for (at, answer) in answers {
        let command = Some((at + 1, lines[*at].clone()));
        let found = |own: &str, proved: Option<&str>| Difference {
            command: command.clone(),
            own: own.to_string(),
            proved: proved.unwrap_or(NOTHING).to_string(),
        };
        match answer {
            Answer::Help => {
                if printed.by_ref().take(help_lines).count() < help_lines {
                    return Some(found("(the help)", None));
                }
            }
            Answer::Lines(own) => {
                for line in own {
                    let proved = printed.next();
                    if !proved.is_some_and(|proved| same(line, proved)) {
                        return Some(found(line, proved));
                    }
                }
            }
        }
    }
    printed.next().map(|line| Difference {
        command: None,
        own: NOTHING.to_string(),
        proved: line.to_string(),
    })
}

/// The own simulator's part.
pub struct Own {
    answers: Vec<(usize, Answer)>,
    pub trouble: Option<String>,
    pub coverage: Coverage,
}

pub fn own_answers(lines: &[String]) -> Own {
    let mut session = Session::new();
    let mut answers = Vec::new();
    for (at, line) in lines.iter().enumerate() {
        answers.extend(session.answer(line).map(|answer| (at, answer)));
    }
    let coverage = session.coverage();
    Own {
        answers,
        trouble: session.trouble,
        coverage,
    }
}

/// The text of a script. Now and then its last line has no end of line.
fn text(lines: &[String]) -> String {
    let mut text = lines.join("\n");
    if !lines.len().is_multiple_of(8) {
        text.push('\n');
    }
    text
}

/// Runs a script through both. An error is one of the surroundings, not a difference.
pub fn compare(
    proved: &Proved,
    lines: &[String],
) -> Result<(Option<Difference>, Coverage), String> {
    let running = proved.start(&text(lines))?;
    let own = own_answers(lines);
    let difference = match running.finish(proved.limit) {
        Ok((printed, ended)) => judge(lines, &own.answers, &printed, proved.help_lines)
            .or_else(|| ended.err().map(|end| apart("(a good end)", &end))),
        Err(end) => Some(apart("(an end)", &end)),
    };
    let trouble = own.trouble.map(|trouble| apart(&trouble, "(not asked)"));
    Ok((trouble.or(difference), own.coverage))
}

fn apart(own: &str, proved: &str) -> Difference {
    Difference {
        command: None,
        own: own.to_string(),
        proved: proved.to_string(),
    }
}

#[cfg(test)]
mod tests {
    use super::*;

    #[test]
    fn own_words_are_left_out() {
        assert!(same("? a", "? b"));
        assert!(!same("? a", "ok"));
        assert!(same("refused 5 (a)", "refused 5 (b (c) d)"));
        assert!(!same("refused 5 (a)", "refused 4 (a)"));
        assert!(!same("refused 5 (a)", "refused 5"));
        assert!(same(
            "fault 18 (a) address 6 step 1",
            "fault 18 (b) address 6 step 1"
        ));
        assert!(!same(
            "fault 18 (a) address 6 step 1",
            "fault 18 (a) address 7 step 1"
        ));
        assert!(!same("word (a)", "word (b)"));
    }

    fn lines(script: &str) -> Vec<String> {
        script.lines().map(str::to_string).collect()
    }

    fn judged(script: &str, printed: &str) -> Option<(Option<usize>, String, String)> {
        let lines = lines(script);
        let own = own_answers(&lines);
        let difference = judge(&lines, &own.answers, printed, 2)?;
        Some((
            difference.command.map(|(at, _)| at),
            difference.own,
            difference.proved,
        ))
    }

    #[test]
    fn answers_are_lined_up_with_their_commands() {
        let script = "words 1\n# x\nhelp\nlist 0 2\nstart";
        let good = "ok\nhelp one\nhelp two\n0 0 00000000 nop\nrefused 5 (none)\nok\n";
        assert_eq!(judged(script, good), None);
        let wrong = good.replace("nop", "not");
        let (at, own, proved) = judged(script, &wrong).unwrap();
        assert_eq!(
            (at, own.as_str(), proved.as_str()),
            (Some(4), "0 0 00000000 nop", "0 0 00000000 not")
        );
        let short = good.strip_suffix("ok\n").unwrap();
        assert_eq!(judged(script, short).unwrap().2, NOTHING);
        let long = format!("{good}ok\n");
        assert_eq!(judged(script, &long).unwrap().1, NOTHING);
    }
}
