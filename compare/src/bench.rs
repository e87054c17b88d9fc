//! Clocks a second of the proved program and of the plain simulator, side by side.

use std::fs::File;
use std::io::Read;
use std::path::{Path, PathBuf};
use std::process::{Command, Stdio};
use std::thread;
use std::time::Duration;

use crate::image::{write, Segment};
use crate::isa::{put, Op};

const PIECE: u64 = 1_000_000;
const LOOP: u32 = 27;

pub struct Job {
    pub name: &'static str,
    board: &'static str,
    words: Vec<u32>,
}

fn minus(value: u32) -> u32 {
    value.wrapping_neg()
}

fn arithmetic() -> Job {
    let words = vec![
        put::with_c2(Op::La, 1, 0, 1),
        put::with_c2(Op::La, 2, 0, minus(7)),
        put::with_c1(Op::Lar, LOOP, 0),
        put::registers(Op::Add, 3, 1, 2, 0),
        put::registers(Op::Sub, 4, 3, 1, 0),
        put::registers(Op::And, 5, 4, 3, 0),
        put::registers(Op::Or, 6, 5, 2, 0),
        put::with_c2(Op::Addi, 1, 1, 3),
        put::registers(Op::Neg, 7, 0, 6, 0),
        put::registers(Op::Not, 8, 0, 7, 0),
        put::with_c2(Op::Andi, 9, 8, 255),
        put::with_c2(Op::Ori, 10, 9, minus(16)),
        put::registers(Op::Br, 0, LOOP, 0, 1),
    ];
    Job {
        name: "arithmetic",
        board: "",
        words,
    }
}

/// Loads run over both memories of a pair, stores over the second.
fn memory_traffic() -> Job {
    let words = vec![
        put::with_c1(Op::Lar, LOOP, 0),
        put::with_c2(Op::Addi, 1, 1, 4),
        put::with_c2(Op::Andi, 1, 1, 0x7FFC),
        put::with_c2(Op::Ld, 2, 1, 0),
        put::with_c2(Op::Ori, 3, 1, 0x4000),
        put::registers(Op::Add, 2, 2, 1, 0),
        put::with_c2(Op::St, 2, 3, 0),
        put::with_c1(Op::Ldr, 4, 16),
        put::with_c2(Op::Ld, 5, 3, 0),
        put::registers(Op::Br, 0, LOOP, 0, 1),
    ];
    Job {
        name: "memory",
        board: "words 4096\nbytes 16384\nslow 2048 4096 3\nrow 2\n",
        words,
    }
}

fn shifts() -> Job {
    let words = vec![
        put::with_c2(Op::La, 1, 0, minus(12_345)),
        put::with_c1(Op::Lar, LOOP, 0),
        put::registers(Op::Shc, 2, 1, 0, 31),
        put::registers(Op::Shl, 3, 2, 0, 13),
        put::registers(Op::Shr, 4, 3, 0, 7),
        put::registers(Op::Shra, 5, 1, 4, 0),
        put::registers(Op::Add, 1, 2, 5, 0),
        put::registers(Op::Shl, 6, 1, 5, 0),
        put::registers(Op::Br, 0, LOOP, 0, 1),
    ];
    Job {
        name: "shifts",
        board: "",
        words,
    }
}

pub fn jobs() -> Vec<Job> {
    vec![arithmetic(), memory_traffic(), shifts()]
}

impl Job {
    pub fn script(&self, pieces: u64) -> String {
        let bytes = write(&[Segment {
            first: 0,
            words: self.words.clone(),
        }]);
        let hex: String = bytes.iter().map(|byte| format!("{byte:02X}")).collect();
        let clocks = format!("clock {PIECE}\n").repeat(pieces as usize);
        format!(
            "{}image {hex}\nstart\n{clocks}state\nregisters\n",
            self.board
        )
    }
}

struct Measured {
    /// Processor time: on a busy machine the time of the wall says little.
    seconds: f64,
    peak_kilobytes: u64,
    printed: String,
}

fn peak_kilobytes(process: u32) -> Option<u64> {
    let status = std::fs::read_to_string(format!("/proc/{process}/status")).ok()?;
    let line = status.lines().find(|line| line.starts_with("VmHWM:"))?;
    line.split_whitespace().nth(1)?.parse().ok()
}

/// User and system time of a process, which still stands there when it has ended and nobody has
/// waited for it yet.
fn processor_seconds(process: u32) -> Option<f64> {
    const TICKS_A_SECOND: f64 = 100.0;
    let stat = std::fs::read_to_string(format!("/proc/{process}/stat")).ok()?;
    let after_name = &stat[stat.rfind(')')? + 1..];
    let mut times = after_name.split_whitespace().skip(11);
    let user: f64 = times.next()?.parse().ok()?;
    let system: f64 = times.next()?.parse().ok()?;
    Some((user + system) / TICKS_A_SECOND)
}

/// Looks at a process until `ended`. The peak only grows, so the last look tells it.
fn watched_peak(process: u32, ended: impl Fn() -> bool) -> u64 {
    let mut peak = 0;
    while !ended() {
        peak = peak_kilobytes(process).unwrap_or(0).max(peak);
        thread::sleep(Duration::from_millis(1));
    }
    peak
}

struct Contender {
    path: PathBuf,
    arguments: &'static [&'static str],
    script: PathBuf,
}

impl Contender {
    fn measure(&self, script: &str) -> std::io::Result<Measured> {
        std::fs::write(&self.script, script)?;
        let input = File::open(&self.script)?;
        let mut child = Command::new(&self.path)
            .args(self.arguments)
            .stdin(input)
            .stdout(Stdio::piped())
            .spawn()?;
        let mut output = child.stdout.take().expect("the output is piped");
        let reader = thread::spawn(move || {
            let mut printed = String::new();
            output.read_to_string(&mut printed).map(|_| printed)
        });
        let peak_kilobytes = watched_peak(child.id(), || reader.is_finished());
        let seconds = processor_seconds(child.id()).unwrap_or(0.0);
        child.wait()?;
        let printed = reader.join().expect("the reader does not panic")?;
        Ok(Measured {
            seconds,
            peak_kilobytes,
            printed,
        })
    }

    /// The pieces that take about so long.
    fn pieces_for(&self, job: &Job, seconds: f64) -> std::io::Result<u64> {
        let mut pieces = 1;
        loop {
            let taken = self.measure(&job.script(pieces))?.seconds;
            if taken >= seconds / 8.0 || pieces >= 4096 {
                return Ok(((pieces as f64 * seconds / taken) as u64).clamp(1, 100_000));
            }
            pieces *= 4;
        }
    }

    fn rate(&self, job: &Job, seconds: f64) -> std::io::Result<(f64, u64)> {
        let pieces = self.pieces_for(job, seconds)?;
        let measured = self.measure(&job.script(pieces))?;
        Ok((
            (pieces * PIECE) as f64 / measured.seconds,
            measured.peak_kilobytes,
        ))
    }
}

fn check_answers(job: &Job, proved: &Contender, plain: &Contender) -> Result<(), String> {
    let script = job.script(2);
    let proved = proved.measure(&script).map_err(|e| e.to_string())?.printed;
    let plain = plain.measure(&script).map_err(|e| e.to_string())?.printed;
    if proved != plain {
        return Err(format!(
            "{}: the answers differ\nproved:\n{proved}plain:\n{plain}",
            job.name
        ));
    }
    Ok(())
}

/// Measures all jobs, each about `seconds` long for each program.
pub fn run(sim: &Path, folder: &Path, seconds: f64) -> Result<(), String> {
    let own = std::env::current_exe().map_err(|e| e.to_string())?;
    let script = folder.join("script");
    let proved = Contender {
        path: sim.to_path_buf(),
        arguments: &[],
        script: script.clone(),
    };
    let plain = Contender {
        path: own,
        arguments: &["plain"],
        script,
    };
    println!("clocks a second of processor time, and peak memory");
    println!(
        "{:<12} {:>16} {:>16} {:>12} {:>14} {:>14}",
        "program",
        "proved clocks/s",
        "plain clocks/s",
        "proved/plain",
        "proved peak kB",
        "plain peak kB"
    );
    for job in jobs() {
        check_answers(&job, &proved, &plain)?;
        let (proved_rate, proved_peak) = proved.rate(&job, seconds).map_err(|e| e.to_string())?;
        let (plain_rate, plain_peak) = plain.rate(&job, seconds).map_err(|e| e.to_string())?;
        println!(
            "{:<12} {:>16.0} {:>16.0} {:>12.4} {:>14} {:>14}",
            job.name,
            proved_rate,
            plain_rate,
            proved_rate / plain_rate,
            proved_peak,
            plain_peak
        );
    }
    Ok(())
}

#[cfg(test)]
mod tests {
    use super::*;
    use crate::{plain, script};

    #[test]
    fn the_plain_simulator_answers_as_the_readable_one() {
        for job in jobs() {
            let text = job.script(1);
            let (wanted, trouble) = script::run(&text);
            assert_eq!(trouble, None);
            assert_eq!(plain::run(&text), wanted, "{}", job.name);
        }
    }

    #[test]
    fn the_memory_job_waits_and_none_ends() {
        for job in jobs() {
            let printed = plain::run(&job.script(1));
            assert!(printed.contains(" run 1 clocks 1000000 "), "{}", job.name);
            assert_eq!(printed.contains(" waits 0 "), job.name != "memory");
        }
    }
}
