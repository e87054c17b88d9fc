//! Many scripts, of one seed after the other, through both programs.

use std::panic::catch_unwind;
use std::path::PathBuf;
use std::sync::atomic::{AtomicBool, AtomicU64, Ordering};
use std::sync::Mutex;
use std::thread;
use std::time::{Duration, Instant};

use crate::coverage::Coverage;
use crate::generator;
use crate::shrink::shrink;
use crate::versus::{compare, Difference, Proved};

/// From this many scripts on every refusal and fault within reach must be met.
const ENOUGH_SCRIPTS: u64 = 1000;
const SHRINK_FOR: Duration = Duration::from_secs(60);

pub struct Campaign {
    pub sim: PathBuf,
    /// A folder of this campaign's own.
    pub folder: PathBuf,
    pub from: u64,
    pub scripts: u64,
    pub seconds: Option<Duration>,
    /// How many scripts go on at a time.
    pub jobs: u32,
    /// How long one script may take.
    pub limit: Duration,
}

/// What the jobs share.
struct Progress {
    begun: Instant,
    next: AtomicU64,
    halt: AtomicBool,
    coverage: Mutex<Coverage>,
    /// The difference of the lowest seed so far.
    found: Mutex<Option<(u64, Difference)>>,
}

impl Progress {
    fn new() -> Progress {
        Progress {
            begun: Instant::now(),
            next: AtomicU64::new(0),
            halt: AtomicBool::new(false),
            coverage: Mutex::default(),
            found: Mutex::default(),
        }
    }

    fn note(&self, seed: u64, difference: Difference) {
        self.halt.store(true, Ordering::Relaxed);
        let mut found = self.found.lock().expect("no job panics");
        if found.as_ref().is_none_or(|(lowest, _)| seed < *lowest) {
            *found = Some((seed, difference));
        }
    }
}

/// How a campaign ended.
pub struct Ending {
    /// All scripts agree and, after enough of them, all within reach was met.
    pub good: bool,
    /// The script of a difference loads files from the folder.
    pub needs_folder: bool,
}

impl Campaign {
    pub fn run(&self) -> Result<Ending, String> {
        let progress = Progress::new();
        let ended: Result<(), String> = thread::scope(|scope| {
            let progress = &progress;
            let jobs: Vec<_> = (0..self.jobs)
                .map(|job| scope.spawn(move || self.job(job, progress)))
                .collect();
            jobs.into_iter()
                .try_for_each(|job| job.join().expect("no job panics"))
        });
        ended?;
        if let Some((seed, difference)) = progress.found.into_inner().expect("no job panics") {
            let (small, difference) = self.shrunk(seed, difference)?;
            let needs_folder = small.iter().any(|line| line.contains("load"));
            report(seed, &small, &difference);
            if needs_folder {
                println!("(`load` reads its files from {})", self.folder.display());
            }
            return Ok(Ending {
                good: false,
                needs_folder,
            });
        }
        let coverage = progress.coverage.into_inner().expect("no job panics");
        Ok(Ending {
            good: told(&coverage, progress.begun.elapsed()),
            needs_folder: false,
        })
    }

    fn proved(&self, job: u32) -> Result<Proved, String> {
        Proved::new(
            &self.sim,
            self.folder.join(format!("script-{job}")),
            self.limit,
        )
    }

    fn next_seed(&self, progress: &Progress) -> Option<u64> {
        let late = self
            .seconds
            .is_some_and(|seconds| progress.begun.elapsed() >= seconds);
        if late || progress.halt.load(Ordering::Relaxed) {
            return None;
        }
        let number = progress.next.fetch_add(1, Ordering::Relaxed);
        (number < self.scripts).then(|| self.from.wrapping_add(number))
    }

    fn job(&self, job: u32, progress: &Progress) -> Result<(), String> {
        let proved = self.proved(job)?;
        while let Some(seed) = self.next_seed(progress) {
            let compared = catch_unwind(|| compare(&proved, &generator::script(seed)));
            let (difference, met) =
                compared.map_err(|_| format!("the comparison panicked at seed {seed}"))??;
            progress.coverage.lock().expect("no job panics").add(&met);
            if let Some(difference) = difference {
                progress.note(seed, difference);
            }
        }
        Ok(())
    }

    fn shrunk(&self, seed: u64, first: Difference) -> Result<(Vec<String>, Difference), String> {
        let proved = self.proved(0)?;
        let until = Instant::now() + SHRINK_FOR;
        let mut last = first;
        let small = shrink(generator::script(seed), until, |lines| {
            match compare(&proved, lines) {
                Ok((Some(difference), _)) => {
                    last = difference;
                    true
                }
                _ => false,
            }
        });
        Ok((small, last))
    }
}

/// Tells what was met. True where that is enough.
fn told(coverage: &Coverage, taken: Duration) -> bool {
    println!("{} seconds {:.1}", coverage.line(), taken.as_secs_f64());
    let missing = coverage.never_met();
    let good = coverage.scripts < ENOUGH_SCRIPTS || missing.is_empty();
    if !good {
        println!("never met: {missing:?}");
    }
    good
}

fn report(seed: u64, lines: &[String], difference: &Difference) {
    println!(
        "difference: seed {seed}, {} lines when shrunk:",
        lines.len()
    );
    println!("---");
    lines.iter().for_each(|line| println!("{line}"));
    println!("---");
    if let Some((at, command)) = &difference.command {
        println!("line {at}: {command}");
    }
    println!("own:    {}", difference.own);
    println!("proved: {}", difference.proved);
}
