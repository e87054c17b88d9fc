//! An independent simulator of the one-bus SRC core, and its comparison with the proved one.

mod bench;
mod beside;
mod book;
mod campaign;
mod coverage;
mod damage;
mod fast;
mod fault;
mod generator;
mod image;
mod isa;
mod machine;
mod memory;
mod onebus;
mod plain;
mod program;
mod random;
mod refusal;
mod script;
mod selftest;
mod shrink;
mod versus;

use std::io::{Read, Write};
use std::path::{Path, PathBuf};
use std::process::ExitCode;
use std::time::Duration;

use campaign::Campaign;

const USAGE: &str = "\
compare run --sim PATH --from SEED --scripts N [--seconds S] [--jobs J] [--limit S]
    runs N scripts, of the seeds from SEED on, through PATH and the own simulator,
    J (2) at a time; starts no script after --seconds; gives one script at most
    --limit seconds (120)
compare show SEED
    prints the script of a seed
compare script
    the own simulator: reads a script on standard input, prints the answers
compare self-test
    tests the own simulator on the examples of the pages
compare bench --sim PATH [--seconds S]
    measures clocks a second of PATH and of the plain simulator, S seconds (2) each
compare plain
    the plain simulator: reads a script of the benchmark, prints the answers
PATH may also stand in the environment variable SRC_SIM.";

struct Options {
    sim: Option<PathBuf>,
    from: u64,
    scripts: u64,
    seconds: Option<f64>,
    jobs: u32,
    limit: u64,
}

fn parsed<T: std::str::FromStr>(name: &str, text: &str) -> Result<T, String> {
    text.parse()
        .map_err(|_| format!("{name} {text}: a bad number"))
}

fn options(arguments: &[String]) -> Result<Options, String> {
    let sim = std::env::var_os("SRC_SIM").map(PathBuf::from);
    let mut options = Options {
        sim,
        from: 1,
        scripts: 1000,
        seconds: None,
        jobs: 2,
        limit: 120,
    };
    let mut rest = arguments.iter();
    while let Some(name) = rest.next() {
        let text = rest.next().ok_or_else(|| format!("{name} wants a value"))?;
        match name.as_str() {
            "--sim" => options.sim = Some(PathBuf::from(text)),
            "--from" => options.from = parsed(name, text)?,
            "--scripts" => options.scripts = parsed(name, text)?,
            "--seconds" => options.seconds = Some(parsed(name, text)?),
            "--jobs" => options.jobs = parsed(name, text)?,
            "--limit" => options.limit = parsed(name, text)?,
            _ => return Err(format!("{name}: no such option")),
        }
    }
    Ok(options)
}

impl Options {
    fn sim(&self) -> Result<PathBuf, String> {
        let path = self.sim.as_ref().ok_or("no --sim and no SRC_SIM")?;
        path.canonicalize()
            .map_err(|e| format!("{}: {e}", path.display()))
    }
}

/// A folder of this run's own, with the files that scripts load, as the current folder.
fn enter_folder() -> Result<PathBuf, String> {
    let folder = std::env::temp_dir().join(format!("compare-{}", std::process::id()));
    let told = |e: std::io::Error| format!("{}: {e}", folder.display());
    std::fs::create_dir_all(&folder).map_err(told)?;
    for (name, bytes) in damage::files() {
        std::fs::write(folder.join(name), bytes).map_err(told)?;
    }
    std::env::set_current_dir(&folder).map_err(told)?;
    Ok(folder)
}

fn leave_folder(folder: &Path) {
    let _ = std::env::set_current_dir("/");
    let _ = std::fs::remove_dir_all(folder);
}

fn run_command(arguments: &[String]) -> Result<bool, String> {
    let options = options(arguments)?;
    let sim = options.sim()?;
    let folder = enter_folder()?;
    let campaign = Campaign {
        sim,
        folder: folder.clone(),
        from: options.from,
        scripts: options.scripts,
        seconds: options.seconds.map(Duration::from_secs_f64),
        jobs: options.jobs.max(1),
        limit: Duration::from_secs(options.limit),
    };
    let ending = campaign.run();
    if !ending.as_ref().is_ok_and(|ending| ending.needs_folder) {
        leave_folder(&folder);
    }
    ending.map(|ending| ending.good)
}

fn bench_command(arguments: &[String]) -> Result<bool, String> {
    let options = options(arguments)?;
    let sim = options.sim()?;
    let folder = enter_folder()?;
    let measured = bench::run(&sim, &folder, options.seconds.unwrap_or(2.0));
    leave_folder(&folder);
    measured.map(|()| true)
}

fn standard_input() -> Result<String, String> {
    let mut bytes = Vec::new();
    std::io::stdin()
        .read_to_end(&mut bytes)
        .map_err(|e| e.to_string())?;
    Ok(String::from_utf8_lossy(&bytes).into_owned())
}

fn print_text(text: &str) -> Result<bool, String> {
    let printed = std::io::stdout().lock().write_all(text.as_bytes());
    printed.map(|()| true).map_err(|e| e.to_string())
}

fn script_command() -> Result<bool, String> {
    let (printed, trouble) = script::run(&standard_input()?);
    print_text(&printed)?;
    match trouble {
        Some(trouble) => Err(trouble),
        None => Ok(true),
    }
}

fn show_command(seed: &str) -> Result<bool, String> {
    let mut text = generator::script(parsed("show", seed)?).join("\n");
    text.push('\n');
    print_text(&text)
}

fn command(arguments: &[String]) -> Result<bool, String> {
    let (name, rest) = arguments.split_first().ok_or(USAGE)?;
    match (name.as_str(), rest) {
        ("run", rest) => run_command(rest),
        ("bench", rest) => bench_command(rest),
        ("show", [seed]) => show_command(seed),
        ("script", []) => script_command(),
        ("plain", []) => print_text(&plain::run(&standard_input()?)),
        ("self-test", []) => Ok(selftest::run()),
        _ => Err(USAGE.to_string()),
    }
}

fn main() -> ExitCode {
    let arguments: Vec<String> = std::env::args().skip(1).collect();
    match command(&arguments) {
        Ok(true) => ExitCode::SUCCESS,
        Ok(false) => ExitCode::FAILURE,
        Err(text) => {
            eprintln!("{text}");
            ExitCode::from(2)
        }
    }
}
