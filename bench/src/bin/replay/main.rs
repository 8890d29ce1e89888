//! Times the program `replay` beside `replay_rust`, as processes of their own, on two traces. Both
//! have to be built before. In the environment, REPLAY names another program in place of ours, and
//! BEFORE an earlier build of ours that is timed beside it.

mod trace;

use std::env;
use std::fmt::Display;
use std::fs::{self, File};
use std::io;
use std::path::{Path, PathBuf};
use std::process::{Command, ExitCode};
use std::time::Instant;

use self::trace::{mixed_trace, sample_trace};

const EVENTS: usize = 1_000_000;
const ROUNDS: usize = 21;

/// A program, and the file that takes what it prints.
struct Side {
    name: &'static str,
    program: PathBuf,
    output: PathBuf,
}

fn main() -> ExitCode {
    match run() {
        Ok(()) => ExitCode::SUCCESS,
        Err(error) => {
            eprintln!("replay bench: {error}");
            ExitCode::FAILURE
        }
    }
}

fn run() -> io::Result<()> {
    let root = Path::new(env!("CARGO_MANIFEST_DIR"))
        .join("..")
        .canonicalize()?;
    let (folder, samples) = (root.join("target/bench"), root.join("examples/traces"));
    let sides = sides(&root, &folder)?;
    fs::create_dir_all(&folder)?;
    let traces = [
        ("mixed", "million.rows", mixed_trace(&samples, EVENTS)?),
        ("samples", "samples.rows", sample_trace(&samples, EVENTS)?),
    ];
    for (name, file, bytes) in traces {
        let trace = folder.join(file);
        fs::write(&trace, bytes)?;
        for flags in [&[][..], &["--answers"], &["--zc"]] {
            let case = [&["replay"], flags].concat().join(" ");
            let line = compare(&sides, flags, &trace)?;
            println!("{case}, {name}: {line}");
        }
    }
    Ok(())
}

/// Ours first and the Rust program last.
fn sides(root: &Path, folder: &Path) -> io::Result<Vec<Side>> {
    let side = |name, program| Side {
        name,
        program,
        output: folder.join(format!("{name}.out")),
    };
    let ours = match env::var_os("REPLAY") {
        Some(path) => path.into(),
        None => root.join("target/bin/replay"),
    };
    let rust = env::current_exe()?.with_file_name("replay_rust");
    let mut sides = vec![side("ours", built(ours, "make program")?)];
    if let Some(path) = env::var_os("BEFORE") {
        sides.push(side("before", path.into()));
    }
    let command = "cargo build --release --offline --bin replay_rust";
    sides.push(side("rust", built(rust, command)?));
    Ok(sides)
}

fn built(program: PathBuf, command: &str) -> io::Result<PathBuf> {
    if program.is_file() {
        return Ok(program);
    }
    let program = program.display();
    Err(io::Error::other(format!(
        "{program} is missing, which `{command}` builds"
    )))
}

/// The best time of each side. They alternate, so that other load falls on all of them.
fn compare(sides: &[Side], flags: &[&str], trace: &Path) -> io::Result<String> {
    let mut best = vec![f64::INFINITY; sides.len()];
    for _ in 0..ROUNDS {
        for (side, best) in sides.iter().zip(&mut best) {
            *best = best.min(side.ns_per_event(flags, trace)?);
        }
    }
    let (ours, others) = (&sides[0], &sides[1..]);
    for other in others {
        if fs::read(&ours.output)? != fs::read(&other.output)? {
            let (a, b) = (ours.output.display(), other.output.display());
            return Err(io::Error::other(format!("{a} and {b} differ")));
        }
    }
    let mut line = format!("{} {:.1} ns an event", ours.name, best[0]);
    for (other, ns) in others.iter().zip(&best[1..]) {
        line += &format!(", {} {ns:.1} ns", other.name);
    }
    Ok(line + &format!(", ratio {:.2}", best[0] / best[sides.len() - 1]))
}

impl Side {
    fn ns_per_event(&self, flags: &[&str], trace: &Path) -> io::Result<f64> {
        let output = File::create(&self.output)?;
        let start = Instant::now();
        let status = Command::new(&self.program)
            .args(flags)
            .arg(trace)
            .stdout(output)
            .status();
        let seconds = start.elapsed().as_secs_f64();
        let status = status.map_err(|error| self.complaint(error))?;
        if !status.success() {
            return Err(self.complaint(status));
        }
        Ok(seconds * 1e9 / EVENTS as f64)
    }

    fn complaint(&self, what: impl Display) -> io::Error {
        io::Error::other(format!("{}: {what}", self.program.display()))
    }
}
