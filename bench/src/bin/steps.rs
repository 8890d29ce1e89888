//! Times a step by value, in place, and in place by its kind, all by the program `step_bench`, which
//! has to be built before, and the same calls in place by the recorder of `replay_rust`.

#[allow(dead_code)]
#[path = "replay_rust/access.rs"]
mod access;
#[path = "replay_rust/classifier.rs"]
mod classifier;
#[allow(dead_code)]
#[path = "replay_rust/cycles.rs"]
mod cycles;
#[allow(dead_code)]
#[path = "replay_rust/recorder.rs"]
mod recorder;

use std::hint::black_box;
use std::io::{self, Write};
use std::path::Path;
use std::process::{Command, ExitCode, Stdio};
use std::time::Instant;

use model::digest::extended;

use self::access::Change;
use self::recorder::{Recorder, Value};

/// How many calls a round has, how many rounds a run has, and how often each form is run.
const CALLS: u64 = 100_000;
const ROUNDS: usize = 20;
const RUNS: usize = 11;

/// What the program is told for each form.
const FORMS: [(u8, &str); 3] = [(b'v', "by value"), (b'p', "in place"), (b'k', "by kind")];

const JAL: u32 = 0x0000_00ef;
const SCTRDEPTH: u64 = 0x15F;
const MCTRCTL: u64 = 0x34E;
const WRITE: u64 = 1;

fn main() -> ExitCode {
    match run() {
        Ok(()) => ExitCode::SUCCESS,
        Err(error) => {
            eprintln!("steps bench: {error}");
            ExitCode::FAILURE
        }
    }
}

/// The best time of each form. They alternate, so that other load falls on all of them.
fn run() -> io::Result<()> {
    let program = Path::new(env!("CARGO_MANIFEST_DIR")).join("../target/bin/step_bench");
    if !program.is_file() {
        return Err(io::Error::other(
            "step_bench is missing, which `make bench` builds",
        ));
    }
    let mut best = [f64::INFINITY; FORMS.len()];
    let mut rust = f64::INFINITY;
    for _ in 0..RUNS {
        for ((form, _), best) in FORMS.iter().zip(&mut best) {
            *best = best.min(ns_per_step(&program, *form)?);
        }
        rust = rust.min(ns_per_rust_step());
    }
    for ((_, name), ns) in FORMS.iter().zip(best) {
        let ratio = ns / rust;
        println!("a step {name}: ours {ns:.1} ns, rust {rust:.1} ns, ratio {ratio:.1}");
    }
    Ok(())
}

/// One run of the program: all rounds in one form, each of which has to end as it should.
fn ns_per_step(program: &Path, form: u8) -> io::Result<f64> {
    let start = Instant::now();
    let mut child = Command::new(program)
        .stdin(Stdio::piped())
        .stdout(Stdio::piped())
        .spawn()?;
    child
        .stdin
        .take()
        .expect("a pipe")
        .write_all(&[form; ROUNDS])?;
    let output = child.wait_with_output()?;
    let ns = ns_each(start);
    let text = String::from_utf8_lossy(&output.stdout);
    let digest = format!(" 0x{:016x}", rust_round());
    if text.lines().count() != ROUNDS || !text.lines().all(|line| line.ends_with(&digest)) {
        return Err(io::Error::other("step_bench and the Rust recorder differ"));
    }
    Ok(ns)
}

fn ns_per_rust_step() -> f64 {
    let start = Instant::now();
    for _ in 0..ROUNDS {
        black_box(rust_round());
    }
    ns_each(start)
}

fn ns_each(start: Instant) -> f64 {
    start.elapsed().as_secs_f64() * 1e9 / (CALLS as f64 * ROUNDS as f64)
}

/// The round that `step_bench` runs: the digest of the answers and of the state after them.
fn rust_round() -> u64 {
    let mut recorder = Recorder::reset(false);
    for (csr, operand) in [(SCTRDEPTH, 4), (MCTRCTL, 4)] {
        let change = Change::of(WRITE, operand).expect("a write");
        recorder.access(csr, change).expect("a granted write");
    }
    let mut digest = 0;
    for i in 0..CALLS {
        let value: Value = recorder.retire(JAL, 0, 0, i << 2, i << 3, 0);
        digest = extended(digest, [0, value as u64]);
    }
    with_state(digest, &recorder)
}

/// The digest of a list that goes on with the state: the mode's code first, then the other registers
/// and all entries.
fn with_state(digest: u64, recorder: &Recorder) -> u64 {
    let r = recorder;
    let fields = [
        r.mode as u64,
        r.mctrctl,
        r.vsctrctl,
        r.depth_code(),
        r.wrptr as u64,
        r.frozen.into(),
        r.siselect,
        r.vsiselect,
        r.mstateen0_ctr.into(),
        r.hstateen0_ctr.into(),
        r.counter,
        r.ccv.into(),
        r.zc.into(),
    ];
    let words = r.entries.iter().flat_map(|e| [e.source, e.target, e.data]);
    extended(extended(digest, fields), words)
}
