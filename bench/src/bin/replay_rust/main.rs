//! `replay_rust [--answers | --zc] TRACE` prints what `replay` does of a well-formed trace. It is written
//! for speed, and uses nothing of the model: it is what the program's speed is held against.

mod access;
mod answers;
mod classifier;
mod cycles;
mod recorder;
mod report;
mod run;

use std::env;
use std::fs::File;
use std::io::{self, Read, Write};
use std::process::ExitCode;

use self::answers::Answers;
use self::run::{Run, ROW_BYTES};

/// How many rows are read at a time: 64 KB.
const BLOCK_ROWS: usize = 2048;
const BLOCK_BYTES: usize = BLOCK_ROWS * ROW_BYTES;

fn main() -> ExitCode {
    let arguments: Vec<String> = env::args().skip(1).collect();
    let result = match &arguments[..] {
        [path] => replay::<false>(path, false),
        [flag, path] if flag == "--answers" => replay::<true>(path, false),
        [flag, path] if flag == "--zc" => replay::<false>(path, true),
        _ => Err(io::Error::other(
            "give one trace, after --answers, --zc or nothing",
        )),
    };
    match result {
        Ok(()) => ExitCode::SUCCESS,
        Err(error) => {
            eprintln!("replay_rust: {error}");
            ExitCode::FAILURE
        }
    }
}

fn replay<const ANSWERS: bool>(path: &str, zc: bool) -> io::Result<()> {
    let mut file = File::open(path)?;
    let mut stdout = io::stdout().lock();
    let mut run = Run::from_reset(zc);
    let (mut block, mut answers) = (vec![0; BLOCK_BYTES], Answers::none());
    loop {
        let filled = fill(&mut file, &mut block)?;
        run_block::<ANSWERS>(&mut run, &block[..filled], &mut answers)?;
        stdout.write_all(answers.text())?;
        answers.clear();
        if filled < block.len() {
            return stdout.write_all(run.report().as_bytes());
        }
    }
}

/// Reads until the block is full or the file at its end, and tells how many bytes there are.
fn fill(file: &mut File, block: &mut [u8]) -> io::Result<usize> {
    let mut filled = 0;
    while filled < block.len() {
        match file.read(&mut block[filled..])? {
            0 => break,
            count => filled += count,
        }
    }
    Ok(filled)
}

fn run_block<const ANSWERS: bool>(
    run: &mut Run,
    block: &[u8],
    answers: &mut Answers,
) -> io::Result<()> {
    let (rows, rest) = block.as_chunks();
    for row in rows {
        let Some(answer) = run.step(row) else {
            return Err(io::Error::other("a malformed row"));
        };
        if ANSWERS {
            answers.put(answer);
        }
    }
    if rest.is_empty() {
        Ok(())
    } else {
        Err(io::Error::other("bytes left over"))
    }
}
