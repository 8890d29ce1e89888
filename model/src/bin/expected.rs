//! `expected NAME` prints the expected output of the program NAME;
//! `expected --write` writes all stored files anew.

use std::env;
use std::io::{self, Write};
use std::process::ExitCode;

use model::expected::{files, root, write_files};

fn main() -> ExitCode {
    let arguments: Vec<String> = env::args().skip(1).collect();
    match run(&arguments) {
        Ok(()) => ExitCode::SUCCESS,
        Err(message) => {
            eprintln!("expected: {message}");
            ExitCode::FAILURE
        }
    }
}

fn run(arguments: &[String]) -> Result<(), String> {
    match arguments {
        [flag] if flag == "--write" => write_files(&root()),
        [name] => print_output(name),
        _ => Err("give the name of a program, or --write".to_string()),
    }
}

fn print_output(name: &str) -> Result<(), String> {
    let wanted = format!("crates/{name}/stdout");
    let (_, contents) = files()
        .into_iter()
        .find(|(path, _)| *path == wanted)
        .ok_or_else(|| format!("the output of {name} is not known"))?;
    io::stdout()
        .write_all(&contents)
        .map_err(|error| error.to_string())
}
