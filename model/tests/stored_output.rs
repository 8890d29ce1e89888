//! The stored files below crates/ and examples/ are the ones that the model makes.

use std::path::PathBuf;
use std::{env, fs, process};

use model::expected::{files, root, write_files};

const WRITE_ANEW: &str = "cargo run --release --offline --bin expected -- --write";

#[test]
fn stored_files_are_those_of_the_model() {
    let complaints: Vec<String> = files()
        .iter()
        .filter_map(|(path, expected)| complaint(path, expected))
        .collect();
    assert!(
        complaints.is_empty(),
        "{}\nto write them anew, in model/: {WRITE_ANEW}",
        complaints.join("\n")
    );
}

fn complaint(path: &str, expected: &[u8]) -> Option<String> {
    match fs::read(root().join(path)) {
        Ok(stored) => first_difference(&stored, expected).map(|text| format!("{path}: {text}")),
        Err(error) => Some(format!("{path}: {error}")),
    }
}

fn first_difference(stored: &[u8], expected: &[u8]) -> Option<String> {
    let length = stored.len().max(expected.len());
    let at = (0..length).find(|at| stored.get(*at) != expected.get(*at))?;
    let line = 1 + expected[..at].iter().filter(|b| **b == b'\n').count();
    let (stored, expected) = (line_around(stored, at), line_around(expected, at));
    Some(format!(
        "line {line} (byte {at}) is '{stored}', expected '{expected}'"
    ))
}

/// The line of the byte at `at`, cut off far from it, since input has no lines.
fn line_around(bytes: &[u8], at: usize) -> String {
    let (before, after) = bytes.split_at(at);
    let is_end = |byte: &u8| *byte == b'\n';
    let start = before.rsplit(is_end).next().unwrap_or_default();
    let end = after.split(is_end).next().unwrap_or_default();
    let near = &start[start.len().saturating_sub(40)..];
    [near, &end[..end.len().min(40)]]
        .concat()
        .escape_ascii()
        .to_string()
}

#[test]
fn the_first_differing_line_is_named() {
    let text = first_difference(b"one\ntwo\nend\n", b"one\ntoo\nEnd\n");
    let expected = "line 2 (byte 5) is 'two', expected 'too'";
    assert_eq!(text.as_deref(), Some(expected));
    let text = first_difference(b"one\n", b"one\ntwo\n");
    let expected = "line 2 (byte 4) is '', expected 'two'";
    assert_eq!(text.as_deref(), Some(expected));
    assert_eq!(first_difference(b"one\n", b"one\n"), None);
}

/// An empty folder of this test run's own.
fn empty_folder() -> PathBuf {
    let folder = env::temp_dir().join(format!("model-stored-output-{}", process::id()));
    fs::create_dir(&folder).expect("a new folder");
    folder
}

#[test]
fn files_are_written_into_folders_that_are_there() {
    let root = empty_folder();
    let refusal = write_files(&root);
    for folder in [
        "crates/classify",
        "crates/classifier_sweep",
        "crates/access_sweep",
        "crates/trace_sweep",
        "crates/recorder_sweep",
        "crates/replay_sweep",
        "crates/step_bench",
        "crates/replay/data",
        "crates/dump_sweep",
        "crates/check_dump/data",
        "examples/traces",
    ] {
        fs::create_dir_all(root.join(folder)).expect("a new folder");
    }
    let result = write_files(&root);
    let written = files()
        .iter()
        .all(|(path, contents)| fs::read(root.join(path)).is_ok_and(|bytes| bytes == *contents));
    fs::remove_dir_all(&root).expect("the folder is removed");
    let message = "the folder crates/classify is missing";
    assert_eq!(refusal, Err(message.to_string()));
    assert_eq!(result, Ok(()));
    assert!(written);
}
