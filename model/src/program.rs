//! What programs share: which of their arguments are flags, and what they say of files.

use std::io;

/// The flags, and the arguments from the first on that is none.
pub(crate) fn split_flags(arguments: &[String]) -> (&[String], &[String]) {
    let is_other = |argument: &String| !argument.starts_with('-');
    let flag_count = arguments.iter().position(is_other);
    arguments.split_at(flag_count.unwrap_or(arguments.len()))
}

pub(crate) fn of_file(name: &str, message: &str) -> String {
    format!("{name}: {message}")
}

/// The system's words, without the number that Rust puts behind them.
pub(crate) fn system_words(error: &io::Error) -> String {
    let text = error.to_string();
    match text.split_once(" (os error ") {
        Some((words, _)) => words.to_string(),
        None => text,
    }
}

/// Complains of bytes that are no whole thing, behind `count` things that are whole.
pub(crate) fn left_over(thing: &str, count: usize, bytes: usize) -> Result<(), String> {
    let unit = if bytes == 1 { "byte" } else { "bytes" };
    match (bytes, count.checked_sub(1)) {
        (0, _) => Ok(()),
        (_, None) => Err(format!("{bytes} {unit} and no {thing}")),
        (_, Some(last)) => Err(format!("{bytes} {unit} left over after {thing} {last}")),
    }
}
