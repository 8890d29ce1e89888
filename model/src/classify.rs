//! The program `classify`: what it prints for its arguments and for the words of its standard input.

use crate::classifier::{name, transfer_type};
use crate::printed::Printed;

const USAGE: &str = "\
usage: classify [--zc] <WORDS
Prints a line for each instruction word: the word, the number of its transfer type (a branch as taken) and the type's name.
  --zc  with table jumps and pop-returns (Zcmt and Zcmp) switched on
The words are little-endian, 32 bits each, a 16-bit instruction in the low half.
";

#[derive(Debug, PartialEq, Eq)]
enum Command {
    ShowUsage,
    Classify { zc: bool },
}

/// What is printed for these arguments and these bytes.
pub fn classify(arguments: &[String], input: &[u8]) -> Printed {
    let mut printed = Printed::default();
    match command(arguments) {
        Ok(Command::ShowUsage) => printed.print(USAGE),
        Ok(Command::Classify { zc }) => printed.print(&lines(input, zc)),
        Err(message) => printed.complain("classify", &message),
    }
    printed
}

/// What the arguments ask for, or what is wrong with them. None is looked at after the first that is
/// not the switch.
fn command(arguments: &[String]) -> Result<Command, String> {
    match arguments.iter().find(|argument| *argument != "--zc") {
        Some(argument) if argument == "--help" => Ok(Command::ShowUsage),
        Some(argument) => Err(format!("unknown argument {argument}")),
        None => Ok(Command::Classify {
            zc: !arguments.is_empty(),
        }),
    }
}

/// The lines of the words, and one for bytes at the end that are no whole word.
fn lines(input: &[u8], zc: bool) -> String {
    let (words, rest) = input.as_chunks();
    let mut text: String = words
        .iter()
        .map(|bytes| line(u32::from_le_bytes(*bytes), zc))
        .collect();
    if !rest.is_empty() {
        text.push_str("incomplete word\n");
    }
    text
}

/// The line of one word, a branch as taken.
fn line(word: u32, zc: bool) -> String {
    let number = transfer_type(word, true, zc);
    format!("{word:08x} {number} {}\n", name(number))
}

#[cfg(test)]
mod tests {
    use super::*;

    /// A branch, C.JR x1, CM.JT 0, CM.JALT 32, CM.POPRETZ {ra} and CM.POPRET {ra}.
    const WORDS: [u32; 6] = [0x63, 0x8082, 0xa002, 0xa082, 0xbc42, 0xbe42];

    const LINES: &str = "\
00000063 5 branch
00008082 13 function return
0000a002 0 none
0000a082 0 none
0000bc42 0 none
0000be42 0 none
";

    const SWITCHED_LINES: &str = "\
00000063 5 branch
00008082 13 function return
0000a002 11 direct jump
0000a082 9 direct call
0000bc42 13 function return
0000be42 13 function return
";

    fn input() -> Vec<u8> {
        WORDS.map(u32::to_le_bytes).concat()
    }

    #[track_caller]
    fn assert_prints(arguments: &[&str], input: &[u8], stdout: &str, stderr: &str) {
        let arguments: Vec<String> = arguments.iter().map(|word| word.to_string()).collect();
        let expected = Printed {
            stdout: stdout.into(),
            stderr: stderr.to_string(),
        };
        assert_eq!(classify(&arguments, input), expected);
    }

    #[test]
    fn each_word_has_a_line() {
        assert_prints(&[], &input(), LINES, "");
        assert_prints(&[], &input()[..4], "00000063 5 branch\n", "");
        assert_prints(&[], &[], "", "");
    }

    #[test]
    fn bytes_left_over_have_a_line() {
        assert_prints(&[], &[0x6f], "incomplete word\n", "");
        for count in 1..4 {
            let bytes = [&input(), &[0x6f, 0, 0][..count]].concat();
            assert_prints(&[], &bytes, &format!("{LINES}incomplete word\n"), "");
            let lines = format!("{SWITCHED_LINES}incomplete word\n");
            assert_prints(&["--zc"], &bytes, &lines, "");
        }
    }

    #[test]
    fn the_switch_may_be_given_more_than_once() {
        for arguments in [&["--zc"][..], &["--zc", "--zc"], &["--zc"; 5]] {
            assert_prints(arguments, &input(), SWITCHED_LINES, "");
        }
    }

    #[test]
    fn usage_is_shown_on_request_and_nothing_else() {
        for arguments in [
            &["--help"][..],
            &["--zc", "--help"],
            &["--help", "--zc"],
            &["--help", "--x"],
        ] {
            assert_prints(arguments, &input(), USAGE, "");
        }
        assert!(USAGE.starts_with("usage: classify [--zc] <WORDS\nPrints"));
        assert!(USAGE.ends_with("in the low half.\n"));
    }

    #[test]
    fn the_first_unknown_argument_is_named_and_nothing_else_is_printed() {
        for (arguments, message) in [
            (&["--x"][..], "classify: unknown argument --x\n"),
            (&["--x", "--help"], "classify: unknown argument --x\n"),
            (&["--zc", "-z", "--y"], "classify: unknown argument -z\n"),
            (&["zc"], "classify: unknown argument zc\n"),
            (&["--zcx"], "classify: unknown argument --zcx\n"),
            (&[""], "classify: unknown argument \n"),
        ] {
            assert_prints(arguments, &input(), "", message);
        }
    }
}
