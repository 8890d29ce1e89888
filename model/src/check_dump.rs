//! The program `check_dump`: what it prints for its arguments.

use std::io::{self, Read};

use crate::dump::{check, Checked, Reason, BAD_IMAGE, ENTRY_WORDS, LOOSE_WORDS};
use crate::printed::Printed;
use crate::program::{left_over, of_file, split_flags, system_words};
use crate::registers::Entry;
use crate::replay::path_and_type;

const PROGRAM: &str = "check_dump";

const USAGE: &str = "\
usage: check_dump [--zc] IMAGE BASE DUMP
Checks a dump of entries against firmware: accepted if every valid entry fits, else the first that does not, and why.
  --zc  with table jumps and pop-returns (Zcmt and Zcmp) switched on
IMAGE is a file of code, at most 4194304 bytes, and BASE the address of its first byte, in hex with 0x or in decimal. DUMP is a file of little-endian 64-bit words, ctrsource, ctrtarget and ctrdata of each entry, newest first, at most 4096 entries.
";

/// How many bytes an image and a dump have at most.
const IMAGE_BYTES: usize = 4 << 20;
const DUMP_BYTES: usize = 4096 * ENTRY_WORDS * 8;

#[derive(Debug, PartialEq, Eq)]
enum Command<'a> {
    ShowUsage,
    Check(Request<'a>),
}

#[derive(Debug, PartialEq, Eq)]
struct Request<'a> {
    zc: bool,
    image: &'a str,
    base: u64,
    dump: &'a str,
}

/// What is printed for these arguments, where `open` opens the image and the dump.
pub fn check_dump<R: Read>(arguments: &[String], open: impl Fn(&str) -> io::Result<R>) -> Printed {
    let mut printed = Printed::default();
    let outcome = match command(arguments) {
        Ok(Command::ShowUsage) => Ok(USAGE.to_string()),
        Ok(Command::Check(request)) => answer(&request, open),
        Err(message) => Err(message),
    };
    match outcome {
        Ok(text) => printed.print(&text),
        Err(message) => printed.complain(PROGRAM, &message),
    }
    printed
}

/// What the arguments ask for, or what is wrong with them. Flags end where the first operand is.
fn command(arguments: &[String]) -> Result<Command<'_>, String> {
    let (flags, operands) = split_flags(arguments);
    for flag in flags {
        match flag.as_str() {
            "--zc" => {}
            "--help" => return Ok(Command::ShowUsage),
            _ => return Err(format!("unknown flag {flag}")),
        }
    }
    match operands {
        [] if flags.is_empty() => Ok(Command::ShowUsage),
        [] => Err("no image given".to_string()),
        [_] => Err("no base given".to_string()),
        [_, _] => Err("no dump given".to_string()),
        [image, base, dump] => Ok(Command::Check(Request {
            zc: !flags.is_empty(),
            image,
            base: number(base).ok_or_else(|| format!("base {base} is no number below 2^64"))?,
            dump,
        })),
        [_, _, _, further, ..] => Err(format!("unexpected argument {further}")),
    }
}

/// The number below 2^64 that the text is, in hex behind 0x and otherwise in decimal.
fn number(text: &str) -> Option<u64> {
    let (digits, radix) = match text.strip_prefix("0x") {
        Some(digits) => (digits, 16),
        None => (text, 10),
    };
    if digits.is_empty() {
        return None;
    }
    digits.chars().try_fold(0_u64, |value, digit| {
        let digit = digit.to_digit(radix)?;
        value.checked_mul(radix.into())?.checked_add(digit.into())
    })
}

/// The line of the check, or what is wrong with the files. The image comes first.
fn answer<R: Read>(
    request: &Request,
    open: impl Fn(&str) -> io::Result<R>,
) -> Result<String, String> {
    let of_image = |message: String| of_file(request.image, &message);
    let of_dump = |message: String| of_file(request.dump, &message);
    let image = contents(open(request.image), IMAGE_BYTES).map_err(of_image)?;
    let dump = contents(open(request.dump), DUMP_BYTES).map_err(of_dump)?;
    let words = words_of(&dump).map_err(of_dump)?;
    let checked = check(&image, request.base, &words, request.zc);
    Ok(line(checked, &words))
}

/// The bytes of a file that has at most so many. Of one that has more, one more is read and no other.
fn contents(file: io::Result<impl Read>, most: usize) -> Result<Vec<u8>, String> {
    let mut bytes = vec![];
    file.and_then(|file| file.take(most as u64 + 1).read_to_end(&mut bytes))
        .map_err(|error| system_words(&error))?;
    if bytes.len() > most {
        return Err(format!("more than {most} bytes"));
    }
    Ok(bytes)
}

fn words_of(bytes: &[u8]) -> Result<Vec<u64>, String> {
    let (words, rest) = bytes.as_chunks();
    left_over("word", words.len(), rest.len())?;
    Ok(words.iter().copied().map(u64::from_le_bytes).collect())
}

fn line(checked: Checked, words: &[u64]) -> String {
    match checked {
        Checked::Accepted => "accepted\n".to_string(),
        Checked::Refused(number) => format!("refused: {}\n", refusal(number)),
        Checked::Misfit { index, reason } => {
            let (entries, _) = words.as_chunks();
            let path = path_and_type(Entry::from_words(entries[index]));
            format!("entry {index}: {}: {path}\n", misfit(reason))
        }
    }
}

/// What a number of refusal means. Panics for all others.
fn refusal(number: u64) -> &'static str {
    match number {
        LOOSE_WORDS => "not three words to an entry",
        BAD_IMAGE => "odd base or an end past 2^64",
        _ => panic!("no check is refused with {number}"),
    }
}

fn misfit(reason: Reason) -> &'static str {
    match reason {
        Reason::SourceOutside => "source outside the image",
        Reason::CutOff => "word cut off by the image's end",
        Reason::TypeUnlike => "type unlike the word's",
        Reason::TargetWrong => "target wrong",
    }
}

#[cfg(test)]
mod tests {
    use super::*;
    use std::io::{Cursor, ErrorKind};

    const EISDIR: i32 = 21;

    /// A directory can be opened but not read.
    struct Directory;

    impl Read for Directory {
        fn read(&mut self, _: &mut [u8]) -> io::Result<usize> {
            Err(io::Error::from_raw_os_error(EISDIR))
        }
    }

    /// JAL x1,+8; C.J -2; CM.JT 0; and the first half of JAL.
    const IMAGE: [u8; 10] = [0xef, 0, 0x80, 0, 0xfd, 0xbf, 0x02, 0xa0, 0xef, 0];

    /// At base 0x1000 a call, mispredicted and with a count, an interrupt, and a jump that isn't valid.
    const GOOD: [u64; 9] = [
        0x1001,
        0x1009,
        0x0007_8009,
        0x9999,
        0,
        2,
        0x1004,
        0x7777,
        0xb,
    ];

    const TABLE_JUMP: [u64; 3] = [0x1007, 0x4000, 11];

    fn bytes_of(words: &[u64]) -> Vec<u8> {
        words.iter().flat_map(|word| word.to_le_bytes()).collect()
    }

    /// Numbers in names are lengths, and those behind `failing` lengths before a failure.
    fn open(name: &str) -> io::Result<Box<dyn Read>> {
        let misfit = |entry: [u64; 3]| bytes_of(&[&GOOD[..], &entry, &[1, 0, 0]].concat());
        let bytes = match name {
            "image" => IMAGE.to_vec(),
            "good" => bytes_of(&GOOD),
            "outside" => misfit([0xfff, 0x1009, 9]),
            "cut-off" => misfit([0x1009, 0x1010, 9]),
            "unlike" => misfit([0x1005, 0x1002, 10]),
            "reserved" => misfit([u64::MAX, u64::MAX, 0xf7]),
            "wrong" => misfit([0x1005, 0x1005, 0xb]),
            "table" => bytes_of(&TABLE_JUMP),
            "four-words" => bytes_of(&[0; 4]),
            "endless" => return Ok(Box::new(io::repeat(0))),
            "directory" => return Ok(Box::new(Directory)),
            _ => {
                let (kind, length) = name.rsplit_once('-').ok_or(ErrorKind::NotFound)?;
                let length = length.parse().map_err(|_| ErrorKind::NotFound)?;
                let bytes = Cursor::new(vec![0; length]);
                return match kind {
                    "failing" => Ok(Box::new(bytes.chain(Directory))),
                    _ => Ok(Box::new(bytes)),
                };
            }
        };
        Ok(Box::new(Cursor::new(bytes)))
    }

    fn words(text: &str) -> Vec<String> {
        text.split_whitespace().map(String::from).collect()
    }

    #[track_caller]
    fn assert_prints(arguments: &str, stdout: &str) {
        let printed = check_dump(&words(arguments), open);
        assert_eq!(printed.stderr, "");
        assert_eq!(printed.text(), stdout);
    }

    #[track_caller]
    fn assert_complains(arguments: &str, message: &str) {
        let printed = check_dump(&words(arguments), open);
        assert_eq!(printed.stderr, format!("check_dump: {message}\n"));
        assert_eq!(printed.text(), "");
    }

    #[test]
    fn a_dump_that_fits_is_accepted() {
        assert_prints("image 0x1000 good", "accepted\n");
        assert_prints("image 4096 good", "accepted\n");
        assert_prints("image 0x1000 empty-0", "accepted\n");
        assert_prints("empty-0 0 empty-0", "accepted\n");
    }

    #[test]
    fn the_first_misfit_is_told_with_its_reason() {
        for (dump, line) in [
            (
                "outside",
                "source outside the image: 0xffe -> 0x1008 direct call",
            ),
            (
                "cut-off",
                "word cut off by the image's end: 0x1008 -> 0x1010 direct call",
            ),
            (
                "unlike",
                "type unlike the word's: 0x1004 -> 0x1002 indirect jump",
            ),
            (
                "reserved",
                "type unlike the word's: 0xfffffffffffffffe -> 0xfffffffffffffffe reserved",
            ),
            ("wrong", "target wrong: 0x1004 -> 0x1004 direct jump"),
        ] {
            let line = format!("entry 3: {line}\n");
            assert_prints(&format!("image 0x1000 {dump}"), &line);
        }
        let line = "entry 0: source outside the image: 0x1000 -> 0x1008 direct call\n";
        assert_prints("image 0x1002 good", line);
    }

    #[test]
    fn the_switch_may_be_given_more_than_once() {
        let line = "entry 0: type unlike the word's: 0x1006 -> 0x4000 direct jump\n";
        assert_prints("image 0x1000 table", line);
        assert_prints("--zc image 0x1000 table", "accepted\n");
        assert_prints("--zc --zc --zc image 0x1000 table", "accepted\n");
        assert_prints("--zc image 0x1000 good", "accepted\n");
    }

    /// The dump's length first.
    #[test]
    fn refusals_are_told() {
        let six = "refused: not three words to an entry\n";
        assert_prints("image 0x1000 four-words", six);
        assert_prints("image 0x1001 four-words", six);
        let eleven = "refused: odd base or an end past 2^64\n";
        assert_prints("image 0x1001 good", eleven);
        assert_prints("image 0xffffffffffffffff empty-0", eleven);
        assert_prints("image 0xfffffffffffffff8 empty-0", eleven);
        assert_prints("image 0xfffffffffffffff6 empty-0", "accepted\n");
        assert_prints("empty-0 0xffffffffffffffff empty-0", eleven);
        assert_prints("empty-0 0xfffffffffffffffe empty-0", "accepted\n");
    }

    #[test]
    fn usage_is_shown_without_arguments_and_on_request() {
        for arguments in [
            "",
            "--help",
            "--zc --help",
            "--help --x",
            "--help image 0 good",
        ] {
            assert_prints(arguments, USAGE);
        }
        let start = "usage: check_dump [--zc] IMAGE BASE DUMP\nChecks";
        assert!(USAGE.starts_with(start));
        assert!(USAGE.ends_with("at most 4096 entries.\n"));
        assert!(USAGE.contains(&format!("at most {IMAGE_BYTES} bytes")));
        assert_eq!(DUMP_BYTES, 98_304);
    }

    #[test]
    fn the_first_unknown_flag_is_named() {
        assert_complains("--x", "unknown flag --x");
        assert_complains("--x --help", "unknown flag --x");
        assert_complains("--zc -z --y image 0 good", "unknown flag -z");
        assert_complains("- image 0 good", "unknown flag -");
        assert_complains("-- image 0 good", "unknown flag --");
        assert_complains("--zcx", "unknown flag --zcx");
    }

    #[test]
    fn the_first_missing_operand_is_named() {
        assert_complains("--zc", "no image given");
        assert_complains("none", "no base given");
        assert_complains("none x", "no dump given");
        assert_complains("--zc none x", "no dump given");
    }

    #[test]
    fn after_the_flags_all_arguments_are_operands() {
        assert_complains("none x none - --y", "unexpected argument -");
        assert_complains("image 0x1000 good --zc", "unexpected argument --zc");
        assert_complains("image 0x1000 good --help", "unexpected argument --help");
        assert_complains("image -1 good", "base -1 is no number below 2^64");
        assert_complains("image --help good", "base --help is no number below 2^64");
        assert_complains("image 0x1000 --zc", "--zc: entity not found");
        assert_complains("image --zc", "no dump given");
    }

    #[test]
    fn bases_are_hex_or_decimal() {
        for (text, value) in [
            ("0", 0),
            ("000", 0),
            ("0x0", 0),
            ("10", 10),
            ("0010", 10),
            ("0x10", 16),
            ("0x00000000000000000000000000000010", 16),
            ("0xabcdef", 0xABCDEF),
            ("0xABCdef", 0xABCDEF),
            ("18446744073709551615", u64::MAX),
            ("000000000000000000000018446744073709551615", u64::MAX),
            ("0xffffffffffffffff", u64::MAX),
            ("0x0FFFFFFFFFFFFFFFF", u64::MAX),
        ] {
            assert_eq!(number(text), Some(value), "{text}");
        }
        let long = "0".repeat(5_000);
        assert_eq!(number(&format!("{long}7")), Some(7));
        assert_eq!(number(&format!("0x{long}7")), Some(7));
    }

    #[test]
    fn other_spellings_are_no_bases() {
        for text in [
            "",
            "0x",
            "0X10",
            "x10",
            "0x0x10",
            "0x g",
            "0xg",
            "10h",
            "a",
            "ff",
            "+1",
            "-1",
            "-0",
            "0x-1",
            "0x+1",
            " 1",
            "1 ",
            "1\n",
            "0x 1",
            "1_000",
            "0x1_0",
            "1.0",
            "1e3",
            "0b1",
            "0o7",
            "18446744073709551616",
            "0x10000000000000000",
            "99999999999999999999999999999999999999999999",
            "0xfffffffffffffffffffffffffffffffffffffffffff",
            "\u{0663}",
            "\u{FF11}",
        ] {
            assert_eq!(number(text), None, "{text}");
            let arguments = ["none", text, "none"].map(String::from);
            let printed = check_dump(&arguments, open);
            let message = format!("check_dump: base {text} is no number below 2^64\n");
            assert_eq!(printed.stderr, message);
            assert_eq!(printed.text(), "");
        }
    }

    /// The image's before the dump's.
    #[test]
    fn files_that_cannot_be_read_are_told() {
        assert_complains("none 0 nothing", "none: entity not found");
        assert_complains("directory 0 none", "directory: Is a directory");
        assert_complains("failing-9 0 none", "failing-9: Is a directory");
        assert_complains("image 0 none", "none: entity not found");
        assert_complains("image 0 directory", "directory: Is a directory");
        assert_complains("image 0 failing-13", "failing-13: Is a directory");
    }

    #[test]
    fn files_have_a_limit() {
        assert_prints("zeros-4194303 0 good-0", "accepted\n");
        assert_prints("zeros-4194304 0 good-0", "accepted\n");
        let message = "zeros-4194305: more than 4194304 bytes";
        assert_complains("zeros-4194305 0 none", message);
        assert_complains("endless 0 none", "endless: more than 4194304 bytes");
        assert_prints("image 0 zeros-98304", "accepted\n");
        assert_prints("image 0 zeros-98280", "accepted\n");
        let message = "zeros-98305: more than 98304 bytes";
        assert_complains("image 0 zeros-98305", message);
        let message = "zeros-98312: more than 98304 bytes";
        assert_complains("image 0 zeros-98312", message);
        assert_complains("image 0 endless", "endless: more than 98304 bytes");
    }

    #[test]
    fn failures_behind_the_limit_are_not_noticed() {
        for (length, message) in [
            (4_194_303, "Is a directory"),
            (4_194_304, "Is a directory"),
            (4_194_305, "more than 4194304 bytes"),
            (4_194_306, "more than 4194304 bytes"),
        ] {
            let name = format!("failing-{length}");
            assert_complains(&format!("{name} 0 good"), &format!("{name}: {message}"));
        }
        for (length, message) in [
            (98_303, "Is a directory"),
            (98_304, "Is a directory"),
            (98_305, "more than 98304 bytes"),
            (98_306, "more than 98304 bytes"),
        ] {
            let name = format!("failing-{length}");
            assert_complains(&format!("image 0 {name}"), &format!("{name}: {message}"));
        }
    }

    /// Also where the words before them are not three to an entry, or the base is odd.
    #[test]
    fn bytes_left_over_are_counted() {
        for (length, message) in [
            (1, "1 byte and no word"),
            (3, "3 bytes and no word"),
            (7, "7 bytes and no word"),
            (9, "1 byte left over after word 0"),
            (41, "1 byte left over after word 4"),
            (51, "3 bytes left over after word 5"),
            (98_303, "7 bytes left over after word 12286"),
        ] {
            let name = format!("zeros-{length}");
            assert_complains(&format!("image 1 {name}"), &format!("{name}: {message}"));
        }
    }

    #[test]
    fn only_the_first_problem_is_told() {
        assert_complains("--x", "unknown flag --x");
        assert_complains("--zc --x none x none none", "unknown flag --x");
        assert_complains("none x none good", "unexpected argument good");
        assert_complains("none x none", "base x is no number below 2^64");
        assert_complains("none 1 none", "none: entity not found");
        assert_complains(
            "zeros-4194305 1 nothing",
            "zeros-4194305: more than 4194304 bytes",
        );
        assert_complains("image 1 nothing", "nothing: entity not found");
        assert_complains("image 1 zeros-9", "zeros-9: 1 byte left over after word 0");
    }
}
