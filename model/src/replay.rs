//! The program `replay`: what it prints for its arguments. Each trace is run from reset.

mod command;
mod report;
mod rows;

use std::io::{self, Read};

use self::command::{command, Command, Options, USAGE};
pub(crate) use self::report::path_and_type;
pub use self::report::{Run, NUMBERS, TYPES, VALUES};
pub use self::rows::{bytes_of, decode, encode, row_of, BrokenWord, Row, ROW_BYTES};
use crate::printed::Printed;
use crate::program::{left_over, of_file, system_words};

const PROGRAM: &str = "replay";

/// What is printed for these arguments, where `open` opens the traces.
pub fn replay<R: Read>(arguments: &[String], open: impl Fn(&str) -> io::Result<R>) -> Printed {
    let mut printed = Printed::default();
    match command(arguments) {
        Ok(Command::ShowUsage) => printed.print(USAGE),
        Ok(Command::Replay(options, traces)) => {
            for name in traces {
                let has_title = traces.len() > 1;
                match open(name) {
                    Ok(file) => printed.add_trace(name, has_title, options, file),
                    Err(error) => printed.complain(PROGRAM, &of_file(name, &system_words(&error))),
                }
            }
        }
        Err(message) => printed.complain(PROGRAM, &message),
    }
    printed
}

impl Printed {
    fn add_trace(&mut self, name: &str, has_title: bool, options: Options, mut file: impl Read) {
        if has_title {
            self.print(&format!("trace {name}\n"));
        }
        // If reading fails, what was read before that is there all the same.
        let mut bytes = vec![];
        let reading = file.read_to_end(&mut bytes);
        let (rows, rest) = bytes.as_chunks();
        let outcome = self
            .add_run(rows, options)
            .and_then(|()| reading.map_err(|error| system_words(&error)))
            .and_then(|_| left_over("row", rows.len(), rest.len()));
        if let Err(message) = outcome {
            self.complain(PROGRAM, &of_file(name, &message));
        }
    }

    /// Runs the rows before the first malformed one.
    fn add_run(&mut self, rows: &[[u8; ROW_BYTES]], options: Options) -> Result<(), String> {
        let mut run = Run::from_reset(options.zc);
        let outcome = rows.iter().enumerate().try_for_each(|(index, bytes)| {
            let event = decode(row_of(bytes)).map_err(|word| malformed(index, word))?;
            let answer = run.step(event);
            if options.answers {
                self.print(&format!("{} {:#x}\n", answer.number, answer.value));
            }
            Ok(())
        });
        if options.dump {
            self.stdout.extend(run.dump());
        } else {
            self.print(&run.report(options.state));
        }
        outcome
    }
}

fn malformed(index: usize, word: BrokenWord) -> String {
    format!("row {index}: word {word} breaks a rule")
}

#[cfg(test)]
mod tests {
    use super::*;
    use std::io::{Cursor, ErrorKind};

    const SCTRCLR: Row = [4, 0, 0, 0];
    const TURN_M_ON: Row = [0x103, 0x34E, 4, 0];
    const CALL: Row = [0, 0xef, 0x1000, 0x2000];
    const MISPREDICTED_CALL: Row = [0x200, 0xef, 0x1000, 0x2000];
    const TABLE_JUMP: Row = [0, 0xa002, 0x3000, 0x4000];
    const MALFORMED: Row = [3, 4096, 0, 0];

    const EISDIR: i32 = 21;

    /// A directory can be opened but not read.
    struct Directory;

    impl Read for Directory {
        fn read(&mut self, _: &mut [u8]) -> io::Result<usize> {
            Err(io::Error::from_raw_os_error(EISDIR))
        }
    }

    fn open(name: &str) -> io::Result<Box<dyn Read>> {
        let call = bytes_of([TURN_M_ON, CALL]);
        let bytes = match name {
            "call" => call,
            "empty" => vec![],
            "mispredicted" => bytes_of([TURN_M_ON, MISPREDICTED_CALL, CALL]),
            "table" => bytes_of([TURN_M_ON, TABLE_JUMP]),
            "damaged" => [call, bytes_of([MALFORMED, CALL]), vec![0; 5]].concat(),
            "malformed" => bytes_of([MALFORMED]),
            "cut" => [call, vec![0; 31]].concat(),
            "byte" => vec![0],
            "failing" => return Ok(Box::new(Cursor::new(call).chain(Directory))),
            "directory" => return Ok(Box::new(Directory)),
            _ => return Err(ErrorKind::NotFound.into()),
        };
        Ok(Box::new(Cursor::new(bytes)))
    }

    fn printed(arguments: &str) -> Printed {
        let arguments: Vec<String> = arguments.split_whitespace().map(String::from).collect();
        replay(&arguments, open)
    }

    fn report_of(rows: &[Row]) -> String {
        report_from(Run::from_reset(false), rows)
    }

    fn report_from(mut run: Run, rows: &[Row]) -> String {
        for row in rows {
            run.step(decode(*row).expect("a well-formed row"));
        }
        run.report(false)
    }

    #[track_caller]
    fn assert_prints(arguments: &str, stdout: &str, stderr: &str) {
        let expected = Printed {
            stdout: stdout.into(),
            stderr: stderr.to_string(),
        };
        assert_eq!(printed(arguments), expected);
    }

    #[test]
    fn a_trace_is_reported() {
        let expected = "\
events 2
answered: 2
recorded: 1
mode M
mctrctl 0x4
vsctrctl 0x0
sctrdepth 0x0
sctrstatus 0x1
siselect 0x0
vsiselect 0x0
mstateen0.CTR 0x0
hstateen0.CTR 0x0
cycles 0x0
ccv 0x1
zc 0x0
0 0x1000 -> 0x2000 direct call
";
        assert_prints("call", expected, "");
    }

    #[test]
    fn answers_come_first() {
        let report = report_of(&[TURN_M_ON, CALL]);
        assert_prints("--answers call", &format!("0 0x0\n0 0x1\n{report}"), "");
    }

    #[test]
    fn state_comes_last() {
        let stdout = printed("--state call").text();
        let report = report_of(&[TURN_M_ON, CALL]);
        assert!(stdout.starts_with(&format!("{report}0 0x1001 0x2000 0x9\n1 0x0 0x0 0x0\n")));
        assert!(stdout.ends_with("\n255 0x0 0x0 0x0\n"));
    }

    /// In the lines of all entries MISP is a bit of ctrtarget.
    #[test]
    fn misp_is_told_of_valid_entries_and_stays_in_the_words_of_all() {
        let printed = printed("--state mispredicted");
        assert_eq!(printed.stderr, "");
        let stdout = printed.text();
        let expected = "\
0 0x1000 -> 0x2000 direct call cycles 0
1 0x1000 -> 0x2000 direct call mispredicted
0 0x1001 0x2001 0x9
1 0x1001 0x2000 0x8009
2 0x0 0x0 0x0
";
        assert!(stdout.contains(expected), "{stdout}");
    }

    #[test]
    fn usage_goes_to_standard_output() {
        assert_prints("", USAGE, "");
        assert_prints("--help", USAGE, "");
        let start = "usage: replay [--answers] [--state] [--zc] TRACE...
       replay --dump [--zc] TRACE
Replays";
        assert!(USAGE.starts_with(start));
        assert!(USAGE.ends_with("four to an event.\n"));
    }

    #[test]
    fn wrong_flags_run_nothing() {
        assert_prints("--x call", "", "replay: unknown flag --x\n");
        assert_prints("--state", "", "replay: no trace given\n");
    }

    #[test]
    fn each_of_several_traces_has_a_title_and_starts_from_reset() {
        let (call, empty) = (report_of(&[TURN_M_ON, CALL]), report_of(&[]));
        let expected = format!("trace call\n{call}trace empty\n{empty}trace call\n{call}");
        assert_prints("call empty call", &expected, "");
    }

    #[test]
    fn the_switch_is_on_for_each_trace_or_for_none() {
        let rows = [TURN_M_ON, TABLE_JUMP];
        let (on, off) = (Run::from_reset(true), Run::from_reset(false));
        let (on, off) = (report_from(on, &rows), report_from(off, &rows));
        assert!(on.ends_with("\nzc 0x1\n0 0x3000 -> 0x4000 direct jump\n"));
        assert!(off.ends_with("\nzc 0x0\n"));
        assert_prints("--zc table", &on, "");
        assert_prints("table", &off, "");
        assert_prints("--zc --answers table", &format!("0 0x0\n0 0x1\n{on}"), "");
        assert_prints("--answers table", &format!("0 0x0\n0 0x0\n{off}"), "");
        let twice = |report| format!("trace table\n{report}trace table\n{report}");
        assert_prints("--zc table table", &twice(&on), "");
        assert_prints("table table", &twice(&off), "");
    }

    #[test]
    fn a_trace_that_cannot_be_opened_is_passed_over() {
        let call = report_of(&[TURN_M_ON, CALL]);
        let expected = format!("trace call\n{call}trace call\n{call}");
        assert_prints(
            "call none call --state",
            &expected,
            "replay: none: entity not found\nreplay: --state: entity not found\n",
        );
        assert_prints("none", "", "replay: none: entity not found\n");
    }

    #[test]
    fn a_malformed_row_ends_the_trace() {
        let report = report_of(&[TURN_M_ON, CALL]);
        let complaint = "replay: damaged: row 2: word 1 breaks a rule\n";
        assert_prints("damaged", &report, complaint);
        let complaint = "replay: malformed: row 0: word 1 breaks a rule\n";
        assert_prints("malformed", &report_of(&[]), complaint);
    }

    #[test]
    fn bytes_left_over_are_counted() {
        let report = report_of(&[TURN_M_ON, CALL]);
        let complaint = "replay: cut: 31 bytes left over after row 1\n";
        assert_prints("cut", &report, complaint);
        let complaint = "replay: byte: 1 byte and no row\n";
        assert_prints("byte", &report_of(&[]), complaint);
    }

    #[test]
    fn what_was_read_before_a_failure_is_reported() {
        let report = report_of(&[TURN_M_ON, CALL]);
        assert_prints("failing", &report, "replay: failing: Is a directory\n");
        let complaint = "replay: directory: Is a directory\n";
        assert_prints("directory", &report_of(&[]), complaint);
    }

    /// These words of the newest entry, and 15 entries of zeros.
    fn dump_with(newest: [u64; 3]) -> Vec<u8> {
        let words = newest.into_iter().chain([0; 15 * 3]);
        words.flat_map(u64::to_le_bytes).collect()
    }

    #[track_caller]
    fn assert_dumps(arguments: &str, stdout: Vec<u8>, stderr: &str) {
        let expected = Printed {
            stdout,
            stderr: stderr.to_string(),
        };
        assert_eq!(printed(arguments), expected);
    }

    #[test]
    fn a_dump_is_the_entries_alone() {
        let call = dump_with([0x1001, 0x2000, 9]);
        assert_eq!(call.len(), 16 * 24);
        assert_dumps("--dump call", call, "");
        assert_dumps("--dump --dump empty", dump_with([0; 3]), "");
        let table_jump = dump_with([0x3001, 0x4000, 11]);
        assert_dumps("--dump --zc table", table_jump.clone(), "");
        assert_dumps("--zc --dump --zc table", table_jump, "");
        assert_dumps("--dump table", dump_with([0; 3]), "");
    }

    /// MISP and the count among them.
    #[test]
    fn a_dump_has_the_words_as_stored() {
        let mut expected = dump_with([0x1001, 0x2000, 0x8009]);
        expected.splice(24..48, dump_with([0x1001, 0x2001, 9])[..24].to_vec());
        assert_dumps("--dump mispredicted", expected, "");
    }

    #[test]
    fn a_dump_of_a_damaged_trace_is_that_of_the_rows_before() {
        for (name, complaint) in [
            ("damaged", "row 2: word 1 breaks a rule"),
            ("cut", "31 bytes left over after row 1"),
            ("failing", "Is a directory"),
        ] {
            let complaint = format!("replay: {name}: {complaint}\n");
            let call = dump_with([0x1001, 0x2000, 9]);
            assert_dumps(&format!("--dump {name}"), call, &complaint);
        }
        for (name, complaint) in [
            ("malformed", "row 0: word 1 breaks a rule"),
            ("byte", "1 byte and no row"),
            ("directory", "Is a directory"),
        ] {
            let complaint = format!("replay: {name}: {complaint}\n");
            assert_dumps(&format!("--dump {name}"), dump_with([0; 3]), &complaint);
        }
        assert_prints("--dump none", "", "replay: none: entity not found\n");
    }

    #[test]
    fn wrong_company_of_a_dump_runs_nothing() {
        let message = "replay: --dump goes without --answers and --state\n";
        assert_prints("--dump --answers call", "", message);
        assert_prints("--state --dump call none", "", message);
        assert_prints("--dump call none", "", "replay: --dump takes one trace\n");
        assert_prints("--zc --dump", "", "replay: no trace given\n");
    }

    #[test]
    fn answers_to_other_events_are_no_values() {
        assert!(report_of(&[SCTRCLR]).starts_with("events 1\nanswered: 1\nmode M\n"));
    }
}
