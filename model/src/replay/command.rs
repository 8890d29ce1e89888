//! The arguments of `replay`.

use crate::program::split_flags;

pub(super) const USAGE: &str = "\
usage: replay [--answers] [--state] [--zc] TRACE...
       replay --dump [--zc] TRACE
Replays traces of events through the recorder, each from reset, and prints what it recorded.
  --answers  first the answer to each event: its number, and its value in hex
  --state    last all physical entries: index, ctrsource, ctrtarget and ctrdata
  --zc       from a reset with table jumps and pop-returns (Zcmt and Zcmp) switched on
  --dump     the entries alone, as check_dump takes them: ctrsource, ctrtarget and ctrdata of each up to the depth, newest first
A trace is a file of little-endian 64-bit words, four to an event.
";

#[derive(Clone, Copy, Debug, Default, PartialEq, Eq)]
pub(super) struct Options {
    pub(super) answers: bool,
    pub(super) state: bool,
    pub(super) zc: bool,
    pub(super) dump: bool,
}

#[derive(Debug, PartialEq, Eq)]
pub(super) enum Command<'a> {
    ShowUsage,
    Replay(Options, &'a [String]),
}

/// What the arguments ask for, or what is wrong with them. Flags end where the first trace is.
pub(super) fn command(arguments: &[String]) -> Result<Command<'_>, String> {
    let (flags, traces) = split_flags(arguments);
    let mut options = Options::default();
    for flag in flags {
        match flag.as_str() {
            "--answers" => options.answers = true,
            "--state" => options.state = true,
            "--zc" => options.zc = true,
            "--dump" => options.dump = true,
            "--help" => return Ok(Command::ShowUsage),
            _ => return Err(format!("unknown flag {flag}")),
        }
    }
    match (flags, traces) {
        ([], []) => Ok(Command::ShowUsage),
        (_, []) => Err("no trace given".to_string()),
        _ if options.dump && (options.answers || options.state) => {
            Err("--dump goes without --answers and --state".to_string())
        }
        (_, [_, _, ..]) if options.dump => Err("--dump takes one trace".to_string()),
        _ => Ok(Command::Replay(options, traces)),
    }
}

#[cfg(test)]
mod tests {
    use super::*;

    const NONE: Options = Options {
        answers: false,
        state: false,
        zc: false,
        dump: false,
    };

    const BOTH: Options = Options {
        answers: true,
        state: true,
        zc: false,
        dump: false,
    };

    const ALL: Options = Options {
        answers: true,
        state: true,
        zc: true,
        dump: false,
    };

    fn words(text: &str) -> Vec<String> {
        text.split_whitespace().map(String::from).collect()
    }

    #[track_caller]
    fn assert_replays(arguments: &str, options: Options, traces: &str) {
        let (arguments, traces) = (words(arguments), words(traces));
        let expected = Command::Replay(options, &traces);
        assert_eq!(command(&arguments), Ok(expected));
    }

    #[track_caller]
    fn assert_refuses(arguments: &str, message: &str) {
        assert_eq!(command(&words(arguments)), Err(message.to_string()));
    }

    #[test]
    fn usage_is_shown_without_arguments_and_on_request() {
        for arguments in [
            "",
            "--help",
            "--zc --help",
            "--help --zc a",
            "--dump --help",
            "--dump --answers --help",
            "--dump --help a b",
        ] {
            assert_eq!(command(&words(arguments)), Ok(Command::ShowUsage));
        }
    }

    #[test]
    fn flags_stand_in_any_order_and_any_number() {
        let answers = Options {
            answers: true,
            ..NONE
        };
        let state = Options {
            state: true,
            ..NONE
        };
        let zc = Options { zc: true, ..NONE };
        assert_replays("a b", NONE, "a b");
        assert_replays("--answers a", answers, "a");
        assert_replays("--state --state a", state, "a");
        assert_replays("--zc a", zc, "a");
        assert_replays("--zc --zc a", zc, "a");
        assert_replays("--answers --state a", BOTH, "a");
        assert_replays("--state --answers --state a", BOTH, "a");
        assert_replays("--zc --answers --state a", ALL, "a");
        assert_replays("--answers --zc --state --zc a", ALL, "a");
        assert_replays("--state --answers --zc a", ALL, "a");
    }

    #[test]
    fn a_dump_goes_with_the_switch_alone() {
        let dump = Options { dump: true, ..NONE };
        let dump_zc = Options { zc: true, ..dump };
        assert_replays("--dump a", dump, "a");
        assert_replays("--dump --dump --dump a", dump, "a");
        assert_replays("--dump --zc a", dump_zc, "a");
        assert_replays("--zc --dump a", dump_zc, "a");
        assert_replays("--dump --zc --dump --zc a", dump_zc, "a");
        assert_replays("a --dump", NONE, "a --dump");
        let message = "--dump goes without --answers and --state";
        assert_refuses("--dump --answers a", message);
        assert_refuses("--state --dump a", message);
        assert_refuses("--answers --zc --state --dump a", message);
    }

    /// Also where what comes behind the trace looks like a flag.
    #[test]
    fn a_dump_is_of_one_trace() {
        let message = "--dump takes one trace";
        assert_refuses("--dump a b", message);
        assert_refuses("--zc --dump a a a", message);
        assert_refuses("--dump a --dump", message);
        assert_refuses("--dump a --zc", message);
    }

    #[test]
    fn only_the_first_thing_wrong_with_a_dump_is_told() {
        assert_refuses("--dump --answers --x a b", "unknown flag --x");
        assert_refuses("--dumps --dump a", "unknown flag --dumps");
        assert_refuses("--dump", "no trace given");
        assert_refuses("--dump --answers --state", "no trace given");
        let message = "--dump goes without --answers and --state";
        assert_refuses("--dump --state a b", message);
        assert_refuses("--answers --dump a --dump", message);
    }

    #[test]
    fn after_a_trace_all_arguments_are_traces() {
        assert_replays("a --state --x --help", NONE, "a --state --x --help");
        assert_replays("--state --answers a - b", BOTH, "a - b");
        assert_replays("--state --answers a --zc", BOTH, "a --zc");
    }

    #[test]
    fn the_first_unknown_flag_is_named() {
        assert_refuses("--x", "unknown flag --x");
        assert_refuses("--answers -a --y b", "unknown flag -a");
        assert_refuses("- a", "unknown flag -");
        assert_refuses("--answer a", "unknown flag --answer");
        assert_refuses("--statement", "unknown flag --statement");
        assert_refuses("--zc --zcx a", "unknown flag --zcx");
        assert_refuses("-zc --zc a", "unknown flag -zc");
    }

    #[test]
    fn flags_want_a_trace() {
        assert_refuses("--answers", "no trace given");
        assert_refuses("--answers --state", "no trace given");
        assert_refuses("--zc", "no trace given");
    }
}
