//! The built programs `replay`, `classify` and `check_dump` beside the model: for many arguments and
//! traces, words or dumps, what each prints.
//! `cargo test --release --offline --test check_cli -- --ignored`, once the programs are built.

use std::fs::{self, File};
use std::io::Write;
use std::ops::Range;
use std::path::{Path, PathBuf};
use std::process::{self, Command, Output, Stdio};
use std::{env, io, thread};

use model::check_dump::check_dump;
use model::classify::classify;
use model::digest::SEED;
use model::expected::{classify_input, random_events};
use model::printed::Printed;
use model::recorder::Event;
use model::replay::{bytes_of, encode, replay, Row, ROW_BYTES};

/// How many bytes the programs read at a time.
const BLOCK: usize = 65_536;

/// How many bytes go through a pipe at a time.
const PIECE: usize = 4_099;

/// How many rows make several blocks and a part of one.
const MANY_ROWS: usize = 7_000;

const CALL: Row = [0, 0x0000_00ef, 0x1000, 0x2000];

/// Rows that are malformed: where, and how.
const MALFORMED: [(&str, Row); 37] = [
    ("kind-6", [6, 0, 0, 0]),
    ("kind-255", [255, 0, 0, 0]),
    ("kind-bits-above", [0x103_0000_0006, 0, 0, 0]),
    ("retired-bit-10", [0x400, 0xef, 0, 0]),
    ("retired-bit-31", [1 << 31, 0xef, 0, 0]),
    ("retired-below-cycles", [0x7_0000_0400, 0xef, 0, 0]),
    ("retired-instruction", [0, 1 << 32, 0, 0]),
    ("retired-instruction-high", [0x100, 1 << 63 | 0xef, 0, 0]),
    ("retired-both", [0x400, 1 << 32, 0, 0]),
    ("trap-mode-5", [0x501, 0, 0, 0]),
    ("trap-mode-6", [0xE01, 0, 0, 0]),
    ("trap-mode-7", [0x701, 0, 0, 0]),
    ("trap-bit-12", [0x1101, 0, 0, 0]),
    ("trap-bit-31", [1 << 31 | 1, 0, 0, 0]),
    ("return-mode-5", [0x502, 0, 0, 0]),
    ("return-mode-7", [0x702, 1, 0, 0]),
    ("return-bit-11", [0x802, 0, 0, 0]),
    ("return-bit-31", [0x7_8000_0002, 0, 0, 0]),
    ("return-word-1", [0x202, 1, 0, 0]),
    ("access-bit-10", [0x403, 0x34E, 0, 0]),
    ("access-bit-32", [1 << 32 | 0x103, 0x34E, 0, 0]),
    ("access-bit-63", [1 << 63 | 0x103, 0x34E, 0, 0]),
    ("access-csr", [0x103, 4096, 0, 0]),
    ("access-csr-high", [0x103, 1 << 63 | 0x34E, 0, 0]),
    ("access-word-3", [0x003, 0x34E, 0, 1]),
    ("access-both", [0x003, 4096, 0, 1]),
    ("clear-bit-8", [0x104, 0, 0, 0]),
    ("clear-bit-32", [1 << 32 | 4, 0, 0, 0]),
    ("clear-word-1", [4, 1, 0, 1]),
    ("clear-word-2", [4, 0, 1, 0]),
    ("clear-word-3", [4, 0, 0, 1 << 63]),
    ("host-bit-10", [0x405, 0, 0, 0]),
    ("host-bit-32", [1 << 32 | 0x105, 0, 0, 0]),
    ("host-bit-63", [1 << 63 | 5, 0, 0, 0]),
    ("host-word-1", [5, 1 << 32, 0, 0]),
    ("host-word-2", [0x105, 0, 1, 0]),
    ("host-word-3", [0x305, 0, 0, 1]),
];

/// Arguments that run nothing, and those that run several traces or find some missing.
const ARGUMENTS: &[&[&str]] = &[
    &[],
    &["--help"],
    &["--x"],
    &["-a"],
    &["-"],
    &["--"],
    &["--answer", "good"],
    &["--answers=1", "good"],
    &["--answers", "-a", "--x", "good"],
    &["--answers"],
    &["--state"],
    &["--answers", "--state"],
    &["--answers", "--answers"],
    &["good"],
    &["--answers", "good"],
    &["--state", "good"],
    &["--answers", "--state", "good"],
    &["--state", "--answers", "good"],
    &["--answers", "--answers", "good"],
    &["--state", "--answers", "--state", "good"],
    &["--zc"],
    &["--zc", "--help"],
    &["--zcx", "good"],
    &["--zc=1", "good"],
    &["--zc", "-zc", "good"],
    &["--zc", "good"],
    &["--zc", "--zc", "good"],
    &["--zc", "zc-table-jumps"],
    &["--zc", "--zc", "zc-table-jumps"],
    &["--answers", "--zc", "zc-table-jumps"],
    &["--state", "--zc", "zc-table-jumps"],
    &["--zc", "--state", "--answers", "--zc", "zc-table-jumps"],
    &["--zc", "zc-table-jumps", "empty", "zc-stack", "missing"],
    &["zc-table-jumps", "empty", "zc-stack"],
    &["zc-table-jumps", "--zc"],
    &["good", "--answers"],
    &["good", "--help", "-a"],
    &["good", "good"],
    &["--answers", "good", "empty", "user"],
    &["missing"],
    &["missing", "missing"],
    &["good", "missing"],
    &[
        "--state",
        "good",
        "missing",
        "cut-31",
        "host-word-3",
        "empty",
    ],
    &["folder"],
    &["--answers", "--state", "folder"],
    &["good", "folder", "good"],
    &["good/x"],
    &[""],
    &["good", ""],
    &["--dump"],
    &["--dump", "--dump"],
    &["--dump", "--zc"],
    &["--dump", "--help"],
    &["--dump", "--answers", "--help", "good"],
    &["--dumps", "good"],
    &["--dump=1", "good"],
    &["-dump", "good"],
    &["--dump", "--x", "good"],
    &["--dump", "--answers", "--x", "good", "good"],
    &["--dump", "good"],
    &["--dump", "--dump", "good"],
    &["--dump", "zc-table-jumps"],
    &["--dump", "--zc", "zc-table-jumps"],
    &["--zc", "--dump", "zc-table-jumps"],
    &["--zc", "--dump", "--zc", "--dump", "zc-table-jumps"],
    &["--dump", "--answers"],
    &["--dump", "--answers", "good"],
    &["--answers", "--dump", "good"],
    &["--dump", "--state", "good"],
    &["--state", "--dump", "good"],
    &["--answers", "--dump", "--state", "--zc", "good"],
    &["--dump", "--answers", "missing"],
    &["--dump", "--state", "good", "good"],
    &["--dump", "good", "good"],
    &["--dump", "good", "missing"],
    &["--dump", "missing", "good"],
    &["--dump", "--zc", "good", "empty", "user"],
    &["--dump", "good", "--dump"],
    &["--dump", "good", "--zc"],
    &["--dump", "good", ""],
    &["good", "--dump"],
    &["--answers", "good", "--dump"],
    &["--dump", "missing"],
    &["--dump", "folder"],
    &["--dump", "--zc", "folder"],
    &["--dump", "empty"],
    &["--dump", "good/x"],
    &["--dump", ""],
];

/// Names and contents of all traces.
fn traces() -> Vec<(String, Vec<u8>)> {
    let many = random_rows(SEED, MANY_ROWS);
    let few = &many[..12 * ROW_BYTES];
    let mut traces = vec![
        ("good".to_string(), few.to_vec()),
        ("empty".to_string(), vec![]),
        ("user".to_string(), sample("user.rows")),
        ("guest".to_string(), sample("guest.rows")),
        ("history".to_string(), behind_setup("history.setup")),
        ("call-stack".to_string(), behind_setup("call-stack.setup")),
    ];
    for length in [1, 5, 8, 16, 31] {
        traces.push((format!("short-{length}"), vec![0xFF; length]));
        traces.push((format!("cut-{length}"), [few, &vec![0xFF; length]].concat()));
    }
    for length in [
        BLOCK - 8,
        BLOCK - 32,
        BLOCK,
        BLOCK + 1,
        BLOCK + 32,
        BLOCK + 40,
        2 * BLOCK,
    ] {
        traces.push((format!("length-{length}"), many[..length].to_vec()));
    }
    for seed in 1..=8 {
        traces.push((format!("random-{seed}"), random_rows(seed, MANY_ROWS)));
    }
    traces.push(("cycles".to_string(), bytes_of(rows_with_cycles())));
    traces.push(("flags".to_string(), bytes_of(rows_with_flags())));
    traces.extend(zc_traces());
    for (name, row) in MALFORMED {
        traces.push((name.to_string(), damaged(few, row)));
    }
    // The first row, the last of a block, the first of a block, the last of all.
    let block_rows = BLOCK / ROW_BYTES;
    for index in [0, block_rows - 1, block_rows, MANY_ROWS - 1] {
        let before = &many[..index * ROW_BYTES];
        traces.push((format!("damaged-{index}"), damaged(before, [3, 4096, 0, 0])));
    }
    traces
}

fn random_rows(seed: u64, count: usize) -> Vec<u8> {
    bytes_of(random_events(seed).take(count).map(encode))
}

/// Calls in M at the largest depth: for each bit that cycles have, one with that bit and one with
/// all bits up to it.
fn rows_with_cycles() -> impl Iterator<Item = Row> {
    let [_, word, pc, target] = CALL;
    let cycles = (0..32).flat_map(|place| [1 << place, (2 << place) - 1]);
    let calls = cycles.map(move |cycles: u64| [cycles << 32, word, pc, target]);
    [[0x103, 0x15F, 7, 0], [0x103, 0x34E, 4, 0]]
        .into_iter()
        .chain(calls)
}

/// Calls in M, mispredicted and not, to even and odd targets, without a count and with one.
fn rows_with_flags() -> impl Iterator<Item = Row> {
    let [_, word, pc, target] = CALL;
    let settings = [(0, 0), (0, 1), (0x200, 0), (0x200, 1)];
    let calls = settings.map(|(flags, bit)| [flags, word, pc, target | bit]);
    calls
        .into_iter()
        .flat_map(|call| [[0x103, 0x34E, 4, 0], call, call])
}

/// Traces that go by the switch: words in place of C.FSDSP, in parts whose records fit into the entries
/// and all of them under RASEMU; and random events with many of them.
fn zc_traces() -> Vec<(String, Vec<u8>)> {
    let mut traces = vec![
        ("zc-table-jumps".to_string(), zc_trace(0x4, 0..0x100)),
        ("zc-others".to_string(), zc_trace(0x4, 0x100..0x800)),
        ("zc-stack".to_string(), zc_trace(0x84, 0..0x800)),
    ];
    for seed in 9..=12 {
        let events = random_events(seed).map(with_zc_word).take(MANY_ROWS);
        let rows = bytes_of(events.map(encode));
        traces.push((format!("zc-random-{seed}"), rows));
    }
    traces
}

/// At the largest depth with this in mctrctl, words in place of C.FSDSP, each with an upper half, cycles
/// and addresses of its own.
fn zc_trace(mctrctl: u64, codes: Range<u32>) -> Vec<u8> {
    let words = codes.map(|code| {
        let (word, code) = (code << 21 | zc_word(code), u64::from(code));
        [
            code << 32,
            word.into(),
            0x1000 + 2 * code,
            0x8000 + 4 * code,
        ]
    });
    let setup = [[0x103, 0x15F, 7, 0], [0x103, 0x34E, mctrctl, 0]];
    bytes_of(setup.into_iter().chain(words))
}

/// One of the 2048 low halves in place of C.FSDSP.
fn zc_word(code: u32) -> u32 {
    0xA002 | code << 2
}

/// About half of the retired words become one in place of C.FSDSP, under any upper half.
fn with_zc_word(mut event: Event) -> Event {
    if let Event::Retired(retired) = &mut event {
        let bits = (retired.pc >> 16) as u32;
        if bits & 1 << 11 != 0 {
            retired.word = bits & 0xFFFF_0000 | zc_word(bits & 0x7FF);
        }
    }
    event
}

/// A sample trace behind the setup that `replay` is tested with.
fn sample(name: &str) -> Vec<u8> {
    contents("crates/replay/data", name)
}

/// The sample trace of the user program behind this setup.
fn behind_setup(name: &str) -> Vec<u8> {
    let traces = "examples/traces";
    [contents(traces, name), contents(traces, "user.rows")].concat()
}

/// A file in a folder of the repository.
fn contents(folder: &str, name: &str) -> Vec<u8> {
    let path = manifest_folder().join("..").join(folder).join(name);
    fs::read(&path).unwrap_or_else(|error| panic!("{}: {error}", path.display()))
}

/// After the malformed row comes more that is not looked at.
fn damaged(before: &[u8], malformed: Row) -> Vec<u8> {
    [before, &bytes_of([malformed, CALL, malformed]), &[0xFF; 5]].concat()
}

fn manifest_folder() -> &'static Path {
    Path::new(env!("CARGO_MANIFEST_DIR"))
}

/// The program of this name, by a path that holds in any folder. The variable may tell another one.
fn program(name: &str, variable: &str) -> PathBuf {
    let path = match env::var_os(variable) {
        Some(path) => PathBuf::from(path),
        None => manifest_folder().join("../target/bin").join(name),
    };
    path.canonicalize().unwrap_or_else(|error| {
        panic!(
            "{}: {error}: build the program {name} first",
            path.display()
        )
    })
}

/// A folder of this test run's own with these files, and a folder among them.
fn folder_of(name: &str, files: &[(String, Vec<u8>)]) -> PathBuf {
    let folder = env::temp_dir().join(format!("model-check-{name}-{}", process::id()));
    fs::create_dir_all(folder.join("folder")).expect("a new folder");
    for (name, contents) in files {
        fs::write(folder.join(name), contents).expect("a file is written");
    }
    folder
}

/// An empty name stays one: joined, it would be that of the folder.
fn open(folder: &Path, name: &str) -> io::Result<File> {
    match name {
        "" => File::open(name),
        _ => File::open(folder.join(name)),
    }
}

/// What differs between the program, run in the folder, and the model, if anything does.
fn run_complaint(
    program: &Path,
    folder: &Path,
    arguments: &[String],
    expected: &Printed,
) -> Option<String> {
    let output = Command::new(program)
        .args(arguments)
        .current_dir(folder)
        .output()
        .expect("the program runs");
    complaint(&format!("{arguments:?}"), &output, expected)
}

/// What differs between `replay` and the model, if anything does.
fn replay_complaint(program: &Path, folder: &Path, arguments: &[String]) -> Option<String> {
    let expected = replay(arguments, |name| open(folder, name));
    run_complaint(program, folder, arguments, &expected)
}

/// What differs between a program's run, which has this title, and the model, if anything does.
fn complaint(title: &str, output: &Output, expected: &Printed) -> Option<String> {
    let status = (!output.status.success()).then(|| output.status.to_string());
    let stdout = difference("standard output", &output.stdout, &expected.stdout);
    let stderr = difference("standard error", &output.stderr, expected.stderr.as_bytes());
    let differences: Vec<String> = [status, stdout, stderr].into_iter().flatten().collect();
    (!differences.is_empty()).then(|| format!("{title}:\n  {}", differences.join("\n  ")))
}

/// The first line that differs, bytes that are no text escaped. Texts that end in unequal ways differ in
/// a last line.
fn difference(stream: &str, printed: &[u8], expected: &[u8]) -> Option<String> {
    if printed == expected {
        return None;
    }
    let lines = |text: &[u8]| -> Vec<String> {
        let lines = text.split(|byte| *byte == b'\n');
        lines.map(|line| line.escape_ascii().to_string()).collect()
    };
    let (lines, expected_lines) = (lines(printed), lines(expected));
    let differing = (0..).find(|index| lines.get(*index) != expected_lines.get(*index))?;
    let (line, expected) = (lines.get(differing), expected_lines.get(differing));
    let number = differing + 1;
    Some(format!(
        "{stream}, line {number}: {line:?}, expected {expected:?}"
    ))
}

/// Each trace by itself under each choice of flags, and then all further arguments.
fn argument_lists() -> Vec<Vec<String>> {
    let flags: [&[&str]; 7] = [
        &[],
        &["--answers"],
        &["--answers", "--state"],
        &["--zc"],
        &["--answers", "--state", "--zc"],
        &["--dump"],
        &["--dump", "--zc"],
    ];
    let mut lists: Vec<Vec<String>> = vec![];
    for (name, _) in traces() {
        lists.extend(flags.map(|flags| owned(&[flags, &[&name]].concat())));
    }
    lists.extend(ARGUMENTS.iter().map(|list| owned(list)));
    lists
}

fn owned(words: &[&str]) -> Vec<String> {
    words.iter().map(|word| word.to_string()).collect()
}

#[test]
#[ignore = "the program replay must be built first"]
fn replay_prints_what_the_model_prints() {
    let program = program("replay", "REPLAY");
    let folder = folder_of("replay", &traces());
    let complaints: Vec<String> = argument_lists()
        .iter()
        .filter_map(|arguments| replay_complaint(&program, &folder, arguments))
        .collect();
    fs::remove_dir_all(&folder).expect("the folder is removed");
    assert!(complaints.is_empty(), "{}", complaints.join("\n"));
}

/// Arguments of `classify`.
const CLASSIFY_ARGUMENTS: &[&[&str]] = &[
    &[],
    &["--zc"],
    &["--zc", "--zc"],
    &["--help"],
    &["--zc", "--help"],
    &["--help", "--zc"],
    &["--help", "--x"],
    &["--x"],
    &["--x", "--help"],
    &["--zc", "-z"],
    &["zc"],
    &[""],
    &["--zc", ""],
    &["--zcx"],
    &["--zc=1"],
    &["-"],
    &["--"],
];

/// Names and bytes of all inputs of `classify`.
fn inputs() -> Vec<(String, Vec<u8>)> {
    let low_halves = word_bytes(0..=0xFFFF);
    let many = word_bytes((zc_word(0)..=0xFFFF).chain(0..=0xFFFF));
    let mut inputs = vec![
        ("empty".to_string(), vec![]),
        ("low-halves".to_string(), low_halves),
        ("sample".to_string(), classify_input()),
    ];
    for upper in [0x0001, 0x006F, 0x8082, 0xA002, 0xFFFF] {
        let words = (0..1 << 11).map(|code| upper << 16 | zc_word(code));
        inputs.push((format!("under-{upper:04x}"), word_bytes(words)));
    }
    for length in [
        1,
        2,
        3,
        4,
        5,
        6,
        7,
        BLOCK - 1,
        BLOCK,
        BLOCK + 1,
        BLOCK + 2,
        BLOCK + 3,
        BLOCK + 4,
        2 * BLOCK,
        3 * BLOCK + 3,
        many.len() - 1,
    ] {
        inputs.push((format!("length-{length}"), many[..length].to_vec()));
    }
    inputs
}

fn word_bytes(words: impl Iterator<Item = u32>) -> Vec<u8> {
    words.flat_map(u32::to_le_bytes).collect()
}

/// What differs between `classify` and the model, if anything does: with the input from a file, and
/// with the same through a pipe.
fn classify_complaints(
    program: &Path,
    folder: &Path,
    arguments: &[String],
    (name, input): &(String, Vec<u8>),
) -> Vec<String> {
    let expected = classify(arguments, input);
    let from_file = fed_from_file(program, arguments, &folder.join(name));
    let through_pipe = fed_through_pipe(program, arguments, input);
    [("from a file", from_file), ("through a pipe", through_pipe)]
        .iter()
        .filter_map(|(way, output)| {
            let title = format!("{arguments:?}, {name} {way}");
            complaint(&title, output, &expected)
        })
        .collect()
}

fn fed_from_file(program: &Path, arguments: &[String], path: &Path) -> Output {
    Command::new(program)
        .args(arguments)
        .stdin(File::open(path).expect("a file of input"))
        .output()
        .expect("the program runs")
}

/// A program that doesn't read its input breaks the pipe.
fn fed_through_pipe(program: &Path, arguments: &[String], input: &[u8]) -> Output {
    let mut child = Command::new(program)
        .args(arguments)
        .stdin(Stdio::piped())
        .stdout(Stdio::piped())
        .stderr(Stdio::piped())
        .spawn()
        .expect("the program runs");
    let mut pipe = child.stdin.take().expect("a pipe");
    thread::scope(|scope| {
        scope.spawn(move || {
            input
                .chunks(PIECE)
                .all(|piece| pipe.write_all(piece).is_ok())
        });
        child.wait_with_output().expect("the program runs")
    })
}

#[test]
#[ignore = "the program classify must be built first"]
fn classify_prints_what_the_model_prints() {
    let (program, inputs) = (program("classify", "CLASSIFY"), inputs());
    let folder = folder_of("classify", &inputs);
    let complaints: Vec<String> = CLASSIFY_ARGUMENTS
        .iter()
        .flat_map(|list| inputs.iter().map(|input| (owned(list), input)))
        .flat_map(|(list, input)| classify_complaints(&program, &folder, &list, input))
        .collect();
    fs::remove_dir_all(&folder).expect("the folder is removed");
    assert!(complaints.is_empty(), "{}", complaints.join("\n"));
}

/// Where the image of the check lies.
const BASE: u64 = 0x8000_0000;

/// How many bytes an image and a dump have at most.
const IMAGE_BYTES: usize = 4_194_304;
const DUMP_BYTES: usize = 98_304;

/// What lies at the base: words of every kind and their offsets, or 0 if they have none.
const CODE: [(u32, i64); 11] = [
    (0x0100_00ef, 16),  // jal .+16
    (0x00b5_0863, 16),  // beq a0, a1, .+16
    (0xbff5, -4),       // c.j .-4
    (0xfff5, -4),       // c.bnez a5, .-4
    (0x8082, 0),        // c.jr ra
    (0xa002, 0),        // cm.jt 0
    (0xa082, 0),        // cm.jalt 32
    (0xbe42, 0),        // cm.popret {ra}, 16
    (0x0000_80e7, 0),   // jalr ra, ra
    (0x0000_0013, 0),   // nop
    (0xff1f_f36f, -16), // jal t1, .-16
];

/// Bases, of which the first are the one that fits.
const BASES: &[&str] = &[
    "0x80000000",
    "2147483648",
    "0x00000000000000000000000080000000",
    "000000000000000000000000002147483648",
    "0",
    "00",
    "0x0",
    "1",
    "0x80000001",
    "2147483649",
    "0x7ffffffe",
    "0x80000002",
    "0xABCDEF00",
    "0xabcdef00",
    "0xaBcDeF00",
    "0xffffffffffffffdc",
    "0xffffffffffffffde",
    "0xffffffffffffffe0",
    "0xFFFFFFFFFFFFFFFE",
    "0xffffffffffffffff",
    "18446744073709551614",
    "18446744073709551615",
    "18446744073709551616",
    "18446744073709551620",
    "0x10000000000000000",
    "0x18000000000000000",
    "99999999999999999999",
    "340282366920938463463374607431768211456",
    "0x100000000000000000000000080000000",
    "",
    " ",
    "0x",
    "0X80000000",
    "x80000000",
    "80000000x",
    "0x g",
    "0xg",
    "0x8000000g",
    "0x 80000000",
    "0x80000000 ",
    " 0x80000000",
    "0x80000000\n",
    "0x8000_0000",
    "2_147_483_648",
    "0x0x80000000",
    "80000000h",
    "deadbeef",
    "+1",
    "-1",
    "-0",
    "0x-1",
    "0x+1",
    "-0x80000000",
    "+0x80000000",
    "1.0",
    "1e3",
    "0b10",
    "0o10",
    "\u{0662}",
    "--zc",
    "--help",
];

/// Arguments of `check_dump` that run nothing, or that find files missing, too large or cut.
const CHECK_DUMP_ARGUMENTS: &[&[&str]] = &[
    &[],
    &["--help"],
    &["--zc", "--help"],
    &["--help", "--x"],
    &["--help", "image", "0x80000000", "good"],
    &["--x"],
    &["--x", "--help"],
    &["--zc", "-z", "--x", "image", "0x80000000", "good"],
    &["-", "image", "0x80000000", "good"],
    &["--", "image", "0x80000000", "good"],
    &["--zcx", "image", "0x80000000", "good"],
    &["--zc=1", "image", "0x80000000", "good"],
    &["--dump", "image", "0x80000000", "good"],
    &["--zc"],
    &["--zc", "--zc"],
    &["image"],
    &["missing"],
    &["--zc", "image"],
    &["image", "0x80000000"],
    &["missing", "x"],
    &["--zc", "missing", "x"],
    &["image", "0x80000000", "good", "good"],
    &["image", "0x80000000", "good", "--zc"],
    &["image", "0x80000000", "good", "--help"],
    &["image", "0x80000000", "good", ""],
    &["missing", "x", "missing", "-", "--x"],
    &["image", "0x80000000", "--zc"],
    &["image", "--zc", "0x80000000", "good"],
    &["image", "-1"],
    &["missing", "x", "missing"],
    &["missing", "0x80000000", "gone"],
    &["missing", "1", "three-bytes"],
    &["image", "0x80000000", "missing"],
    &["image", "1", "missing"],
    &["folder", "0x80000000", "good"],
    &["folder", "0x80000000", "missing"],
    &["image", "0x80000000", "folder"],
    &["image", "0x80000000", "image"],
    &["image/x", "0x80000000", "good"],
    &["image", "0x80000000", "good/x"],
    &["", "0x80000000", "good"],
    &["image", "0x80000000", ""],
    &["", "", ""],
    &["image-4194305", "0x80000000", "missing"],
    &["image-4194305", "x", "missing"],
    &["image-4194305", "1", "dump-98305"],
    &["good", "0x80000000", "image-4194304"],
    &["image", "1", "dump-98305"],
    &["image", "1", "one-word"],
    &["image", "0x80000000", "one-word"],
    &["--zc", "--zc", "--zc", "image", "0x80000000", "good-zc"],
    &["user-image", "0x80400000", "history"],
    &["--zc", "user-image", "0x80400000", "history"],
    &["user-image", "2151677952", "history"],
    &["user-image", "0x80400002", "history"],
    &["user-image", "0x803ffffe", "history"],
    &["user-image", "0x80400001", "history"],
    &["user-image", "0x80000000", "history"],
    &["image", "0x80400000", "history"],
    &["empty", "0x80400000", "history"],
    &["user-image", "0x80400000", "external"],
    &["user-image", "0x80400000", "call-stack"],
    &["user-image", "0x80400000", "guest"],
    &["user-image", "0x80400000", "reset"],
    &["user-image", "0x80400000", "user-rows"],
    &["empty", "0", "empty"],
    &["empty", "0xffffffffffffffff", "empty"],
    &["empty", "0xfffffffffffffffe", "empty"],
    &["empty", "18446744073709551615", "one-word"],
];

/// The words of CODE, and two bytes of JAL.
fn image() -> Vec<u8> {
    let words = CODE.iter().flat_map(|(word, _)| word_in_code(*word));
    words.chain([0xef, 0x00]).collect()
}

/// As many bytes as the word has.
fn word_in_code(word: u32) -> Vec<u8> {
    let count = if word & 3 == 3 { 4 } else { 2 };
    word.to_le_bytes()[..count].to_vec()
}

/// The user program of the sample trace, which lies at 0x80400000.
fn user_image() -> Vec<u8> {
    contents("examples/traces", "user.image")
}

/// The bytes of entries in a dump.
fn dump_of(entries: &[[u64; 3]]) -> Vec<u8> {
    entries
        .iter()
        .flatten()
        .flat_map(|word| word.to_le_bytes())
        .collect()
}

/// What `replay --dump` gives for a trace.
fn dump_by_replay(trace: &[u8]) -> Vec<u8> {
    replay(&owned(&["--dump", "trace"]), |_| Ok(trace)).stdout
}

/// A call, an interrupt, a branch taken and not, an entry that isn't valid, and a return, mispredicted
/// and with a count.
const GOOD: [[u64; 3]; 6] = [
    [BASE | 1, BASE + 16, 9],
    [0x1235, 0x5678, 2],
    [BASE + 5, BASE + 20, 5],
    [BASE + 5, BASE + 8, 4],
    [BASE, 0, 0],
    [BASE + 13, 0x4321, 0x0007_800d],
];

/// A table jump, a call through the table and a pop-return, which need the switch.
const GOOD_ZC: [[u64; 3]; 3] = [
    [BASE + 15, 0x5678, 11],
    [BASE + 17, 0x5678, 9],
    [BASE + 19, 0x5678, 13],
];

/// Entries that don't fit, one for each reason and some more of a type that never does.
const MISFITS: [(&str, [u64; 3]); 8] = [
    ("outside-below", [BASE - 1, BASE + 16, 9]),
    ("outside-above", [BASE + 35, BASE + 16, 9]),
    ("cut-off", [BASE + 33, BASE + 34, 9]),
    ("unlike", [BASE | 1, BASE + 16, 11]),
    ("unlike-0", [u64::MAX, u64::MAX, 0xFFF0]),
    ("unlike-6", [1, 1, 6]),
    ("unlike-7", [BASE + 33, 0, 7]),
    ("wrong", [BASE | 1, BASE + 19, 0xFFFF_8009]),
];

/// Single entries at each place of the image and around it, of each type, and with targets by the
/// offset, by the length of both sorts, and elsewhere.
fn single_entries() -> Vec<(String, Vec<u8>)> {
    let mut pc = BASE;
    let mut places = vec![(BASE - 2, 16)];
    for (word, offset) in CODE {
        places.push((pc, offset));
        pc += word_in_code(word).len() as u64;
    }
    places.extend([(pc, 16), (pc + 2, 16), (0, 0), (u64::MAX - 1, 2)]);
    let mut dumps = vec![];
    for (pc, offset) in places {
        for number in 0..16 {
            for (way, distance) in [("offset", offset), ("two", 2), ("four", 4), ("else", 6)] {
                let entry = [pc | 1, pc.wrapping_add_signed(distance), number];
                let name = format!("at-{pc:x}-{number}-{way}");
                dumps.push((name, dump_of(&[entry])));
            }
        }
    }
    dumps
}

/// Dumps with one of the misfits behind none, one and all of the entries that fit, and before others.
fn misfits() -> Vec<(String, Vec<u8>)> {
    let mut dumps = vec![];
    for (name, misfit) in MISFITS {
        for count in [0, 1, GOOD.len()] {
            let entries = [&GOOD[..count], &[misfit], &GOOD, &[MISFITS[3].1]].concat();
            dumps.push((format!("{name}-{count}"), dump_of(&entries)));
        }
    }
    dumps
}

/// The dump of the history with one entry changed: its target, its type, its source.
fn changed_histories() -> Vec<(String, Vec<u8>)> {
    let history = dump_by_replay(&behind_setup("history.setup"));
    let mut dumps = vec![];
    for index in 0..history.len() / 24 {
        for (name, byte, bits) in [
            ("valid", 0, 1),
            ("source", 0, 2),
            ("far", 7, 0x80),
            ("misp", 8, 1),
            ("target", 8, 2),
            ("type", 16, 1),
            ("other", 17, 0xFF),
        ] {
            let mut bytes = history.clone();
            bytes[24 * index + byte] ^= bits;
            dumps.push((format!("history-{index}-{name}"), bytes));
        }
    }
    dumps
}

/// Dumps of lengths around the limit, all of zeros but for a misfit in the last whole entry.
fn long_dumps() -> Vec<(String, Vec<u8>)> {
    let most = DUMP_BYTES;
    [
        most - 24,
        most - 16,
        most - 8,
        most - 1,
        most,
        most + 1,
        most + 8,
        most + 24,
        2 * most,
    ]
    .map(|length| {
        let mut bytes = vec![0; length];
        let last = length / 24 * 24 - 24;
        bytes[last..last + 24].copy_from_slice(&dump_of(&[MISFITS[3].1]));
        (format!("dump-{length}"), bytes)
    })
    .to_vec()
}

/// Images of lengths around the limit, whose last whole half-word is C.J -4, and dumps with an entry
/// there.
fn long_images() -> Vec<(String, Vec<u8>)> {
    let lengths = [
        IMAGE_BYTES - 2,
        IMAGE_BYTES - 1,
        IMAGE_BYTES,
        IMAGE_BYTES + 1,
    ];
    let mut files = vec![];
    for length in lengths {
        let last = length / 2 * 2 - 2;
        let mut code = vec![0; length];
        code[last..last + 2].copy_from_slice(&[0xf5, 0xbf]);
        let pc = BASE + last as u64;
        let entries = [pc, pc + 2].map(|pc| [pc | 1, pc - 4, 11]);
        files.push((format!("image-{length}"), code));
        files.push((format!("last-of-{length}"), dump_of(&entries[..1])));
        files.push((format!("past-last-of-{length}"), dump_of(&entries)));
    }
    files
}

/// Names of dumps and images, all of them files in one folder.
struct Files {
    dumps: Vec<(String, Vec<u8>)>,
    histories: Vec<(String, Vec<u8>)>,
    long: Vec<(String, Vec<u8>)>,
    others: Vec<(String, Vec<u8>)>,
}

fn check_dump_files() -> Files {
    let file = |name: &str, bytes: Vec<u8>| (name.to_string(), bytes);
    let good = dump_of(&GOOD);
    let mut dumps = vec![
        file("good", good.clone()),
        file("good-zc", dump_of(&GOOD_ZC)),
        file("empty", vec![]),
        file("one-word", good[..8].to_vec()),
        file("three-bytes", good[..3].to_vec()),
    ];
    for length in [1, 7, 8, 9, 11, 15, 16, 17, 23, 25, 41, 51, 143] {
        dumps.push((format!("good-{length}"), good[..length].to_vec()));
    }
    dumps.extend(misfits());
    dumps.extend(long_dumps());
    dumps.extend(single_entries());
    let mut others = vec![
        file("image", image()),
        file("user-image", user_image()),
        file("user-rows", contents("examples/traces", "user.rows")),
        file("history", dump_by_replay(&behind_setup("history.setup"))),
        file("external", dump_by_replay(&behind_setup("external.setup"))),
        file(
            "call-stack",
            dump_by_replay(&behind_setup("call-stack.setup")),
        ),
        file("guest", dump_by_replay(&sample("guest.rows"))),
        file("reset", dump_by_replay(&[])),
    ];
    for length in 0..=image().len() {
        others.push((format!("image-of-{length}"), image()[..length].to_vec()));
    }
    Files {
        dumps,
        histories: changed_histories(),
        long: long_images(),
        others,
    }
}

impl Files {
    fn all(&self) -> Vec<(String, Vec<u8>)> {
        let parts = [&self.dumps, &self.histories, &self.long, &self.others];
        parts.into_iter().flatten().cloned().collect()
    }

    /// Each dump by itself with the switch off and on; the good ones at each base and with each
    /// beginning of the image; the long images; and then all further arguments.
    fn lists(&self) -> Vec<Vec<String>> {
        let mut lists: Vec<Vec<String>> = vec![];
        let mut add = |image: &str, base: &str, dump: &str| {
            lists.push(owned(&[image, base, dump]));
            lists.push(owned(&["--zc", image, base, dump]));
        };
        for (dump, _) in &self.dumps {
            add("image", "0x80000000", dump);
        }
        for (dump, _) in &self.histories {
            add("user-image", "0x80400000", dump);
        }
        for base in BASES {
            add("image", base, "good");
            add("image", base, "empty");
        }
        let long = "0".repeat(1_000);
        for base in [format!("{long}2147483648"), format!("0x{long}80000000")] {
            add("image", &base, "good");
        }
        let (nines, hex) = ("9".repeat(1_000), "f".repeat(1_000));
        add("image", &nines, "good");
        add("image", &format!("0x{hex}"), "good");
        for length in 0..=image().len() {
            let name = format!("image-of-{length}");
            add(&name, "0x80000000", "good");
            add(&name, "0x80000000", "good-zc");
            add(&name, "0x80000000", "cut-off-0");
        }
        for (name, _) in &self.long {
            if let Some((_, length)) = name.rsplit_once("-of-") {
                let image = format!("image-{length}");
                add(&image, "0x80000000", name);
                add(&image, "0x80000000", "good");
                add(&image, "0xffffffffffc00000", name);
                add(&image, "0xffffffffffc00000", "empty");
                add(&image, "0xffffffffffc00002", "empty");
            }
        }
        lists.extend(CHECK_DUMP_ARGUMENTS.iter().map(|list| owned(list)));
        lists
    }
}

fn check_dump_complaint(program: &Path, folder: &Path, arguments: &[String]) -> Option<String> {
    let expected = check_dump(arguments, |name| open(folder, name));
    run_complaint(program, folder, arguments, &expected)
}

#[test]
#[ignore = "the program check_dump must be built first"]
fn check_dump_prints_what_the_model_prints() {
    let (program, files) = (program("check_dump", "CHECK_DUMP"), check_dump_files());
    let folder = folder_of("check-dump", &files.all());
    let complaints: Vec<String> = files
        .lists()
        .iter()
        .filter_map(|arguments| check_dump_complaint(&program, &folder, arguments))
        .collect();
    fs::remove_dir_all(&folder).expect("the folder is removed");
    assert!(complaints.is_empty(), "{}", complaints.join("\n"));
}

#[test]
fn files_of_check_dump_have_names_of_their_own() {
    let files = check_dump_files().all();
    let mut names: Vec<&String> = files.iter().map(|(name, _)| name).collect();
    names.sort_unstable();
    names.dedup();
    assert_eq!(names.len(), files.len());
    assert!(!names
        .iter()
        .any(|name| *name == "missing" || *name == "folder"));
}

/// Otherwise they would not show whether a program tells it.
#[test]
fn everything_that_check_dump_can_tell_is_among_its_lists() {
    let files = check_dump_files();
    let folder = folder_of("check-dump-lists", &files.all());
    let printed: Vec<Printed> = files
        .lists()
        .iter()
        .map(|arguments| check_dump(arguments, |name| open(&folder, name)))
        .collect();
    fs::remove_dir_all(&folder).expect("the folder is removed");
    for part in [
        "usage: check_dump",
        "accepted\n",
        "refused: not three words to an entry\n",
        "refused: odd base or an end past 2^64\n",
        "entry 0: source outside the image: 0x7ffffffe -> 0x80000010 direct call\n",
        "entry 6: source outside the image: ",
        "entry 0: word cut off by the image's end: ",
        "entry 6: word cut off by the image's end: ",
        "entry 0: type unlike the word's: ",
        "entry 6: type unlike the word's: ",
        "entry 4095: type unlike the word's: ",
        "entry 0: target wrong: ",
        "entry 6: target wrong: 0x80000000 -> 0x80000012 direct call\n",
        " none\n",
        " reserved\n",
        "check_dump: unknown flag ",
        "check_dump: no image given\n",
        "check_dump: no base given\n",
        "check_dump: no dump given\n",
        "check_dump: unexpected argument ",
        "check_dump: base  is no number below 2^64\n",
        "check_dump: base 0x g is no number below 2^64\n",
        "check_dump: base -1 is no number below 2^64\n",
        "check_dump: missing: No such file or directory\n",
        "check_dump: folder: Is a directory\n",
        "check_dump: image/x: Not a directory\n",
        "check_dump: image-4194305: more than 4194304 bytes\n",
        "check_dump: dump-98305: more than 98304 bytes\n",
        "check_dump: dump-98328: more than 98304 bytes\n",
        "check_dump: dump-98303: 7 bytes left over after word 12286\n",
        "check_dump: good-51: 3 bytes left over after word 5\n",
        "check_dump: good-41: 1 byte left over after word 4\n",
        "check_dump: three-bytes: 3 bytes and no word\n",
        "check_dump: good-1: 1 byte and no word\n",
    ] {
        let has_part = |printed: &Printed| {
            let stdout = str::from_utf8(&printed.stdout).expect("text");
            stdout.contains(part) || printed.stderr.contains(part)
        };
        assert!(printed.iter().any(has_part), "{part}");
    }
}

/// And so does a changed one if only bits are changed that have no part in it.
#[test]
fn the_history_fits_the_user_program() {
    let (image, files) = (user_image(), check_dump_files());
    let history = dump_by_replay(&behind_setup("history.setup"));
    let line = |dump: &[u8]| {
        let open = |name: &str| Ok(if name == "image" { &image } else { dump });
        check_dump(&owned(&["image", "0x80400000", "dump"]), open).text()
    };
    assert_eq!(history.len(), 16 * 24);
    assert!(history.chunks(24).all(|entry| entry[0] & 1 == 1));
    assert_eq!(line(&history), "accepted\n");
    for (name, dump) in files.histories {
        let (start, change) = name.rsplit_once('-').expect("a name with a change");
        let text = line(&dump);
        match change {
            "valid" | "misp" | "other" => assert_eq!(text, "accepted\n", "{name}"),
            "target" => {}
            _ => {
                let index = start.rsplit_once('-').expect("a name with an index").1;
                assert!(
                    text.starts_with(&format!("entry {index}: ")),
                    "{name}: {text}"
                );
            }
        }
    }
}

/// What the model prints for one trace.
fn printed_of(trace: &[u8], flags: &[&str]) -> String {
    let arguments = owned(&[flags, &["trace"]].concat());
    replay(&arguments, |_| Ok(trace)).text()
}

/// Otherwise they would not show whether a program heeds it.
#[test]
fn traces_that_go_by_the_switch_have_other_answers_with_it() {
    for (name, trace) in zc_traces() {
        let off = printed_of(&trace, &["--answers"]);
        let on = printed_of(&trace, &["--answers", "--zc"]);
        let answers = trace.len() / ROW_BYTES;
        let pairs = off.lines().zip(on.lines()).take(answers);
        let differing = pairs.filter(|(off, on)| off != on).count();
        assert!(differing > 50, "{name}: {differing}");
    }
}

#[test]
fn inputs_go_by_the_switch_unless_they_are_short() {
    for (name, input) in inputs() {
        let printed = |list: &[&str]| classify(&owned(list), &input).stdout;
        let is_same = printed(&[]) == printed(&["--zc"]);
        let has_none = input.len() < 4;
        assert_eq!(is_same, has_none, "{name}");
    }
}

#[test]
fn the_first_differing_line_is_named() {
    let text = difference("standard output", b"one\ntwo\n", b"one\ntoo\n");
    let expected = r#"standard output, line 2: Some("two"), expected Some("too")"#;
    assert_eq!(text.as_deref(), Some(expected));
    let text = difference("standard output", b"one", b"one\n");
    let expected = r#"standard output, line 2: None, expected Some("")"#;
    assert_eq!(text.as_deref(), Some(expected));
    let text = difference("standard output", b"a\n\0\xff\n", b"a\n\0\xfe\n");
    let expected = r#"standard output, line 2: Some("\\x00\\xff"), expected Some("\\x00\\xfe")"#;
    assert_eq!(text.as_deref(), Some(expected));
    assert_eq!(difference("standard output", b"one\n", b"one\n"), None);
}
