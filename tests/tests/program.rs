//! The built programs: `sheetread` and `trialread` beside the model's line, what each prints for what stands
//! on its standard input; and `housetable`, which prints a table and reads nothing. Their paths are in
//! SHEETREAD, TRIALREAD and HOUSETABLE; the default is where `make run`, `make trial` and `make table` build them.

use sheet_tests::cases::plan_t;
use sheet_tests::damage::{damaged, set_unused_of_sheet};
use sheet_tests::house;
use sheet_tests::line::{line, INPUT_LIMIT};
use sheet_tests::make::{accepted, accepted_of, burst_sizes, powers_3x3, CellOrder};
use sheet_tests::model;
use sheet_tests::pairs::hopeless;
use sheet_tests::plan::{field, set_header_field, Plan};
use sheet_tests::rng::Rng;
use sheet_tests::scans::{full_burst, random_burst, random_data, random_sheet, turned};
use sheet_tests::sparse::few_of_4x4;
use sheet_tests::trials::{trial_cases, AT_THE_MOST, OF_4X4, ONE_CELL_MORE};
use std::env;
use std::fs::File;
use std::io::{pipe, ErrorKind, PipeReader, PipeWriter, Read, Seek, Write};
use std::os::fd::AsRawFd;
use std::process::{Command, ExitStatus, Stdio};
use std::thread;
use std::time::{Duration, Instant};

/// The programs that read a sheet. They take and print the same: all that is tested of one is tested of both.
const READERS: [&str; 2] = ["sheetread", "trialread"];

fn program(name: &str) -> Command {
    let told = env::var(name.to_uppercase());
    Command::new(told.unwrap_or_else(|_| format!("../crates/{name}/out/{name}")))
}

/// What the program prints for an input that is handed over in pieces, with a pause between them.
fn printed_in_pieces(name: &str, pieces: &[&[u8]], pause: Duration) -> String {
    let mut child = program(name)
        .stdin(Stdio::piped())
        .stdout(Stdio::piped())
        .spawn()
        .expect("the program is built");
    let mut input = child.stdin.take().expect("a pipe");
    for piece in pieces {
        match input.write_all(piece).and_then(|()| input.flush()) {
            // Past its limit the program need not read on.
            Err(error) if error.kind() == ErrorKind::BrokenPipe => break,
            other => other.expect("the program reads"),
        }
        thread::sleep(pause);
    }
    drop(input);
    let mut out = String::new();
    child.stdout.take().expect("a pipe").read_to_string(&mut out).expect("text");
    assert!(child.wait().expect("an end").success());
    out
}

/// Each program prints the model's line, and nothing else.
fn compare(input: &[u8]) -> String {
    let expected = line(input) + "\n";
    for name in READERS {
        let out = printed_in_pieces(name, &[input], Duration::ZERO);
        assert_eq!(out, expected, "{name} on the left, model on the right");
    }
    expected
}

/// A plan and a sheet behind it.
fn joined(plan: &[u8], sheet: &[u8]) -> Vec<u8> {
    [plan, sheet].concat()
}

/// A written sheet with a random burst on it, behind its plan.
fn blotted(plan: &Plan, rng: &mut Rng) -> Vec<u8> {
    let sheet = model::write_sheet(plan, &random_data(plan, rng));
    let burst = random_burst(plan, rng);
    joined(&plan.encode(), &turned(plan, &sheet, &burst))
}

#[test]
fn case_12() {
    assert_eq!(compare(&joined(&plan_t().encode(), &[0x03, 0x05])), "ok 2 0 1 1 2 3 02\n");
}

/// T with t of 1, under which two cells are no burst, and of 2; with t over 2, and such that its low byte
/// would be good.
#[test]
fn few_cells() {
    let with_t = |t, sheet: [u8; 2]| joined(&Plan { t, ..plan_t() }.encode(), &sheet);
    for (t, sheet, expected) in [
        (1, [0x03, 0x05], "no 14 0 0\n"),
        (1, [0x04, 0x05], "ok 1 0 0 1 1 1 02\n"),
        (1, [0x05, 0x05], "ok 0 0 0 0 0 0 02\n"),
        (2, [0x03, 0x05], "ok 2 0 1 1 2 3 02\n"),
        (3, [0x03, 0x05], "no 23 0 0\n"),
        (256, [0x03, 0x05], "no 23 0 0\n"),
        (65_535, [0x03, 0x05], "no 23 0 0\n"),
    ] {
        assert_eq!(compare(&with_t(t, sheet)), expected, "t {t}");
    }
}

#[test]
fn short_inputs() {
    let whole = joined(&plan_t().encode(), &[0x03, 0x05]);
    for len in 0..=whole.len() {
        compare(&whole[..len]);
    }
    compare(&joined(&whole, &[0]));
}

#[test]
fn length_field_above_and_below() {
    let whole = joined(&plan_t().encode(), &[0x03, 0x05]);
    for told in [0, 1, 20, 21, 22, 23, 76, 77, 78, 79, 80, 81, 1000, 65_535] {
        let mut input = whole.clone();
        set_header_field(&mut input, field::LENGTH, told);
        compare(&input);
    }
}

#[test]
fn past_the_limit() {
    let mut rng = Rng::new(71);
    for len in [INPUT_LIMIT - 1, INPUT_LIMIT, INPUT_LIMIT + 1, INPUT_LIMIT + 5000] {
        let mut input = blotted(&plan_t(), &mut rng);
        input.resize(len, 0);
        compare(&input);
    }
}

/// A read that fails ends the input, and a write that fails ends the program; neither is told
/// (docs/FORMAT.md).
#[test]
fn input_and_output_that_fail() {
    for name in READERS {
        let folder = File::open(".").expect("a folder can be opened");
        let ended = program(name).stdin(folder).output().expect("the program runs");
        let told = (ended.stdout.as_slice(), ended.status.code());
        assert_eq!(told, (b"no 1 0 0\n".as_slice(), Some(0)), "{name}");
        let full = File::options().write(true).open("/dev/full").expect("Linux has it");
        let ended = program(name).stdin(Stdio::null()).stdout(full).output();
        let ended = ended.expect("the program runs");
        assert_eq!((ended.stderr.len(), ended.status.code()), (0, Some(0)), "{name}");
    }
}

#[test]
fn slow_pipe() {
    let mut rng = Rng::new(72);
    let input = blotted(&accepted(&mut rng, 2, 3, 9), &mut rng);
    let pieces: Vec<&[u8]> = input.chunks(input.len() / 7 + 1).collect();
    for name in READERS {
        let out = printed_in_pieces(name, &pieces, Duration::from_millis(20));
        assert_eq!(out, line(&input) + "\n", "{name}");
    }
}

#[test]
fn full_size() {
    let mut rng = Rng::new(73);
    let few = few_of_4x4([512, 698], 2, CellOrder::Sheet, &mut rng);
    for plan in [powers_3x3(512, 698, CellOrder::Sheet, &mut rng), few] {
        assert!(compare(&blotted(&plan, &mut rng)).starts_with("ok "));
        let lost = hopeless(&plan, &mut rng).expect("not every sheet can be mended");
        assert!(compare(&joined(&plan.encode(), &lost)).starts_with("no 14 "));
    }
}

#[test]
fn hundreds_of_inputs() {
    let mut rng = Rng::new(74);
    let (mut taken, mut refused, mut bare) = (0, 0, 0);
    for _ in 0..12 {
        for (b1, b2) in burst_sizes() {
            let plan = accepted(&mut rng, b1, b2, 2);
            bare += usize::from(plan.data_len() == 0);
            compare(&blotted(&plan, &mut rng));
            taken += 1;
            compare(&joined(&damaged(&plan, &mut rng), &random_sheet(&plan, &mut rng)));
            refused += 1;
        }
    }
    println!("{taken} blotted sheets, {bare} of them with no data, {refused} damaged plans");
    assert!(taken >= 150 && refused >= 150);
}

/// What is worked out by hand of small sheets, as it is printed: the six numbers and the data, or 14.
#[test]
fn worked_sheets() {
    for (plan, sheet, read) in trial_cases() {
        let out = compare(&joined(&plan.encode(), &sheet));
        let expected = read.map_or("no 14 0 0\n".to_string(), |(numbers, _, data)| {
            let numbers = numbers.map(|number| number.to_string()).join(" ");
            let digits: String = data.iter().map(|byte| format!("{byte:02x}")).collect();
            format!("{}\n", format!("ok {numbers} {digits}").trim_end())
        });
        assert_eq!(out, expected);
    }
}

/// Plans of 64 cells, under which `trialread` tries, and of 65, under which it does not: as written, with full bursts
/// in the first rectangle and in the last, with a random burst, with a sheet that no burst mends, with an unused bit
/// where there are any, with a byte more and one less; and damaged plans of these sizes.
#[test]
fn at_64_and_65_cells() {
    let mut rng = Rng::new(75);
    let (mut taken, mut refused) = (0, Vec::new());
    for size in [&AT_THE_MOST[..], &ONE_CELL_MORE, &OF_4X4].concat() {
        let plan = accepted_of(&mut rng, size);
        let (bytes, data) = (plan.encode(), random_data(&plan, &mut rng));
        let sheet = model::write_sheet(&plan, &data);
        let digits: String = data.iter().map(|byte| format!("{byte:02x}")).collect();
        let last = (plan.n1 - plan.b1, plan.n2 - plan.b2);
        let full = [(0, 0), last].map(|(top, left)| full_burst(&plan, top, left));
        for cells in full.into_iter().chain([vec![], random_burst(&plan, &mut rng)]) {
            let out = compare(&joined(&bytes, &turned(&plan, &sheet, &cells)));
            let numbers = model::smallest_rectangle(&cells).mended().map(|n| n.to_string());
            assert_eq!(out.trim_end(), format!("ok {} {digits}", numbers.join(" ")).trim_end());
            taken += 1;
        }
        let lost = hopeless(&plan, &mut rng).expect("not every sheet can be mended");
        let mut spoilt = lost.clone();
        set_unused_of_sheet(&plan, &mut spoilt, &mut rng);
        let longer = joined(&sheet, &[0]);
        for scan in [&lost, &spoilt, &longer, &sheet[1..].to_vec()] {
            refused.push(compare(&joined(&bytes, scan)));
        }
        for _ in 0..4 {
            refused.push(compare(&joined(&damaged(&plan, &mut rng), &sheet)));
        }
    }
    let met = |number: usize| {
        let start = format!("no {number} ");
        refused.iter().filter(|out| out.starts_with(&start)).count()
    };
    println!("{taken} sheets of 64 and 65 cells; refused: {:?}", [11, 13, 14].map(met));
    assert_eq!(taken, 24 * 4);
    assert!(
        met(11) >= 48 && met(13) >= 10 && met(14) >= 24 && (1..=10).map(met).sum::<usize>() >= 60
    );
}

/// The table of the model, which is the stored one, and nothing else. The program leaves its input
/// alone: what is read of a file moves on in it.
#[test]
fn housetable_prints_the_table() {
    let mut input = File::open("Cargo.toml").expect("the tests run in their package");
    let there = input.try_clone().expect("a second handle");
    let ended = program("housetable").stdin(there).output().expect("the program is built");
    assert!(ended.status.success() && ended.stderr.is_empty(), "{ended:?}");
    assert!(ended.stdout == house::printed().into_bytes(), "another table is printed");
    assert!(ended.stdout == house::stored().into_bytes(), "another table is stored");
    assert_eq!(input.stream_position().expect("a place in the file"), 0);
}

/// How housetable ends, within ten seconds, with its output to this end of a pipe or file.
fn housetable_into(output: impl Into<Stdio>) -> ExitStatus {
    let mut child = program("housetable").stdout(output).spawn().expect("the program is built");
    let began = Instant::now();
    loop {
        if let Some(status) = child.try_wait().expect("a child can be asked") {
            return status;
        }
        if began.elapsed() > Duration::from_secs(10) {
            child.kill().expect("a child can be ended");
            child.wait().expect("an end");
            panic!("the program hangs");
        }
        thread::sleep(Duration::from_millis(5));
    }
}

/// A pipe that does not block its writer and has room for so many pages of 4,096 bytes, of the 16 that
/// Linux gives it; and what it holds.
fn nearly_full_pipe(room: usize) -> (PipeReader, PipeWriter, usize) {
    extern "C" {
        fn fcntl(file: i32, command: i32, ...) -> i32;
    }
    const F_SETFL: i32 = 4;
    const O_NONBLOCK: i32 = 0o4000;
    let (mut reader, mut writer) = pipe().expect("a pipe");
    // SAFETY: the call sets flags of an open file and touches no memory.
    assert_eq!(unsafe { fcntl(writer.as_raw_fd(), F_SETFL, O_NONBLOCK) }, 0);
    let mut page = [b'.'; 4096];
    let mut held = 0;
    while writer.write_all(&page).is_ok() {
        held += page.len();
    }
    assert!(held >= room * page.len(), "the pipe takes {held} bytes only");
    for _ in 0..room {
        reader.read_exact(&mut page).expect("the pipe holds it");
        held -= page.len();
    }
    (reader, writer, held)
}

/// A write that fails ends the program. What is printed is a first part of the table: nothing where
/// there is no room, and all of it where there is enough.
#[test]
fn housetable_with_output_that_fails() {
    let full = File::options().write(true).open("/dev/full").expect("Linux has it");
    assert_eq!(housetable_into(full).code(), Some(0));
    let (reader, writer) = pipe().expect("a pipe");
    drop(reader);
    assert_eq!(housetable_into(writer).code(), Some(0));
    for room in [0, 1, 2, 12] {
        let (mut reader, writer, held) = nearly_full_pipe(room);
        assert_eq!(housetable_into(writer).code(), Some(0));
        let mut out = Vec::new();
        reader.read_to_end(&mut out).expect("the pipe ends");
        let (table, printed) = (house::printed(), &out[held..]);
        assert!(table.as_bytes().starts_with(printed), "room for {room} pages");
        let whole = printed.len() == table.len();
        assert_eq!((printed.is_empty(), whole), (room == 0, room == 12), "{room} pages");
    }
}
