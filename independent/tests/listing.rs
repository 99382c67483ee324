//! The listing of document 01 through the code of the binary, and the binary itself.

mod common;

use std::fs;
use std::io::Write;
use std::path::PathBuf;
use std::process::{Command, Output, Stdio};

use common::{tabs, LISTING_TABLE};
use independent::bench::run;

const EVENTS: &str = "\
arrive 0 005002102B A5
arrive 0 105002104F A5
frame
frame
take 3
take 3
count 3
";

const PRINTED: &str = "\
table ok 328
arrive 0 queued
arrive 0 hec
frame 0 - 0 0
frame 1 0 - 1
take 3 009002805F A5
take 3 empty
count 3 0 0 0 0 0 0 0 0 1 0 0 0 1
";

/// Runs the bench code on bytes.
fn bench(table: &[u8], events: &[u8]) -> String {
    let mut out = Vec::new();
    run(table, &mut &events[..], &mut out).expect("writing to memory");
    String::from_utf8(out).expect("ASCII")
}

/// Answers to events on the listing's table, without the `table` line.
fn answers(events: &[u8]) -> Vec<String> {
    let printed = bench(tabs(LISTING_TABLE).as_bytes(), events);
    printed.lines().skip(1).map(str::to_string).collect()
}

/// Runs the binary in a folder of its own; no table file for None.
fn binary(name: &str, table: Option<&[u8]>, events: &[u8]) -> Output {
    let folder = PathBuf::from(env!("CARGO_TARGET_TMPDIR")).join(name);
    let _ = fs::remove_dir_all(&folder);
    fs::create_dir_all(&folder).expect("a folder");
    if let Some(table) = table {
        fs::write(folder.join("table.txt"), table).expect("a table file");
    }
    let mut child = Command::new(env!("CARGO_BIN_EXE_bench"))
        .current_dir(&folder)
        .stdin(Stdio::piped())
        .stdout(Stdio::piped())
        .stderr(Stdio::piped())
        .spawn()
        .expect("the bench starts");
    // A refused table ends the program before it reads: the pipe may be shut.
    let _ = child.stdin.take().expect("a pipe").write_all(events);
    child.wait_with_output().expect("the bench ends")
}

#[test]
fn listing_byte_for_byte() {
    let printed = bench(tabs(LISTING_TABLE).as_bytes(), tabs(EVENTS).as_bytes());
    assert_eq!(printed, tabs(PRINTED));
}

#[test]
fn listing_through_the_binary() {
    let output = binary("listing", Some(tabs(LISTING_TABLE).as_bytes()), tabs(EVENTS).as_bytes());
    assert_eq!(output.stdout, tabs(PRINTED).as_bytes());
    assert!(output.stderr.is_empty());
    assert!(output.status.success());
}

#[test]
fn missing_table_is_the_empty_text() {
    let output = binary("missing", None, b"frame\n");
    assert_eq!(output.stdout, b"table\trefused\t2\t1\n");
    assert!(!output.stderr.is_empty());
}

#[test]
fn unreadable_table_is_the_empty_text() {
    let folder = PathBuf::from(env!("CARGO_TARGET_TMPDIR")).join("unreadable");
    fs::create_dir_all(folder.join("table.txt")).expect("a folder as table");
    let output = Command::new(env!("CARGO_BIN_EXE_bench"))
        .current_dir(&folder)
        .stdin(Stdio::null())
        .output()
        .expect("the bench runs");
    assert_eq!(output.stdout, b"table\trefused\t2\t1\n");
    assert!(!output.stderr.is_empty());
}

#[test]
fn long_table_file() {
    // 8,192 bytes are read (and have no form), one more is Long.
    let read = binary("read", Some(&[b'x'; 8_192]), b"");
    assert_eq!(read.stdout, b"table\trefused\t2\t1\n");
    let long = binary("long", Some(&[b'x'; 8_193]), b"");
    assert_eq!(long.stdout, b"table\trefused\t1\t0\n");
    let longer = binary("longer", Some(&vec![b'x'; 100_000]), b"");
    assert_eq!(longer.stdout, b"table\trefused\t1\t0\n");
}

#[test]
fn refused_table_ends_the_program() {
    assert_eq!(bench(b"bus\t16\nbus\t16\n", b"frame\nframe\n"), "table\trefused\t3\t2\n");
    assert_eq!(bench(b"", b"frame\n"), "table\trefused\t2\t1\n");
}

#[test]
fn store_is_for_four_units() {
    let unit = |number: u8| format!("unit\t{number}\tuni\t0\t1\tone\t0\t0\t1\t0\n");
    let four: String = (0..4).map(unit).collect();
    let five: String = (0..5).map(unit).collect();
    assert_eq!(bench(format!("bus\t16\n{four}").as_bytes(), b""), "table\tok\t32\n");
    assert_eq!(bench(format!("bus\t16\n{five}").as_bytes(), b""), "table\trefused\t7\t0\n");
}

#[test]
fn memory_is_16384_bytes() {
    let table = |top: u16| format!("bus\t16\nunit\t0\tnni\t{top}\t1\tone\t0\t0\t1\t0\n");
    assert_eq!(bench(table(2_047).as_bytes(), b""), "table\tok\t16384\n");
    assert_eq!(bench(table(2_048).as_bytes(), b""), "table\trefused\t6\t2\n");
}

#[test]
fn table_of_the_bus_alone_runs() {
    let printed = bench(b"bus\t32\n", b"frame\ntake\t0\narrive\t0\t0000000055\t00\ncount\t0\n");
    assert_eq!(printed, "table\tok\t0\nframe\t0\t-\t-\t0\ntake\trefused\t9\narrive\trefused\t9\ncount\trefused\t9\n");
}

#[test]
fn undeclared_units_are_refused_however_large() {
    for unit in ["1", "31", "32", "4294967296", "18446744073709551616"] {
        assert_eq!(answers(format!("take\t{unit}\n").as_bytes()), ["take\trefused\t9"]);
        assert_eq!(answers(format!("count\t{unit}\n").as_bytes()), ["count\trefused\t9"]);
        let arrive = format!("arrive\t{unit}\t0000000055\t00\n");
        assert_eq!(answers(arrive.as_bytes()), ["arrive\trefused\t9"]);
    }
    let huge = "3".repeat(1_000_000);
    assert_eq!(answers(format!("take\t{huge}\n").as_bytes()), ["take\trefused\t9"]);
    assert_eq!(answers(format!("take\t0{huge}\n").as_bytes()), ["bad"]);
    assert_eq!(answers(format!("take\t{huge}x\n").as_bytes()), ["bad"]);
    let arrive = format!("arrive\t{huge}\t0000000055\t00\n");
    assert_eq!(answers(arrive.as_bytes()), ["arrive\trefused\t9"]);
    let arrive = format!("arrive\t{huge}\t0000000055\t000\n");
    assert_eq!(answers(arrive.as_bytes()), ["bad"]);
}

#[rustfmt::skip]
const NO_EVENTS: &[&str] = &[
    "", " ", "\t", "frames", "Frame", "FRAME", "frame\t", "frame\t0", " frame", "frame ", "frame\r", "take",
    "take\t", "take\t03", "take\t+3", "take\t-1", "take\t3\t", "take\t\t3", "take 3", "take\tx", "count",
    "count\t00", "count\t3\t3", "count\t3.0", "hear\t3", "table", "bad", "bus\t16", "arrive", "arrive\t0",
    "arrive\t0\t005002102B", "arrive\t0\t005002102B\t", "arrive\t0\t005002102B\tA",
    "arrive\t0\t005002102B\tA55", "arrive\t0\t005002102\tA5", "arrive\t0\t005002102BB\tA5",
    "arrive\t0\t005002102G\tA5", "arrive\t0\t005002102B\tG5", "arrive\t0\t005002102B\tA5\t",
    "arrive\t00\t005002102B\tA5", "arrive\t\t005002102B\tA5", "arrive\t0\t0x5002102B\tA5",
    "arrive\t0\t+05002102B\tA5", "arrive\t0\t\tA5",
];

#[test]
fn lines_that_are_no_event() {
    for line in NO_EVENTS {
        assert_eq!(answers(format!("{line}\n").as_bytes()), ["bad"], "{line:?}");
    }
}

#[test]
fn hex_in_either_case_is_read_and_capitals_written() {
    let events = "arrive\t0\t005002102b\tfE\nframe\nframe\ntake\t3\n";
    let expected = ["arrive\t0\tqueued", "frame\t0\t-\t0\t0", "frame\t1\t0\t-\t1", "take\t3\t009002805F\tFE"];
    assert_eq!(answers(events.as_bytes()), expected);
}

#[test]
fn last_line_without_newline_is_read() {
    assert_eq!(answers(b"frame\nframe"), ["frame\t0\t-\t-\t0", "frame\t1\t-\t-\t0"]);
    assert_eq!(answers(b"frame\nx"), ["frame\t0\t-\t-\t0", "bad"]);
    assert_eq!(answers(b"frame\n\n"), ["frame\t0\t-\t-\t0", "bad"]);
    assert_eq!(answers(b""), [] as [&str; 0]);
}

#[test]
fn long_lines_and_any_bytes_are_bad_once() {
    let mut events = vec![b'x'; 3_000_000];
    events.extend_from_slice(b"\nframe\n\0\xFF\x80\n");
    events.extend_from_slice(b"frame");
    events.extend_from_slice(&[b' '; 100_000]);
    events.extend_from_slice(b"\nframe\nframe");
    events.extend_from_slice(&[0xFF; 100_000]);
    let expected = ["bad", "frame\t0\t-\t-\t0", "bad", "bad", "frame\t1\t-\t-\t0", "bad"];
    assert_eq!(answers(&events), expected);
}

#[test]
fn bad_and_refused_lines_change_nothing() {
    let plain = answers(tabs(EVENTS).as_bytes());
    let disturbed = tabs(EVENTS).replace('\n', "\nnonsense\ntake\t9\n");
    let kept: Vec<String> =
        answers(disturbed.as_bytes()).into_iter().filter(|line| line != "bad" && line != "take\trefused\t9").collect();
    assert_eq!(kept, plain);
}
