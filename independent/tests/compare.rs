//! The comparison: it agrees with itself, and finds and shortens planted faults.

use std::io;
use std::process::Command;

use independent::compare::program::{Feed, Other, Own, Program, Run};
use independent::compare::script::{differing_bytes, poke_of, table_of, Script};
use independent::compare::settings::{name_of, set, JUDGED, NOT_JUDGED};
use independent::compare::shrink::shrink;
use independent::compare::tables::first_wide_line;
use independent::compare::tally::Tally;
use independent::compare::{Comparison, Fault, Finding};
use independent::text::{hex_bytes, push_hex};

/// This program with lines changed before it reads them and answers before they are compared.
struct Faulty {
    line: fn(&[u8]) -> Vec<u8>,
    answer: fn(Vec<u8>, narrow: bool) -> Vec<u8>,
}

struct FaultyRun {
    own: Box<dyn Run>,
    line: fn(&[u8]) -> Vec<u8>,
    answer: fn(Vec<u8>, narrow: bool) -> Vec<u8>,
    narrow: bool,
}

impl Program for Faulty {
    fn start(&self, feed: Feed) -> io::Result<Box<dyn Run>> {
        Ok(Box::new(FaultyRun { own: Own.start(feed)?, line: self.line, answer: self.answer, narrow: false }))
    }
}

impl Run for FaultyRun {
    fn answer(&mut self, line: &[u8]) -> Option<Vec<u8>> {
        if line.starts_with(b"card\t") {
            self.narrow = line == b"card\tnarrow";
        }
        let answer = self.own.answer(&(self.line)(line))?;
        Some((self.answer)(answer, self.narrow))
    }

    fn ends_well(&mut self) -> bool {
        true
    }
}

fn compare(judged: &dyn Program, judge: &dyn Program, rounds: u64, jobs: usize) -> (Tally, Option<Finding>) {
    Comparison { judged, judge, seed: 5, rounds, jobs }.run().expect("programs that start")
}

fn text(lines: &[Vec<u8>]) -> Vec<String> {
    lines.iter().map(|line| String::from_utf8_lossy(line).replace('\t', " ")).collect()
}

/// The tables in a script, tabs shown as blanks.
fn tables(lines: &[Vec<u8>]) -> Vec<String> {
    let table = |line: &Vec<u8>| table_of(line).map(|table| String::from_utf8_lossy(&table).replace('\t', " "));
    lines.iter().filter_map(table).collect()
}

#[test]
fn agrees_with_itself() {
    let (tally, finding) = compare(&Own, &Own, 3, 2);
    assert!(finding.is_none());
    assert!(tally.tables > 300 && tally.events > 3_000);
}

#[test]
fn agrees_with_its_own_binary() {
    let other = Other { command: vec![env!("CARGO_BIN_EXE_console").to_string()] };
    let (tally, finding) = compare(&other, &Own, 2, 1);
    assert!(finding.is_none());
    assert!(tally.tables > 200);
}

#[test]
fn a_program_that_does_not_answer_is_found() {
    let silent = Other { command: vec!["true".to_string()] };
    let finding = compare(&silent, &Own, 1, 1).1.expect("a fault");
    assert_eq!(finding.script.len(), 1);
    assert!(matches!(finding.fault, Fault::Answers { judged: None, judge: Some(_), .. }));
    let missing = Other { command: vec!["/no/such/program".to_string()] };
    assert!((Comparison { judged: &missing, judge: &Own, seed: 1, rounds: 1, jobs: 1 }).run().is_err());
}

#[test]
fn a_program_that_says_too_much_is_found() {
    let console = env!("CARGO_BIN_EXE_console");
    let chatty = Other { command: ["sh", "-c", &format!("{console}; echo more")].map(String::from).to_vec() };
    let finding = compare(&chatty, &Own, 0, 1).1.expect("a fault");
    assert!(finding.script.is_empty());
    assert_eq!(finding.fault, Fault::End);
}

#[test]
fn a_program_behind_a_script_is_given_up() {
    // The script is ended; what it started would answer on, with nobody to read it.
    let command = format!("sed 's/.*/{}/'; :", "x".repeat(400));
    let wrong = Other { command: ["sh", "-c", &command].map(String::from).to_vec() };
    let finding = compare(&wrong, &Own, 2, 1).1.expect("a fault");
    assert_eq!(finding.script.len(), 1);
}

/// A heard frame loses its CLP, and gets a right parity for it.
fn without_clp(line: &[u8]) -> Vec<u8> {
    let fields: Vec<&[u8]> = line.split(|byte| *byte == b'\t').collect();
    let ([b"hear", unit, bytes], true) = (&fields[..], line.len() < 200) else {
        return line.to_vec();
    };
    let Some(mut bytes) = hex_bytes(bytes).filter(|bytes| bytes.len() == 57) else {
        return line.to_vec();
    };
    let clp = bytes[7] & 1;
    bytes[7] ^= clp;
    bytes[56] ^= clp;
    let mut line = [b"hear\t", *unit, b"\t"].concat();
    push_hex(&mut line, &bytes);
    line
}

#[test]
fn a_lost_clp_is_found_and_shortened() {
    let faulty = Faulty { line: without_clp, answer: |answer, _| answer };
    let finding = compare(&faulty, &Own, 4, 1).1.expect("a fault");
    // Memory, store, rows, a table, the frame, and a look at what it left.
    assert!(finding.script.len() <= 6, "{:?}", text(&finding.script));
    let tables = tables(&finding.script);
    assert_eq!(tables.len(), 1);
    assert!(tables[0].lines().count() <= 3, "{tables:?}");
}

#[test]
fn a_wrong_refusal_is_found_and_shortened() {
    let answer = |answer: Vec<u8>, _| match answer.strip_prefix(b"load\trefused\t4") {
        Some(line) => [b"load\trefused\t3", line].concat(),
        None => answer,
    };
    let faulty = Faulty { line: <[u8]>::to_vec, answer };
    let finding = compare(&faulty, &Own, 4, 2).1.expect("a fault");
    // Twice takes a `bus` line, a `unit` line with room for it, and a line that comes twice.
    assert!(finding.script.len() <= 2, "{:?}", text(&finding.script));
    let tables = tables(&finding.script);
    assert!(tables[0].lines().count() <= 4, "{tables:?}");
}

#[test]
fn a_fault_of_long_runs_is_found_and_shortened() {
    // Wraps the frame number one too early.
    let line = |line: &[u8]| match line {
        b"poke\tstate\t806\tFFFF" => b"poke\tstate\t806\t0000".to_vec(),
        _ => line.to_vec(),
    };
    let faulty = Faulty { line, answer: |answer, _| answer };
    let finding = compare(&faulty, &Own, 40, 1).1.expect("a fault");
    assert!(finding.script.len() <= 2, "{:?}", text(&finding.script));
}

/// A poke of the state with its bytes changed, each by its place.
fn poked(line: &[u8], change: impl Fn(usize, u8) -> u8) -> Vec<u8> {
    let Some((first, bytes)) = poke_of(line) else {
        return line.to_vec();
    };
    let bytes: Vec<u8> = bytes.iter().enumerate().map(|(index, byte)| change(first + index, *byte)).collect();
    let mut script = Script::default();
    script.poke(first, &bytes);
    script.lines.remove(0)
}

/// An answer to `show state` with its bytes changed, each by its place.
fn shown(answer: Vec<u8>, change: impl Fn(usize, u8) -> u8) -> Vec<u8> {
    let Some(bytes) = answer.strip_prefix(b"show\tstate\t").and_then(hex_bytes) else {
        return answer;
    };
    let bytes: Vec<u8> = bytes.iter().enumerate().map(|(at, byte)| change(at, *byte)).collect();
    let mut changed = b"show\tstate\t".to_vec();
    push_hex(&mut changed, &bytes);
    changed
}

type ChangeLine = fn(&[u8]) -> Vec<u8>;
type ChangeAnswer = fn(Vec<u8>, narrow: bool) -> Vec<u8>;

#[test]
fn faults_in_bytes_of_the_state_are_found_and_shortened() {
    let same: ChangeAnswer = |answer, _| answer;
    let lines: [(&str, ChangeLine); 13] = [
        ("link above 1 is 1", |line| poked(line, |at, byte| if at / 32 == 1 { byte.min(1) } else { byte })),
        ("mode above 1 is 1", |line| poked(line, |at, byte| if at / 32 == 5 { byte.min(1) } else { byte })),
        ("mark above 1 is 1", |line| poked(line, |at, byte| if at / 32 == 9 { byte.min(1) } else { byte })),
        ("sessions the other way", |line| poked(line, |at, byte| if at < 1_024 { byte } else { byte.reverse_bits() })),
        ("33 units are 32", |line| poked(line, |at, byte| if at == 805 { byte.min(32) } else { byte })),
        ("last 254 is nobody", |line| poked(line, |at, byte| if at == 802 && byte == 254 { 255 } else { byte })),
        ("queue 3 of mode one", |line| poked(line, |at, byte| if at == 736 && byte == 1 { 0 } else { byte })),
        ("a free byte forgotten", |line| poked(line, |at, byte| if at == 1_023 { 0 } else { byte })),
        ("two control cells are one", |line| poked(line, |at, byte| if at / 32 == 26 { byte.min(1) } else { byte })),
        ("two loopback cells are one", |line| poked(line, |at, byte| if at / 32 == 30 { byte.min(1) } else { byte })),
        ("control head 4 is 0", |line| poked(line, |at, byte| if at / 32 == 28 && byte == 4 { 0 } else { byte })),
        ("five control cells are four", |line| poked(line, |at, byte| if at / 32 == 29 { byte.min(4) } else { byte })),
        ("no unit above 255", |line| match line {
            b"show\tunit\t256" => b"show\tunit\t0".to_vec(),
            _ => line.to_vec(),
        }),
    ];
    let answers: [(&str, ChangeAnswer); 4] = [
        ("number of the last place", |answer, _| shown(answer, |at, byte| if at == 31 { 0 } else { byte })),
        ("place 2 not kept", |answer, _| shown(answer, |at, byte| if at < 768 && at % 32 == 2 { 0 } else { byte })),
        ("low byte of the frame", |answer, _| shown(answer, |at, byte| if at == 807 { byte & 127 } else { byte })),
        ("a word for a number", |answer, _| {
            let text = String::from_utf8_lossy(&answer).replace("\tmode\t255\t", "\tmode\tfour\t");
            text.into_bytes()
        }),
    ];
    let same_line: ChangeLine = <[u8]>::to_vec;
    let faults = lines.map(|(name, line)| (name, line, same)).into_iter();
    for (name, line, answer) in faults.chain(answers.map(|(name, answer)| (name, same_line, answer))) {
        let finding = compare(&Faulty { line, answer }, &Own, 0, 1).1.unwrap_or_else(|| panic!("{name} is not found"));
        // Store, rows, a table, three pokes, and what shows it.
        assert!(finding.script.len() <= 7, "{name}: {:?}", text(&finding.script));
    }
}

#[test]
fn a_long_poke_is_cut_to_the_bytes_needed() {
    let mut script = Script::default();
    script.say("card wide");
    script.poke(0, &[7; 2_048]);
    script.say("frame 57");
    // Needs bytes 3, 4 and 2,000 of the poke, and the frame after it.
    let shows = |lines: &[Vec<u8>]| {
        let mut bytes = [0; 2_048];
        for (at, poked) in lines.iter().filter_map(|line| poke_of(line)) {
            bytes[at..at + poked.len()].copy_from_slice(&poked);
        }
        [3, 4, 2_000].iter().all(|at| bytes[*at] == 7) && lines.last().is_some_and(|line| line == b"frame\t57")
    };
    let shorter = shrink(script.lines, &mut |lines| shows(lines));
    assert_eq!(text(&shorter), ["poke state 3 0707", "poke state 2000 07", "frame 57"]);
    // A poke without bytes stays as it is if it is needed.
    let empty = vec![b"poke\tstate\t2049\t".to_vec()];
    assert_eq!(shrink(empty.clone(), &mut |lines| lines == empty), empty);
}

#[test]
fn pokes_by_name() {
    let pokes = |setting: &str| {
        let mut script = Script::default();
        set(&mut script, setting);
        text(&script.lines)
    };
    assert_eq!(pokes("number 31 255"), ["poke state 31 FF"]);
    assert_eq!(pokes("top 1 4095"), ["poke state 65 0F", "poke state 97 FF"]);
    let place = ["poke state 322 01", "poke state 354 02", "poke state 386 03", "poke state 418 04"];
    assert_eq!(pokes("place 2 16909060"), place);
    assert_eq!(pokes("queuehead 6 48"), ["poke state 577 30"]);
    assert_eq!(pokes("queuecount 127 1"), ["poke state 767 01"]);
    assert_eq!(pokes("asks 9 3"), ["poke state 777 03"]);
    assert_eq!(pokes("last 2 9"), ["poke state 802 09"]);
    assert_eq!(pokes("granted 0 4"), ["poke state 803 04"]);
    assert_eq!(pokes("bus 0 32"), ["poke state 804 20"]);
    assert_eq!(pokes("count 0 33"), ["poke state 805 21"]);
    assert_eq!(pokes("frame 0 65534"), ["poke state 806 FFFE"]);
    assert_eq!(pokes("byte 2047 1"), ["poke state 2047 01"]);
    assert_eq!(pokes("controlin 1 1"), ["poke state 833 01"]);
    assert_eq!(pokes("loopbackin 31 2"), ["poke state 895 02"]);
    assert_eq!(pokes("controlhead 0 3"), ["poke state 896 03"]);
    assert_eq!(pokes("controlcount 2 4"), ["poke state 930 04"]);
    assert_eq!(pokes("loopbackout 3 1"), ["poke state 963 01"]);
}

#[test]
fn every_byte_has_a_name() {
    let names: Vec<&str> = (0..2_048).map(name_of).collect();
    assert!(names.iter().all(|name| JUDGED.contains(name) != NOT_JUDGED.contains(name)));
    assert!(JUDGED.iter().chain(&NOT_JUDGED).all(|name| names.contains(name)));
    let shelf = ["last 1", "last 2", "last 3", "granted", "bus", "count", "frame high", "frame low", "free"];
    assert_eq!(names[800..809], shelf);
    assert_eq!((names[767], names[768], names[799]), ("queuecount 3", "asks", "asks"));
    assert_eq!((names[831], names[832], names[863], names[864]), ("free", "controlin", "controlin", "loopbackin"));
    assert_eq!(
        (names[896], names[928], names[960], names[991]),
        ("controlhead", "controlcount", "loopbackout", "loopbackout")
    );
    assert_eq!(names[992], "free");
    assert_eq!((names[1_023], names[1_024], names[2_047], name_of(2_048)), ("free", "sessions", "sessions", "nothing"));
}

/// What the tally says after these lines with their answers, blanks for tabs.
fn tallied(pairs: &[(&str, &str)]) -> Tally {
    let mut tally = Tally::default();
    for (line, answer) in pairs {
        tally.add(line.replace(' ', "\t").as_bytes(), answer.replace(' ', "\t").as_bytes());
    }
    tally
}

#[test]
fn the_tally_counts_hand_ins_collects_and_frames_of_kind_3() {
    let tally = tallied(&[
        ("hand 0 C008", "hand 0 ok"),
        ("hand 0 00", "hand refused 10"),
        ("hand 0 C008", "hand refused 11"),
        ("collect 3 56", "collect 3 cell C008"),
        ("collect 3 55", "collect refused 10 EE"),
        // Heard: control, loopback in small digits, another class; not heard: data, and one that is refused.
        ("hear 3 C03D", "hear 3 queued"),
        ("hear 3 d032", "hear 3 damaged"),
        ("hear 3 FFFF", "hear 3 damaged"),
        ("hear 3 2038", "hear 3 queued"),
        ("hear 7 C03D", "hear refused 9"),
        // Sent: control and loopback; not sent: data, idle, refused.
        ("frame 57", "frame 1 0 - 1 C03D"),
        ("frame 57", "frame 2 0 - 0 D032"),
        ("frame 57", "frame 3 0 - 1 2038"),
        ("frame 57", "frame 4 - 0 0 EEEE"),
        ("frame 1", "frame refused 10 EE"),
    ]);
    assert_eq!((tally.events, tally.processors, tally.heard), (10, 5, 5));
    let report = tally.report();
    for kind in [
        "collect cell: 1",
        "collect refused 10: 1",
        "frame control queued: 1",
        "frame loopback not queued: 1",
        "hand ok: 1",
        "hand refused 10: 1",
        "hand refused 11: 1",
        "hear control queued: 1",
        "hear kind 3 of class 3 damaged: 1",
        "hear loopback damaged: 1",
        "hear queued: 2",
    ] {
        assert!(report.lines().any(|line| line == kind), "{kind} in {report}");
    }
    let mut merged = tallied(&[("collect 3 56", "collect 3 empty EE"), ("hear 3 C03D", "hear 3 full")]);
    merged.merge(tally);
    assert_eq!((merged.events, merged.processors, merged.heard), (11, 6, 6));
}

#[test]
fn faults_of_control_and_loopback_cells_are_found_and_shortened() {
    let answers: [(&str, ChangeAnswer); 4] = [
        ("never busy", |answer, _| match &answer[..] {
            b"hand\trefused\t11" => b"hand\t0\tok".to_vec(),
            _ => answer,
        }),
        ("full is queued", |answer, _| match &answer[..] {
            b"hear\t3\tfull" => b"hear\t3\tqueued".to_vec(),
            _ => answer,
        }),
        ("a move is a copy", |answer, _| {
            let text = String::from_utf8_lossy(&answer).replace("\t-\t3\t0\tEE", "\t-\t3\t1\tEE");
            text.into_bytes()
        }),
        ("routing header kept", |answer, _| {
            let text = String::from_utf8_lossy(&answer).replace("\tcell\tC008005C", "\tcell\tD032005C");
            text.into_bytes()
        }),
    ];
    for (name, answer) in answers {
        let faulty = Faulty { line: <[u8]>::to_vec, answer };
        let finding = compare(&faulty, &Own, 0, 1).1.unwrap_or_else(|| panic!("{name} is not found"));
        // Memory, store, rows and a table; a loopback test takes a hand-in, four frames and a collect.
        assert!(finding.script.len() <= 10, "{name}: {:?}", text(&finding.script));
    }
}

#[test]
fn a_marked_maintenance_cell_is_found_and_shortened() {
    // PT 101 leaves as 111, at an outlet with or without congestion.
    let answer = |answer: Vec<u8>, _| match answer.strip_prefix(b"take\t3\tcell\t0010001A") {
        Some(rest) => [b"take\t3\tcell\t0010001E", rest].concat(),
        None => answer,
    };
    let finding = compare(&Faulty { line: <[u8]>::to_vec, answer }, &Own, 0, 1).1.expect("a fault");
    // Memory, store, rows, a table, the frame and the take.
    assert!(finding.script.len() <= 6, "{:?}", text(&finding.script));
}

#[test]
fn every_pt_leaves_congested_and_idle_outlets_in_both_modes() {
    // The fixed scripts alone show it.
    let missing = compare(&Own, &Own, 0, 1).0.missing();
    assert!(!missing.iter().any(|kind| kind.starts_with("take PT")), "{missing:?}");
    let nothing = Tally::default().missing();
    assert_eq!(nothing.iter().filter(|kind| kind.starts_with("take PT")).count(), 32);
}

#[test]
fn differing_bytes_of_two_states() {
    let differ = |first: &str, second: &str| {
        differing_bytes(first.replace(' ', "\t").as_bytes(), second.replace(' ', "\t").as_bytes())
    };
    assert_eq!(differ("show state 00AA01", "show state 00AB02"), [(1, [0xAA, 0xAB]), (2, [1, 2])]);
    assert_eq!(differ("show state 00", "show state 00"), []);
    assert_eq!(differ("show unit 3", "show state 00"), []);
}

#[test]
fn cards_that_differ_are_found_though_both_programs_agree() {
    let answer = |answer: Vec<u8>, narrow: bool| match &answer[..] {
        b"hear\t3\tqueued" if narrow => b"hear\t3\tother".to_vec(),
        _ => answer,
    };
    let faulty = Faulty { line: <[u8]>::to_vec, answer };
    let finding = compare(&faulty, &faulty, 60, 2).1.expect("a fault");
    let Fault::Cards { narrow, .. } = finding.fault else {
        panic!("{:?}", finding.fault);
    };
    assert_eq!(narrow, b"hear\t3\tother");
    // The body of five lines on either card, and five before it.
    assert!(finding.script.len() <= 20, "{:?}", text(&finding.script));
}

#[test]
fn a_narrow_card_that_takes_a_wide_line_is_found() {
    let line = |line: &[u8]| match line {
        b"card\tnarrow" => b"card\twide".to_vec(),
        _ => line.to_vec(),
    };
    let faulty = Faulty { line, answer: |answer, _| answer };
    let finding = compare(&faulty, &faulty, 20, 2).1.expect("a fault");
    assert!(matches!(finding.fault, Fault::Cards { .. }), "{:?}", finding.fault);
    // Not more than four lines on either card, and five before them.
    assert!(finding.script.len() <= 18, "{:?}", text(&finding.script));
}

#[test]
fn shrinks_to_the_lines_needed() {
    let line = |number: usize| format!("frame\t{number}").into_bytes();
    let lines: Vec<Vec<u8>> = (0..1_000).map(line).collect();
    let needed = [line(3), line(500), line(501), line(999)];
    let shorter = shrink(lines, &mut |lines| needed.iter().all(|line| lines.contains(line)));
    assert_eq!(shorter, needed);
    assert_eq!(shrink(vec![line(1)], &mut |_| true), Vec::<Vec<u8>>::new());
}

#[test]
fn first_wide_lines() {
    let first = |table: &str| first_wide_line(table.replace(' ', "\t").as_bytes());
    assert_eq!(first("bus 32\n"), Some(1));
    assert_eq!(first("bus 16\nunit 1 uni 1 1 one 0 0 1 0\nvp 1 0 u1 3 255\nvc 1 1 256 b 3 255 256\n"), None);
    assert_eq!(first("bus 16\nunit 1 nni 1 1 one 0 0 1 0\n"), Some(2));
    assert_eq!(first("bus 16\nvp 1 0 u1 3 256\n"), Some(2));
    assert_eq!(first("bus 16\ndrop 1 300\nvc 1 1 256 b 3 256 256\n"), Some(3));
}

#[test]
fn the_binary() {
    let run = |arguments: &[&str]| {
        let output = Command::new(env!("CARGO_BIN_EXE_compare")).args(arguments).output().expect("it starts");
        (output.status.code(), String::from_utf8(output.stdout).expect("text"))
    };
    // A full run shows every kind of answer and every byte of the state, or it does not end well.
    let (code, said) = run(&["--self"]);
    assert_eq!(code, Some(0), "{said}");
    let (code, said) = run(&["--self", "--seed", "9", "--rounds", "1"]);
    let last = said.lines().last().expect("a last line");
    assert!(last.starts_with("compared: ") && last.ends_with(", 0 disagreements"), "{last}");
    assert_eq!(code, Some(0));
    let (code, said) = run(&["--rounds", "1", "true"]);
    assert_eq!(code, Some(1));
    assert!(said.contains("proved:  (no answer)\n"));
    assert!(said.lines().last().is_some_and(|last| last.ends_with(", 1 disagreements")));
    assert_eq!(run(&[]).0, Some(2));
    assert_eq!(run(&["--seed"]).0, Some(2));
}

#[test]
fn a_program_that_breaks_down_is_found_and_shortened() {
    // Reads no more after the first `take` of unit 3.
    let console = env!("CARGO_BIN_EXE_console");
    let command = format!("sed '/^take.3.53$/q' | {console}");
    let broken = Other { command: ["sh", "-c", &command].map(String::from).to_vec() };
    let finding = compare(&broken, &Own, 0, 1).1.expect("a fault");
    assert!(matches!(finding.fault, Fault::Answers { judged: None, .. }));
    assert_eq!(finding.script.len(), 2, "{:?}", text(&finding.script));
    assert_eq!(finding.script[0], b"take\t3\t53");
}
