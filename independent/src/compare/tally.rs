//! What occurred in a comparison, so that a run that shows little is known as such.

use std::collections::BTreeMap;

use super::leaving;
use super::script::poke_of;
use super::settings::{name_of, JUDGED, NOT_JUDGED};

const COUNTERS: [&str; 13] = [
    "arrived",
    "hec",
    "ignored",
    "misrouted",
    "inletfull",
    "sent",
    "unheard",
    "damaged",
    "queued",
    "full",
    "clp",
    "wide",
    "taken",
];

/// Kinds of answer that a full run must show, but for the counters.
const WANTED: &[&str] = &[
    "arrive hec",
    "arrive ignored",
    "arrive misrouted",
    "arrive inletfull",
    "arrive queued",
    "arrive refused 8",
    "arrive refused 9",
    "arrive refused 10",
    "bad",
    "card ok",
    "collect cell",
    "collect empty",
    "collect refused 8",
    "collect refused 9",
    "collect refused 10",
    "count read",
    "count refused 8",
    "count refused 9",
    "frame control queued",
    "frame control not queued",
    "frame idle",
    "frame kind 3 of class 2 not queued",
    "frame kind 3 of class 3 not queued",
    "frame loopback queued",
    "frame loopback not queued",
    "frame sent",
    "frame granting",
    "frame to many",
    "frame 65535",
    "frame refused 8",
    "frame refused 10",
    "hand ok",
    "hand refused 8",
    "hand refused 9",
    "hand refused 10",
    "hand refused 11",
    "hear control damaged",
    "hear control full",
    "hear control other",
    "hear control queued",
    "hear damaged",
    "hear kind 3 of class 2 damaged",
    "hear kind 3 of class 3 damaged",
    "hear loopback damaged",
    "hear loopback full",
    "hear loopback other",
    "hear loopback queued",
    "hear other",
    "hear wide",
    "hear full",
    "hear clp",
    "hear queued",
    "hear refused 8",
    "hear refused 9",
    "hear refused 10",
    "lend ok",
    "load ok",
    "load refused 1",
    "load refused 2",
    "load refused 3",
    "load refused 4",
    "load refused 5",
    "load refused 6",
    "load refused 7",
    "poke ok",
    "show memory",
    "show rows",
    "show state",
    "show store",
    "show unit",
    "show unit refused 9",
    "take cell",
    "take empty",
    "take refused 8",
    "take refused 9",
    "take refused 10",
    "twin agreeing",
    "twin too wide",
];

#[derive(Default)]
pub struct Tally {
    kinds: BTreeMap<String, u64>,
    pub lines: u64,
    pub tables: u64,
    /// But for hand-ins and collects.
    pub events: u64,
    /// Hand-ins and collects, refused ones too.
    pub processors: u64,
    /// Frames of kind 3 that were sent, or handed in by `hear` and not refused.
    pub heard: u64,
    /// Whether the counters have counted since a good load and nothing else.
    counting: bool,
    /// Names of the bytes that each poke since the last event wrote.
    poked: Vec<Option<&'static str>>,
}

impl Tally {
    /// Takes an answer in that both programs gave to a line.
    pub fn add(&mut self, line: &[u8], answer: &[u8]) {
        self.lines += 1;
        let answer = String::from_utf8_lossy(answer);
        let fields: Vec<&str> = answer.split('\t').collect();
        let word = fields[0];
        self.tables += u64::from(word == "load");
        let is_event = ["arrive", "hear", "frame", "take", "count"].contains(&word);
        let is_processors = ["hand", "collect"].contains(&word);
        self.events += u64::from(is_event);
        self.processors += u64::from(is_processors);
        if is_event || is_processors {
            self.add_poked(fields[1..].starts_with(&["refused", "8"]));
        } else if word == "poke" {
            self.poked.push(poked_name(line));
        }
        match fields[..] {
            ["show", "unit", "refused", _] => self.bump("show unit refused 9"),
            [word, "refused", number, ..] => self.bump(&format!("{word} refused {number}")),
            ["frame", number, sender, granted, copies, bytes] => {
                self.add_frame(number, sender, granted, copies);
                if sender != "-" {
                    self.add_kind_3("frame", bytes, if copies == "0" { "not queued" } else { "queued" });
                }
            }
            ["count", _, ref counters @ ..] => self.add_counters(counters),
            ["hear", _, fate] => {
                self.bump(&format!("hear {fate}"));
                let bytes = line.rsplit(|byte| *byte == b'\t').next().unwrap_or_default();
                self.add_kind_3("hear", &String::from_utf8_lossy(bytes), fate);
            }
            ["arrive" | "take" | "hand" | "collect", _, fate, ..] => self.bump(&format!("{word} {fate}")),
            ["bad"] => self.bump("bad"),
            [_, kind, ..] => self.bump(&format!("{word} {kind}")),
            _ => self.bump("something else"),
        }
        if word == "load" {
            self.counting = fields[1] == "ok";
        } else if line.starts_with(b"lend\trows") {
            self.counting = false;
        }
    }

    pub fn bump(&mut self, kind: &str) {
        self.bump_by(kind, 1);
    }

    fn bump_by(&mut self, kind: &str, more: u64) {
        match self.kinds.get_mut(kind) {
            Some(count) => *count += more,
            None => {
                self.kinds.insert(kind.to_string(), more);
            }
        }
    }

    fn add_frame(&mut self, number: &str, sender: &str, granted: &str, copies: &str) {
        self.bump(if sender == "-" { "frame idle" } else { "frame sent" });
        if granted != "-" {
            self.bump("frame granting");
        }
        if !["0", "1"].contains(&copies) {
            self.bump("frame to many");
        }
        if number == "65535" {
            self.bump("frame 65535");
        }
    }

    /// A heard frame of kind 3, by its class and what became of it; its bytes are in hex.
    fn add_kind_3(&mut self, word: &str, bytes: &str, fate: &str) {
        let name = match bytes.chars().next().map(|digit| digit.to_ascii_uppercase()) {
            Some('C') => "control",
            Some('D') => "loopback",
            Some('E') => "kind 3 of class 2",
            Some('F') => "kind 3 of class 3",
            _ => return,
        };
        self.heard += 1;
        self.bump(&format!("{word} {name} {fate}"));
    }

    /// The first event after a single poke shows whether State bears it.
    fn add_poked(&mut self, refused: bool) {
        if let [Some(name)] = self.poked[..] {
            self.bump(&format!("poked {name} {}", if refused { "refused" } else { "borne" }));
        }
        self.poked.clear();
    }

    /// Counters above 0 show what no answer names, such as `unheard`.
    fn add_counters(&mut self, counters: &[&str]) {
        self.bump("count read");
        for (name, counter) in COUNTERS.iter().zip(counters) {
            if self.counting && *counter != "0" {
                self.bump(&format!("counter {name}"));
            }
        }
    }

    pub fn merge(&mut self, other: Tally) {
        self.lines += other.lines;
        self.tables += other.tables;
        self.events += other.events;
        self.processors += other.processors;
        self.heard += other.heard;
        other.kinds.iter().for_each(|(kind, count)| self.bump_by(kind, *count));
    }

    /// Kinds wanted that never occurred.
    pub fn missing(&self) -> Vec<String> {
        let wanted = WANTED.iter().map(|kind| kind.to_string());
        let counters = COUNTERS.iter().map(|name| format!("counter {name}"));
        let refused = JUDGED.iter().map(|name| format!("poked {name} refused"));
        let borne = JUDGED.iter().chain(&NOT_JUDGED).map(|name| format!("poked {name} borne"));
        let wanted = wanted.chain(counters).chain(refused).chain(borne).chain(leaving::kinds());
        wanted.filter(|kind| !self.kinds.contains_key(kind)).collect()
    }

    /// Every kind with how often it occurred, one a line.
    pub fn report(&self) -> String {
        self.kinds.iter().map(|(kind, count)| format!("{kind}: {}\n", grouped(*count))).collect()
    }
}

/// The name of all bytes that a `poke` of the state writes; None if they have several.
fn poked_name(line: &[u8]) -> Option<&'static str> {
    let (at, bytes) = poke_of(line)?;
    let name = name_of(at);
    (0..bytes.len()).all(|index| name_of(at + index) == name).then_some(name)
}

/// A number with commas between thousands.
pub fn grouped(number: u64) -> String {
    let digits = number.to_string();
    let mut text = String::new();
    for (index, digit) in digits.chars().enumerate() {
        if index > 0 && (digits.len() - index).is_multiple_of(3) {
            text.push(',');
        }
        text.push(digit);
    }
    text
}
