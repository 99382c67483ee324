//! What was played, so that a run that shows little is known as such.

use crate::header;
use crate::library::{Row, COUNTERS};
use std::collections::BTreeMap;

/// A call on which both sides agreed.
pub struct Call<'a> {
    pub word: &'static str,
    pub answer: u64,
    /// Of a frame that was sent or heard.
    pub bytes: &'a [u8],
    pub wide: bool,
    pub bus: u8,
}

#[rustfmt::skip]
const ARRIVALS: [(u64, &str); 5] = [
    (header::ARRIVAL_HEC, "hec"), (header::ARRIVAL_IGNORED, "ignored"), (header::ARRIVAL_MISROUTED, "misrouted"),
    (header::ARRIVAL_INLETFULL, "inletfull"), (header::ARRIVAL_QUEUED, "queued"),
];

#[rustfmt::skip]
const HEARINGS: [(u64, &str); 6] = [
    (header::HEARING_DAMAGED, "damaged"), (header::HEARING_OTHER, "other"), (header::HEARING_WIDE, "wide"),
    (header::HEARING_FULL, "full"), (header::HEARING_CLP, "clp"), (header::HEARING_QUEUED, "queued"),
];

#[rustfmt::skip]
const NAMES: [&str; COUNTERS] = [
    "arrived", "hec", "ignored", "misrouted", "inletfull", "sent", "unheard", "damaged", "queued", "full", "clp",
    "wide", "taken",
];

/// What each card must have shown, by the function; what one card alone must stands in `missing`.
#[rustfmt::skip]
const WANTED: [(&str, &[&str]); 9] = [
    ("load", &["ok", "refused 2", "refused 3", "refused 4", "refused 6", "refused 7"]),
    ("arrive", &["hec", "ignored", "misrouted", "inletfull", "queued", "refused 8", "refused 9", "refused 10"]),
    ("frame", &["idle", "sent", "granting", "to many", "65535", "control queued", "control not queued",
        "loopback queued", "loopback not queued", "kind 3 of class 2 not queued", "kind 3 of class 3 not queued",
        "refused 8", "refused 10"]),
    ("hear", &["damaged", "other", "wide", "full", "clp", "queued", "control damaged", "control other", "control full",
        "control queued", "loopback damaged", "loopback other", "loopback full", "loopback queued",
        "kind 3 of class 2 damaged", "kind 3 of class 3 damaged", "refused 8", "refused 9", "refused 10"]),
    ("take", &["cell", "empty", "refused 8", "refused 9", "refused 10"]),
    ("hand", &["ok", "refused 8", "refused 9", "refused 10", "refused 11"]),
    ("collect", &["cell", "empty", "refused 8", "refused 9", "refused 10"]),
    ("count", &["read", "refused 8", "refused 9"]),
    ("counter", &NAMES),
];

#[derive(Default)]
pub struct Tally {
    kinds: BTreeMap<String, u64>,
    /// Tables, refused ones too.
    pub tables: u64,
    /// Calls of the other seven functions, refused ones too.
    pub events: u64,
}

impl Tally {
    pub fn add(&mut self, call: &Call) {
        let Call { word, answer, wide, .. } = *call;
        match word {
            "load" => self.tables += 1,
            _ => self.events += 1,
        }
        let second = answer >> 8 & 255;
        let kind = match answer & 255 {
            header::LOADED => return self.add_loaded(call),
            header::UNLOADED | header::REFUSED => format!("refused {second}"),
            header::ARRIVED => named(&ARRIVALS, second),
            header::FRAMED => return self.add_frame(call),
            header::HEARD => return self.add_heard(call, &named(&HEARINGS, second)),
            header::TAKEN => "cell".to_string(),
            header::EMPTY => "empty".to_string(),
            header::HANDED => "ok".to_string(),
            header::COUNTED => "read".to_string(),
            _ => "something else".to_string(),
        };
        self.bump(wide, &format!("{word} {kind}"));
    }

    fn add_loaded(&mut self, call: &Call) {
        self.bump(call.wide, "load ok");
        self.bump(call.wide, &format!("load ok, bus {}", call.bus));
    }

    fn add_frame(&mut self, call: &Call) {
        let Call { answer, wide, bytes, .. } = *call;
        let (copies, sender, granted) = (answer >> 8 & 255, answer >> 16 & 255, answer >> 24 & 255);
        self.bump(wide, if sender == header::NOBODY { "frame idle" } else { "frame sent" });
        if granted != header::NOBODY {
            self.bump(wide, "frame granting");
        }
        if copies > 1 {
            self.bump(wide, "frame to many");
        }
        if answer >> 32 == 65_535 {
            self.bump(wide, "frame 65535");
        }
        if let (true, Some(kind)) = (sender != header::NOBODY, kind_3(bytes)) {
            self.bump(wide, &format!("frame {kind} {}", if copies == 0 { "not queued" } else { "queued" }));
        }
    }

    fn add_heard(&mut self, call: &Call, fate: &str) {
        self.bump(call.wide, &format!("hear {fate}"));
        if let Some(kind) = kind_3(call.bytes) {
            self.bump(call.wide, &format!("hear {kind} {fate}"));
        }
    }

    /// Counters above 0 show what no answer names, such as `unheard`.
    pub fn add_counters(&mut self, row: &Row, wide: bool) {
        for (name, _) in NAMES.iter().zip(row).filter(|(_, counter)| **counter != 0) {
            self.bump(wide, &format!("counter {name}"));
        }
    }

    fn bump(&mut self, wide: bool, kind: &str) {
        let name = format!("{} card: {kind}", if wide { "wide" } else { "narrow" });
        *self.kinds.entry(name).or_default() += 1;
    }

    /// What is wanted and never occurred.
    pub fn missing(&self) -> Vec<String> {
        let each = WANTED.iter().flat_map(|(word, kinds)| kinds.iter().map(move |kind| format!("{word} {kind}")));
        let both = each.flat_map(|kind| [format!("narrow card: {kind}"), format!("wide card: {kind}")]);
        let one = ["narrow card: load refused 5", "wide card: load refused 1", "wide card: load ok, bus 32"];
        let wanted = both.chain(one.map(String::from));
        wanted.filter(|kind| !self.kinds.contains_key(kind)).collect()
    }

    /// Every kind with how often it occurred, one a line.
    pub fn report(&self) -> String {
        self.kinds.iter().map(|(kind, count)| format!("{kind}: {count}\n")).collect()
    }
}

fn named(names: &[(u64, &str)], number: u64) -> String {
    let name = names.iter().find(|(known, _)| *known == number);
    name.map_or(format!("fate {number}"), |(_, name)| name.to_string())
}

/// Which cell of kind 3 a frame carries, if it is of kind 3.
fn kind_3(frame: &[u8]) -> Option<&'static str> {
    match frame.first()? >> 4 {
        0xC => Some("control"),
        0xD => Some("loopback"),
        0xE => Some("kind 3 of class 2"),
        0xF => Some("kind 3 of class 3"),
        _ => None,
    }
}
