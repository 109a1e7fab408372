//! What the inputs and their listings had, and whether all that is asked for was met. The
//! model's listings are counted; where there is no difference, they are the program's.

use std::collections::BTreeMap;

use ultra_model::generator::contexts::ROOM;

use crate::inputs::{Feed, Input};

/// Every key of a line.
const KEYS: [&str; 23] = [
    "version",
    "attributes",
    "platform",
    "loader",
    "name",
    "rsdp",
    "half",
    "depth",
    "dtb",
    "smbios",
    "kernel",
    "partition",
    "guids",
    "path",
    "map",
    "range",
    "module",
    "modname",
    "cmdline",
    "fb",
    "other",
    "used",
    "refused",
];
/// Members that may be absent.
const LATE: [&str; 4] = ["half", "depth", "dtb", "smbios"];
/// Texts that may be empty.
const TEXTS: [&str; 3] = ["name", "modname", "cmdline"];
/// The numbers of refusals that reading gives.
const REFUSALS: std::ops::RangeInclusive<u32> = 1..=16;

/// The longest listing has a platform of 56 bytes, a kernel of partition type 3 and a command
/// line that fills the room: where there is room, nothing prints more than 3 for each byte.
const LONGEST: usize = 196_567;

const AT_ONCE: &str = "input through a pipe at once";
const IN_PIECES: &str = "input in pieces";
const FROM_FILE: &str = "input from a file";
const UNREADABLE: &str = "input that cannot be read";
const PAST_ROOM: &str = "input longer than the room";
const ACCEPTED_PAST_ROOM: &str = "accepted input longer than the room";
const AFTER_USED: &str = "bytes after the used length";
const FULL_ROOM: &str = "context that fills the room";
const MOST_ATTRIBUTES: &str = "context of 1,024 attributes";
const EMPTY_MAP: &str = "empty map";
const LONG_LISTING: &str = "listing longer than 65,536 bytes";
const LONGEST_LISTING: &str = "listing of 196,567 bytes, the longest";

/// The other things that have to be met.
const SHAPES: [&str; 12] = [
    AT_ONCE,
    IN_PIECES,
    FROM_FILE,
    UNREADABLE,
    PAST_ROOM,
    ACCEPTED_PAST_ROOM,
    AFTER_USED,
    FULL_ROOM,
    MOST_ATTRIBUTES,
    EMPTY_MAP,
    LONG_LISTING,
    LONGEST_LISTING,
];

/// How often each thing was met, by its name.
#[derive(Default)]
pub struct Tally(BTreeMap<String, u64>);

impl Tally {
    fn met(&mut self, what: &str) {
        match self.0.get_mut(what) {
            Some(count) => *count += 1,
            None => drop(self.0.insert(what.into(), 1)),
        }
    }

    fn met_if(&mut self, what: &str, condition: bool) {
        if condition {
            self.met(what);
        }
    }

    pub fn merge(&mut self, other: &Tally) {
        for (what, count) in &other.0 {
            *self.0.entry(what.clone()).or_default() += count;
        }
    }

    pub fn count(&mut self, input: &Input, listing: &[u8]) {
        self.met(&format!("kind {}", input.kind));
        self.met(match input.feed {
            Feed::Whole => AT_ONCE,
            Feed::Pieces(_) => IN_PIECES,
            Feed::File => FROM_FILE,
            Feed::Unreadable => UNREADABLE,
        });
        let length = input.bytes.len();
        self.met_if(PAST_ROOM, length > ROOM);
        let accepted = !listing.starts_with(b"refused=");
        self.met_if(ACCEPTED_PAST_ROOM, accepted && length > ROOM);
        self.met_if(LONG_LISTING, listing.len() > 65_536);
        self.met_if(LONGEST_LISTING, listing.len() == LONGEST);
        for line in listing.split(|byte| *byte == b'\n') {
            self.count_line(line, length);
        }
        self.count_escapes(listing);
    }

    fn count_line(&mut self, line: &[u8], length: usize) {
        let line = String::from_utf8_lossy(line);
        let Some((key, value)) = line.split_once('=') else {
            return;
        };
        self.met(&format!("line {key}"));
        if LATE.contains(&key) {
            let state = if value == "-" { "absent" } else { "present" };
            self.met(&format!("{state} {key}"));
        }
        self.met_if(&format!("empty {key}"), value.is_empty());
        self.met_if(FULL_ROOM, (key, value) == ("used", "65536"));
        self.met_if(AFTER_USED, key == "used" && value != length.to_string());
        self.met_if(MOST_ATTRIBUTES, (key, value) == ("attributes", "1024"));
        self.met_if(EMPTY_MAP, (key, value) == ("map", "0"));
        if let ("refused", Some((number, _))) = (key, value.split_once(',')) {
            self.met(&format!("refusal {number}"));
        }
    }

    /// A `%` stands in no listing but before the digits of a byte.
    fn count_escapes(&mut self, listing: &[u8]) {
        let mut seen = [false; 256];
        for part in listing.split(|byte| *byte == b'%').skip(1) {
            let digits = String::from_utf8_lossy(&part[..part.len().min(2)]);
            if let Ok(byte) = u8::from_str_radix(&digits, 16) {
                seen[usize::from(byte)] = true;
            }
        }
        for (byte, seen) in seen.into_iter().enumerate() {
            self.met_if(&format!("escape %{byte:02X}"), seen);
        }
    }

    fn of(&self, what: &str) -> u64 {
        self.0.get(what).copied().unwrap_or(0)
    }

    pub fn print(&self) {
        let escapes = |what: &&String| what.starts_with("escape ");
        println!(
            "{:>9}  different escapes",
            self.0.keys().filter(escapes).count()
        );
        for (what, count) in self.0.iter().filter(|(what, _)| !escapes(what)) {
            println!("{count:>9}  {what}");
        }
    }

    /// What should have been met and was not.
    pub fn gaps(&self) -> Vec<String> {
        let mut asked: Vec<String> = SHAPES.map(String::from).to_vec();
        asked.extend(KEYS.map(|key| format!("line {key}")));
        asked.extend(LATE.map(|key| format!("absent {key}")));
        asked.extend(LATE.map(|key| format!("present {key}")));
        asked.extend(TEXTS.map(|key| format!("empty {key}")));
        asked.extend(REFUSALS.map(|number| format!("refusal {number}")));
        let escaped = (1..=31).chain([37]).chain(127..=255);
        asked.extend(escaped.map(|byte: u8| format!("escape %{byte:02X}")));
        asked.retain(|what| self.of(what) == 0);
        asked
    }
}
