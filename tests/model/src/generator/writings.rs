//! What is given to the call that writes a Handover payload: records, the places of their
//! strings, the run that these lie in, and an output of about the payload's length.

use crate::generator::contexts::ROOM;
use crate::generator::payloads::{few, misplace_end, pass_the_top, records, Record, COUNT, FILE};
use crate::generator::rng::Rng;

/// A string's start and length in the run.
type Part = (u64, u64);

#[derive(Clone, Debug)]
pub struct Writing {
    pub records: Vec<Record>,
    /// Bytes after the last record, too few for one more.
    pub left_over: Vec<u8>,
    /// The agent's part, then of each record its name's and its meta's.
    pub parts: Vec<Part>,
    /// Where there are fewer or more numbers than those of the parts.
    pub numbers: Option<usize>,
    pub run: Vec<u8>,
    /// How long the output is.
    pub output: usize,
}

impl Writing {
    pub fn record_bytes(&self) -> Vec<u8> {
        let records = self.records.iter().flat_map(Record::bytes);
        records.chain(self.left_over.iter().copied()).collect()
    }

    /// The numbers of the parts, 8 bytes each. Those after the last part are any.
    pub fn part_bytes(&self, rng: &mut Rng) -> Vec<u8> {
        let numbers = self
            .parts
            .iter()
            .flat_map(|(start, length)| [*start, *length]);
        let mut numbers: Vec<u64> = numbers.collect();
        let length = self.numbers.unwrap_or(numbers.len());
        numbers.truncate(length);
        while numbers.len() < length {
            numbers.push(wild_number(rng));
        }
        numbers.into_iter().flat_map(u64::to_le_bytes).collect()
    }

    /// The places among the parts that name a string: 0 for the agent.
    fn named(&self) -> Vec<usize> {
        let mut places = vec![0];
        for (index, record) in self.records.iter().enumerate() {
            if record.names_by_name() {
                places.push(1 + 2 * index);
            }
            if record.names_by_meta() {
                places.push(2 + 2 * index);
            }
        }
        places
    }

    /// The strings that are named, in order, where all are good.
    pub fn strings(&self) -> Vec<Vec<u8>> {
        let string = |place: usize| {
            let (start, length) = self.parts[place];
            self.run[start as usize..][..length as usize].to_vec()
        };
        self.named().into_iter().map(string).collect()
    }

    /// How long the payload would be; any number where a part is bad.
    fn size(&self) -> usize {
        let lengths = self.named().into_iter().map(|place| self.parts[place].1);
        let strings = lengths.fold(0u64, |sum, length| sum.wrapping_add(length).wrapping_add(1));
        16 + 32 * self.records.len() + (strings as usize).min(1 << 20)
    }
}

fn wild_number(rng: &mut Rng) -> u64 {
    let any = rng.bits(64);
    rng.pick(&[0, 1, any, any, 1 << 63, u64::MAX])
}

/// Bytes with a zero here and there, or with none.
fn run(rng: &mut Rng) -> Vec<u8> {
    let length = match rng.below(12) {
        0 => 0,
        1 => 1,
        2 | 3 => rng.below(30),
        4..=7 => rng.below(400),
        _ => rng.below(1_500),
    };
    let zeros = rng.pick(&[0, 2, 5, 5, 5, 30]);
    let mut run = rng.bytes(length);
    for byte in &mut run {
        *byte = match rng.chance(zeros) {
            true => 0,
            false => (*byte).max(1),
        };
    }
    run
}

/// A string of the run about any place, mostly a short one: some bytes between one zero and the
/// next, all of them, or none, which may be at any place, the run's end too.
fn good_part(rng: &mut Rng, run: &[u8]) -> Part {
    let place = rng.below(run.len() + 1);
    let before = run[..place].iter().rposition(|&byte| byte == 0);
    let after = run[place..].iter().position(|&byte| byte == 0);
    let mut first = before.map_or(0, |at| at + 1);
    let mut last = after.map_or(run.len(), |length| place + length);
    if !rng.chance(5) {
        first = first.max(place.saturating_sub(12));
        last = last.min(place + 12);
    }
    let (start, end) = match rng.below(12) {
        0 => (place, place),
        1 => (run.len(), run.len()),
        2..=4 => (first, last),
        5 => (place, last),
        6 => (first, place),
        _ => {
            let start = first + rng.below(place - first + 1);
            (start, place + rng.below(last - place + 1))
        }
    };
    (start as u64, (end - start) as u64)
}

/// Good records with the places of good strings. The output is as long as the payload.
fn good(rng: &mut Rng, count: usize, run: Vec<u8>) -> Writing {
    let mut writing = Writing {
        records: records(rng, count),
        left_over: Vec::new(),
        parts: Vec::new(),
        numbers: None,
        run,
        output: 0,
    };
    let tidy = rng.chance(20);
    writing.parts = (0..1 + 2 * count)
        .map(|_| match tidy {
            true => (0, 0),
            false => (wild_number(rng), wild_number(rng)),
        })
        .collect();
    let mut last = (0, 0);
    for place in writing.named() {
        // Now and then the one before once more.
        if place == 0 || !rng.chance(10) {
            last = good_part(rng, &writing.run);
        }
        writing.parts[place] = last;
    }
    writing.output = writing.size();
    writing
}

/// The rules that can be broken.
#[derive(Clone, Copy)]
enum Rule {
    Count,
    End,
    Range,
    String,
    Room,
}

const RULES: [Rule; 6] = [
    Rule::Count,
    Rule::End,
    Rule::Range,
    Rule::String,
    Rule::String,
    Rule::Room,
];

fn spoil(rng: &mut Rng, writing: &mut Writing, rule: Rule) {
    match rule {
        Rule::Count => {
            writing.records.clear();
            if rng.chance(50) {
                let left_over = 1 + rng.below(31);
                writing.left_over = rng.bytes(left_over);
            }
        }
        Rule::End if !writing.records.is_empty() => misplace_end(rng, &mut writing.records),
        Rule::Range if !writing.records.is_empty() => pass_the_top(rng, &mut writing.records),
        Rule::End | Rule::Range => {}
        Rule::String => spoil_string(rng, writing),
        Rule::Room => {
            let size = writing.output;
            let less = size.saturating_sub(1);
            let any = rng.below(size.max(1));
            writing.output = rng.pick(&[less, less, less, 0, 15, 16, any]).min(less);
        }
    }
}

/// A string that holds a zero byte, that passes the run, or whose numbers are not lent.
fn spoil_string(rng: &mut Rng, writing: &mut Writing) {
    let named = writing.named();
    let place = named[rng.below(named.len())];
    match rng.below(20) {
        0..=6 => {
            let zero = any_zero(rng, &mut writing.run);
            writing.parts[place] = part_around(rng, &writing.run, zero);
        }
        7..=12 => writing.parts[place] = past_the_run(rng, writing.run.len() as u64),
        // Lengths whose sum passes 2^64, and may be 0 modulo it.
        13 => named
            .iter()
            .for_each(|&place| writing.parts[place] = (0, 1 << 63)),
        // The last string lacks its length, or both numbers.
        14..=16 => {
            let last = named[named.len() - 1];
            writing.numbers = Some(2 * last + rng.below(2));
        }
        _ => writing.numbers = Some(rng.pick(&[0, 1, 2 * place, 2 * place + 1, 2 * place + 1])),
    }
}

/// Where the run has a zero, which is put after it where there is none.
fn any_zero(rng: &mut Rng, run: &mut Vec<u8>) -> usize {
    let bytes = run.iter().enumerate();
    let zeros: Vec<usize> = bytes.filter(|(_, &b)| b == 0).map(|(at, _)| at).collect();
    match zeros.is_empty() {
        true => {
            run.push(0);
            run.len() - 1
        }
        false => rng.pick(&zeros),
    }
}

/// A part that holds that byte, often as its first, its last or its only one.
fn part_around(rng: &mut Rng, run: &[u8], at: usize) -> Part {
    let start = rng.pick(&[at, at, at.saturating_sub(3), 0]);
    let end = rng
        .pick(&[at + 1, at + 1, at + 4, run.len()])
        .min(run.len());
    (start as u64, (end - start) as u64)
}

/// A part that ends past a run of that length, by one, or by a sum that wraps.
fn past_the_run(rng: &mut Rng, length: u64) -> Part {
    let start = rng.below(length as usize + 1) as u64;
    let rest = length - start;
    rng.pick(&[
        (start, rest + 1),
        (start, rest + 1),
        (0, length + 1),
        (length, 1),
        (length + 1, 0),
        (length + 1, 0),
        (length + 1, u64::MAX),
        (start + 1, u64::MAX),
        (u64::MAX, 0),
        (u64::MAX, 1),
        (u64::MAX, 1),
        (u64::MAX, 2),
        (u64::MAX, u64::MAX),
        (1 << 63, 1 << 63),
        (start, 1 << 32),
        (start | 1 << 32, 0),
        (start, 1 << 63),
        (start, u64::MAX - start),
        (start, u64::MAX),
    ])
}

/// Changes that break no rule: fewer or more numbers than those of the parts, bytes after the
/// last record, a longer output.
fn vary(rng: &mut Rng, writing: &mut Writing) {
    let numbers = 2 * writing.parts.len();
    match rng.below(8) {
        0 => {
            let named = writing.named();
            writing.numbers = Some(2 * named[named.len() - 1] + 2);
        }
        1 => writing.numbers = Some(numbers + 1 + rng.below(6)),
        2 => {
            let left_over = 1 + rng.below(31);
            writing.left_over = rng.bytes(left_over);
        }
        _ => {}
    }
    match rng.below(4) {
        0 => writing.output += 1,
        1 => writing.output += 1 + rng.below(100),
        _ => {}
    }
}

/// As many records as there may be, or one more: files, all of whose strings have one length. With
/// 15 bytes the payload has just the bytes of the room.
fn many(rng: &mut Rng) -> Writing {
    let length = rng.pick(&[0, 14, 15, 15, 16, 40, 300]);
    let count = rng.pick(&[COUNT - 1, COUNT, COUNT, COUNT, COUNT + 1, COUNT + 1]);
    let run: Vec<u8> = (0..length).map(|place| 1 + (place % 255) as u8).collect();
    let mut writing = good(rng, count, run);
    for record in &mut writing.records[..count - 1] {
        if length == 15 || rng.chance(90) {
            record.tag = FILE;
        }
    }
    for part in &mut writing.parts {
        *part = (0, length);
    }
    writing.output = writing.size();
    if rng.chance(30) {
        let rule = rng.pick(&[Rule::End, Rule::Range, Rule::String, Rule::Room]);
        spoil(rng, &mut writing, rule);
    }
    if count > COUNT && rng.chance(40) {
        misplace_end(rng, &mut writing.records);
    }
    // Outputs past the room count as the room.
    let most = ROOM + rng.pick(&[0, 0, 1, 500]);
    writing.output = writing.output.min(most);
    writing
}

/// One string fills the room, all but a byte, or a byte more; the output may be longer.
fn whole(rng: &mut Rng) -> Writing {
    let count = few(rng);
    let mut writing = good(rng, count, Vec::new());
    writing.parts.iter_mut().for_each(|part| *part = (0, 0));
    let length = ROOM - writing.size() + 1 - rng.below(3);
    writing.run = (0..length).map(|place| 1 + (place % 251) as u8).collect();
    let named = writing.named();
    let place = named[rng.below(named.len())];
    writing.parts[place] = (0, length as u64);
    writing.output = ROOM + rng.pick(&[0, 1, 2, 100]);
    writing
}

/// What is given to the call that writes.
pub fn writing(rng: &mut Rng) -> Writing {
    match rng.below(200) {
        0 | 1 => return many(rng),
        2 | 3 => return whole(rng),
        _ => {}
    }
    let (count, run) = (few(rng), run(rng));
    let mut writing = good(rng, count, run);
    vary(rng, &mut writing);
    let faults = rng.pick(&[0, 0, 0, 0, 0, 1, 1, 1, 2, 2]);
    for _ in 0..faults {
        let rule = rng.pick(&RULES);
        spoil(rng, &mut writing, rule);
    }
    if rng.below(200) == 0 {
        writing.output += ROOM;
    }
    writing
}
