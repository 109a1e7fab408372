//! The shapes of a Handover payload that is read, and of the questions about it: what is
//! accepted, which rule is broken by itself, which two are broken at once, and what is asked.

use std::ops::Range;

use ultra_model::driving::table::*;
use ultra_model::format::{room, u32_at, ROOM_LIMIT};
use ultra_model::generator::payloads as tags;
use ultra_model::records::end;
use ultra_model::requests::handover::{
    count_is_wrong, read, record_start, string_at, Listed, Payload, Record, CMDLINE, END, FILE,
    HEAD_SIZE, MAGIC, RECORD_SIZE,
};
use ultra_model::tally::Tally;

use super::{once, Counted, Made, Shapes};

ultra_model::shapes! {
    Read: "payloads read",
    OfContext: "buffers read as a payload that are a context",
    Least: "payloads of 49 bytes",
    OneRecord: "payloads of one record",
    MostRecords: "payloads of 1,024 records",
    EndsWithTheBuffer: "payloads that end where the buffer does",
    WholeRoom: "payloads of 65,536 bytes in a buffer of as many",
    WholeRoomOfMore: "payloads of 65,536 bytes in a longer buffer",
    LongBuffer: "payloads in a buffer longer than 65,536",
    JunkAfter: "payloads with other bytes than zeros after them",
    EndsAtTheTop: "ranges that end at 2^64",
    EndRecordAtTheTop: "ranges of the end record that end at 2^64",
    Flags: "records with flags other than 0",
    EndWords: "end records with other words than 0",
    LineNamePast: "command lines whose word at 24 is past the table",
    KnownWordsPast: "records of 002 that name nothing, with words past the table",
    UnknownWordsPast: "records of an unknown tag with words past the table",
    StringsShared: "strings that are named twice",
    StringsNested: "strings that are another's tail",
    StringEmpty: "payloads with an empty string",
    StringEmptyAtClose: "empty strings at another's closing zero",
    StringClosedLast: "payloads with a string that the table's last byte closes",
    AgentAtLast: "payloads with the agent at the table's last byte",
    SlackWithin: "slack in the table before a string",
    SlackAfter: "slack in the table after the last string",
    NoBytes: "1 for no bytes",
    Fifteen: "1 for 15 bytes of a payload",
    ShortAndMagic: "1 with another magic",
    Sixteen: "buffers of 16 bytes with a good magic and count",
    MagicAlone: "20 alone",
    MagicByOne: "20 alone, for a magic that is one more or less",
    MagicAndCount: "20 with a count that is 3",
    CountNone: "3 alone, for a count of 0",
    CountOneMore: "3 alone, for 1,025 records",
    CountAndSize: "3 with a size that is 21",
    NoCountAndSize: "3 for a count of 0 with a size that is 21",
    SizeByteShort: "21 alone, for a size one byte short of the records",
    SizeByteLong: "21 alone, for a size one byte above the room",
    SizePastTheLimit: "21 alone, for 65,537 in a longer buffer",
    SizeAndEnd: "21 with an end that is 23",
    SizeAndRange: "21 with a range that is 15",
    EndFirst: "23 alone, for the end tag in the first record",
    EndBetween: "23 alone, for the end tag between the first record and the last",
    EndMissing: "23 alone, for a last record without it",
    EndMissingOnly: "23 alone, for the only record without it",
    EndElsewhere: "23 for the end tag in another record than the last",
    EndAndRange: "23 with a range that is 15 in the same record",
    EndThenRange: "23 with a range that is 15 in a later record",
    EndAndString: "23 with a string that is 22",
    RangeByOne: "15 alone, for a range that passes 2^64 by one",
    RangeOfEnd: "15 alone, for the end record's range",
    RangeThenEnd: "15 with an end that is 23 in a later record",
    RangeAndAgent: "15 with an agent that is 22",
    RangeAndEarlierString: "15 with a string that is 22 in an earlier record",
    NoTable: "22 for a table of no bytes",
    AgentAtLength: "22 alone, for an agent at the table's length",
    AgentPast: "22 alone, for an agent past it",
    AgentOpen: "22 alone, for an agent that only a byte past the size closes",
    NameAtLength: "22 alone, for a file's name at the table's length",
    NamePast: "22 alone, for a file's name past it",
    NameOpen: "22 alone, for a file's name that only a byte past the size closes",
    MetaAtLength: "22 alone, for a file's meta at the table's length",
    MetaPast: "22 alone, for a file's meta past it",
    MetaOpen: "22 alone, for a file's meta that only a byte past the size closes",
    LineAtLength: "22 alone, for a command line at the table's length",
    LinePast: "22 alone, for a command line past it",
    LineOpen: "22 alone, for a command line that only a byte past the size closes",
    OpenForGood: "22 alone, for a string that no byte of the room closes",
    OffsetWraps: "22 alone, for an offset that leads into the payload modulo 2^32",
    AgentAndString: "22 for the agent with a record's string",
    NameAndMeta: "22 for a file's name with its meta",
    TwoStrings: "22 for a record's string with a later record's",
    AgentGiven: "agents handed back",
    AgentEmpty: "empty agents handed back",
    AgentOfRefused: "agents of refused buffers",
    StringOnce: "strings handed back that occur once in their buffer",
    RecordFirst: "records asked for at 0",
    RecordLast: "records asked for at the last index",
    RecordCount: "records asked for at the count",
    RecordWide: "records asked for at 2^32 more than an index",
    RecordMost: "records asked for at 2^64 - 1",
    NameFirst: "names asked for at 0",
    NameLast: "names asked for at the last index",
    NameCount: "names asked for at the count",
    NameWide: "names asked for at 2^32 more than an index",
    NameMost: "names asked for at 2^64 - 1",
    MetaFirst: "metas asked for at 0",
    MetaLast: "metas asked for at the last index",
    MetaCount: "metas asked for at the count",
    MetaWide: "metas asked for at 2^32 more than an index",
    MetaMost: "metas asked for at 2^64 - 1",
    RecordFree: "FREE records handed back",
    RecordSelf: "SELF records handed back",
    RecordStack: "STACK records handed back",
    RecordKernel: "KERNEL records handed back",
    RecordLoader: "LOADER records handed back",
    RecordFile: "FILE records handed back",
    RecordRsdp: "RSDP records handed back",
    RecordFdt: "FDT records handed back",
    RecordFb: "FB records handed back",
    RecordCmdline: "CMDLINE records handed back",
    RecordReserved: "RESERVED records handed back",
    RecordEnd: "end records handed back",
    RecordUnknown: "records of an unknown tag handed back",
    FileName: "names of files handed back",
    FileNameEmpty: "empty names of files handed back",
    LineName: "names of command lines, of which there is none",
    NoName: "names of other records, of which there is none",
    NameOfRefused: "names in refused buffers",
    FileMeta: "metas of files handed back",
    FileMetaEmpty: "empty metas of files handed back",
    LineMeta: "command lines handed back as metas",
    LineMetaEmpty: "empty command lines handed back as metas",
    NoMeta: "metas of other records, of which there is none",
    MetaOfRefused: "metas in refused buffers",
}

pub(super) fn count(shapes: &mut Shapes, made: &Made) {
    let payload = read(made.before);
    match (made.asked.call, payload) {
        (HANDOVER_READ, payload) => reading(shapes, made, payload.ok()),
        (AGENT, _) => {}
        (AGENT_NAME, payload) => agent(shapes, made, payload.ok()),
        (RECORD_NAME, Err(_)) => shapes.met(Shape::NameOfRefused),
        (RECORD_META, Err(_)) => shapes.met(Shape::MetaOfRefused),
        (_, Err(_)) => {}
        (_, Ok(payload)) => record(shapes, made, &payload),
    }
}

/// Whether too few strings show their place.
pub(super) fn gap(tally: &Tally) -> Option<String> {
    let count = |shape: Shape| tally.met(shape.place());
    let strings = [
        Shape::AgentGiven,
        Shape::FileName,
        Shape::FileMeta,
        Shape::LineMeta,
    ];
    let strings: u64 = strings.map(count).iter().sum();
    let once = count(Shape::StringOnce);
    (once * 2 < strings).then(|| format!("of {strings} strings only {once} occur once"))
}

fn reading(shapes: &mut Shapes, made: &Made, payload: Option<Payload>) {
    shapes.met(Shape::Read);
    shapes.met_if(
        ultra_model::reading::read(made.before, 2).is_ok(),
        Shape::OfContext,
    );
    match payload {
        Some(payload) => accepted(shapes, made.before, &payload),
        None if room(made.before).len() < HEAD_SIZE => short(shapes, made.before),
        None => refused(shapes, made.before),
    }
}

// ---- Accepted ----

fn accepted(shapes: &mut Shapes, buffer: &[u8], payload: &Payload) {
    let (length, size, count) = (buffer.len(), payload.size, payload.records.len());
    shapes.met_if(size == 49, Shape::Least);
    shapes.met_if(count == 1, Shape::OneRecord);
    shapes.met_if(count == 1_024, Shape::MostRecords);
    shapes.met_if(size == length, Shape::EndsWithTheBuffer);
    if size == ROOM_LIMIT {
        shapes.met(match length == size {
            true => Shape::WholeRoom,
            false => Shape::WholeRoomOfMore,
        });
    }
    shapes.met_if(length > ROOM_LIMIT, Shape::LongBuffer);
    shapes.met_if(buffer[size..].iter().any(|&b| b != 0), Shape::JunkAfter);
    words(shapes, payload);
    strings(shapes, payload);
}

fn words(shapes: &mut Shapes, payload: &Payload) {
    let table_length = (payload.size - record_start(payload.records.len())) as u64;
    let past = |word: u32| u64::from(word) >= table_length;
    for Listed { record, .. } in &payload.records {
        let at_the_top = end(record.start, record.size) == 1 << 64;
        shapes.met_if(at_the_top, Shape::EndsAtTheTop);
        shapes.met_if(record.flags != 0, Shape::Flags);
        let words_past = past(record.name) && past(record.meta);
        match record.tag {
            END => {
                shapes.met_if(at_the_top, Shape::EndRecordAtTheTop);
                let words = [record.start, record.size, record.name.into()];
                shapes.met_if(words.iter().all(|&word| word != 0), Shape::EndWords);
            }
            CMDLINE => shapes.met_if(past(record.name), Shape::LineNamePast),
            FILE => {}
            tag if known(tag).is_some() => shapes.met_if(words_past, Shape::KnownWordsPast),
            _ => shapes.met_if(words_past, Shape::UnknownWordsPast),
        }
    }
}

fn strings(shapes: &mut Shapes, payload: &Payload) {
    let records = payload.records.iter();
    let named = records.flat_map(|listed| [&listed.name, &listed.meta]);
    let named = named.filter(|string| string.start != 0);
    let mut strings: Vec<&Range<usize>> = named.chain([&payload.agent_name]).collect();
    strings.sort_by_key(|string| (string.end, string.start));
    // Strings that share a byte share their closing zero.
    for pair in strings.windows(2) {
        if pair[0].end == pair[1].end {
            shapes.met(match pair[0].start == pair[1].start {
                true => Shape::StringsShared,
                false => Shape::StringsNested,
            });
            let empty_after = pair[1].is_empty() && !pair[0].is_empty();
            shapes.met_if(empty_after, Shape::StringEmptyAtClose);
        }
    }
    let any_empty = strings.iter().any(|string| string.is_empty());
    shapes.met_if(any_empty, Shape::StringEmpty);
    let last = payload.size - 1;
    let closed_last = strings.iter().any(|string| string.end == last);
    shapes.met_if(closed_last, Shape::StringClosedLast);
    shapes.met_if(payload.agent_name.start == last, Shape::AgentAtLast);
    // What no string and no closing zero covers.
    let mut covered = record_start(payload.records.len());
    for string in &strings {
        shapes.met_if(string.start > covered, Shape::SlackWithin);
        covered = covered.max(string.end + 1);
    }
    shapes.met_if(covered < payload.size, Shape::SlackAfter);
}

// ---- Refused ----

fn short(shapes: &mut Shapes, buffer: &[u8]) {
    match buffer.first_chunk().map(|word| u32::from_le_bytes(*word)) {
        Some(MAGIC) => shapes.met_if(buffer.len() == 15, Shape::Fifteen),
        Some(_) => shapes.met(Shape::ShortAndMagic),
        None => shapes.met_if(buffer.is_empty(), Shape::NoBytes),
    }
}

/// Who names a string, and the record's index.
#[derive(Clone, Copy, PartialEq)]
enum Named {
    Agent,
    Name(usize),
    Meta(usize),
    Line(usize),
}

impl Named {
    fn index(self) -> Option<usize> {
        match self {
            Named::Agent => None,
            Named::Name(index) | Named::Meta(index) | Named::Line(index) => Some(index),
        }
    }
}

/// The rules that a buffer breaks, each asked by itself, as far as there are bytes to ask it of.
struct Faults {
    size: u64,
    count: u64,
    bad_magic: bool,
    bad_count: bool,
    bad_size: bool,
    /// The records whose tag, and whose range, is wrong.
    ends: Vec<usize>,
    ranges: Vec<usize>,
    /// The strings that are wrong, with their offsets.
    strings: Vec<(Named, u32)>,
    records: Vec<Record>,
}

impl Faults {
    fn of(room: &[u8]) -> Faults {
        let [magic, agent, size, count] = [0, 4, 8, 12].map(|at| u32_at(room, at));
        let (length, records_end) = (size as usize, record_start(count as usize));
        let records = room[HEAD_SIZE..].chunks_exact(RECORD_SIZE);
        let records: Vec<Record> = records.take(count as usize).map(Record::of).collect();
        let mut faults = Faults {
            size: size.into(),
            count: count.into(),
            bad_magic: magic != MAGIC,
            bad_count: count_is_wrong(count as usize),
            bad_size: length < records_end || length > room.len(),
            ends: Vec::new(),
            ranges: Vec::new(),
            strings: Vec::new(),
            records,
        };
        for (index, record) in faults.records.iter().enumerate() {
            if record.end_is_wrong(index, count as usize) {
                faults.ends.push(index);
            }
            if record.range_is_wrong() {
                faults.ranges.push(index);
            }
        }
        // With a size that is too large, the table as far as there is room.
        if !faults.bad_count && records_end <= length.min(room.len()) {
            let payload = &room[..length.min(room.len())];
            let named = named(agent, &faults.records).into_iter();
            let wrong =
                |(_, offset): &(Named, u32)| string_at(payload, records_end, *offset).is_none();
            faults.strings = named.filter(wrong).collect();
        }
        faults
    }

    fn none_of_records(&self) -> bool {
        self.ends.is_empty() && self.ranges.is_empty() && self.strings.is_empty()
    }
}

/// All that name a string, with its offset.
fn named(agent: u32, records: &[Record]) -> Vec<(Named, u32)> {
    let mut named = vec![(Named::Agent, agent)];
    for (index, record) in records.iter().enumerate() {
        match record.tag {
            FILE => {
                named.push((Named::Name(index), record.name));
                named.push((Named::Meta(index), record.meta));
            }
            CMDLINE => named.push((Named::Line(index), record.meta)),
            _ => {}
        }
    }
    named
}

fn refused(shapes: &mut Shapes, buffer: &[u8]) {
    let room = room(buffer);
    let faults = Faults::of(room);
    let head = [faults.bad_magic, faults.bad_count, faults.bad_size];
    shapes.met_if(
        room.len() == 16 && head == [false, false, true],
        Shape::Sixteen,
    );
    match head {
        [true, false, false] if faults.none_of_records() => {
            shapes.met(Shape::MagicAlone);
            let by_one = u32_at(room, 0).abs_diff(MAGIC) == 1;
            shapes.met_if(by_one, Shape::MagicByOne);
        }
        [true, true, _] => shapes.met(Shape::MagicAndCount),
        [true, _, _] => {}
        [_, true, true] => {
            shapes.met(Shape::CountAndSize);
            shapes.met_if(faults.count == 0, Shape::NoCountAndSize);
        }
        [_, true, false] if faults.none_of_records() => {
            shapes.met_if(faults.count == 0, Shape::CountNone);
            shapes.met_if(faults.count == 1_025, Shape::CountOneMore);
        }
        [_, true, false] => {}
        [_, _, true] => bad_size(shapes, buffer, &faults),
        _ => bad_record(shapes, room, &faults),
    }
}

fn bad_size(shapes: &mut Shapes, buffer: &[u8], faults: &Faults) {
    shapes.met_if(!faults.ends.is_empty(), Shape::SizeAndEnd);
    shapes.met_if(!faults.ranges.is_empty(), Shape::SizeAndRange);
    if faults.none_of_records() {
        let records_end = record_start(faults.count as usize) as u64;
        let room = room(buffer).len() as u64;
        shapes.met_if(faults.size + 1 == records_end, Shape::SizeByteShort);
        shapes.met_if(faults.size == room + 1, Shape::SizeByteLong);
        let past_the_limit = buffer.len() > ROOM_LIMIT && faults.size == 65_537;
        shapes.met_if(past_the_limit, Shape::SizePastTheLimit);
    }
}

/// The head is good.
fn bad_record(shapes: &mut Shapes, room: &[u8], faults: &Faults) {
    let no_string = faults.strings.is_empty();
    match (&faults.ends[..], &faults.ranges[..]) {
        ([], []) => bad_string(shapes, room, faults),
        ([at], []) if no_string => bad_end(shapes, *at, faults),
        ([at, last], []) if no_string && faults.records[*at].tag == END => {
            let moved = *last == faults.records.len() - 1;
            shapes.met_if(moved, Shape::EndElsewhere);
        }
        ([_, ..], []) => shapes.met_if(!no_string, Shape::EndAndString),
        ([], [at]) if no_string => {
            let record = faults.records[*at];
            let by_one = end(record.start, record.size) == (1 << 64) + 1;
            shapes.met_if(by_one, Shape::RangeByOne);
            shapes.met_if(record.tag == END, Shape::RangeOfEnd);
        }
        ([], [at, ..]) => {
            let earlier = |(named, _): &(Named, u32)| named.index().is_some_and(|i| i < *at);
            let agent = |(named, _): &(Named, u32)| *named == Named::Agent;
            shapes.met_if(faults.strings.iter().any(agent), Shape::RangeAndAgent);
            let any_earlier = faults.strings.iter().any(earlier);
            shapes.met_if(any_earlier, Shape::RangeAndEarlierString);
        }
        ([end, ..], [range, ..]) => shapes.met(match end.cmp(range) {
            std::cmp::Ordering::Less => Shape::EndThenRange,
            std::cmp::Ordering::Equal => Shape::EndAndRange,
            std::cmp::Ordering::Greater => Shape::RangeThenEnd,
        }),
    }
}

fn bad_end(shapes: &mut Shapes, at: usize, faults: &Faults) {
    let last = faults.records.len() - 1;
    shapes.met(match at {
        0 if last == 0 => Shape::EndMissingOnly,
        0 => Shape::EndFirst,
        at if at == last => Shape::EndMissing,
        _ => Shape::EndBetween,
    });
}

/// Only strings are wrong.
fn bad_string(shapes: &mut Shapes, room: &[u8], faults: &Faults) {
    let table = record_start(faults.records.len());
    let table_length = faults.size - table as u64;
    shapes.met_if(table_length == 0, Shape::NoTable);
    let (named, offset) = match faults.strings[..] {
        [(Named::Agent, _), _, ..] => return shapes.met(Shape::AgentAndString),
        [(Named::Name(a), _), (Named::Meta(b), _), ..] if a == b => {
            return shapes.met(Shape::NameAndMeta);
        }
        [_, _, ..] => return shapes.met(Shape::TwoStrings),
        [string] => string,
        [] => return shapes.impossible(),
    };
    let place = (table as u32).wrapping_add(offset);
    let wraps = place < offset && u64::from(place) < faults.size;
    shapes.met_if(wraps, Shape::OffsetWraps);
    let [at_length, past, open] = match named {
        Named::Agent => [Shape::AgentAtLength, Shape::AgentPast, Shape::AgentOpen],
        Named::Name(_) => [Shape::NameAtLength, Shape::NamePast, Shape::NameOpen],
        Named::Meta(_) => [Shape::MetaAtLength, Shape::MetaPast, Shape::MetaOpen],
        Named::Line(_) => [Shape::LineAtLength, Shape::LinePast, Shape::LineOpen],
    };
    let closed_later = string_at(room, table, offset).is_some();
    shapes.met(match u64::from(offset).cmp(&table_length) {
        std::cmp::Ordering::Equal => at_length,
        std::cmp::Ordering::Greater => past,
        std::cmp::Ordering::Less if closed_later => open,
        std::cmp::Ordering::Less => Shape::OpenForGood,
    });
}

// ---- Questions ----

fn agent(shapes: &mut Shapes, made: &Made, payload: Option<Payload>) {
    shapes.met(match payload.map(|payload| payload.agent_name) {
        None => Shape::AgentOfRefused,
        Some(name) if name.is_empty() => Shape::AgentEmpty,
        Some(_) => Shape::AgentGiven,
    });
    once(shapes, made, Shape::StringOnce);
}

/// One of the questions for a record, in a buffer that is accepted.
fn record(shapes: &mut Shapes, made: &Made, payload: &Payload) {
    let call = made.asked.call;
    let [first, last, count, wide, most] = match call {
        RECORD_NAME => [
            Shape::NameFirst,
            Shape::NameLast,
            Shape::NameCount,
            Shape::NameWide,
            Shape::NameMost,
        ],
        RECORD_META => [
            Shape::MetaFirst,
            Shape::MetaLast,
            Shape::MetaCount,
            Shape::MetaWide,
            Shape::MetaMost,
        ],
        _ => [
            Shape::RecordFirst,
            Shape::RecordLast,
            Shape::RecordCount,
            Shape::RecordWide,
            Shape::RecordMost,
        ],
    };
    let index = made.asked.numbers[0];
    let records = payload.records.len() as u64;
    shapes.met_if(index == 0, first);
    shapes.met_if(index == records - 1, last);
    shapes.met_if(index == records, count);
    let below = index.checked_sub(1 << 32);
    shapes.met_if(below.is_some_and(|below| below < records), wide);
    shapes.met_if(index == u64::MAX, most);
    if index < records {
        let listed = &payload.records[index as usize];
        match call {
            RECORD_NAME => name(shapes, listed),
            RECORD_META => meta(shapes, listed),
            _ => shapes.met(known(listed.record.tag).unwrap_or(Shape::RecordUnknown)),
        }
    }
    if call != RECORD_AT {
        once(shapes, made, Shape::StringOnce);
    }
}

fn known(tag: u32) -> Option<Shape> {
    Some(match tag {
        tags::FREE => Shape::RecordFree,
        tags::SELF => Shape::RecordSelf,
        tags::STACK => Shape::RecordStack,
        tags::KERNEL => Shape::RecordKernel,
        tags::LOADER => Shape::RecordLoader,
        tags::FILE => Shape::RecordFile,
        tags::RSDP => Shape::RecordRsdp,
        tags::FDT => Shape::RecordFdt,
        tags::FB => Shape::RecordFb,
        tags::CMDLINE => Shape::RecordCmdline,
        tags::RESERVED => Shape::RecordReserved,
        tags::END => Shape::RecordEnd,
        _ => return None,
    })
}

fn name(shapes: &mut Shapes, listed: &Listed) {
    shapes.met(match (listed.record.tag, listed.name.is_empty()) {
        (FILE, false) => Shape::FileName,
        (FILE, true) => Shape::FileNameEmpty,
        (CMDLINE, _) => Shape::LineName,
        _ => Shape::NoName,
    });
}

fn meta(shapes: &mut Shapes, listed: &Listed) {
    shapes.met(match (listed.record.tag, listed.meta.is_empty()) {
        (FILE, false) => Shape::FileMeta,
        (FILE, true) => Shape::FileMetaEmpty,
        (CMDLINE, false) => Shape::LineMeta,
        (CMDLINE, true) => Shape::LineMetaEmpty,
        _ => Shape::NoMeta,
    });
}
