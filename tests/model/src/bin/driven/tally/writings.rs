//! The shapes of writing a Handover payload: what was written, which rule is broken by itself,
//! and which two at once.

use ultra_model::driving::table::NUMBERS_LIMIT;
use ultra_model::format::{room, u64_at, ROOM_LIMIT};
use ultra_model::generator::payloads as tags;
use ultra_model::records::end;
use ultra_model::requests::handover::{
    count_is_wrong, meta_part, name_part, record_start, Record, AGENT_PART, CMDLINE, END, FILE,
    RECORD_SIZE,
};

use super::{Made, Shapes};

ultra_model::shapes! {
    Write: "payloads to be written",
    ReadBack: "payloads written and read back",
    WrittenAgain: "payloads written again from their reading, with the same bytes",
    ListWrittenAgain: "payloads of any form written again from their reading",
    KeptChanged: "writing to the buffer kept, which a call before had changed",
    OneRecord: "payloads of one record written",
    MostRecords: "payloads of 1,024 records written",
    WroteFree: "FREE records written",
    WroteSelf: "SELF records written",
    WroteStack: "STACK records written",
    WroteKernel: "KERNEL records written",
    WroteLoader: "LOADER records written",
    WroteFile: "FILE records written",
    WroteRsdp: "RSDP records written",
    WroteFdt: "FDT records written",
    WroteFb: "FB records written",
    WroteCmdline: "CMDLINE records written",
    WroteReserved: "RESERVED records written",
    WroteEnd: "end records written",
    WroteUnknown: "records of an unknown tag written",
    WordsReplaced: "FILE records with words given in the place of both offsets",
    LineNameGiven: "CMDLINE records with a word given at 24",
    OtherWordsGiven: "other records with words given at 24 and 28",
    RecordAtTheTop: "records written with a range that ends at 2^64",
    RoomExact: "outputs of just the payload",
    RoomLonger: "outputs with bytes past the payload",
    RoomOfTheLimit: "payloads of 65,536 bytes written",
    RoomOfTheLimitOfMore: "payloads of 65,536 bytes written to a longer output",
    LongOutput: "payloads written to an output longer than 65,536",
    RecordsBytesLeft: "payloads written of records with bytes left over",
    PartsBytesLeft: "payloads written of parts with bytes left over",
    PartsJust: "payloads written with no number after the last string's",
    PartsMore: "payloads written with more numbers than those of the parts",
    PartsMost: "payloads to be written with 9,000 numbers",
    UnnamedPast: "payloads written with a part of a string that is not named, past the run",
    NoRun: "payloads written of an empty run",
    StringEmpty: "empty strings written",
    StringToTheEnd: "strings written that end where the run does",
    StringEmptyAtTheEnd: "empty strings written that are at the run's end",
    StringEmptyAtZero: "empty strings written that are at a zero byte",
    ZeroBefore: "strings written with a zero byte just before them",
    ZeroAfter: "strings written with a zero byte just after them",
    SamePart: "strings written that are named twice",
    PartsOverlap: "strings written whose parts overlap",
    CountNone: "3 for no records",
    CountLeftOver: "3 for no whole record",
    CountOneMore: "3 alone, for 1,025 records",
    CountAndEnd: "3 with an end that is 23",
    EndFirst: "23 alone, for the end tag in the first record",
    EndBetween: "23 alone, for the end tag between the first record and the last",
    EndMissing: "23 alone, for a last record without it",
    EndMissingOnly: "23 alone, for the only record without it",
    EndAndRange: "23 with a range that is 15 in the same record",
    EndThenRange: "23 with a range that is 15 in a later record",
    RangeThenEnd: "23 with a range that is 15 in an earlier record",
    RangeByOne: "15 alone, for a range that passes 2^64 by one",
    RangeOfEnd: "15 alone, for the end record's range",
    RangeAndString: "15 with a string that is 22",
    RangeAndEarlierString: "15 with a string that is 22 in an earlier record, or the agent's",
    AgentZero: "22 alone, for an agent with a zero byte",
    AgentPast: "22 alone, for an agent that passes the run",
    AgentHalfLent: "22 alone, for an agent whose start alone is lent",
    AgentNotLent: "22 alone, for an agent of no number",
    NameZero: "22 alone, for a file's name with a zero byte",
    NamePast: "22 alone, for a file's name that passes the run",
    MetaZero: "22 alone, for a file's meta with a zero byte",
    MetaPast: "22 alone, for a file's meta that passes the run",
    MetaHalfLent: "22 alone, for a file's meta whose start alone is lent",
    MetaNotLent: "22 alone, for a file's meta of no number",
    LineZero: "22 alone, for a command line with a zero byte",
    LinePast: "22 alone, for a command line that passes the run",
    LineHalfLent: "22 alone, for a command line whose start alone is lent",
    LineNotLent: "22 alone, for a command line of no number",
    NameHalfLent: "22 for a file's name whose start alone is lent",
    NameNotLent: "22 for a file's name of no number",
    NumberCut: "22 alone, for a string whose length is lent in part, by zeros",
    NoPart: "22 for no number at all",
    OneNumber: "22 for one number",
    ZeroFirst: "22 alone, for a zero byte at a string's start",
    ZeroLast: "22 alone, for a zero byte at a string's end",
    PastByOne: "22 alone, for a string that passes the run by one",
    EmptyPast: "22 alone, for an empty string past the run's end",
    SumIsTop: "22 alone, for a start and a length whose sum is 2^64",
    SumWraps: "22 alone, for a start and a length whose sum is in the run modulo 2^64",
    StartWide: "22 alone, for a start in the run modulo 2^32",
    LengthWide: "22 alone, for a length in the run modulo 2^32",
    LengthsWrap: "22 for lengths whose sum passes 2^64",
    StringAndRoom: "22 with a room that is 18",
    RoomByteShort: "18 alone, for an output one byte short",
    RoomBelowHead: "18 alone, for an output of less than 16 bytes",
    RoomNone: "18 alone, for an output of no bytes",
    RoomPastTheLimit: "18 alone, for 65,537 bytes in a longer output",
    PieceManyTimes: "18 alone, for a short piece that is written too often",
}

/// Who names a string, and the record's index; where its two numbers are.
#[derive(Clone, Copy)]
struct Named {
    who: Who,
    index: usize,
    at: usize,
}

#[derive(Clone, Copy, PartialEq)]
enum Who {
    Agent,
    Name,
    Meta,
    Line,
}

/// What is wrong with a string.
#[derive(Clone, Copy, PartialEq)]
enum Why {
    Zero,
    Past,
    HalfLent,
    NotLent,
}

/// What is given, and what of it breaks a rule, each asked by itself.
struct Given<'a> {
    count: usize,
    records: Vec<Record>,
    parts: Vec<u64>,
    run: &'a [u8],
    named: Vec<Named>,
    ends: Vec<usize>,
    ranges: Vec<usize>,
    strings: Vec<(Named, Why)>,
    /// How long the payload is, without the strings that are wrong.
    size: usize,
}

impl Given<'_> {
    fn of<'a>(records: &[u8], parts: &[u8], run: &'a [u8]) -> Given<'a> {
        let records: Vec<Record> = records.chunks_exact(RECORD_SIZE).map(Record::of).collect();
        let parts: Vec<u64> = parts.chunks_exact(8).map(|word| u64_at(word, 0)).collect();
        let count = records.len();
        let mut named = vec![Named {
            who: Who::Agent,
            index: 0,
            at: AGENT_PART,
        }];
        for (index, record) in records.iter().enumerate() {
            let name = (Who::Name, name_part(index));
            let meta = (Who::Meta, meta_part(index));
            let line = (Who::Line, meta_part(index));
            let strings: &[(Who, usize)] = match record.tag {
                FILE => &[name, meta],
                CMDLINE => &[line],
                _ => &[],
            };
            named.extend(strings.iter().map(|&(who, at)| Named { who, index, at }));
        }
        let mut given = Given {
            count,
            ends: wrong(&records, |index, record| record.end_is_wrong(index, count)),
            ranges: wrong(&records, |_, record| record.range_is_wrong()),
            records,
            parts,
            run,
            named,
            strings: Vec::new(),
            size: record_start(count),
        };
        for named in given.named.clone() {
            match given.string(&named) {
                Ok((_, length)) => given.size += length as usize + 1,
                Err(why) => given.strings.push((named, why)),
            }
        }
        given
    }

    /// The string's start and length.
    fn string(&self, named: &Named) -> Result<(u64, u64), Why> {
        let start = *self.parts.get(named.at).ok_or(Why::NotLent)?;
        let length = *self.parts.get(named.at + 1).ok_or(Why::HalfLent)?;
        if end(start, length) > self.run.len() as u128 {
            return Err(Why::Past);
        }
        match self.run[start as usize..][..length as usize].contains(&0) {
            true => Err(Why::Zero),
            false => Ok((start, length)),
        }
    }
}

fn wrong(records: &[Record], is_wrong: impl Fn(usize, &Record) -> bool) -> Vec<usize> {
    let records = records.iter().enumerate();
    let wrong = records.filter(|(index, record)| is_wrong(*index, record));
    wrong.map(|(index, _)| index).collect()
}

pub(super) fn count(shapes: &mut Shapes, made: &Made) {
    let [records, parts, run] = [0, 1, 2].map(|place| &made.asked.strings[place][..]);
    let given = Given::of(records, parts, run);
    shapes.met(Shape::Write);
    shapes.met_if(made.kept == Some(true), Shape::KeptChanged);
    shapes.met_if(given.parts.len() == NUMBERS_LIMIT, Shape::PartsMost);
    let too_short = given.size > room(made.before).len();
    match (made.number(), &given.ends[..], &given.ranges[..]) {
        (0, ..) => {
            let left_over = !records.len().is_multiple_of(RECORD_SIZE);
            shapes.met_if(left_over, Shape::RecordsBytesLeft);
            shapes.met_if(!parts.len().is_multiple_of(8), Shape::PartsBytesLeft);
            written(shapes, made, &given);
        }
        (3, ends, ranges) => {
            shapes.met_if(records.is_empty(), Shape::CountNone);
            let left_over = given.count == 0 && !records.is_empty();
            shapes.met_if(left_over, Shape::CountLeftOver);
            let too_many = count_is_wrong(given.count) && given.count > 0;
            let alone = ends.is_empty() && ranges.is_empty() && given.strings.is_empty();
            shapes.met_if(too_many && alone, Shape::CountOneMore);
            shapes.met_if(too_many && !ends.is_empty(), Shape::CountAndEnd);
        }
        (23, [end, ..], [range, ..]) => shapes.met(match end.cmp(range) {
            std::cmp::Ordering::Less => Shape::EndThenRange,
            std::cmp::Ordering::Equal => Shape::EndAndRange,
            std::cmp::Ordering::Greater => Shape::RangeThenEnd,
        }),
        (23, [at], []) if given.strings.is_empty() && !too_short => {
            let last = given.count - 1;
            shapes.met(match *at {
                0 if last == 0 => Shape::EndMissingOnly,
                0 => Shape::EndFirst,
                at if at == last => Shape::EndMissing,
                _ => Shape::EndBetween,
            });
        }
        (15, _, [at]) if given.strings.is_empty() && !too_short => {
            let record = given.records[*at];
            let by_one = end(record.start, record.size) == (1 << 64) + 1;
            shapes.met_if(by_one, Shape::RangeByOne);
            shapes.met_if(record.tag == END, Shape::RangeOfEnd);
        }
        (15, _, [at, ..]) if !given.strings.is_empty() => {
            shapes.met(Shape::RangeAndString);
            let earlier = |(named, _): &(Named, Why)| named.index < *at;
            let any_earlier = given.strings.iter().any(earlier);
            shapes.met_if(any_earlier, Shape::RangeAndEarlierString);
        }
        (22, ..) => {
            let left_over = &parts[8 * given.parts.len()..];
            let zeros = !left_over.is_empty() && left_over.iter().all(|&byte| byte == 0);
            let cut = matches!(given.strings[..], [(_, Why::HalfLent)]);
            shapes.met_if(zeros && cut, Shape::NumberCut);
            bad_string(shapes, &given, too_short);
        }
        (18, ..) => {
            let room = room(made.before).len();
            shapes.met_if(given.size == room + 1, Shape::RoomByteShort);
            shapes.met_if(room < 16, Shape::RoomBelowHead);
            shapes.met_if(room == 0, Shape::RoomNone);
            let long = made.before.len() > ROOM_LIMIT;
            shapes.met_if(long && given.size == 65_537, Shape::RoomPastTheLimit);
            let often = given.size > ROOM_LIMIT && run.len() < 1_000;
            shapes.met_if(often, Shape::PieceManyTimes);
        }
        _ => {}
    }
}

// ---- Written ----

fn written(shapes: &mut Shapes, made: &Made, given: &Given) {
    let length = made.before.len();
    shapes.met_if(given.count == 1, Shape::OneRecord);
    shapes.met_if(given.count == 1_024, Shape::MostRecords);
    shapes.met(match given.size == length {
        true => Shape::RoomExact,
        false => Shape::RoomLonger,
    });
    shapes.met_if(given.size == ROOM_LIMIT, Shape::RoomOfTheLimit);
    shapes.met_if(length > ROOM_LIMIT, Shape::LongOutput);
    let whole = given.size == ROOM_LIMIT && length > ROOM_LIMIT;
    shapes.met_if(whole, Shape::RoomOfTheLimitOfMore);
    for record in &given.records {
        words(shapes, record);
    }
    let numbers = given.parts.len();
    let used = given.named.iter().map(|named| named.at + 2).max();
    shapes.met_if(used == Some(numbers), Shape::PartsJust);
    shapes.met_if(numbers > name_part(given.count), Shape::PartsMore);
    let unnamed = |at: &usize| given.named.iter().all(|named| named.at != *at);
    let past = |at: usize| {
        let (start, length) = (given.parts[at], given.parts[at + 1]);
        end(start, length) > given.run.len() as u128
    };
    // Only the first few are looked at: there are many of them.
    let mut pairs = (0..numbers.min(20) / 2).map(|pair| 2 * pair);
    let unnamed_past = pairs.any(|at| unnamed(&at) && past(at));
    shapes.met_if(unnamed_past, Shape::UnnamedPast);
    strings(shapes, given);
}

fn words(shapes: &mut Shapes, record: &Record) {
    shapes.met(match record.tag {
        tags::FREE => Shape::WroteFree,
        tags::SELF => Shape::WroteSelf,
        tags::STACK => Shape::WroteStack,
        tags::KERNEL => Shape::WroteKernel,
        tags::LOADER => Shape::WroteLoader,
        tags::FILE => Shape::WroteFile,
        tags::RSDP => Shape::WroteRsdp,
        tags::FDT => Shape::WroteFdt,
        tags::FB => Shape::WroteFb,
        tags::CMDLINE => Shape::WroteCmdline,
        tags::RESERVED => Shape::WroteReserved,
        tags::END => Shape::WroteEnd,
        _ => Shape::WroteUnknown,
    });
    let at_the_top = end(record.start, record.size) == 1 << 64;
    shapes.met_if(at_the_top, Shape::RecordAtTheTop);
    let both = record.name != 0 && record.meta != 0;
    match record.tag {
        FILE => shapes.met_if(both, Shape::WordsReplaced),
        CMDLINE => shapes.met_if(record.name != 0, Shape::LineNameGiven),
        _ => shapes.met_if(both, Shape::OtherWordsGiven),
    }
}

fn strings(shapes: &mut Shapes, given: &Given) {
    let run = given.run;
    shapes.met_if(run.is_empty(), Shape::NoRun);
    let strings = given
        .named
        .iter()
        .filter_map(|named| given.string(named).ok());
    let mut strings: Vec<(usize, usize)> = strings
        .map(|(start, length)| (start as usize, (start + length) as usize))
        .collect();
    for &(start, end) in &strings {
        let (at_the_end, empty) = (end == run.len(), start == end);
        shapes.met_if(empty, Shape::StringEmpty);
        shapes.met_if(at_the_end && !empty, Shape::StringToTheEnd);
        shapes.met_if(at_the_end && empty, Shape::StringEmptyAtTheEnd);
        let zero_at = |at: usize| run.get(at) == Some(&0);
        shapes.met_if(empty && zero_at(start), Shape::StringEmptyAtZero);
        shapes.met_if(!empty && zero_at(end), Shape::ZeroAfter);
        let before = start.checked_sub(1);
        shapes.met_if(!empty && before.is_some_and(zero_at), Shape::ZeroBefore);
    }
    strings.sort();
    for pair in strings.windows(2) {
        let [(start, end), (next, _)] = [pair[0], pair[1]];
        shapes.met_if(pair[0] == pair[1] && start < end, Shape::SamePart);
        shapes.met_if(pair[0] != pair[1] && next < end, Shape::PartsOverlap);
    }
}

// ---- Strings that are refused ----

fn bad_string(shapes: &mut Shapes, given: &Given, too_short: bool) {
    shapes.met_if(too_short, Shape::StringAndRoom);
    shapes.met_if(given.parts.is_empty(), Shape::NoPart);
    shapes.met_if(given.parts.len() == 1, Shape::OneNumber);
    for (named, why) in &given.strings {
        // Where a name is not lent, neither is its meta.
        match (named.who, why) {
            (Who::Name, Why::HalfLent) => shapes.met(Shape::NameHalfLent),
            (Who::Name, Why::NotLent) => shapes.met(Shape::NameNotLent),
            _ => {}
        }
    }
    let lengths = given
        .named
        .iter()
        .filter_map(|named| given.parts.get(named.at + 1));
    let sum: u128 = lengths.map(|&length| u128::from(length)).sum();
    let wide = |(named, why): &(Named, Why)| *why == Why::Past && given.parts[named.at] == 0;
    shapes.met_if(
        sum >= 1 << 64 && given.strings.iter().all(wide),
        Shape::LengthsWrap,
    );
    let [(named, why)] = given.strings[..] else {
        return;
    };
    shapes.met(match (named.who, why) {
        (Who::Agent, Why::Zero) => Shape::AgentZero,
        (Who::Agent, Why::Past) => Shape::AgentPast,
        (Who::Agent, Why::HalfLent) => Shape::AgentHalfLent,
        (Who::Agent, Why::NotLent) => Shape::AgentNotLent,
        (Who::Name, Why::Zero) => Shape::NameZero,
        (Who::Name, Why::Past) => Shape::NamePast,
        (Who::Name, _) => return shapes.impossible(),
        (Who::Meta, Why::Zero) => Shape::MetaZero,
        (Who::Meta, Why::Past) => Shape::MetaPast,
        (Who::Meta, Why::HalfLent) => Shape::MetaHalfLent,
        (Who::Meta, Why::NotLent) => Shape::MetaNotLent,
        (Who::Line, Why::Zero) => Shape::LineZero,
        (Who::Line, Why::Past) => Shape::LinePast,
        (Who::Line, Why::HalfLent) => Shape::LineHalfLent,
        (Who::Line, Why::NotLent) => Shape::LineNotLent,
    });
    match why {
        Why::Zero => zero_byte(shapes, given, named.at),
        Why::Past => past_the_run(shapes, given, named.at),
        Why::HalfLent | Why::NotLent => {}
    }
}

fn zero_byte(shapes: &mut Shapes, given: &Given, at: usize) {
    let (start, length) = (given.parts[at] as usize, given.parts[at + 1] as usize);
    let zeros = given.run[start..][..length]
        .iter()
        .filter(|&&byte| byte == 0);
    if zeros.count() == 1 && length > 1 {
        shapes.met_if(given.run[start] == 0, Shape::ZeroFirst);
        shapes.met_if(given.run[start + length - 1] == 0, Shape::ZeroLast);
    }
}

fn past_the_run(shapes: &mut Shapes, given: &Given, at: usize) {
    let (start, length) = (given.parts[at], given.parts[at + 1]);
    let (sum, run) = (end(start, length), given.run.len() as u64);
    let by_one = sum == u128::from(run) + 1 && length > 0;
    // Nothing but the run's end is in the way.
    let no_zero = |start: usize| !given.run[start..].contains(&0);
    shapes.met_if(by_one && no_zero(start as usize), Shape::PastByOne);
    shapes.met_if(length == 0, Shape::EmptyPast);
    shapes.met_if(sum == 1 << 64, Shape::SumIsTop);
    let wraps = sum > 1 << 64 && start.wrapping_add(length) <= run;
    shapes.met_if(wraps, Shape::SumWraps);
    let low = |number: u64| number & 0xFFFF_FFFF;
    let wide = |number: u64| number >> 32 != 0;
    let start_wide = wide(start) && !wide(length) && low(start) + length <= run;
    shapes.met_if(start_wide, Shape::StartWide);
    let length_wide = wide(length) && !wide(start) && low(length) + start <= run;
    shapes.met_if(length_wide, Shape::LengthWide);
}
