//! Handover payloads, on the model alone. Payloads are written byte by byte from 002, and
//! what is answered is worked out by hand.

use ultra_model::format::Number::{self, *};
use ultra_model::requests::handover::{read, record_at, write, Listed, Payload, Record};
use ultra_model::Refusal;

const FREE: u32 = 0x0000_0000;
const SELF: u32 = 0xa24f_988d;
const STACK: u32 = 0xf65b_391b;
const KERNEL: u32 = 0xbfc7_1b20;
const LOADER: u32 = 0xf1f8_0c26;
const FILE: u32 = 0xcbc3_6d3b;
const RSDP: u32 = 0x8ef2_9c18;
const FDT: u32 = 0xb628_bbc1;
const FB: u32 = 0xe2d5_5685;
const CMDLINE: u32 = 0x4351_40c4;
const RESERVED: u32 = 0xb884_1d2d;
const END: u32 = 0xffff_ffff;

/// What is past a payload, and in an output before it is written.
const JUNK: u8 = 0xAB;

/// The end alone, and an empty string, which the agent names: 49 bytes.
#[rustfmt::skip]
const LEAST: [u8; 49] = [
    0x01, 0xb0, 0x01, 0xc0, 0, 0, 0, 0, 49, 0, 0, 0, 1, 0, 0, 0, // Magic, agent, size, count.
    0xff, 0xff, 0xff, 0xff, 0, 0, 0, 0, 0, 0, 0, 0, 0, 0, 0, 0, // Tag, flags, start.
    0, 0, 0, 0, 0, 0, 0, 0, 0, 0, 0, 0, 0, 0, 0, 0, // Size, word at 24, word at 28.
    0, // The table.
];

/// A range, a file, a command line and the end: the agent "boot", the file "init" with the meta
/// "{}", the line "quiet". 163 bytes, in the form that is written.
#[rustfmt::skip]
const FOUR: [u8; 163] = [
    0x01, 0xb0, 0x01, 0xc0, 0, 0, 0, 0, 163, 0, 0, 0, 4, 0, 0, 0,
    // 16: FREE from 0x100000, 0x8000 bytes.
    0, 0, 0, 0, 0, 0, 0, 0, 0, 0, 0x10, 0, 0, 0, 0, 0,
    0, 0x80, 0, 0, 0, 0, 0, 0, 0, 0, 0, 0, 0, 0, 0, 0,
    // 48: FILE with flags 7 at 2^63, 3 bytes; its name at 5, its meta at 10.
    0x3b, 0x6d, 0xc3, 0xcb, 7, 0, 0, 0, 0, 0, 0, 0, 0, 0, 0, 0x80,
    3, 0, 0, 0, 0, 0, 0, 0, 5, 0, 0, 0, 10, 0, 0, 0,
    // 80: CMDLINE; its word at 24 is 0x01020304 and no offset, its meta at 13.
    0xc4, 0x40, 0x51, 0x43, 0, 0, 0, 0, 0, 0, 0, 0, 0, 0, 0, 0,
    0, 0, 0, 0, 0, 0, 0, 0, 4, 3, 2, 1, 13, 0, 0, 0,
    // 112: the end.
    0xff, 0xff, 0xff, 0xff, 0, 0, 0, 0, 0, 0, 0, 0, 0, 0, 0, 0,
    0, 0, 0, 0, 0, 0, 0, 0, 0, 0, 0, 0, 0, 0, 0, 0,
    // 144: the table.
    b'b', b'o', b'o', b't', 0,
    b'i', b'n', b'i', b't', 0,
    b'{', b'}', 0,
    b'q', b'u', b'i', b'e', b't', 0,
];

fn at(number: Number, offset: u32) -> Refusal {
    Refusal { number, offset }
}

fn put(bytes: &mut [u8], at: usize, value: &[u8]) {
    bytes[at..at + value.len()].copy_from_slice(value);
}

/// The bytes with others in their place from `at` on.
fn with(bytes: &[u8], at: usize, value: &[u8]) -> Vec<u8> {
    let mut bytes = bytes.to_vec();
    put(&mut bytes, at, value);
    bytes
}

fn with_word(bytes: &[u8], at: usize, word: u32) -> Vec<u8> {
    with(bytes, at, &word.to_le_bytes())
}

/// The 32 bytes of a record without flags.
fn record(tag: u32, start: u64, size: u64, name: u32, meta: u32) -> Vec<u8> {
    let mut bytes = vec![0; 32];
    put(&mut bytes, 0, &tag.to_le_bytes());
    put(&mut bytes, 8, &start.to_le_bytes());
    put(&mut bytes, 16, &size.to_le_bytes());
    put(&mut bytes, 24, &name.to_le_bytes());
    put(&mut bytes, 28, &meta.to_le_bytes());
    bytes
}

fn end() -> Vec<u8> {
    record(END, 0, 0, 0, 0)
}

fn free() -> Vec<u8> {
    record(FREE, 0, 0, 0, 0)
}

/// A payload of these records and this table, whose head says the truth.
fn payload(agent: u32, records: &[Vec<u8>], table: &[u8]) -> Vec<u8> {
    let mut bytes = vec![0x01, 0xb0, 0x01, 0xc0];
    let size = 16 + 32 * records.len() + table.len();
    bytes.extend(agent.to_le_bytes());
    bytes.extend((size as u32).to_le_bytes());
    bytes.extend((records.len() as u32).to_le_bytes());
    bytes.extend(records.concat());
    bytes.extend(table);
    bytes
}

/// The used length, or the refusal.
fn used(buf: &[u8]) -> Result<usize, Refusal> {
    read(buf).map(|payload| payload.size)
}

// ---- Reading ----

#[test]
fn the_least_payload_is_read() {
    let end = Record {
        tag: END,
        flags: 0,
        start: 0,
        size: 0,
        name: 0,
        meta: 0,
    };
    let payload = Payload {
        size: 49,
        agent: 0,
        agent_name: 48..48,
        records: vec![Listed {
            record: end,
            name: 0..0,
            meta: 0..0,
        }],
    };
    assert_eq!(read(&LEAST), Ok(payload));
    for length in 0..49 {
        let number = if length < 16 { Short } else { Payload };
        assert_eq!(used(&LEAST[..length]), Err(at(number, 0)), "{length}");
    }
}

#[test]
fn records_and_strings_are_read() {
    let payload = read(&FOUR).unwrap();
    assert_eq!((payload.size, payload.agent), (163, 0));
    assert_eq!(&FOUR[payload.agent_name.clone()], b"boot");
    assert_eq!(payload.agent_name.start, 144);
    let file = &payload.records[1];
    let words = Record {
        tag: FILE,
        flags: 7,
        start: 1 << 63,
        size: 3,
        name: 5,
        meta: 10,
    };
    assert_eq!(file.record, words);
    assert_eq!((&file.name, &file.meta), (&(149..153), &(154..156)));
    let line = &payload.records[2];
    assert_eq!((line.record.tag, line.record.name), (CMDLINE, 0x0102_0304));
    assert_eq!((&line.name, &line.meta), (&(0..0), &(157..162)));
    let free = &payload.records[0];
    assert_eq!((free.record.start, free.record.size), (0x10_0000, 0x8000));
    assert_eq!((&free.name, &free.meta), (&(0..0), &(0..0)));
    assert_eq!(payload.records.len(), 4);
}

#[test]
fn bytes_past_the_size_do_not_matter() {
    for after in [vec![0], vec![JUNK; 9], vec![0; 70_000]] {
        let longer = [&FOUR[..], &after].concat();
        assert_eq!(read(&longer), read(&FOUR));
    }
}

#[test]
fn the_head_is_refused_in_order() {
    let with_head = |words: [(usize, u32); 2]| {
        let bytes = with_word(&FOUR, words[0].0, words[0].1);
        with_word(&bytes, words[1].0, words[1].1)
    };
    for magic in [0xc001_b000, 0xc001_b002, 0x01b0_01c0, 0, 0x4001_b001] {
        assert_eq!(used(&with_word(&FOUR, 0, magic)), Err(at(Magic, 0)));
        // 20 before 3, 21 and 22.
        for (place, word) in [(12, 0), (8, 0), (4, 99)] {
            let both = with_head([(0, magic), (place, word)]);
            assert_eq!(used(&both), Err(at(Magic, 0)));
        }
    }
    // 1 before 20.
    assert_eq!(used(&[0; 15]), Err(at(Short, 0)));
    assert_eq!(used(&[]), Err(at(Short, 0)));
    assert_eq!(used(&[0; 16]), Err(at(Magic, 0)));
    for count in [0, 1_025, u32::MAX, 1 << 31 | 4, 1 << 16 | 4] {
        assert_eq!(used(&with_word(&FOUR, 12, count)), Err(at(Count, 0)));
        // 3 before 21 and 22.
        for (place, word) in [(8, 0), (8, 15), (8, 164), (8, u32::MAX), (4, 99)] {
            let both = with_head([(12, count), (place, word)]);
            assert_eq!(used(&both), Err(at(Count, 0)));
        }
    }
    // The records end at 144, and the room at 163.
    for size in [
        0,
        16,
        48,
        112,
        143,
        164,
        1 << 16 | 163,
        1 << 31 | 163,
        u32::MAX,
    ] {
        let bytes = with_word(&FOUR, 8, size);
        assert_eq!(used(&bytes), Err(at(Payload, 0)), "{size}");
        // 21 before 23, 15 and 22.
        assert_eq!(used(&with_word(&bytes, 112, 0)), Err(at(Payload, 0)));
        let range = with(&bytes, 24, &[0xff; 16]);
        assert_eq!(used(&range), Err(at(Payload, 0)));
        assert_eq!(used(&with_word(&bytes, 4, 99)), Err(at(Payload, 0)));
    }
}

#[test]
fn counts_go_to_1024() {
    let list = |count: usize| {
        let mut records = vec![free(); count - 1];
        records.push(end());
        payload(0, &records, &[0])
    };
    for count in [1, 2, 1_023, 1_024] {
        assert_eq!(used(&list(count)), Ok(16 + 32 * count + 1));
    }
    assert_eq!(used(&list(1_025)), Err(at(Count, 0)));
}

#[test]
fn the_room_ends_at_65536() {
    // One record: the table has the rest.
    let whole = payload(0, &[end()], &[0; 65_536 - 48]);
    assert_eq!(used(&whole), Ok(65_536));
    assert_eq!(used(&whole[..65_535]), Err(at(Payload, 0)));
    let longer = [&whole[..], &[0; 100]].concat();
    assert_eq!(used(&longer), Ok(65_536));
    let past = with_word(&longer, 8, 65_537);
    assert_eq!(used(&past), Err(at(Payload, 0)));
    // A string that only the byte past the room would close.
    let open = payload(65_487, &[end()], &[1; 65_536 - 48]);
    assert_eq!(used(&[&open[..], &[0]].concat()), Err(at(String, 0)));
}

#[test]
fn the_end_is_the_last_and_no_other() {
    let list = |tags: &[u32]| {
        let records: Vec<Vec<u8>> = tags.iter().map(|tag| record(*tag, 0, 0, 0, 0)).collect();
        used(&payload(0, &records, &[0]))
    };
    assert_eq!(list(&[END]), Ok(49));
    assert_eq!(list(&[FREE]), Err(at(End, 16)));
    assert_eq!(list(&[FREE, END]), Ok(81));
    assert_eq!(list(&[END, END]), Err(at(End, 16)));
    assert_eq!(list(&[END, FREE]), Err(at(End, 16)));
    assert_eq!(list(&[FREE, FREE]), Err(at(End, 48)));
    assert_eq!(list(&[FREE, END, END]), Err(at(End, 48)));
    assert_eq!(list(&[FREE, END, FREE]), Err(at(End, 48)));
    assert_eq!(list(&[FREE, FREE, 0xffff_fffe]), Err(at(End, 80)));
}

#[test]
fn every_tag_passes() {
    let known = [
        FREE, SELF, STACK, KERNEL, LOADER, FILE, RSDP, FDT, FB, CMDLINE, RESERVED,
    ];
    let unknown = [1, 0xffff_fffe, 0x7fff_ffff, FILE ^ 1, CMDLINE.swap_bytes()];
    for tag in known.into_iter().chain(unknown) {
        let records = [record(tag, 1, 2, 0, 0), end()];
        assert_eq!(used(&payload(0, &records, &[0])), Ok(81), "{tag:#x}");
        // With words that are no offset of the table.
        let records = [record(tag, 1, 2, 1, 1), end()];
        let named = tag == FILE || tag == CMDLINE;
        let answer = if named { Err(at(String, 16)) } else { Ok(81) };
        assert_eq!(used(&payload(0, &records, &[0])), answer, "{tag:#x}");
    }
    // Any words in the end record, and any flags.
    let full = with_word(&record(END, 1, 2, u32::MAX, u32::MAX), 4, u32::MAX);
    assert_eq!(used(&payload(0, &[full], &[0])), Ok(49));
}

#[test]
fn ranges_go_to_the_top() {
    let top = 0u64.wrapping_sub(4_096);
    let max = u64::MAX;
    for tag in [FREE, FILE, CMDLINE, 0x1234, END] {
        // The end by itself, another one before it.
        let list = |start, size| {
            let records = [record(tag, start, size, 0, 0), end()];
            let records = if tag == END { &records[..1] } else { &records };
            used(&payload(0, records, &[0]))
        };
        for (start, size) in [(0, 0), (0, max), (max, 0), (max, 1), (1, max), (top, 4_096)] {
            assert!(list(start, size).is_ok(), "{start} {size}");
        }
        for (start, size) in [(max, 2), (2, max), (top, 4_097), (max, max), (1 << 63, max)] {
            assert_eq!(list(start, size), Err(at(Range, 16)), "{start} {size}");
        }
    }
    let last = record(END, max, 2, 0, 0);
    assert_eq!(used(&payload(0, &[free(), last], &[0])), Err(at(Range, 48)));
}

#[test]
fn records_are_refused_one_by_one() {
    let long = |tag| record(tag, u64::MAX, 2, 0, 0);
    let list = |records: &[Vec<u8>]| used(&payload(9, records, &[0]));
    // 23 before 15 in one record; an earlier record's 15 before a later one's 23.
    assert_eq!(list(&[long(FREE)]), Err(at(End, 16)));
    assert_eq!(list(&[long(END), end()]), Err(at(End, 16)));
    assert_eq!(list(&[long(FREE), end(), end()]), Err(at(Range, 16)));
    assert_eq!(list(&[end(), long(FREE), end()]), Err(at(End, 16)));
    assert_eq!(list(&[long(FREE), free()]), Err(at(Range, 16)));
    assert_eq!(list(&[free(), long(FREE), long(END)]), Err(at(Range, 48)));
    // 22 after all records: the agent of these is past the table.
    assert_eq!(list(&[free(), free(), long(END)]), Err(at(Range, 80)));
    let bad_file = record(FILE, 0, 0, 99, 99);
    assert_eq!(list(&[bad_file.clone(), long(END)]), Err(at(Range, 48)));
    assert_eq!(list(&[bad_file, free()]), Err(at(End, 48)));
    assert_eq!(list(&[free(), end()]), Err(at(String, 0)));
}

#[test]
fn strings_start_in_the_table_and_close_there() {
    let table = b"ab\0c\0";
    for (agent, length) in [(0, 2), (1, 1), (2, 0), (3, 1), (4, 0)] {
        let name = read(&payload(agent, &[end()], table)).unwrap().agent_name;
        assert_eq!((name.start, name.len()), (48 + agent as usize, length));
    }
    for agent in [5, 6, u32::MAX, u32::MAX - 47, u32::MAX - 15] {
        let bytes = payload(agent, &[end()], table);
        assert_eq!(used(&bytes), Err(at(String, 0)), "{agent}");
        assert_eq!(used(&[&bytes[..], &[0; 8]].concat()), Err(at(String, 0)));
    }
    // Without the last zero, and with one past the size.
    for agent in [0, 1, 2] {
        assert_eq!(used(&payload(agent, &[end()], &table[..4])), Ok(52));
    }
    let open = payload(3, &[end()], &table[..4]);
    assert_eq!(used(&open), Err(at(String, 0)));
    assert_eq!(used(&[&open[..], &[0]].concat()), Err(at(String, 0)));
    // No table: not even an empty string.
    let none = payload(0, &[end()], &[]);
    assert_eq!(used(&none), Err(at(String, 0)));
    assert_eq!(used(&[&none[..], &[0]].concat()), Err(at(String, 0)));
}

#[test]
fn files_and_command_lines_name_strings() {
    let list = |record: Vec<u8>| used(&payload(0, &[free(), record, end()], b"a\0b"));
    let refused = Err(at(String, 48));
    assert_eq!(list(record(FILE, 0, 0, 1, 1)), Ok(115));
    for bad in [2, 3, 4, u32::MAX] {
        assert_eq!(list(record(FILE, 0, 0, bad, 1)), refused);
        assert_eq!(list(record(FILE, 0, 0, 1, bad)), refused);
        assert_eq!(list(record(CMDLINE, 0, 0, 1, bad)), refused);
        assert_eq!(list(record(CMDLINE, 0, 0, bad, 1)), Ok(115));
        assert_eq!(list(record(FB, 0, 0, bad, bad)), Ok(115));
        assert_eq!(list(record(1, 0, 0, bad, bad)), Ok(115));
    }
    // The agent first, then the first record.
    let bad = record(FILE, 0, 0, 9, 9);
    let both = [bad.clone(), bad.clone(), end()];
    assert_eq!(used(&payload(3, &both, b"a\0b")), Err(at(String, 0)));
    assert_eq!(used(&payload(0, &both, b"a\0b")), Err(at(String, 16)));
    let second = [free(), bad, end()];
    assert_eq!(used(&payload(0, &second, b"a\0b")), Err(at(String, 48)));
}

#[test]
fn strings_may_be_shared_and_overlap() {
    let table = b"\xff\x80kernel\0";
    let records = [record(FILE, 0, 0, 0, 2), record(CMDLINE, 0, 0, 0, 8), end()];
    let payload = read(&payload(2, &records, table)).unwrap();
    assert_eq!(payload.agent_name, 114..120);
    assert_eq!(payload.records[0].name, 112..120);
    assert_eq!(payload.records[0].meta, 114..120);
    assert_eq!(payload.records[1].meta, 120..120);
}

#[test]
fn slack_is_silent() {
    let records = [record(CMDLINE, 0, 0, 0, 7), end()];
    let first = payload(2, &records, b"..ab\0..cd\0..");
    for slack in [0, 1, 5, 6, 10, 11] {
        for byte in [0, 1, 255] {
            let second = with(&first, 80 + slack, &[byte]);
            assert_eq!(read(&second), read(&first));
        }
    }
}

#[test]
fn questions_go_to_the_count() {
    for (index, tag) in [(0, FREE), (1, FILE), (2, CMDLINE), (3, END)] {
        let (size, listed) = record_at(&FOUR, index).unwrap();
        assert_eq!((size, listed.record.tag), (163, tag));
    }
    let past = [4, 5, 1_024, 1 << 32, 1 << 32 | 3, 1 << 63, u64::MAX];
    for index in past {
        assert_eq!(record_at(&FOUR, index), Err(at(Count, 163)), "{index}");
    }
    // A refused buffer is refused at any index.
    for index in [0, 4, u64::MAX] {
        let refused = Err(at(String, 0));
        assert_eq!(record_at(&with_word(&FOUR, 4, 19), index), refused);
    }
}

// ---- Writing ----

/// What makes [`FOUR`]: its records with other words in the place of offsets, and the strings
/// in another order, one overlapping another's closing zero.
fn given() -> (Vec<u8>, Vec<u64>, Vec<u8>) {
    let mut records = FOUR[16..144].to_vec();
    put(&mut records, 32 + 24, &[0xff; 8]);
    put(&mut records, 64 + 28, &[0x77; 4]);
    let run = b"quiet{}init\0boot".to_vec();
    let (any, far) = (u64::MAX, 1 << 40);
    let parts = vec![
        12, 4, // The agent.
        far, 1, 0, any, // FREE names nothing.
        7, 4, 5, 2, // FILE.
        any, any, 0, 5, // CMDLINE has no name.
        any, 0, far, far, // The end.
    ];
    (records, parts, run)
}

/// Writes into so many bytes of junk. Every byte past the size, or all in a refusal, is to stay.
fn made(length: usize, records: &[u8], parts: &[u64], run: &[u8]) -> Result<Vec<u8>, Refusal> {
    let mut buf = vec![JUNK; length];
    let answer = write(&mut buf, records, parts, run);
    let size = *answer.as_ref().unwrap_or(&0);
    assert!(buf[size..].iter().all(|&byte| byte == JUNK));
    answer.map(|size| buf[..size].to_vec())
}

#[test]
fn a_payload_is_written() {
    let (records, parts, run) = given();
    for length in [163, 164, 500, 65_536, 70_000] {
        let written = made(length, &records, &parts, &run);
        assert_eq!(written.as_deref(), Ok(&FOUR[..]), "{length}");
    }
    for length in [0, 1, 15, 16, 143, 144, 162] {
        let written = made(length, &records, &parts, &run);
        assert_eq!(written, Err(at(Room, 0)), "{length}");
    }
    // Written again from its own bytes.
    let parts = [144, 4, 0, 0, 0, 0, 149, 4, 154, 2, 0, 0, 157, 5];
    let again = made(163, &FOUR[16..144], &parts, &FOUR);
    assert_eq!(again.as_deref(), Ok(&FOUR[..]));
}

#[test]
fn the_least_payload_is_written() {
    let written = made(49, &LEAST[16..48], &[0, 0], &[]);
    assert_eq!(written.as_deref(), Ok(&LEAST[..]));
    assert_eq!(made(48, &LEAST[16..48], &[0, 0], &[]), Err(at(Room, 0)));
}

#[test]
fn whole_records_count() {
    let (records, parts, run) = given();
    for more in [1, 31] {
        let longer = [&records[..], &vec![0xff; more]].concat();
        let written = made(200, &longer, &parts, &run);
        assert_eq!(written.as_deref(), Ok(&FOUR[..]));
    }
    // 3 for none, and for one too many.
    for length in [0, 1, 31] {
        let written = made(200, &records[..length], &parts, &run);
        assert_eq!(written, Err(at(Count, 0)));
    }
    let list = |count: usize| [free().repeat(count - 1), end()].concat();
    let size = |count: usize| made(40_000, &list(count), &[0, 0], &[]).map(|bytes| bytes.len());
    assert_eq!(size(1_024), Ok(16 + 32 * 1_024 + 1));
    assert_eq!(size(1_025), Err(at(Count, 0)));
}

#[test]
fn strings_are_written_each_by_itself() {
    // One part for all, which is written three times.
    let records = [record(FILE, 0, 0, 9, 9), end()].concat();
    let parts = [1, 2, 1, 2, 1, 2];
    let written = made(89, &records, &parts, b"xabx").unwrap();
    let expected = payload(0, &[record(FILE, 0, 0, 3, 6), end()], b"ab\0ab\0ab\0");
    assert_eq!(written, expected);
    // A file's name first, then its meta; a command line has no name.
    let records = [record(CMDLINE, 0, 0, 7, 7), record(FILE, 0, 0, 7, 7), end()].concat();
    let parts = [0, 1, 9, 9, 1, 2, 3, 3, 6, 0];
    let written = made(200, &records, &parts, b"abbccc").unwrap();
    let records = [record(CMDLINE, 0, 0, 7, 2), record(FILE, 0, 0, 5, 9), end()];
    assert_eq!(written, payload(0, &records, b"a\0bb\0ccc\0\0"));
}

#[test]
fn strings_lie_in_the_run() {
    let run = b"ab\0cd";
    let agent = |start, length| {
        let written = made(60, &end(), &[start, length], run);
        written.map(|bytes| bytes[48..].to_vec())
    };
    assert_eq!(agent(0, 2), Ok(b"ab\0".to_vec()));
    assert_eq!(agent(3, 2), Ok(b"cd\0".to_vec()));
    assert_eq!(agent(1, 1), Ok(b"b\0".to_vec()));
    // Empty ones, at a zero byte and at the run's end.
    for start in 0..=5 {
        assert_eq!(agent(start, 0), Ok(vec![0]));
    }
    for (start, length) in [(0, 3), (2, 1), (2, 2), (1, 3), (0, 5)] {
        assert_eq!(agent(start, length), Err(at(String, 0)), "a zero byte");
    }
    let top = u64::MAX;
    for (start, length) in [
        (3, 3),
        (5, 1),
        (6, 0),
        (top, 0),
        (top, 1),
        (top, 2),
        (4, top),
        (1 << 63, 1 << 63),
        (1 << 32, 0),
        (0, 1 << 32 | 1),
    ] {
        assert_eq!(agent(start, length), Err(at(String, 0)), "{start} {length}");
    }
}

#[test]
fn named_strings_are_lent() {
    let (records, parts, run) = given();
    // The numbers of the end are not looked at, nor any after them.
    for length in 14..=18 {
        let written = made(163, &records, &parts[..length], &run);
        assert_eq!(written.as_deref(), Ok(&FOUR[..]), "{length} numbers");
    }
    let more = [&parts[..], &[u64::MAX; 9]].concat();
    let written = made(163, &records, &more, &run);
    assert_eq!(written.as_deref(), Ok(&FOUR[..]));
    for length in 0..14 {
        let written = made(163, &records, &parts[..length], &run);
        assert_eq!(written, Err(at(String, 0)), "{length} numbers");
    }
    // Each by itself: the agent's, the file's name and meta, the line's.
    for place in [0, 6, 8, 12] {
        for (start, length) in [(11, 1), (0, 17), (17, 0)] {
            let mut parts = parts.clone();
            (parts[place], parts[place + 1]) = (start, length);
            let written = made(163, &records, &parts, &run);
            assert_eq!(written, Err(at(String, 0)), "part at {place}");
        }
    }
}

#[test]
fn writing_is_refused_in_order() {
    let long = |tag| record(tag, u64::MAX, 2, 0, 0);
    let bad_file = record(FILE, 0, 0, 0, 0);
    let (none, some): (&[u64], &[u64]) = (&[], &[0, 0]);
    let cases = [
        // 3 before 23, 15, 22 and 18.
        (vec![], none, Count),
        (vec![long(FREE); 1_025], none, Count),
        // 23, in whatever record, before 15, in whatever record.
        (vec![long(FREE), free()], none, End),
        (vec![long(FREE), end(), end()], none, End),
        (vec![end(), long(FREE), end()], none, End),
        (vec![long(FREE)], none, End),
        // 15, in whatever record, before 22.
        (vec![free(), long(END)], none, Range),
        (vec![bad_file.clone(), long(END)], some, Range),
        (vec![long(END)], some, Range),
        // 22 before 18.
        (vec![free(), end()], none, String),
        (vec![bad_file, end()], some, String),
        (vec![free(), end()], some, Room),
    ];
    for (records, parts, number) in cases {
        // In no room, and in enough of it.
        for length in [0, 15, 16, 60] {
            let written = made(length, &records.concat(), parts, &[]);
            assert_eq!(written, Err(at(number, 0)), "{length} bytes");
        }
    }
}

#[test]
fn the_room_is_filled_to_its_limit() {
    // 16 + 32 × 1,024 + 2,047 × 16 = 65,536.
    let records = [record(FILE, 0, 0, 0, 0).repeat(1_023), end()].concat();
    let parts: Vec<u64> = [0, 15].repeat(2_047);
    let run = [b'x'; 40];
    for length in [65_536, 65_537, 131_072] {
        let written = made(length, &records, &parts, &run).unwrap();
        assert_eq!(written.len(), 65_536);
        assert_eq!(used(&written), Ok(65_536));
    }
    assert_eq!(made(65_535, &records, &parts, &run), Err(at(Room, 0)));
    // One byte more, or 2,047 times all of the run.
    let mut longer = parts.clone();
    longer[1] = 16;
    let whole: Vec<u64> = [0, 40].repeat(2_047);
    for parts in [longer, whole] {
        assert_eq!(made(131_072, &records, &parts, &run), Err(at(Room, 0)));
    }
}

#[test]
fn what_is_written_is_read() {
    let (records, parts, run) = given();
    let mut buf = vec![JUNK; 300];
    assert_eq!(write(&mut buf, &records, &parts, &run), Ok(163));
    assert_eq!(read(&buf), read(&FOUR));
    // Over what was there.
    assert_eq!(write(&mut buf, &LEAST[16..48], &[0, 0], &[]), Ok(49));
    assert_eq!(buf[..49], LEAST);
    assert_eq!(buf[49..163], FOUR[49..]);
}
