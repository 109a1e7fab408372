//! The shapes of a memory map that is refused for its entries: "all entries are tried for 13, then
//! 15, then 16", so the order of the broken entries says nothing, and one entry alone can be what
//! gives the number.

use crate::format::{u32_at, u64_at, ENTRY_SIZE, HEADER_SIZE, MAP};
use crate::records::end;

/// The cases of a map, and what they are called where it is read and where it is given.
macro_rules! cases {
    ($($case:ident: $what:literal,)*) => {
        #[derive(Clone, Copy)]
        enum Case { $($case),* }
        const READ: &[&str] = &[$(concat!("maps read: ", $what)),*];
        const GIVEN: &[&str] = &[$(concat!("maps given: ", $what)),*];
    };
}

cases! {
    ValueThenRange: "13 in an earlier entry than 15",
    ValueThenOrder: "13 in an earlier entry than 16",
    RangeThenValue: "15 in an earlier entry than 13",
    RangeThenOrder: "15 in an earlier entry than 16",
    OrderThenValue: "16 in an earlier entry than 13",
    OrderThenRange: "16 in an earlier entry than 15",
    OrderRangeValue: "16, 15 and 13, each in a later entry than the one before",
    FirstValue: "13 for the first of several entries alone",
    FirstRange: "15 for the first of several entries alone",
    FirstOrder: "16 for the first two of several entries alone",
    LastValue: "13 for the last of several entries alone",
    LastRange: "15 for the last of several entries alone",
    LastOrder: "16 for the last of several entries alone",
    ValueAtRange: "13 for one entry alone, the first that is 15",
    ValueAfterRange: "13 for one entry alone, just after the first that is 15",
    ValueAtOrder: "13 for one entry alone, the first that is 16",
    ValueAfterOrder: "13 for one entry alone, just after the first that is 16",
    RangeAtOrder: "15 for one entry alone, the first that is 16",
    RangeAfterOrder: "15 for one entry alone, just after the first that is 16",
}

/// The names of all: of maps that are read, then of maps that are given.
pub const SHAPES: &[&str] = &super::joined::<{ READ.len() + GIVEN.len() }>(&[READ, GIVEN]);

/// The shapes of what reading a buffer answered, by their places among [`SHAPES`].
pub fn read(buf: &[u8], number: u64, start: usize) -> Vec<usize> {
    if !matches!(number, 13 | 15 | 16) || u32_at(buf, start) != MAP {
        return Vec::new();
    }
    let attribute = &buf[start..start + u32_at(buf, start + 4) as usize];
    let cases = cases(&attribute[HEADER_SIZE..]);
    cases.into_iter().map(|case| case as usize).collect()
}

/// The same of an add of a map to a buffer that is accepted.
pub fn given(entries: &[u8], number: u64) -> Vec<usize> {
    if !matches!(number, 13 | 15 | 16) {
        return Vec::new();
    }
    let cases = cases(entries).into_iter();
    cases.map(|case| READ.len() + case as usize).collect()
}

/// The entries that are 13, those that are 15 and those that are 16, each asked by itself.
fn broken(entries: &[u8]) -> [Vec<usize>; 3] {
    let mut broken: [Vec<usize>; 3] = Default::default();
    let mut previous_end = 0;
    for (index, entry) in entries.chunks_exact(ENTRY_SIZE).enumerate() {
        let (address, size, kind) = (u64_at(entry, 0), u64_at(entry, 8), u64_at(entry, 16));
        let end = end(address, size);
        let below = u128::from(address) < previous_end;
        for (broken, is) in broken.iter_mut().zip([kind == 0, end > 1 << 64, below]) {
            if is {
                broken.push(index);
            }
        }
        previous_end = end;
    }
    broken
}

fn cases(entries: &[u8]) -> Vec<Case> {
    let broken = broken(entries);
    let [value, range, order] = broken.each_ref().map(|broken| broken.first().copied());
    let earlier = |one: Option<usize>, other: Option<usize>| {
        one.zip(other).is_some_and(|(one, other)| one < other)
    };
    let all = earlier(order, range) && earlier(range, value);
    let mut cases = vec![
        (earlier(value, range), Case::ValueThenRange),
        (earlier(value, order), Case::ValueThenOrder),
        (earlier(range, value), Case::RangeThenValue),
        (earlier(range, order), Case::RangeThenOrder),
        (earlier(order, value), Case::OrderThenValue),
        (earlier(order, range), Case::OrderThenRange),
        (all, Case::OrderRangeValue),
    ];
    // Where one entry alone gives the number: that entry.
    let count = entries.len() / ENTRY_SIZE;
    let first = |at: usize| at == 0 && count > 1;
    let last = |at: usize| at == count - 1 && count > 1;
    let after = |at: usize, other: Option<usize>| other.is_some_and(|other| at == other + 1);
    match broken.each_ref().map(Vec::as_slice) {
        [&[at], ..] => cases.extend([
            (first(at), Case::FirstValue),
            (last(at), Case::LastValue),
            (range == Some(at), Case::ValueAtRange),
            (after(at, range), Case::ValueAfterRange),
            (order == Some(at), Case::ValueAtOrder),
            (after(at, order), Case::ValueAfterOrder),
        ]),
        [&[], &[at], _] => cases.extend([
            (first(at), Case::FirstRange),
            (last(at), Case::LastRange),
            (order == Some(at), Case::RangeAtOrder),
            (after(at, order), Case::RangeAfterOrder),
        ]),
        [&[], &[], &[at]] => cases.extend([
            (at == 1 && count > 2, Case::FirstOrder),
            (last(at) && count > 2, Case::LastOrder),
        ]),
        _ => {}
    }
    let met = cases.into_iter().filter(|(met, _)| *met);
    met.map(|(_, case)| case).collect()
}
