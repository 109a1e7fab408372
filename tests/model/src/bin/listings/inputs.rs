//! The inputs: what kind the one of an index is, its bytes, and how the program gets them.
//! All of it comes from the seed and the index alone.

use ultra_model::generator::contexts::{self, Layout};
use ultra_model::generator::rng::Rng;

use crate::fullest;
use crate::likely;

/// How the bytes come to the program's standard input.
#[derive(Clone, Copy, Debug, PartialEq, Eq)]
pub enum Feed {
    /// Through a pipe, in one write.
    Whole,
    /// Through a pipe, in writes that end at these places and at the end, with pauses.
    Pieces([usize; 3]),
    /// From a file.
    File,
    /// From what cannot be read: a folder. The input is then empty.
    Unreadable,
}

pub struct Input {
    pub kind: &'static str,
    pub bytes: Vec<u8>,
    pub feed: Feed,
}

type Make = fn(&mut Rng) -> Vec<u8>;

/// The kinds, with how many of 256 inputs are of each.
const KINDS: [(&str, usize, Make); 16] = [
    ("valid", 22, |rng| contexts::valid(rng, false).buffer.bytes),
    ("foreign", 30, |rng| contexts::valid(rng, true).buffer.bytes),
    ("likely", 56, likely::context),
    ("many", 10, |rng| contexts::many(rng).buffer.bytes),
    ("large", 10, |rng| contexts::large(rng).buffer.bytes),
    ("fullest", 12, fullest::context),
    ("long", 5, long),
    ("spoilt", 28, |rng| contexts::spoilt(rng).buffer.bytes),
    ("boundary", 34, |rng| contexts::boundary(rng).buffer.bytes),
    ("retyped", 8, retyped),
    ("cut", 12, |rng| contexts::cut(rng).buffer.bytes),
    ("byte", 12, |rng| contexts::byte(rng).buffer.bytes),
    ("head", 9, |rng| contexts::head(rng).buffer.bytes),
    ("random", 4, |rng| contexts::random(rng).buffer.bytes),
    ("begun", 3, |rng| contexts::begun(rng).buffer.bytes),
    ("unreadable", 1, |_| Vec::new()),
];

fn kind_of(index: u64) -> (&'static str, Make) {
    // An odd factor spreads the kinds over any run of indices.
    let mut place = (index.wrapping_mul(101) % 256) as usize;
    for (name, share, make) in KINDS {
        if place < share {
            return (name, make);
        }
        place -= share;
    }
    unreachable!("the shares add up to 256")
}

pub fn make(seed: u64, index: u64) -> Input {
    let rng = &mut Rng::for_input(seed, index);
    let (kind, make) = kind_of(index);
    let bytes = make(rng);
    let feed = match kind {
        "unreadable" => Feed::Unreadable,
        _ => feed(rng, bytes.len()),
    };
    Input { kind, bytes, feed }
}

fn feed(rng: &mut Rng, length: usize) -> Feed {
    match rng.below(100) {
        0..=3 => {
            let mut ends = [(); 3].map(|()| rng.below(length + 1));
            ends.sort();
            Feed::Pieces(ends)
        }
        4..=8 => Feed::File,
        _ => Feed::Whole,
    }
}

/// A context with so much after it that the room ends there.
fn long(rng: &mut Rng) -> Vec<u8> {
    let foreign = rng.chance(50);
    let mut bytes = contexts::valid(rng, foreign).buffer.bytes;
    let after = contexts::ROOM + rng.pick(&[0, 1, 4_096, 65_536, 500_000]);
    bytes.extend(rng.bytes(after));
    bytes
}

/// Good attributes, one of type 0 among them or one that may not occur twice: refusals that
/// few other inputs have.
fn retyped(rng: &mut Rng) -> Vec<u8> {
    let mut types = contexts::types(rng, true);
    let kind = rng.pick(&[0, 3, 5, 6]);
    types.insert(2 + rng.below(types.len() - 1), kind);
    types.push(kind);
    Layout::of(&contexts::good_records(rng, &types)).bytes()
}
