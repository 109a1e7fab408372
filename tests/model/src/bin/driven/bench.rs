//! The program and the model on one buffer: every call of the generator is made in one of its
//! published forms, on both.

use ultra_model::driving::frame::{put_frame, Lent};
use ultra_model::driving::table::{adds, COMMAND_LINE, FIRST, LISTING_LENGTH};
use ultra_model::driving::{Answer, Driver};
use ultra_model::generator::call::Call;
use ultra_model::generator::given::Start;
use ultra_model::generator::inputs::{Bench, Difference, Kind};
use ultra_model::generator::rng::Rng;
use ultra_model::listing::listing;
use ultra_model::reading;
use ultra_model::tally::Tally;

use crate::link::Link;
use crate::spelling::{self, Asked};
use crate::tally::{self, Made, ALL, ROWS};

/// Set apart from the numbers that make the input itself.
const SALT: u64 = 0x4452_4956_454E;
/// Of the calls on a buffer longer than this, fewer are made.
const LONG: usize = 8_192;

pub struct Driven {
    pub link: Link,
    /// The model, with the buffer that the program has too.
    pub model: Driver,
    pub tally: Tally,
    rng: Rng,
    index: u64,
    /// Whether good records may be given with a fault.
    faults: bool,
    start: Start,
    /// What the next call is lent, where it is not the buffer kept.
    next: Option<Vec<u8>>,
    changed: bool,
    /// Whether adding accepts the buffer as it is now, once asked.
    accepted: Option<bool>,
    /// The last call, with its buffer's bytes in place of the word for the kept one.
    pub whole: Vec<u8>,
    frame: Vec<u8>,
    expected: Vec<u8>,
}

impl Driven {
    pub fn new(link: Link) -> Driven {
        Driven {
            link,
            model: Driver::default(),
            tally: Tally::new(ROWS, ALL),
            rng: Rng::for_input(0, 0),
            index: 0,
            faults: false,
            start: Start::default(),
            next: None,
            changed: false,
            accepted: None,
            whole: Vec::new(),
            frame: Vec::new(),
            expected: Vec::new(),
        }
    }

    /// Lends these bytes to the next call.
    pub fn load(&mut self, bytes: Vec<u8>) {
        self.next = Some(bytes);
        self.changed = false;
        self.accepted = None;
    }

    /// Makes a call with the buffer that is due: given where it has to be, or now and then.
    pub fn make(&mut self, asked: &Asked) -> Result<Answer, Difference> {
        let given = self.rng.chance(15);
        self.make_with(asked, given)
    }

    /// Makes a call with the buffer kept, where the program has it.
    pub fn make_kept(&mut self, asked: &Asked) -> Result<Answer, Difference> {
        self.make_with(asked, false)
    }

    fn make_with(&mut self, asked: &Asked, given: bool) -> Result<Answer, Difference> {
        let lends = asked.call != FIRST;
        let next = if lends { self.next.take() } else { None };
        let kept = lends && next.is_none() && !given;
        let before = next.unwrap_or_else(|| self.model.buffer.clone());
        let mut frame = std::mem::take(&mut self.frame);
        put(&mut frame, asked, lends.then_some(lent(&before, kept)));
        let accepted =
            adds(asked.call) && *self.accepted.get_or_insert_with(|| adding_accepts(&before));
        let answer = self.send(&frame, |whole| {
            put(whole, asked, lends.then_some(Lent::Bytes(&before)))
        });
        self.frame = frame;
        let answer = answer?;
        let made = Made {
            asked,
            answer: &answer,
            before: &before,
            kept: kept.then_some(self.changed),
            accepted,
        };
        tally::count(&mut self.tally, &made);
        if lends && before != self.model.buffer {
            self.changed = true;
            self.accepted = None;
        }
        Ok(answer)
    }

    /// Makes the call of any frame, on both sides. `whole` puts it with its buffer's bytes.
    pub fn send(
        &mut self,
        frame: &[u8],
        whole: impl FnOnce(&mut Vec<u8>),
    ) -> Result<Answer, Difference> {
        if let Link::Shown(_) = self.link {
            whole(&mut self.whole);
        }
        let answer = self.model.answer(frame);
        self.expected.clear();
        self.model.put_answer(&mut self.expected, &answer);
        self.link.exchange(self.index, frame, &self.expected)?;
        Ok(answer)
    }

    /// The listing, its length and the first cursor, which no call toward C has.
    fn make_others(&mut self) -> Result<(), Difference> {
        let rng = &mut self.rng;
        let (list, length, first) = (rng.chance(20), rng.chance(12), rng.chance(4));
        if list {
            let lines = listing(self.bytes()).len();
            let asked = spelling::list(&mut self.rng, lines);
            self.make(&asked)?;
        }
        if length {
            self.make(&Asked::new(LISTING_LENGTH, &[], &[]))?;
        }
        if first {
            self.make(&Asked::new(FIRST, &[], &[]))?;
        }
        Ok(())
    }

    pub fn finish(self) -> (Tally, Option<crate::link::Found>) {
        (self.tally, self.link.finish(self.index))
    }
}

fn lent(bytes: &[u8], kept: bool) -> Lent<'_> {
    match kept {
        true => Lent::Kept,
        false => Lent::Bytes(bytes),
    }
}

fn put(frame: &mut Vec<u8>, asked: &Asked, buffer: Option<Lent>) {
    let strings = asked.strings.iter().map(|string| Lent::Bytes(string));
    let strings: Vec<Lent> = buffer.into_iter().chain(strings).collect();
    frame.clear();
    put_frame(frame, asked.call, &asked.numbers, &strings);
}

fn adding_accepts(buffer: &[u8]) -> bool {
    reading::read(buffer, 0).is_ok()
}

impl Bench for Driven {
    const WALKED: usize = 6_000;

    fn input(&mut self, seed: u64, index: u64, kind: Kind) {
        if let Link::Shown(_) = self.link {
            eprintln!("seed {seed:#x}, index {index}: {}", kind.what());
        }
        self.rng = Rng::for_input(seed ^ SALT, index);
        self.index = index;
        // What is built again has to be accepted.
        self.faults = kind != Kind::Rebuild;
        self.tally.input(kind);
    }

    fn start(&mut self, start: Start) {
        self.load(start.buffer.bytes.clone());
        self.start = start;
    }

    fn restart(&mut self) {
        if self.changed {
            self.load(self.start.buffer.bytes.clone());
        }
    }

    fn bytes(&self) -> &[u8] {
        self.next.as_ref().unwrap_or(&self.model.buffer)
    }

    fn call(&mut self, call: &Call) -> Result<u64, Difference> {
        // The same as `bytes`, without borrowing the numbers that are drawn meanwhile.
        let bytes = self.next.as_ref().unwrap_or(&self.model.buffer);
        let asked = spelling::spell(&mut self.rng, call, bytes, self.faults);
        let fresh = !self.changed;
        let numbers = self.make(&asked)?.numbers;
        if let Call::Read = call {
            let expected = self.start.expected.filter(|_| fresh);
            if expected.is_some_and(|used| numbers[..2] != [0, used as u64]) {
                return Err(Difference("a context was laid out, and is refused".into()));
            }
            self.make_others()?;
        }
        Ok(match asked.call {
            COMMAND_LINE.. if matches!(call, Call::CommandLine) => numbers[2] << 32 | numbers[3],
            _ => numbers[0] << 32 | numbers[1],
        })
    }

    fn takes(&mut self) -> bool {
        let percent = if self.bytes().len() > LONG { 25 } else { 60 };
        self.rng.chance(percent)
    }
}
