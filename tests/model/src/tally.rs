//! What a comparison ran and met: inputs by kind, answers by call and number, and shapes. It
//! knows what has to be met, so that a comparison that looks at nothing is no success.

pub mod maps;
pub mod modules;

use crate::generator::inputs::Kind;

/// 0 and the refusals 1 to 23.
pub const NUMBERS: usize = 24;

/// A call: the numbers it can give, and those it can give for the record given, its buffer
/// being accepted. Both are sets, one bit a number.
pub struct Row {
    pub name: &'static str,
    pub possible: u32,
    pub own: u32,
}

/// A set of numbers.
pub const fn set(numbers: &[u32]) -> u32 {
    let mut bits = 0;
    let mut i = 0;
    while i < numbers.len() {
        bits |= 1 << numbers[i];
        i += 1;
    }
    bits
}

/// A call that has no number is counted as 0.
pub const NONE: u32 = set(&[0]);
/// 0 to 16: success, or a refusal of reading.
pub const READING: u32 = (1 << 17) - 1;
pub const STEPPING: u32 = (1 << 9) - 1;
pub const BEGINNING: u32 = set(&[0, 1]);
pub const COPYING: u32 = READING | set(&[18, 19]);
/// What adding gives: reading without 4, and 17 and 18 of its own.
pub const ADDING: u32 = READING & !set(&[4]) | set(&[17, 18]);

/// A call that gives no number for a record.
pub const fn asking(name: &'static str, possible: u32) -> Row {
    Row {
        name,
        possible,
        own: 0,
    }
}

/// An add, with the numbers it can give for the record besides 9, 17 and 18.
pub const fn adding(name: &'static str, own: &[u32]) -> Row {
    Row {
        name,
        possible: ADDING,
        own: set(own) | set(&[9, 17, 18]),
    }
}

/// What is counted besides numbers: an enum, and what each of its cases is called.
#[macro_export]
macro_rules! shapes {
    ($($shape:ident: $what:literal,)*) => {
        #[derive(Clone, Copy)]
        pub enum Shape { $($shape),* }
        pub const SHAPES: &[&str] = &[$($what),*];
    };
}

/// The names of several lists of shapes, one list after the other.
pub const fn joined<const COUNT: usize>(lists: &[&[&'static str]]) -> [&'static str; COUNT] {
    let mut all = [""; COUNT];
    let mut at = 0;
    let mut list = 0;
    while list < lists.len() {
        let mut name = 0;
        while name < lists[list].len() {
            all[at] = lists[list][name];
            at += 1;
            name += 1;
        }
        list += 1;
    }
    all
}

type Counts = [u64; NUMBERS];

#[derive(Clone)]
pub struct Tally {
    rows: &'static [Row],
    names: &'static [&'static str],
    kinds: [u64; Kind::ALL.len()],
    numbers: Vec<Counts>,
    own: Vec<Counts>,
    shapes: Vec<u64>,
    strange: u64,
}

impl Tally {
    /// Nothing met yet, of these calls and shapes.
    pub fn new(rows: &'static [Row], names: &'static [&'static str]) -> Tally {
        Tally {
            rows,
            names,
            kinds: [0; Kind::ALL.len()],
            numbers: vec![[0; NUMBERS]; rows.len()],
            own: vec![[0; NUMBERS]; rows.len()],
            shapes: vec![0; names.len()],
            strange: 0,
        }
    }

    pub fn input(&mut self, kind: Kind) {
        self.kinds[kind as usize] += 1;
    }

    /// Counts the shape at this place among the names.
    pub fn shape(&mut self, place: usize) {
        self.shapes[place] += 1;
    }

    /// Counts an answer that cannot be given there.
    pub fn impossible(&mut self) {
        self.strange += 1;
    }

    /// How often that shape was met.
    pub fn met(&self, place: usize) -> u64 {
        self.shapes[place]
    }

    /// Counts an answer of the call in this row. `own` where it was given a record, and its
    /// buffer was accepted.
    pub fn answer(&mut self, row: usize, number: u64, own: bool) {
        let place = number as usize;
        if number >= NUMBERS as u64 || self.rows[row].possible >> number & 1 == 0 {
            self.impossible();
            return;
        }
        self.numbers[row][place] += 1;
        if own && number > 0 {
            self.own[row][place] += 1;
        }
    }

    pub fn merge(&mut self, other: &Tally) {
        let add = |a: &mut [u64], b: &[u64]| a.iter_mut().zip(b).for_each(|(a, b)| *a += b);
        add(&mut self.kinds, &other.kinds);
        add(
            self.numbers.as_flattened_mut(),
            other.numbers.as_flattened(),
        );
        add(self.own.as_flattened_mut(), other.own.as_flattened());
        add(&mut self.shapes, &other.shapes);
        self.strange += other.strange;
    }

    pub fn inputs(&self) -> u64 {
        self.kinds.iter().sum()
    }

    pub fn calls(&self) -> u64 {
        self.numbers.as_flattened().iter().sum()
    }

    pub fn print(&self) {
        println!("inputs by kind:");
        for (kind, count) in Kind::ALL.iter().zip(self.kinds) {
            println!("  {:<10} {count:>9}  {}", kind.name(), kind.what());
        }
        println!("answers by call and number (- : the call cannot give it):");
        let width = self.rows.iter().map(|row| row.name.len()).max();
        let width = width.unwrap_or_default() + 1;
        print!("  {:<width$}{:>9}", "", "calls");
        (0..NUMBERS).for_each(|number| print!("{number:>6}"));
        println!();
        for (row, counts) in self.rows.iter().zip(&self.numbers) {
            print_row(row.name, width, counts, row.possible);
        }
        println!("refusals of the record given, the buffer being accepted:");
        for (row, counts) in self.rows.iter().zip(&self.own) {
            if row.own != 0 {
                print_row(row.name, width, counts, row.own);
            }
        }
        println!("and besides:");
        for (what, count) in self.names.iter().zip(&self.shapes) {
            println!("  {count:>9}  {what}");
        }
    }

    /// What should have been met and was not, or should not and was.
    pub fn gaps(&self) -> Vec<String> {
        let mut gaps = Vec::new();
        for (place, row) in self.rows.iter().enumerate() {
            let own = (self.own[place], row.own, " for a record");
            for (counts, wanted, what) in [(self.numbers[place], row.possible, ""), own] {
                let never = |number: &usize| wanted >> number & 1 == 1 && counts[*number] == 0;
                let name = row.name;
                gaps.extend(
                    (0..NUMBERS)
                        .filter(never)
                        .map(|number| format!("{name} never gave {number}{what}")),
                );
            }
        }
        for (what, count) in self.names.iter().zip(&self.shapes) {
            if *count == 0 {
                gaps.push(format!("none met: {what}"));
            }
        }
        if self.strange > 0 {
            gaps.push(format!(
                "{} answers have an impossible number or value",
                self.strange
            ));
        }
        gaps
    }
}

fn print_row(name: &str, width: usize, counts: &Counts, possible: u32) {
    print!("  {name:<width$}{:>9}", counts.iter().sum::<u64>());
    for (number, count) in counts.iter().enumerate() {
        match (possible >> number & 1, *count) {
            (0, 0) => print!("{:>6}", "-"),
            (_, 0..=9_999) => print!("{count:>6}"),
            (_, 10_000..=9_999_999) => print!("{:>5}k", count / 1_000),
            _ => print!("{:>5}M", count / 1_000_000),
        }
    }
    println!();
}
