//! The shapes of an address that is asked for: about the end of a module's size and that of its
//! last page, which it fills. Which module holds an address is worked out once more, by the
//! pages that it has a byte on and without rounding: so an answer that is wrong on both sides is
//! told too.

use crate::format::{u32_at, u64_at, HEAD_SIZE, MODULE, PAGE};

crate::shapes! {
    Past: "addresses held past a module's size, within no module's",
    PastFirst: "addresses held past a module's size, within a later one's",
    PastStart: "addresses held past a module's size, just there",
    PastEnd: "addresses held past a module's size, at the end of its last page",
    PastTop: "addresses held past a module's size, in the last page of the address space",
    PastMost: "addresses held past a module's size of 2^64 - 1",
    PastOneMore: "addresses held past a module's size of one byte more than whole pages",
    PastOneLess: "addresses held past a module's size of one byte less than whole pages",
    PagesEnd: "addresses held by a module of whole pages, at its end",
    AfterPast: "addresses just after a last page that is not full, held by none",
    AfterPages: "addresses just after a module of whole pages, held by none",
    Empty: "addresses of a module of size 0, held by none",
}

struct Module {
    start: usize,
    address: u64,
    size: u64,
}

impl Module {
    /// Its last byte's address, which has 64 bits since no range passes 2^64; none of size 0.
    fn last(&self) -> Option<u64> {
        self.size.checked_sub(1).map(|more| self.address + more)
    }

    fn has(&self, address: u64) -> bool {
        let has = |last| (self.address..=last).contains(&address);
        self.last().is_some_and(has)
    }

    fn has_page_of(&self, address: u64) -> bool {
        let has = |last| (self.address / PAGE..=last / PAGE).contains(&(address / PAGE));
        self.last().is_some_and(has)
    }

    /// Whether the page after its last one starts there.
    fn is_just_before(&self, address: u64) -> bool {
        let next = |last| (last / PAGE + 1, 0) == (address / PAGE, address % PAGE);
        self.last().is_some_and(next)
    }
}

/// The modules of a buffer that is accepted.
fn modules(buf: &[u8]) -> Vec<Module> {
    let mut modules = Vec::new();
    let mut start = HEAD_SIZE;
    for _ in 0..u32_at(buf, 4) {
        let attribute = &buf[start..];
        if u32_at(attribute, 0) == MODULE {
            modules.push(Module {
                start,
                address: u64_at(attribute, 80),
                size: u64_at(attribute, 88),
            });
        }
        start += u32_at(attribute, 4) as usize;
    }
    modules
}

/// The shapes of an address asked for in a buffer that is accepted; nothing where this start is
/// not the answer.
pub fn asked(buf: &[u8], address: u64, start: u64) -> Option<Vec<Shape>> {
    let modules = modules(buf);
    let first = modules.iter().find(|module| module.has_page_of(address));
    if first.map_or(0, |module| module.start as u64) != start {
        return None;
    }
    let shapes = match first {
        Some(module) => held(module, &modules, address),
        None => held_by_none(&modules, address),
    };
    let met = shapes.into_iter().filter(|(met, _)| *met);
    Some(met.map(|(_, shape)| shape).collect())
}

fn held(first: &Module, modules: &[Module], address: u64) -> Vec<(bool, Shape)> {
    let past = !first.has(address);
    let within = modules.iter().any(|module| module.has(address));
    let in_last_page = first.size % PAGE;
    let page_ends = address % PAGE == PAGE - 1;
    let top = address / PAGE == u64::MAX / PAGE;
    vec![
        (past && !within, Shape::Past),
        (past && within, Shape::PastFirst),
        (first.last() == address.checked_sub(1), Shape::PastStart),
        (past && page_ends, Shape::PastEnd),
        (past && !within && top, Shape::PastTop),
        (past && first.size == u64::MAX, Shape::PastMost),
        (past && in_last_page == 1, Shape::PastOneMore),
        (past && in_last_page == PAGE - 1, Shape::PastOneLess),
        (first.last() == Some(address) && page_ends, Shape::PagesEnd),
    ]
}

fn held_by_none(modules: &[Module], address: u64) -> Vec<(bool, Shape)> {
    let any = |is: &dyn Fn(&Module) -> bool| modules.iter().any(is);
    let before = |module: &Module| module.is_just_before(address);
    let whole = |module: &Module| module.size.is_multiple_of(PAGE);
    let empty = |module: &Module| (module.address, module.size) == (address, 0);
    vec![
        (
            any(&|module| before(module) && !whole(module)),
            Shape::AfterPast,
        ),
        (
            any(&|module| before(module) && whole(module)),
            Shape::AfterPages,
        ),
        (any(&empty), Shape::Empty),
    ]
}
