//! Several modules in one call, on the model alone. What a call is to leave is written
//! byte by byte (see `common`), never with the model's own adds.

#[allow(dead_code)] // A part of it is for the other tests.
mod common;

use common::*;
use ultra_model::building;
use ultra_model::format::Number::{self, *};
use ultra_model::records::Module;
use ultra_model::requests::several_modules::{add_modules, Several};
use ultra_model::Refusal;

/// Where the third attribute starts.
const THIRD: usize = 8 + 88 + 336;
/// After a context there are bytes that only an added module may change.
const JUNK: u8 = 0xAB;

/// The modules `a`, `b` and `c`, each with numbers of its own.
const GOOD: [Module; 3] = [
    Module {
        kind: 1,
        name: Some(b"a"),
        address: 4_096,
        size: 1,
    },
    Module {
        kind: 2,
        name: Some(b"b"),
        address: 0,
        size: 0,
    },
    Module {
        kind: 1,
        name: Some(b"c"),
        address: 0u64.wrapping_sub(4_096),
        size: 4_096,
    },
];

/// The attribute that a module becomes.
fn written(module: &Module) -> Vec<u8> {
    attribute(
        4,
        96,
        &[
            (12, &module.kind.to_le_bytes()),
            (16, module.name.unwrap()),
            (80, &module.address.to_le_bytes()),
            (88, &module.size.to_le_bytes()),
        ],
    )
}

/// A context of these attributes after the first two, and so many bytes of junk.
fn room_after(more: &[Vec<u8>], junk: usize) -> Vec<u8> {
    [with(more), vec![JUNK; junk]].concat()
}

fn added(value: usize, added: usize) -> Several {
    Several {
        answer: Ok(value),
        added,
    }
}

fn refused(number: Number, offset: usize, added: usize) -> Several {
    let offset = offset as u32;
    Several {
        answer: Err(Refusal { number, offset }),
        added,
    }
}

/// Modules that are refused by themselves, with their number.
fn bad_modules() -> [(Number, Module<'static>); 9] {
    let [good, ..] = GOOD;
    let top = 0u64.wrapping_sub(4_096);
    [
        (Value, Module { kind: 0, ..good }),
        (Value, Module { kind: 3, ..good }),
        (Value, Module { address: 1, ..good }),
        (
            Value,
            Module {
                address: 4_095,
                ..good
            },
        ),
        (Text, Module { name: None, ..good }),
        (
            Text,
            Module {
                name: Some(b"a\x80"),
                ..good
            },
        ),
        (
            Range,
            Module {
                address: top,
                size: 4_097,
                ..good
            },
        ),
        (
            Range,
            Module {
                address: top,
                size: u64::MAX,
                ..good
            },
        ),
        // 13 before 14 and 15 within one module.
        (
            Value,
            Module {
                kind: 0,
                name: None,
                address: top,
                size: u64::MAX,
            },
        ),
    ]
}

/// Makes the call, and says what is in the buffer then.
fn make(mut buf: Vec<u8>, modules: &[Module]) -> (Several, Vec<u8>) {
    let several = add_modules(&mut buf, modules);
    (several, buf)
}

#[test]
fn no_modules_are_added_to_anything() {
    let full = room_after(&vec![other(7); 1_022], 200);
    let buffers = [
        vec![],
        vec![JUNK; 7],
        vec![0; 8],
        vec![JUNK; 100],
        vec![1, 0, 0, 0, 0, 0, 0, 0],
        vec![1, 0, 0, 0, 2, 0, 0, 0],
        with(&[]),
        room_after(&[other(7)], 100),
        room_after(&[written(&GOOD[0]), other(7)], 100),
        full,
        vec![JUNK; 70_000],
    ];
    for buf in buffers {
        assert_eq!(make(buf.clone(), &[]), (added(0, 0), buf));
    }
}

#[test]
fn modules_are_added_in_order() {
    let attributes = GOOD.each_ref().map(written);
    for count in 1..=3 {
        // Just room enough, and more.
        for spare in [0, 5, 96] {
            let (several, buf) = make(room_after(&[], 96 * count + spare), &GOOD[..count]);
            assert_eq!(several, added(THIRD + 96 * count, count));
            assert_eq!(buf, room_after(&attributes[..count], spare));
        }
    }
}

#[test]
fn modules_are_added_after_modules() {
    let [a, b, c] = GOOD.each_ref().map(written);
    let (several, buf) = make(room_after(&[other(9), a.clone()], 200), &GOOD[1..]);
    assert_eq!(several, added(THIRD + 8 + 3 * 96, 2));
    assert_eq!(buf, room_after(&[other(9), a.clone(), b, c], 8));
    // The same record may come twice.
    let (several, buf) = make(room_after(&[], 200), &[GOOD[0], GOOD[0]]);
    assert_eq!(several, added(THIRD + 192, 2));
    assert_eq!(buf, room_after(&[a.clone(), a], 8));
}

#[test]
fn a_refused_module_ends_the_call() {
    let attributes = GOOD.each_ref().map(written);
    for (number, bad) in bad_modules() {
        for before in 0..3 {
            let mut modules = GOOD;
            modules[before] = bad;
            let (several, left) = make(room_after(&[], 300), &modules);
            let used = THIRD + 96 * before;
            assert_eq!(several, refused(number, used, before), "{bad:?}");
            let added = room_after(&attributes[..before], 300 - 96 * before);
            assert_eq!(left, added, "{bad:?}");
        }
    }
}

#[test]
fn the_first_refusal_is_answered() {
    // Each pair of bad modules, in both orders: the second one is not tried.
    for (number, bad) in bad_modules() {
        for (_, later) in bad_modules() {
            let (several, _) = make(room_after(&[], 300), &[GOOD[0], bad, later]);
            assert_eq!(several, refused(number, THIRD + 96, 1));
        }
    }
    // A module's own numbers go before 18, and 18 of an earlier one before them.
    let bad = Module { kind: 0, ..GOOD[0] };
    let (several, _) = make(room_after(&[], 96), &[GOOD[0], bad]);
    assert_eq!(several, refused(Value, THIRD + 96, 1));
    let (several, _) = make(room_after(&[], 96), &[GOOD[0], GOOD[1], bad]);
    assert_eq!(several, refused(Room, THIRD + 96, 1));
}

#[test]
fn the_room_ends_the_call() {
    let attributes = GOOD.each_ref().map(written);
    for room in 0..3 {
        // The next one lacks all its bytes, or the last.
        for spare in [0, 1, 8, 95] {
            let (several, buf) = make(room_after(&[], 96 * room + spare), &GOOD);
            assert_eq!(several, refused(Room, THIRD + 96 * room, room));
            assert_eq!(buf, room_after(&attributes[..room], spare));
        }
    }
}

#[test]
fn nothing_is_added_past_the_limit_of_the_room() {
    let filler = |rest: usize| attribute(9, (65_536 - THIRD - rest) as u32, &[]);
    let [a, b, c] = GOOD.each_ref().map(written);
    let buf = room_after(&[filler(3 * 96)], 1_000);
    let left = room_after(&[filler(3 * 96), a.clone(), b.clone(), c], 1_000 - 3 * 96);
    assert_eq!(make(buf, &GOOD), (added(65_536, 3), left));
    let buf = room_after(&[filler(3 * 96 - 8)], 1_000);
    let left = room_after(&[filler(3 * 96 - 8), a, b], 1_000 - 2 * 96);
    let answer = refused(Room, 65_536 - 88, 2);
    assert_eq!(make(buf, &GOOD), (answer, left));
}

#[test]
fn a_command_line_splits_modules() {
    let mut buf = room_after(&[], 300);
    assert_eq!(add_modules(&mut buf, &GOOD[..1]), added(THIRD + 96, 1));
    assert_eq!(building::add_command_line(&mut buf, b"x"), Ok(THIRD + 112));
    let before = buf.clone();
    let split = refused(Split, THIRD + 112, 0);
    assert_eq!(make(buf.clone(), &GOOD[..1]), (split, before.clone()));
    assert_eq!(make(buf.clone(), &GOOD), (split, before.clone()));
    // 11 before the module's own numbers, and before 18.
    let (_, bad) = bad_modules()[0];
    assert_eq!(make(buf.clone(), &[bad]), (split, before.clone()));
    buf.truncate(THIRD + 112);
    assert_eq!(add_modules(&mut buf, &GOOD), split);
    // No modules are no module that could be split off.
    assert_eq!(make(before.clone(), &[]), (added(0, 0), before));
    // A line alone splits nothing.
    let line = attribute(5, 16, &[(8, b"x")]);
    let (several, _) = make(room_after(&[line], 300), &GOOD);
    assert_eq!(several, added(THIRD + 16 + 288, 3));
}

#[test]
fn a_full_list_ends_the_call() {
    let list = |count: usize| vec![other(7); count - 2];
    let used = |count: usize| THIRD + 8 * (count - 2);
    let first = written(&GOOD[0]);
    let full = room_after(&list(1_024), 300);
    let answer = refused(Full, used(1_024), 0);
    assert_eq!(make(full.clone(), &GOOD), (answer, full));

    let (several, buf) = make(room_after(&list(1_023), 300), &GOOD[..2]);
    assert_eq!(several, refused(Full, used(1_023) + 96, 1));
    let attributes = [list(1_023), vec![first]].concat();
    assert_eq!(buf, room_after(&attributes, 204));
    // 17 before 13 and 18.
    let bad = Module { kind: 0, ..GOOD[0] };
    let (several, _) = make(room_after(&list(1_023), 96), &[GOOD[0], bad]);
    assert_eq!(several, refused(Full, used(1_023) + 96, 1));

    let (several, _) = make(room_after(&list(1_022), 300), &GOOD);
    assert_eq!(several, refused(Full, used(1_022) + 192, 2));
    let (several, _) = make(room_after(&list(1_021), 300), &GOOD);
    assert_eq!(several, added(used(1_021) + 288, 3));
}

#[test]
fn a_refused_buffer_takes_none() {
    let spoilt = |at: usize, byte: u8| {
        let mut bytes = room_after(&[written(&GOOD[0])], 300);
        bytes[at] = byte;
        bytes
    };
    let cases = [
        (vec![], Short, 0),
        (vec![1, 0, 0, 0, 0, 0, 0], Short, 0),
        (vec![0; 1_000], Version, 0),
        (room_after(&vec![other(7); 1_023], 300), Count, 0),
        (vec![1, 0, 0, 0, 2, 0, 0, 0], Header, 8),
        (spoilt(THIRD + 4, 95), Size, THIRD),
        (spoilt(THIRD + 6, 1), Overrun, THIRD),
        (spoilt(THIRD, 0), Type, THIRD),
        (spoilt(THIRD, 2), Place, THIRD),
        (room_after(&[map(&[]), map(&[])], 300), Repeat, THIRD + 8),
        (
            room_after(&[other(7), other(8), other(7)], 300),
            Split,
            THIRD + 16,
        ),
        (spoilt(THIRD + 4, 88), Form, THIRD),
        (spoilt(THIRD + 12, 3), Value, THIRD),
        (spoilt(THIRD + 16, 128), Text, THIRD),
        (room_after(&[map(&[u64::MAX, 2, 1])], 300), Range, THIRD),
        (room_after(&[map(&[0, 2, 1, 1, 1, 1])], 300), Order, THIRD),
    ];
    let (_, bad) = bad_modules()[0];
    for (buf, number, offset) in cases {
        let answer = refused(number, offset, 0);
        for modules in [&GOOD[..], &GOOD[..1], &[bad]] {
            assert_eq!(make(buf.clone(), modules), (answer, buf.clone()));
        }
    }
}

#[test]
fn modules_come_after_two_attributes() {
    let (_, bad) = bad_modules()[0];
    let begun = [vec![1, 0, 0, 0, 0, 0, 0, 0], vec![JUNK; 300]].concat();
    let platform_alone = [context(&[platform(88)]), vec![JUNK; 300]].concat();
    for (buf, used) in [(begun, 8), (platform_alone, 96)] {
        let answer = refused(Place, used, 0);
        // 9 before the module's own numbers and 18.
        for modules in [&GOOD[..], &GOOD[..1], &[bad]] {
            assert_eq!(make(buf.clone(), modules), (answer, buf.clone()));
        }
        let just = buf[..used].to_vec();
        assert_eq!(make(just.clone(), &GOOD), (answer, just));
    }
}

#[test]
fn a_list_is_its_modules_one_by_one() {
    // Every list of up to three of these, in rooms for none to three.
    let (_, value) = bad_modules()[0];
    let (_, text) = bad_modules()[4];
    let choice = [None, Some(GOOD[0]), Some(GOOD[1]), Some(value), Some(text)];
    for room in [0, 95, 96, 200, 288] {
        for first in choice {
            for second in choice {
                for third in choice {
                    let list: Vec<Module> = [first, second, third].into_iter().flatten().collect();
                    let mut buf = room_after(&[other(7)], room);
                    let several = make(buf.clone(), &list);
                    let answers = list
                        .iter()
                        .map(|module| building::add_module(&mut buf, module));
                    let mut single = added(0, 0);
                    for answer in answers {
                        single.answer = answer;
                        if answer.is_err() {
                            break;
                        }
                        single.added += 1;
                    }
                    assert_eq!(several, (single, buf), "{list:?} in {room}");
                }
            }
        }
    }
}

#[test]
fn what_follows_goes_on_from_there() {
    let [a, b, c] = GOOD.each_ref().map(written);
    let mut buf = room_after(&[], 300);
    let (_, bad) = bad_modules()[0];
    // After a refusal that left a module, the list has it, and the next call adds to it.
    let answer = add_modules(&mut buf, &[GOOD[0], bad, GOOD[1]]);
    assert_eq!(answer, refused(Value, THIRD + 96, 1));
    assert_eq!(add_modules(&mut buf, &GOOD[1..]), added(THIRD + 288, 2));
    assert_eq!(buf, room_after(&[a, b, c], 12));
}
