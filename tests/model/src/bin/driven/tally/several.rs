//! The shapes of a list of modules: how many were added, what refused the rest, and where.

use ultra_model::driving::table::{LISTED_MODULE_SIZE, MODULES_LIMIT};
use ultra_model::format::{room, u32_at, u64_at, COUNT_LIMIT, MODULE_SIZE, PAGE, ROOM_LIMIT};

use super::{Made, Shape, Shapes};

pub fn count(shapes: &mut Shapes, made: &Made) {
    let modules: Vec<&[u8]> = made.given().chunks_exact(LISTED_MODULE_SIZE).collect();
    let added = made.answer.numbers[2] as usize;
    shapes.met_if(made.kept == Some(true), Shape::ModulesKeptChanged);
    shapes.met_if(
        made.given().len() > modules.len() * LISTED_MODULE_SIZE,
        Shape::ModulesBytesLeft,
    );
    let wide = |module: &&[u8]| u64_at(module, 0) >> 32 != 0;
    shapes.met_if(modules.iter().any(wide), Shape::ModulesNumberWide);
    match (made.number(), modules.len()) {
        (_, 0) => none(shapes, made),
        (0, _) => all(shapes, made, added),
        (number, _) if !made.accepted => refused_buffer(shapes, number, added),
        (number, length) => {
            let Some(module) = modules.get(added) else {
                return shapes.impossible();
            };
            refused_module(shapes, number, added);
            match number {
                13..=15 => bad_module(shapes, number, module, (added, length)),
                18 => room_left(shapes, made),
                _ => {}
            }
        }
    }
}

/// No modules: the buffer is not looked at, so that it may be any.
fn none(shapes: &mut Shapes, made: &Made) {
    shapes.met(match (made.accepted, made.before.len()) {
        (true, _) if u32_at(made.before, 4) == COUNT_LIMIT => Shape::NoModulesToFull,
        (true, _) => Shape::NoModulesToAccepted,
        (false, 0) => Shape::NoModulesToNoBytes,
        (false, 1..8) => Shape::NoModulesToShort,
        (false, _) => Shape::NoModulesToRefused,
    });
}

fn all(shapes: &mut Shapes, made: &Made, added: usize) {
    shapes.met(match added {
        1 => Shape::ModuleAdded,
        _ => Shape::ModulesAdded,
    });
    shapes.met_if(added == MODULES_LIMIT, Shape::MostModulesAdded);
    let end = made.value() as usize;
    let ends_there = end == room(made.before).len();
    shapes.met_if(added > 1 && ends_there, Shape::ModulesJustFit);
    let past = made.before.len() > ROOM_LIMIT;
    shapes.met_if(ends_there && past, Shape::ModulesUpToTheLimit);
    shapes.met_if(made.before[..2] != [1, 0], Shape::ModulesToForeign);
}

/// What reading refuses, it refuses for the first module: what an add leaves is read. Of its
/// numbers those that a module can give too are told apart.
fn refused_buffer(shapes: &mut Shapes, number: u64, added: usize) {
    shapes.met(match (number, added) {
        (9, 0) => Shape::BufferPlace,
        (11, 0) => Shape::BufferSplit,
        (13, 0) => Shape::BufferValue,
        (14, 0) => Shape::BufferText,
        (15, 0) => Shape::BufferRange,
        (_, 0) => Shape::BufferOther,
        _ => return shapes.impossible(),
    });
}

/// 9 and 11 are of the first module alone: after a module another one may stand.
fn refused_module(shapes: &mut Shapes, number: u64, added: usize) {
    shapes.met(match (number, added) {
        (9, 0) => Shape::FirstPlace,
        (11, 0) => Shape::FirstSplit,
        (13, 0) => Shape::FirstValue,
        (14, 0) => Shape::FirstText,
        (15, 0) => Shape::FirstRange,
        (17, 0) => Shape::FirstFull,
        (18, 0) => Shape::FirstRoom,
        (13, _) => Shape::LaterValue,
        (14, _) => Shape::LaterText,
        (15, _) => Shape::LaterRange,
        (17, _) => Shape::LaterFull,
        (18, _) => Shape::LaterRoom,
        _ => return shapes.impossible(),
    });
}

/// A module that is refused for its members: where it stands in a list of several, and which
/// member it is, where it is only one.
fn bad_module(shapes: &mut Shapes, number: u64, module: &[u8], place: (usize, usize)) {
    match place {
        (_, 1) => {}
        (0, _) => shapes.met(Shape::FirstBad),
        (at, length) if at == length - 1 => shapes.met(Shape::LastBad),
        _ => shapes.met(Shape::BetweenBad),
    }
    match number {
        13 => only(shapes, value_faults(module)),
        14 => only(shapes, name_faults(&module[24..])),
        _ => {}
    }
}

fn value_faults(module: &[u8]) -> Vec<(bool, Shape)> {
    let good_kind = matches!(u32_at(module, 0), 1 | 2);
    let aligned = u64_at(module, 8).is_multiple_of(PAGE);
    vec![
        (!good_kind, Shape::ModuleKind),
        (!aligned, Shape::ModuleAddress),
    ]
}

fn name_faults(name: &[u8]) -> Vec<(bool, Shape)> {
    let last = name.iter().rposition(|&byte| byte != 0);
    let text = &name[..last.map_or(0, |last| last + 1)];
    vec![
        (text.len() == name.len(), Shape::ModuleNameOpen),
        (text.contains(&0), Shape::ModuleNameAfterZero),
        (!text.is_ascii(), Shape::ModuleNameHigh),
    ]
}

/// Counts a fault that comes alone, so that no other one can be the reason of the refusal.
fn only(shapes: &mut Shapes, faults: Vec<(bool, Shape)>) {
    let mut found = faults.into_iter().filter(|(has, _)| *has);
    if let (Some((_, shape)), None) = (found.next(), found.next()) {
        shapes.met(shape);
    }
}

/// The room lacks a byte for the module, or ends within a longer buffer.
fn room_left(shapes: &mut Shapes, made: &Made) {
    let end = made.value() as usize + MODULE_SIZE;
    let room = room(made.before).len();
    shapes.met_if(end == room + 1, Shape::ModulesByteShort);
    shapes.met_if(made.before.len() > ROOM_LIMIT, Shape::ModulesPastTheLimit);
}
