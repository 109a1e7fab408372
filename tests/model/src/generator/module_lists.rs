//! Lists of modules, for the call that adds several of them.

use crate::driving::table::MODULES_LIMIT;
use crate::generator::records::Module;
use crate::generator::rng::Rng;

/// A list of as many modules as the driver takes, or fewer. Most lists are good.
pub fn modules(rng: &mut Rng) -> Vec<Module> {
    let length = match rng.below(10) {
        0 => 0,
        1 | 2 => 1,
        3 => 2,
        4 => 3,
        5 => MODULES_LIMIT,
        _ => rng.below(MODULES_LIMIT + 1),
    };
    let mut list = good(rng, length);
    if length > 0 && rng.chance(40) {
        spoil(rng, &mut list);
    }
    list
}

pub fn good(rng: &mut Rng, length: usize) -> Vec<Module> {
    (0..length).map(|_| Module::new(rng, 0)).collect()
}

/// Spoils the first module, the one in the middle, the last or any; now and then one after it
/// too, whose fault is not to be seen.
fn spoil(rng: &mut Rng, list: &mut [Module]) {
    let (length, any) = (list.len(), rng.below(list.len()));
    let at = rng.pick(&[0, length / 2, length - 1, any]);
    let breaks = rng.pick(&[1, 1, 1, 2]);
    list[at] = Module::new(rng, breaks);
    let after = at + 1 + rng.below(length - at);
    if let (true, Some(module)) = (rng.chance(40), list.get_mut(after)) {
        *module = Module::new(rng, 1);
    }
}
