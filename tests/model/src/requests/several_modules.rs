//! R-1, Several modules in one call: "Our loader's module stage, now in Rattle, collects before
//! it writes."

use crate::building::add_module;
use crate::format::Answer;
use crate::records::Module;

/// What the call answers: "how many were added besides the refusal", in a success too.
#[derive(Clone, Copy, Debug, PartialEq, Eq)]
pub struct Several {
    /// That of the last add made, be it a success or the refusal.
    pub answer: Answer,
    pub added: usize,
}

/// "With no modules it answers 0 with value 0".
const NO_MODULES: Several = Several {
    answer: Ok(0),
    added: 0,
};

/// Adds the modules "in order, with the same bytes and answers as adding them one by one". The
/// buffer is looked at by the single add alone, and so not at all where there is no module.
pub fn add_modules(buf: &mut [u8], modules: &[Module]) -> Several {
    let mut several = NO_MODULES;
    for module in modules {
        several.answer = add_module(buf, module);
        // "The call stops at the first refusal"; "What went before the refused module stays".
        if several.answer.is_err() {
            break;
        }
        several.added += 1;
    }
    several
}
