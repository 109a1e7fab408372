//! The thirteen calls toward C with their arguments. A published call of Rattle is another
//! form of one of them, or asks for the same (the command line with a board's text besides,
//! [`crate::generator::lines`]), but for the one that takes a list of modules
//! ([`crate::generator::module_lists`]), those on a Handover payload
//! ([`crate::generator::payloads`], [`crate::generator::writings`]) and the one that exports to it
//! ([`crate::generator::exports`]).

use crate::generator::given::Given;
use crate::generator::records::{Framebuffer, Kernel, Module, Platform, Record};

#[derive(Clone, Debug)]
pub enum Call {
    Read,
    Step { index: u32, offset: u32 },
    Begin,
    AddPlatform(Platform),
    AddKernel(Kernel),
    AddMap { entries: Given },
    AddModule(Module),
    AddCommandLine { text: Given },
    AddFramebuffer(Framebuffer),
    Attribute { index: u64 },
    CopyMap { out: Given },
    CommandLine,
    ModuleHolding { address: u64 },
}

pub const CALLS: usize = 13;

impl Call {
    /// The call that adds the record; none adds a type from 7 up.
    pub fn adding(record: Record) -> Option<Call> {
        Some(match record {
            Record::Platform(record) => Call::AddPlatform(record),
            Record::Kernel(record) => Call::AddKernel(record),
            Record::Map(entries) => Call::AddMap { entries },
            Record::Module(record) => Call::AddModule(record),
            Record::Line(text) => Call::AddCommandLine { text },
            Record::Framebuffer(record) => Call::AddFramebuffer(record),
            Record::Other(..) => return None,
        })
    }

    /// The place of the call above, from 0.
    pub fn id(&self) -> usize {
        match self {
            Call::Read => 0,
            Call::Step { .. } => 1,
            Call::Begin => 2,
            Call::AddPlatform(_) => 3,
            Call::AddKernel(_) => 4,
            Call::AddMap { .. } => 5,
            Call::AddModule(_) => 6,
            Call::AddCommandLine { .. } => 7,
            Call::AddFramebuffer(_) => 8,
            Call::Attribute { .. } => 9,
            Call::CopyMap { .. } => 10,
            Call::CommandLine => 11,
            Call::ModuleHolding { .. } => 12,
        }
    }

    pub fn adds(&self) -> bool {
        (3..=8).contains(&self.id())
    }

    /// Whether a success changes the buffer.
    pub fn changes(&self) -> bool {
        self.adds() || matches!(self, Call::Begin)
    }
}
