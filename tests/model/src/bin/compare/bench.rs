//! Both sides on one buffer: every call is made on the library and on the model, and the
//! answers and all lent bytes are compared.

use ultra_model::generator::call::Call;
use ultra_model::generator::given::{hex, Given, Start};
use ultra_model::generator::inputs::{Bench, Difference, Kind};
use ultra_model::tally::Tally;
use ultra_model::{calls, reading};

use crate::lent::Lent;
use crate::tally::{self, ALL, ROWS};

pub struct Archive {
    start: Start,
    buffer: Lent,
    arguments: [Lent; 3],
    model: Vec<u8>,
    model_out: Vec<u8>,
    /// Whether adding accepts the buffer as it is now, once asked.
    accepted: Option<bool>,
    changed: bool,
    pub tally: Tally,
    pub verbose: bool,
}

impl Archive {
    pub fn new(verbose: bool) -> Archive {
        Archive {
            start: Start::default(),
            buffer: Lent::new(),
            arguments: [Lent::new(), Lent::new(), Lent::new()],
            model: Vec::new(),
            model_out: Vec::new(),
            accepted: None,
            changed: false,
            tally: Tally::new(ROWS, ALL),
            verbose,
        }
    }

    /// Lends the slices that cross besides the buffer, an output among them.
    fn lend_arguments(&mut self, call: &Call) {
        for (lent, given) in self.arguments.iter_mut().zip(given(call)) {
            if let Some(given) = given {
                tally::slice(&mut self.tally, given);
                lent.load(given, &[]);
            }
        }
        if let Call::CopyMap { out } = call {
            self.model_out.clone_from(&out.bytes);
        }
    }

    fn call_library(&mut self, call: &Call) -> u64 {
        let buf = self.buffer.lend();
        let [first, second, third] = self.arguments.each_mut().map(Lent::lend);
        match call {
            Call::Read => ultra_archive::read(buf.into()),
            Call::Step { index, offset } => ultra_archive::step(buf.into(), *index, *offset),
            Call::Begin => ultra_archive::begin(buf),
            Call::AddPlatform(r) => ultra_archive::add_platform(
                buf,
                r.kind,
                r.loader_major,
                r.loader_minor,
                first.into(),
                r.rsdp,
                r.higher_half_base,
                r.depth,
                r.dtb,
                r.smbios,
            ),
            Call::AddKernel(r) => ultra_archive::add_kernel(
                buf,
                r.physical_base,
                r.virtual_base,
                r.size,
                r.partition_type,
                first.into(),
                second.into(),
                r.disk_index,
                r.partition_index,
                third.into(),
            ),
            Call::AddMap { .. } => ultra_archive::add_map(buf, first.into()),
            Call::AddModule(r) => {
                ultra_archive::add_module(buf, r.kind, first.into(), r.address, r.size)
            }
            Call::AddCommandLine { .. } => ultra_archive::add_command_line(buf, first.into()),
            Call::AddFramebuffer(r) => ultra_archive::add_framebuffer(
                buf, r.width, r.height, r.pitch, r.bpp, r.format, r.address,
            ),
            Call::Attribute { index } => ultra_archive::attribute(buf.into(), *index),
            Call::CopyMap { .. } => ultra_archive::copy_map(buf.into(), first),
            Call::CommandLine => ultra_archive::command_line(buf.into()),
            Call::ModuleHolding { address } => ultra_archive::module_holding(buf.into(), *address),
        }
    }

    fn call_model(&mut self, call: &Call) -> u64 {
        let buf = &mut self.model;
        match call {
            Call::Read => calls::read(buf),
            Call::Step { index, offset } => calls::step(buf, *index, *offset),
            Call::Begin => calls::begin(buf),
            Call::AddPlatform(r) => calls::add_platform(
                buf,
                r.kind,
                r.loader_major,
                r.loader_minor,
                &r.name.bytes,
                r.rsdp,
                r.higher_half_base,
                r.depth,
                r.dtb,
                r.smbios,
            ),
            Call::AddKernel(r) => calls::add_kernel(
                buf,
                r.physical_base,
                r.virtual_base,
                r.size,
                r.partition_type,
                &r.disk_guid.bytes,
                &r.partition_guid.bytes,
                r.disk_index,
                r.partition_index,
                &r.path.bytes,
            ),
            Call::AddMap { entries } => calls::add_map(buf, &entries.bytes),
            Call::AddModule(r) => calls::add_module(buf, r.kind, &r.name.bytes, r.address, r.size),
            Call::AddCommandLine { text } => calls::add_command_line(buf, &text.bytes),
            Call::AddFramebuffer(r) => {
                calls::add_framebuffer(buf, r.width, r.height, r.pitch, r.bpp, r.format, r.address)
            }
            Call::Attribute { index } => calls::attribute(buf, *index),
            Call::CopyMap { .. } => calls::copy_map(buf, &mut self.model_out),
            Call::CommandLine => calls::command_line(buf),
            Call::ModuleHolding { address } => calls::module_holding(buf, *address),
        }
    }

    fn difference(&self, call: &Call, library: u64, model: u64) -> Option<String> {
        if let Some(what) = differing("the buffer", &self.buffer, &self.model) {
            return Some(what);
        }
        for (place, (lent, given)) in self.arguments.iter().zip(given(call)).enumerate() {
            let Some(given) = given else { break };
            let found = match call {
                Call::CopyMap { .. } => differing("the output", lent, &self.model_out),
                _ => differing(PLACES[place], lent, &given.bytes),
            };
            if found.is_some() {
                return found;
            }
        }
        if library != model {
            return Some("the answers differ".into());
        }
        let expected = self.start.expected.filter(|_| !self.changed);
        match (call, expected) {
            (Call::Read, Some(used)) if model != used as u64 => Some(format!(
                "the buffer was laid out as a context of {used} bytes"
            )),
            _ => None,
        }
    }
}

impl Bench for Archive {
    fn input(&mut self, seed: u64, index: u64, kind: Kind) {
        if self.verbose {
            eprintln!("seed {seed:#x}, index {index}: {}", kind.what());
        }
        self.tally.input(kind);
    }

    fn start(&mut self, start: Start) {
        tally::buffer(&mut self.tally, &start.buffer);
        self.buffer.load(&start.buffer, &start.beyond);
        self.model.clone_from(&start.buffer.bytes);
        self.accepted = None;
        self.changed = false;
        if self.verbose {
            eprintln!("buffer {:?}", start.buffer);
            eprintln!("after it [{}]", hex(&start.beyond));
        }
        self.start = start;
    }

    fn restart(&mut self) {
        if self.changed {
            self.buffer.restore(&self.start.buffer.bytes);
            self.model.clone_from(&self.start.buffer.bytes);
            self.accepted = None;
            self.changed = false;
        }
    }

    fn bytes(&self) -> &[u8] {
        &self.model
    }

    fn call(&mut self, call: &Call) -> Result<u64, Difference> {
        if self.verbose {
            eprintln!("{call:?}");
        }
        let accepted = call.adds()
            && *self
                .accepted
                .get_or_insert_with(|| reading::read(&self.model, 0).is_ok());
        self.lend_arguments(call);
        // The library goes first, so that it finds nothing done for it.
        let library = self.call_library(call);
        let model = self.call_model(call);
        let difference = self.difference(call, library, model);
        if self.verbose {
            let show = |answer: u64| format!("{} {}", answer >> 32, answer as u32);
            eprintln!("  library {}, model {}", show(library), show(model));
        }
        if let Some(what) = difference {
            let name = ROWS[call.id()].name;
            return Err(Difference(format!(
                "{name}: {what}\n  arguments: {call:?}\n  library: {library:#x} (number {}, value {})\n  model:   {model:#x} (number {}, value {})",
                library >> 32,
                library as u32,
                model >> 32,
                model as u32,
            )));
        }
        tally::answer(&mut self.tally, call, library, &self.model, accepted);
        if call.changes() && library >> 32 == 0 {
            self.changed = true;
            self.accepted = None;
        }
        Ok(library)
    }
}

const PLACES: [&str; 3] = [
    "the first slice given",
    "the second slice given",
    "the third slice given",
];

/// The slices of a call, in their order.
fn given(call: &Call) -> [Option<&Given>; 3] {
    match call {
        Call::AddPlatform(r) => [Some(&r.name), None, None],
        Call::AddKernel(r) => [Some(&r.disk_guid), Some(&r.partition_guid), Some(&r.path)],
        Call::AddMap { entries } => [Some(entries), None, None],
        Call::AddModule(r) => [Some(&r.name), None, None],
        Call::AddCommandLine { text } => [Some(text), None, None],
        Call::CopyMap { out } => [Some(out), None, None],
        _ => [None, None, None],
    }
}

fn differing(what: &str, lent: &Lent, model: &[u8]) -> Option<String> {
    if lent.bytes() != model {
        let pairs = || lent.bytes().iter().zip(model);
        let at = pairs().position(|(a, b)| a != b)?;
        let (library, model) = (lent.bytes()[at], model[at]);
        return Some(format!(
            "{what} differs first at byte {at}: library {library:#04x}, model {model:#04x}"
        ));
    }
    if !lent.guards_hold() {
        return Some(format!("bytes before or after {what} were changed"));
    }
    None
}
