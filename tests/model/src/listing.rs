//! The listing: a context as key=value lines, or the single line of a refusal.

use crate::format::*;
use crate::reading::{attributes, read, Attribute, Outline};
use crate::records::{CommandLine, Framebuffer, Kernel, Map, Module, Platform};

/// Why a record can be taken from an attribute without a second look.
const ACCEPTED: &str = "reading accepted the attribute";

/// The partition type whose GUIDs are listed, in all 64 bits.
const GUID_PARTITION: u64 = 3;

/// What the program prints for this standard input. Only the room counts, which reading
/// sees to.
pub fn listing(input: &[u8]) -> Vec<u8> {
    let mut lines = Lines::default();
    match read(input, COUNT_LEAST) {
        Ok(outline) => lines.context(input, &outline),
        Err(refusal) => {
            let number = refusal.number as u64;
            lines.numbers("refused", &[number, refusal.offset.into()]);
        }
    }
    lines.0
}

/// "Text bytes 1 to 31, 37, and 127 to 255 print as `%` and two capital hex digits."
fn is_escaped(byte: u8) -> bool {
    matches!(byte, 1..=31 | 37 | 127..=255)
}

/// "an absent platform member prints `-`"
fn or_absent(member: Option<u64>) -> String {
    member.map_or("-".into(), |number| number.to_string())
}

/// The lines so far, each with its closing newline.
#[derive(Default)]
struct Lines(Vec<u8>);

impl Lines {
    fn line(&mut self, key: &str, value: &[u8]) {
        self.0.extend(key.as_bytes());
        self.0.push(b'=');
        self.0.extend(value);
        self.0.push(b'\n');
    }

    fn number(&mut self, key: &str, number: u64) {
        self.line(key, number.to_string().as_bytes());
    }

    fn numbers(&mut self, key: &str, numbers: &[u64]) {
        let numbers: Vec<String> = numbers.iter().map(u64::to_string).collect();
        self.line(key, numbers.join(",").as_bytes());
    }

    /// Major and minor.
    fn version(&mut self, key: &str, major: u16, minor: u16) {
        self.line(key, format!("{major}.{minor}").as_bytes());
    }

    /// An empty text has its line too.
    fn text(&mut self, key: &str, text: Option<&[u8]>) {
        let mut value = Vec::new();
        for &byte in text.expect(ACCEPTED) {
            match is_escaped(byte) {
                true => value.extend(format!("%{byte:02X}").as_bytes()),
                false => value.push(byte),
            }
        }
        self.line(key, &value);
    }

    fn context(&mut self, buf: &[u8], outline: &Outline) {
        self.version("version", buf[0].into(), buf[1].into());
        self.number("attributes", outline.count.into());
        for attribute in attributes(buf, outline) {
            self.attribute(&attribute);
        }
        self.number("used", outline.used as u64);
    }

    fn attribute(&mut self, attribute: &Attribute) {
        let bytes = attribute.bytes;
        match attribute.kind {
            PLATFORM => self.platform(&Platform::parse(bytes).expect(ACCEPTED)),
            KERNEL => self.kernel(&Kernel::parse(bytes).expect(ACCEPTED)),
            MAP => self.map(&Map::parse(bytes).expect(ACCEPTED)),
            MODULE => self.module(&Module::parse(bytes).expect(ACCEPTED)),
            COMMAND_LINE => {
                let line = CommandLine::parse(bytes).expect(ACCEPTED);
                self.text("cmdline", line.text);
            }
            FRAMEBUFFER => self.framebuffer(&Framebuffer::parse(bytes).expect(ACCEPTED)),
            kind => self.numbers("other", &[kind.into(), bytes.len() as u64]),
        }
    }

    fn platform(&mut self, platform: &Platform) {
        self.number("platform", platform.kind.into());
        self.version("loader", platform.loader_major, platform.loader_minor);
        self.text("name", platform.name);
        self.number("rsdp", platform.rsdp);
        let late = [
            ("half", platform.higher_half_base),
            ("depth", platform.depth.map(u64::from)),
            ("dtb", platform.dtb),
            ("smbios", platform.smbios),
        ];
        for (key, member) in late {
            self.line(key, or_absent(member).as_bytes());
        }
    }

    fn kernel(&mut self, kernel: &Kernel) {
        let memory = [kernel.physical_base, kernel.virtual_base, kernel.size];
        self.numbers("kernel", &memory);
        let (disk, index) = (kernel.disk_index, kernel.partition_index);
        let partition = [kernel.partition_type, disk.into(), index.into()];
        self.numbers("partition", &partition);
        if kernel.partition_type == GUID_PARTITION {
            let guids = [kernel.disk_guid, kernel.partition_guid].concat();
            let digits: String = guids.iter().map(|byte| format!("{byte:02X}")).collect();
            self.line("guids", digits.as_bytes());
        }
        self.text("path", kernel.path);
    }

    fn map(&mut self, map: &Map) {
        let entries = map.entries.chunks_exact(ENTRY_SIZE);
        self.number("map", entries.len() as u64);
        for entry in entries {
            self.numbers("range", &[0, 8, 16].map(|at| u64_at(entry, at)));
        }
    }

    fn module(&mut self, module: &Module) {
        let numbers = [module.kind.into(), module.address, module.size];
        self.numbers("module", &numbers);
        self.text("modname", module.name);
    }

    fn framebuffer(&mut self, screen: &Framebuffer) {
        let numbers = [
            screen.width.into(),
            screen.height.into(),
            screen.pitch.into(),
            screen.bpp.into(),
            screen.format.into(),
            screen.address,
        ];
        self.numbers("fb", &numbers);
    }
}
