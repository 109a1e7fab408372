//! What the inputs are made of: attributes to add, with values as a loader would give them.

pub struct Platform {
    pub kind: u32,
    pub loader: (u16, u16),
    pub name: &'static [u8],
    pub rsdp: u64,
    pub higher_half_base: u64,
    pub depth: u8,
    pub dtb: u64,
    pub smbios: u64,
}

pub struct Kernel {
    pub physical_base: u64,
    pub virtual_base: u64,
    pub size: u64,
    pub partition_type: u64,
    pub disk_guid: [u8; 16],
    pub partition_guid: [u8; 16],
    pub disk_index: u32,
    pub partition_index: u32,
    pub path: &'static [u8],
}

pub struct Module {
    pub kind: u32,
    pub name: &'static [u8],
    pub address: u64,
    pub size: u64,
}

pub struct Framebuffer {
    pub width: u32,
    pub height: u32,
    pub pitch: u32,
    pub bpp: u16,
    pub format: u16,
    pub address: u64,
}

/// One call of adding.
pub enum Add {
    Platform(&'static Platform),
    Kernel(&'static Kernel),
    /// The entries as bytes, 24 to an entry.
    Map(Vec<u8>),
    Module(&'static Module),
    CommandLine(&'static [u8]),
    Framebuffer(&'static Framebuffer),
}

pub const PLATFORM: Platform = Platform {
    kind: 2,
    loader: (0, 9),
    name: b"Hyper v0.9.1",
    rsdp: 0x7FB7_E014,
    higher_half_base: 0xFFFF_8000_0000_0000,
    depth: 4,
    dtb: 0,
    smbios: 0x7F94_1000,
};

pub const KERNEL: Kernel = Kernel {
    physical_base: 0x0020_0000,
    virtual_base: 0xFFFF_FFFF_8020_0000,
    size: 0x00A4_3000,
    partition_type: 3,
    disk_guid: *b"\x0E\x63\x0A\x9C\x51\xD2\x4B\x40\x9F\x3E\x77\x10\x5C\xB8\x21\xD4",
    partition_guid: *b"\x28\x73\x2A\xC1\x1F\xF8\xD2\x11\xBA\x4B\x00\xA0\xC9\x3E\xC9\x3B",
    disk_index: 0,
    partition_index: 1,
    path: b"/boot/ultra/kernel-x86_64.elf",
};

pub const MODULES: [Module; 7] = [
    module(1, b"kernel-x86_64.elf", 0x0180_0000, 0x00B7_1C40),
    module(1, b"initramfs.cpio.zst", 0x0240_0000, 0x03A1_9F02),
    module(1, b"kernel-x86_64.sym", 0x0600_0000, 0x0018_55D9),
    module(1, b"drivers/nvme.ko", 0x0620_0000, 0x0003_4A10),
    module(1, b"drivers/e1000e.ko", 0x0624_0000, 0x0006_0B38),
    module(1, b"fonts/terminus-16.psf", 0x062B_0000, 0x2020),
    module(2, b"early-heap", 0x0630_0000, 0x0100_0000),
];

const fn module(kind: u32, name: &'static [u8], address: u64, size: u64) -> Module {
    Module {
        kind,
        name,
        address,
        size,
    }
}

pub const COMMAND_LINE: &[u8] = b"root=PARTLABEL=system ro console=ttyS0,115200 loglevel=4 smp";

pub const FRAMEBUFFER: Framebuffer = Framebuffer {
    width: 1920,
    height: 1080,
    pitch: 7680,
    bpp: 32,
    format: 4,
    address: 0x8000_0000,
};

/// The map of a machine with 8 GiB, firmware by UEFI: pages left out before a range, its
/// pages, and its type.
const RANGES: [(u64, u64, u64); 40] = [
    (0, 0x001, 2),
    (0, 0x057, 1),
    (0, 0x048, 2),
    (0x60, 0x020, 2),
    (0xE0, 0x0A43, 0xFFFF_0004),
    (0, 0x0BD, 1),
    (0, 0x500, 1),
    (0, 0xB72, 0xFFFF_0002),
    (0, 0x08E, 1),
    (0, 0x3A1A, 0xFFFF_0002),
    (0, 0x1E6, 1),
    (0, 0x186, 0xFFFF_0002),
    (0, 0x07A, 1),
    (0, 0x035, 0xFFFF_0002),
    (0, 0x00B, 1),
    (0, 0x061, 0xFFFF_0002),
    (0, 0x00F, 1),
    (0, 0x003, 0xFFFF_0002),
    (0, 0x04D, 1),
    (0, 0x1000, 0xFFFF_0002),
    (0, 0x004, 0xFFFF_0003),
    (0, 0x040, 0xFFFF_0001),
    (0, 0x6_A0BC, 1),
    (0, 0x400, 0xFFFF_0001),
    (0, 0x021, 1),
    (0, 0x1C2, 0xFFFF_0001),
    (0, 0x2B0, 1),
    (0, 0x180, 2),
    (0, 0x013, 3),
    (0, 0x0FA, 4),
    (0, 0x052, 2),
    (0, 0x3D1, 1),
    (0, 0x024, 0xFFFF_0001),
    (0, 0x004, 1),
    (0, 0x080, 2),
    (0x4_0000, 0x1_0000, 2),
    (0x2_EC00, 0x001, 2),
    (0x013F, 0x001, 2),
    (0x10BF, 0x200, 2),
    (0, 0x18_0000, 1),
];

/// A map of `count` ranges, laid out by the 40 above as often as needed.
pub fn map_of(count: usize) -> Vec<u8> {
    let mut address = 0u64;
    let mut bytes = Vec::with_capacity(24 * count);
    for (left_out, pages, kind) in RANGES.into_iter().cycle().take(count) {
        address += left_out * 4096;
        for number in [address, pages * 4096, kind] {
            bytes.extend_from_slice(&number.to_le_bytes());
        }
        address += pages * 4096;
    }
    bytes
}
