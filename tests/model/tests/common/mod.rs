//! Contexts written byte by byte from the paper's table, never with the model's own adds.

/// An attribute of `size` zero bytes after its header, with members put over them.
pub fn attribute(kind: u32, size: u32, members: &[(usize, &[u8])]) -> Vec<u8> {
    let mut bytes = vec![0; size as usize];
    bytes[..4].copy_from_slice(&kind.to_le_bytes());
    bytes[4..8].copy_from_slice(&size.to_le_bytes());
    for (at, member) in members {
        bytes[*at..at + member.len()].copy_from_slice(member);
    }
    bytes
}

pub fn context(attributes: &[Vec<u8>]) -> Vec<u8> {
    let mut bytes = vec![1, 0, 0, 0];
    bytes.extend((attributes.len() as u32).to_le_bytes());
    bytes.extend(attributes.concat());
    bytes
}

pub fn platform(size: u32) -> Vec<u8> {
    attribute(1, size, &[(8, &[2])])
}

pub fn kernel() -> Vec<u8> {
    attribute(2, 336, &[(32, &[2]), (80, b"/k")])
}

/// A context of a platform, a kernel and these attributes. They start at 432.
pub fn with(more: &[Vec<u8>]) -> Vec<u8> {
    let mut attributes = vec![platform(88), kernel()];
    attributes.extend_from_slice(more);
    context(&attributes)
}

pub fn numbers(list: &[u64]) -> Vec<u8> {
    list.iter()
        .flat_map(|number| number.to_le_bytes())
        .collect()
}

pub fn map(entries: &[u64]) -> Vec<u8> {
    let entries = numbers(entries);
    attribute(3, 8 + entries.len() as u32, &[(8, &entries)])
}

pub fn other(kind: u32) -> Vec<u8> {
    attribute(kind, 8, &[])
}

/// The context of the paper's listing, 480 bytes.
#[rustfmt::skip]
pub fn listed() -> Vec<u8> {
    let mut c = vec![
        // Head: version 1.0, reserved, four attributes.
        1, 0, 0, 0, 4, 0, 0, 0,
        // 8: platform, type 1, size 88; platform=2, loader=1.4.
        1, 0, 0, 0, 88, 0, 0, 0,
        2, 0, 0, 0, 1, 0, 4, 0,
        // name=frost, 32 bytes.
        b'f', b'r', b'o', b's', b't', 0, 0, 0, 0, 0, 0, 0, 0, 0, 0, 0,
        0, 0, 0, 0, 0, 0, 0, 0, 0, 0, 0, 0, 0, 0, 0, 0,
        // rsdp=917504 (0xE0000), half=0xFFFF800000000000, depth=4, dtb=0, smbios=0.
        0, 0, 0x0E, 0, 0, 0, 0, 0,
        0, 0, 0, 0, 0, 0x80, 0xFF, 0xFF,
        4, 0, 0, 0, 0, 0, 0, 0,
        0, 0, 0, 0, 0, 0, 0, 0,
        0, 0, 0, 0, 0, 0, 0, 0,
        // 96: kernel, type 2, size 336; physical 2097152, virtual 0xFFFFFFFF80200000,
        // size 65536.
        2, 0, 0, 0, 0x50, 1, 0, 0,
        0, 0, 0x20, 0, 0, 0, 0, 0,
        0, 0, 0x20, 0x80, 0xFF, 0xFF, 0xFF, 0xFF,
        0, 0, 1, 0, 0, 0, 0, 0,
        // partition=2,0,1: type, then two GUIDs of zeros, then the indices.
        2, 0, 0, 0, 0, 0, 0, 0,
        0, 0, 0, 0, 0, 0, 0, 0, 0, 0, 0, 0, 0, 0, 0, 0,
        0, 0, 0, 0, 0, 0, 0, 0, 0, 0, 0, 0, 0, 0, 0, 0,
        0, 0, 0, 0, 1, 0, 0, 0,
        // path=/boot/k, 256 bytes.
        b'/', b'b', b'o', b'o', b't', b'/', b'k', 0,
    ];
    c.extend([0; 248]);
    c.extend([
        // 432: map, type 3, size 32; range=1048576,1048576,1.
        3, 0, 0, 0, 32, 0, 0, 0,
        0, 0, 0x10, 0, 0, 0, 0, 0,
        0, 0, 0x10, 0, 0, 0, 0, 0,
        1, 0, 0, 0, 0, 0, 0, 0,
        // 464: command line, type 5, size 16; cmdline=quiet.
        5, 0, 0, 0, 16, 0, 0, 0,
        b'q', b'u', b'i', b'e', b't', 0, 0, 0,
    ]);
    c
}
