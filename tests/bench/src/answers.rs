//! That all subjects say the same, before any of them is measured.

use ultra_model::format::{
    COMMAND_LINE, COUNT_LEAST, FRAMEBUFFER, HEADER_SIZE, KERNEL, MAP, MODULE, PLATFORM,
};
use ultra_model::reading::{attributes, read, Attribute};
use ultra_model::records::{CommandLine, Framebuffer, Kernel, Module, Platform};

use crate::inputs::Input;
use crate::jobs::{ultra_bench_measured, Call, Job, Who};

/// Ends the program where an answer or a byte written differs.
pub fn compare(inputs: &[Input]) {
    for input in inputs {
        for call in Call::ALL.into_iter().filter(|call| call.takes(input)) {
            let (expected, expected_bytes) = outcome(call, input, Who::Model);
            let number = expected >> 32;
            assert_eq!(number, input.refusal, "{} {}", call.name(), input.name);
            for &who in call.subjects() {
                let (answer, bytes) = outcome(call, input, who);
                let expected = match (call, who) {
                    (Call::Read, Who::Walk) => sum_of(input, |attribute| u64::from(attribute.kind)),
                    (Call::Read, Who::Use) => sum_of(input, all_of),
                    _ => expected,
                };
                let what = format!("{} {} {}", who.name(), call.name(), input.name);
                assert_eq!(answer, expected, "{what}: the answer");
                assert!(bytes == expected_bytes, "{what}: the bytes written");
            }
        }
    }
}

/// The answer, and the memory written to.
fn outcome(call: Call, input: &Input, who: Who) -> (u64, Vec<u8>) {
    let mut job = Job::new(call, input);
    let answer = ultra_bench_measured(&mut job, who, 1);
    (answer, job.target.bytes().to_vec())
}

fn sum_of(input: &Input, of: impl Fn(&Attribute) -> u64) -> u64 {
    let context = input.context.bytes();
    let outline = read(context, COUNT_LEAST).expect("an input is refused");
    attributes(context, &outline).fold(0, |sum, attribute| sum.wrapping_add(of(&attribute)))
}

/// What `walk_use` adds up of an attribute.
fn all_of(attribute: &Attribute) -> u64 {
    let bytes = attribute.bytes;
    let length = |text: Option<&[u8]>| text.map_or(0, <[u8]>::len) as u64;
    let first_of = |guid: &[u8]| u64::from(u32::from_le_bytes(guid[..4].try_into().unwrap()));
    let members = match attribute.kind {
        PLATFORM => {
            let r = Platform::parse(bytes).unwrap();
            vec![
                u64::from(r.kind),
                u64::from(r.loader_major),
                u64::from(r.loader_minor),
                length(r.name),
                r.rsdp,
                r.higher_half_base.unwrap(),
                u64::from(r.depth.unwrap()),
                r.dtb.unwrap(),
                r.smbios.unwrap(),
            ]
        }
        KERNEL => {
            let r = Kernel::parse(bytes).unwrap();
            vec![
                r.physical_base,
                r.virtual_base,
                r.size,
                r.partition_type,
                first_of(r.disk_guid),
                first_of(r.partition_guid),
                u64::from(r.disk_index),
                u64::from(r.partition_index),
                length(r.path),
            ]
        }
        MAP => bytes[HEADER_SIZE..]
            .chunks_exact(8)
            .map(|number| u64::from_le_bytes(number.try_into().unwrap()))
            .collect(),
        MODULE => {
            let r = Module::parse(bytes).unwrap();
            vec![u64::from(r.kind), length(r.name), r.address, r.size]
        }
        COMMAND_LINE => vec![length(CommandLine::parse(bytes).unwrap().text)],
        FRAMEBUFFER => {
            let r = Framebuffer::parse(bytes).unwrap();
            vec![
                u64::from(r.width),
                u64::from(r.height),
                u64::from(r.pitch),
                u64::from(r.bpp),
                u64::from(r.format),
                r.address,
            ]
        }
        _ => vec![],
    };
    members
        .into_iter()
        .fold(u64::from(attribute.kind), u64::wrapping_add)
}
