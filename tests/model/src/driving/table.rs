//! The published calls by their number.

/// "that has more than 131,072 bytes of buffer"
pub const BUFFER_LIMIT: usize = 131_072;
/// "there may be at most 9,000 of them": numbers of a map, given or asked for, and of parts.
pub const NUMBERS_LIMIT: usize = 9_000;
/// "A frame may give at most 16 modules".
pub const MODULES_LIMIT: usize = 16;
/// How many bytes a module of a list has: three numbers and its name.
pub const LISTED_MODULE_SIZE: usize = 88;

pub const READ: u32 = 1;
pub const FIRST: u32 = 2;
pub const STEP: u32 = 3;
pub const ATTRIBUTE: u32 = 4;
pub const ATTRIBUTE_START: u32 = 5;
pub const ATTRIBUTE_PART: u32 = 6;
pub const COPY_MAP: u32 = 7;
pub const COPY_MAP_BYTES: u32 = 8;
pub const COMMAND_LINE: u32 = 9;
pub const COMMAND_LINE_PART: u32 = 10;
pub const MODULE_HOLDING: u32 = 11;
pub const BEGIN: u32 = 12;
pub const ADD_PLATFORM: u32 = 13;
pub const ADD_KERNEL: u32 = 14;
pub const ADD_MAP: u32 = 15;
pub const ADD_MODULE: u32 = 16;
pub const ADD_COMMAND_LINE: u32 = 17;
pub const ADD_FRAMEBUFFER: u32 = 18;
pub const MEMBERS_ADD_PLATFORM: u32 = 19;
pub const MEMBERS_ADD_KERNEL: u32 = 20;
pub const MEMBERS_ADD_MAP: u32 = 21;
pub const MEMBERS_ADD_MODULE: u32 = 22;
pub const LIST: u32 = 23;
pub const LISTING_LENGTH: u32 = 24;
pub const ADD_MODULES: u32 = 25;
pub const HANDOVER_READ: u32 = 26;
pub const AGENT: u32 = 27;
pub const AGENT_NAME: u32 = 28;
pub const RECORD_AT: u32 = 29;
pub const RECORD_NAME: u32 = 30;
pub const RECORD_META: u32 = 31;
pub const HANDOVER_WRITE: u32 = 32;
pub const EXPORT: u32 = 33;

/// How many calls there are: 1 to this.
pub const LAST: u32 = EXPORT;

/// How many numbers and strings a call is given, the buffer among them; none for a call that
/// is not in the table.
pub fn arguments(call: u32) -> Option<(usize, usize)> {
    Some(match call {
        FIRST => (0, 0),
        READ | COMMAND_LINE_PART | BEGIN | LISTING_LENGTH => (0, 1),
        ATTRIBUTE | ATTRIBUTE_START | ATTRIBUTE_PART | MODULE_HOLDING => (1, 1),
        STEP => (2, 1),
        COPY_MAP | COPY_MAP_BYTES | COMMAND_LINE | LIST => (0, 2),
        ADD_PLATFORM | MEMBERS_ADD_PLATFORM => (9, 2),
        ADD_KERNEL | MEMBERS_ADD_KERNEL => (6, 4),
        ADD_MAP | MEMBERS_ADD_MAP | ADD_COMMAND_LINE | ADD_MODULES => (0, 2),
        ADD_MODULE | MEMBERS_ADD_MODULE => (3, 2),
        ADD_FRAMEBUFFER => (6, 1),
        HANDOVER_READ | AGENT | AGENT_NAME => (0, 1),
        RECORD_AT | RECORD_NAME | RECORD_META => (1, 1),
        HANDOVER_WRITE => (0, 4),
        EXPORT => (1, 2),
        _ => return None,
    })
}

/// Whether the call adds: a single record, or a list of modules.
pub fn adds(call: u32) -> bool {
    matches!(call, ADD_PLATFORM..=MEMBERS_ADD_MODULE | ADD_MODULES)
}

/// Whether the call is one on a Handover payload.
pub fn is_handover(call: u32) -> bool {
    matches!(call, HANDOVER_READ..=HANDOVER_WRITE)
}

/// Where one of the call's strings may list only so many: the string's place, how many bytes one
/// of them has, and how many there may be. Bytes left over after the last one count for nothing.
pub fn list_limit(call: u32) -> Option<(usize, usize, usize)> {
    match call {
        COPY_MAP | ADD_MAP => Some((1, 8, NUMBERS_LIMIT)),
        ADD_MODULES => Some((1, LISTED_MODULE_SIZE, MODULES_LIMIT)),
        HANDOVER_WRITE => Some((2, 8, NUMBERS_LIMIT)),
        _ => None,
    }
}
