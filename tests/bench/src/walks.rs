//! walks.c, as it is defined there.

extern "C" {
    pub fn walk_read(buf: *const u8) -> u64;
    pub fn walk_use(buf: *const u8) -> u64;
    pub fn walk_attribute(buf: *const u8, index: u64) -> u64;
    pub fn walk_copy_map(buf: *const u8, out: *mut u8) -> u64;
    pub fn walk_begin(buf: *mut u8) -> u64;
    pub fn walk_add_platform(
        buf: *mut u8,
        kind: u32,
        loader_major: u16,
        loader_minor: u16,
        name: *const u8,
        name_len: usize,
        rsdp: u64,
        higher_half_base: u64,
        depth: u8,
        dtb: u64,
        smbios: u64,
    ) -> u64;
    pub fn walk_add_kernel(
        buf: *mut u8,
        physical_base: u64,
        virtual_base: u64,
        size: u64,
        partition_type: u64,
        disk_guid: *const u8,
        partition_guid: *const u8,
        disk_index: u32,
        partition_index: u32,
        path: *const u8,
        path_len: usize,
    ) -> u64;
    pub fn walk_add_map(buf: *mut u8, entries: *const u8, entries_len: usize) -> u64;
    pub fn walk_add_module(
        buf: *mut u8,
        kind: u32,
        name: *const u8,
        name_len: usize,
        address: u64,
        size: u64,
    ) -> u64;
    pub fn walk_add_command_line(buf: *mut u8, text: *const u8, text_len: usize) -> u64;
    pub fn walk_add_framebuffer(
        buf: *mut u8,
        width: u32,
        height: u32,
        pitch: u32,
        bpp: u16,
        format: u16,
        address: u64,
    ) -> u64;
}
