//! The library's C functions and what they answer, as include/pyltarka.h declares them.

#[repr(C)]
#[derive(Clone, Copy)]
pub struct Settings {
    pub entry_size: u64,
    pub multipart: bool,
    pub counted: bool,
    pub keyed: bool,
}

#[repr(C)]
pub struct Inserted {
    pub slot: u64,
    pub number: u32,
}

#[repr(C)]
pub struct Changed {
    pub number: u32,
    pub count: u32,
    pub last_reference: bool,
}

#[repr(C)]
pub struct Record {
    pub length: u64,
    pub visits: u64,
    pub number: u32,
    pub count: u32,
    pub mark: bool,
}

#[repr(C)]
pub struct Part {
    pub offset: u64,
    pub length: u64,
    pub visits: u64,
    pub number: u32,
    pub count: u32,
    pub mark: bool,
}

#[repr(C)]
pub struct Counted {
    pub count: u64,
    pub number: u32,
}

extern "C" {
    pub fn pyltarka_insert(
        table: *mut u8,
        table_len: usize,
        s: Settings,
        key: *const u8,
        key_len: usize,
        content: *const u8,
        content_len: usize,
        mark: bool,
    ) -> Inserted;
    pub fn pyltarka_replace(
        table: *mut u8,
        table_len: usize,
        s: Settings,
        slot: u64,
        key: *const u8,
        key_len: usize,
        content: *const u8,
        content_len: usize,
        mark: bool,
    ) -> u32;
    pub fn pyltarka_remove(table: *mut u8, table_len: usize, s: Settings, slot: u64) -> u32;
    pub fn pyltarka_change_count(table: *mut u8, table_len: usize, s: Settings, slot: u64, step: i32) -> Changed;
    pub fn pyltarka_read(
        table: *const u8,
        table_len: usize,
        s: Settings,
        slot: u64,
        checked: bool,
        key: *const u8,
        key_len: usize,
        output: *mut u8,
        output_len: usize,
    ) -> Record;
    pub fn pyltarka_read_fixed(
        table: *const u8,
        table_len: usize,
        s: Settings,
        slot: u64,
        checked: bool,
        key: *const u8,
        key_len: usize,
    ) -> Part;
    pub fn pyltarka_free_count(table: *const u8, table_len: usize, s: Settings) -> Counted;
}
