//! The functions of linkcap.h. tools/declarations.py compares them with it.

use std::os::raw::c_char;

pub const VERSION: u32 = 3;

pub const MIN_LIMIT: u32 = 16;
pub const DEFAULT_LIMIT: u32 = 1_048_576;
pub const WORDS_ROOM: usize = 127;
pub const NAME_ROOM: usize = 64;

pub const OK: u32 = 0;
pub const DIFFERENT: u32 = 1;
pub const FAULT: u32 = 2;
pub const NO_ROOM: u32 = 4;
pub const NONE: u32 = 6;

pub const TEXT: u32 = 0;
pub const LINES: u32 = 1;
pub const JSON: u32 = 2;

pub const WITHOUT_NUMBERS: u32 = 1;
pub const OFFSETS: u32 = 2;
pub const KEEP_GOING: u32 = 4;

#[repr(C)]
pub struct Text {
    pub bytes: *const c_char,
    pub length: usize,
}

#[repr(C)]
pub struct Options {
    pub only: Text,
    pub link: Text,
    pub without: Text,
    pub limit: u32,
    pub flags: u32,
    pub form: u32,
    pub reserved: u32,
}

#[repr(C)]
pub struct Piece {
    pub bytes: *const u8,
    pub length: usize,
    pub offset: u64,
    pub last: u32,
    pub reserved: u32,
}

#[repr(C)]
#[derive(Default)]
pub struct Progress {
    pub used: u64,
    pub written: u64,
    pub wanted: u64,
}

#[repr(C)]
#[derive(Clone, Copy, Default)]
pub struct Finding {
    pub kind: u32,
    pub side: u32,
    pub offset: u64,
}

#[repr(C)]
#[derive(Default)]
pub struct Sizes {
    pub frames: u64,
    pub attributes: u64,
    pub text_low: u64,
    pub text_high: u64,
}

#[repr(C)]
#[derive(Default)]
pub struct Message {
    pub next: u64,
    pub length: u32,
    pub r#type: u32,
}

#[repr(C)]
pub struct Attribute {
    pub offset: u64,
    pub payload: u64,
    pub length: u64,
    pub r#type: u32,
    pub flags: u32,
    pub depth: u32,
    pub name: [c_char; NAME_ROOM],
    pub link_kind: [c_char; NAME_ROOM],
}

extern "C" {
    pub fn linkcap_version() -> u32;
    pub fn linkcap_format() -> u32;
    pub fn linkcap_check(
        capture: *const u8,
        length: usize,
        options: &Options,
        sizes: &mut Sizes,
        fault: &mut Finding,
    ) -> u32;
    pub fn linkcap_same(
        first: *const u8,
        first_length: usize,
        second: *const u8,
        second_length: usize,
        options: &Options,
        fault: &mut Finding,
    ) -> u32;
    pub fn linkcap_write(
        options: &Options,
        piece: &Piece,
        out: *mut u8,
        room: usize,
        progress: &mut Progress,
        fault: &mut Finding,
    ) -> u32;
    pub fn linkcap_next_message(
        capture: *const u8,
        length: usize,
        options: &Options,
        offset: u64,
        message: &mut Message,
        fault: &mut Finding,
    ) -> u32;
    pub fn linkcap_next_attribute(
        capture: *const u8,
        length: usize,
        options: &Options,
        message: u64,
        position: u64,
        attribute: &mut Attribute,
        fault: &mut Finding,
    ) -> u32;
    pub fn linkcap_quirks(
        capture: *const u8,
        length: usize,
        options: &Options,
        quirks: *mut Finding,
        room: usize,
        count: &mut u64,
        fault: &mut Finding,
    ) -> u32;
    pub fn linkcap_why(
        options: &Options,
        piece: &Piece,
        out: *mut u8,
        room: usize,
        written: &mut u64,
        offset: &mut u64,
    ) -> u32;
    pub fn linkcap_words(finding: &Finding, out: *mut u8, room: usize, written: &mut u64) -> u32;
    pub fn linkcap_unknown_word(options: &Options, out: *mut u8, room: usize, written: &mut u64) -> u32;
}
