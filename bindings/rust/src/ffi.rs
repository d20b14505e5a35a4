//! The functions and structs of `urlcheck.h`, as this crate calls them. The comments of that header say what each
//! requires and answers, and a change of it has to be made here by hand: the sizes below, which it asserts too, and the
//! range of versions in `build.rs` are what notices a difference.

use std::mem::size_of;

/// The outcomes of `urlcheck_outcome` that a call of this crate can end with.
pub const VALID: u32 = 0;
pub const REFUSED: u32 = 1;
pub const BASE_REFUSED: u32 = 3;
pub const MEMORY: u32 = 5;
pub const MENDED: u32 = 8;
pub const DONE: u32 = 9;

/// The texts of `urlcheck_text`.
pub mod text {
    pub const RULE_NAME: u32 = 0;
    pub const RULE_SENTENCE: u32 = 1;
    pub const RULE_ADDRESS: u32 = 2;
    pub const RULE_REQUIRES: u32 = 3;
    pub const RULE_SECTION: u32 = 4;
}

/// The wording that names neither an option nor an argument.
pub const WORDING_NONE: u32 = 3;

#[repr(C)]
#[derive(Clone, Copy, Debug)]
pub struct Finding {
    pub verdict: u32,
    pub rule: u32,
    pub place: usize,
    pub byte_place: usize,
}

#[repr(C)]
#[derive(Clone, Copy, Debug, PartialEq, Eq, Hash)]
pub struct Span {
    pub start: usize,
    pub length: usize,
    pub present: bool,
}

#[repr(C)]
#[derive(Clone, Copy, Debug, PartialEq, Eq, Hash)]
pub struct Spans {
    pub scheme: Span,
    pub host: Span,
    pub port: Span,
    pub path: Span,
    pub query: Span,
    pub fragment: Span,
}

#[repr(C)]
#[derive(Clone, Copy, Debug)]
pub struct Answer {
    pub found: Finding,
    pub parts: Spans,
}

#[repr(C)]
#[derive(Clone, Copy, Debug)]
pub struct Record {
    pub found: Finding,
    pub length: usize,
    pub parts: Spans,
    pub host: u32,
    pub opaque_path: u32,
}

#[repr(C)]
#[derive(Clone, Copy, Debug)]
pub struct Mended {
    pub found: Finding,
    pub kind: u32,
    pub offered: u32,
    pub length: usize,
}

#[repr(C)]
#[derive(Clone, Copy, Debug)]
pub struct Fault {
    pub rule: u32,
    pub place: usize,
    pub byte_place: usize,
}

#[repr(C)]
#[derive(Clone, Copy, Debug)]
pub struct FaultCount {
    pub found: Finding,
    pub count: usize,
}

#[repr(C)]
#[derive(Clone, Copy, Debug)]
pub struct Base {
    pub found: Finding,
    pub profile: u32,
    pub scheme: u32,
    pub opaque_path: u32,
    pub empty_host: u32,
}

#[repr(C)]
#[derive(Clone, Copy, Debug)]
pub struct Batch {
    pub outcome: u32,
    pub row: usize,
    pub valid: usize,
    pub length: usize,
}

#[repr(C)]
#[derive(Clone, Copy, Debug)]
pub struct Written {
    pub found: Finding,
    pub length: usize,
}

// The header asserts the same sizes of its own structs.
const _: () = assert!(size_of::<Finding>() == 24 && size_of::<Spans>() == 144 && size_of::<Answer>() == 168);
const _: () = assert!(size_of::<Record>() == 184 && size_of::<Mended>() == 40 && size_of::<Fault>() == 24);
const _: () = assert!(size_of::<FaultCount>() == 32 && size_of::<Base>() == 40);
const _: () = assert!(size_of::<Batch>() == 32 && size_of::<Written>() == 32);

extern "C" {
    pub fn urlcheck_check_to(answer: *mut Answer, text: *const u8, length: usize, profile: u32, base: *const Base);
    pub fn urlcheck_is_valid(text: *const u8, length: usize, profile: u32, base: *const Base) -> bool;
    pub fn urlcheck_prepare_to(answer: *mut Base, base: *const u8, length: usize, profile: u32);
    pub fn urlcheck_faults_to(
        answer: *mut FaultCount,
        text: *const u8,
        length: usize,
        profile: u32,
        base: *const Base,
        out: *mut Fault,
        room: usize,
    );
    pub fn urlcheck_resolve_to(
        answer: *mut Record,
        text: *const u8,
        length: usize,
        profile: u32,
        base: *const u8,
        base_length: usize,
        out: *mut u8,
        room: usize,
    );
    pub fn urlcheck_mend_to(
        answer: *mut Mended,
        text: *const u8,
        length: usize,
        profile: u32,
        base: *const u8,
        base_length: usize,
        out: *mut u8,
        room: usize,
    );
    pub fn urlcheck_check_many_to(
        answer: *mut Batch,
        texts: *const u8,
        length: usize,
        offsets: *const u64,
        count: usize,
        profile: u32,
        base: *const Base,
        verdicts: *mut u8,
        rules: *mut u8,
        places: *mut u64,
    );
    pub fn urlcheck_resolve_many_to(
        answer: *mut Batch,
        texts: *const u8,
        length: usize,
        offsets: *const u64,
        count: usize,
        profile: u32,
        base: *const u8,
        base_length: usize,
        verdicts: *mut u8,
        rules: *mut u8,
        places: *mut u64,
        ends: *mut u64,
        out: *mut u8,
        room: usize,
    );
    pub fn urlcheck_text(what: u32, number: u32, out: *mut u8, room: usize) -> usize;
    pub fn urlcheck_message_to(
        answer: *mut Written,
        text: *const u8,
        length: usize,
        profile: u32,
        base: *const Base,
        wording: u32,
        rule: u32,
        place: usize,
        out: *mut u8,
        room: usize,
    );
    pub fn urlcheck_version() -> u32;
}
