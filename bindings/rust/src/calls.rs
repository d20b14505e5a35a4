//! The library's calls as safe functions: the only code of this crate that is `unsafe`.
//!
//! What each call requires is that so many bytes or elements are where a pointer points, that nobody writes to them
//! meanwhile, and that `out` overlaps nothing else. Slices, shared and exclusive, are exactly that. The library keeps
//! no pointer, and any thread may call.

use std::mem::MaybeUninit;
use std::ptr;

use crate::ffi;

/// The pointer and the length of a base's bytes, or null and 0 without one.
fn parts_of(base: Option<&str>) -> (*const u8, usize) {
    base.map_or((ptr::null(), 0), |base| (base.as_ptr(), base.len()))
}

/// The pointer to a base that was checked before, or null.
fn pointer_to(base: Option<&ffi::Base>) -> *const ffi::Base {
    base.map_or(ptr::null(), |base| base)
}

/// The answer that a call writes.
///
/// # Safety
///
/// The call writes the whole answer to where it is told.
unsafe fn answered<A>(call: impl FnOnce(*mut A)) -> A {
    let mut answer = MaybeUninit::uninit();
    call(answer.as_mut_ptr());
    // SAFETY: the call has written it.
    unsafe { answer.assume_init() }
}

/// The verdict on a text, with its parts.
pub fn check(text: &str, profile: u32, base: Option<&ffi::Base>) -> ffi::Answer {
    // SAFETY: the bytes of `text` and the base are borrowed for the call.
    unsafe { answered(|it| ffi::urlcheck_check_to(it, text.as_ptr(), text.len(), profile, pointer_to(base))) }
}

/// Whether a text is valid, without its parts.
pub fn is_valid(text: &str, profile: u32, base: Option<&ffi::Base>) -> bool {
    // SAFETY: as in `check`.
    unsafe { ffi::urlcheck_is_valid(text.as_ptr(), text.len(), profile, pointer_to(base)) }
}

/// Checks a base once, for all texts that are checked against it.
pub fn prepare(base: &str, profile: u32) -> ffi::Base {
    // SAFETY: the bytes of `base` are borrowed for the call.
    unsafe { answered(|it| ffi::urlcheck_prepare_to(it, base.as_ptr(), base.len(), profile)) }
}

/// The violations of a text, all of them. Few texts have more than four; for those that have, the library is called
/// again.
pub fn faults(text: &str, profile: u32, base: Option<&ffi::Base>) -> (ffi::Finding, Vec<ffi::Fault>) {
    let mut faults = Vec::with_capacity(4);
    loop {
        let room = faults.capacity();
        let out = faults.as_mut_ptr();
        // SAFETY: as in `check`; `out` is the vector's own memory, which has `room` elements.
        let answer: ffi::FaultCount = unsafe {
            answered(|it| {
                ffi::urlcheck_faults_to(it, text.as_ptr(), text.len(), profile, pointer_to(base), out, room);
            })
        };
        if answer.count <= room {
            // SAFETY: the library has written this many elements.
            unsafe { faults.set_len(answer.count) };
            return (answer.found, faults);
        }
        faults.reserve_exact(answer.count);
    }
}

/// Calls `write` with a buffer of this many bytes, and again with one that is long enough if it needs more. It says
/// how many bytes its text has, which are UTF-8 and written where they have room.
fn text_of<A>(room: usize, mut write: impl FnMut(*mut u8, usize) -> (A, usize)) -> (A, String) {
    let mut bytes = Vec::with_capacity(room);
    loop {
        let room = bytes.capacity();
        let (answer, length) = write(bytes.as_mut_ptr(), room);
        if length <= room {
            // SAFETY: the library has written this many bytes.
            unsafe { bytes.set_len(length) };
            // (what the library writes is UTF-8; to see that costs less than to rely on it)
            return (answer, String::from_utf8(bytes).expect("liburlcheck writes UTF-8"));
        }
        bytes.reserve_exact(length);
    }
}

/// A buffer of this length holds the URL of nearly every text in which nothing is percent-encoded.
fn usual_room(text: &str, base: Option<&str>) -> usize {
    text.len() + base.map_or(0, str::len) + 4
}

/// The URL record of a text, and its text.
pub fn resolve(text: &str, profile: u32, base: Option<&str>) -> (ffi::Record, String) {
    let (start, length) = parts_of(base);
    text_of(usual_room(text, base), |out, room| {
        // SAFETY: the bytes of `text` and the base are borrowed for the call; `out` has `room` bytes of its own.
        let record: ffi::Record = unsafe {
            answered(|it| {
                ffi::urlcheck_resolve_to(it, text.as_ptr(), text.len(), profile, start, length, out, room);
            })
        };
        (record, record.length)
    })
}

/// What to write in place of a text, if it is refused.
pub fn mend(text: &str, profile: u32, base: Option<&str>) -> (ffi::Mended, String) {
    let (start, length) = parts_of(base);
    text_of(usual_room(text, base), |out, room| {
        // SAFETY: as in `resolve`.
        let mended: ffi::Mended = unsafe {
            answered(|it| ffi::urlcheck_mend_to(it, text.as_ptr(), text.len(), profile, start, length, out, room))
        };
        (mended, mended.length)
    })
}

/// The sentence on a violation of a text. Most sentences fit the room.
pub fn message(text: &str, profile: u32, rule: u32, place: usize) -> (ffi::Finding, String) {
    text_of(128, |out, room| {
        // (in this wording a sentence is the same against each base)
        let (wording, base) = (ffi::WORDING_NONE, ptr::null());
        // SAFETY: the bytes of `text` are borrowed for the call; `out` has `room` bytes of its own.
        let written: ffi::Written = unsafe {
            answered(|it| {
                ffi::urlcheck_message_to(it, text.as_ptr(), text.len(), profile, base, wording, rule, place, out, room);
            })
        };
        (written.found, written.length)
    })
}

/// One of the library's fixed texts; the empty one if there is none. Most of them fit the room.
pub fn fixed_text(what: u32, number: u32) -> String {
    let write = |out, room| {
        // SAFETY: `out` has `room` bytes of its own.
        ((), unsafe { ffi::urlcheck_text(what, number, out, room) })
    };
    text_of(96, write).1
}

/// The version of the library: 10000 times its first number, 100 times its second, and its third.
pub fn version() -> u32 {
    // SAFETY: the call reads nothing.
    unsafe { ffi::urlcheck_version() }
}

/// Texts one after the other, and the offset before each and after the last.
#[derive(Default)]
pub struct Texts {
    pub bytes: String,
    pub offsets: Vec<u64>,
}

impl Texts {
    /// Joins texts, which costs one copy of each and no call for each.
    pub fn collect<I: IntoIterator>(texts: I) -> Self
    where
        I::Item: AsRef<str>,
    {
        let mut all = Self { bytes: String::new(), offsets: vec![0] };
        for text in texts {
            all.bytes.push_str(text.as_ref());
            all.offsets.push(all.bytes.len() as u64);
        }
        all
    }

    /// How many texts there are: one less than there are offsets.
    pub fn count(&self) -> usize {
        self.offsets.len() - 1
    }
}

/// What is found of each of many texts.
pub struct Columns {
    pub outcome: u32,
    pub verdicts: Vec<u8>,
    pub rules: Vec<u8>,
    pub places: Vec<u64>,
}

impl Columns {
    /// Columns of this many texts, before anything is found: the outcome is an error until a call has set it.
    fn of(count: usize) -> Self {
        Self { outcome: ffi::MEMORY, verdicts: vec![0; count], rules: vec![0; count], places: vec![0; count] }
    }
}

/// What is found of each of the texts, in one call.
pub fn check_many(texts: &Texts, profile: u32, base: Option<&ffi::Base>) -> Columns {
    let mut columns = Columns::of(texts.count());
    // SAFETY: the texts and the base are borrowed for the call, there are `count` + 1 offsets, and each column is a
    // vector of `count` elements.
    let batch: ffi::Batch = unsafe {
        answered(|it| {
            ffi::urlcheck_check_many_to(
                it,
                texts.bytes.as_ptr(),
                texts.bytes.len(),
                texts.offsets.as_ptr(),
                texts.count(),
                profile,
                pointer_to(base),
                columns.verdicts.as_mut_ptr(),
                columns.rules.as_mut_ptr(),
                columns.places.as_mut_ptr(),
            );
        })
    };
    columns.outcome = batch.outcome;
    columns
}

/// What is found of each of the texts, their URLs one after another, and the ends of these.
pub fn resolve_many(texts: &Texts, profile: u32, base: Option<&str>) -> (Columns, String, Vec<u64>) {
    let (start, length) = parts_of(base);
    let mut columns = Columns::of(texts.count());
    let mut ends = vec![0; texts.offsets.len()];
    let usual = texts.bytes.len() + texts.count() * (4 + length);
    let (outcome, urls) = text_of(usual, |out, room| {
        // SAFETY: as in `check_many`; `ends` has `count` + 1 elements, and `out` has `room` bytes of its own.
        let batch: ffi::Batch = unsafe {
            answered(|it| {
                ffi::urlcheck_resolve_many_to(
                    it,
                    texts.bytes.as_ptr(),
                    texts.bytes.len(),
                    texts.offsets.as_ptr(),
                    texts.count(),
                    profile,
                    start,
                    length,
                    columns.verdicts.as_mut_ptr(),
                    columns.rules.as_mut_ptr(),
                    columns.places.as_mut_ptr(),
                    ends.as_mut_ptr(),
                    out,
                    room,
                );
            })
        };
        (batch.outcome, batch.length)
    });
    columns.outcome = outcome;
    (columns, urls, ends)
}
