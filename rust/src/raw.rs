//! The functions as include/yuzuknoll.h has them, on any bytes. All but those on an entry's bytes return 0 or the number of a refusal, and report into a
//! struct, which they modify only if they return 0.

/// The bytes of a key, a variant, an entry and a state write, and of what a session holds.
pub const KEY_LENGTH: usize = 58;
pub const WIDE_KEY_LENGTH: usize = 74;
pub const VARIANT_LENGTH: usize = 19;
pub const ENTRY_LENGTH: usize = 33;
pub const STATE_LENGTH: usize = 6;
pub const HELD_LENGTH: usize = 129;

/// `yuzuknoll_result`: what is known of a text.
#[derive(Clone, Copy, Debug, Default, PartialEq, Eq)]
#[repr(C)]
pub struct Emitted {
    pub length: u64,
    pub mask: u64,
    pub rows: u64,
    pub lookups: u64,
    pub op_warnings: u64,
    pub selector_warnings: u64,
    pub modifier_warnings: u64,
    pub alpha_warning: u64,
}

/// `yuzuknoll_record`: the kind of a record and the number of its bytes.
#[derive(Clone, Copy, Debug, Default, PartialEq, Eq)]
#[repr(C)]
pub struct Record {
    pub kind: u64,
    pub taken: u64,
}

/// `yuzuknoll_applied`: the record that was taken and, for an emit record, what is known of the text.
#[derive(Clone, Copy, Debug, Default, PartialEq, Eq)]
#[repr(C)]
pub struct Applied {
    pub kind: u64,
    pub taken: u64,
    pub result: Emitted,
}

/// How many of an entry's bytes were taken, the length, and 1 if one was wrong.
pub type EntryState = [u64; 3];

// What the header has as pointers to structs of bytes are pointers to bytes here.
mod archive {
    use super::{Applied, Emitted, Record};

    unsafe extern "C" {
        pub fn yuzuknoll_emit(
            key: *const u8,
            variant: *const u8,
            entry: *const u8,
            text: *mut u8,
            text_length: usize,
            result: *mut Emitted,
        ) -> u64;

        pub fn yuzuknoll_emit_wide(
            key: *const u8,
            variant: *const u8,
            entry: *const u8,
            text: *mut u8,
            text_length: usize,
            result: *mut Emitted,
        ) -> u64;

        pub fn yuzuknoll_entry_start(state: *mut u64);

        pub fn yuzuknoll_entry_step(state: *mut u64, byte: u8);

        pub fn yuzuknoll_entry_possible(state: *const u64) -> u64;

        pub fn yuzuknoll_read(bytes: *const u8, length: usize, record: *mut Record) -> u64;

        pub fn yuzuknoll_write(
            bytes: *const u8,
            length: usize,
            out: *mut u8,
            out_length: usize,
            record: *mut Record,
        ) -> u64;

        pub fn yuzuknoll_apply(
            held: *mut u8,
            bytes: *const u8,
            length: usize,
            text: *mut u8,
            text_length: usize,
            applied: *mut Applied,
        ) -> u64;
    }
}

// Safety of the calls: the pointer of a reference is not null and good for its length, and what is borrowed to be written overlaps nothing else.
// The functions ask for nothing more: they are proved to stay inside what they are lent.

#[must_use]
pub fn emit(
    key: &[u8; KEY_LENGTH],
    variant: &[u8; VARIANT_LENGTH],
    entry: &[u8; ENTRY_LENGTH],
    text: &mut [u8],
    result: &mut Emitted,
) -> u64 {
    unsafe {
        archive::yuzuknoll_emit(
            key.as_ptr(),
            variant.as_ptr(),
            entry.as_ptr(),
            text.as_mut_ptr(),
            text.len(),
            result,
        )
    }
}

#[must_use]
pub fn emit_wide(
    key: &[u8; WIDE_KEY_LENGTH],
    variant: &[u8; VARIANT_LENGTH],
    entry: &[u8; ENTRY_LENGTH],
    text: &mut [u8],
    result: &mut Emitted,
) -> u64 {
    unsafe {
        archive::yuzuknoll_emit_wide(
            key.as_ptr(),
            variant.as_ptr(),
            entry.as_ptr(),
            text.as_mut_ptr(),
            text.len(),
            result,
        )
    }
}

/// Sets the state of a pass over an entry's bytes that has taken none.
pub fn entry_start(state: &mut EntryState) {
    unsafe { archive::yuzuknoll_entry_start(state.as_mut_ptr()) }
}

/// Takes the next of an entry's bytes: the length, then those of the name.
pub fn entry_step(state: &mut EntryState, byte: u8) {
    unsafe { archive::yuzuknoll_entry_step(state.as_mut_ptr(), byte) }
}

/// 1 if some entry that begins with the bytes taken is a name, 0 if none is.
#[must_use]
pub fn entry_possible(state: &EntryState) -> u64 {
    unsafe { archive::yuzuknoll_entry_possible(state.as_ptr()) }
}

#[must_use]
pub fn read(bytes: &[u8], record: &mut Record) -> u64 {
    unsafe { archive::yuzuknoll_read(bytes.as_ptr(), bytes.len(), record) }
}

#[must_use]
pub fn write(bytes: &[u8], out: &mut [u8], record: &mut Record) -> u64 {
    let (length, out_length) = (bytes.len(), out.len());
    unsafe {
        archive::yuzuknoll_write(bytes.as_ptr(), length, out.as_mut_ptr(), out_length, record)
    }
}

#[must_use]
pub fn apply(
    held: &mut [u8; HELD_LENGTH],
    bytes: &[u8],
    text: &mut [u8],
    applied: &mut Applied,
) -> u64 {
    unsafe {
        archive::yuzuknoll_apply(
            held.as_mut_ptr(),
            bytes.as_ptr(),
            bytes.len(),
            text.as_mut_ptr(),
            text.len(),
            applied,
        )
    }
}
