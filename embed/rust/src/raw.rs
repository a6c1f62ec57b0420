//! The functions of the library, each with the safe function that calls it. A
//! slice is a pointer and then a length.

use crate::{Error, Limits};

mod library {
    extern "C" {
        pub fn register_length(servers: u32, drives: u32, slots: u32) -> u32;
        pub fn register_open(
            row: *mut u32,
            cells: usize,
            servers: u32,
            drives: u32,
            slots: u32,
            limits: *const u32,
            count: usize,
        ) -> u32;
        pub fn register_step(room: *mut u32, cells: usize, bytes: *const u8, length: usize) -> u64;
        pub fn register_ask(room: *const u32, cells: usize, server: u32) -> u64;
        pub fn register_put(
            room: *mut u32,
            cells: usize,
            server: u32,
            slot: u32,
            command: u32,
        ) -> u64;
        pub fn register_next(
            room: *const u32,
            cells: usize,
            server: u32,
            slot: u32,
            bytes: *mut u8,
            length: usize,
        ) -> u64;
        pub fn register_catalogue(
            room: *const u32,
            cells: usize,
            server: u32,
            out: *mut u32,
            length: usize,
        ) -> u64;
        pub fn register_fields(
            bytes: *const u8,
            length: usize,
            fields: *mut u32,
            count: usize,
        ) -> u64;
        pub fn register_server_at(
            servers: u32,
            drives: u32,
            slots: u32,
            server: u32,
            slot: u32,
        ) -> u32;
        pub fn register_block_at(
            servers: u32,
            drives: u32,
            slots: u32,
            server: u32,
            slot: u32,
            drive: u32,
        ) -> u32;
        pub fn register_write(
            kind: u8,
            server: u8,
            slot: u8,
            drive: u8,
            other: u8,
            number: u32,
            bytes: *mut u8,
            length: usize,
        ) -> u64;
    }
}

/// The word of a refusal.
const REFUSED: u32 = 4;

/// The word and the number of an answer.
#[inline]
fn halves(answer: u64) -> (u32, u32) {
    ((answer >> 32) as u32, answer as u32)
}

/// The number of an accepted call.
#[inline]
fn accepted(answer: u64) -> Result<u32, Error> {
    match halves(answer) {
        (REFUSED, number) => Err(Error::of(number)),
        (_, number) => Ok(number),
    }
}

// In every call below each pointer comes with the length of the slice that it is
// of, and a slice that is written is lent by `&mut`, so it overlaps no other.

pub(crate) fn length(servers: u32, drives: u32, slots: u32) -> u32 {
    // SAFETY: numbers alone are passed.
    unsafe { library::register_length(servers, drives, slots) }
}

pub(crate) fn open(
    row: &mut [u32],
    servers: u32,
    drives: u32,
    slots: u32,
    limits: Limits,
) -> Result<(), Error> {
    let limits = limits.numbers();
    // SAFETY: the pointers and the lengths are those of a slice and an array.
    let number = unsafe {
        library::register_open(
            row.as_mut_ptr(),
            row.len(),
            servers,
            drives,
            slots,
            limits.as_ptr(),
            limits.len(),
        )
    };
    match number {
        0 => Ok(()),
        number => Err(Error::of(number)),
    }
}

/// The word and the number of the answer.
pub(crate) fn step(room: &mut [u32], record: &[u8]) -> (u32, u32) {
    // SAFETY: the pointers and the lengths are those of two slices.
    halves(unsafe {
        library::register_step(room.as_mut_ptr(), room.len(), record.as_ptr(), record.len())
    })
}

/// The lowest slot that is free for the server.
pub(crate) fn ask(room: &[u32], server: u32) -> Result<u32, Error> {
    // SAFETY: the pointer and the length are those of a slice.
    accepted(unsafe { library::register_ask(room.as_ptr(), room.len(), server) })
}

pub(crate) fn put(room: &mut [u32], server: u32, slot: u32, command: u32) -> Result<(), Error> {
    // SAFETY: the pointer and the length are those of a slice.
    let answer =
        unsafe { library::register_put(room.as_mut_ptr(), room.len(), server, slot, command) };
    accepted(answer).map(|_| ())
}

/// Writes the record of the next step; the length used, 0 where there is none.
pub(crate) fn next(room: &[u32], server: u32, slot: u32, bytes: &mut [u8]) -> Result<usize, Error> {
    // SAFETY: the pointers and the lengths are those of two slices.
    let answer = unsafe {
        library::register_next(
            room.as_ptr(),
            room.len(),
            server,
            slot,
            bytes.as_mut_ptr(),
            bytes.len(),
        )
    };
    accepted(answer).map(|used| used as usize)
}

/// How many commands were taken, and how many of these were skipped.
pub(crate) fn catalogue(room: &[u32], server: u32, out: &mut [u32]) -> Result<(u32, u32), Error> {
    // SAFETY: the pointers and the lengths are those of two slices.
    let answer = unsafe {
        library::register_catalogue(room.as_ptr(), room.len(), server, out.as_mut_ptr(), out.len())
    };
    accepted(answer).map(|number| (number / 256, number % 256))
}

pub(crate) fn server_at(servers: u32, drives: u32, slots: u32, server: u32, slot: u32) -> u32 {
    // SAFETY: numbers alone are passed.
    unsafe { library::register_server_at(servers, drives, slots, server, slot) }
}

pub(crate) fn block_at(
    servers: u32,
    drives: u32,
    slots: u32,
    server: u32,
    slot: u32,
    drive: u32,
) -> u32 {
    // SAFETY: numbers alone are passed.
    unsafe { library::register_block_at(servers, drives, slots, server, slot, drive) }
}

/// A step as numbers: its kind, and the fields that the kind has.
pub(crate) struct Fields {
    pub kind: u8,
    pub server: u8,
    pub slot: u8,
    pub drive: u8,
    pub other: u8,
    pub number: u32,
}

/// The fields of the record at the start of `bytes`, 0 where its kind lacks one;
/// the length used.
#[inline]
pub(crate) fn fields(bytes: &[u8]) -> Result<(Fields, usize), Error> {
    let mut cells = [0; 6];
    // SAFETY: the pointers and the lengths are those of a slice and an array.
    let answer = unsafe {
        library::register_fields(bytes.as_ptr(), bytes.len(), cells.as_mut_ptr(), cells.len())
    };
    let used = accepted(answer)? as usize;
    // All but the number came from single bytes.
    let [kind, server, slot, drive, other, number] = cells;
    let [kind, server, slot, drive, other] =
        [kind, server, slot, drive, other].map(|field| field as u8);
    Ok((Fields { kind, server, slot, drive, other, number }, used))
}

/// Writes the record of a step; the length used.
#[inline]
pub(crate) fn write(f: Fields, bytes: &mut [u8]) -> Result<usize, Error> {
    // SAFETY: the pointer and the length are those of a slice.
    let answer = unsafe {
        library::register_write(
            f.kind,
            f.server,
            f.slot,
            f.drive,
            f.other,
            f.number,
            bytes.as_mut_ptr(),
            bytes.len(),
        )
    };
    accepted(answer).map(|used| used as usize)
}
