//! The same symbols as the library's, so that one C program measures both.

use crate::calls;
use std::slice;

/// # Safety
/// As in include/lirvedd.h: `table` points to `length` bytes lent for the call, or `length` is 0.
unsafe fn lent<'a>(table: *mut u8, length: usize) -> &'a mut [u8] {
    if length == 0 {
        return &mut [];
    }
    slice::from_raw_parts_mut(table, length)
}

/// # Safety
/// As `lent`, and so for every call below.
#[no_mangle]
pub unsafe extern "C" fn lirvedd_open(last: u32, table: *mut u8, length: usize) -> u64 {
    calls::open(last, lent(table, length))
}

/// # Safety
/// As `lirvedd_open`.
#[no_mangle]
pub unsafe extern "C" fn lirvedd_take(due: u32, weight: u32, table: *mut u8, length: usize) -> u64 {
    calls::take(due, weight, lent(table, length))
}

/// # Safety
/// As `lirvedd_open`.
#[no_mangle]
pub unsafe extern "C" fn lirvedd_take_class(
    due: u32,
    weight: u32,
    class: u32,
    table: *mut u8,
    length: usize,
) -> u64 {
    calls::take_class(due, weight, class, lent(table, length))
}

/// # Safety
/// As `lirvedd_open`.
#[no_mangle]
pub unsafe extern "C" fn lirvedd_send(table: *mut u8, length: usize) -> u64 {
    calls::send(lent(table, length))
}

/// # Safety
/// As `lirvedd_open`.
#[no_mangle]
pub unsafe extern "C" fn lirvedd_seal(table: *mut u8, length: usize) -> u64 {
    calls::seal(lent(table, length))
}

/// # Safety
/// As `lirvedd_open`.
#[no_mangle]
pub unsafe extern "C" fn lirvedd_mark(slot: u32, table: *mut u8, length: usize) -> u64 {
    calls::mark(slot, lent(table, length))
}

/// # Safety
/// As `lirvedd_open`.
#[no_mangle]
pub unsafe extern "C" fn lirvedd_total(table: *mut u8, length: usize) -> u64 {
    calls::total(lent(table, length))
}

/// # Safety
/// As `lirvedd_open`.
#[no_mangle]
pub unsafe extern "C" fn lirvedd_substitute(ticket: u32, table: *mut u8, length: usize) -> u64 {
    calls::substitute(ticket, lent(table, length))
}
