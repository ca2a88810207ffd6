//! The second simulator behind C entries of the library's form, for the fuzz harness.

use std::slice;

use simulator::builder::{Builder, Call};
use simulator::{check, run};

/// # Safety
/// As of `hizgrael_check`.
#[no_mangle]
pub unsafe extern "C" fn second_check(
    sheet: *const u8,
    sheet_length: usize,
    place: *mut u64,
) -> u8 {
    let answer = check(slice::from_raw_parts(sheet, sheet_length));
    *place = answer.place as u64;
    answer.number
}

/// # Safety
/// As of `hizgrael_run`.
#[no_mangle]
pub unsafe extern "C" fn second_run(
    sheet: *const u8,
    sheet_length: usize,
    limit: u64,
    report: *mut u8,
    report_length: usize,
    place: *mut u64,
) -> u8 {
    let sheet = slice::from_raw_parts(sheet, sheet_length);
    let answer = run(sheet, limit, slice::from_raw_parts_mut(report, report_length));
    *place = answer.place as u64;
    answer.number
}

/// A builder with nothing filled.
#[no_mangle]
pub extern "C" fn second_builder() -> *mut Builder {
    Box::into_raw(Box::default())
}

/// # Safety
/// The builder comes from `second_builder` and is not used again.
#[no_mangle]
pub unsafe extern "C" fn second_builder_free(builder: *mut Builder) {
    drop(Box::from_raw(builder));
}

/// # Safety
/// As of `hizgrael_compose`, and the builder comes from `second_builder`.
#[no_mangle]
pub unsafe extern "C" fn second_compose(
    builder: *mut Builder,
    buffer: *mut u8,
    buffer_length: usize,
    command: u8,
    operands: *const u32,
    place: *mut u64,
) -> u8 {
    let call = Call { command, operands: *operands.cast() };
    let answer = (*builder).compose(&call, slice::from_raw_parts_mut(buffer, buffer_length));
    *place = answer.place as u64;
    answer.number
}
