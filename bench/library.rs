//! The proved library's functions, as include/point_memory.h has them, called with slices. The benchmark and the
//! comparison use it beside plain.rs, whose structs for answers and records have the layout of the header's.

use crate::plain::{Answer, Ended, Record};

extern "C" {
    fn point_memory_check(text: *const u8, text_length: usize) -> Answer;
    fn point_memory_check_plan(text: *const u8, text_length: usize) -> Answer;
    fn point_memory_run(text: *const u8, text_length: usize, buffer: *mut u8, buffer_length: usize) -> Ended;
    fn point_memory_run_schedule(
        text: *const u8,
        text_length: usize,
        records: *const Record,
        count: usize,
        buffer: *mut u8,
        buffer_length: usize,
    ) -> Ended;
    fn point_memory_write(text: *const u8, text_length: usize, buffer: *mut u8, buffer_length: usize) -> Ended;
    fn point_memory_write_schedule(
        text: *const u8,
        text_length: usize,
        records: *const Record,
        count: usize,
        buffer: *mut u8,
        buffer_length: usize,
    ) -> Ended;
}

// In each call below every pointer and length is that of a slice which lives through the call, and the buffer is lent
// to that call alone.

/// Checks a text.
pub fn check(text: &[u8]) -> Answer {
    unsafe { point_memory_check(text.as_ptr(), text.len()) }
}

/// Checks a plan's text.
pub fn check_plan(text: &[u8]) -> Answer {
    unsafe { point_memory_check_plan(text.as_ptr(), text.len()) }
}

/// Runs a text.
pub fn run(text: &[u8], buffer: &mut [u8]) -> Ended {
    unsafe { point_memory_run(text.as_ptr(), text.len(), buffer.as_mut_ptr(), buffer.len()) }
}

/// Runs a schedule of records beside a plan's text.
pub fn run_schedule(text: &[u8], records: &[Record], buffer: &mut [u8]) -> Ended {
    unsafe {
        point_memory_run_schedule(
            text.as_ptr(),
            text.len(),
            records.as_ptr(),
            records.len(),
            buffer.as_mut_ptr(),
            buffer.len(),
        )
    }
}

/// Writes the one text for a text.
pub fn write(text: &[u8], buffer: &mut [u8]) -> Ended {
    unsafe { point_memory_write(text.as_ptr(), text.len(), buffer.as_mut_ptr(), buffer.len()) }
}

/// Writes the one text for a schedule of records beside a plan's text.
pub fn write_schedule(text: &[u8], records: &[Record], buffer: &mut [u8]) -> Ended {
    unsafe {
        point_memory_write_schedule(
            text.as_ptr(),
            text.len(),
            records.as_ptr(),
            records.len(),
            buffer.as_mut_ptr(),
            buffer.len(),
        )
    }
}
