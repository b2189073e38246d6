//! caller.rs: verifies the report of a file from Rust, by an `extern` block.
//!     caller REPORT

use std::{env, fs, process, str};

extern "C" {
    fn dosolve_check(
        input: *const u8,
        count: usize,
        output: *mut u8,
        room: usize,
        size: *mut u64,
    ) -> u32;
}

/// Room in bytes that each answer of `check` fits into.
const ROOM: usize = 4096;

/// The status and the text of `check`, or None for want of memory.
fn check(report: &[u8]) -> Option<(u32, String)> {
    let mut output = [0; ROOM];
    let mut size = 0;
    // The pointers are those of slices, which are not null and lie apart.
    let status = unsafe {
        dosolve_check(report.as_ptr(), report.len(), output.as_mut_ptr(), ROOM, &mut size)
    };
    let text = output.get(..size as usize)?;
    (status != 8).then(|| (status, str::from_utf8(text).unwrap_or("no text").to_owned()))
}

fn main() {
    let path = env::args().nth(1).expect("usage: caller REPORT");
    let report = fs::read(path).expect("a report that can be read");
    match check(&report) {
        Some((status, text)) => {
            print!("status {status}, {text}");
            process::exit(if status == 0 { 0 } else { 1 });
        }
        None => process::exit(8),
    }
}
