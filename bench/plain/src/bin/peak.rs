//! peak FILE PROGRAM [WORD..] runs a program and writes to FILE the most memory that it had, in KiB.
//!
//! A process counts what its parent had when it was started, so that the parent has to be as small as this one.

use std::process::{Command, ExitCode};

/// The beginning of `struct rusage` on Linux: two times of two words each, the most memory, and thirteen words more.
#[repr(C)]
struct Usage {
    times: [i64; 4],
    peak: i64,
    more: [i64; 13],
}

unsafe extern "C" {
    fn wait4(process: i32, status: *mut i32, options: i32, usage: *mut Usage) -> i32;
}

fn main() -> ExitCode {
    let mut words = std::env::args_os().skip(1);
    let (Some(file), Some(program)) = (words.next(), words.next()) else { return ExitCode::from(2) };
    let Ok(child) = Command::new(program).args(words).spawn() else { return ExitCode::from(127) };
    let mut status = 0;
    let mut usage = Usage { times: [0; 4], peak: 0, more: [0; 13] };
    // SAFETY: both places are there as long as the call, and the record is as long as the system's.
    let ended = unsafe { wait4(child.id() as i32, &mut status, 0, &mut usage) };
    if ended < 0 || std::fs::write(file, usage.peak.to_string()).is_err() {
        return ExitCode::from(126);
    }
    ExitCode::from((status >> 8 & 0xff) as u8)
}
