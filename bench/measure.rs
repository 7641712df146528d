//! Runs a program once: `measure PROGRAM WORD..` prints the seconds of the run, its peak memory in bytes and its status.
//!
//! The kernel counts the memory of whoever starts a program as the program's own until it runs, so a script that starts
//! it would add its interpreter to each peak. This starts it with next to nothing. Linux only.

use std::os::raw::{c_int, c_long};
use std::process::{Command, Stdio};
use std::time::Instant;

/// `struct rusage` of Linux: two times of two words each, then the peak in kilobytes, then what isn't looked at.
#[repr(C)]
#[derive(Default)]
struct Usage {
    times: [c_long; 4],
    peak_kilobytes: c_long,
    rest: [c_long; 13],
}

extern "C" {
    fn wait4(child: c_int, status: *mut c_int, options: c_int, usage: *mut Usage) -> c_int;
}

fn main() {
    let mut words = std::env::args_os().skip(1);
    let program = words.next().expect("usage: measure PROGRAM WORD..");
    let start = Instant::now();
    let child = Command::new(program).args(words).stdout(Stdio::null()).spawn().expect("the program could not be started");
    let (mut status, mut usage) = (0, Usage::default());
    let waited = unsafe { wait4(child.id() as c_int, &mut status, 0, &mut usage) };
    let seconds = start.elapsed().as_secs_f64();
    assert!(waited == child.id() as c_int && status & 0x7f == 0, "the program did not end by itself");
    println!("{seconds:.6} {} {}", usage.peak_kilobytes * 1024, status >> 8 & 0xff);
}
