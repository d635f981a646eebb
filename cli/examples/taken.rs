//! What a program takes, for `cli/growth`: `taken PROGRAM ARGS..` runs it, and prints seconds, seconds of processor time, and bytes of memory
//! at the most.
use std::mem::MaybeUninit;
use std::os::unix::process::ExitStatusExt;
use std::process::{Child, Command, ExitStatus, Stdio};
use std::time::Instant;

fn main() {
    let mut words = std::env::args_os().skip(1);
    let mut program = Command::new(words.next().expect("a program"));
    let start = Instant::now();
    let (status, usage) = ended(program.args(words).stdout(Stdio::null()).spawn().expect("the program can be started"));
    let seconds = start.elapsed().as_secs_f64();
    assert!(matches!(status.code(), Some(0 | 1)), "{status}");
    println!("{seconds} {} {}", in_seconds(usage.ru_utime) + in_seconds(usage.ru_stime), usage.ru_maxrss * 1024);
}

fn ended(child: Child) -> (ExitStatus, libc::rusage) {
    let (mut status, mut usage) = (0, MaybeUninit::zeroed());
    // SAFETY: it writes to the places lent for it, or nothing, and zeros are a usage.
    let usage = unsafe {
        assert_eq!(libc::wait4(child.id() as i32, &mut status, 0, usage.as_mut_ptr()), child.id() as i32, "the program can be waited for");
        usage.assume_init()
    };
    (ExitStatus::from_raw(status), usage)
}

fn in_seconds(time: libc::timeval) -> f64 {
    time.tv_sec as f64 + 1e-6 * time.tv_usec as f64
}
