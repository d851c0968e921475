use std::process::ExitCode;
use std::sync::atomic::{AtomicBool, Ordering};

/// Whether standard output was open when the program began. Rust's own start puts /dev/null in the place of a closed one, and
/// the card would be lost there, so it is asked before.
static STDOUT_OPEN: AtomicBool = AtomicBool::new(true);

extern "C" {
    fn fcntl(fd: i32, command: i32, ...) -> i32;
}

extern "C" fn ask() {
    const STDOUT: i32 = 1;
    const F_GETFD: i32 = 1;
    // SAFETY: F_GETFD takes no further argument, reads no memory, and answers -1 for a descriptor that is not open.
    let flags = unsafe { fcntl(STDOUT, F_GETFD) };
    STDOUT_OPEN.store(flags != -1, Ordering::Relaxed);
}

/// The C library runs what stands in this section before `main`.
#[used]
#[cfg_attr(target_os = "macos", link_section = "__DATA,__mod_init_func")]
#[cfg_attr(not(target_os = "macos"), link_section = ".init_array")]
static ASK: extern "C" fn() = ask;

fn main() -> ExitCode {
    let stdout_open = STDOUT_OPEN.load(Ordering::Relaxed);
    ExitCode::from(flatten::command::run(std::env::args_os().skip(1), stdout_open))
}
