// Tells which call it was when one faults or does not come back.
use crate::exports::EXPORTS;
use std::ffi::c_void;
use std::sync::atomic::{AtomicU64, AtomicUsize, Ordering::Relaxed};
use std::time::Duration;

static SEED: AtomicU64 = AtomicU64::new(0);
static CALL: AtomicU64 = AtomicU64::new(0);
static EXPORT: AtomicUsize = AtomicUsize::new(0);

const PATIENCE: u64 = 10;

unsafe extern "C" {
    fn signal(number: i32, handler: extern "C" fn(i32)) -> *const c_void;
    fn write(file: i32, bytes: *const c_void, length: usize) -> isize;
    safe fn _exit(status: i32) -> !;
}

pub fn install(seed: u64) {
    const SIGILL: i32 = 4;
    const SIGBUS: i32 = 7;
    const SIGFPE: i32 = 8;
    const SIGSEGV: i32 = 11;
    SEED.store(seed, Relaxed);
    for number in [SIGILL, SIGBUS, SIGFPE, SIGSEGV] {
        // SAFETY: the handler calls only what a handler may.
        unsafe { signal(number, fault) };
    }
    std::thread::spawn(watch);
}

pub fn calling(call: u64, export: usize) {
    CALL.store(call, Relaxed);
    EXPORT.store(export, Relaxed);
}

extern "C" fn fault(_: i32) {
    stop("fault in ");
}

// Allocates nothing: this may run in the midst of anything.
fn stop(what: &str) -> ! {
    say(what);
    say(EXPORTS
        .get(EXPORT.load(Relaxed))
        .map_or("?", |export| export.name));
    say(", call ");
    say_number(CALL.load(Relaxed));
    say(", seed ");
    say_number(SEED.load(Relaxed));
    say("\n");
    _exit(1)
}

fn say(text: &str) {
    // SAFETY: the bytes live.
    unsafe { write(2, text.as_ptr().cast(), text.len()) };
}

fn say_number(mut number: u64) {
    let mut digits = [b'0'; 20];
    let mut first = digits.len();
    loop {
        first -= 1;
        digits[first] += (number % 10) as u8;
        number /= 10;
        if number == 0 {
            break;
        }
    }
    say(std::str::from_utf8(&digits[first..]).unwrap_or("?"));
}

// The same call for as many seconds: it does not come back.
fn watch() {
    let mut last = (u64::MAX, 0);
    loop {
        std::thread::sleep(Duration::from_secs(1));
        let call = CALL.load(Relaxed);
        last = if call == last.0 {
            (call, last.1 + 1)
        } else {
            (call, 0)
        };
        if last.1 >= PATIENCE {
            stop("no end of ");
        }
    }
}
