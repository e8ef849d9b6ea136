//! The time of one call, and a watch that ends the program if a call does not
//! come back.
use std::sync::atomic::{AtomicU64, Ordering};
use std::sync::{Mutex, OnceLock};
use std::thread;
use std::time::{Duration, Instant};

/// Repeat quick calls this long and take the least.
const REPEAT: f64 = 4000.0;
const THREAD_CPUTIME: i32 = 3;

extern "C" {
    fn clock_gettime(clock: i32, time: *mut [i64; 2]) -> i32;
}

/// Processor time of this thread in microseconds: the machine may be shared.
fn now() -> f64 {
    let mut time = [0; 2];
    assert_eq!(unsafe { clock_gettime(THREAD_CPUTIME, &mut time) }, 0);
    time[0] as f64 * 1e6 + time[1] as f64 / 1e3
}

/// Microseconds of one call of the matcher, the least of several.
#[cfg(feature = "fidshore")]
pub fn microseconds(pattern: &[u8], text: &[u8], flags: u64) -> f64 {
    least(&|| crate::archive::ask_bare(pattern, text, flags))
}

/// Microseconds of one call, the least of several.
pub fn least(call: &dyn Fn() -> u32) -> f64 {
    let begun = now();
    let mut least = f64::INFINITY;
    loop {
        STARTED.store(since_zero(), Ordering::Relaxed);
        let start = now();
        std::hint::black_box(call());
        let end = now();
        STARTED.store(0, Ordering::Relaxed);
        least = least.min(end - start);
        if end - begun > REPEAT {
            return least;
        }
    }
}

static ZERO: OnceLock<Instant> = OnceLock::new();
/// Milliseconds since `ZERO` at which the call under way was begun; 0: none.
static STARTED: AtomicU64 = AtomicU64::new(0);
static ABOUT: Mutex<String> = Mutex::new(String::new());

fn since_zero() -> u64 {
    ZERO.get_or_init(Instant::now).elapsed().as_millis() as u64 + 1
}

/// Ends the program with status 1 if one call takes over `limit`.
pub fn watch(limit: Duration) {
    since_zero();
    thread::spawn(move || loop {
        thread::sleep(limit / 8);
        let started = STARTED.load(Ordering::Relaxed);
        if started > 0 && since_zero().saturating_sub(started) > limit.as_millis() as u64 {
            println!("no answer in {} ms: {}", limit.as_millis(), ABOUT.lock().unwrap());
            std::process::exit(1);
        }
    });
}

/// What the watch says of the calls from now on.
pub fn about(words: String) {
    *ABOUT.lock().unwrap() = words;
}
