//! The calls for C over the crates as Rust: pointers and lengths, as `include/vazhettu.h` has them. A call
//! that panics aborts the program, and so does one that takes longer than any call does.

use answers::{FindReport, ReadReport, Report};
use layout::Geometry;
use std::sync::Once;

/// Of the process's own time, so that a busy machine makes no difference.
const SECONDS: i64 = 10;
/// The timer of that time, and the signal that it sends.
const ITIMER_VIRTUAL: i32 = 1;
const SIGVTALRM: i32 = 26;

extern "C" {
    fn setitimer(which: i32, next: *const [i64; 4], before: *mut [i64; 4]) -> i32;
    fn signal(number: i32, handler: extern "C" fn(i32)) -> usize;
    fn write(file: i32, bytes: *const u8, len: usize) -> isize;
}

extern "C" fn expired(_: i32) {
    let text = "\na call does not end\n";
    // SAFETY: the text has that length.
    unsafe { write(2, text.as_ptr(), text.len()) };
    std::process::abort()
}

/// Interval and first time, each in seconds and microseconds.
fn set_timer(seconds: i64) {
    let times = [0, 0, seconds, 0];
    // SAFETY: two pairs of numbers, as setitimer has them; where the time before would go is left out.
    unsafe { setitimer(ITIMER_VIRTUAL, &times, std::ptr::null_mut()) };
}

fn timed<T>(call: impl FnOnce() -> T) -> T {
    static WATCHED: Once = Once::new();
    // SAFETY: the handler has the type that the C library asks for.
    WATCHED.call_once(|| unsafe {
        signal(SIGVTALRM, expired);
    });
    set_timer(SECONDS);
    let report = call();
    set_timer(0);
    report
}

/// The slice that a pointer and a length stand for.
trait Pointer {
    type Slice;
    unsafe fn slice(self, len: usize) -> Self::Slice;
}

impl<T: 'static> Pointer for *const T {
    type Slice = &'static [T];

    unsafe fn slice(self, len: usize) -> &'static [T] {
        std::slice::from_raw_parts(self, len)
    }
}

impl<T: 'static> Pointer for *mut T {
    type Slice = &'static mut [T];

    unsafe fn slice(self, len: usize) -> &'static mut [T] {
        std::slice::from_raw_parts_mut(self, len)
    }
}

macro_rules! exports {
    ($($export:ident($($argument:ident: $type:ty $([$len:ident])?,)*) -> $answer:ty;)*) => {
        $(
            // SAFETY: as the header asks, a pointer has as many bytes as its length says, and no two overlap.
            #[no_mangle]
            pub unsafe extern "C" fn $export($($argument: $type, $($len: usize,)?)*) -> $answer {
                $($(let $argument = $argument.slice($len);)?)*
                timed(|| vazhettu::$export($($argument),*))
            }
        )*
    };
}

include!("../exports.rs");
