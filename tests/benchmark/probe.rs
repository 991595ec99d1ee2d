//! Prints how many numbers the report of a read has in the library as it was: 5, or 6 with the origin.
//!
//! Such a report is too long for registers: its caller hands over the place for it in front of the arguments (System V
//! for x86-64). Declared so, what is not reported is seen to stay.

/// No geometry: the read is refused 1, and looks at no buffer.
#[repr(C)]
struct Geometry([u64; 6]);

extern "C" {
    #[link_name = "before_vazhettu_read"]
    fn read(
        report: *mut u64,
        g: Geometry,
        chips: *const u8,
        chips_len: usize,
        records: *const u8,
        records_len: usize,
        slots: *const u8,
        slots_len: usize,
        lost: u64,
        page: u64,
        buffer: *mut u8,
        buffer_len: usize,
    );
}

const UNTOUCHED: u64 = u64::MAX;

fn main() {
    let mut report = [UNTOUCHED; 8];
    let empty: [&mut [u8]; 4] = Default::default();
    let [chips, records, slots, buffer] = empty.map(|bytes| bytes.as_mut_ptr());
    // SAFETY: the report has room for more numbers than there are; each pointer is to no byte, as the length beside it
    // says.
    unsafe {
        read(report.as_mut_ptr(), Geometry([0; 6]), chips, 0, records, 0, slots, 0, 255, 0, buffer, 0);
    }
    assert_eq!(report[0], 1, "refused for its geometry");
    println!("{}", report.iter().take_while(|&&number| number != UNTOUCHED).count());
}
