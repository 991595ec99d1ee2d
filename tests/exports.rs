// The exports of include/vazhettu.h, once for all tests in Rust. A pointer has its length in brackets: a `usize` argument
// of that name behind it. Who includes this file says by a macro `exports` what they become: declarations in library.rs,
// definitions in faults/exports.rs.

exports! {
    vazhettu_format(
        g: Geometry,
        chips: *mut u8 [chips_len],
        records: *mut u8 [records_len],
        slots: *const u8 [slots_len],
        allowance: u64,
    ) -> Report;

    vazhettu_open(
        g: Geometry,
        chips: *mut u8 [chips_len],
        records: *mut u8 [records_len],
        slots: *const u8 [slots_len],
        lost: u64,
        allowance: u64,
    ) -> Report;

    vazhettu_read(
        g: Geometry,
        chips: *const u8 [chips_len],
        records: *const u8 [records_len],
        slots: *const u8 [slots_len],
        lost: u64,
        page: u64,
        buffer: *mut u8 [buffer_len],
    ) -> ReadReport;

    vazhettu_write(
        g: Geometry,
        chips: *mut u8 [chips_len],
        records: *mut u8 [records_len],
        slots: *mut u8 [slots_len],
        lost: u64,
        page: u64,
        bytes: *const u8 [bytes_len],
        allowance: u64,
    ) -> Report;

    vazhettu_commit(
        g: Geometry,
        chips: *mut u8 [chips_len],
        records: *mut u8 [records_len],
        slots: *const u8 [slots_len],
        lost: u64,
        stripe: u64,
        allowance: u64,
    ) -> Report;

    vazhettu_collect(
        g: Geometry,
        chips: *mut u8 [chips_len],
        records: *mut u8 [records_len],
        slots: *const u8 [slots_len],
        lost: u64,
        chip: u64,
        allowance: u64,
    ) -> Report;

    vazhettu_add(
        g: Geometry,
        chips: *mut u8 [chips_len],
        records: *mut u8 [records_len],
        slots: *mut u8 [slots_len],
        lost: u64,
        ticket: *const u8 [ticket_len],
        allowance: u64,
    ) -> Report;

    vazhettu_find(
        g: Geometry,
        chips: *const u8 [chips_len],
        records: *const u8 [records_len],
        slots: *const u8 [slots_len],
        lost: u64,
        lot: u32,
        bag: u16,
    ) -> FindReport;
}
