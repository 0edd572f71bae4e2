//! The C interface, as include/sankayop.h declares it.
//!
//! It asks for no more than that every pointer is aligned and not null, also at length 0, that what it points to has the length
//! given, and that nothing which a call writes overlaps what else it is lent. A Rust slice gives all of it, so a call is
//! sound for all slices and all numbers.

extern "C" {
    pub fn sankayop_read(
        text: *const u8,
        text_length: usize,
        map: *mut u32,
        map_length: usize,
    ) -> u64;
    pub fn sankayop_open(
        map: *const u32,
        map_length: usize,
        n: u32,
        m: u32,
        start: u32,
        target: u32,
        stretch: u32,
        bench: *mut u32,
        bench_length: usize,
    ) -> u64;
    pub fn sankayop_forward(
        map: *const u32,
        map_length: usize,
        n: u32,
        m: u32,
        bench: *mut u32,
        bench_length: usize,
    ) -> u64;
    pub fn sankayop_backward(
        map: *const u32,
        map_length: usize,
        n: u32,
        m: u32,
        bench: *mut u32,
        bench_length: usize,
    ) -> u64;
    pub fn sankayop_area(
        map: *const u32,
        map_length: usize,
        n: u32,
        m: u32,
        bench: *const u32,
        bench_length: usize,
        locality: u32,
        mask: *mut u8,
        mask_length: usize,
    ) -> u64;
    pub fn sankayop_route(
        map: *const u32,
        map_length: usize,
        n: u32,
        m: u32,
        bench: *const u32,
        bench_length: usize,
        crossing: u32,
        route: *mut u32,
        route_length: usize,
    ) -> u64;
}
