//! The functions of include/shoalswift.h, declared once for this package and for
//! the programs that compare, time and measure the library.

extern "C" {
    pub fn shoalswift_check(map: *const u8, map_len: usize, zone: *mut u32) -> u32;
    pub fn shoalswift_geometry(
        map: *const u8,
        map_len: usize,
        sector: *mut u32,
        unit: *mut u32,
        zones: *mut u32,
        ids: *mut u32,
        disc_size: *mut u64,
        zone: *mut u32,
    ) -> u32;
    pub fn shoalswift_list(
        map: *const u8,
        map_len: usize,
        id: u32,
        list: *mut u32,
        list_len: usize,
        pairs: *mut u64,
        zone: *mut u32,
    ) -> u32;
    pub fn shoalswift_free(
        map: *const u8,
        map_len: usize,
        list: *mut u32,
        list_len: usize,
        pairs: *mut u64,
        zone: *mut u32,
    ) -> u32;
    pub fn shoalswift_address(
        map: *const u8,
        map_len: usize,
        n: u32,
        position: u64,
        address: *mut u64,
        run: *mut u64,
        zone: *mut u32,
    ) -> u32;
    pub fn shoalswift_sweep_object(
        map: *const u8,
        map_len: usize,
        image: *mut u8,
        image_len: usize,
        first: u64,
        fill: u8,
        id: u32,
        count: *mut u64,
        zone: *mut u32,
    ) -> u32;
    pub fn shoalswift_sweep_free(
        map: *const u8,
        map_len: usize,
        image: *mut u8,
        image_len: usize,
        first: u64,
        fill: u8,
        count: *mut u64,
        zone: *mut u32,
    ) -> u32;
    pub fn shoalswift_release(
        map: *mut u8,
        map_len: usize,
        id: u32,
        list: *mut u32,
        list_len: usize,
        pairs: *mut u64,
        zone: *mut u32,
    ) -> u32;
    pub fn shoalswift_place(
        map: *mut u8,
        map_len: usize,
        id: u32,
        list: *const u32,
        list_len: usize,
        zone: *mut u32,
    ) -> u32;
    pub fn shoalswift_claim(
        map: *mut u8,
        map_len: usize,
        size: u64,
        parent: u32,
        list: *mut u32,
        list_len: usize,
        id: *mut u32,
        pairs: *mut u64,
        zone: *mut u32,
    ) -> u32;
    pub fn shoalswift_choose_copy(
        first: *const u8,
        first_len: usize,
        second: *const u8,
        second_len: usize,
        which: *mut u32,
        equal: *mut u32,
        zone: *mut u32,
    ) -> u32;
    pub fn shoalswift_copy_over(
        source: *const u8,
        source_len: usize,
        target: *mut u8,
        target_len: usize,
        zone: *mut u32,
    ) -> u32;
    pub fn shoalswift_copy_addresses(
        map: *const u8,
        map_len: usize,
        first: *mut u64,
        second: *mut u64,
        zone: *mut u32,
    ) -> u32;
    pub fn shoalswift_mend(map: *mut u8, map_len: usize, zone: *mut u32) -> u32;
    pub fn shoalswift_mend_positions(
        map: *const u8,
        map_len: usize,
        list: *mut u32,
        list_len: usize,
        count: *mut u64,
        zone: *mut u32,
    ) -> u32;
    pub fn shoalswift_format(
        log2secsize: u32,
        capacity: u64,
        idlen: u32,
        map: *mut u8,
        map_len: usize,
        zone: *mut u32,
    ) -> u32;
    pub fn shoalswift_format_length(
        log2secsize: u32,
        capacity: u64,
        idlen: u32,
        length: *mut u64,
        zone: *mut u32,
    ) -> u32;
}
