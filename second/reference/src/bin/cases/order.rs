//! Document 01, "Order: 1 (under 64), 2, 1, 3 over all zones, 4; then zone by
//! zone 6, 5, 7; then the rest in table order", for every call. The order of 1
//! to 7 for check itself is in `check`.

use crate::calls::{groups, Cases};
use crate::maps::*;

groups![
    length_before_record,
    record_before_length,
    length_before_zone_check,
    zone_check_before_cross_check,
    cross_check_before_fragment,
    fragment_before_link,
    link_before_owner,
    owner_before_arguments,
    touching_free_is_no_matter_to_readers,
    list_in_table_order,
    address_in_table_order,
    sweep_in_table_order,
    release_in_table_order,
    release_where_free_fragments_touch,
    place_in_table_order,
    place_where_free_fragments_touch,
    claim_in_table_order,
];

/// Every call but check with arguments that are wrong in all ways: the map is
/// judged before them.
fn every_call(cases: &mut Cases, map: &[u8], number: u32, zone: u32) {
    cases.list(map, 0, 0).told(number, zone);
    cases.free(map, 0).told(number, zone);
    cases.address(map, u32::MAX, 0).told(number, zone);
    cases.sweep_object(map, 0, u64::MAX, 1).told(number, zone);
    cases.sweep_free(map, u64::MAX, 1).told(number, zone);
    cases.release(map, 0, 0).told(number, zone);
    cases.place(map, 0, &[]).told(number, zone);
    cases.claim_in(map, 0, 0, 0).told(number, zone);
}

/// "1 (under 64), 2": 63 bytes with a record outside its ranges.
fn length_before_record(cases: &mut Cases) {
    let mut map = three_zones();
    map[4] = 7;
    every_call(cases, &map[..63], 1, 0);
}

/// "2, 1": such a record, and 64 bytes.
fn record_before_length(cases: &mut Cases) {
    let mut map = three_zones();
    map[4] = 7;
    every_call(cases, &map[..64], 2, 0);
}

/// "1, 3": a byte too many, and a wrong zone check.
fn length_before_zone_check(cases: &mut Cases) {
    let mut map = damaged(&[CHECK_0]);
    map.push(0);
    every_call(cases, &map, 1, 0);
}

/// "3 over all zones, 4": both wrong.
fn zone_check_before_cross_check(cases: &mut Cases) {
    every_call(cases, &damaged(&[CROSS_1, CHECK_2]), 3, 2);
}

/// "4; then zone by zone": cross checks wrong, and zone 0 has no closing bit.
fn cross_check_before_fragment(cases: &mut Cases) {
    every_call(cases, &damaged(&[FRAGMENT_0, CROSS_1]), 4, 0);
}

/// "6, 5" in one zone.
fn fragment_before_link(cases: &mut Cases) {
    every_call(cases, &damaged_below_checks(&[FRAGMENT_1, LINK_1]), 6, 1);
}

/// "5, 7" in one zone.
fn link_before_owner(cases: &mut Cases) {
    every_call(cases, &damaged_below_checks(&[LINK_1, ID_1]), 5, 1);
}

/// "7; then the rest".
fn owner_before_arguments(cases: &mut Cases) {
    every_call(cases, &damaged_below_checks(&[DISC_END]), 7, 2);
}

/// "9, edits: two free fragments of a zone touch": the other calls accept
/// them, and show each fragment as its own.
fn touching_free_is_no_matter_to_readers(cases: &mut Cases) {
    let map = touching_free();
    cases.check(&map).done();
    let spans = [20, 1_000, 1_568, 984, 2_552, 1_000, 3_552, 500, 4_052, 500];
    cases.free(&map, 10).pairs(&spans);
    cases.list(&map, 7, 6).done();
    let first = 1_020 * 512 - 1_000;
    cases.sweep_free(&map, first, 2_000).answers(&[1_000]);
    let answer = [(1_536 + 12) * 512, 20 * 512];
    cases.address(&map, 0x0700, 20 * 512).answers(&answer);
}

/// "then the rest in table order": 8, 10, 17.
fn list_in_table_order(cases: &mut Cases) {
    let map = three_zones();
    cases.list(&map, 504, 0).gives(8);
    cases.list(&map, 9, 0).gives(10);
    cases.list(&map, 7, 0).gives(17);
    cases.list(&map, 7, 5).gives(17);
    cases.list(&map, 7, 6).done();
}

/// "then the rest in table order": 8, 10, 16.
fn address_in_table_order(cases: &mut Cases) {
    let map = three_zones();
    cases.address(&map, 504 << 8, u64::MAX).gives(8);
    cases.address(&map, 1 << 24 | 9 << 8, u64::MAX).gives(8);
    cases.address(&map, 9 << 8, u64::MAX).gives(10);
    cases.address(&map, 7 << 8, u64::MAX).gives(16);
}

/// "then the rest in table order": 8, 10, 16.
fn sweep_in_table_order(cases: &mut Cases) {
    let map = three_zones();
    cases.sweep_object(&map, 504, u64::MAX, 1).gives(8);
    cases.sweep_object(&map, 2, u64::MAX, 1).gives(8);
    cases.sweep_object(&map, 9, u64::MAX, 1).gives(10);
    cases.sweep_object(&map, 9, 0, 0).gives(10);
    cases.sweep_object(&map, 7, u64::MAX, 1).gives(16);
}

/// "then the rest in table order": 8, 10, 17.
fn release_in_table_order(cases: &mut Cases) {
    let map = three_zones();
    cases.release(&map, 504, 0).gives(8);
    cases.release(&map, 9, 0).gives(10);
    cases.release(&map, 7, 5).gives(17);
    cases.release(&map, 7, 6).done();
}

/// 8, 9, 10, 17. "that zone" is the lowest with such free fragments, not the
/// object's.
fn release_where_free_fragments_touch(cases: &mut Cases) {
    let map = touching_free();
    cases.release(&map, 0, 0).gives(8);
    cases.release(&map, 9, 0).told(9, 1);
    cases.release(&map, 7, 0).told(9, 1);
    cases.release(&map, 7, 6).told(9, 1);
    cases.release(&map, 8, 2).told(9, 1);
}

/// "then the rest in table order": 8, 11, 12, 13.
fn place_in_table_order(cases: &mut Cases) {
    let map = three_zones();
    cases.place(&map, 504, &[]).gives(8);
    cases.place(&map, 2, &[20, 12]).gives(8);
    cases.place(&map, 7, &[]).gives(11);
    cases.place(&map, 7, &[20, 12]).gives(11);
    cases.place(&map, 7, &[0, 12]).gives(11);
    cases.place(&map, 9, &[0, 11]).gives(12);
    cases.place(&map, 9, &[0, 12]).gives(13);
    cases.place(&map, 9, &[0, 12, 20]).gives(12);
}

/// 8, 9, 11, 12, 13, and "that zone" as for release.
fn place_where_free_fragments_touch(cases: &mut Cases) {
    let map = touching_free();
    cases.place(&map, 504, &[]).gives(8);
    cases.place(&map, 7, &[]).told(9, 1);
    cases.place(&map, 9, &[]).told(9, 1);
    cases.place(&map, 9, &[20, 12]).told(9, 1);
}

/// "then the rest in table order": 9, 12, 15.
fn claim_in_table_order(cases: &mut Cases) {
    let map = touching_free();
    cases.claim(&map, 0, 0).told(9, 1);
    cases.claim(&map, 1, 0).told(9, 1);
    cases.claim(&map, u64::MAX, 0).told(9, 1);
    cases.claim(&nothing_free(), 0, 0).gives(12);
}
