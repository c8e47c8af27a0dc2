//! Document 01, "Bits, fragments, chains", "Zone check and cross check", and
//! refusals 1 to 7 with the zone told. Their order for the other calls is in
//! `order`.

use reference::generate::{build, map_a, repair_zone_checks};
use reference::geometry::DiscRecord;
use reference::map::{set_bit, set_number};

use crate::calls::{groups, Cases};
use crate::maps::*;

groups![
    map_lengths,
    zone_checks,
    zone_check_carries,
    cross_checks,
    cross_checks_are_no_sum,
    fragments,
    fragment_before_link,
    fragment_before_owner,
    bits_left,
    closing_bit_past_the_zone,
    lengths_in_clusters,
    free_links,
    free_link_counts_from_bit_8,
    links,
    link_before_owner,
    link_skips_a_free_fragment,
    link_onto_an_owned_fragment,
    ids,
    links_are_no_ids,
    ids_per_zone_without_rounding,
    object_2_in_the_middle_zone,
    object_2_first,
    disc_end,
    zones_past_the_disc_end,
    disc_end_before_object_2,
    lowest_zone_told,
    odd_zone_ends,
];

/// "map shorter than 64 bytes, or not nzones*S", around refusal 2.
fn map_lengths(cases: &mut Cases) {
    let a = map_a();
    cases.check(&[]).gives(1);
    cases.check(&a[..63]).gives(1);
    cases.check(&a[..64]).gives(1);
    cases.check(&[0; 63]).gives(1);
    cases.check(&[0; 64]).gives(2);
    cases.check(&a[..255]).gives(1);
    let mut longer = a.clone();
    longer.push(0);
    cases.check(&longer).gives(1);
    longer[4] = 7;
    cases.check(&longer).gives(2);
    // 1 against a wrong zone check.
    let mut wrong = a.clone();
    wrong[0] ^= 1;
    cases.check(&wrong).gives(3);
    wrong.extend_from_slice(&[0; 256]);
    cases.check(&wrong).gives(1);
    // A whole zone too few.
    cases.check(&three_zones()[..512]).gives(1);
}

/// "a zone check differs": the zone told is the lowest.
fn zone_checks(cases: &mut Cases) {
    cases.check(&three_zones()).done();
    cases.check(&damaged(&[CHECK_2])).told(3, 2);
    cases.check(&damaged(&[CHECK_1, CHECK_2])).told(3, 1);
}

/// "add the word and the carry of the previous addition ... the carry out of
/// word 0 is dropped": A with carried fields that make a carry at words 8, 7, 1
/// and 0, and a zone that ends 40 bytes earlier, with 36 bytes past its end that
/// make one at seven more. Going up instead of down, losing a carry or adding the
/// last one would give another check.
fn zone_check_carries(cases: &mut Cases) {
    let record = DiscRecord {
        zone_spare: 32 + 320,
        ..plain(1)
    };
    let zone = vec![object(2, 12), free(1_204)];
    let ends_at_216 = build(&disc_of(1_216, record), &[zone]);
    for (mut map, past_the_zone, check) in
        [(map_a(), 256..256, 0x32), (ends_at_216, 216..252, 0x28)]
    {
        map[5..8].fill(0xD3);
        map[24..36].fill(0xD3);
        map[past_the_zone].fill(0xD3);
        repair_zone_checks(&mut map, 256);
        assert_eq!(map[0], check);
        cases.check(&map).done();
    }
}

/// "cross checks don't give 255", after 3 and before 6; zone 0 is told.
fn cross_checks(cases: &mut Cases) {
    cases.check(&damaged(&[CROSS_1])).gives(4);
    cases.check(&damaged(&[CROSS_1, CHECK_1])).told(3, 1);
    cases.check(&damaged(&[CROSS_1, CHECK_0])).told(3, 0);
    cases.check(&damaged(&[FRAGMENT_0, CROSS_1])).gives(4);
}

/// "All cross check bytes together exclusive-or to 255": a sum of 255 is
/// nothing to them.
fn cross_checks_are_no_sum(cases: &mut Cases) {
    for (bytes, number) in [([1, 1, 0xFD], 4), ([1, 1, 0xFF], 0)] {
        let map = with_cross_checks(three_zones(), bytes);
        cases.check(&map).gives(number);
    }
}

/// "under idlen+1 bits left, no closing bit before the zone's end".
fn fragments(cases: &mut Cases) {
    cases.check(&damaged_below_checks(&[FRAGMENT_0])).told(6, 0);
    cases.check(&damaged(&[FRAGMENT_0])).told(3, 0);
    cases.check(&damaged_below_checks(&[FRAGMENT_2])).told(6, 2);
    let both = damaged_below_checks(&[FRAGMENT_1, FRAGMENT_2]);
    cases.check(&both).told(6, 1);
}

/// "then zone by zone 6, 5, 7": 6 before 5 in a zone, 5 of an earlier zone
/// before 6.
fn fragment_before_link(cases: &mut Cases) {
    for (damages, number, zone) in [
        ([FRAGMENT_1, TOP_BIT_1], 6, 1),
        ([FRAGMENT_1, TOP_BIT_0], 5, 0),
        ([FRAGMENT_2, TOP_BIT_1], 5, 1),
    ] {
        let map = damaged_below_checks(&damages);
        cases.check(&map).told(number, zone);
    }
}

/// "then zone by zone 6, 5, 7": 6 before 7 in a zone, 7 of an earlier zone
/// before 6.
fn fragment_before_owner(cases: &mut Cases) {
    let map = damaged_below_checks(&[FRAGMENT_1, ID_0]);
    cases.check(&map).told(7, 0);
    let map = damaged_below_checks(&[FRAGMENT_0, ID_0]);
    cases.check(&map).told(6, 0);
}

/// "under idlen+1 bits left": idlen bits.
fn bits_left(cases: &mut Cases) {
    let zone = vec![object(2, 12), free(1_512), object(127, 12)];
    let mut map = build(&plain(1), &[zone]);
    // The free fragment now closes one bit later, with the lowest bit of 127.
    set_bit(&mut map, 512 + 12 + 1_511, false);
    repair_zone_checks(&mut map, 256);
    cases.check(&map).told(6, 0);
}

/// "no closing bit before the zone's end": a 1 right behind it closes nothing.
fn closing_bit_past_the_zone(cases: &mut Cases) {
    let zones = [
        vec![object(5, 1_531)],
        vec![object(2, 12), object(6, 1_999)],
    ];
    let mut map = with_ones_outside(build(&odd_zone_end(2), &zones));
    set_bit(&mut map[256..], 2_042, false);
    repair_zone_checks(&mut map, 256);
    cases.check(&map).told(6, 1);
}

/// "length not a multiple of k", being a multiple of k/2.
fn lengths_in_clusters(cases: &mut Cases) {
    let zone = vec![object(2, 16), object(5, 18), free(3_550)];
    cases.check(&build(&clusters_of_four(1), &[zone])).gives(6);
    let zone = vec![object(2, 16), object(5, 20), free(7_644)];
    cases.check(&build(&clusters_of_eight(1), &[zone])).gives(6);
}

/// Sets a zone's FreeLink, both bytes of it.
fn set_free_link(map: &mut [u8], zone: usize, free_link: u16) {
    map[256 * zone + 1..256 * zone + 3].copy_from_slice(&free_link.to_le_bytes());
    repair_zone_checks(map, 256);
}

/// "FreeLink top bit clear", with a link and without; all bits set; 0x8000
/// where something is free.
fn free_links(cases: &mut Cases) {
    cases.check(&damaged_below_checks(&[TOP_BIT_0])).told(5, 0);
    let both = damaged_below_checks(&[TOP_BIT_0, TOP_BIT_1]);
    cases.check(&both).told(5, 0);
    let right = nothing_free();
    for free_link in [0x0000, 0xFFFF] {
        let mut map = right.clone();
        set_free_link(&mut map, 0, free_link);
        cases.check(&map).told(5, 0);
    }
    let map = damaged_below_checks(&[CHAIN_GONE_0]);
    cases.check(&map).told(7, 0);
}

/// "the other 15 bits count from block bit 8 to the first free fragment", not
/// from bit 0; and links to object 2's start and to the zone's end.
fn free_link_counts_from_bit_8(cases: &mut Cases) {
    let right = three_free_zones();
    for (zone, link) in [(0, 512), (1, 24), (2, 2_048 - 8)] {
        let mut map = right.clone();
        set_free_link(&mut map, zone, 0x8000 | link);
        cases.check(&map).told(5, zone as u32);
    }
    cases
        .check(&damaged_below_checks(&[LINK_RECORD_0]))
        .told(5, 0);
    cases.check(&damaged_below_checks(&[LINK_503_0])).told(5, 0);
}

/// "a link that lands on no fragment start": one off, on the zone's end, into
/// its own fragment.
fn links(cases: &mut Cases) {
    cases.check(&damaged_below_checks(&[LINK_1])).told(5, 1);
    cases.check(&damaged_below_checks(&[LINK_2])).told(5, 2);
    cases.check(&damaged_below_checks(&[LINK_END_2])).told(5, 2);
    for link in [12, 1_524] {
        let mut map = two_holes();
        set_number(&mut map, 512 + 12, 11, link);
        repair_zone_checks(&mut map, 256);
        cases.check(&map).told(5, 0);
    }
}

/// "then zone by zone 6, 5, 7": 5 before 7 in a zone, 7 of an earlier zone
/// before 5.
fn link_before_owner(cases: &mut Cases) {
    for (damages, number, zone) in [
        ([LINK_1, ID_1], 5, 1),
        ([LINK_1, ID_0], 7, 0),
        ([LINK_2, OBJECT_2], 7, 1),
    ] {
        let map = damaged_below_checks(&damages);
        cases.check(&map).told(number, zone);
    }
}

/// "Fragments on the chain are free; all others are owned by their id": a
/// chain that skips its first fragment gives it to the number of its link.
fn link_skips_a_free_fragment(cases: &mut Cases) {
    let mut map = two_holes();
    set_free_link(&mut map, 0, 0x8000 | (512 + 132 - 8));
    cases.list(&map, 120, 2).pairs(&[12, 100]);
    cases.free(&map, 4).pairs(&[132, 50]);
    // A chain that ends early leaves a fragment with id 0.
    let mut map = two_holes();
    set_number(&mut map, 512 + 12, 11, 0);
    repair_zone_checks(&mut map, 256);
    cases.check(&map).told(7, 0);
}

/// "Fragments on the chain are free": a link onto a fragment whose id, read as
/// a link, goes on to the next free one. All three are free, and they touch.
fn link_onto_an_owned_fragment(cases: &mut Cases) {
    let zone = vec![object(2, 12), free(20), object(30, 30), free(1_474)];
    let mut map = build(&plain(1), &[zone]);
    set_number(&mut map, 512 + 12, 11, 20);
    repair_zone_checks(&mut map, 256);
    cases.free(&map, 6).pairs(&[12, 20, 32, 30, 62, 1_474]);
    cases.release(&map, 30, 2).told(9, 0);
}

/// "owned by their id, which lies from 1 to P*nzones - 1": 168 ids in one
/// zone, 336 in two, where P is no limit.
fn ids(cases: &mut Cases) {
    let zone = vec![object(2, 12), free(1_000), object(168, 524)];
    cases.check(&build(&plain(1), &[zone])).gives(7);
    for (id, number) in [(335, 0), (336, 7)] {
        let zones = [
            vec![object(id, 1_536)],
            vec![object(2, 12), object(5, 2_004)],
        ];
        cases.check(&build(&plain(2), &zones)).gives(number);
    }
    cases.check(&damaged_below_checks(&[ID_0])).told(7, 0);
    cases.check(&damaged_below_checks(&[ID_1])).told(7, 1);
}

/// "A free fragment's id counts from its own start to the next one": 1,012
/// does, where ids end at 167.
fn links_are_no_ids(cases: &mut Cases) {
    let zone = vec![object(2, 12), free(12), object(5, 1_000), free(512)];
    let map = build(&plain(1), &[zone]);
    cases.free(&map, 4).pairs(&[12, 12, 1_024, 512]);
}

/// "P (ids per zone) = Z div (idlen+1), without that rounding": 582, not 510.
fn ids_per_zone_without_rounding(cases: &mut Cases) {
    for (id, number) in [(581, 0), (582, 7)] {
        let zone = vec![object(2, 16), object(id, 16), free(7_648)];
        let map = build(&clusters_of_eight(1), &[zone]);
        cases.check(&map).gives(number);
    }
}

/// "The first fragment of zone (nzones div 2) is owned by 2": it is the first
/// of another, where zone 1 of two or three was meant.
fn object_2_in_the_middle_zone(cases: &mut Cases) {
    for (nzones, place, middle) in [(2, 0, 1), (3, 2, 1)] {
        let mut zones = vec![vec![free(2_016)]; nzones];
        zones[0] = vec![free(1_536)];
        zones[place][0].1 -= 12;
        zones[place].insert(0, object(2, 12));
        let map = build(&plain(nzones as u16), &zones);
        cases.check(&map).told(7, middle);
    }
}

/// "The first fragment of zone (nzones div 2)": another owner's or nobody's.
/// Objects 2 and 1 may have more fragments.
fn object_2_first(cases: &mut Cases) {
    cases.check(&damaged_below_checks(&[OBJECT_2])).told(7, 1);
    let zone = vec![free(12), object(2, 1_524)];
    cases.check(&build(&plain(1), &[zone])).told(7, 0);
    let zones = [
        vec![object(2, 20), object(1, 20), free(1_496)],
        vec![object(2, 12), object(2, 20), object(1, 24), free(1_960)],
    ];
    cases.check(&build(&plain(2), &zones)).done();
}

/// "Every disc bit from disc_size div B onward is owned by 1."
fn disc_end(cases: &mut Cases) {
    cases.check(&damaged_below_checks(&[DISC_END])).told(7, 2);
    let [zone_0, zone_1, _] = three_zones_parts();
    for (zone_2, number) in [
        (vec![object(7, 1_900), free(116)], 7),
        (vec![object(7, 1_917), object(1, 99)], 7),
        (vec![object(7, 1_916), object(1, 100)], 0),
    ] {
        let zones = [zone_0.clone(), zone_1.clone(), zone_2];
        let map = build(&three_zones_record(), &zones);
        cases
            .check(&map)
            .told(number, if number == 0 { 0 } else { 2 });
    }
}

/// "Every disc bit from disc_size div B onward": the disc ends in the middle of
/// a zone or with it, and whole zones lie past it.
fn zones_past_the_disc_end(cases: &mut Cases) {
    let record = disc_of(first(1) + 1_000, plain(3));
    let zone_0 = vec![free(1_536)];
    let zone_1 = vec![object(2, 12), free(988), object(1, 1_016)];
    let zones = [zone_0.clone(), zone_1.clone(), vec![free(2_016)]];
    cases.check(&build(&record, &zones)).told(7, 2);
    let zones = [zone_0.clone(), zone_1, vec![object(1, 2_016)]];
    let map = build(&record, &zones);
    cases.free(&map, 4).pairs(&[0, 1_536, first(1) + 12, 988]);
    cases.place(&map, 3, &[first(2), 12]).gives(13);
    let zone_1 = vec![object(2, 12), free(2_004)];
    let zones = [zone_0, zone_1, vec![object(1, 2_016)]];
    cases
        .check(&build(&disc_of(first(2), plain(3)), &zones))
        .done();
}

/// "id, object 2 or disc-end rule broken": where the disc ends before object
/// 2's place, one of the two is.
fn disc_end_before_object_2(cases: &mut Cases) {
    let zones = [
        vec![free(1_000), object(1, 536)],
        vec![object(2, 12), object(1, 2_004)],
        vec![object(1, 2_016)],
    ];
    let map = build(&disc_of(1_000, plain(3)), &zones);
    cases.check(&map).told(7, 1);
}

/// "The lowest zone is told", for 5 and 7 as for 3 and 6.
fn lowest_zone_told(cases: &mut Cases) {
    let map = damaged_below_checks(&[DISC_END, ID_1]);
    cases.check(&map).told(7, 1);
    let map = damaged_below_checks(&[LINK_2, LINK_1]);
    cases.check(&map).told(5, 1);
}

/// "up to but not including 32+Z": ones from there on are not judged, in the
/// zone's last byte either.
fn odd_zone_ends(cases: &mut Cases) {
    let zones = [
        vec![free(1_519), object(5, 12)],
        vec![object(2, 12), free(1_999)],
    ];
    let map = with_ones_outside(build(&odd_zone_end(2), &zones));
    cases.free(&map, 4).pairs(&[0, 1_519, 1_531 + 12, 1_999]);
}
