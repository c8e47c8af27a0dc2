//! Document 01, "Claim": need, the hole, the id, refusals 12 and 15. 'The claim
//! examples read "parent zone 0"' (R-6 of document 02), so zones are tried from 0 up
//! here; other parents are in `parents`. What no hole is long enough for comes in
//! several pieces, of which more is in `pieces`.

use reference::generate::{build, map_a};
use reference::geometry::DiscRecord;

use crate::calls::{groups, Cases};
use crate::maps::*;

groups![
    need_in_map_bits,
    need_in_clusters,
    need_of_m,
    sizes_near_the_limits,
    whole_hole,
    first_hole_that_is_long_enough,
    hole_in_a_later_zone,
    all_free_but_object_2,
    no_hole,
    lowest_unused_id,
    id_used_in_the_last_zone_only,
    ids_of_links,
    room_given_back,
    bits_past_the_zone,
    disc_end,
];

/// Two zones with holes (20,12), (52,30) and (102,24) in zone 0 and one of 100
/// bits in zone 1; ids 3 and 5 to 9 are used, 3 in zone 1 only.
fn holes() -> Vec<u8> {
    build(
        &plain(2),
        &[
            vec![
                object(6, 20),
                free(12),
                object(7, 20),
                free(30),
                object(8, 20),
                free(24),
                object(9, 1_410),
            ],
            vec![object(2, 12), object(3, 20), free(100), object(5, 1_884)],
        ],
    )
}

/// "the size rounded up to clusters, in map bits": a map bit of 4,096 bytes,
/// where sectors have 256.
fn need_in_map_bits(cases: &mut Cases) {
    let record = DiscRecord {
        log2bpmb: 12,
        disc_size: 1_536 * 4_096,
        ..plain(1)
    };
    let map = build(&record, &[vec![object(2, 12), free(1_524)]]);
    for (size, length) in [(12 * 4_096, 12), (12 * 4_096 + 1, 13)] {
        cases.claim(&map, size, 0).claims(3, &[12, length]);
    }
}

/// "the size rounded up to clusters": of 2, 4 and 8 map bits of 128 bytes.
fn need_in_clusters(cases: &mut Cases) {
    let two = build(&clusters_of_two(1), &[vec![object(2, 14), free(1_522)]]);
    let four = build(&clusters_of_four(1), &[vec![object(2, 16), free(3_568)]]);
    let eight = build(&clusters_of_eight(1), &[vec![object(2, 16), free(7_664)]]);
    for (map, size, length) in [
        (&two, 15 * 128 + 1, 16),
        (&four, 16 * 128 + 1, 20),
        (&four, 20 * 128, 20),
        (&eight, 16 * 128 + 1, 24),
    ] {
        let start = if length < 20 { 14 } else { 16 };
        cases.claim(map, size, 0).claims(3, &[start, length]);
    }
}

/// "the larger of m and the size", m being idlen+1 in whole clusters.
fn need_of_m(cases: &mut Cases) {
    let map = build(&clusters_of_four(1), &[vec![object(2, 16), free(3_568)]]);
    cases.claim(&map, 1, 0).claims(3, &[16, 16]);
}

/// "claim of 0 bytes", and sizes that are 0 or small modulo 2^32, or once
/// rounded up modulo 2^64.
fn sizes_near_the_limits(cases: &mut Cases) {
    let map = map_a();
    cases.claim(&map, 0, 0).gives(12);
    for size in [1 << 32, (1 << 32) + 1, u64::MAX - 1_022, u64::MAX] {
        cases.claim(&map, size, 0).gives(15);
    }
}

/// "Take need bits from its start, or the whole hole if 1 to m-1 bits would
/// remain."
fn whole_hole(cases: &mut Cases) {
    let map = holes();
    for (bits, length) in [(88, 88), (89, 100)] {
        let pair = [first(1) + 32, length];
        cases.claim(&map, bits * 1_024, 0).claims(168, &pair);
    }
    let zone = vec![object(2, 14), free(28), object(5, 1_494)];
    let map = build(&clusters_of_two(1), &[zone]);
    cases.claim(&map, 14 * 128, 0).claims(3, &[14, 14]);
    let zone = vec![object(2, 16), free(40), object(5, 7_624)];
    let map = build(&clusters_of_eight(1), &[zone]);
    cases.claim(&map, 24 * 128 + 1, 0).claims(3, &[16, 40]);
}

/// "holes ascending: the first hole of length at least need", not the one that fits
/// best.
fn first_hole_that_is_long_enough(cases: &mut Cases) {
    let map = holes();
    for (bits, start, length) in [(13, 52, 13), (24, 52, 30)] {
        let size = bits * 1_024 - 5;
        cases.claim(&map, size, 0).claims(4, &[start, length]);
    }
}

/// "tries it, then ... one above, ... and so on": zones 0 and 1 have no hole at
/// all. The id is one of zone 2.
fn hole_in_a_later_zone(cases: &mut Cases) {
    let zones = [
        vec![object(7, 1_536)],
        vec![object(2, 12), object(7, 2_004)],
        vec![object(1, 12), free(14), object(7, 1_990)],
    ];
    let map = build(&plain(3), &zones);
    let start = first(2) + 12;
    cases.claim(&map, 1, 0).claims(336, &[start, 14]);
}

/// "the first hole of length at least need": a hole ends with its zone, so none has
/// 2,017 bits, and of those in zones 2 and 1 something is taken. All have 5,556.
fn all_free_but_object_2(cases: &mut Cases) {
    let map = three_free_zones();
    for (bits, id, start, length) in [(1_537, 168, 1_548, 1_537), (2_005, 336, 3_552, 2_016)] {
        let pair = [start, length];
        cases.claim(&map, bits * 1_024, 0).claims(id, &pair);
    }
    let pairs = [3_552, 2_016, 1_548, 12];
    cases
        .claim_in(&map, 2_017 * 1_024, 0, 4)
        .claims(336, &pairs);
    cases.claim(&map, 5_557 * 1_024, 0).gives(15);
}

/// "When no hole is long enough": all holes together have 166 bits, and only a
/// claim of more is refused.
fn no_hole(cases: &mut Cases) {
    let map = holes();
    let pairs = [first(1) + 32, 100, 52, 12];
    cases
        .claim_in(&map, 100 * 1_024 + 1, 0, 5)
        .claims(168, &pairs);
    cases.claim(&map, 166 * 1_024 + 1, 0).gives(15);
}

/// "The id is the lowest unused one from 3 whose start zone is the chosen zone"
/// here the only one: with gaps, whatever the order on the map.
fn lowest_unused_id(cases: &mut Cases) {
    for (used, id) in [([3, 5, 4], 6), ([167, 3, 4], 5)] {
        let mut zone = vec![object(2, 12)];
        zone.extend(used.map(|id| object(id, 12)));
        zone.push(free(1_488));
        let map = build(&plain(1), &[zone]);
        cases.claim(&map, 1, 0).claims(id, &[48, 12]);
    }
}

/// "the lowest unused one from 3 whose start zone is the chosen zone": 3 is used in the
/// last zone, 4 behind the hole.
fn id_used_in_the_last_zone_only(cases: &mut Cases) {
    let zones = [
        vec![free(1_524), object(4, 12)],
        vec![object(2, 12), free(2_004)],
        vec![free(2_004), object(3, 12)],
    ];
    let map = build(&plain(3), &zones);
    cases.claim(&map, 1, 0).claims(5, &[0, 12]);
}

/// "the lowest unused one": with 3 to 23 used, 24 is a link and no id.
fn ids_of_links(cases: &mut Cases) {
    let mut zone = vec![object(2, 12), object(1, 12)];
    zone.extend((3..24).map(|id| object(id, 12)));
    zone.extend([free(12), object(3, 12), free(1_236)]);
    let map = build(&plain(1), &[zone]);
    cases.claim(&map, 1, 0).claims(24, &[276, 12]);
}

/// "Room given back is room again": object 7's joins the holes on both sides to
/// (20,62).
fn room_given_back(cases: &mut Cases) {
    let map = holes();
    let released = cases.release(&map, 7, 2).pairs(&[32, 20]);
    cases.claim(&released, 50 * 1_024, 0).claims(4, &[20, 50]);
}

/// "nothing outside check byte, FreeLink, cross check and allocation bits".
fn bits_past_the_zone(cases: &mut Cases) {
    let zones = [
        vec![object(5, 1_519), free(12)],
        vec![object(2, 12), free(1_999)],
    ];
    let map = with_ones_outside(build(&odd_zone_end(2), &zones));
    cases.claim(&map, 1, 0).claims(3, &[1_519, 12]);
    let pairs = [1_543, 1_999, 1_519, 12];
    cases
        .claim_in(&map, 2_000 * 1_024, 0, 4)
        .claims(167, &pairs);
    cases.claim(&map, 2_012 * 1_024, 0).gives(15);
}

/// "all free bits together are fewer than need": the hole ends with the disc, and
/// whole zones lie past it.
fn disc_end(cases: &mut Cases) {
    let zones = [
        vec![object(5, 1_536)],
        vec![object(2, 12), free(988), object(1, 1_016)],
        vec![object(1, 2_016)],
    ];
    let map = build(&disc_of(first(1) + 1_000, plain(3)), &zones);
    cases.claim(&map, 988 * 1_024 + 1, 0).gives(15);
}
