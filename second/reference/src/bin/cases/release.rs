//! Document 01, "Release": what is joined, what is answered, what is written.

use reference::generate::build;
use reference::map::Owner;

use crate::calls::{groups, Cases};
use crate::maps::*;

groups![
    joined_with_a_neighbour,
    joined_with_nothing,
    joined_with_each_other,
    joined_around_other_objects,
    zone_becomes_free,
    not_joined_across_zones,
    free_link_after_release,
    link_over_the_whole_zone,
    answered_in_object_order,
    one_two_three_zones,
    room,
    ids,
    clusters,
    bits_past_the_zone,
    all_zones_of_255,
];

/// Releases object 5 of one zone; afterwards the free spans are these.
fn release_5(cases: &mut Cases, zone: &[(Owner, usize)], pairs: &[u32], spans: &[u32]) {
    let map = build(&plain(1), &[zone.to_vec()]);
    let after = cases.release(&map, 5, pairs.len()).pairs(pairs);
    assert_eq!(spans_of(&after), spans);
}

/// "joins the freed bits ... with free neighbours in the zone": on the left, on
/// the right, on both sides.
fn joined_with_a_neighbour(cases: &mut Cases) {
    let left = [object(2, 12), free(20), object(5, 30), object(6, 1_474)];
    release_5(cases, &left, &[32, 30], &[12, 50]);
    let right = [object(2, 12), object(5, 30), free(20), object(6, 1_474)];
    release_5(cases, &right, &[12, 30], &[12, 50]);
    let both = [object(2, 12), free(20), object(5, 30), free(1_474)];
    release_5(cases, &both, &[32, 30], &[12, 1_524]);
}

/// "removes all fragments of an object": no free neighbour, and nothing free
/// before, in the middle and at the end of the zone.
fn joined_with_nothing(cases: &mut Cases) {
    let middle = [
        object(2, 12),
        object(6, 30),
        object(5, 12),
        object(6, 1_482),
    ];
    release_5(cases, &middle, &[42, 12], &[42, 12]);
    let end = [object(2, 12), object(6, 1_500), object(5, 24)];
    release_5(cases, &end, &[1_512, 24], &[1_512, 24]);
}

/// "joins the freed bits with each other": pieces that touch, and pieces with
/// free bits between.
fn joined_with_each_other(cases: &mut Cases) {
    let touching = [
        object(2, 12),
        object(5, 20),
        object(5, 30),
        object(6, 1_474),
    ];
    release_5(cases, &touching, &[12, 20, 32, 30], &[12, 50]);
    let between = [
        object(2, 12),
        free(12),
        object(5, 20),
        free(13),
        object(5, 30),
        object(5, 40),
        free(14),
        object(6, 1_395),
    ];
    let pairs = [24, 20, 57, 30, 87, 40];
    release_5(cases, &between, &pairs, &[12, 129]);
}

/// "removes all fragments of an object": those of others between them stay, and
/// keep the spans apart.
fn joined_around_other_objects(cases: &mut Cases) {
    let zone = [
        object(2, 12),
        object(5, 20),
        object(2, 12),
        object(5, 30),
        free(12),
        object(1, 14),
        free(16),
        object(5, 18),
        object(6, 1_402),
    ];
    let pairs = [12, 20, 44, 30, 116, 18];
    release_5(cases, &zone, &pairs, &[12, 20, 44, 42, 100, 34]);
}

/// "so that no two free fragments touch": a zone becomes one free fragment, zone
/// 0 of 1,536 bits and another of 2,016, from one piece and from several.
fn zone_becomes_free(cases: &mut Cases) {
    for (zone_0, zone_2) in [
        (vec![object(5, 1_536)], vec![object(5, 2_016)]),
        (
            vec![object(5, 500), object(5, 500), free(36), object(5, 500)],
            vec![free(1_000), object(5, 12), free(1_004)],
        ),
    ] {
        let zone_1 = vec![object(2, 12), object(6, 2_004)];
        let map = build(&plain(3), &[zone_0, zone_1, zone_2]);
        let after = cases.release(&map, 5, 8).done();
        assert_eq!(spans_of(&after), [0, 1_536, first(2), 2_016]);
    }
}

/// "no two free fragments touch" is about one zone: the end of zone 1 and the
/// start of zone 2 stay two.
fn not_joined_across_zones(cases: &mut Cases) {
    for (zone_1, zone_2) in [
        (
            vec![object(2, 12), object(6, 1_980), object(5, 24)],
            vec![free(2_016)],
        ),
        (
            vec![object(2, 12), object(6, 1_980), object(5, 24)],
            vec![object(5, 2_016)],
        ),
    ] {
        let zone_0 = vec![object(7, 1_536)];
        let map = build(&plain(3), &[zone_0, zone_1, zone_2]);
        let after = cases.release(&map, 5, 4).done();
        let spans = [first(1) + 1_992, 24, first(2), 2_016];
        assert_eq!(spans_of(&after), spans);
    }
}

/// "the first free fragment", "the next one": FreeLink and links where the freed
/// bits come before the free fragments there are, or between and behind them.
fn free_link_after_release(cases: &mut Cases) {
    let zone = [
        object(2, 12),
        object(10, 20),
        object(6, 20),
        free(20),
        object(11, 20),
        object(12, 20),
        object(6, 20),
        free(20),
        object(6, 20),
        object(13, 1_364),
    ];
    let map = build(&plain(1), &[zone.to_vec()]);
    cases.release(&map, 10, 2).pairs(&[12, 20]);
    cases.release(&map, 6, 6).pairs(&[32, 20, 112, 20, 152, 20]);
}

/// "idlen from log2secsize+3": a link of 11 bits reaches from the first
/// fragment of a zone to the last.
fn link_over_the_whole_zone(cases: &mut Cases) {
    let zones = [
        vec![object(5, 12), object(6, 1_512), object(5, 12)],
        vec![object(2, 12), object(6, 2_004)],
        vec![object(5, 12), object(6, 1_992), object(5, 12)],
    ];
    let map = build(&plain(3), &zones);
    let after = cases.release(&map, 5, 8).done();
    let spans = [0, 12, 1_524, 12, 3_552, 12, 5_556, 12];
    assert_eq!(spans_of(&after), spans);
}

/// "returns its pairs in object order", of start zone 1, with a piece in zone
/// 0. Start zones 2 and 3 are in `runs`.
fn answered_in_object_order(cases: &mut Cases) {
    let of_170 = [1_560, 25, 5_661, 33, 41, 22];
    cases.release(&four_zones(), 170, 6).pairs(&of_170);
}

/// "An edit touching one zone leaves them alone": cross checks of one, two and
/// three zones, all of them other than 255 and 0 before.
fn one_two_three_zones(cases: &mut Cases) {
    let zones = [
        vec![object(3, 12), object(4, 12), free(1_512)],
        vec![object(2, 12), object(4, 24), object(5, 24), free(1_956)],
        vec![object(3, 12), object(4, 12), free(1_992)],
    ];
    let map = with_cross_checks(build(&plain(3), &zones), [0x35, 0x53, 0x99]);
    cases.release(&map, 5, 2).pairs(&[first(1) + 36, 24]);
    cases.release(&map, 3, 4).pairs(&[0, 12, first(2), 12]);
    let of_4 = [12, 12, first(1) + 12, 24, first(2) + 12, 12];
    let after = cases.release(&map, 4, 6).pairs(&of_4);
    let crosses = [after[3], after[259], after[515]];
    assert_eq!(crosses, [0x35 ^ 1, 0x53 ^ 2, 0x99 ^ 3]);
}

/// "too few entries for the pairs": nothing is written; odd room is room for
/// the pairs that fit.
fn room(cases: &mut Cases) {
    let zone = vec![object(2, 12), object(5, 20), free(1_484), object(5, 20)];
    let map = build(&plain(1), &[zone]);
    cases.release(&map, 5, 3).gives(17);
    cases.release(&map, 5, 5).pairs(&[12, 20, 1_516, 20]);
}

/// "id argument outside 3 (sweep, edits) to P*nzones-1": object 1 is there, and
/// 167, but no number that is 167 in 16 bits.
fn ids(cases: &mut Cases) {
    let zone = vec![object(2, 12), object(1, 20), object(167, 20), free(1_484)];
    let map = build(&plain(1), &[zone]);
    for id in [1, 167 + 65_536] {
        cases.release(&map, id, 4).gives(8);
    }
}

/// The same in clusters of 8 map bits, for the last id of 582.
fn clusters(cases: &mut Cases) {
    let zone = vec![object(2, 16), object(6, 16), object(581, 24), free(7_624)];
    let map = build(&clusters_of_eight(1), &[zone]);
    cases.release(&map, 581, 2).pairs(&[32, 24]);
}

/// "nothing outside check byte, FreeLink, cross check and allocation bits":
/// ones past the zone's end in its last byte, and in carried fields.
fn bits_past_the_zone(cases: &mut Cases) {
    let zones = [
        vec![free(1_500), object(5, 31)],
        vec![object(2, 12), object(6, 1_987), object(5, 12)],
    ];
    let map = with_ones_outside(build(&odd_zone_end(2), &zones));
    let after = cases.release(&map, 5, 4).pairs(&[1_500, 31, 3_530, 12]);
    assert_eq!(spans_of(&after), [0, 1_531, 3_530, 12]);
    let mut record = plain(1);
    record.zone_spare = 901;
    let record = disc_of(2_048 - 901 - 480, record);
    let zone = vec![object(2, 12), free(600), object(5, 55)];
    let map = with_ones_outside(build(&record, &[zone]));
    cases.release(&map, 5, 2).pairs(&[612, 55]);
}

/// An object in every one of 255 zones, the most there can be (R-4 of document
/// 02): 1, 2, 3 and then 1 on the cross checks, and 510 entries from zone 158 on.
fn all_zones_of_255(cases: &mut Cases) {
    let pairs: Vec<u32> = (158..255)
        .chain(0..158)
        .flat_map(|zone| match zone {
            127 => [first(127) + 16, 32],
            _ => [first(zone + 1) - 32, 32],
        })
        .collect();
    let after = cases.release(&all_255_zones(), 20_000, 510).pairs(&pairs);
    let crosses: Vec<u8> = after.iter().skip(3).step_by(256).copied().collect();
    assert_eq!(crosses[..3], [255 ^ 1, 2, 3]);
    assert_eq!(crosses[3..], [1; 252]);
}
