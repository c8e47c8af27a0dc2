//! R-6 of document 02: "Claim now takes a parent zone (refusal 12 if not below nzones),
//! tries it, then one below, one above, two below and so on, skipping zones that don't
//! exist. The id is the lowest unused one from 3 whose start zone is the chosen zone,
//! and only if none is left the lowest unused from 3." More of parent zone 0 is in
//! `claim`.

use reference::generate::{as_e_plus, build, map_a};
use reference::geometry::DiscRecord;
use reference::map::Owner;

use crate::calls::{groups, Cases};
use crate::maps::*;

groups![
    the_parent_itself,
    the_middle_zone,
    zones_missing_below,
    zones_missing_above,
    either_end,
    two_zones,
    equal_distance,
    distance_in_zones,
    holes_ascending,
    holes_ascending_elsewhere,
    too_short_nearby,
    only_the_last_zone_tried,
    id_of_the_zone_of_the_hole,
    ids_per_zone_without_rounding,
    all_ids_used,
    all_ids_used_and_the_lowest_above,
    all_ids_used_and_the_lowest_between,
    all_ids_of_the_parent_used,
    one_id_left,
    ids_of_zone_0,
    ids_of_the_last_zone,
    most_ids_of_a_zone,
    ids_used_in_other_zones_only,
    links_are_no_ids,
    no_such_parent,
    parents_by_their_low_bits,
    one_zone,
    no_such_parent_and_no_hole,
    no_such_parent_where_free_fragments_touch,
    no_such_parent_on_a_damaged_map,
    no_hole_whatever_the_parent,
    parent_past_the_disc,
    parent_above_255,
    released_last_first,
    until_the_zone_is_full,
    given_back,
];

/// The same with a hole of 16 bits in each of some zones.
fn with_holes_in(nzones: u16, zones: &[usize]) -> Vec<u8> {
    let holes: Vec<(usize, usize)> = zones.iter().map(|zone| (*zone, 16)).collect();
    with_holes(nzones, &holes)
}

/// "tries it": each zone has a hole, and that of the parent is taken. 4 bits would
/// remain of those of 20.
fn the_parent_itself(cases: &mut Cases) {
    let map = with_holes(5, &[(0, 16), (1, 20), (2, 20), (3, 20), (4, 20)]);
    cases.claim(&map, 1, 0).claims(3, &[16, 16]);
    for zone in 1..5 {
        let pair = [at_the_end(zone, 20), 20];
        cases.claim(&map, 1, zone).claims(lowest(zone), &pair);
    }
}

/// Claims with one parent on the map as the one before left it. Each zone has a hole of
/// 16 bits, so that the zones are taken in their order, and then none is left.
fn in_turn(cases: &mut Cases, parent: u32, order: &[u32]) {
    let nzones = order.len();
    let mut map = with_holes_in(nzones as u16, &Vec::from_iter(0..nzones));
    for zone in order {
        let pair = [at_the_end(*zone, 16), 16];
        let claim = cases.claim(&map, 1, parent);
        map = claim.claims(lowest(*zone), &pair);
    }
    cases.claim(&map, 1, parent).gives(15);
}

/// "tries it, then one below, one above, two below and so on".
fn the_middle_zone(cases: &mut Cases) {
    in_turn(cases, 3, &[3, 2, 4, 1, 5, 0, 6]);
}

/// "skipping zones that don't exist": two, three and four below.
fn zones_missing_below(cases: &mut Cases) {
    in_turn(cases, 1, &[1, 0, 2, 3, 4]);
}

/// "skipping zones that don't exist": two, three and four above.
fn zones_missing_above(cases: &mut Cases) {
    in_turn(cases, 3, &[3, 2, 4, 1, 0]);
}

/// "skipping zones that don't exist": all below, or all above.
fn either_end(cases: &mut Cases) {
    in_turn(cases, 0, &[0, 1, 2, 3]);
    in_turn(cases, 3, &[3, 2, 1, 0]);
}

/// "then one below, one above", where there is but one of them.
fn two_zones(cases: &mut Cases) {
    in_turn(cases, 0, &[0, 1]);
    in_turn(cases, 1, &[1, 0]);
}

/// "one below, one above, two below": of two zones as far away the lower one, and one
/// above before two below.
fn equal_distance(cases: &mut Cases) {
    for (zones, chosen) in [
        ([2, 4], 2),
        ([1, 5], 1),
        ([0, 6], 0),
        ([1, 4], 4),
        ([0, 5], 5),
        ([2, 6], 2),
    ] {
        let map = with_holes_in(7, &zones);
        let pair = [at_the_end(chosen, 16), 16];
        cases.claim(&map, 1, 3).claims(lowest(chosen), &pair);
    }
}

/// "one below, one above" are zones: the hole in zone 1 is 496 bits away from zone 2,
/// and that in zone 3 touches it.
fn distance_in_zones(cases: &mut Cases) {
    let mut zones = full_zones(&short_zones(5));
    zones[1] = vec![free(16), object(39, 496)];
    zones[3] = vec![free(16), object(103, 496)];
    let map = build(&short_zones(5), &zones);
    cases.claim(&map, 1, 2).claims(32, &[32, 16]);
}

/// "holes ascending: the first hole of length at least need" in the parent zone, though
/// another is longer or fits, and zones 1 and 3 are free. No hole there has 59 bits.
fn holes_ascending(cases: &mut Cases) {
    let mut zones = full_zones(&short_zones(5));
    zones[1] = vec![free(512)];
    zones[2] = vec![
        object(2, 16),
        free(17),
        object(71, 100),
        free(58),
        object(71, 281),
        free(40),
    ];
    zones[3] = vec![free(512)];
    let map = build(&short_zones(5), &zones);
    for (bits, id, pair) in [
        (1, 64, [560, 17]),
        (18, 64, [677, 18]),
        (40, 64, [677, 40]),
        (41, 64, [677, 41]),
        (59, 32, [32, 59]),
    ] {
        cases.claim(&map, bits * 1_024, 2).claims(id, &pair);
    }
}

/// "holes ascending" below the parent too, and above it: not the one next to the
/// parent.
fn holes_ascending_elsewhere(cases: &mut Cases) {
    let mut zones = full_zones(&short_zones(5));
    zones[1] = vec![free(20), object(39, 460), free(32)];
    zones[3] = vec![free(40), object(103, 422), free(50)];
    let map = build(&short_zones(5), &zones);
    for (bits, id, pair) in [
        (20, 32, [32, 20]),
        (21, 32, [512, 32]),
        (33, 96, [1_056, 40]),
        (41, 96, [1_518, 50]),
    ] {
        cases.claim(&map, bits * 1_024, 2).claims(id, &pair);
    }
}

/// "the first hole of length at least need": those of the parent and of the zones on
/// both sides lack a bit.
fn too_short_nearby(cases: &mut Cases) {
    let map = with_holes(6, &[(1, 31), (2, 31), (3, 31), (4, 32), (5, 300)]);
    for parent in [2, 3] {
        let pair = [at_the_end(4, 32), 32];
        cases.claim(&map, 32 * 1_024, parent).claims(128, &pair);
    }
}

/// "and so on": no zone but the last tried has a hole.
fn only_the_last_zone_tried(cases: &mut Cases) {
    for (nzones, parent, zone) in [(7, 3, 6), (6, 3, 0), (5, 0, 4), (5, 4, 0), (5, 1, 4)] {
        let map = with_holes_in(nzones, &[zone as usize]);
        let pair = [at_the_end(zone, 16), 16];
        cases.claim(&map, 1, parent).claims(lowest(zone), &pair);
    }
}

/// "whose start zone is the chosen zone": that of the hole, below the parent or above
/// it, though no id of the parent is used but one.
fn id_of_the_zone_of_the_hole(cases: &mut Cases) {
    let map = with_holes_in(5, &[3]);
    cases.claim(&map, 1, 1).claims(96, &[1_552, 16]);
    cases.claim(&map, 1, 4).claims(96, &[1_552, 16]);
    let map = with_holes_in(5, &[0]);
    cases.claim(&map, 1, 2).claims(3, &[16, 16]);
}

/// "the start zone is id div P", and P is 8160 div 14, 582, "without that rounding":
/// 510 by m.
fn ids_per_zone_without_rounding(cases: &mut Cases) {
    let record = clusters_of_eight(3);
    let zones = [
        vec![object(7, 7_680)],
        vec![object(2, 16), free(8_144)],
        vec![object(581, 8_144), free(16)],
    ];
    let map = build(&record, &zones);
    cases.claim(&map, 1, 0).claims(582, &[7_696, 16]);
    cases.claim(&map, 1, 2).claims(1_164, &[23_984, 16]);
}

/// Five short zones with a hole of 16 bits at the end of one, whose ids are all used by
/// fragments in another.
fn used_up(zone: usize, elsewhere: usize) -> Vec<Parts> {
    let mut zones = full_zones(&short_zones(5));
    let last = zones[zone].last_mut().expect("a full zone");
    last.1 -= 16;
    zones[zone].push(free(16));
    let first = lowest(zone as u32);
    zones[elsewhere] = of_ids(first..32 * (zone as u32 + 1));
    zones
}

/// "and only if none is left the lowest unused from 3": of all ids, not of the zones
/// after it, nor of the parent.
fn all_ids_used(cases: &mut Cases) {
    let mut zones = used_up(2, 3);
    let map = build(&short_zones(5), &zones);
    cases.claim(&map, 1, 2).claims(3, &[1_040, 16]);
    cases.claim(&map, 1, 4).claims(3, &[1_040, 16]);
    zones[0] = vec![object(4, 16), object(3, 16)];
    let map = build(&short_zones(5), &zones);
    cases.claim(&map, 1, 2).claims(5, &[1_040, 16]);
    cases.claim(&map, 1, 0).claims(5, &[1_040, 16]);
}

/// "the lowest unused from 3" is above those of the zone: 3 to 63 are used, and 64 is
/// the first of zone 2.
fn all_ids_used_and_the_lowest_above(cases: &mut Cases) {
    let mut zones = used_up(1, 3);
    zones[4] = of_ids(3..32);
    let map = build(&short_zones(5), &zones);
    cases.claim(&map, 1, 1).claims(64, &[528, 16]);
    cases.claim(&map, 1, 4).claims(64, &[528, 16]);
}

/// "the lowest unused from 3" is neither in zone 0 nor next to the hole's zone: 3 to
/// 37 and 96 to 127 are used.
fn all_ids_used_and_the_lowest_between(cases: &mut Cases) {
    let mut zones = used_up(3, 4);
    zones[0] = vec![object(3, 16), object(4, 16)];
    zones[1] = of_ids(5..37);
    zones[2] = vec![object(2, 16), object(37, 496)];
    let map = build(&short_zones(5), &zones);
    cases.claim(&map, 1, 3).claims(38, &[1_552, 16]);
}

/// "only if none is left" of the zone of the hole: the parent has none left, and zone 1
/// has the hole.
fn all_ids_of_the_parent_used(cases: &mut Cases) {
    let mut zones = used_up(2, 4);
    zones[1] = vec![object(39, 496), free(16)];
    zones[2] = vec![object(2, 16), object(71, 496)];
    let map = build(&short_zones(5), &zones);
    cases.claim(&map, 1, 2).claims(32, &[528, 16]);
}

/// "only if none is left": the last, the first or another one is.
fn one_id_left(cases: &mut Cases) {
    for left in [95, 64, 80] {
        let mut zones = used_up(2, 4);
        for (owner, _) in &mut zones[4] {
            if *owner == Owner::Object(left) {
                *owner = Owner::Object(130);
            }
        }
        let map = build(&short_zones(5), &zones);
        cases.claim(&map, 1, 2).claims(left, &[1_040, 16]);
    }
}

/// "from 3": 0 to 2 are never given, though 0 and 1 are not on the map. 3 to 31 are
/// used, or all of them but the last, or but the first.
fn ids_of_zone_0(cases: &mut Cases) {
    for (ids, id) in [(3..32, 32), (3..31, 31), (4..32, 3)] {
        let mut zones = full_zones(&short_zones(5));
        zones[0] = vec![object(100, 16), free(16)];
        zones[3] = of_ids(ids);
        let map = build(&short_zones(5), &zones);
        cases.claim(&map, 1, 0).claims(id, &[16, 16]);
        if id == 32 {
            cases.claim(&map, 1, 3).claims(id, &[16, 16]);
        }
    }
}

/// P*nzones - 1, the highest id there is, and 128 to 159 all used.
fn ids_of_the_last_zone(cases: &mut Cases) {
    let mut zones = used_up(4, 1);
    let map = build(&short_zones(5), &zones);
    cases.claim(&map, 1, 4).claims(3, &[2_064, 16]);
    zones[1] = of_ids(128..159);
    let map = build(&short_zones(5), &zones);
    cases.claim(&map, 1, 4).claims(159, &[2_064, 16]);
}

/// The most ids a zone can have: P 582 for an idlen of 13, k 1, m 14, Z 8160. Those of
/// zone 1, 582 to 1,163, fill both zones but for a hole at the end of zone 1. One of
/// them is left, or none.
fn most_ids_of_a_zone(cases: &mut Cases) {
    let record = DiscRecord {
        idlen: 13,
        ..large_sectors(2)
    };
    for (left, id) in [
        (Some(582), 582),
        (Some(582 + 64), 582 + 64),
        (Some(582 + 512), 582 + 512),
        (Some(1_163), 1_163),
        (None, 3),
    ] {
        let mut ids: Vec<u32> = (582..1_164).collect();
        ids.retain(|id| Some(*id) != left);
        let (in_zone_0, in_zone_1) = ids.split_at(548);
        let mut zone_1 = vec![object(2, 14)];
        zone_1.extend(filled(in_zone_1, 14, 8_160 - 28));
        zone_1.push(free(14));
        let map = build(&record, &[filled(in_zone_0, 14, 7_680), zone_1]);
        cases.claim(&map, 1, 0).claims(id, &[15_826, 14]);
    }
}

/// "unused" on the whole map: 32 is an id of zone 1 that lies in zone 3 alone, 33 in
/// zone 0, and 34 behind the hole.
fn ids_used_in_other_zones_only(cases: &mut Cases) {
    let mut zones = full_zones(&short_zones(4));
    zones[1] = vec![free(16), object(100, 496)];
    zones[3] = vec![object(32, 512)];
    let map = build(&short_zones(4), &zones);
    cases.claim(&map, 1, 1).claims(33, &[32, 16]);
    zones[0] = vec![object(33, 32)];
    zones[1] = vec![free(16), object(34, 496)];
    let map = build(&short_zones(4), &zones);
    cases.claim(&map, 1, 3).claims(35, &[32, 16]);
}

/// "A free fragment's id counts from its own start to the next one": 33 is a link and
/// no id in use, with 32 and 34 used.
fn links_are_no_ids(cases: &mut Cases) {
    let mut zones = full_zones(&short_zones(3));
    zones[0] = vec![object(91, 16), free(16)];
    zones[1] = vec![
        object(2, 16),
        free(16),
        object(32, 17),
        free(16),
        object(34, 447),
    ];
    zones[2] = vec![object(90, 512)];
    let map = build(&short_zones(3), &zones);
    cases.claim(&map, 1, 1).claims(33, &[48, 16]);
    cases.claim(&map, 1, 2).claims(33, &[48, 16]);
}

/// Three zones with a hole in each.
fn three_holes() -> Vec<u8> {
    with_holes(3, &[(0, 16), (1, 100), (2, 200)])
}

/// "refusal 12 if not below nzones", as for 0 bytes.
fn no_such_parent(cases: &mut Cases) {
    let map = three_holes();
    cases.claim(&map, 1, 2).claims(64, &[856, 16]);
    for parent in [3, 4, u32::MAX] {
        cases.claim(&map, 1, parent).gives(12);
        cases.claim(&map, 0, parent).gives(12);
    }
    cases.claim(&map, 0, 2).gives(12);
}

/// "not below nzones", though in 8, 16, 24 or 31 bits they would be, or less than 0.
fn parents_by_their_low_bits(cases: &mut Cases) {
    let map = three_holes();
    for high in [1 << 8, 1 << 16, 1 << 24, 1 << 31] {
        for low in [0, 2] {
            cases.claim(&map, 1, high | low).gives(12);
        }
    }
}

/// One zone of either edition: 0 is the only parent.
fn one_zone(cases: &mut Cases) {
    let map = map_a();
    for parent in [1, 255, 256, u32::MAX] {
        cases.claim(&map, 1, parent).gives(12);
    }
    let map = as_e_plus(&map);
    cases.claim(&map, 1, 0).claims(3, &[12, 12]);
    for parent in [1, 256] {
        cases.claim(&map, 1, parent).gives(12);
    }
}

/// "then the rest in table order": 12, 15.
fn no_such_parent_and_no_hole(cases: &mut Cases) {
    cases.claim(&nothing_free(), 1, 0).gives(15);
    cases.claim(&nothing_free(), 1, 1).gives(12);
    let map = three_holes();
    cases.claim(&map, u64::MAX, 2).gives(15);
    cases.claim(&map, u64::MAX, 3).gives(12);
    cases.claim(&map, 201 * 1_024, u32::MAX).gives(12);
}

/// "then the rest in table order": 9, 12.
fn no_such_parent_where_free_fragments_touch(cases: &mut Cases) {
    let map = touching_free();
    for parent in [2, 3, u32::MAX] {
        cases.claim(&map, 1, parent).told(9, 1);
    }
    cases.claim(&map, 0, 3).told(9, 1);
}

/// 1 to 7 come before "the rest".
fn no_such_parent_on_a_damaged_map(cases: &mut Cases) {
    let mut map = three_zones();
    cases.claim(&map[..63], 1, 3).gives(1);
    cases.claim(&map[..767], 1, 3).gives(1);
    map[4] = 7;
    cases.claim(&map, 1, 3).gives(2);
    for (map, number, zone) in [
        (damaged(&[CHECK_2]), 3, 2),
        (damaged(&[CROSS_1]), 4, 0),
        (damaged_below_checks(&[LINK_2]), 5, 2),
        (damaged_below_checks(&[FRAGMENT_1]), 6, 1),
        (damaged_below_checks(&[DISC_END]), 7, 2),
    ] {
        cases.claim(&map, 1, 3).told(number, zone);
    }
}

/// No hole has 41 bits, in whatever zone the search begins: what is taken "when no hole
/// is long enough" (R-8) does not depend on the parent, nor does 15. All holes together
/// have 135 bits.
fn no_hole_whatever_the_parent(cases: &mut Cases) {
    let map = with_holes(5, &[(0, 16), (1, 40), (2, 40), (4, 39)]);
    for parent in 0..5 {
        let pairs = [504, 40, 1_016, 16];
        let claim = cases.claim_in(&map, 40 * 1_024 + 1, parent, 5);
        claim.claims(32, &pairs);
        cases.claim(&map, 135 * 1_024 + 1, parent).gives(15);
    }
}

/// "below nzones" is all that is asked of a parent: zones 3 and 4 lie past the disc's
/// end, which is in zone 2.
fn parent_past_the_disc(cases: &mut Cases) {
    let record = disc_of(544 + 64, short_zones(5));
    let mut zones = full_zones(&record);
    zones[2] = vec![object(2, 16), free(48), object(1, 448)];
    zones[3] = vec![object(1, 512)];
    zones[4] = vec![object(1, 512)];
    let map = build(&record, &zones);
    cases.claim(&map, 1, 3).claims(64, &[560, 16]);
    cases.claim(&map, 1, 4).claims(64, &[560, 16]);
}

/// E+: parent 257 of 258 zones is full, and 256 comes next. In a byte the parent is
/// 1, and 256 is 0.
fn parent_above_255(cases: &mut Cases) {
    let record = e_plus(258);
    let mut zones = full_zones(&record);
    for zone in [0, 1, 2, 255, 256] {
        let last = zones[zone].last_mut().expect("a full zone");
        last.1 -= 20;
        zones[zone].push(free(20));
    }
    let map = build(&record, &zones);
    let start = first(257) - 20;
    cases.claim(&map, 1, 257).claims(25_600, &[start, 20]);
}

/// "An accepted place or claim followed at once by its release ... does the same":
/// three claims, undone last first.
fn released_last_first(cases: &mut Cases) {
    let map = with_holes(5, &[(0, 16), (1, 100), (3, 40)]);
    let one = cases.claim(&map, 1, 4).claims(96, &[1_528, 16]);
    let two = cases.claim(&one, 30 * 1_024, 4).claims(32, &[444, 30]);
    let three = cases.claim(&two, 1, 0).claims(3, &[16, 16]);
    assert_eq!(cases.release(&three, 3, 2).pairs(&[16, 16]), two);
    assert_eq!(cases.release(&two, 32, 2).pairs(&[444, 30]), one);
    assert_eq!(cases.release(&one, 96, 2).pairs(&[1_528, 16]), map);
}

/// Claims of 32 bits near zone 2 until it has no such hole, then in the zones next to
/// it. Two holes of 16 bits are left, for one more in two pieces, or for two of 16
/// bits.
fn until_the_zone_is_full(cases: &mut Cases) {
    let mut map = with_holes(4, &[(0, 16), (1, 64), (2, 80), (3, 40)]);
    for (id, pair) in [
        (64, [976, 32]),
        (65, [1_008, 32]),
        (32, [480, 32]),
        (33, [512, 32]),
        (96, [1_528, 40]),
    ] {
        map = cases.claim(&map, 32 * 1_024, 2).claims(id, &pair);
    }
    let pairs = [16, 16, 1_040, 16];
    cases.claim_in(&map, 32 * 1_024, 2, 4).claims(3, &pairs);
    cases.claim(&map, 33 * 1_024, 2).gives(15);
    let map = cases.claim(&map, 1, 2).claims(66, &[1_040, 16]);
    cases.claim(&map, 1, 2).claims(3, &[16, 16]);
}

/// "Room given back is room again", and so is its id: 65 of 64 to 66.
fn given_back(cases: &mut Cases) {
    let mut zones = full_zones(&short_zones(4));
    zones[2] = vec![
        object(2, 16),
        object(64, 16),
        object(65, 20),
        object(66, 400),
        free(60),
    ];
    let map = build(&short_zones(4), &zones);
    let released = cases.release(&map, 65, 2).pairs(&[576, 20]);
    let claimed = cases.claim(&released, 20 * 1_024, 2);
    assert_eq!(claimed.claims(65, &[576, 20]), map);
    cases.claim(&map, 20 * 1_024, 2).claims(67, &[996, 20]);
}
