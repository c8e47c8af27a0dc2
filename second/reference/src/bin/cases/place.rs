//! Document 01, "Place": refusals 11, 12 and 13, and what is written.

use reference::generate::{build, map_a, map_of_eight_zones};

use crate::calls::{groups, Cases};
use crate::maps::*;

groups![
    in_a_hole,
    several_holes,
    touching_pieces,
    filled_with_touching_pieces,
    leftovers,
    leftovers_between_pieces,
    leftovers_in_clusters,
    empty_and_odd_lists,
    object_order,
    object_order_of_later_start_zones,
    order_in_a_zone,
    overlapping,
    across_zones,
    off_the_map,
    lengths,
    clusters,
    entries_that_wrap,
    pairs_that_wrap,
    owned_bits,
    past_the_disc_end,
    list_before_free_bits,
    free_bits_in_a_later_zone,
    ids,
    id_already_there,
    links_are_no_ids,
    bits_past_the_zone,
    zones_of_255,
];

/// "gives the listed pieces": at a hole's end, in its middle, and all of it.
/// At its start is map B.
fn in_a_hole(cases: &mut Cases) {
    let map = two_holes();
    for (pair, spans) in [
        ([92, 20], vec![12, 80, 132, 50]),
        ([50, 20], vec![12, 38, 70, 42, 132, 50]),
        ([12, 100], vec![132, 50]),
    ] {
        let placed = cases.place(&map, 5, &pair).done();
        assert_eq!(spans_of(&placed), spans);
    }
}

/// "gives the listed pieces": all there is, and nothing is free afterwards.
fn several_holes(cases: &mut Cases) {
    let pieces = [12, 100, 132, 50];
    let placed = cases.place(&two_holes(), 5, &pieces).done();
    assert_eq!(spans_of(&placed), []);
}

/// "as separate fragments, even where two touch".
fn touching_pieces(cases: &mut Cases) {
    let map = map_of_eight_zones();
    let pieces = [first(1), 12, first(1) + 12, 30];
    let placed = cases.place(&map, 3, &pieces).done();
    cases.list(&placed, 3, 4).pairs(&pieces);
    let pieces = [12, 40, 52, 60];
    let placed = cases.place(&two_holes(), 5, &pieces).done();
    assert_eq!(pairs_of(&placed, 5), pieces);
}

/// "as separate fragments": 168 pieces of 12 bits fill zone 2, from a list of
/// 336 entries.
fn filled_with_touching_pieces(cases: &mut Cases) {
    let list: Vec<u32> = (0..168)
        .flat_map(|piece| [first(2) + 12 * piece, 12])
        .collect();
    let placed = cases.place(&three_free_zones(), 5, &list).done();
    assert_eq!(pairs_of(&placed, 5), list);
}

/// "a leftover of 1 to m-1 free bits" before the piece or behind it.
fn leftovers(cases: &mut Cases) {
    let map = two_holes();
    cases.place(&map, 5, &[24, 77]).gives(13);
    cases.place(&map, 5, &[24, 76]).done();
    let map = three_zones();
    cases.place(&map, 9, &[21, 999]).gives(13);
    cases.place(&map, 9, &[20, 999]).gives(13);
}

/// "a leftover of 1 to m-1 free bits" between two pieces, once all of the list
/// is taken.
fn leftovers_between_pieces(cases: &mut Cases) {
    let map = three_zones();
    cases.place(&map, 9, &[20, 500, 531, 489]).gives(13);
    cases.place(&map, 9, &[20, 500, 532, 488]).done();
    let map = map_of_eight_zones();
    let list = [first(1), 12, first(1) + 23, 12];
    cases.place(&map, 3, &list).gives(13);
}

/// "a leftover of 1 to m-1 free bits", m being idlen+1 in whole clusters: 12
/// bits are too few of 16, and of 14.
fn leftovers_in_clusters(cases: &mut Cases) {
    let zone = vec![object(2, 16), free(64), object(6, 3_504)];
    let map = build(&clusters_of_four(1), &[zone]);
    cases.place(&map, 5, &[16, 52]).gives(13);
    cases.place(&map, 5, &[32, 48]).done();
    let zone = vec![object(2, 14), free(64), object(6, 1_458)];
    let map = build(&clusters_of_two(1), &[zone]);
    cases.place(&map, 5, &[26, 52]).gives(13);
}

/// "list empty, odd"; "A list handed in is read to its slice's end."
fn empty_and_odd_lists(cases: &mut Cases) {
    let map = map_of_eight_zones();
    cases.place(&map, 3, &[]).gives(12);
    cases.place(&map, 3, &[first(1)]).gives(12);
    cases.place(&map, 3, &[first(1), 12, first(2)]).gives(12);
    cases.place(&map_a(), 5, &[12, 12, 0, 0]).gives(12);
}

/// "out of object order": start zone 4, so zones 4 to 7 come before 0 to 3.
fn object_order(cases: &mut Cases) {
    let map = map_of_eight_zones();
    let list = [first(4) + 12, 12, first(7), 12, first(0), 12, first(3), 12];
    cases.place(&map, 690, &list).done();
    cases.place(&map, 100, &list).gives(12);
    let list = [first(7), 12, first(0), 12];
    cases.place(&map, 8 * 168 - 1, &list).done();
    cases.place(&map, 8 * 168, &[first(7), 12]).gives(8);
}

/// "out of object order": ascending is wrong for start zones 1 and 2 of three,
/// where a piece lies before them.
fn object_order_of_later_start_zones(cases: &mut Cases) {
    let map = three_free_zones();
    let [zone_0, zone_1, zone_2] = [[0, 12], [first(1) + 12, 12], [first(2), 12]];
    for (id, zones, number) in [
        (167, [zone_0, zone_1, zone_2], 0),
        (168, [zone_0, zone_1, zone_2], 12),
        (168, [zone_1, zone_2, zone_0], 0),
        (168, [zone_1, zone_0, zone_2], 12),
        (503, [zone_2, zone_0, zone_1], 0),
    ] {
        cases.place(&map, id, &zones.concat()).gives(number);
    }
}

/// "out of object order": pieces that descend in a zone, a zone that comes
/// again.
fn order_in_a_zone(cases: &mut Cases) {
    let map = three_free_zones();
    cases.place(&map, 3, &[36, 12, 12, 12]).gives(12);
    let list = [0, 12, first(2), 12, 100, 12];
    cases.place(&map, 3, &list).gives(12);
}

/// "overlapping": the same piece twice, half of it, one bit.
fn overlapping(cases: &mut Cases) {
    let map = map_of_eight_zones();
    let list = [first(1), 12, first(1), 12];
    cases.place(&map, 3, &list).gives(12);
    let list = [first(1), 24, first(1) + 12, 24];
    cases.place(&map, 3, &list).gives(12);
    let list = [12, 40, 51, 40];
    cases.place(&two_holes(), 5, &list).gives(12);
}

/// "a piece across zones", though both zones are free there.
fn across_zones(cases: &mut Cases) {
    let map = map_of_eight_zones();
    cases.place(&map, 3, &[first(1) - 12, 24]).gives(12);
    let list = [first(1) - 12, 12, first(1), 12];
    cases.place(&map, 3, &list).done();
    let pair = [first(2) - 12, 13];
    cases.place(&three_free_zones(), 3, &pair).gives(12);
}

/// "off the disc map": from nzones*Z - 480 on.
fn off_the_map(cases: &mut Cases) {
    let map = map_of_eight_zones();
    cases.place(&map, 3, &[first(8) - 12, 12]).done();
    cases.place(&map, 3, &[first(8) - 11, 12]).gives(12);
    cases.place(&map, 3, &[first(8), 12]).gives(12);
}

/// "length below m", 0 among them.
fn lengths(cases: &mut Cases) {
    let map = two_holes();
    cases.place(&map, 5, &[12, 0]).gives(12);
}

/// "start or length not a multiple of k", "length below m" where m is above
/// idlen+1.
fn clusters(cases: &mut Cases) {
    let zone = vec![object(2, 16), free(3_568)];
    let map = build(&clusters_of_four(1), &[zone]);
    for pair in [[34, 16], [32, 18], [32, 12]] {
        cases.place(&map, 5, &pair).gives(12);
    }
    let zone = vec![object(2, 16), free(7_664)];
    let map = build(&clusters_of_eight(1), &[zone]);
    cases.place(&map, 581, &[36, 16]).gives(12);
    cases.place(&map, 581, &[32, 16]).done();
}

/// "off the disc map": starts and lengths near 2^32 whose sum would be on it, or
/// that would be in 16 bits.
fn entries_that_wrap(cases: &mut Cases) {
    let map = map_of_eight_zones();
    cases.place(&map, 3, &[u32::MAX - 11, 12]).gives(12);
    cases.place(&map, 3, &[first(1), u32::MAX]).gives(12);
    let map = map_a();
    for pair in [
        [u32::MAX - 11, 24],
        [36, u32::MAX - 11],
        [(1 << 31) + 12, (1 << 31) + 12],
        [12, 65_536 + 24],
    ] {
        cases.place(&map, 5, &pair).gives(12);
    }
}

/// "off the disc map", in the second of two pairs, after a right one.
fn pairs_that_wrap(cases: &mut Cases) {
    let map = map_a();
    let list = [12, 24, 48, u32::MAX - 11];
    cases.place(&map, 5, &list).gives(12);
    // With 480 added, this start is 0.
    let list = [12, 24, u32::MAX - 479, 480 + 60];
    cases.place(&map, 5, &list).gives(12);
}

/// "a listed bit isn't free": all, the first, the last or the middle bits of a
/// piece are another's, object 2's among them.
fn owned_bits(cases: &mut Cases) {
    cases
        .place(&map_of_eight_zones(), 3, &[first(4), 12])
        .gives(13);
    let map = two_holes();
    for pair in [[11, 12], [100, 13], [12, 170]] {
        cases.place(&map, 5, &pair).gives(13);
    }
}

/// "a listed bit isn't free": from the disc's end on none is, so 13 on the map
/// and 12 off it.
fn past_the_disc_end(cases: &mut Cases) {
    let map = three_zones();
    cases.place(&map, 9, &[5_468, 12]).gives(13);
    cases.place(&map, 9, &[5_556, 12]).gives(13);
    cases.place(&map, 9, &[5_557, 12]).gives(12);
}

/// "the rest in table order": 12 of the last pair before 13 of the first.
fn list_before_free_bits(cases: &mut Cases) {
    let map = two_holes();
    for list in [
        vec![0, 12, 12, 11],
        vec![0, 12, 1_536, 12],
        vec![13, 20, 132, 50, 100, 12],
    ] {
        cases.place(&map, 5, &list).gives(12);
    }
}

/// "A refusal ... writes nothing": 13 in the last zone of the list, and the
/// zones before it stay.
fn free_bits_in_a_later_zone(cases: &mut Cases) {
    let map = three_free_zones();
    let list = [0, 24, first(1) + 12, 12, first(2) + 11, 12];
    cases.place(&map, 3, &list).gives(13);
    let list = [first(2), 12, 0, 12, first(1) + 1, 12];
    cases.place(&map, 336, &list).gives(13);
}

/// "id argument outside 3 (sweep, edits) to P*nzones-1".
fn ids(cases: &mut Cases) {
    let map = map_a();
    cases.place(&map, 167, &[12, 24]).done();
    cases.place(&map, 167 + 65_536, &[12, 24]).gives(8);
}

/// "id already on the map", in another zone than its start zone and the list.
fn id_already_there(cases: &mut Cases) {
    let zones = [
        vec![free(1_536)],
        vec![object(2, 12), free(2_004)],
        vec![free(2_004), object(5, 12)],
    ];
    let map = build(&plain(3), &zones);
    cases.place(&map, 5, &[0, 12]).gives(11);
}

/// "id already on the map": 120 in `two_holes` is a link and no id.
fn links_are_no_ids(cases: &mut Cases) {
    let map = two_holes();
    cases.place(&map, 120, &[132, 50]).done();
    // What is left of the hole has a link of 44, beside the piece of 44.
    let placed = cases.place(&map, 44, &[36, 20]).done();
    cases.list(&placed, 44, 2).pairs(&[36, 20]);
}

/// "nothing outside check byte, FreeLink, cross check and allocation bits".
fn bits_past_the_zone(cases: &mut Cases) {
    let zones = [vec![free(1_531)], vec![object(2, 12), free(1_999)]];
    let map = with_ones_outside(build(&odd_zone_end(2), &zones));
    cases.place(&map, 5, &[1_519, 12, 3_530, 12]).done();
    // The zone's end is where Z ends, not where its byte does.
    cases.place(&map, 5, &[1_519, 13]).gives(12);
}

/// "exclusive-ors each with 1 when their number is even": pieces in 254 of 255
/// zones (R-4 of document 02).
fn zones_of_255(cases: &mut Cases) {
    let list: Vec<u32> = (158..255)
        .chain(0..158)
        .filter(|zone| *zone != 127)
        .flat_map(|zone| [first(zone), 16])
        .collect();
    let after = cases.place(&all_255_zones(), 20_001, &list).done();
    let crosses: Vec<u8> = after.iter().skip(3).step_by(256).copied().collect();
    assert_eq!((crosses[0], crosses[127]), (255 ^ 1, 0));
    assert_eq!(crosses.iter().filter(|cross| **cross == 1).count(), 253);
}
