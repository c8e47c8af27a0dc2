//! Document 02, R-9, "A mender": "Make a call that joins touching free fragments in each
//! zone, sets only zone 0's cross check, so that all give 255, and sets every zone check,
//! provided that the map is right in all other ways; else it answers the refusal that the
//! map would get with those three ignored, and writes nothing. [...] A second call writes
//! nothing in the map and lists, ascending, one 32-bit number each, exactly the byte
//! positions the mender would change, with the mender's refusals, then 17 if the list is
//! too short."
//!
//! What a map becomes is built of the joined fragments, never by the mender. Most maps are
//! `three_zones`, or `touching_free`, which becomes it: there zones 1 and 2 have two free
//! fragments that touch.

use reference::case::{Call, Case};
use reference::generate::{as_e_plus, build, map_a, map_b, repair_zone_checks, with_bytes};
use reference::geometry::{DiscRecord, Geometry, RESERVED, SIZE_HIGH};
use reference::map::set_number;

use crate::calls::{groups, Cases};
use crate::maps::*;

groups![
    in_order,
    zone_checks_alone,
    zone_checks_of_any_value,
    cross_check_alone,
    another_zones_cross_check,
    cross_checks_that_give_255,
    touching_alone,
    all_together,
    three_in_a_row,
    several_rows,
    row_at_a_zones_start,
    row_at_a_zones_end,
    row_after_object_2,
    touching_across_a_zones_end,
    whole_zones_in_shortest_pieces,
    no_free_fragment,
    pieces_of_an_object_that_touch,
    off_the_chain,
    zone_check_equal_by_chance,
    cross_check_equal_by_chance,
    link_byte_equal_by_chance,
    one_zone,
    disc_end,
    zone_end_inside_a_byte,
    carried_bytes,
    clusters,
    large_blocks,
    e_plus_discs,
    e_plus_carried_bytes,
    e_plus_refused,
    positions_above_16_bits,
    too_short,
    outside_its_ranges,
    another_length,
    fragments,
    links,
    owners,
    chain_cut_in_a_row,
    lengths_and_records_in_order,
    zone_by_zone,
    checks_are_no_refusal,
    room,
    room_for_one,
    zone_told_with_17,
    mended_twice,
    read_after_it,
    edits_after_it,
    joined_hole_is_claimed,
];

/// The positions of the bytes in which two maps differ.
fn differing(one: &[u8], other: &[u8]) -> Vec<u32> {
    assert_eq!(one.len(), other.len());
    let differ = |at: &usize| one[*at] != other[*at];
    (0..one.len()).filter(differ).map(|at| at as u32).collect()
}

/// Both calls on a map that becomes another. There is room for an entry more than there
/// are positions. Answers these.
#[track_caller]
fn becomes(cases: &mut Cases, map: &[u8], mended: &[u8]) -> Vec<u32> {
    cases.mend(map).leaves(mended);
    let positions = differing(map, mended);
    let listed = cases.mend_positions(map, positions.len() + 1);
    listed.lists(&positions);
    positions
}

/// Both calls on a map that becomes another where the free fragments of a zone are
/// joined: of each, the fragments before and after.
#[track_caller]
fn joins(cases: &mut Cases, record: &DiscRecord, zones: &[(Parts, Parts)]) -> Vec<u32> {
    let (before, after): (Vec<Parts>, Vec<Parts>) = zones.iter().cloned().unzip();
    becomes(cases, &build(record, &before), &build(record, &after))
}

/// Both calls on a map that is refused. There is no room for any position: "the mender's
/// refusals, then 17".
#[track_caller]
fn refused(cases: &mut Cases, map: &[u8], number: u32, zone: u32) {
    cases.mend(map).told(number, zone);
    cases.mend_positions(map, 0).told(number, zone);
}

/// `touching_free` with damages that `three_zones` can have too, its zone checks and cross
/// checks as they come.
fn worn(damages: &[Damage]) -> Vec<u8> {
    let mut map = touching_free();
    for damage in damages {
        damage(&mut map);
    }
    map
}

/// The number and zone that a check tells of a map.
fn check(map: &[u8]) -> (u32, u32) {
    let outcome = Case::new(Call::Check, map).run();
    (outcome.number, outcome.zone)
}

/// A map with this value in every zone check.
fn with_zone_checks(map: &[u8], value: u8) -> Vec<u8> {
    let geometry = Geometry::accept(&DiscRecord::read(map)).expect("a record in range");
    let mut map = map.to_vec();
    for block in map.chunks_exact_mut(geometry.sector_size) {
        block[0] = value;
    }
    map
}

// ------------------------------------------------------------ each alone, and all

/// "A map already in order stays the same, byte for byte": no position, with no room, and
/// with room that stays as it is.
fn in_order(cases: &mut Cases) {
    for map in [map_a(), three_zones()] {
        cases.mend(&map).leaves(&map);
        cases.mend_positions(&map, 0).lists(&[]);
    }
    becomes(cases, &map_b(), &map_b());
    cases.mend(&four_zones()).leaves(&four_zones());
    cases.mend_positions(&nothing_free(), 5).lists(&[]);
}

/// "stale zone checks (3)": of one zone, and of all. Nothing else is written.
fn zone_checks_alone(cases: &mut Cases) {
    let map = damaged(&[CHECK_0]);
    assert_eq!(check(&map), (3, 0));
    assert_eq!(becomes(cases, &map, &three_zones()), [0]);
    for damage in [CHECK_1, CHECK_2] {
        cases.mend(&damaged(&[damage])).leaves(&three_zones());
    }
    let map = damaged(&[CHECK_0, CHECK_1, CHECK_2]);
    assert_eq!(becomes(cases, &map, &three_zones()), [0, 256, 512]);
}

/// The same, whatever stands there: 0, all ones, and the right one but for a bit.
fn zone_checks_of_any_value(cases: &mut Cases) {
    for value in [0, 255, 0xC6] {
        let map = with_zone_checks(&map_a(), value);
        cases.mend(&map).leaves(&map_a());
    }
}

/// "cross checks that don't add up (4)": that of zone 0 is the wrong one, and its zone
/// check changes with it.
fn cross_check_alone(cases: &mut Cases) {
    for zone_0 in [0, 0x7F] {
        let map = with_cross_checks(three_zones(), [zone_0, 0, 0]);
        assert_eq!(check(&map), (4, 0));
        assert_eq!(becomes(cases, &map, &three_zones()), [0, 3]);
    }
}

/// "sets only zone 0's cross check", though another's is the one that was changed, or all
/// are.
fn another_zones_cross_check(cases: &mut Cases) {
    let three = |bytes| with_cross_checks(three_zones(), bytes);
    for (zone_0, zone_1, zone_2) in [(251, 4, 0), (127, 0, 128)] {
        let map = three([255, zone_1, zone_2]);
        assert_eq!(check(&map), (4, 0));
        let positions = becomes(cases, &map, &three([zone_0, zone_1, zone_2]));
        assert_eq!(positions, [0, 3]);
    }
    for (before, zone_0) in [([1, 2, 4], 249), ([0, 255, 255], 255), ([255, 255, 0], 0)] {
        let mended = three([zone_0, before[1], before[2]]);
        cases.mend(&three(before)).leaves(&mended);
    }
}

/// "so that all give 255": they do, though two were changed, or zone 0's is 0 or another.
fn cross_checks_that_give_255(cases: &mut Cases) {
    for bytes in [[255, 1, 1], [7, 0xF8, 0], [0, 255, 0]] {
        let map = with_cross_checks(three_zones(), bytes);
        cases.mend(&map).leaves(&map);
    }
    cases
        .mend_positions(&with_cross_checks(three_zones(), [255; 3]), 0)
        .lists(&[]);
    let map = with_cross_checks(touching_free(), [0x0F, 0xAA, 0x5A]);
    let mended = with_cross_checks(three_zones(), [0x0F, 0xAA, 0x5A]);
    assert!(!becomes(cases, &map, &mended).contains(&3));
}

/// "touching free fragments (9)" in zones 1 and 2, and in zone 0, 1 or 2 alone.
fn touching_alone(cases: &mut Cases) {
    assert_eq!(check(&touching_free()).0, 0);
    let positions = becomes(cases, &touching_free(), &three_zones());
    // The zone checks, the first fragments' links and closing bits; the second ones'
    // links are 0.
    assert_eq!(positions, [256, 264, 265, 386, 512, 516, 517, 578]);
    let [zone_0, zone_1, zone_2] = three_zones_parts();
    let [_, cut_1, cut_2] = touching_parts();
    let cut_0 = vec![object(7, 20), free(400), free(600), object(8, 516)];
    let zones = [cut_0, zone_1.clone(), zone_2.clone()];
    becomes(cases, &build(&three_zones_record(), &zones), &three_zones());
    let map = build(&three_zones_record(), &[zone_0.clone(), cut_1, zone_2]);
    cases.mend(&map).leaves(&three_zones());
    let map = build(&three_zones_record(), &[zone_0, zone_1, cut_2]);
    cases.mend_positions(&map, 4).lists(&positions[4..]);
}

/// 3, 4 and 9 in one map, the cross check of zone 0 or of another zone being the wrong
/// one.
fn all_together(cases: &mut Cases) {
    for (before, zone_0) in [([0x10, 0, 0], 255), ([255, 0x24, 0], 0xDB)] {
        let map = with_cross_checks(touching_free(), before);
        let mended = with_cross_checks(three_zones(), [zone_0, before[1], 0]);
        becomes(cases, &with_zone_checks(&map, 0xA5), &mended);
    }
    // The check of one zone is wrong, and those of the two with touching fragments are not.
    let map = worn(&[CROSS_1, CHECK_0]);
    assert_eq!(check(&map), (3, 0));
    becomes(cases, &map, &mended());
}

// -------------------------------------------------------------------------- rows

/// One zone of object 2, the free fragments and object 5, and the same with them joined.
fn one_row(lengths: &[usize]) -> (Parts, Parts) {
    let all: usize = lengths.iter().sum();
    let mut row = vec![object(2, 12)];
    row.extend(lengths.iter().map(|length| free(*length)));
    let mut joined = vec![object(2, 12), free(all)];
    if all < 1_524 {
        row.push(object(5, 1_524 - all));
        joined.push(object(5, 1_524 - all));
    }
    (row, joined)
}

/// Three free fragments in a row and more become one, of any lengths: the shortest there
/// can be, with links and closing bits inside bytes, and long ones.
fn three_in_a_row(cases: &mut Cases) {
    for lengths in [&[12, 12, 12][..], &[13, 14, 15]] {
        joins(cases, &plain(1), &[one_row(lengths)]);
    }
    for lengths in [
        &[300, 12, 500][..],
        &[12; 5],
        &[12, 13, 14, 15, 16, 17, 18],
        &[700, 600, 12, 212],
    ] {
        let (row, joined) = one_row(lengths);
        let mended = build(&plain(1), &[joined]);
        cases.mend(&build(&plain(1), &[row])).leaves(&mended);
    }
}

/// "A free fragment's id counts from its own start to the next one": the first of a row
/// links to the next row's first, past what is joined, and that of the last row to none.
/// Single free fragments are before a row, after it, and on both sides.
fn several_rows(cases: &mut Cases) {
    let zone = |spans: [&[usize]; 3]| {
        let [one, two, three] = spans.map(parts);
        let (five, six) = (vec![object(5, 20)], vec![object(6, 20)]);
        let rest = vec![object(7, 1_344)];
        [vec![object(2, 12)], one, five, two, six, three, rest].concat()
    };
    let mended = build(&plain(1), &[zone([&[70], &[28], &[42]])]);
    let rows = [&[30, 40][..], &[28], &[13, 14, 15]];
    becomes(cases, &build(&plain(1), &[zone(rows)]), &mended);
    for rows in [
        [&[70][..], &[14, 14], &[42]],
        [&[58, 12], &[28], &[42]],
        [&[70], &[28], &[12, 30]],
    ] {
        cases.mend(&build(&plain(1), &[zone(rows)])).leaves(&mended);
    }
}

/// Zones 0 and 2 start with a row. FreeLink leads to its first fragment, and stays.
fn row_at_a_zones_start(cases: &mut Cases) {
    let zone_0 = |row: &[usize]| [parts(row), vec![object(8, 1_400)]].concat();
    let zone_2 = |row: &[usize]| [parts(row), vec![object(9, 1_940)]].concat();
    let zone_1 = vec![object(2, 2_016)];
    let zones = [
        (zone_0(&[50, 86]), zone_0(&[136])),
        (zone_1.clone(), zone_1),
        (zone_2(&[12, 13, 51]), zone_2(&[76])),
    ];
    let positions = joins(cases, &plain(3), &zones);
    assert!([1, 2, 513, 514].iter().all(|at| !positions.contains(at)));
}

/// Free fragments of these lengths.
fn parts(lengths: &[usize]) -> Parts {
    lengths.iter().map(|length| free(*length)).collect()
}

/// Zones 0 and 2 end with a row: its last closing bit, which is the zone's last bit,
/// stays.
fn row_at_a_zones_end(cases: &mut Cases) {
    let zone_0 = |row: &[usize]| [vec![object(8, 1_400)], parts(row)].concat();
    let zone_2 = |row: &[usize]| [vec![object(9, 1_940)], parts(row)].concat();
    let zone_1 = vec![object(2, 2_016)];
    let zones = [
        (zone_0(&[50, 86]), zone_0(&[136])),
        (zone_1.clone(), zone_1),
        (zone_2(&[51, 13, 12]), zone_2(&[76])),
    ];
    let positions = joins(cases, &plain(3), &zones);
    assert!(!positions.contains(&255) && !positions.contains(&767));
}

/// All of the middle zone but object 2 is a row.
fn row_after_object_2(cases: &mut Cases) {
    let zone_0 = vec![object(8, 1_536)];
    let zone_1 = |row: &[usize]| [vec![object(2, 12)], parts(row)].concat();
    let zones = [
        (zone_0.clone(), zone_0),
        (zone_1(&[1_000, 1_004]), zone_1(&[2_004])),
    ];
    joins(cases, &plain(2), &zones);
}

/// "in each zone": free fragments that touch across a zone's end stay two, be it two that
/// touch nothing else, or a row on both sides, or whole zones.
fn touching_across_a_zones_end(cases: &mut Cases) {
    let zone_0 = |row: &[usize]| [vec![object(8, 1_336)], parts(row)].concat();
    let zone_1 = |row: &[usize]| [parts(row), vec![object(9, 1_906)]].concat();
    let zone_2 = vec![object(2, 2_016)];
    let zone_3 = vec![object(10, 2_016)];
    let map = |row_0: &[usize], row_1: &[usize]| {
        let zones = [zone_0(row_0), zone_1(row_1), zone_2.clone(), zone_3.clone()];
        build(&plain(4), &zones)
    };
    let mended = map(&[200], &[110]);
    for (row_0, row_1) in [(&[200][..], &[110][..]), (&[100, 100], &[50, 60])] {
        becomes(cases, &map(row_0, row_1), &mended);
    }
    // Zones 0, 1 and 3 are all free, and zone 2 but for object 2.
    let map = |row_1: &[usize], row_3: &[usize]| {
        let zone_2 = vec![object(2, 16), free(496)];
        let zones = [parts(&[32]), parts(row_1), zone_2, parts(row_3)];
        build(&short_zones(4), &zones)
    };
    becomes(cases, &map(&[16, 496], &[496, 16]), &map(&[512], &[512]));
}

/// Zones all free, or but for object 2, in pieces of m bits.
fn whole_zones_in_shortest_pieces(cases: &mut Cases) {
    let (two, all) = (vec![object(2, 16)], vec![16; 32]);
    let zones = [
        (parts(&[16, 16]), parts(&[32])),
        (
            [two.clone(), parts(&all[1..])].concat(),
            [two, parts(&[496])].concat(),
        ),
        (parts(&all), parts(&[512])),
    ];
    let positions = joins(cases, &short_zones(3), &zones);
    // In zone 2 the check and two bytes of each fragment but the last, whose link was 0
    // and whose closing bit is the zone's.
    let of_zone_2 = positions.iter().filter(|at| **at >= 512);
    assert_eq!(of_zone_2.count(), 1 + 62);
    joins(cases, &plain(1), &[one_row(&[12; 127])]);
}

/// Full zones: FreeLink, the top bit alone, stays, and the checks are set.
fn no_free_fragment(cases: &mut Cases) {
    let full = build(&plain(2), &full_zones(&plain(2)));
    assert_eq!(full[1..3], [0, 0x80]);
    let mut map = with_zone_checks(&full, 0x99);
    map[256 + 3] = 0x18;
    let mut mended = full;
    (mended[3], mended[256 + 3]) = (0xE7, 0x18);
    repair_zone_checks(&mut mended, 256);
    assert_eq!(becomes(cases, &map, &mended), [0, 3, 256]);
    let map = with_zone_checks(&nothing_free(), 1);
    cases.mend(&map).leaves(&nothing_free());
}

/// "An object has one pair for each of its fragments, even where two touch": only free
/// ones are joined, and objects 1 and 2 are none.
fn pieces_of_an_object_that_touch(cases: &mut Cases) {
    let zone = |row: &[usize]| {
        let start = vec![object(2, 12), object(2, 13)];
        let pieces = vec![object(7, 20), object(7, 30), object(1, 40), object(1, 50)];
        let rest = vec![object(7, 1_159)];
        [start, pieces.clone(), parts(row), pieces, rest].concat()
    };
    let map = build(&plain(1), &[zone(&[72])]);
    cases.mend(&map).leaves(&map);
    joins(cases, &plain(1), &[(zone(&[36, 36]), zone(&[72]))]);
}

/// "Fragments on the chain are free; all others are owned by their id": that of 16 bits
/// between two free ones is object 16's, though its id is the way to the next.
fn off_the_chain(cases: &mut Cases) {
    let zone_0 = vec![object(8, 32)];
    let zone_1 = |row: &[usize]| {
        let start = vec![object(2, 16), free(16), object(16, 16)];
        [start, parts(row), vec![object(7, 432)]].concat()
    };
    for row in [&[32][..], &[16, 16]] {
        let zones = [
            (zone_0.clone(), zone_0.clone()),
            (zone_1(row), zone_1(&[32])),
        ];
        joins(cases, &short_zones(2), &zones);
    }
}

// --------------------------------------------------------------- equal by chance

/// "exactly the byte positions the mender would change": a zone check that is the mended
/// map's, though it is wrong before; and one that is right before and after.
fn zone_check_equal_by_chance(cases: &mut Cases) {
    let mut map = touching_free();
    for at in [256, 512] {
        map[at] = three_zones()[at];
    }
    assert_eq!(check(&map), (3, 1));
    let positions = becomes(cases, &map, &three_zones());
    assert_eq!(positions, [264, 265, 386, 516, 517, 578]);

    let right = |first: &usize| {
        let (row, _) = one_row(&[*first, 1_524 - first]);
        build(&plain(1), &[row])[0] == map_a()[0]
    };
    let first = (12..=1_512).find(right).expect("a cut with the same check");
    let row = one_row(&[first, 1_524 - first]);
    let positions = joins(cases, &plain(1), &[row]);
    assert!(!positions.is_empty() && !positions.contains(&0));
}

/// The same of zone 0's check where its cross check is set: it is that of the mended map
/// before, and the cross check alone is listed.
fn cross_check_equal_by_chance(cases: &mut Cases) {
    let mut map = map_a();
    map[3] = 0xFE;
    assert_eq!(becomes(cases, &map, &map_a()), [3]);
    let mut map = mended();
    map[3] = 255;
    assert_eq!(becomes(cases, &map, &mended()), [3]);
}

/// The same of a link: the first of a row leads 16 bits on and then 272, of which the low
/// byte is the same. The second's led 256 bits on, and its low byte was 0 already.
fn link_byte_equal_by_chance(cases: &mut Cases) {
    let zone_0 = vec![object(8, 32)];
    let zone_1 = |row: &[usize]| {
        let rest = vec![object(40, 240), free(224)];
        [vec![object(2, 16)], parts(row), rest].concat()
    };
    let zones = [(zone_0.clone(), zone_0), (zone_1(&[16, 16]), zone_1(&[32]))];
    let positions = joins(cases, &short_zones(2), &zones);
    assert_eq!(positions, [256, 263, 265]);
}

// ------------------------------------------------------------- geometry and edition

/// Map A with its free fragment cut, and its only cross check and its zone check wrong.
fn one_zone(cases: &mut Cases) {
    let (row, _) = one_row(&[24, 1_500]);
    let cut = build(&plain(1), &[row]);
    cases.mend(&cut).leaves(&map_a());
    cases.mend(&with_bytes(&cut, 3, &[0x0F])).leaves(&map_a());
    let map = with_zone_checks(&with_bytes(&cut, 3, &[0]), 0);
    assert_eq!(check(&map), (3, 0));
    becomes(cases, &map, &map_a());
}

/// Rows before object 1, which has a piece between them and the overhang after the last.
fn disc_end(cases: &mut Cases) {
    let zone = |one: &[usize], other: &[usize]| {
        let (two, piece) = (vec![object(2, 12)], vec![object(1, 20)]);
        let overhang = vec![object(1, 104)];
        [two, parts(one), piece, parts(other), overhang].concat()
    };
    let zones = (zone(&[500, 500], &[200, 100, 100]), zone(&[1_000], &[400]));
    joins(cases, &disc_of(1_432, plain(1)), &[zones]);
}

/// A row up to a zone's end in the middle of a byte, whose other bits stay: all 0, and all
/// ones, as all that is carried.
fn zone_end_inside_a_byte(cases: &mut Cases) {
    let zone_0 = |row: &[usize]| [vec![object(8, 1_331)], parts(row)].concat();
    let zone_1 = |row: &[usize]| [vec![object(2, 1_811)], parts(row)].concat();
    let record = odd_zone_end(2);
    let map = |row: &[usize]| build(&record, &[zone_0(row), zone_1(row)]);
    let (cut, joined) = (map(&[100, 100]), map(&[200]));
    cases.mend(&cut).leaves(&joined);
    let (cut, joined) = (with_ones_outside(cut), with_ones_outside(joined));
    becomes(cases, &cut, &joined);
    cases.mend(&with_zone_checks(&cut, 0)).leaves(&joined);
}

/// "no byte outside": the record's other fields and the 188 bytes after a short zone's end
/// count in the zone check, and stay.
fn carried_bytes(cases: &mut Cases) {
    let zone_1 = |row: &[usize]| [vec![object(2, 16)], parts(row)].concat();
    let map = |zone_0: &[usize], row: &[usize]| {
        let map = build(&short_zones(2), &[parts(zone_0), zone_1(row)]);
        with_ones_outside(map)
    };
    let mended = map(&[32], &[496]);
    becomes(cases, &map(&[16, 16], &[400, 96]), &mended);
    let stale = with_zone_checks(&mended, 0x77);
    cases.mend_positions(&stale, 2).lists(&[0, 256]);
}

/// "Every length is a multiple of k": rows of whole clusters of 2, 4 and 8 bits.
fn clusters(cases: &mut Cases) {
    for (record, m, row, rest) in [
        (clusters_of_two(1), 14, &[14, 16, 18][..], 1_474),
        (clusters_of_four(1), 16, &[16, 20], 3_532),
        (clusters_of_eight(1), 16, &[16, 24, 40], 7_584),
    ] {
        let joined: usize = row.iter().sum();
        let zone = |row: &[usize]| [vec![object(2, m)], parts(row), vec![object(5, rest)]].concat();
        joins(cases, &record, &[(zone(row), zone(&[joined]))]);
    }
}

/// Links over most of a block of 1,024 bytes, with ids of 15 bits, and of 19 on an E+ disc.
fn large_blocks(cases: &mut Cases) {
    let zone = |m: usize, row: &[usize]| {
        let rest = vec![object(5, m), free(680 - 2 * m)];
        [vec![object(2, m)], parts(row), rest].concat()
    };
    let e_plus = DiscRecord {
        idlen: 19,
        version: 1,
        ..large_sectors(1)
    };
    for (record, m) in [(large_sectors(1), 16), (e_plus, 20)] {
        let zones = (zone(m, &[4_000, 3_000]), zone(m, &[7_000]));
        joins(cases, &record, &[zones]);
    }
}

/// E+ discs: the maps of version 0 as those of version 1, and ids of 19 bits.
fn e_plus_discs(cases: &mut Cases) {
    let mended = as_e_plus(&three_zones());
    becomes(cases, &as_e_plus(&touching_free()), &mended);
    let stale = with_zone_checks(&as_e_plus(&worn(&[CROSS_1])), 0);
    cases.mend(&mended).leaves(&mended);
    let mended = with_cross_checks(mended, [251, 4, 0]);
    becomes(cases, &stale, &mended);
    let zone_0 = |row: &[usize]| [parts(row), vec![object(299, 1_476)]].concat();
    let zone_1 = |one: &[usize], other: &[usize]| {
        let (two, rest) = (vec![object(2, 20)], vec![object(101, 1_841)]);
        [two, parts(one), vec![object(100, 20)], parts(other), rest].concat()
    };
    let zone_2 = |row: &[usize]| [vec![object(200, 1_955)], parts(row)].concat();
    let zones = [
        (zone_0(&[20, 40]), zone_0(&[60])),
        (zone_1(&[30, 30], &[20, 25, 30]), zone_1(&[60], &[75])),
        (zone_2(&[20, 20, 21]), zone_2(&[61])),
    ];
    joins(cases, &e_plus(3), &zones);
}

/// "R-7's zero rule then holds for version 0 only": bytes 36 to 63 of zone 0 that are not
/// judged stay, and count in the zone check.
fn e_plus_carried_bytes(cases: &mut Cases) {
    let dirty = |map: &[u8]| {
        let mut map = as_e_plus(map);
        for at in RESERVED {
            if !SIZE_HIGH.contains(&at) && at != 46 && !(48..52).contains(&at) {
                map[at] = 0xB0 | at as u8;
            }
        }
        repair_zone_checks(&mut map, 256);
        map
    };
    let mended = dirty(&map_a());
    let (row, _) = one_row(&[500, 24, 1_000]);
    becomes(cases, &dirty(&build(&plain(1), &[row])), &mended);
    cases.mend(&with_zone_checks(&mended, 0)).leaves(&mended);
}

/// "all fragment and chain rules stay": 6, and a link of 19 bits that would be right
/// without its last one: 5.
fn e_plus_refused(cases: &mut Cases) {
    cases.mend(&as_e_plus(&worn(&[FRAGMENT_1]))).told(6, 1);
    let zone_0 = vec![object(2, 20), free(20), free(30), object(5, 1_466)];
    let mut map = build(&e_plus(1), &[zone_0]);
    set_number(&mut map, 512 + 20, 19, 20 | 1 << 18);
    refused(cases, &map, 5, 0);
}

/// "one 32-bit number each": zone 256 starts at byte 65,536, and all 257 cross checks
/// count.
fn positions_above_16_bits(cases: &mut Cases) {
    let map = |row: &[usize]| {
        let mut zones = full_zones(&e_plus(257));
        zones[256] = [vec![object(25_607, 1_000)], parts(row)].concat();
        build(&e_plus(257), &zones)
    };
    let mut before = map(&[500, 516]);
    let mut mended = map(&[1_016]);
    before[65_536] = 0;
    before[65_539] = 0x31;
    (mended[3], mended[65_539]) = (0xCE, 0x31);
    repair_zone_checks(&mut mended, 256);
    let positions = becomes(cases, &before, &mended);
    assert_eq!(positions[..3], [0, 3, 65_536]);
    assert!(positions.len() > 4);
}

// ------------------------------------------------------------------------ refusals

/// 1: "map shorter than 64 bytes".
fn too_short(cases: &mut Cases) {
    refused(cases, &[], 1, 0);
    refused(cases, &map_a()[..63], 1, 0);
}

/// 2: a field, a reserved byte, another version and the high half of an E+ disc's
/// size. Checks and free fragments are as they come.
fn outside_its_ranges(cases: &mut Cases) {
    let with = |mut map: Vec<u8>, at: usize, value| {
        map[at] = value;
        map
    };
    let map = worn(&[CROSS_1, CHECK_2]);
    refused(cases, &with(map.clone(), 4, 7), 2, 0);
    for (at, value) in [(13, 0), (36, 1), (63, 0x80), (48, 2)] {
        cases.mend(&with(map.clone(), at, value)).gives(2);
    }
    let map = with(as_e_plus(&touching_free()), 40, 1);
    cases.mend_positions(&map, 0).gives(2);
}

/// 1: "or not nzones*S": a byte or a zone more or less, and 64 bytes.
fn another_length(cases: &mut Cases) {
    let map = worn(&[CHECK_1]);
    refused(cases, &[&map[..], &[0]].concat(), 1, 0);
    cases.mend(&[&map[..], &map[512..]].concat()).gives(1);
    for length in [767, 512, 64] {
        cases.mend(&map[..length]).gives(1);
    }
}

/// 6, "that zone": no closing bit, and under idlen+1 bits left, before zones with touching
/// free fragments, in them, and after one. Two fragments of 15 bits are no whole clusters,
/// though they would be as one.
fn fragments(cases: &mut Cases) {
    refused(cases, &worn(&[FRAGMENT_0]), 6, 0);
    cases.mend(&worn(&[FRAGMENT_1, CROSS_1])).told(6, 1);
    cases.mend(&worn(&[FRAGMENT_2, CHECK_0])).told(6, 2);
    let zone = vec![object(2, 14), free(15), free(15), object(5, 1_492)];
    cases.mend(&build(&clusters_of_two(1), &[zone])).told(6, 0);
}

/// 5, "that zone": FreeLink's top bit clear, and links on no fragment start: inside a
/// fragment, at the zone's end, in the record. One leads to where the second of a row
/// starts but for a bit.
fn links(cases: &mut Cases) {
    refused(cases, &worn(&[TOP_BIT_0, CHECK_2]), 5, 0);
    let near: Damage = |map| set_number(&mut map[512..768], 32, 11, 501);
    for (damages, zone) in [
        (&[TOP_BIT_1][..], 1),
        (&[LINK_1, CROSS_1], 1),
        (&[LINK_2], 2),
        (&[LINK_END_2, CHECK_1], 2),
        (&[LINK_RECORD_0], 0),
        (&[near], 2),
    ] {
        cases.mend(&worn(damages)).told(5, zone);
    }
}

/// 7, "that zone": an id of 0 and one of P*nzones, object 2's place, the disc's end, a
/// chain that is gone, and a row whose last fragment goes past the disc's end.
fn owners(cases: &mut Cases) {
    refused(cases, &worn(&[ID_0, CHECK_1]), 7, 0);
    for (damages, zone) in [
        (&[ID_1][..], 1),
        (&[OBJECT_2, CROSS_1], 1),
        (&[DISC_END, CHECK_0], 2),
        (&[CHAIN_GONE_0], 0),
    ] {
        cases.mend(&worn(damages)).told(7, zone);
    }
    let [zone_0, zone_1, _] = touching_parts();
    let zone_2 = vec![object(7, 1_000), free(900), free(116)];
    let map = build(&three_zones_record(), &[zone_0, zone_1, zone_2]);
    cases.mend(&map).told(7, 2);
}

/// 7: where a chain ends inside a row, the fragments after it have their links as ids, and
/// the last one has 0.
fn chain_cut_in_a_row(cases: &mut Cases) {
    let cut_1: Damage = |map| set_number(&mut map[256..512], 64, 11, 0);
    let cut_2: Damage = |map| set_number(&mut map[512..768], 32, 11, 0);
    cases.mend(&worn(&[cut_1])).told(7, 1);
    cases.mend(&worn(&[cut_2, CHECK_0])).told(7, 2);
    let (row, _) = one_row(&[20, 30, 40]);
    let mut map = build(&plain(1), &[row]);
    set_number(&mut map, 512 + 12, 11, 0);
    cases.mend_positions(&map, 0).told(7, 0);
}

/// "1 (under 64), 2, 1", then what the zones have.
fn lengths_and_records_in_order(cases: &mut Cases) {
    let mut map = worn(&[FRAGMENT_0, CHECK_1]);
    cases.mend_positions(&map[..767], 0).gives(1);
    map[4] = 7;
    cases.mend(&map[..63]).gives(1);
    refused(cases, &map[..64], 2, 0);
}

/// "then zone by zone 6, 5, 7": the lowest zone's, and in one zone in this order.
fn zone_by_zone(cases: &mut Cases) {
    for (damages, number, zone) in [
        (&[ID_0, FRAGMENT_1][..], 7, 0),
        (&[TOP_BIT_1, FRAGMENT_2], 5, 1),
        (&[FRAGMENT_1, LINK_1, ID_1], 6, 1),
        (&[LINK_1, ID_1], 5, 1),
    ] {
        cases.mend(&worn(damages)).told(number, zone);
    }
    let answer = cases.mend_positions(&worn(&[OBJECT_2, LINK_2]), 0);
    answer.told(7, 1);
    let answer = cases.mend_positions(&worn(&[FRAGMENT_2, DISC_END]), 0);
    answer.told(6, 2);
}

/// "with those three ignored": a check refuses these with 3, and then with 4, in an earlier
/// zone, in a later one or in none; the mender with what comes after.
fn checks_are_no_refusal(cases: &mut Cases) {
    let stale: [(Damage, Damage, u32, u32, u32); 3] = [
        (FRAGMENT_2, CHECK_0, 0, 6, 2),
        (TOP_BIT_1, CHECK_2, 2, 5, 1),
        (ID_0, CHECK_1, 1, 7, 0),
    ];
    for (damage, check, zone_of_check, number, zone) in stale {
        let mut map = worn(&[damage]);
        repair_zone_checks(&mut map, 256);
        check(&mut map);
        cases.check(&map).told(3, zone_of_check);
        cases.mend(&map).told(number, zone);
    }
    for (damage, number, zone) in [(FRAGMENT_0, 6, 0), (LINK_2, 5, 2), (DISC_END, 7, 2)] {
        let map = worn(&[damage, CROSS_1]);
        cases.check(&map).told(4, 0);
        cases.mend_positions(&map, 40).told(number, zone);
    }
}

// ---------------------------------------------------------------------------- room

/// "then 17 if the list is too short", "one 32-bit number each": eight positions take
/// eight entries, not four and not sixteen.
fn room(cases: &mut Cases) {
    let map = touching_free();
    let positions = differing(&map, &three_zones());
    assert_eq!(positions.len(), 8);
    for entries in [8, 13, 16] {
        cases.mend_positions(&map, entries).lists(&positions);
    }
    for entries in [7, 4, 1, 0] {
        cases.mend_positions(&map, entries).gives(17);
    }
}

/// The same of one position.
fn room_for_one(cases: &mut Cases) {
    let map = damaged(&[CHECK_1]);
    cases.mend_positions(&map, 1).lists(&[256]);
    cases.mend_positions(&map, 0).gives(17);
}

/// "17 ... Zone told 0", though all that would change is in zone 2.
fn zone_told_with_17(cases: &mut Cases) {
    cases.mend_positions(&damaged(&[CHECK_2]), 0).gives(17);
    let [zone_0, zone_1, _] = three_zones_parts();
    let [.., zone_2] = touching_parts();
    let map = build(&three_zones_record(), &[zone_0, zone_1, zone_2]);
    cases.mend_positions(&map, 3).gives(17);
}

// ------------------------------------------------------------------------ afterwards

/// What a map with 3, 4 and 9 becomes: that of `all_together`.
fn mended() -> Vec<u8> {
    with_cross_checks(three_zones(), [251, 4, 0])
}

/// "mending twice is mending once".
fn mended_twice(cases: &mut Cases) {
    let outcome = Case::new(Call::Mend, &worn(&[CROSS_1, CHECK_0])).run();
    assert!(outcome.map == mended());
    cases.mend(&outcome.map).leaves(&outcome.map);
    cases.mend_positions(&outcome.map, 0).lists(&[]);
}

/// "a mended map is accepted", and "Ownership of every bit is untouched": the spans are
/// joined, the objects' pieces are as they were. Before it nothing is read.
fn read_after_it(cases: &mut Cases) {
    let map = worn(&[CROSS_1, CHECK_0]);
    cases.free(&map, 10).told(3, 0);
    cases.check(&mended()).done();
    let spans = [20, 1_000, 1_568, 1_984, 3_552, 1_000];
    cases.free(&mended(), 6).pairs(&spans);
    let pieces = [0, 20, 1_548, 20, 4_552, 900];
    cases.list(&mended(), 7, 6).pairs(&pieces);
    assert_eq!(pairs_of(&touching_free(), 7), pieces);
}

/// Edits are refused with 3, with 4 and with 9 before it, and done after it: the place has
/// a piece where two free fragments touched.
fn edits_after_it(cases: &mut Cases) {
    let pieces = [0, 20, 1_548, 20, 4_552, 900];
    let touching = worn(&[CROSS_1]);
    cases.release(&worn(&[CHECK_1]), 7, 6).told(3, 1);
    cases.place(&touching, 9, &[2_540, 24]).gives(4);
    cases.claim(&touch_only(), 1, 2).told(9, 1);
    let released = cases.release(&mended(), 7, 6).pairs(&pieces);
    assert_eq!(cases.place(&released, 7, &pieces).done(), mended());
    let placed = cases.place(&mended(), 9, &[2_540, 24]).done();
    let released = cases.release(&placed, 9, 2).pairs(&[2_540, 24]);
    assert_eq!(released, mended());
    cases.claim(&mended(), 1, 2).claims(336, &[3_552, 12]);
}

/// `touching_free` with other cross checks that give 255.
fn touch_only() -> Vec<u8> {
    with_cross_checks(touching_free(), [251, 4, 0])
}

/// A claim of all bits that were joined takes them in one piece.
fn joined_hole_is_claimed(cases: &mut Cases) {
    cases.mend(&touch_only()).leaves(&mended());
    let size = 1_984 * 512;
    let claimed = cases.claim(&mended(), size, 0).claims(168, &[1_568, 1_984]);
    let released = cases.release(&claimed, 168, 2).pairs(&[1_568, 1_984]);
    assert_eq!(released, mended());
}
