//! R-8 of document 02: "When no hole is long enough, take holes largest first, the lower
//! disc bit first among equals: whole while it's no longer than what remains, then from
//! the start of the last one what remains (at least m), or all of it if a leftover of 1
//! to m-1 bits would result. Refusal 15 is then given exactly if all free bits together
//! are fewer than need. The answer becomes a list in object order for the chosen id, so
//! 17 may be given. The id's zone for R-6 is that of the first hole taken."

use reference::generate::build;
use reference::geometry::{DiscRecord, Geometry};

use crate::calls::{groups, Cases};
use crate::maps::*;

groups![
    single_hole_first,
    single_hole_that_is_not_the_largest,
    largest_first,
    largest_beyond_a_byte,
    whole_hole_ends_it,
    rest_below_m,
    leftover,
    rest_below_m_and_leftover,
    shortest_holes,
    first_longer_hole_is_the_last,
    equal_holes,
    equal_holes_in_several_zones,
    some_of_the_equal_holes,
    object_order_wraps,
    largest_hole_in_the_last_zone,
    largest_hole_in_zone_0,
    several_holes_of_the_start_zone,
    id_of_the_largest_hole,
    ids_of_that_zone_used_up,
    room_for_three_pairs,
    room_for_one_pair,
    refusals_before_17,
    free_fragments_that_touch,
    all_free_bits,
    sizes_near_the_limits,
    one_zone_touched,
    several_zones_touched,
    zones_touched_in_ascending_order,
    holes_that_meet_at_a_zone_end,
    bits_past_the_zone,
    disc_end,
    clusters_of_two_bits,
    clusters_of_four_bits,
    clusters_of_eight_bits,
    ids_per_zone_without_rounding,
    whole_zones,
    holes_far_apart,
    nearly_full_disc,
    e_plus_discs,
    zones_above_255,
    two_claims_undone,
    freed_and_claimed_again,
    freed_and_joined,
];

/// How far apart the holes of a zone start: a multiple of every k.
const STEP: usize = 200;

/// Full zones, but that each has holes of some lengths. The first starts `STEP` bits
/// after the zone's first, and each other one `STEP` bits after the one before it.
fn holed(record: &DiscRecord, holes: &[&[usize]]) -> Vec<u8> {
    let geometry = Geometry::accept(record).expect("a record inside its ranges");
    let mut zones = full_zones(record);
    for (zone, lengths) in holes.iter().enumerate() {
        let bits = geometry.end_block_bit() - geometry.first_block_bit(zone);
        let own = zones[zone].pop().expect("a full zone");
        let mut position = bits - own.1;
        for (index, length) in lengths.iter().enumerate() {
            let start = STEP * (index + 1);
            zones[zone].push((own.0, start - position));
            zones[zone].push(free(*length));
            position = start + length;
        }
        zones[zone].push((own.0, bits - position));
    }
    build(record, &zones)
}

/// One zone with such holes: (200, ..), (400, ..) and so on. m is 12, and the id 3.
fn one_zone(holes: &[usize]) -> Vec<u8> {
    holed(&plain(1), &[holes])
}

/// Where such a hole starts in a zone of 2016 allocation bits.
fn at(zone: u32, index: u32) -> u32 {
    first(zone) + STEP as u32 * (index + 1)
}

/// Demand 3: "An accepted place or claim followed at once by its release, again with
/// room, does the same." The answered list, placed, gives what the claim gave.
fn undone(cases: &mut Cases, map: &[u8], claimed: &[u8], id: u32, pairs: &[u32]) {
    let released = cases.release(claimed, id, pairs.len()).pairs(pairs);
    assert_eq!(released, map);
    assert_eq!(cases.place(map, id, pairs).done(), claimed);
}

/// "When no hole is long enough": one is, far from the parent, though those near it have
/// as many bits together. There is room for one pair only.
fn single_hole_first(cases: &mut Cases) {
    let map = holed(&plain(5), &[&[30, 30], &[31], &[], &[60], &[61]]);
    for (bits, parent, id, pair) in [
        (60, 0, 504, [at(3, 0), 60]),
        (61, 0, 672, [at(4, 0), 61]),
        (60, 4, 672, [at(4, 0), 61]),
        (32, 1, 504, [at(3, 0), 32]),
    ] {
        cases.claim(&map, bits * 1_024, parent).claims(id, &pair);
    }
}

/// "holes largest first" is said of several: one that is long enough is found as
/// before, though another is longer.
fn single_hole_that_is_not_the_largest(cases: &mut Cases) {
    let map = holed(&plain(3), &[&[20], &[40, 90], &[180]]);
    let pair = [at(1, 0), 40];
    cases.claim(&map, 40 * 1_024, 0).claims(168, &pair);
}

/// "take holes largest first": not from the lowest disc bit on, nor the shortest. 33 bits
/// are more than 32.
fn largest_first(cases: &mut Cases) {
    let map = one_zone(&[20, 50, 30]);
    for (bits, pairs) in [
        (80, vec![400, 50, 600, 30]),
        (68, vec![400, 50, 600, 18]),
        (100, vec![200, 20, 400, 50, 600, 30]),
    ] {
        let claim = cases.claim_in(&map, bits * 1_024, 0, pairs.len());
        claim.claims(3, &pairs);
    }
    let map = one_zone(&[30, 31, 32, 33]);
    let pairs = [600, 12, 800, 33];
    cases.claim_in(&map, 45 * 1_024, 0, 4).claims(3, &pairs);
}

/// "largest first", though 300 is 44 in a byte, and 260 is 4.
fn largest_beyond_a_byte(cases: &mut Cases) {
    let zone = vec![
        object(2, 12),
        free(250),
        object(7, 20),
        free(300),
        object(7, 20),
        free(260),
        object(7, 674),
    ];
    let map = build(&plain(1), &[zone]);
    let pairs = [282, 300, 602, 12];
    cases.claim_in(&map, 301 * 1_024, 0, 4).claims(3, &pairs);
}

/// "whole while it's no longer than what remains": one that is as long as that is the
/// last, and no m bits of another are taken for the 0 bits that remain.
fn whole_hole_ends_it(cases: &mut Cases) {
    let map = one_zone(&[50, 30, 12, 40]);
    for (bits, pairs) in [
        (90, vec![200, 50, 800, 40]),
        (120, vec![200, 50, 400, 30, 800, 40]),
        (132, vec![200, 50, 400, 30, 600, 12, 800, 40]),
    ] {
        let claim = cases.claim_in(&map, bits * 1_024, 0, 8);
        claim.claims(3, &pairs);
    }
    let map = holed(&plain(5), &[&[12], &[50], &[], &[50], &[50]]);
    let pairs = [at(1, 0), 50, at(3, 0), 50];
    let claim = cases.claim_in(&map, 100 * 1_024, 4, 4);
    claim.claims(168, &pairs);
}

/// "what remains (at least m)": 1, 11, 12 and 13 bits remain, of which the hole of 40
/// gives 12 or more.
fn rest_below_m(cases: &mut Cases) {
    let map = one_zone(&[50, 40]);
    for (bits, last) in [(51, 12), (61, 12), (62, 12), (63, 13)] {
        let pairs = [200, 50, 400, last];
        cases.claim_in(&map, bits * 1_024, 0, 4).claims(3, &pairs);
    }
}

/// "or all of it if a leftover of 1 to m-1 bits would result": 12, 11, 1 and 0 bits of
/// the hole of 40 would.
fn leftover(cases: &mut Cases) {
    let map = one_zone(&[50, 40]);
    for (bits, last) in [(78, 28), (79, 40), (89, 40), (90, 40)] {
        let pairs = [200, 50, 400, last];
        cases.claim_in(&map, bits * 1_024, 0, 5).claims(3, &pairs);
    }
}

/// Both: a bit remains, m are taken for it, and of these holes 12, 11, 1 and 0 bits
/// would be left over. That of 23 gives 22 bits more than are needed, the most there can
/// be.
fn rest_below_m_and_leftover(cases: &mut Cases) {
    for (hole, last) in [(24, 12), (23, 23), (13, 13), (12, 12)] {
        let map = one_zone(&[hole, 50]);
        let pairs = [200, last, 400, 50];
        cases.claim_in(&map, 51 * 1_024, 0, 4).claims(3, &pairs);
    }
}

/// Every hole has m bits: what remains at the end takes a whole one.
fn shortest_holes(cases: &mut Cases) {
    let map = one_zone(&[12; 6]);
    let pairs = [200, 12, 400, 12, 600, 12, 800, 12];
    for (bits, holes) in [(13, 2), (36, 3), (37, 4)] {
        let claim = cases.claim_in(&map, bits * 1_024, 0, 8);
        claim.claims(3, &pairs[..2 * holes]);
    }
}

/// "then from the start of the last one": the first that is longer than what remains is
/// the last, though another further on fits, or fits better.
fn first_longer_hole_is_the_last(cases: &mut Cases) {
    let map = one_zone(&[50, 40, 20, 12]);
    for (bits, last) in [(70, 20), (79, 40)] {
        let pairs = [200, 50, 400, last];
        cases.claim_in(&map, bits * 1_024, 0, 6).claims(3, &pairs);
    }
    let map = one_zone(&[60, 50, 40, 31, 20]);
    for (bits, last) in [(130, 20), (141, 40)] {
        let pairs = [200, 60, 400, 50, 600, last];
        cases.claim_in(&map, bits * 1_024, 0, 6).claims(3, &pairs);
    }
}

/// "the lower disc bit first among equals", in one zone.
fn equal_holes(cases: &mut Cases) {
    let map = one_zone(&[30, 30, 30]);
    for (bits, pairs) in [
        (31, vec![200, 30, 400, 12]),
        (60, vec![200, 30, 400, 30]),
        (61, vec![200, 30, 400, 30, 600, 12]),
    ] {
        let claim = cases.claim_in(&map, bits * 1_024, 0, 6);
        claim.claims(3, &pairs);
    }
}

/// "the lower disc bit": in zone 1, though the hole starts later in its zone than those
/// in zones 3 and 4, of which one is the parent.
fn equal_holes_in_several_zones(cases: &mut Cases) {
    let map = holed(&plain(5), &[&[], &[12, 30], &[], &[30], &[30]]);
    let (one, three, four) = (at(1, 1), at(3, 0), at(4, 0));
    for (bits, parent, pairs) in [
        (31, 3, vec![one, 30, three, 12]),
        (60, 4, vec![one, 30, three, 30]),
        (61, 0, vec![one, 30, three, 30, four, 12]),
    ] {
        let claim = cases.claim_in(&map, bits * 1_024, parent, 6);
        claim.claims(168, &pairs);
    }
}

/// "the lower disc bit first among equals", where only some are taken: both of 40 bits,
/// and of the five of 30 the first two, and m bits of the third.
fn some_of_the_equal_holes(cases: &mut Cases) {
    let map = holed(&plain(5), &[&[30, 40, 30], &[30], &[], &[40, 30], &[30]]);
    let in_zone_0 = [200, 30, 400, 40, 600, 30];
    for (bits, others) in [
        (140, vec![at(3, 0), 40]),
        (145, vec![at(1, 0), 12, at(3, 0), 40]),
        (165, vec![at(1, 0), 30, at(3, 0), 40]),
    ] {
        let pairs = [&in_zone_0[..], &others].concat();
        let claim = cases.claim_in(&map, bits * 1_024, 2, 10);
        claim.claims(3, &pairs);
    }
}

/// "a list in object order": the largest hole is in zone 2, and those of zones 0 and 1
/// come after those of zones 3 and 4, though they were taken before or are shorter.
fn object_order_wraps(cases: &mut Cases) {
    let map = holed(&plain(5), &[&[30], &[70], &[80], &[50], &[60]]);
    let [zero, one, two, three, four] = [0, 1, 2, 3, 4].map(|zone| at(zone, 0));
    let two_to_four = [two, 80, three, 50, four, 60];
    for (bits, pairs) in [
        (81, vec![two, 80, one, 12]),
        (210, vec![two, 80, four, 60, one, 70]),
        (260, [&two_to_four[..], &[one, 70]].concat()),
    ] {
        let claim = cases.claim_in(&map, bits * 1_024, 0, 10);
        claim.claims(336, &pairs);
    }
    let pairs = [&two_to_four[..], &[zero, 12, one, 70]].concat();
    let claim = cases.claim_in(&map, 261 * 1_024, 0, 10);
    let claimed = claim.claims(336, &pairs);
    undone(cases, &map, &claimed, 336, &pairs);
}

/// "then later zones, then from zone 0": there is no later one.
fn largest_hole_in_the_last_zone(cases: &mut Cases) {
    let map = holed(&plain(5), &[&[30], &[40], &[], &[], &[80]]);
    let pairs = [at(4, 0), 80, at(0, 0), 30, at(1, 0), 40];
    let claim = cases.claim_in(&map, 150 * 1_024, 1, 6);
    claim.claims(672, &pairs);
}

/// Zone 0's is the largest, so that the order is that of the disc.
fn largest_hole_in_zone_0(cases: &mut Cases) {
    let map = holed(&plain(5), &[&[80], &[], &[], &[40], &[50]]);
    let pairs = [at(0, 0), 80, at(3, 0), 40, at(4, 0), 50];
    let claim = cases.claim_in(&map, 170 * 1_024, 4, 6);
    claim.claims(3, &pairs);
}

/// "take all its fragments in ascending order": the first of the list is not the first
/// hole taken.
fn several_holes_of_the_start_zone(cases: &mut Cases) {
    let map = holed(&plain(4), &[&[25, 26], &[], &[20, 80, 30], &[27]]);
    let zone_2 = [at(2, 0), 20, at(2, 1), 80, at(2, 2), 30];
    let others = [at(3, 0), 27, at(0, 0), 25, at(0, 1), 26];
    let pairs = [zone_2, others].concat();
    let claim = cases.claim_in(&map, 208 * 1_024, 0, 13);
    claim.claims(336, &pairs);
}

/// "The id's zone for R-6 is that of the first hole taken": neither the parent, nor the
/// zone of the lowest piece or of the last hole, and of equal holes that of the lower
/// one.
fn id_of_the_largest_hole(cases: &mut Cases) {
    let map = holed(&plain(5), &[&[], &[50], &[], &[90], &[]]);
    let pairs = [at(3, 0), 90, at(1, 0), 30];
    for parent in [1, 4] {
        let claim = cases.claim_in(&map, 120 * 1_024, parent, 4);
        claim.claims(504, &pairs);
    }
    let map = holed(&plain(5), &[&[], &[60], &[], &[60], &[]]);
    let pairs = [at(1, 0), 60, at(3, 0), 60];
    let claim = cases.claim_in(&map, 120 * 1_024, 3, 4);
    claim.claims(168, &pairs);
}

/// Short zones, with P 32 and m 16. The largest hole is in zone 2, whose ids, 64 to 95,
/// are used in zone 3: all, or all but 95. Others are used in zones 1 and 4, up to 31
/// and from 32 to 60. The second largest hole is in zone 4, of whose ids none is used.
/// There are 196 free bits.
fn used_up(left: Option<u32>) -> Vec<u8> {
    let of_zone_2: Vec<u32> = (64..96).filter(|id| Some(*id) != left).collect();
    let mut zones = full_zones(&short_zones(5));
    zones[0] = vec![object(100, 16), free(16)];
    zones[1] = filled(&Vec::from_iter(3..32), 16, 480);
    zones[1].push(free(32));
    zones[2] = vec![object(2, 16), object(71, 396), free(100)];
    zones[3] = filled(&of_zone_2, 16, 512);
    zones[4] = filled(&Vec::from_iter(32..61), 16, 464);
    zones[4].push(free(48));
    build(&short_zones(5), &zones)
}

/// "only if none is left the lowest unused from 3": 61, an id of zone 1, whose "object
/// order for the chosen id" the list then has. Where one is left, that of zone 2.
fn ids_of_that_zone_used_up(cases: &mut Cases) {
    let [zero, one, two, four] = [[16, 16], [512, 32], [956, 100], [2_032, 48]];
    let map = used_up(None);
    let pairs = [one, two, four, zero].concat();
    let claimed = cases.claim_in(&map, 196 * 1_024, 3, 8).claims(61, &pairs);
    undone(cases, &map, &claimed, 61, &pairs);
    let map = used_up(Some(95));
    let pairs = [two, four, zero, one].concat();
    cases.claim_in(&map, 196 * 1_024, 3, 8).claims(95, &pairs);
}

/// Three zones with a hole in each, of 120 bits together.
fn three_holes() -> Vec<u8> {
    holed(&plain(3), &[&[50], &[40], &[30]])
}

/// "so 17 may be given": "too few entries for the pairs", which are six.
fn room_for_three_pairs(cases: &mut Cases) {
    let map = three_holes();
    let pairs = [at(0, 0), 50, at(1, 0), 40, at(2, 0), 30];
    for entries in [6, 7] {
        let claim = cases.claim_in(&map, 120 * 1_024, 0, entries);
        claim.claims(3, &pairs);
    }
    for entries in [5, 4, 2, 0] {
        let claim = cases.claim_in(&map, 120 * 1_024, 0, entries);
        claim.gives(17);
    }
}

/// "The answer becomes a list" where it is one piece too.
fn room_for_one_pair(cases: &mut Cases) {
    let map = three_holes();
    for entries in [2, 6] {
        let claim = cases.claim_in(&map, 1, 1, entries);
        claim.claims(168, &[at(1, 0), 12]);
    }
    for entries in [1, 0] {
        cases.claim_in(&map, 1, 1, entries).gives(17);
    }
}

/// "then the rest in table order": 12, 15, 17.
fn refusals_before_17(cases: &mut Cases) {
    let map = three_holes();
    cases.claim_in(&map, 0, 0, 0).gives(12);
    cases.claim_in(&map, 120 * 1_024, 3, 5).gives(12);
    cases.claim_in(&map, u64::MAX, 3, 0).gives(12);
    cases.claim_in(&map, 120 * 1_024 + 1, 0, 0).gives(15);
    cases.claim_in(&nothing_free(), 1, 0, 0).gives(15);
}

/// "then the rest in table order": 9, 12, 15, 17. 3,000 bits are more than any hole has,
/// and fewer than all. Where they touch nowhere, they are in three pieces.
fn free_fragments_that_touch(cases: &mut Cases) {
    let map = touching_free();
    cases.claim_in(&map, 3_000 * 512, 0, 20).told(9, 1);
    cases.claim_in(&map, 4_000 * 512, 3, 0).told(9, 1);
    let map = three_zones();
    let pairs = [1_568, 1_984, first(2), 16, 20, 1_000];
    let claim = cases.claim_in(&map, 3_000 * 512, 0, 6);
    claim.claims(168, &pairs);
}

/// "Refusal 15 is then given exactly if all free bits together are fewer than need": not
/// for 207 bits, though no bit is free after it; for a byte more.
fn all_free_bits(cases: &mut Cases) {
    let map = holed(&plain(4), &[&[12, 44], &[60], &[13], &[21, 57]]);
    let pairs = [
        [at(1, 0), 60, at(2, 0), 13],
        [at(3, 0), 21, at(3, 1), 57],
        [at(0, 0), 12, at(0, 1), 44],
    ]
    .concat();
    let claim = cases.claim_in(&map, 207 * 1_024, 2, 12);
    let claimed = claim.claims(168, &pairs);
    assert_eq!(spans_of(&claimed), []);
    undone(cases, &map, &claimed, 168, &pairs);
    // The last cluster is needed for one byte of it, too.
    let claim = cases.claim_in(&map, 206 * 1_024 + 1, 2, 12);
    assert_eq!(claim.claims(168, &pairs), claimed);
    cases.claim_in(&map, 207 * 1_024 + 1, 2, 12).gives(15);
}

/// "fewer than need", which is 0 or 90 bits modulo 2^32, or once rounded up modulo 2^64.
fn sizes_near_the_limits(cases: &mut Cases) {
    let map = one_zone(&[50, 40]);
    for size in [
        1 << 32,
        (1 << 32) + 90 * 1_024,
        (1 << 42) + 90 * 1_024,
        (1 << 63) + 90 * 1_024,
        u64::MAX - 1_022,
        u64::MAX,
    ] {
        cases.claim_in(&map, size, 0, 4).gives(15);
    }
}

/// By what each zone's cross check changed.
fn cross_changes(before: &[u8], after: &[u8]) -> Vec<u8> {
    let blocks = before.chunks(256).zip(after.chunks(256));
    blocks.map(|(old, new)| old[3] ^ new[3]).collect()
}

/// "An edit touching one zone leaves them alone", however many pieces there are.
fn one_zone_touched(cases: &mut Cases) {
    let map = holed(&plain(5), &[&[12], &[], &[], &[40, 50, 60], &[12]]);
    let pairs = [at(3, 0), 40, at(3, 1), 50, at(3, 2), 60];
    let claim = cases.claim_in(&map, 150 * 1_024, 0, 6);
    let claimed = claim.claims(504, &pairs);
    assert_eq!(cross_changes(&map, &claimed), [0; 5]);
    undone(cases, &map, &claimed, 504, &pairs);
}

/// "An edit touching several ... exclusive-ors each with 1 when their number is even;
/// when odd, the first three with 1, 2, 3 and the rest with 1": the number of zones, not
/// of pieces.
fn several_zones_touched(cases: &mut Cases) {
    let record = plain(7);
    let all = [&[21][..], &[22, 62], &[23], &[24], &[25], &[26], &[27]];
    for (zones, changes) in [
        (vec![1, 4], [0, 1, 0, 0, 1, 0, 0]),
        (vec![0, 1, 5], [1, 2, 0, 0, 0, 3, 0]),
        (vec![0, 1, 5, 6], [1, 1, 0, 0, 0, 1, 1]),
        (vec![1, 2, 3, 5, 6], [0, 1, 2, 3, 0, 1, 1]),
        (vec![0, 1, 2, 3, 4, 6], [1, 1, 1, 1, 1, 0, 1]),
        (vec![0, 1, 2, 3, 4, 5, 6], [1, 2, 3, 1, 1, 1, 1]),
    ] {
        let mut holes = [&[][..]; 7];
        for zone in &zones {
            holes[*zone] = all[*zone];
        }
        let map = holed(&record, &holes);
        let free: usize = zones.iter().flat_map(|zone| all[*zone]).sum();
        let size = free as u64 * 1_024;
        let claimed = cases.claim_in(&map, size, 0, 16).done();
        assert_eq!(cross_changes(&map, &claimed), changes);
        assert_eq!(pairs_of(&claimed, 168).len(), 2 * zones.len() + 2);
    }
}

/// "in ascending order, exclusive-ors ... the first three with 1, 2, 3": not in object
/// order, in which zone 3 comes first and zone 0 last.
fn zones_touched_in_ascending_order(cases: &mut Cases) {
    let map = holed(&plain(5), &[&[40], &[], &[], &[60], &[50]]);
    let map = with_cross_checks(map, [0x5A, 0x3C, 0x99]);
    let pairs = [at(3, 0), 60, at(4, 0), 50, at(0, 0), 40];
    let claim = cases.claim_in(&map, 150 * 1_024, 0, 6);
    let claimed = claim.claims(504, &pairs);
    assert_eq!(cross_changes(&map, &claimed), [1, 0, 0, 2, 3]);
    undone(cases, &map, &claimed, 504, &pairs);
}

/// A hole ends with its zone: the last bits of zone 3 and the first ones of zone 4 are
/// two, of 40 bits each, and become two pieces. One of 50 bits is larger than either.
fn holes_that_meet_at_a_zone_end(cases: &mut Cases) {
    let mut zones = full_zones(&plain(5));
    zones[3] = vec![object(511, 1_976), free(40)];
    zones[4] = vec![free(40), object(679, 1_976)];
    let map = build(&plain(5), &zones);
    let border = first(4);
    let pairs = [border - 40, 40, border, 40];
    let claim = cases.claim_in(&map, 80 * 1_024, 4, 4);
    let claimed = claim.claims(504, &pairs);
    undone(cases, &map, &claimed, 504, &pairs);
    zones[1] = vec![free(50), object(175, 1_966)];
    let map = build(&plain(5), &zones);
    let pairs = [first(1), 50, border - 40, 40];
    let claim = cases.claim_in(&map, 80 * 1_024, 4, 4);
    claim.claims(168, &pairs);
}

/// "nothing outside check byte, FreeLink, cross check and allocation bits": the zones
/// end inside a byte, with holes up to there. 8 bits of zone 0's would be left over.
fn bits_past_the_zone(cases: &mut Cases) {
    let zones = [
        vec![object(5, 1_511), free(20)],
        vec![object(2, 12), object(5, 1_969), free(30)],
        vec![object(5, 1_970), free(41)],
    ];
    let map = with_ones_outside(build(&odd_zone_end(3), &zones));
    let end = |zone: u32| 2_011 * (zone + 1) - 480;
    let pairs = [end(2) - 41, 41, end(0) - 20, 20, end(1) - 30, 30];
    let claim = cases.claim_in(&map, 72 * 1_024, 0, 6);
    let claimed = claim.claims(334, &pairs);
    assert_eq!(claimed[4..64], map[4..64]);
    undone(cases, &map, &claimed, 334, &pairs);
}

/// "all free bits": the disc ends in zone 2, and no bit past it is free.
fn disc_end(cases: &mut Cases) {
    let record = disc_of(first(2) + 100, plain(4));
    let mut zones = full_zones(&record);
    zones[1] = vec![object(175, 1_946), free(70)];
    zones[2] = vec![object(2, 12), free(88), object(1, 1_916)];
    zones[3] = vec![object(1, 2_016)];
    let map = build(&record, &zones);
    let pairs = [first(2) + 12, 88, first(2) - 70, 70];
    for parent in [0, 3] {
        let claim = cases.claim_in(&map, 158 * 1_024, parent, 4);
        claim.claims(336, &pairs);
    }
    cases.claim_in(&map, 158 * 1_024 + 1, 3, 4).gives(15);
}

/// k 2 and m 14, and 128 bytes a map bit: what remains and what is left over are in
/// clusters. Of the hole of 26 bits 24 more are taken than needed.
fn clusters_of_two_bits(cases: &mut Cases) {
    let record = clusters_of_two(1);
    for (hole, size, last) in [
        (40, 50 * 128 + 1, 14),
        (40, 64 * 128 + 1, 16),
        (40, 76 * 128, 26),
        (40, 76 * 128 + 1, 40),
        (28, 52 * 128, 14),
        (26, 52 * 128, 26),
    ] {
        let map = holed(&record, &[&[50, hole]]);
        let pairs = [200, 50, 400, last];
        cases.claim_in(&map, size, 0, 4).claims(3, &pairs);
    }
}

/// k 4 and m 16 in two zones, of 3,584 and 4,064 bits.
fn clusters_of_four_bits(cases: &mut Cases) {
    let map = holed(&clusters_of_four(2), &[&[60], &[100]]);
    for (size, last) in [(104 * 128, 16), (144 * 128, 44), (144 * 128 + 1, 60)] {
        let pairs = [3_784, 100, 200, last];
        cases.claim_in(&map, size, 0, 4).claims(312, &pairs);
    }
    cases.claim_in(&map, 160 * 128 + 1, 0, 4).gives(15);
}

/// k 8 and m 16, for an idlen of 13: one cluster remains, or is left over.
fn clusters_of_eight_bits(cases: &mut Cases) {
    let record = clusters_of_eight(1);
    for (hole, size, last) in [
        (64, 104 * 128 + 1, 16),
        (64, 152 * 128, 48),
        (64, 152 * 128 + 1, 64),
        (32, 112 * 128, 16),
        (24, 112 * 128, 24),
    ] {
        let map = holed(&record, &[&[104, hole]]);
        let pairs = [200, 104, 400, last];
        cases.claim_in(&map, size, 0, 4).claims(3, &pairs);
    }
}

/// "P (ids per zone) = Z div (idlen+1), without that rounding": 582, and the start zone
/// of 1,164 is 2. By m it would be 510.
fn ids_per_zone_without_rounding(cases: &mut Cases) {
    let map = holed(&clusters_of_eight(3), &[&[48], &[], &[104, 56]]);
    let zone_2 = 2 * 8_160 - 480;
    let pairs = [zone_2 + 200, 104, zone_2 + 400, 56, 200, 16];
    let claim = cases.claim_in(&map, 160 * 128 + 1, 0, 6);
    claim.claims(1_164, &pairs);
}

/// Nine zones of up to 8,160 bits, all free but object 2 in zone 4: holes as long as
/// they can be, of which that of zone 4 is 16 bits shorter, and more bits than 16 bits can
/// count. All together are 72,944.
fn whole_zones(cases: &mut Cases) {
    let mut zones = vec![vec![free(8_160)]; 9];
    zones[0] = vec![free(7_680)];
    zones[4] = vec![object(2, 16), free(8_144)];
    let map = build(&large_sectors(9), &zones);
    let whole = |zone: u32| match zone {
        4 => [4 * 8_160 - 480 + 16, 8_144],
        _ => [8_160 * zone - 480, 8_160],
    };
    let mut pairs = [1, 2, 3, 5, 6].map(whole).concat();
    pairs.extend([7 * 8_160 - 480, 16]);
    let claim = cases.claim_in(&map, (5 * 8_160 + 1) * 1_024, 8, 12);
    claim.claims(510, &pairs);
    let mut pairs = [1, 2, 3, 4, 5, 6, 7, 8].map(whole).concat();
    pairs.extend([0, 65_537 - 65_264]);
    let claim = cases.claim_in(&map, 65_537 * 1_024, 8, 18);
    claim.claims(510, &pairs);
    cases.claim_in(&map, 72_944 * 1_024 + 1, 8, 18).gives(15);
}

/// The shortest hole there is, after one of nearly a whole zone.
fn holes_far_apart(cases: &mut Cases) {
    let zones = [
        vec![object(7, 7_664), free(16)],
        vec![object(2, 16), free(8_144)],
    ];
    let map = build(&large_sectors(2), &zones);
    let pairs = [7_696, 8_144, 7_664, 16];
    let claim = cases.claim_in(&map, 8_145 * 1_024, 0, 4);
    claim.claims(510, &pairs);
}

/// 127 zones with 2,048 holes between fragments of 64 bits, so that more than three bits
/// of four are owned: 16, 18 and so on to 40 bits each, and 60 in zone 77. Zones 30 to 45
/// have 17 of them, the others 16.
fn crowded_disc() -> Vec<u8> {
    let record = many_zones(127);
    let mut zones = full_zones(&record);
    for (zone, parts) in zones.iter_mut().enumerate() {
        let (own, mut left) = parts.pop().expect("a full zone");
        let holes = if (30..46).contains(&zone) { 17 } else { 16 };
        for index in 0..holes {
            let length = match (zone, index) {
                (77, 11) => 60,
                _ => 16 + (7 * zone + 5 * index) % 13 * 2,
            };
            parts.extend([(own, 64), free(length)]);
            left -= 64 + length;
        }
        parts.push((own, left));
    }
    build(&record, &zones)
}

/// "On a crowded disc a claim fails though there's room": all of it, in 2,048 pieces, and
/// then less, in some 600, with 100 of the equal ones of 34 bits, of the last of which 16
/// bits are taken. Both lists begin with zone 77 and go round.
fn nearly_full_disc(cases: &mut Cases) {
    let map = crowded_disc();
    let lengths = spans_of(&map);
    let lengths = lengths.chunks(2).map(|pair| pair[1] as u64);
    assert_eq!(lengths.clone().count(), 2_048);
    let free: u64 = lengths.clone().sum();
    let id = 77 * 126;
    let claimed = cases.claim_in(&map, free * 1_024, 0, 4_096).done();
    assert_eq!(pairs_of(&claimed, id).len(), 4_096);
    assert_eq!(spans_of(&claimed), []);
    cases.claim_in(&map, free * 1_024, 0, 4_095).gives(17);
    cases.claim_in(&map, free * 1_024 + 1, 126, 0).gives(15);

    let longer = lengths.filter(|length| *length > 34);
    let taken = longer.clone().count() + 100;
    let size = (longer.sum::<u64>() + 99 * 34 + 5) * 1_024;
    let claimed = cases.claim_in(&map, size, 126, 1_200).done();
    let pairs = pairs_of(&claimed, id);
    assert_eq!(pairs.len(), 2 * taken);
    assert_eq!(pairs.chunks(2).filter(|pair| pair[1] == 16).count(), 1);
    undone(cases, &map, &claimed, id, &pairs);
}

/// "Demands 2 and 3 then hold for both editions": m 20 and P 100 for an idlen of
/// 19. The largest hole is in zone 3, and 285 bits are free.
fn e_plus_discs(cases: &mut Cases) {
    let map = holed(&e_plus(5), &[&[60], &[40, 45], &[], &[90], &[50]]);
    let (three, four, zero) = ([at(3, 0), 90], [at(4, 0), 50], [at(0, 0), 60]);
    let pairs = |last| [three, four, zero, [at(1, 0), last], [at(1, 1), 45]].concat();
    for (bits, last) in [(250, 20), (266, 40), (285, 40)] {
        let claim = cases.claim_in(&map, bits * 1_024, 1, 10);
        let claimed = claim.claims(300, &pairs(last));
        if bits == 250 {
            undone(cases, &map, &claimed, 300, &pairs(last));
        }
    }
    cases.claim_in(&map, 250 * 1_024, 1, 9).gives(17);
    cases.claim_in(&map, 285 * 1_024 + 1, 1, 10).gives(15);
}

/// E+: the largest hole is in zone 257 of 258, and then the order goes on from zone 0.
/// In a byte zones 256 and 257 are 0 and 1.
fn zones_above_255(cases: &mut Cases) {
    let mut holes = [&[][..]; 258];
    for (zone, lengths) in [(0, &[30]), (1, &[40]), (256, &[50]), (257, &[60])] {
        holes[zone] = lengths;
    }
    let map = holed(&e_plus(258), &holes);
    let [zero, one, lower, upper] = [0, 1, 256, 257].map(|zone| at(zone, 0));
    let pairs = [upper, 60, zero, 30, one, 40, lower, 50];
    let claim = cases.claim_in(&map, 180 * 1_024, 1, 8);
    claim.claims(25_700, &pairs);
}

/// "After every run each cross check is the starting one exclusive-ored with what the
/// rule above gives its zone at each accepted call": two claims over three zones and
/// two, released last first, and then the other way round.
fn two_claims_undone(cases: &mut Cases) {
    let map = holed(&plain(5), &[&[70, 33], &[80], &[], &[90], &[34]]);
    let three_zones = [at(3, 0), 90, at(0, 0), 70, at(1, 0), 80];
    let two_zones = [at(4, 0), 34, at(0, 1), 33];
    let claim = cases.claim_in(&map, 240 * 1_024, 0, 6);
    let one = claim.claims(504, &three_zones);
    let two = cases.claim_in(&one, 67 * 1_024, 0, 4);
    let two = two.claims(672, &two_zones);
    let back = cases.release(&two, 672, 4).pairs(&two_zones);
    assert_eq!(back, one);
    assert_eq!(cases.release(&one, 504, 6).pairs(&three_zones), map);
    let other = cases.release(&two, 504, 6).pairs(&three_zones);
    assert_eq!(cross_changes(&map, &other), [1, 0, 0, 0, 1]);
    assert_eq!(cases.release(&other, 672, 4).pairs(&two_zones), map);
}

/// "the first is a release and the second, a place or a claim, gives the same pairs to
/// the same number": a file in six pieces, all there is room for once it is freed.
fn freed_and_claimed_again(cases: &mut Cases) {
    let holes = holed(&plain(5), &[&[30], &[40], &[80, 25], &[50], &[60]]);
    let pairs = [
        [at(2, 0), 80, at(2, 1), 25],
        [at(3, 0), 50, at(4, 0), 60],
        [at(0, 0), 30, at(1, 0), 40],
    ]
    .concat();
    let map = cases.place(&holes, 336, &pairs).done();
    let freed = cases.release(&map, 336, 12).pairs(&pairs);
    assert_eq!(freed, holes);
    let claim = cases.claim_in(&freed, 285 * 1_024, 4, 12);
    assert_eq!(claim.claims(336, &pairs), map);
}

/// "joins the freed bits with each other and with free neighbours": two of the file's
/// pieces touch, and one touches a hole. Three holes are left, and the file comes back
/// in three pieces.
fn freed_and_joined(cases: &mut Cases) {
    let zones = [
        vec![object(336, 30), object(336, 50), object(7, 1_456)],
        vec![object(2, 12), object(175, 1_904), object(336, 60), free(40)],
        vec![object(336, 20), object(343, 1_996)],
    ];
    let map = build(&plain(3), &zones);
    let (zone_1, zone_2) = (first(1) + 1_916, first(2));
    let pairs = [zone_2, 20, 0, 30, 30, 50, zone_1, 60];
    let freed = cases.release(&map, 336, 8).pairs(&pairs);
    let pairs = [zone_1, 100, 0, 60];
    let claim = cases.claim_in(&freed, 160 * 1_024, 2, 4);
    claim.claims(168, &pairs);
    let pairs = [zone_1, 100, zone_2, 20, 0, 80];
    let claim = cases.claim_in(&freed, 181 * 1_024, 2, 6);
    claim.claims(168, &pairs);
}
