//! Document 02, R-2, "The bench waits on sweeps": stretches that a quick sweep
//! of free space could get wrong. It may pass over zones and free fragments that
//! lie before the stretch, follow each zone's chain instead of reading every
//! fragment, and stop at the first free span past the stretch; the answers and
//! the bytes are document 01's.
//!
//! A map bit has 128 bytes here, and stretches are written as disc addresses,
//! the end not included.

use std::ops::Range;

use reference::case::{Call, Case};
use reference::generate::{build, repair_zone_checks};
use reference::geometry::DiscRecord;
use reference::map::{number, set_bit, set_number};

use crate::calls::{groups, Answer, Cases};
use crate::maps::*;

groups![
    starts_around_a_span,
    ends_around_a_span,
    at_the_disc_start,
    at_the_disc_end,
    at_the_end_of_a_zone,
    at_the_start_of_a_zone,
    free_on_both_sides_of_a_border,
    free_in_earlier_zones_only,
    free_in_later_zones_only,
    full_zones_between,
    a_whole_zone,
    free_fragments_that_touch,
    links_over_objects,
    ids_that_read_as_links,
    nothing_free_but_ids_that_read_as_links,
    empty_stretches,
    bytes_that_hold_the_fill,
    refused_past_the_stretch,
    refused_before_the_stretch,
];

/// The first disc address of a disc bit.
const fn at(disc_bit: u32) -> u64 {
    disc_bit as u64 * 128
}

fn sweep(cases: &mut Cases, map: &[u8], stretch: Range<u64>) -> Answer {
    let length = stretch.end - stretch.start;
    cases.sweep_free(map, stretch.start, length as usize)
}

/// Sweeps each of the stretches, and states its count.
#[track_caller]
fn counts<const N: usize>(cases: &mut Cases, map: &[u8], stretches: [(Range<u64>, u64); N]) {
    for (stretch, count) in stretches {
        sweep(cases, map, stretch).answers(&[count]);
    }
}

/// One zone with two free spans, (14,14) and (48,16).
fn two_spans() -> Vec<u8> {
    let zone = vec![
        object(2, 14),
        free(14),
        object(5, 20),
        free(16),
        object(6, 1_472),
    ];
    let map = build(&clusters_of_two(1), &[zone]);
    assert_eq!(spans_of(&map), [14, 14, 48, 16]);
    map
}

/// "within the stretch": it starts at the second span's first byte, one byte
/// before and after it, inside a map bit, at the last byte, and right after it.
/// The first span is passed over.
fn starts_around_a_span(cases: &mut Cases) {
    let span = at(48)..at(64);
    let stretches = [
        (span.start..span.start + 64, 64),
        (span.start - 1..span.start + 64, 64),
        (span.start + 1..span.start + 65, 64),
        (at(50) + 60..at(50) + 70, 10),
        (span.end - 1..span.end + 64, 1),
        (span.end..span.end + 64, 0),
    ];
    counts(cases, &two_spans(), stretches);
}

/// The stretch ends at the second span's first byte, one byte into it, at its
/// end and one byte past it. The first two start with the last bytes of the
/// span before.
fn ends_around_a_span(cases: &mut Cases) {
    let span = at(48)..at(64);
    let stretches = [
        (at(28) - 16..span.start, 16),
        (at(28) - 16..span.start + 1, 17),
        (span.end - 16..span.end, 16),
        (span.end - 16..span.end + 1, 16),
    ];
    counts(cases, &two_spans(), stretches);
}

/// Address 0, where the first fragment is free and where it is owned.
fn at_the_disc_start(cases: &mut Cases) {
    let zones = [
        vec![free(14), object(5, 1_522)],
        vec![object(2, 2_002), free(14)],
    ];
    let map = build(&clusters_of_two(2), &zones);
    counts(cases, &map, [(0..1, 1)]);
    counts(cases, &two_spans(), [(0..at(14) + 8, 8)]);
}

/// The disc's last byte, and no bytes at its end: the last free fragment ends
/// with the map, or with the disc and object 1 follows.
fn at_the_disc_end(cases: &mut Cases) {
    let zones = |last: Vec<_>| [vec![free(14), object(5, 1_522)], last];
    let record = clusters_of_two(2);
    let end = at(3_552);
    let map = build(&record, &zones(vec![object(2, 2_002), free(14)]));
    counts(cases, &map, [(end - 1..end, 1), (end..end, 0)]);
    sweep(cases, &map, end - 1..end + 1).gives(16);

    let record = disc_of(3_538, record);
    let end = at(3_538);
    let map = build(
        &record,
        &zones(vec![object(2, 1_988), free(14), object(1, 14)]),
    );
    counts(cases, &map, [(end - 40..end, 40)]);
}

/// Zone 1's last fragment is free and zone 2's first is not: the stretch ends at
/// the zone's end, goes on into the next zone, and starts with it.
fn at_the_end_of_a_zone(cases: &mut Cases) {
    let zones = [
        vec![object(5, 1_522), free(14)],
        vec![object(2, 14), free(14), object(5, 1_974), free(14)],
        vec![object(6, 14), free(2_002)],
    ];
    let map = build(&clusters_of_two(3), &zones);
    let border = at(first(2));
    let stretches = [
        (border - 16..border, 16),
        (border - 16..border + 1, 16),
        (border..border + 16, 0),
    ];
    counts(cases, &map, stretches);
}

/// Zone 2's first fragment is free and zone 1's last is not: the stretch ends
/// with the zone before and one byte into the zone, and starts one byte before
/// the zone's first bit.
fn at_the_start_of_a_zone(cases: &mut Cases) {
    let zones = [
        vec![object(5, 1_522), free(14)],
        vec![object(2, 14), free(14), object(5, 1_988)],
        vec![free(14), object(6, 1_988), free(14)],
    ];
    let map = build(&clusters_of_two(3), &zones);
    let border = at(first(2));
    let stretches = [
        (border - 16..border, 0),
        (border - 16..border + 1, 1),
        (border - 1..border + 16, 16),
    ];
    counts(cases, &map, stretches);
}

/// The last fragment of zone 1 and the first of zone 2 are free: each is on the
/// chain of its own zone.
fn free_on_both_sides_of_a_border(cases: &mut Cases) {
    let zones = [
        vec![object(5, 1_536)],
        vec![object(2, 2_002), free(14)],
        vec![free(14), object(6, 2_002)],
    ];
    let map = build(&clusters_of_two(3), &zones);
    let border = at(first(2));
    let stretches = [
        (border - 1..border + 16, 17),
        (border..border + 16, 16),
        (border - at(14) - 8..border + at(14) + 8, 3_584),
    ];
    counts(cases, &map, stretches);
}

/// Zones 0 and 1 have free fragments, the last in each; zone 2 has none.
fn free_in_earlier_zones_only(cases: &mut Cases) {
    let zones = [
        vec![object(5, 1_522), free(14)],
        vec![object(2, 2_002), free(14)],
        vec![object(6, 2_016)],
    ];
    let map = build(&clusters_of_two(3), &zones);
    let start = at(first(2));
    counts(cases, &map, [(start..start + 100, 0)]);
}

/// Only the last zone has a free fragment, its last. The stretch lies in zone 0,
/// where FreeLink is the top bit alone, and on that fragment.
fn free_in_later_zones_only(cases: &mut Cases) {
    let zones = [
        vec![object(5, 1_536)],
        vec![object(2, 2_016)],
        vec![object(6, 2_002), free(14)],
    ];
    let map = build(&clusters_of_two(3), &zones);
    assert_eq!(map[1..3], [0, 0x80]);
    let span = at(first(3) - 14);
    let stretches = [(at(14)..at(14) + 100, 0), (span - 8..span + 100, 100)];
    counts(cases, &map, stretches);
}

/// Zones 1 and 2 are full, zones 0 and 3 are not: the stretch goes from zone 0
/// into the full ones, lies in them, and goes from there to the second fragment
/// of zone 3.
fn full_zones_between(cases: &mut Cases) {
    let zones = [
        vec![object(5, 1_522), free(14)],
        vec![object(5, 2_016)],
        vec![object(2, 2_016)],
        vec![object(6, 14), free(14), object(6, 1_988)],
    ];
    let map = build(&clusters_of_two(4), &zones);
    let stretches = [
        (at(first(1)) - 16..at(first(1)) + 16, 16),
        (at(first(2)) - 16..at(first(2)) + 16, 0),
        (at(first(3)) - 16..at(first(3) + 14) + 24, 24),
    ];
    counts(cases, &map, stretches);
}

/// Zones of 494 bits, so that zone 0 has room for one fragment of 14 only: the
/// stretch has all of it, full or free, and the start of zone 1.
fn a_whole_zone(cases: &mut Cases) {
    let record = DiscRecord {
        zone_spare: 1_554,
        ..clusters_of_two(4)
    };
    let record = disc_of(4 * 494 - 480, record);
    let zones = |zone_0, zone_1| {
        [
            vec![zone_0],
            zone_1,
            vec![object(2, 480), free(14)],
            vec![free(494)],
        ]
    };
    let map = build(
        &record,
        &zones(object(5, 14), vec![free(14), object(5, 480)]),
    );
    counts(cases, &map, [(0..at(14) + 8, 8)]);
    let zone_1 = vec![object(5, 14), free(14), object(5, 466)];
    let map = build(&record, &zones(free(14), zone_1));
    counts(cases, &map, [(0..at(28) + 8, 1_800)]);
}

/// Two free fragments that touch, (28,14) and (42,16), as sweeps allow: the
/// stretch starts in the first, where they touch and in the second, and ends
/// there.
fn free_fragments_that_touch(cases: &mut Cases) {
    let zone = vec![
        object(2, 28),
        free(14),
        free(16),
        object(5, 14),
        free(14),
        object(6, 1_450),
    ];
    let map = build(&clusters_of_two(1), &[zone]);
    assert_eq!(spans_of(&map), [28, 14, 42, 16, 72, 14]);
    let stretches = [
        (at(42) - 30..at(42) + 50, 80),
        (at(42)..at(42) + 50, 50),
        (at(42) + 30..at(42) + 80, 50),
        (at(42) - 30..at(42), 30),
    ];
    counts(cases, &map, stretches);
}

/// "A free fragment's id counts from its own start to the next one": the zone's
/// first fragment links over three objects, and the next over many to the
/// zone's last.
fn links_over_objects(cases: &mut Cases) {
    let mut zone = vec![
        free(14),
        object(5, 14),
        object(6, 14),
        object(7, 14),
        free(14),
    ];
    zone.extend(vec![object(8, 14); 137]);
    zone.extend([object(9, 14), free(14)]);
    let zones = [vec![object(5, 1_536)], vec![object(2, 2_016)], zone];
    let map = build(&clusters_of_two(3), &zones);
    assert_eq!(number(&map[512..], 32, 12), 56);
    assert_eq!(number(&map[512..], 32 + 56, 12), 1_946);
    let (zone_2, end) = (first(2), first(3));
    let stretches = [
        (at(zone_2 + 14) - 8..at(zone_2 + 56) + 8, 16),
        (at(end - 14) - 8..at(end), 1_792),
    ];
    counts(cases, &map, stretches);
}

/// "Fragments on the chain are free; all others are owned by their id", though
/// it leads to a fragment's start: 28 from disc bit 0 to 28, from there 56 to
/// the free fragment at 84, and 14 and 28 on from the chain's end. The link of 70
/// is the number of an object too.
fn ids_that_read_as_links(cases: &mut Cases) {
    let zones = [
        vec![
            object(28, 14),
            free(14),
            object(56, 14),
            object(14, 14),
            object(14, 14),
            object(14, 14),
            free(14),
            object(14, 14),
            object(28, 14),
            object(70, 14),
            object(5, 1_396),
        ],
        vec![object(2, 2_016)],
    ];
    let map = build(&clusters_of_two(2), &zones);
    assert_eq!(spans_of(&map), [14, 14, 84, 14]);
    assert_eq!(number(&map, 512 + 14, 12), 70);
    let stretches = [
        (at(28) - 8..at(28) + 8, 8),
        (at(84) - 8..at(84) + 8, 8),
        (at(98) - 8..at(112) + 8, 8),
    ];
    counts(cases, &map, stretches);
}

/// The same where FreeLink is the top bit alone.
fn nothing_free_but_ids_that_read_as_links(cases: &mut Cases) {
    let zones = [
        vec![
            object(14, 14),
            object(28, 14),
            object(14, 14),
            object(14, 1_494),
        ],
        vec![object(2, 14), object(14, 14), object(14, 1_988)],
    ];
    let map = build(&clusters_of_two(2), &zones);
    assert_eq!(map[1..3], [0, 0x80]);
    let stretches = [
        (0..at(14) + 8, 0),
        (at(first(1) + 28) - 8..at(first(1) + 28) + 8, 0),
    ];
    counts(cases, &map, stretches);
}

/// "answers how many those are": no address at all, at a free span's first byte
/// and inside it.
fn empty_stretches(cases: &mut Cases) {
    let (start, inside) = (at(48), at(48) + 200);
    let stretches = [(start..start, 0), (inside..inside, 0)];
    counts(cases, &two_spans(), stretches);
}

/// Bytes that hold the fill already count.
fn bytes_that_hold_the_fill(cases: &mut Cases) {
    let mut case = Case::new(Call::SweepFree, &two_spans());
    case.wide = at(64) - 30;
    case.fill = 0x5A;
    case.image = vec![0x5A; 60];
    cases.add(case).answers(&[30]);
}

/// Three zones with two free spans each, (14,14) and (42,14) from the zone's
/// first bit.
fn two_spans_a_zone() -> Vec<u8> {
    let zone = |id, rest| {
        vec![
            object(id, 14),
            free(14),
            object(5, 14),
            free(14),
            object(6, rest),
        ]
    };
    let zones = [zone(7, 1_480), zone(2, 1_960), zone(7, 1_960)];
    build(&clusters_of_two(3), &zones)
}

/// "A refusal answers its number and zone, any other number 0, and writes
/// nothing", though the fault lies past the stretch: in the zone's next link, the
/// object after the chain's end, the zone's last bit, a later zone.
fn refused_past_the_stretch(cases: &mut Cases) {
    let stretch = at(28) - 8..at(28) + 8;
    let mut refused = |fault: fn(&mut [u8]), number, zone| {
        let mut map = two_spans_a_zone();
        fault(&mut map);
        repair_zone_checks(&mut map, 256);
        sweep(cases, &map, stretch.clone()).told(number, zone);
    };
    refused(|map| set_number(map, 512 + 42, 12, 15), 5, 0);
    refused(|map| set_number(map, 512 + 56, 12, 0), 7, 0);
    refused(|map| set_bit(map, 2_047, false), 6, 0);
    refused(|map| set_number(&mut map[512..], 32 + 42, 12, 15), 5, 2);
    // A zone check, with a stretch of no bytes.
    let mut map = two_spans_a_zone();
    map[512] ^= 1;
    sweep(cases, &map, at(28)..at(28)).told(3, 2);
}

/// The same before the stretch, which lies in zone 2: a link in zone 1, the length
/// of an object in zone 0.
fn refused_before_the_stretch(cases: &mut Cases) {
    let start = at(first(2) + 42);
    let mut refused = |fault: fn(&mut [u8]), number, zone| {
        let mut map = two_spans_a_zone();
        fault(&mut map);
        repair_zone_checks(&mut map, 256);
        sweep(cases, &map, start..start + 16).told(number, zone);
    };
    refused(|map| set_number(&mut map[256..], 32 + 14, 12, 29), 5, 1);
    refused(|map| set_bit(map, 512 + 56 + 14, true), 6, 0);
    // The chain ends early, so the fragment under the stretch is owned by 0.
    refused(|map| set_number(&mut map[512..], 32 + 14, 12, 0), 7, 2);
}
