//! Document 02, R-4, "More zones": "Raise nzones from 127 to 255; the rule on
//! P*nzones stays and so do all demands." What is asked of zones 127, 128 and
//! 254 is document 01's; a zone, a number of zones or a start zone that is kept
//! in seven bits, in a byte with a sign or in a table of 127 would show.
//!
//! Maps have 255 zones of 256-byte sectors, the most there can be, or where that
//! shows as much 130, which are half as long. In both P is 126. The object of
//! every one of 255 zones is in `release` and `place`.

use reference::generate::{build, repair_zone_checks};
use reference::geometry::DiscRecord;
use reference::map::{set_bit, set_number};

use crate::calls::{groups, Cases};
use crate::maps::*;

groups![
    ids_at_most,
    accepted,
    faults_of_high_zones,
    object_2_in_zone_127,
    lengths,
    object_order,
    ids,
    addresses,
    free_spans,
    three_zones_edited,
    two_zones_edited,
    release_then_place,
    refused_lists,
    claims,
    claim_of_a_high_id,
    sweeps_over_a_border,
    sweep_to_the_disc_end,
    largest_sectors,
];

/// The id of the object that fills a zone in `full_zones`.
fn own(zone: usize) -> u32 {
    126 * zone as u32 + 7
}

/// An object whose start zone is 200: 25,300 div 126.
const WRAPPING: u32 = 25_300;

/// 255 zones: `WRAPPING` has pieces in zones 0, 127, 128, 199, 200 (two) and
/// 254, of 222 map bits in all, and zones 127, 128 and 254 have a hole of 60, 72
/// and 100 bits. No other bit is free.
fn wrapping() -> Vec<u8> {
    let piece = |length| object(WRAPPING, length);
    let mut zones = full_zones(&many_zones(255));
    zones[0] = vec![object(own(0), 1_500), piece(36)];
    zones[127] = vec![object(2, 16), piece(24), free(60), object(own(127), 1_916)];
    zones[128] = vec![object(own(128), 1_916), piece(28), free(72)];
    zones[199] = vec![object(own(199), 1_984), piece(32)];
    zones[200] = vec![piece(18), object(own(200), 1_958), piece(40)];
    zones[254] = vec![object(own(254), 1_872), piece(44), free(100)];
    build(&many_zones(255), &zones)
}

/// The pieces of `WRAPPING` in object order: zones 200 to 254, then from 0.
fn of_wrapping() -> [u32; 14] {
    let [zone_200, zone_254, zone_0] = [first(200), first(254) + 1_872, 1_500];
    let [zone_127, zone_128, zone_199] = [first(127) + 16, first(128) + 1_916, first(199) + 1_984];
    [
        zone_200,
        18,
        zone_200 + 1_976,
        40,
        zone_254,
        44,
        zone_0,
        36,
        zone_127,
        24,
        zone_128,
        28,
        zone_199,
        32,
    ]
}

/// 130 zones: holes of 50 bits at the end of zone 0, 70 at the end of zone 127,
/// 100 at the start and 30 at the end of zone 128, 40 at the start of zone 129.
fn half_as_long() -> Vec<u8> {
    let mut zones = full_zones(&many_zones(130));
    zones[0] = vec![object(own(0), 1_486), free(50)];
    zones[127] = vec![object(own(127), 1_946), free(70)];
    zones[128] = vec![free(100), object(own(128), 1_886), free(30)];
    zones[129] = vec![free(40), object(own(129), 1_976)];
    build(&many_zones(130), &zones)
}

/// A map after a change to one zone's block, with the zone checks made right
/// again.
fn changed(mut map: Vec<u8>, zone: usize, change: fn(&mut [u8])) -> Vec<u8> {
    change(&mut map[256 * zone..256 * (zone + 1)]);
    repair_zone_checks(&mut map, 256);
    map
}

/// The cross checks of zones 127, 128 and 254.
fn high_crosses(map: &[u8]) -> [u8; 3] {
    [127, 128, 254].map(|zone| map[256 * zone + 3])
}

/// "the rule on P*nzones stays": at most 2^idlen, for sectors of 512 bytes with
/// P 254, and for those of 256 with idlen 14 and P 134. 64 bytes are too few for
/// every record that is inside its ranges: 1.
fn ids_at_most(cases: &mut Cases) {
    let sectors_of_512 = |nzones| DiscRecord {
        log2secsize: 9,
        nzones,
        ..many_zones(1)
    };
    let idlen_14 = |nzones| DiscRecord {
        idlen: 14,
        ..many_zones(nzones)
    };
    for (record, number) in [
        (sectors_of_512(129), 1),
        (sectors_of_512(130), 2),
        (sectors_of_512(255), 2),
        (idlen_14(122), 1),
        (idlen_14(255), 2),
        (many_zones(255), 1),
        (
            DiscRecord {
                nzones: 0,
                ..many_zones(255)
            },
            2,
        ),
    ] {
        let mut map = vec![0; 64];
        record.write(&mut map);
        cases.check(&map).gives(number);
    }
}

/// "nzones 1 to 127", now to 255.
fn accepted(cases: &mut Cases) {
    cases.check(&wrapping()).done();
}

/// "that zone", for 3, 5, 6 and 7, above 127; "cross checks don't give 255" for
/// one of zone 200, told with zone 0.
fn faults_of_high_zones(cases: &mut Cases) {
    let mut map = wrapping();
    map[256 * 254] ^= 0x10;
    cases.check(&map).told(3, 254);
    let map = changed(wrapping(), 200, |block| block[3] ^= 0x80);
    cases.check(&map).told(4, 0);
    let map = changed(half_as_long(), 128, |block| block[2] &= 0x7F);
    cases.check(&map).told(5, 128);
    let map = changed(half_as_long(), 128, |block| set_bit(block, 2_047, false));
    cases.check(&map).told(6, 128);
    // 130 zones have 16,380 ids.
    let map = changed(half_as_long(), 128, |block| {
        set_number(block, 32 + 100, 15, 16_380)
    });
    cases.check(&map).told(7, 128);
}

/// "The first fragment of zone (nzones div 2) is owned by 2": that is 127, and
/// neither 63, as of 127 zones, nor 128.
fn object_2_in_zone_127(cases: &mut Cases) {
    let mut map = wrapping();
    for (zone, id) in [(63, 2), (127, 3), (128, 2)] {
        set_number(&mut map[256 * zone..], 32, 15, id);
    }
    repair_zone_checks(&mut map, 256);
    cases.check(&map).told(7, 127);
}

/// "not nzones*S": a block too few, a byte too many, and a record of 127 zones,
/// which is 255 in seven bits. So is 129 one zone.
fn lengths(cases: &mut Cases) {
    cases.check(&wrapping()[..254 * 256]).gives(1);
    let mut longer = half_as_long();
    longer.push(0);
    cases.check(&longer).gives(1);
    let mut map = wrapping();
    many_zones(127).write(&mut map);
    repair_zone_checks(&mut map, 256);
    cases.check(&map).gives(1);
    let mut map = build(&many_zones(1), &[vec![object(2, 16), free(1_520)]]);
    map[4 + 9] = 129;
    repair_zone_checks(&mut map, 256);
    cases.check(&map).gives(1);
}

/// "the start zone is id div P ...; take all its fragments in ascending order,
/// then later zones, then from zone 0": from zone 200 on, which is 72 in seven
/// bits.
fn object_order(cases: &mut Cases) {
    let pairs = of_wrapping();
    cases.list(&wrapping(), WRAPPING, 14).pairs(&pairs);
}

/// "id argument outside 1 ... to P*nzones-1": 32,129 is the last id. It is in
/// `three_zones_edited`.
fn ids(cases: &mut Cases) {
    cases.list(&wrapping(), 32_130, 2).gives(8);
}

/// "The object's bytes are its pieces joined in order": with 254 sectors as start
/// offset, the last byte of all, which is in zone 199, and the one after it.
fn addresses(cases: &mut Cases) {
    let map = wrapping();
    let n = WRAPPING << 8 | 0xFF;
    let last = first(200) as u64 * 1_024 - 1;
    let position = 222 * 1_024 - 254 * 256;
    cases.address(&map, n, position - 1).answers(&[last, 1]);
    cases.address(&map, n, position).gives(16);
}

/// "Free spans ascend, one pair for each free fragment": room for just these.
fn free_spans(cases: &mut Cases) {
    let spans = [
        1_486,
        50,
        first(127) + 1_946,
        70,
        first(128),
        100,
        first(128) + 1_986,
        30,
        first(129),
        40,
    ];
    cases.free(&half_as_long(), 10).pairs(&spans);
}

/// "when odd, the first three with 1, 2, 3": zones 127, 128 and 254 in ascending
/// order. The last id starts in zone 254, so its pieces there come first. Its
/// release gives every byte back.
fn three_zones_edited(cases: &mut Cases) {
    let map = wrapping();
    let [in_127, in_128] = [first(127) + 60, first(128) + 2_000];
    let list = [first(254) + 1_916, 100, in_127, 20, in_128, 16];
    let placed = cases.place(&map, 32_129, &list).done();
    assert_eq!(high_crosses(&map), [0, 0, 0]);
    assert_eq!(high_crosses(&placed), [1, 2, 3]);
    cases.list(&placed, 32_129, 6).pairs(&list);
    assert_eq!(cases.release(&placed, 32_129, 6).pairs(&list), map);
}

/// "exclusive-ors each with 1 when their number is even": zones 128 and 254, for
/// an id that starts in zone 128.
fn two_zones_edited(cases: &mut Cases) {
    let list = [first(128) + 1_944, 72, first(254) + 1_932, 84];
    let placed = cases.place(&wrapping(), 128 * 126, &list).done();
    assert_eq!(high_crosses(&placed), [0, 1, 1]);
    let spans = [first(127) + 40, 60, first(254) + 1_916, 16];
    assert_eq!(spans_of(&placed), spans);
}

/// "the first is a release and the second, a place ..., gives the same pairs to
/// the same number": six zones, from zone 200 on, and every byte comes back.
fn release_then_place(cases: &mut Cases) {
    let map = wrapping();
    let pairs = of_wrapping();
    let released = cases.release(&map, WRAPPING, 14).pairs(&pairs);
    assert_eq!(high_crosses(&released), [1, 1, 1]);
    assert_eq!(cases.place(&released, WRAPPING, &pairs).done(), map);
}

/// "out of object order": zone 127 before 128, where the id starts in 128, which
/// is 0 in seven bits. "a piece across zones": from zone 128 into 129, both free
/// there. "off the disc map": a bit past zone 254.
fn refused_lists(cases: &mut Cases) {
    let map = half_as_long();
    let list = [first(128) - 16, 16, first(128), 16];
    cases.place(&map, 128 * 126, &list).gives(12);
    cases.place(&map, 3, &[first(129) - 20, 40]).gives(12);
    let map = wrapping();
    cases.place(&map, 3, &[first(255) - 15, 16]).gives(12);
}

/// "The first hole of length at least need": the only one is in zone 128, or in zone
/// 254, whose first ids are given. "When no hole is long enough", those of
/// zones 128 and 127 are; all together have 290 bits.
fn claims(cases: &mut Cases) {
    let map = half_as_long();
    let id = 128 * 126;
    let pair = [first(128), 84];
    cases.claim(&map, 84 * 1_024, 0).claims(id, &pair);
    let pairs = [first(128), 100, first(127) + 1_946, 16];
    cases
        .claim_in(&map, 100 * 1_024 + 1, 0, 4)
        .claims(id, &pairs);
    cases.claim(&map, 290 * 1_024 + 1, 0).gives(15);
    let size = 84 * 1_024 + 1;
    let pair = [first(254) + 1_916, 100];
    cases.claim(&wrapping(), size, 0).claims(254 * 126, &pair);
}

/// "The id is the lowest unused one from 3 whose start zone is the chosen zone":
/// 3 to 16,130 are used, each by a shortest fragment, from zone 0 up to the 31st in
/// zone 128; there the next id starts too.
fn claim_of_a_high_id(cases: &mut Cases) {
    let mut ids = 3..=16_130;
    let mut zones = full_zones(&many_zones(130));
    for (zone, parts) in zones.iter_mut().enumerate().take(129) {
        let fragments = if zone == 0 { 96 } else { 126 };
        parts.truncate(usize::from(zone == 65));
        let here = ids.by_ref().take(fragments - parts.len());
        parts.extend(here.map(|id| object(id, 16)));
    }
    zones[128].push(free(2_016 - 31 * 16));
    let map = build(&many_zones(130), &zones);
    let start = first(128) + 31 * 16;
    cases.claim(&map, 1, 0).claims(16_131, &[start, 16]);
}

/// The record with 128 bytes a map bit, and so a k of 2, and a disc that ends
/// after so many map bits.
fn short_map_bits(nzones: u16, map_bits: u32) -> DiscRecord {
    let record = DiscRecord {
        log2bpmb: 7,
        ..many_zones(nzones)
    };
    disc_of(map_bits, record)
}

/// "each address of that class within the stretch": from inside a piece in zone
/// 127 over the border into one in zone 128, with free bits between.
fn sweeps_over_a_border(cases: &mut Cases) {
    let id = 128 * 126 + 1;
    let mut zones = full_zones(&many_zones(130));
    zones[127] = vec![object(own(127), 1_960), object(id, 20), free(36)];
    zones[128] = vec![free(16), object(id, 24), object(own(128), 1_976)];
    let map = build(&short_map_bits(130, first(130)), &zones);
    let border = first(128) as u64 * 128;
    let (start, end) = (border - 40 * 128 + 100, border + 18 * 128 + 1);
    let length = (end - start) as usize;
    let count = (4 * 128 - 100) + (2 * 128 + 1);
    cases
        .sweep_object(&map, id, start, length)
        .answers(&[count]);
    let count = (36 + 16) * 128;
    cases.sweep_free(&map, start, length).answers(&[count]);
}

/// "each address of that class within the stretch", up to the disc's end, which
/// is 30 map bits before the end of zone 254.
fn sweep_to_the_disc_end(cases: &mut Cases) {
    let mut zones = full_zones(&many_zones(255));
    zones[254] = vec![
        object(own(254), 1_900),
        object(WRAPPING, 56),
        free(30),
        object(1, 30),
    ];
    let disc_end = first(255) - 30;
    let map = build(&short_map_bits(255, disc_end), &zones);
    let start = (disc_end as u64 - 34) * 128;
    cases.sweep_free(&map, start, 34 * 128).answers(&[30 * 128]);
}

/// "Raise nzones from 127 to 255" is said of no sector size: the largest map
/// there is, 255 zones of 1,024 bytes. Z is 2048 and P 128, so that P*nzones is
/// 32,640. The bits past each zone's end, all ones, are left alone.
fn largest_sectors(cases: &mut Cases) {
    let record = DiscRecord {
        log2secsize: 10,
        zone_spare: 8_192 - 2_048,
        ..many_zones(255)
    };
    let first = |zone: u32| 2_048 * zone - 480;
    let full = |zone: u32| vec![object(128 * zone + 7, 2_048)];
    let mut zones: Vec<_> = (0..255).map(full).collect();
    zones[0] = vec![object(7, 1_568)];
    zones[127] = vec![object(2, 16), free(2_032)];
    zones[128] = vec![free(2_048)];
    zones[254] = vec![object(254 * 128 + 7, 2_000), free(48)];
    let map = with_ones_outside(build(&disc_of(first(255), record), &zones));
    let list = [first(128), 20, first(254) + 2_000, 48, first(128) - 16, 16];
    let placed = cases.place(&map, 128 * 128, &list).done();
    let crosses = [127, 128, 254].map(|zone| placed[1_024 * zone + 3]);
    assert_eq!(crosses, [1, 2, 3]);
}
