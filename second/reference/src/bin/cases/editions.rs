//! Document 02, R-12, "E+ discs": "Take version 1 as E+ and 0 as what we have;
//! others are refused with 2." R-12 counts the bytes of the record, from block byte
//! 4 on: the high half of the size is in block bytes 40 to 43, the high byte of
//! nzones is 46, and the version is in 48 to 51.
//!
//! "all fragment and chain rules stay", so that what is asked of fragments, chains
//! and calls is document 01's, with ids of up to 19 bits and zones above 255. Maps
//! have one zone where that shows as much, and zone checks are right where nothing
//! else is said.

use reference::case::Case;
use reference::generate::{as_e_plus, build, map_a, map_b, repair_zone_checks, with_bytes};
use reference::geometry::{DiscRecord, RESERVED};
use reference::map::{set_bit, set_number, Owner};

use crate::calls::{groups, Cases};
use crate::maps::*;
use crate::record::head;

groups![
    versions,
    version_0_beside_other_bytes,
    size_high,
    size_high_of_other_sectors,
    carried_bytes,
    carried_bytes_stay,
    idlens_of_version_0,
    idlens_of_e_plus,
    shortest_idlens,
    nzones,
    nzones_high_in_version_0,
    nzones_high_on_one_zone,
    ids_at_most,
    ids_at_most_2_to_the_idlen,
    disc_size_bound_above_32_bits,
    disc_size_bound_below_32_bits,
    each_rule_broken_alone,
    order_of_2,
    every_call_with_another_version,
    every_call_on_e_plus,
    address_is_8,
    address_of_a_refused_map,
    shortest_fragments,
    clusters,
    under_20_bits_left,
    every_place_in_a_byte,
    ids_of_19_bits,
    highest_bit_of_an_id,
    id_arguments,
    links_of_19_bits,
    highest_bit_of_a_link,
    free_link_of_15_bits,
    two_zones_edited,
    zones_256,
    zones_257,
    faults_of_zone_256,
    ids_above_16_bits,
    zones_1000,
];

/// One zone with idlen 19: object 2, a hole, object 5, a hole, object 6. They start
/// at block bits 512, 532, 632, 653 and 703.
fn one_zone() -> Vec<u8> {
    let zone = vec![
        object(2, 20),
        free(100),
        object(5, 21),
        free(50),
        object(6, 1_345),
    ];
    build(&e_plus(1), &[zone])
}

/// The map of 256-byte sectors with another id or link, 19 bits from a block bit of
/// a zone on.
fn with_number(map: &[u8], zone: usize, block_bit: usize, value: usize) -> Vec<u8> {
    let mut map = map.to_vec();
    set_number(&mut map[256 * zone..], block_bit, 19, value);
    repair_zone_checks(&mut map, 256);
    map
}

/// The bytes that E+ carries and version 0 reserves: block bytes 36 to 39, 44, 45,
/// 47 and 52 to 63.
fn carried() -> impl Iterator<Item = usize> {
    (36..40).chain([44, 45, 47]).chain(52..64)
}

/// The map of an E+ disc with another value in each of them, none of them 0.
fn with_rubbish(map: &[u8]) -> Vec<u8> {
    let mut rubbish = map[RESERVED].to_vec();
    for (at, value) in carried().zip(0xE5..) {
        rubbish[at - RESERVED.start] = value;
    }
    with_bytes(map, RESERVED.start, &rubbish)
}

/// "Take version 1 as E+ and 0 as what we have; others are refused with 2", and "a
/// format version of 4 bytes": each of them counts, the lowest first.
fn versions(cases: &mut Cases) {
    for version in [
        2u32,
        0x0100,
        0x0101,
        0x8001,
        0x1_0000,
        0x1_0001,
        0x0100_0000,
        0x0100_0001,
        0x8000_0000,
        u32::MAX,
    ] {
        let map = with_bytes(&map_a(), 48, &version.to_le_bytes());
        cases.check(&map).gives(2);
    }
    cases.check(&as_e_plus(&map_a())).done();
}

/// "R-7's zero rule then holds for version 0 only": a 1 four bytes before or after
/// the version's place, or right beside it, is none.
fn version_0_beside_other_bytes(cases: &mut Cases) {
    for at in [44, 47, 52] {
        cases.check(&with_bytes(&map_b(), at, &[1])).gives(2);
    }
}

/// "record bytes 36 to 39, the high half of the size, must be 0 (else 2)": each
/// alone, all, and bytes that add up to 0.
fn size_high(cases: &mut Cases) {
    let map = as_e_plus(&map_a());
    for (at, byte) in [(40, 0x01), (41, 0x80), (42, 0x10), (43, 0xFF)] {
        cases.check(&with_bytes(&map, at, &[byte])).gives(2);
    }
    for bytes in [[0xFF; 4], [0x80, 0, 0, 0x80], [0, 0x01, 0xFF, 0]] {
        cases.check(&with_bytes(&map, 40, &bytes)).gives(2);
    }
}

/// The same for sectors of 512 and 1,024 bytes, in the first and the last byte.
fn size_high_of_other_sectors(cases: &mut Cases) {
    for (record, rest) in [(clusters_of_four(1), 3_568), (clusters_of_eight(1), 7_664)] {
        let map = as_e_plus(&build(&record, &[vec![object(2, 16), free(rest)]]));
        for at in [40, 43] {
            cases.check(&with_bytes(&map, at, &[0x02])).gives(2);
        }
        cases.check(&with_rubbish(&map)).done();
    }
}

/// "R-7's zero rule then holds for version 0 only": bytes alone that E+ does not
/// name, beside those it does and at both ends, and all.
fn carried_bytes(cases: &mut Cases) {
    let map = as_e_plus(&map_a());
    let values = [0x01, 0x80, 0xFF, 0x10, 0x08];
    for (at, byte) in [36, 39, 44, 45, 47, 52, 63]
        .into_iter()
        .zip(values.into_iter().cycle())
    {
        cases.check(&with_bytes(&map, at, &[byte])).done();
    }
    cases.check(&with_rubbish(&map)).done();
    cases.check(&with_rubbish(&one_zone())).done();
}

/// "nothing outside check byte, FreeLink, cross check and allocation bits": a
/// release, the place that undoes it, and a claim leave all 60 bytes.
fn carried_bytes_stay(cases: &mut Cases) {
    let map = with_rubbish(&one_zone());
    let released = cases.release(&map, 5, 2).pairs(&[120, 21]);
    assert_eq!(released[4..64], map[4..64]);
    assert_eq!(cases.place(&released, 5, &[120, 21]).done(), map);
    let claimed = cases.claim(&map, 1, 0).claims(3, &[20, 20]);
    assert_eq!(claimed[4..64], map[4..64]);
    assert_eq!(cases.release(&claimed, 3, 2).pairs(&[20, 20]), map);
}

/// "idlen up to 19 (version 1 only)": up to 15 in version 0, where nothing else is
/// wrong with the map.
fn idlens_of_version_0(cases: &mut Cases) {
    for idlen in [16, 18, 19] {
        let record = DiscRecord {
            idlen,
            version: 0,
            ..e_plus(1)
        };
        head(cases, record, 2);
    }
    cases.check(&with_bytes(&one_zone(), 48, &[0])).gives(2);
}

/// "idlen up to 19 (version 1 only)": 15 to 19 on whole maps of each sector size,
/// and 20. 51 is 19 for a shift that counts modulo 32.
fn idlens_of_e_plus(cases: &mut Cases) {
    for idlen in 15..=19 {
        let record = DiscRecord { idlen, ..e_plus(1) };
        let m = idlen as usize + 1;
        let map = build(&record, &[vec![object(2, m), free(1_536 - m)]]);
        cases.check(&map).done();
    }
    for (log2secsize, idlen, number) in [
        (8, 20, 2),
        (9, 19, 1),
        (9, 20, 2),
        (10, 19, 1),
        (10, 20, 2),
        (8, 51, 2),
        (8, 255, 2),
    ] {
        let record = DiscRecord {
            log2secsize,
            idlen,
            ..e_plus(1)
        };
        head(cases, record, number);
    }
}

/// "idlen from log2secsize+3", as before: one less and just that, for each sector
/// size.
fn shortest_idlens(cases: &mut Cases) {
    for log2secsize in [8, 9, 10] {
        for (idlen, number) in [(log2secsize + 2, 2), (log2secsize + 3, 1)] {
            let record = DiscRecord {
                log2secsize,
                idlen,
                ..e_plus(1)
            };
            head(cases, record, number);
        }
    }
}

/// So many of the shortest zones there can be with idlen 19: Z 500, P 25. The disc
/// ends in zone 0.
fn short_zones(nzones: u16) -> DiscRecord {
    DiscRecord {
        zone_spare: 2_048 - 500,
        nzones,
        disc_size: 1_024,
        ..e_plus(1)
    }
}

/// "For E+ nzones may be 1 to 65,535": of 256 the low byte is 0. 65,535, and 32,768,
/// break the rule on P*nzones, whatever Z is.
fn nzones(cases: &mut Cases) {
    for (nzones, number) in [
        (0, 2),
        (1, 1),
        (255, 1),
        (256, 1),
        (257, 1),
        (20_736, 1),
        (32_768, 2),
        (65_535, 2),
    ] {
        head(cases, short_zones(nzones), number);
    }
}

/// "Take ... 0 as what we have": the high byte of nzones is a byte that R-7 judges.
/// So it is where the low one is 0, and where there would be room for so many zones:
/// 31 ids in each. With 1 it is in `reserved`.
fn nzones_high_in_version_0(cases: &mut Cases) {
    for byte in [0x02, 0x80, 0xFF] {
        cases.check(&with_bytes(&map_a(), 46, &[byte])).gives(2);
    }
    let mut no_low_byte = with_bytes(&map_a(), 46, &[0x01]);
    no_low_byte[13] = 0;
    repair_zone_checks(&mut no_low_byte, 256);
    cases.check(&no_low_byte).gives(2);
    for (low, high, number) in [(1, 0, 1), (1, 1, 2), (0, 1, 2), (1, 4, 2)] {
        let record = DiscRecord {
            idlen: 15,
            zone_spare: 2_048 - 496,
            version: 0,
            ..short_zones(low)
        };
        let mut map = vec![0; 64];
        record.write(&mut map);
        map[46] = high;
        cases.check(&map).gives(number);
    }
}

/// "not nzones*S": the blocks are those of the low byte alone. One zone of 257 and
/// of 513; none of 256, whose low byte is 0; two zones of 258.
fn nzones_high_on_one_zone(cases: &mut Cases) {
    let map = one_zone();
    for high in [0x01, 0x02] {
        cases.check(&with_bytes(&map, 46, &[high])).gives(1);
    }
    let mut of_256 = with_bytes(&map, 46, &[0x01]);
    of_256[13] = 0;
    repair_zone_checks(&mut of_256, 256);
    cases.check(&of_256).gives(1);
    of_256[46] = 0;
    repair_zone_checks(&mut of_256, 256);
    cases.check(&of_256).gives(2);
    let zones = [vec![free(1_536)], vec![object(2, 20), free(1_996)]];
    let map = build(&e_plus(2), &zones);
    cases.check(&map).done();
    cases.check(&with_bytes(&map, 46, &[0x01])).gives(1);
}

/// "under the same P*nzones rule": 2^19 are 524,288. There is room for 20,971 zones
/// of 25 ids, and for 5,242 of 100; 5,243 of them have 12 modulo 2^16.
fn ids_at_most(cases: &mut Cases) {
    head(cases, short_zones(20_971), 1);
    head(cases, short_zones(20_972), 2);
    for (nzones, number) in [(5_242, 1), (5_243, 2), (42_950, 2)] {
        let record = DiscRecord {
            nzones,
            disc_size: 1_024,
            ..e_plus(1)
        };
        head(cases, record, number);
    }
    // The same numbers of zones on whole blocks, of which there are too few.
    for (nzones, number) in [(20_971u16, 1), (20_972, 2)] {
        let mut map = vec![0; 512];
        short_zones(nzones).write(&mut map);
        repair_zone_checks(&mut map, 256);
        cases.check(&map).gives(number);
    }
}

/// "P*nzones at most 2^idlen": just as many, and one zone more, for each idlen above
/// 15. P is a power of two.
fn ids_at_most_2_to_the_idlen(cases: &mut Cases) {
    for (idlen, ids_per_zone) in [(16, 64), (17, 64), (18, 64), (19, 32)] {
        let nzones = ((1u32 << idlen) / ids_per_zone) as u16;
        for (nzones, number) in [(nzones, 1), (nzones + 1, 2)] {
            let record = DiscRecord {
                idlen,
                nzones,
                zone_spare: 2_048 - (idlen as u16 + 1) * ids_per_zone as u16,
                ..short_zones(1)
            };
            head(cases, record, number);
        }
    }
}

/// "at most (nzones*Z - 480)*B", which may be above 2^32: the largest there is is
/// 44,578,689,024; and 521 zones of 2016 bits come to 2^32 and 1,280 map bits more.
fn disc_size_bound_above_32_bits(cases: &mut Cases) {
    let largest = DiscRecord {
        log2bpmb: 12,
        zone_spare: 2_048 - 519,
        ..short_zones(20_971)
    };
    let just_above = DiscRecord {
        zone_spare: 32,
        nzones: 521,
        ..largest
    };
    // "the high half of the size, must be 0", though there would be room.
    let record = DiscRecord {
        size_high: 1,
        ..largest
    };
    head(cases, record, 2);
    for record in [largest, just_above] {
        for (disc_size, number) in [(1 << 31, 1), (u32::MAX - 255, 1), (u32::MAX, 2)] {
            let record = DiscRecord {
                disc_size,
                ..record
            };
            head(cases, record, number);
        }
    }
}

/// The same where it is 4,127,784,960, in 1,000 zones, and 4,291,952,640, in 520.
fn disc_size_bound_below_32_bits(cases: &mut Cases) {
    for (log2bpmb, nzones) in [(11, 1_000), (12, 520)] {
        let record = DiscRecord {
            log2bpmb,
            ..e_plus(nzones)
        };
        let whole = disc_of(first(nzones as u32), record);
        head(cases, whole, 1);
        let disc_size = whole.disc_size + 256;
        head(cases, DiscRecord { disc_size, ..whole }, 2);
    }
}

/// "record outside its ranges": the other ranges are those of version 0.
#[rustfmt::skip]
fn each_rule_broken_alone(cases: &mut Cases) {
    let small = DiscRecord { disc_size: 256, ..e_plus(1) };
    head(cases, DiscRecord { log2secsize: 7, ..small }, 2);
    head(cases, DiscRecord { log2secsize: 11, disc_size: 2_048, ..small }, 2);
    head(cases, DiscRecord { log2bpmb: 13, ..small }, 2);
    head(cases, DiscRecord { zone_spare: 31, ..small }, 2);
    head(cases, DiscRecord { zone_spare: 33, log2bpmb: 7, ..small }, 2);
    head(cases, DiscRecord { zone_spare: 2_048 - 499, ..small }, 2);
    head(cases, DiscRecord { zone_spare: 2_048 - 500, ..small }, 1);
    head(cases, DiscRecord { disc_size: 0, ..small }, 2);
    head(cases, DiscRecord { disc_size: 128, ..small }, 2);
    head(cases, DiscRecord { disc_size: 1_536 * 1_024 + 256, ..small }, 2);
}

/// "Order: 1 (under 64), 2, 1, 3": another version, or a size above 32 bits, on a
/// map of another length and on one with a wrong zone check.
fn order_of_2(cases: &mut Cases) {
    for (at, byte) in [(48, 2), (43, 1)] {
        let map = with_bytes(&one_zone(), at, &[byte]);
        cases.check(&map[..63]).gives(1);
        cases.check(&map[..255]).gives(2);
        cases.check(&[&map[..], &[0]].concat()).gives(2);
        let mut wrong_check = map.clone();
        wrong_check[0] ^= 1;
        cases.check(&wrong_check).gives(2);
    }
}

/// Every call but address on a map that differs from B in the record at most, with
/// arguments that do on B.
fn calls_on_b(map: &[u8]) -> Vec<Case> {
    let mut cases = Cases(Vec::new());
    cases.check(map);
    cases.list(map, 5, 4);
    cases.free(map, 4);
    cases.sweep_object(map, 5, 12_280, 20);
    cases.sweep_free(map, 32_760, 20);
    cases.release(map, 5, 4);
    cases.place(map, 7, &[32, 12]);
    cases.claim(map, 1, 0);
    cases.0
}

/// "others are refused with 2", by every call.
fn every_call_with_another_version(cases: &mut Cases) {
    let map = with_bytes(&as_e_plus(&map_b()), 49, &[1]);
    for case in calls_on_b(&map) {
        cases.add(case).gives(2);
    }
    cases.address(&map, 0x000503, 0).gives(2);
    cases.claim_in(&map, 0, 0, 0).gives(2);
    cases.address(&map, u32::MAX, u64::MAX).gives(2);
}

/// "Demands 2 and 3 then hold for both editions": what each call answers on B it
/// answers on B as an E+ disc, and the bytes it writes are the same but for the
/// zone check.
fn every_call_on_e_plus(cases: &mut Cases) {
    let map = with_rubbish(&as_e_plus(&map_b()));
    for (on_b, case) in calls_on_b(&map_b()).into_iter().zip(calls_on_b(&map)) {
        let (expected, outcome) = (on_b.run(), case.run());
        assert_eq!(outcome.values, expected.values);
        assert_eq!(outcome.list, expected.list);
        assert_eq!(outcome.image, expected.image);
        assert_eq!(outcome.map[1..4], expected.map[1..4]);
        assert_eq!(outcome.map[64..], expected.map[64..]);
        cases.add(case).done();
    }
}

/// "Address refuses E+ with 8": what is answered on B, or refused with 10 or 16, and
/// what is 8 anyway. With idlen 19 too.
fn address_is_8(cases: &mut Cases) {
    let map = as_e_plus(&map_b());
    for (n, position) in [
        (0x000503, 0),
        (0x000500, 19_967),
        (0x000503, 19_968),
        (0x000700, 0),
        (0x00A800, 0),
        (0, 0),
        (1 << 24, 0),
        (1 << 24 | 0x000503, 0),
        (u32::MAX, u64::MAX),
    ] {
        cases.address(&map, n, position).gives(8);
    }
    cases.address(&with_rubbish(&map), 0x000503, 0).gives(8);
    let map = one_zone();
    cases.address(&map, 0x000500, 0).gives(8);
    cases.address(&map, 0x000600, 1_345 * 1_024).gives(8);
}

/// "Order: 1 (under 64), 2, 1, 3 over all zones, 4; then zone by zone 6, 5, 7; then
/// the rest in table order": 8 comes after all of them.
fn address_of_a_refused_map(cases: &mut Cases) {
    let map = one_zone();
    cases.address(&map[..63], 0x000500, 0).gives(1);
    cases.address(&map[..255], 0x000500, 0).gives(1);
    let size_high = with_bytes(&map, 41, &[1]);
    cases.address(&size_high, 0x000500, 0).gives(2);
    let mut wrong_check = map.clone();
    wrong_check[0] ^= 0x20;
    cases.address(&wrong_check, 0x000500, 0).gives(3);
    let cross = with_bytes(&map, 3, &[0xFE]);
    cases.address(&cross, 0x000500, 0).gives(4);
    let open = with_bytes(&map, 255, &[0]);
    cases.address(&open, 0x000500, 0).gives(6);
    let top_bit = with_bytes(&map, 2, &[0x02]);
    cases.address(&top_bit, 0x000500, 0).gives(5);
    let id = with_number(&map, 0, 632, 100);
    cases.address(&id, 0x000500, 0).gives(7);
    cases.address(&id, u32::MAX, 0).gives(7);
}

/// "m, the shortest fragment, is idlen+1 rounded up to a multiple of k": 20. The
/// hole at (20,100) keeps 20 bits or none.
fn shortest_fragments(cases: &mut Cases) {
    let map = one_zone();
    cases.place(&map, 7, &[20, 19]).gives(12);
    let placed = cases.place(&map, 7, &[20, 20]).done();
    assert_eq!(cases.release(&placed, 7, 2).pairs(&[20, 20]), map);
    cases.place(&map, 7, &[20, 81]).gives(13);
    cases.place(&map, 7, &[39, 20]).gives(13);
    cases.place(&map, 99, &[20, 50, 70, 50, 141, 50]).done();
    cases.claim(&map, 1, 0).claims(3, &[20, 20]);
    cases.claim(&map, 80 * 1_024, 0).claims(3, &[20, 80]);
    cases.claim(&map, 80 * 1_024 + 1, 0).claims(3, &[20, 100]);
}

/// Sectors of 1,024 bytes and map bits of 128: k 8, m 24 for an idlen of 19. P is
/// 8160 div 20, 408, without the rounding: 340 by 24.
fn clusters(cases: &mut Cases) {
    let record = DiscRecord {
        log2secsize: 10,
        log2bpmb: 7,
        ..e_plus(1)
    };
    let record = disc_of(7_680, record);
    let zone = |id| vec![object(2, 24), object(id, 32), free(7_624)];
    let map = build(&record, &[zone(407)]);
    cases.list(&map, 407, 2).pairs(&[24, 32]);
    cases.claim(&map, 1, 0).claims(3, &[56, 24]);
    cases.place(&map, 341, &[56, 16]).gives(12);
    cases.place(&map, 341, &[56, 20]).gives(12);
    cases.place(&map, 408, &[56, 24]).gives(8);
    let placed = cases.place(&map, 341, &[56, 24, 104, 7_576]).done();
    assert_eq!(spans_of(&placed), [80, 24]);
    cases.check(&build(&record, &[zone(408)])).gives(7);
}

/// "under idlen+1 bits left": 19, 17 or 14, where the hole's closing bit comes after
/// block bit 2,027. "no closing bit before the zone's end": the last is cleared.
fn under_20_bits_left(cases: &mut Cases) {
    let zone = vec![object(2, 20), free(1_496), object(64, 20)];
    let map = build(&e_plus(1), &[zone]);
    cases.list(&map, 64, 2).pairs(&[1_516, 20]);
    for closing in [2_028, 2_030, 2_033] {
        let mut map = map.clone();
        set_bit(&mut map, 2_027, false);
        set_bit(&mut map, closing, true);
        repair_zone_checks(&mut map, 256);
        cases.check(&map).gives(6);
    }
    cases.check(&with_bytes(&map, 255, &[0])).gives(6);
}

/// "idlen bits of id ..., some zero bits, and a closing 1 bit": fragments of 20 bits
/// and more, owned or free, which start at every bit of a byte. An id of 19 bits from
/// the last bit of a byte on lies in four bytes.
fn every_place_in_a_byte(cases: &mut Cases) {
    for owner in [object(99, 0).0, Owner::Free] {
        let mut zone = vec![object(2, 21)];
        for length in [20, 28, 20, 20, 28, 20, 36, 20] {
            zone.extend([(owner, length), object(98, 21)]);
        }
        let used: usize = zone.iter().map(|(_, length)| length).sum();
        zone.push(object(97, 1_536 - used));
        let map = build(&e_plus(1), &[zone]);
        let pairs = match owner {
            Owner::Free => spans_of(&map),
            Owner::Object(id) => pairs_of(&map, id),
        };
        let mut places: Vec<u32> = pairs.chunks(2).map(|pair| pair[0] % 8).collect();
        places.sort();
        assert_eq!(places, [0, 1, 2, 3, 4, 5, 6, 7]);
        match owner {
            Owner::Free => cases.free(&map, 16).pairs(&pairs),
            Owner::Object(id) => cases.release(&map, id, 16).pairs(&pairs),
        };
    }
}

/// "owned by their id, which lies from 1 to P*nzones - 1": 99 is the last. Others
/// are 5 or 2 in their low bits.
fn ids_of_19_bits(cases: &mut Cases) {
    let map = one_zone();
    for bit in 15..19 {
        let id = 5 + (1 << bit);
        cases.check(&with_number(&map, 0, 632, id)).gives(7);
    }
    for (block_bit, id) in [(632, 100), (632, 0x7_FFFF), (512, 2 + (1 << 16))] {
        cases.check(&with_number(&map, 0, block_bit, id)).gives(7);
    }
    cases.check(&with_number(&map, 0, 632, 99)).done();
    // "Every disc bit from disc_size div B onward is owned by 1".
    let zone = vec![object(2, 20), free(1_416), object(1, 100)];
    let map = build(&disc_of(1_436, e_plus(1)), &[zone]);
    cases.check(&map).done();
    let overhang = with_number(&map, 0, 512 + 1_436, 1 + (1 << 16));
    cases.check(&overhang).gives(7);
}

/// The same for the highest bit of an id, in a fragment that starts at another bit of
/// a byte, and in the last one of the block.
fn highest_bit_of_an_id(cases: &mut Cases) {
    for bit in [0, 2, 5, 6, 7] {
        let zone = vec![object(2, 24 + bit), object(5, 20), free(1_492 - bit)];
        let map = build(&e_plus(1), &[zone]);
        let wrong = with_number(&map, 0, 512 + 24 + bit, 5 + (1 << 18));
        cases.check(&wrong).gives(7);
    }
    let zone = vec![object(2, 20), free(1_496), object(5, 20)];
    let map = build(&e_plus(1), &[zone]);
    let wrong = with_number(&map, 0, 2_028, 5 + (1 << 18));
    cases.check(&wrong).gives(7);
}

/// "id argument outside ... to P*nzones-1": numbers that are 5 in their low bits.
fn id_arguments(cases: &mut Cases) {
    let map = one_zone();
    for id in [100, 5 + (1 << 16), 5 + (1 << 19)] {
        cases.list(&map, id, 2).gives(8);
    }
    cases.release(&map, 5 + (1 << 16), 2).gives(8);
    cases
        .sweep_object(&map, 5 + (1 << 16), 120 * 1_024, 8)
        .gives(8);
    cases.place(&map, 7 + (1 << 16), &[20, 20]).gives(8);
    cases.list(&map, 99, 2).gives(10);
}

/// "Each non-zero link lands on a fragment's start": the link of the first hole, 121,
/// and that of the last, 0, with each bit above 12.
fn links_of_19_bits(cases: &mut Cases) {
    let map = one_zone();
    for bit in 13..19 {
        let first = with_number(&map, 0, 532, 121 + (1 << bit));
        cases.check(&first).gives(5);
    }
    for bit in [15, 16, 18] {
        let last = with_number(&map, 0, 653, 1 << bit);
        cases.free(&last, 4).gives(5);
    }
}

/// The same for the highest bit, in a hole that starts at another bit of a byte.
fn highest_bit_of_a_link(cases: &mut Cases) {
    for bit in [0, 3, 5, 6, 7] {
        let zone = vec![object(2, 24 + bit), free(20), object(5, 1_492 - bit)];
        let map = build(&e_plus(1), &[zone]);
        let wrong = with_number(&map, 0, 512 + 24 + bit, 1 << 18);
        cases.check(&wrong).gives(5);
    }
}

/// "FreeLink remains 15 bits": its top bit is always set, and the cross check's bits
/// are none of it.
fn free_link_of_15_bits(cases: &mut Cases) {
    let map = one_zone();
    for bytes in [[0x0C, 0x02], [0x0C, 0xC2], [0xFF, 0xFF]] {
        cases.check(&with_bytes(&map, 1, &bytes)).gives(5);
    }
    // Without a chain both holes are owned, one of them by 121.
    cases.check(&with_bytes(&map, 1, &[0, 0x80])).gives(7);
    let zone = vec![object(2, 20), object(5, 1_516)];
    let full = build(&e_plus(1), &[zone]);
    cases.check(&full).done();
    cases.claim(&full, 1, 0).gives(15);
}

/// "An edit touching several": an object of two zones, whose start zone is the last.
fn two_zones_edited(cases: &mut Cases) {
    let zones = [
        vec![object(7, 1_436), object(150, 50), free(50)],
        vec![object(2, 20), object(150, 30), free(1_966)],
    ];
    let map = with_rubbish(&build(&e_plus(2), &zones));
    let pairs = [1_556, 30, 1_436, 50];
    let released = cases.release(&map, 150, 4).pairs(&pairs);
    assert_eq!([released[3], released[256 + 3]], [0xFE, 0x01]);
    assert_eq!(cases.place(&released, 150, &pairs).done(), map);
    let border = 1_536 * 1_024;
    cases
        .sweep_object(&map, 150, border - 100 * 1_024 - 3, 6)
        .answers(&[3]);
    cases.sweep_free(&map, border - 3, 6).answers(&[3]);
}

/// The id of the object that fills a zone in `full_zones`.
fn own(zone: u32) -> u32 {
    100 * zone + 7
}

/// "For E+ nzones may be 1 to 65,535": 256, whose low byte is 0. Object 2 is in zone
/// 128, and the first and the last zone have a hole.
fn zones_256(cases: &mut Cases) {
    let record = e_plus(256);
    let mut zones = full_zones(&record);
    zones[0] = vec![object(own(0), 1_500), free(36)];
    zones[255] = vec![object(own(255), 1_900), free(116)];
    let map = with_rubbish(&build(&record, &zones));
    assert_eq!((map[13], map[46]), (0, 1));
    let spans = [1_500, 36, first(255) + 1_900, 116];
    cases.free(&map, 4).pairs(&spans);
}

/// 257 zones: only zone 256 has a hole, or two.
fn with_holes_in_zone_256(holes: &[usize]) -> Vec<u8> {
    let record = e_plus(257);
    let mut zones = full_zones(&record);
    let bits: usize = holes.iter().sum();
    zones[256] = vec![object(own(256), 2_016 - bits)];
    zones[256].extend(holes.iter().map(|length| free(*length)));
    with_rubbish(&build(&record, &zones))
}

/// "The first hole of length at least need": the only one is in zone 256, and the id
/// is one of that zone.
fn zones_257(cases: &mut Cases) {
    let map = with_holes_in_zone_256(&[116]);
    assert_eq!((map[13], map[46]), (1, 1));
    let start = first(256) + 1_900;
    let claimed = cases.claim(&map, 1, 0).claims(25_600, &[start, 20]);
    assert_eq!(claimed[..256 * 256], map[..256 * 256]);
}

/// "that zone", for 3, 5, 6, 7 and 9: 256 is 0 in a byte. Each is told by another
/// call. 25,700 ids are there.
fn faults_of_zone_256(cases: &mut Cases) {
    let map = with_holes_in_zone_256(&[116]);
    let block = 256 * 256;
    let mut wrong_check = map.clone();
    wrong_check[block] ^= 0x10;
    cases.release(&wrong_check, 7, 2).told(3, 256);
    let top_bit = with_bytes(&map, block + 2, &[map[block + 2] & 0x7F]);
    cases.list(&top_bit, 7, 2).told(5, 256);
    let open = with_bytes(&map, block + 255, &[0]);
    cases.free(&open, 2).told(6, 256);
    let id = with_number(&map, 256, 32, 25_700);
    cases.sweep_free(&id, 0, 8).told(7, 256);
    let touching = with_holes_in_zone_256(&[50, 66]);
    let list = [first(256) + 1_900, 20];
    cases.place(&touching, 3, &list).told(9, 256);
}

/// 161 zones of 1,024 bytes, Z 8160 and P 408, full of shortest fragments: 3 to
/// 65,536, and after them a hole of 2,580 bits. A map bit has 2,048 bytes.
fn packed() -> Vec<u8> {
    let record = DiscRecord {
        log2secsize: 10,
        log2bpmb: 11,
        ..e_plus(161)
    };
    let record = disc_of(161 * 8_160 - 480, record);
    let mut ids = 3..=65_536;
    let mut zones = Vec::new();
    for zone in 0..161 {
        let mut parts = Vec::new();
        if zone == 80 {
            parts.push(object(2, 20));
        }
        let room = if zone == 0 { 384 } else { 408 } - parts.len();
        parts.extend(ids.by_ref().take(room).map(|id| object(id, 20)));
        zones.push(parts);
    }
    zones[160].push(free(2_580));
    build(&record, &zones)
}

/// "The id is the lowest unused one from 3 whose start zone is the chosen zone":
/// 65,537, which is 1 in 16 bits. Sweep of "an id": 65,536, which is 0, at addresses
/// above 2^31.
fn ids_above_16_bits(cases: &mut Cases) {
    let map = packed();
    let hole = 161 * 8_160 - 480 - 2_580;
    cases.claim(&map, 1, 0).claims(65_537, &[hole, 20]);
    let start = (hole as u64 - 20) * 2_048;
    cases.sweep_object(&map, 65_536, start - 4, 9).answers(&[5]);
}

/// An object whose start zone is 700: 70,050 div 100. In 16 bits it is 4,514.
const WRAPPING: u32 = 70_050;

/// The zones in which it has pieces.
const ITS_ZONES: [usize; 7] = [0, 255, 256, 500, 699, 700, 999];

/// 1,000 zones of map bits of 2,048 bytes: `WRAPPING` has a piece in each of its
/// zones and two in zone 700, and zones 256 and 999 have a hole of 60 and 100 bits.
/// No other bit is free. Object 2 is in zone 500.
fn thousand() -> Vec<u8> {
    let record = DiscRecord {
        log2bpmb: 11,
        ..e_plus(1_000)
    };
    let record = disc_of(first(1_000), record);
    let piece = |length| object(WRAPPING, length);
    let mut zones = full_zones(&record);
    zones[0] = vec![object(own(0), 1_500), piece(36)];
    zones[255] = vec![object(own(255), 1_984), piece(32)];
    zones[256] = vec![piece(24), free(60), object(own(256), 1_932)];
    zones[500] = vec![object(2, 20), piece(28), object(own(500), 1_968)];
    zones[699] = vec![object(own(699), 1_986), piece(30)];
    zones[700] = vec![piece(20), object(own(700), 1_956), piece(40)];
    zones[999] = vec![object(own(999), 1_872), piece(44), free(100)];
    with_rubbish(&build(&record, &zones))
}

/// "the start zone is id div P ...; take all its fragments in ascending order, then
/// later zones, then from zone 0": from zone 700 on. "when odd, the first three with
/// 1, 2, 3 and the rest with 1". What is released and placed, or claimed and
/// released, gives every byte back.
fn zones_1000(cases: &mut Cases) {
    let map = thousand();
    let [of_700, of_999] = [first(700), first(999) + 1_872];
    let pairs = [
        [of_700, 20, of_700 + 1_976, 40],
        [of_999, 44, 1_500, 36],
        [first(255) + 1_984, 32, first(256), 24],
        [first(500) + 20, 28, first(699) + 1_986, 30],
    ]
    .concat();
    cases.list(&map, WRAPPING, 16).pairs(&pairs);
    let released = cases.release(&map, WRAPPING, 16).pairs(&pairs);
    let crosses = ITS_ZONES.map(|zone| released[256 * zone + 3]);
    assert_eq!(crosses, [0xFE, 2, 3, 1, 1, 1, 1]);
    assert_eq!(cases.place(&released, WRAPPING, &pairs).done(), map);
    let pair = [of_999 + 44, 100];
    let claimed = cases.claim(&map, 84 * 2_048, 0).claims(99_900, &pair);
    assert_eq!(cases.release(&claimed, 99_900, 2).pairs(&pair), map);
}
