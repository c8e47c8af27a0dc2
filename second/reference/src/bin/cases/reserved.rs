//! Document 02, R-7, "Refuse dirty records": "A map with any of block bytes 36 to
//! 63 of zone 0 not 0 is refused with 2 from now on, judged after the other
//! fields." Source document 001 calls these 28 bytes reserved.
//!
//! What is asked of the other bytes of the record, and where 2 stands among the
//! refusals, is document 01's. Maps are A or B where that shows as much, and zone
//! checks are right where nothing else is said.

use reference::case::{Call, Case};
use reference::generate::{
    build, map_a, map_b, repair_cross_checks, repair_zone_checks, with_bytes,
};
use reference::geometry::{DiscRecord, CARRIED, RESERVED};
use reference::map::Owner;

use crate::calls::{groups, Cases};
use crate::maps::*;

groups![
    byte_36_alone,
    byte_63_alone,
    each_byte_between_alone,
    bits_of_the_last_four_bytes,
    all_28_bytes,
    bytes_that_add_up_to_0,
    words_that_add_up_to_0,
    bytes_that_leave_the_zone_check,
    byte_35_alone,
    byte_12_alone,
    carried_bytes,
    carried_bytes_stay,
    byte_64_and_on,
    bytes_36_to_63_of_later_zones,
    larger_sectors,
    several_zones,
    before_the_length,
    after_the_length_under_64,
    before_the_checks,
    before_the_checks_of_later_zones,
    beside_a_field_out_of_range,
    every_call,
    every_call_with_wrong_arguments,
    edits_where_free_fragments_touch,
];

/// Map A with these bytes from byte `at` on.
fn a_with(at: usize, bytes: &[u8]) -> Vec<u8> {
    with_bytes(&map_a(), at, bytes)
}

/// The number that the check answers, in no case of its own.
fn number_of(map: &[u8]) -> u32 {
    Case::new(Call::Check, map).run().number
}

/// "any of block bytes 36 to 63": the first.
fn byte_36_alone(cases: &mut Cases) {
    for byte in [0x01, 0x80, 0xFF] {
        cases.check(&a_with(36, &[byte])).gives(2);
    }
}

/// "any of block bytes 36 to 63": the last.
fn byte_63_alone(cases: &mut Cases) {
    for byte in [0x01, 0x80, 0xFF] {
        cases.check(&a_with(63, &[byte])).gives(2);
    }
}

/// "any of block bytes 36 to 63 ... not 0": each of the others, with all its bits
/// or with one of the eight, which are taken in turn.
fn each_byte_between_alone(cases: &mut Cases) {
    let values = [0x01, 0x02, 0x04, 0x08, 0x10, 0x20, 0x40, 0x80, 0xFF];
    for (at, byte) in (37..63).zip(values.into_iter().cycle()) {
        cases.check(&a_with(at, &[byte])).gives(2);
    }
}

/// "the 28 bytes": 24 are three words of 64 bits, and 60 to 63 are left. One bit
/// of each, and all four.
fn bits_of_the_last_four_bytes(cases: &mut Cases) {
    for bytes in [
        [0x10, 0, 0, 0],
        [0, 0x01, 0, 0],
        [0, 0, 0x80, 0],
        [0, 0, 0, 0x08],
        [0x01, 0x02, 0x03, 0x04],
    ] {
        cases.check(&with_bytes(&map_b(), 60, &bytes)).gives(2);
    }
}

/// "rubbish there": text, and all ones.
fn all_28_bytes(cases: &mut Cases) {
    cases
        .check(&a_with(36, b"Copied by a bad cloning box."))
        .gives(2);
    cases.check(&a_with(36, &[0xFF; 28])).gives(2);
}

/// "any of block bytes 36 to 63", and not their sum: two bytes or all 28 add up
/// to a multiple of 256, and but for 1 and 255 they exclusive-or to 0.
fn bytes_that_add_up_to_0(cases: &mut Cases) {
    let mut first_and_last = [0; 28];
    (first_and_last[0], first_and_last[27]) = (0x80, 0x80);
    for (at, bytes) in [
        (36, &[0x80, 0x80][..]),
        (62, &[0x80, 0x80]),
        (50, &[0x01, 0xFF]),
        (36, &first_and_last),
        (36, &[0x40; 28]),
    ] {
        let map = a_with(at, bytes);
        let add = |sum: u8, byte: &u8| sum.wrapping_add(*byte);
        assert_eq!(map[RESERVED].iter().fold(0, add), 0);
        cases.check(&map).gives(2);
    }
}

/// The same for words: of 16 bits, 1 and 2^16-1; of 32 bits, 1 and 2^32-1, and
/// twice 2^31; of 64 bits, 1 and 2^64-1.
fn words_that_add_up_to_0(cases: &mut Cases) {
    let twice_32 = [[0, 0, 0, 0x80], [0; 4], [0, 0, 0, 0x80]].concat();
    for (at, bytes) in [
        (44, [1u16.to_le_bytes(), u16::MAX.to_le_bytes()].concat()),
        (36, [1u32.to_le_bytes(), u32::MAX.to_le_bytes()].concat()),
        (52, twice_32),
        (36, [1u64.to_le_bytes(), u64::MAX.to_le_bytes()].concat()),
    ] {
        cases.check(&a_with(at, &bytes)).gives(2);
    }
}

/// "add the word and the carry of the previous addition": words that leave A's
/// check byte as it is. 2^32-1, as one word or as a word and its complement, comes
/// to nothing with the carry that it makes.
fn bytes_that_leave_the_zone_check(cases: &mut Cases) {
    let word = 0x1234_5678u32;
    let pair = [word.to_le_bytes(), (!word).to_le_bytes()].concat();
    for (at, bytes) in [(40, pair), (52, vec![0xFF; 4])] {
        let map = a_with(at, &bytes);
        assert_eq!(map[0], map_a()[0]);
        cases.check(&map).gives(2);
    }
}

/// "Other fields are carried and not judged": the last byte before them.
fn byte_35_alone(cases: &mut Cases) {
    for byte in [0x01, 0x80, 0xFF] {
        cases.check(&a_with(35, &[byte])).done();
    }
}

/// The same for record byte 8, which source document 000 calls reserved too.
fn byte_12_alone(cases: &mut Cases) {
    cases.check(&a_with(12, &[0x01])).done();
}

/// The map with another value in each carried byte of the record, none of them 0.
fn with_carried_bytes(mut map: Vec<u8>) -> Vec<u8> {
    for (index, at) in CARRIED.into_iter().flatten().enumerate() {
        map[at] = 0xE9 - index as u8;
    }
    repair_zone_checks(&mut map, 256);
    map
}

/// "Other fields are carried and not judged": block bytes 24 to 35, and all of them.
fn carried_bytes(cases: &mut Cases) {
    cases.check(&a_with(24, &[0xFF; 12])).done();
    cases.check(&with_carried_bytes(map_a())).done();
}

/// "nothing outside check byte, FreeLink, cross check and allocation bits": a
/// release, the place that undoes it, and a claim leave all 60 bytes.
fn carried_bytes_stay(cases: &mut Cases) {
    let map = with_carried_bytes(map_b());
    let released = cases.release(&map, 5, 2).pairs(&[12, 20]);
    assert_eq!(released[4..64], map[4..64]);
    assert_eq!(cases.place(&released, 5, &[12, 20]).done(), map);
    let claimed = cases.claim(&map, 1, 0).claims(3, &[32, 12]);
    assert_eq!(claimed[4..64], map[4..64]);
}

/// So many shortest fragments of an object. With ones all over its id they leave
/// no byte 0.
fn fragments_of(id: u32, number: usize) -> Vec<(Owner, usize)> {
    vec![object(id, 12); number]
}

/// "Allocation bits run from block bit 512 in zone 0": bytes 64 to 91, as many,
/// all of them not 0.
fn byte_64_and_on(cases: &mut Cases) {
    let zone = [
        vec![object(2, 12)],
        fragments_of(0xA5, 18),
        vec![free(1_308)],
    ]
    .concat();
    let map = build(&plain(1), &[zone]);
    assert!(map[64..92].iter().all(|byte| *byte != 0));
    cases.check(&map).done();
}

/// "of zone 0": in any other zone allocation bits run from block bit 32. Zones 1
/// and 2 have fragments of one object from byte 36 to 64, and no byte there is 0.
fn bytes_36_to_63_of_later_zones(cases: &mut Cases) {
    let zone = |first| [vec![first], fragments_of(0x155, 19), vec![free(1_532)]].concat();
    let zones = [vec![free(1_536)], zone(object(2, 256)), zone(free(256))];
    let map = build(&plain(3), &zones);
    for zone in [1, 2] {
        let block = &map[256 * zone..256 * (zone + 1)];
        assert!(block[RESERVED].iter().all(|byte| *byte != 0));
    }
    cases.check(&map).done();
    let pairs = pairs_of(&map, 0x155);
    let released = cases.release(&map, 0x155, 76).pairs(&pairs);
    assert_eq!(cases.place(&released, 0x155, &pairs).done(), map);
}

/// "block bytes 36 to 63", whatever the sector size: 512 and 1,024.
fn larger_sectors(cases: &mut Cases) {
    for (record, rest) in [(clusters_of_four(1), 3_568), (clusters_of_eight(1), 7_664)] {
        let map = build(&record, &[vec![object(2, 16), free(rest)]]);
        for at in [36, 63] {
            let dirty = with_bytes(&map, at, &[0x04]);
            cases.check(&dirty).gives(2);
        }
    }
    let map = build(&clusters_of_four(1), &[vec![object(2, 16), free(3_568)]]);
    cases.check(&with_bytes(&map, 35, &[0x04])).done();
}

/// "of zone 0", of three.
fn several_zones(cases: &mut Cases) {
    let map = with_bytes(&three_zones(), 49, &[0x20]);
    cases.check(&map).gives(2);
}

/// "Order: 1 (under 64), 2, 1": a byte or a block more than nzones*S, a byte or a
/// block fewer, and 64 bytes, the fewest that hold a record.
fn before_the_length(cases: &mut Cases) {
    let dirty = a_with(47, &[0x01]);
    cases.check(&[&dirty[..], &[0]].concat()).gives(2);
    cases.check(&dirty.repeat(2)).gives(2);
    cases.check(&dirty[..255]).gives(2);
    let zones = [vec![free(1_536)], vec![object(2, 12), free(2_004)]];
    let dirty = with_bytes(&build(&plain(2), &zones), 47, &[0x01]);
    cases.check(&dirty[..256]).gives(2);
    for at in [36, 63] {
        cases.check(&a_with(at, &[0x01])[..64]).gives(2);
    }
}

/// "1 (under 64), 2": the bytes up to 62, and those up to 36 alone.
fn after_the_length_under_64(cases: &mut Cases) {
    let dirty = a_with(36, &[0x01]);
    cases.check(&dirty[..63]).gives(1);
    cases.check(&dirty[..37]).gives(1);
}

/// "2, 1, 3 over all zones, 4; then zone by zone 6, 5, 7": map A with a fault that
/// gives the other number, and the same with a dirty record.
fn before_the_checks(cases: &mut Cases) {
    let faults: [(u32, Damage); 6] = [
        (4, |map| map[3] ^= 0x01),
        (6, |map| map[255] = 0),
        (5, |map| map[1] ^= 0x01),
        (5, |map| map[2] &= 0x7F),
        (7, |map| map[64] ^= 0x01),
        (7, |map| map[1..3].copy_from_slice(&[0, 0x80])),
    ];
    for (number, fault) in faults {
        let mut map = map_a();
        fault(&mut map);
        repair_zone_checks(&mut map, 256);
        assert_eq!(number_of(&map), number);
        cases.check(&with_bytes(&map, 58, &[0x80])).gives(2);
    }
    // 3: the zone check is still A's.
    let mut map = map_a();
    map[58] = 0x80;
    cases.check(&map).gives(2);
}

/// The same in zones 1 and 2 of three; 2 tells zone 0.
fn before_the_checks_of_later_zones(cases: &mut Cases) {
    let mut map = with_bytes(&three_zones(), 36, &[0x40]);
    CHECK_2(&mut map);
    cases.check(&map).gives(2);
    for fault in [LINK_1, DISC_END] {
        let mut map = three_zones();
        fault(&mut map);
        repair_cross_checks(&mut map, 256);
        cases.check(&with_bytes(&map, 36, &[0x40])).gives(2);
    }
}

/// "judged after the other fields": one of them is outside its range as well.
/// That is 2 by itself, in 64 bytes too.
#[rustfmt::skip]
fn beside_a_field_out_of_range(cases: &mut Cases) {
    for record in [
        DiscRecord { log2secsize: 11, ..plain(1) },
        DiscRecord { idlen: 10, ..plain(1) },
        DiscRecord { log2bpmb: 6, ..plain(1) },
        DiscRecord { nzones: 0, ..plain(1) },
        DiscRecord { zone_spare: 31, ..plain(1) },
        DiscRecord { disc_size: 0, ..plain(1) },
    ] {
        let mut map = vec![0; 64];
        record.write(&mut map);
        map[RESERVED].fill(0x01);
        cases.check(&map).gives(2);
    }
}

/// What a case's call answers on B.
fn number_on_b(case: &Case) -> u32 {
    let mut case = case.clone();
    case.map = map_b();
    case.run().number
}

/// "A map ... is refused with 2": by every call, with arguments that do on B.
fn every_call(cases: &mut Cases) {
    let map = with_bytes(&map_b(), 55, &[0x02]);
    let before = cases.0.len();
    cases.check(&map).gives(2);
    cases.list(&map, 5, 4).gives(2);
    cases.free(&map, 4).gives(2);
    cases.address(&map, 0x000503, 0).gives(2);
    cases.sweep_object(&map, 5, 12_280, 20).gives(2);
    cases.sweep_free(&map, 32_760, 20).gives(2);
    cases.release(&map, 5, 4).gives(2);
    cases.place(&map, 7, &[32, 12]).gives(2);
    cases.claim(&map, 1, 0).gives(2);
    let mut made = cases.0[before..].iter();
    assert!(made.all(|case| number_on_b(case) == 0));
}

/// "then the rest in table order": 2 comes before all that is wrong with the
/// arguments.
fn every_call_with_wrong_arguments(cases: &mut Cases) {
    let map = with_bytes(&map_b(), 55, &[0x02]);
    let before = cases.0.len();
    cases.list(&map, 0, 0).gives(2);
    cases.free(&map, 0).gives(2);
    cases.address(&map, u32::MAX, u64::MAX).gives(2);
    cases.sweep_object(&map, 0, u64::MAX, 1).gives(2);
    cases.sweep_free(&map, 1_572_864, 1).gives(2);
    cases.release(&map, 0, 0).gives(2);
    cases.place(&map, 0, &[]).gives(2);
    cases.place(&map, 5, &[12]).gives(2);
    cases.claim_in(&map, 0, 0, 0).gives(2);
    let mut made = cases.0[before..].iter();
    assert!(made.all(|case| number_on_b(case) > 2));
}

/// "9, edits: two free fragments of a zone touch": 2 comes before it.
fn edits_where_free_fragments_touch(cases: &mut Cases) {
    let zone = vec![object(2, 12), object(5, 20), free(1_000), free(504)];
    let map = with_bytes(&build(&plain(1), &[zone]), 55, &[0x02]);
    cases.release(&map, 5, 2).gives(2);
    cases.place(&map, 6, &[32, 12]).gives(2);
    cases.claim(&map, 1, 0).gives(2);
}
