//! Document 02, R-5, "The second map copy": "Given the two copies lent, hand back the
//! part that is an accepted map: the first if it is accepted, else the second, else
//! the first's refusal and an empty part. Say also whether they are byte for byte
//! equal. Then add a call that writes one over the other"; and where the two lie.
//!
//! Maps have one zone where that shows as much. Zone checks are right where nothing
//! else is said. A station that has edited a map in memory writes the new map over
//! the second copy and then over the first, and may be cut off after any byte.

use reference::case::{Call, Case};
use reference::generate::{as_e_plus, build, cut_off, map_a, map_b, with_bytes};
use reference::geometry::DiscRecord;
use reference::map::check;

use crate::calls::{groups, Answer, Cases};
use crate::maps::*;

groups![
    equal_and_accepted,
    unequal_and_accepted,
    first_damaged,
    second_damaged,
    both_damaged,
    equal_but_refused,
    empty_slices,
    unequal_lengths,
    one_byte_differs,
    copies_of_two_discs,
    e_plus_copies,
    cut_off_in_one_zone,
    cut_off_in_four_zones,
    accepted_by_chance,
    copied_over_a_damaged_target,
    copied_over_another_map,
    copied_where_one_byte_differs,
    source_refused,
    source_refused_and_lengths_differ,
    lengths_differ,
    addresses_of_few_zones,
    addresses_of_many_zones,
    addresses_by_sector_size,
    addresses_by_bytes_per_map_bit,
    addresses_by_zone_length,
    addresses_past_the_disc,
    addresses_of_e_plus_discs,
    addresses_of_a_refused_map,
];

/// A map with other bits in one byte, and no other byte changed.
fn flipped(map: &[u8], at: usize, bits: u8) -> Vec<u8> {
    let mut map = map.to_vec();
    map[at] ^= bits;
    map
}

/// Map A damaged in each of seven ways, with the number it is refused with: cut short,
/// a dirty record, another zone check, another cross check, FreeLink's top bit clear,
/// no closing bit, and object 3 in object 2's place.
fn refused_a() -> [(u32, Vec<u8>); 7] {
    let a = map_a();
    [
        (1, a[..255].to_vec()),
        (2, with_bytes(&a, 36, &[1])),
        (3, flipped(&a, 0, 1)),
        (4, with_bytes(&a, 3, &[0xFE])),
        (5, with_bytes(&a, 2, &[0x02])),
        (6, with_bytes(&a, 255, &[0])),
        (7, with_bytes(&a, 64, &[3])),
    ]
}

/// Two zones with a hole each. Zone 1 starts at byte 256, object 2 at byte 260.
fn two_zones() -> Vec<u8> {
    let zones = [
        vec![object(7, 20), free(1_516)],
        vec![object(2, 12), object(8, 20), free(1_984)],
    ];
    build(&plain(2), &zones)
}

/// The same damage to them, in zone 1 where it can be, with the number and zone told.
/// Of the first two no more is kept than what they are refused for.
fn refused_zones() -> [(u32, u32, Vec<u8>); 7] {
    let whole = two_zones();
    let dirty = with_bytes(&whole, 36, &[1]);
    [
        (1, 0, whole[..63].to_vec()),
        (2, 0, dirty[..64].to_vec()),
        (3, 1, flipped(&whole, 256, 1)),
        (4, 0, with_bytes(&whole, 256 + 3, &[1])),
        (5, 1, with_bytes(&whole, 256 + 2, &[0])),
        (6, 1, with_bytes(&whole, 511, &[0])),
        (7, 1, with_bytes(&whole, 260, &[3])),
    ]
}

/// "the first if it is accepted": both are, and they are equal.
fn equal_and_accepted(cases: &mut Cases) {
    cases.choose_copy(&map_a(), &map_a()).hands_back(1, true);
}

/// "the first if it is accepted": both are, and they are not equal.
fn unequal_and_accepted(cases: &mut Cases) {
    cases.choose_copy(&map_a(), &map_b()).hands_back(1, false);
    cases.choose_copy(&map_b(), &map_a()).hands_back(1, false);
}

/// "else the second": the first is refused with 1, 3, 5 or 7.
fn first_damaged(cases: &mut Cases) {
    for (_, first) in refused_a().iter().step_by(2) {
        cases.choose_copy(first, &map_a()).hands_back(2, false);
    }
}

/// "the first if it is accepted", though the second is refused with 2, 4 or 6.
fn second_damaged(cases: &mut Cases) {
    for (_, second) in refused_a().iter().skip(1).step_by(2) {
        cases.choose_copy(&map_a(), second).hands_back(1, false);
    }
}

/// "else the first's refusal": its number and its zone. The second is refused with
/// another number, or with the same in another zone.
fn both_damaged(cases: &mut Cases) {
    let [by_1, by_2, by_3, by_4, by_5, by_6, by_7] = refused_zones();
    let zone_0 = flipped(&two_zones(), 0, 1);
    for ((number, zone, first), second) in [
        (&by_1, &by_2.2),
        (&by_2, &by_1.2),
        (&by_3, &by_4.2),
        (&by_4, &by_3.2),
        (&by_5, &by_2.2),
        (&by_6, &zone_0),
        (&by_7, &by_1.2),
        (&by_3, &zone_0),
    ] {
        let answer = cases.choose_copy(first, second);
        answer.neither(*number, *zone, false);
    }
}

/// "Say also whether they are byte for byte equal": two refused ones are.
fn equal_but_refused(cases: &mut Cases) {
    cases.choose_copy(&[0; 63], &[0; 63]).neither(1, 0, true);
    cases.choose_copy(&[0; 64], &[0; 64]).neither(2, 0, true);
    let map = flipped(&two_zones(), 256, 1);
    cases.choose_copy(&map, &map).neither(3, 1, true);
}

/// "map shorter than 64 bytes": no bytes are a refused copy, and two such are equal.
fn empty_slices(cases: &mut Cases) {
    let a = map_a();
    let refused = flipped(&a, 0, 1);
    cases.choose_copy(&[], &[]).neither(1, 0, true);
    cases.choose_copy(&a, &[]).hands_back(1, false);
    cases.choose_copy(&[], &a).hands_back(2, false);
    cases.choose_copy(&refused, &[]).neither(3, 0, false);
    cases.choose_copy(&[], &refused).neither(1, 0, false);
}

/// "byte for byte equal": copies of unequal lengths are not, though one is the other's
/// beginning. One of them is accepted, or none.
fn unequal_lengths(cases: &mut Cases) {
    let a = map_a();
    let longer = [&a[..], &[0]].concat();
    cases.choose_copy(&a, &longer).hands_back(1, false);
    cases.choose_copy(&longer, &a).hands_back(2, false);
    cases.choose_copy(&[0; 64], &[0; 65]).neither(2, 0, false);
    cases.choose_copy(&[0; 63], &[0; 64]).neither(1, 0, false);
}

/// "byte for byte": nothing but the first or the last byte is another, in one bit.
fn one_byte_differs(cases: &mut Cases) {
    for at in [0, 64] {
        let second = flipped(&[0; 65], at, 1);
        cases.choose_copy(&[0; 65], &second).neither(2, 0, false);
    }
    let second = flipped(&[0; 7], 6, 0x80);
    cases.choose_copy(&[0; 7], &second).neither(1, 0, false);
}

/// "else the second": each copy is judged by its own record. The second has two zones;
/// then one zone, and a disc that ends earlier.
fn copies_of_two_discs(cases: &mut Cases) {
    let refused = flipped(&map_a(), 0, 1);
    let answer = cases.choose_copy(&refused, &two_zones());
    answer.hands_back(2, false);
    let zone = vec![object(2, 12), free(1_424), object(1, 100)];
    let shorter = build(&disc_of(1_436, plain(1)), &[zone]);
    cases.choose_copy(&refused, &shorter).hands_back(2, false);
    cases.choose_copy(&shorter, &map_a()).hands_back(1, false);
}

/// "Take version 1 as E+ and 0 as what we have; others are refused with 2": two
/// copies of one edition each, and a first one of version 2.
fn e_plus_copies(cases: &mut Cases) {
    let (a, e_plus_a) = (map_a(), as_e_plus(&map_a()));
    let version_2 = with_bytes(&a, 48, &[2]);
    cases.choose_copy(&e_plus_a, &a).hands_back(1, false);
    cases
        .choose_copy(&version_2, &e_plus_a)
        .hands_back(2, false);
}

// --------------------------------------------------- a station that is cut off

/// The choice after a station was cut off that had written so many bytes.
fn after(cases: &mut Cases, old: &[u8], new: &[u8], written: usize) -> Answer {
    let (first, second) = cut_off(old, new, written);
    cases.choose_copy(&first, &second)
}

/// The map after the release of an object.
fn released(map: &[u8], id: u32) -> Vec<u8> {
    let mut case = Case::new(Call::Release, map);
    case.number = id;
    case.list = vec![0; 64];
    let outcome = case.run();
    assert_eq!(outcome.number, 0);
    outcome.map
}

/// Map B with object 3 at (32,12): bytes 0, 1, 68 and 69 are others. Up to byte 256
/// the first copy is the old map. After it the second is the new one, and the first
/// has a wrong zone check until its last changed byte is written.
fn cut_off_in_one_zone(cases: &mut Cases) {
    let old = map_b();
    let mut claim = Case::new(Call::Claim, &old);
    claim.wide = 1;
    claim.list = vec![0; 2];
    let new = claim.run().map;
    for written in [69, 256] {
        after(cases, &old, &new, written).hands_back(1, false);
    }
    for written in [256 + 1, 256 + 69] {
        after(cases, &old, &new, written).hands_back(2, false);
    }
    after(cases, &old, &new, 256 + 70).hands_back(1, true);
}

/// The release of an object with pieces in each of four zones, of 1,024 bytes in all:
/// "exclusive-ors each with 1 when their number is even". The second copy is whole;
/// then one block of the first is written, a part of the next, and three; then both
/// are whole.
fn cut_off_in_four_zones(cases: &mut Cases) {
    let old = four_zones();
    let new = released(&old, 600);
    after(cases, &old, &new, 1_024).hands_back(1, false);
    for of_first in [256, 260, 768] {
        after(cases, &old, &new, 1_024 + of_first).hands_back(2, false);
    }
    after(cases, &old, &new, 2_048).hands_back(1, true);
}

/// Five zones with a piece of object 9 in each.
fn five_zones() -> Vec<u8> {
    let mut zones = vec![vec![object(9, 20), free(1_996)]; 5];
    zones[0] = vec![object(9, 20), free(1_516)];
    zones[2] = vec![object(2, 12), object(9, 20), free(1_984)];
    build(&plain(5), &zones)
}

/// The first copy is accepted though it is neither the old map nor the new one: of four
/// touched zones two are written, whose changes cancel; of five the first three, as
/// those are 1, 2 and 3. So no more is promised than an accepted map, and that the
/// copies are not equal tells of it. The second is then written over the first.
fn accepted_by_chance(cases: &mut Cases) {
    let (four, five) = (four_zones(), five_zones());
    let (without_600, without_9) = (released(&four, 600), released(&five, 9));
    for (old, new, written) in [
        (&four, &without_600, 1_024 + 512),
        (&five, &without_9, 1_280 + 768),
    ] {
        let (first, _) = cut_off(old, new, written);
        assert!(check(&first).is_ok() && first != *old && first != *new);
        after(cases, old, new, written).hands_back(1, false);
    }
    let (first, second) = cut_off(&four, &without_600, 1_024 + 512);
    cases.copy_over(&second, &first).copied();
}

// ------------------------------------------------------------------- copy_over

/// "a call that writes one over the other", whatever the other holds: a refused map of
/// the same length, no map at all, and a wrong byte on both sides of a block's edge
/// and at the end.
fn copied_over_a_damaged_target(cases: &mut Cases) {
    let a = map_a();
    let [.., (7, target)] = refused_a() else {
        unreachable!("the last is refused with 7")
    };
    cases.copy_over(&a, &target).copied();
    cases.copy_over(&a, &[0xFF; 256]).copied();
    let map = two_zones();
    let target = flipped(&flipped(&flipped(&map, 255, 1), 256, 1), 511, 0x40);
    cases.copy_over(&map, &target).copied();
}

/// The same over a map that is accepted: the same one, another one, and one of another
/// edition.
fn copied_over_another_map(cases: &mut Cases) {
    let (a, b) = (map_a(), map_b());
    cases.copy_over(&a, &a).copied();
    cases.copy_over(&a, &b).copied();
    cases.copy_over(&as_e_plus(&b), &b).copied();
}

/// The same where nothing but the first byte is another, or the last.
fn copied_where_one_byte_differs(cases: &mut Cases) {
    let a = map_a();
    for at in [0, 255] {
        cases.copy_over(&a, &flipped(&a, at, 0x81)).copied();
    }
}

/// "it answers the source's refusal first ... and then writes nothing": 1, 4, 5 and 3,
/// with its zone, over a target of the same length, and no bytes over none.
fn source_refused(cases: &mut Cases) {
    let [a_1, _, _, a_4, a_5, ..] = refused_a();
    for (number, source) in [a_1, a_4, a_5] {
        let target = &map_b()[..source.len()];
        cases.copy_over(&source, target).gives(number);
    }
    let source = flipped(&two_zones(), 256, 1);
    cases.copy_over(&source, &two_zones()).told(3, 1);
    cases.copy_over(&[], &[]).gives(1);
}

/// "the source's refusal first, then 1 where lengths differ": both are so. 4 and 5 are
/// in `source_refused`.
fn source_refused_and_lengths_differ(cases: &mut Cases) {
    for (number, zone, source) in refused_zones() {
        if matches!(number, 2 | 3 | 6 | 7) {
            cases.copy_over(&source, &[0; 8]).told(number, zone);
        }
    }
    cases.copy_over(&[], &map_a()).gives(1);
}

/// "then 1 where lengths differ, and then writes nothing": the target has a byte less
/// or more, a whole zone less or more, or nothing.
fn lengths_differ(cases: &mut Cases) {
    let (a, b) = (map_a(), map_b());
    cases.copy_over(&a, &b[..255]).gives(1);
    cases.copy_over(&a, &[&b[..], &[0]].concat()).gives(1);
    cases.copy_over(&a, &[]).gives(1);
    cases.copy_over(&a, &two_zones()).gives(1);
    cases.copy_over(&two_zones(), &a).gives(1);
}

// -------------------------------------------------------------- copy_addresses

/// Where the two copies of a map lie whose zones are full.
#[track_caller]
fn lie_at(cases: &mut Cases, record: &DiscRecord, addresses: [u64; 2]) {
    let map = build(record, &full_zones(record));
    cases.copy_addresses(&map).answers(&addresses);
}

/// "at the address of the middle zone's first bit", which is disc bit 0, 1536, 1536 and
/// 3552, with 1,024 bytes each; the second "straight after the first", which has 256
/// bytes for each zone.
fn addresses_of_few_zones(cases: &mut Cases) {
    lie_at(cases, &plain(1), [0, 256]);
    lie_at(cases, &plain(2), [1_572_864, 1_573_376]);
    lie_at(cases, &plain(3), [1_572_864, 1_573_632]);
    lie_at(cases, &plain(4), [3_637_248, 3_638_272]);
}

/// The same of 127 zones: disc bit 126528. Maps of more are long, and are looked at in
/// the tests and by `compare` only.
fn addresses_of_many_zones(cases: &mut Cases) {
    lie_at(cases, &many_zones(127), [129_564_672, 129_597_184]);
}

/// The same with blocks of 512 and of 1,024 bytes.
fn addresses_by_sector_size(cases: &mut Cases) {
    lie_at(cases, &clusters_of_four(2), [458_752, 459_776]);
    lie_at(cases, &large_sectors(2), [7_864_320, 7_866_368]);
}

/// The same with map bits of 128, 512 and 4,096 bytes: disc bit 1536 of two zones.
fn addresses_by_bytes_per_map_bit(cases: &mut Cases) {
    for (log2bpmb, first) in [(7, 196_608), (9, 786_432), (12, 6_291_456)] {
        let record = DiscRecord {
            log2bpmb,
            ..plain(2)
        };
        lie_at(cases, &disc_of(3_552, record), [first, first + 512]);
    }
}

/// "z*Z + b - 512": zones that end inside a byte, with Z 2011, and the shortest there
/// are, with Z 492, so that zone 0 has 12 bits.
fn addresses_by_zone_length(cases: &mut Cases) {
    lie_at(cases, &odd_zone_end(2), [1_567_744, 1_568_256]);
    let shortest = DiscRecord {
        zone_spare: 2_048 - 492,
        ..plain(3)
    };
    lie_at(cases, &disc_of(996, shortest), [12_288, 13_056]);
}

/// "straight after": object 2 has 12 map bits of 128 bytes, and the disc ends with
/// them, 1,536 bytes after the first copy's start. A copy has 1,792.
fn addresses_past_the_disc(cases: &mut Cases) {
    let record = DiscRecord {
        log2bpmb: 7,
        ..plain(7)
    };
    let mut zones = full_zones(&plain(7));
    zones[3] = vec![object(2, 12), object(1, 2_004)];
    zones[4..].fill(vec![object(1, 2_016)]);
    let map = build(&disc_of(first(3) + 12, record), &zones);
    let answer = cases.copy_addresses(&map);
    answer.answers(&[712_704, 714_496]);
}

/// E+ discs are answered too, though "Address refuses E+ with 8".
fn addresses_of_e_plus_discs(cases: &mut Cases) {
    lie_at(cases, &e_plus(2), [1_572_864, 1_573_376]);
}

/// "A refusal answers its number and zone, any other number 0": both addresses.
fn addresses_of_a_refused_map(cases: &mut Cases) {
    for (number, zone, map) in refused_zones() {
        cases.copy_addresses(&map).told(number, zone);
    }
}
