//! Maps and disc records that several groups use.

use std::ops::Range;

use reference::case::{Call, Case};
use reference::generate::{build, repair_cross_checks, repair_zone_checks};
use reference::geometry::{DiscRecord, Geometry, DISC_RECORD, RESERVED};
use reference::map::{set_bit, set_number, Owner};

/// The owners and lengths of a zone's fragments.
pub type Parts = Vec<(Owner, usize)>;

pub fn object(id: u32, length: usize) -> (Owner, usize) {
    (Owner::Object(id), length)
}

pub fn free(length: usize) -> (Owner, usize) {
    (Owner::Free, length)
}

/// The record of map A with more zones: Z 2016, k 1, m 12, P 168, and 1,024
/// bytes of disc behind a map bit. The disc ends where the map does.
pub fn plain(nzones: u16) -> DiscRecord {
    whole_disc(DiscRecord {
        log2secsize: 8,
        idlen: 11,
        log2bpmb: 10,
        nzones,
        zone_spare: 32,
        disc_size: 0,
        size_high: 0,
        version: 0,
    })
}

/// k 2 and m 14 for an idlen of 12: Z 2016, P 155, 128 bytes a map bit.
pub fn clusters_of_two(nzones: u16) -> DiscRecord {
    whole_disc(DiscRecord {
        log2secsize: 8,
        idlen: 12,
        log2bpmb: 7,
        ..plain(nzones)
    })
}

/// k 4 and m 16 for an idlen of 12: Z 4064, P 312, 128 bytes a map bit.
pub fn clusters_of_four(nzones: u16) -> DiscRecord {
    whole_disc(DiscRecord {
        log2secsize: 9,
        idlen: 12,
        log2bpmb: 7,
        ..plain(nzones)
    })
}

/// k 8 and m 16 for an idlen of 13, so that P is Z div 14: Z 8160, P 582, 128
/// bytes a map bit.
pub fn clusters_of_eight(nzones: u16) -> DiscRecord {
    whole_disc(DiscRecord {
        log2secsize: 10,
        idlen: 13,
        log2bpmb: 7,
        ..plain(nzones)
    })
}

/// Sectors of 1,024 bytes with a k of 1, and m 16 for an idlen of 15: Z 8160,
/// P 510, 1,024 bytes a map bit.
pub fn large_sectors(nzones: u16) -> DiscRecord {
    whole_disc(DiscRecord {
        log2secsize: 10,
        idlen: 15,
        ..plain(nzones)
    })
}

/// Room for 255 zones of 256-byte sectors, with m 16 for an idlen of 15: Z 2016,
/// k 1, P 126, 1,024 bytes a map bit.
pub fn many_zones(nzones: u16) -> DiscRecord {
    whole_disc(DiscRecord {
        idlen: 15,
        ..plain(nzones)
    })
}

/// An E+ disc (R-12 of document 02) with m 20 for an idlen of 19: Z 2016, k 1, P
/// 100, 1,024 bytes a map bit.
pub fn e_plus(nzones: u16) -> DiscRecord {
    DiscRecord {
        idlen: 19,
        version: 1,
        ..plain(nzones)
    }
}

/// Z no multiple of 8: the zone ends after bit 2 of its block's byte 255.
pub fn odd_zone_end(nzones: u16) -> DiscRecord {
    whole_disc(DiscRecord {
        zone_spare: 37,
        ..plain(nzones)
    })
}

/// The record with the largest disc_size.
fn whole_disc(record: DiscRecord) -> DiscRecord {
    let zone_bits = (8 << record.log2secsize) - record.zone_spare as u32;
    disc_of(record.nzones as u32 * zone_bits - 480, record)
}

/// The record with a disc that ends after so many map bits.
pub fn disc_of(map_bits: u32, record: DiscRecord) -> DiscRecord {
    DiscRecord {
        disc_size: map_bits << record.log2bpmb,
        ..record
    }
}

/// Zones that are full, each of an object of its own, but for object 2. No two
/// ids are equal, so that a block taken for another one shows, and an object's
/// start zone is its zone.
pub fn full_zones(record: &DiscRecord) -> Vec<Parts> {
    let geometry = Geometry::accept(record).expect("a record inside its ranges");
    let zone = |zone: usize| {
        let own = (geometry.ids_per_zone * zone + 7) as u32;
        let bits = geometry.end_block_bit() - geometry.first_block_bit(zone);
        let m = geometry.shortest_fragment;
        if zone == geometry.middle_zone() {
            vec![object(2, m), object(own, bits - m)]
        } else {
            vec![object(own, bits)]
        }
    };
    (0..geometry.nzones).map(zone).collect()
}

/// The first disc bit of a zone of 2016 allocation bits.
pub fn first(zone: u32) -> u32 {
    (zone * 2_016).saturating_sub(480)
}

/// Sets every bit that is carried and not judged: the other fields of the
/// record, up to the reserved bytes, and the bits past each zone's end.
pub fn with_ones_outside(mut map: Vec<u8>) -> Vec<u8> {
    let record = DiscRecord::read(&map);
    let geometry = Geometry::accept(&record).expect("a record inside its ranges");
    map[DISC_RECORD..RESERVED.start].fill(0xFF);
    record.write(&mut map);
    for block in map.chunks_exact_mut(geometry.sector_size) {
        for block_bit in geometry.end_block_bit()..8 * geometry.sector_size {
            set_bit(block, block_bit, true);
        }
    }
    repair_zone_checks(&mut map, geometry.sector_size);
    map
}

/// The map of 256-byte sectors with these cross checks.
pub fn with_cross_checks(mut map: Vec<u8>, bytes: [u8; 3]) -> Vec<u8> {
    for (block, byte) in map.chunks_exact_mut(256).zip(bytes) {
        block[3] = byte;
    }
    repair_zone_checks(&mut map, 256);
    map
}

/// The free spans of a map.
pub fn spans_of(map: &[u8]) -> Vec<u32> {
    let mut case = Case::new(Call::Free, map);
    case.list = vec![0; 4_096];
    let outcome = case.run();
    outcome.list[..2 * outcome.values[0] as usize].to_vec()
}

/// The pairs of an object that is on the map.
pub fn pairs_of(map: &[u8], id: u32) -> Vec<u32> {
    let mut case = Case::new(Call::List, map);
    case.number = id;
    case.list = vec![0; 4_096];
    let outcome = case.run();
    outcome.list[..2 * outcome.values[0] as usize].to_vec()
}

/// One zone with two holes, (12,100) and (132,50).
pub fn two_holes() -> Vec<u8> {
    build(
        &plain(1),
        &[vec![
            object(2, 12),
            free(100),
            object(6, 20),
            free(50),
            object(7, 1_354),
        ]],
    )
}

/// Short zones of few ids: Z 512, P 32, k 1 and m 16 for an idlen of 15, and 1,024
/// bytes of disc behind a map bit. Zone 0 has 32 bits.
pub fn short_zones(nzones: u16) -> DiscRecord {
    let record = DiscRecord {
        idlen: 15,
        zone_spare: 2_048 - 512,
        ..plain(nzones)
    };
    disc_of(nzones as u32 * 512 - 480, record)
}

/// The lowest id from 3 of a short zone.
pub fn lowest(zone: u32) -> u32 {
    (32 * zone).max(3)
}

/// The disc bit of a hole at a short zone's end.
pub fn at_the_end(zone: u32, length: u32) -> u32 {
    512 * (zone + 1) - 480 - length
}

/// Full short zones, but for a hole of some length at the end of some zones.
pub fn with_holes(nzones: u16, holes: &[(usize, usize)]) -> Vec<u8> {
    let mut zones = full_zones(&short_zones(nzones));
    for (zone, length) in holes {
        let last = zones[*zone].last_mut().expect("a full zone");
        last.1 -= length;
        zones[*zone].push(free(*length));
    }
    build(&short_zones(nzones), &zones)
}

/// Fragments of m bits with these ids, but that the last one has all that is left of so
/// many bits.
pub fn filled(ids: &[u32], m: usize, bits: usize) -> Parts {
    let mut parts: Parts = ids.iter().map(|id| object(*id, m)).collect();
    parts.last_mut().expect("an id").1 += bits - m * ids.len();
    parts
}

/// A short zone filled with these ids.
pub fn of_ids(ids: Range<u32>) -> Parts {
    filled(&Vec::from_iter(ids), 16, 512)
}

/// Three zones, all free but object 2.
pub fn three_free_zones() -> Vec<u8> {
    build(
        &plain(3),
        &[
            vec![free(1_536)],
            vec![object(2, 12), free(2_004)],
            vec![free(2_016)],
        ],
    )
}

/// Four zones with objects of the start zones 0 to 3 in several zones each,
/// and objects 1 and 2 in two places.
pub fn four_zones() -> Vec<u8> {
    build(
        &plain(4),
        &[
            vec![
                object(600, 20),
                object(400, 21),
                object(170, 22),
                object(100, 23),
                object(1, 36),
                free(1_414),
            ],
            vec![
                object(100, 24),
                object(170, 25),
                object(400, 26),
                object(600, 27),
                object(2, 35),
                free(1_879),
            ],
            vec![object(2, 12), object(400, 28), object(600, 29), free(1_947)],
            vec![
                object(2, 30),
                object(1, 31),
                object(600, 32),
                object(170, 33),
                object(600, 34),
                free(1_856),
            ],
        ],
    )
}

/// 255 zones of 126 ids each; object 20,000, whose start zone is 158, has a
/// fragment in every one of them.
pub fn all_255_zones() -> Vec<u8> {
    let mut zones = vec![vec![free(1_984), object(20_000, 32)]; 255];
    zones[0] = vec![free(1_504), object(20_000, 32)];
    zones[127] = vec![object(2, 16), object(20_000, 32), free(1_968)];
    build(&many_zones(255), &zones)
}

/// No free fragment at all: objects 2 and 5 fill the only zone.
pub fn nothing_free() -> Vec<u8> {
    build(&plain(1), &[vec![object(2, 12), object(5, 1_524)]])
}

/// The disc of `three_zones` ends 100 map bits before its map.
pub fn three_zones_record() -> DiscRecord {
    DiscRecord {
        log2bpmb: 9,
        disc_size: (3 * 2_016 - 480 - 100) * 512,
        ..plain(3)
    }
}

pub fn three_zones_parts() -> [Parts; 3] {
    [
        vec![object(7, 20), free(1_000), object(8, 516)],
        vec![object(2, 12), object(7, 20), free(1_984)],
        vec![free(1_000), object(7, 900), object(1, 116)],
    ]
}

/// Three zones: object 2 first in zone 1, a free fragment in each.
pub fn three_zones() -> Vec<u8> {
    build(&three_zones_record(), &three_zones_parts())
}

pub fn touching_parts() -> [Parts; 3] {
    [
        vec![object(7, 20), free(1_000), object(8, 516)],
        vec![object(2, 12), object(7, 20), free(984), free(1_000)],
        vec![free(500), free(500), object(7, 900), object(1, 116)],
    ]
}

/// The same zones with free fragments that touch, in zones 1 and 2.
pub fn touching_free() -> Vec<u8> {
    build(&three_zones_record(), &touching_parts())
}

// ------------------------------------------------- damage to `three_zones`

/// One damage to the map of `three_zones`. Zone 0 starts at bit 512 of byte 0,
/// zone 1 at bit 32 of byte 256, zone 2 at bit 32 of byte 512.
pub type Damage = fn(&mut Vec<u8>);

pub const CHECK_0: Damage = |map| map[0] ^= 0x80;
pub const CHECK_1: Damage = |map| map[256] ^= 1;
pub const CHECK_2: Damage = |map| map[512] ^= 2;
pub const CROSS_1: Damage = |map| {
    map[256 + 3] ^= 4;
    repair_zone_checks(map, 256);
};
pub const FRAGMENT_0: Damage = |map| set_bit(&mut map[0..256], 2_047, false);
pub const FRAGMENT_1: Damage = |map| set_bit(&mut map[256..512], 2_047, false);
pub const FRAGMENT_2: Damage = |map| set_bit(&mut map[512..768], 2_047 - 5, true);
pub const TOP_BIT_0: Damage = |map| map[2] &= 0x7F;
pub const TOP_BIT_1: Damage = |map| map[256 + 2] &= 0x7F;
pub const LINK_1: Damage = |map| map[256 + 1] ^= 1;
pub const LINK_2: Damage = |map| set_number(&mut map[512..768], 32, 11, 1_001);
pub const LINK_END_2: Damage = |map| set_number(&mut map[512..768], 32, 11, 2_016);
pub const ID_0: Damage = |map| set_number(&mut map[0..256], 512, 11, 0);
pub const ID_1: Damage = |map| set_number(&mut map[256..512], 44, 11, 3 * 168);
pub const OBJECT_2: Damage = |map| set_number(&mut map[256..512], 32, 11, 3);
pub const DISC_END: Damage = |map| set_number(&mut map[512..768], 1_932, 11, 3);
pub const CHAIN_GONE_0: Damage = |map| map[1..3].copy_from_slice(&[0, 0x80]);
/// FreeLink into the disc record.
pub const LINK_RECORD_0: Damage = |map| map[1..3].copy_from_slice(&[24, 0x80]);
/// FreeLink onto the bit before the first allocation bit.
pub const LINK_503_0: Damage = |map| map[1..3].copy_from_slice(&[0xF7, 0x81]);

/// `three_zones` with damages, its zone checks and cross checks as they come.
pub fn damaged(damages: &[Damage]) -> Vec<u8> {
    let mut map = three_zones();
    for damage in damages {
        damage(&mut map);
    }
    map
}

/// The same with zone checks and cross checks made right again, so that a
/// deeper refusal is the one reached.
pub fn damaged_below_checks(damages: &[Damage]) -> Vec<u8> {
    let mut map = damaged(damages);
    repair_cross_checks(&mut map, 256);
    repair_zone_checks(&mut map, 256);
    map
}
