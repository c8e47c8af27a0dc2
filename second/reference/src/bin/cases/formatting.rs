//! Document 02, R-13, "Format a blank disc": "Given log2secsize, capacity in bytes, and
//! idlen, choose bytes per map bit from source document 001's table [...] Use zone_spare 32
//! and the fewest zones that cover the capacity within the record's ranges for version 0,
//! refusing with 2 if there's no such number. Draw the map with object 2 at the middle zone,
//! as short as m, k and two map copies allow, the map's overhang, if any, in object 1
//! (reaching back to m bits if shorter), each other stretch one free fragment [...] A
//! stretch shorter than m goes to object 2 if it directly follows object 2, else to the
//! overhang it precedes."
//!
//! What a map becomes is built of fragments that are written out, never by the format. Zone
//! 0 has 1,536, 3,584 or 7,680 bits by the sector, and every other zone 2,016, 4,064 or
//! 8,160. Up to 124 Mbytes a map bit is 256 bytes, so that a cluster has 1, 2 or 4 bits.

use reference::case::{Call, Case};
use reference::generate::{as_e_plus, build, map_a, map_b};
use reference::geometry::DiscRecord;

use crate::calls::{groups, Cases};
use crate::maps::{free, object, pairs_of, spans_of, three_zones, Parts};

groups![
    floppies,
    one_zone_whose_objects_meet,
    one_zone_with_a_stretch_after_object_2,
    one_zone_with_a_short_overhang,
    two_zones_whose_objects_meet,
    two_zones_with_a_stretch_after_object_2,
    two_zones_with_a_short_overhang,
    stretch_before_the_overhang,
    short_overhang_of_several_zones,
    middle_zone,
    room_for_two_copies,
    lengths_of_few_zones,
    most_zones_by_ids,
    no_larger_map_bit,
    limits_of_the_table,
    shorter_ids_at_the_limits,
    limits_drawn,
    two_copies_in_part_bits,
    two_copies_of_large_map_bits,
    part_bit_on_the_disc,
    part_bit_at_the_maps_end,
    part_bit_at_a_zones_start,
    whole_bits_at_a_zones_edge,
    nothing_to_format,
    no_multiple_of_the_sector,
    above_the_table,
    log2secsize_outside,
    idlen_outside,
    another_length,
    lengths_of_other_maps,
    every_2_before_1,
    whatever_the_buffer_holds,
    older_maps,
    refused_buffers,
    read_after_it,
    edits_after_it,
    claims_over_all_zones,
    nothing_free_after_it,
];

/// A disc to format.
#[derive(Clone, Copy)]
struct Disc {
    log2secsize: u32,
    idlen: u32,
    capacity: u64,
}

impl Disc {
    /// So many map bits of 256 bytes.
    fn of_bits(log2secsize: u32, idlen: u32, bits: u64) -> Disc {
        Disc {
            log2secsize,
            idlen,
            capacity: 256 * bits,
        }
    }

    fn sector(&self) -> u64 {
        1 << self.log2secsize
    }

    /// The record of its map, with a map bit of 2^log2bpmb bytes.
    fn record(&self, log2bpmb: u8, nzones: usize) -> DiscRecord {
        DiscRecord {
            log2secsize: self.log2secsize as u8,
            idlen: self.idlen as u8,
            log2bpmb,
            nzones: nzones as u16,
            zone_spare: 32,
            disc_size: self.capacity as u32,
            size_high: 0,
            version: 0,
        }
    }
}

const MBYTE: u64 = 1_048_576;

/// Every log2secsize and idlen there is, and the most zones by P*nzones, 255 being the
/// most of all.
const KINDS: [(u32, u32, u64); 12] = [
    (8, 11, 12),
    (8, 12, 26),
    (8, 13, 56),
    (8, 14, 122),
    (8, 15, 255),
    (9, 12, 13),
    (9, 13, 28),
    (9, 14, 60),
    (9, 15, 129),
    (10, 13, 14),
    (10, 14, 30),
    (10, 15, 64),
];

/// Of each log2secsize a short id and the longest, with k and m.
const CLUSTERS: [(u32, u32, u64, u64); 6] = [
    (8, 11, 1, 12),
    (8, 15, 1, 16),
    (9, 12, 2, 14),
    (9, 15, 2, 16),
    (10, 13, 4, 16),
    (10, 15, 4, 16),
];

/// Z, "8S - zone_spare".
fn zone_bits(log2secsize: u32) -> u64 {
    (8 << log2secsize) - 32
}

/// The map bits of so many zones.
fn bits_of(log2secsize: u32, nzones: u64) -> u64 {
    nzones * zone_bits(log2secsize) - 480
}

/// Zones that are free but for object 2, which has so many bits at the start of zone
/// `middle`, and for what the last one holds.
fn zones(log2secsize: u32, nzones: usize, middle: usize, two: u64, last: Parts) -> Vec<Parts> {
    let bits = zone_bits(log2secsize) as usize;
    let mut zones = vec![vec![free(bits)]; nzones];
    zones[0] = vec![free(bits - 480)];
    zones[middle] = vec![object(2, two as usize), free(bits - two as usize)];
    zones[nzones - 1] = last;
    zones
}

/// Formats a disc in a buffer of bytes 0, which becomes the map of these fragments.
#[track_caller]
fn drawn(cases: &mut Cases, disc: Disc, log2bpmb: u8, zones: &[Parts]) -> Vec<u8> {
    let map = build(&disc.record(log2bpmb, zones.len()), zones);
    formats(cases, disc, &vec![0; map.len()]).leaves(&map);
    map
}

/// The call itself.
fn formats(cases: &mut Cases, disc: Disc, buffer: &[u8]) -> crate::calls::Answer {
    cases.format(disc.log2secsize, disc.capacity, disc.idlen, buffer)
}

/// The length of a disc's map.
#[track_caller]
fn long(cases: &mut Cases, disc: Disc, zones: u64) {
    let answer = cases.format_length(disc.log2secsize, disc.capacity, disc.idlen);
    answer.answers(&[zones * disc.sector()]);
}

/// A disc whose length is refused.
#[track_caller]
fn refused_length(cases: &mut Cases, disc: Disc) {
    let answer = cases.format_length(disc.log2secsize, disc.capacity, disc.idlen);
    answer.gives(2);
}

/// Both calls on a disc that is refused, with a buffer for so many zones.
#[track_caller]
fn refused(cases: &mut Cases, disc: Disc, zones: u64) {
    refused_length(cases, disc);
    let buffer = vec![0x5A; (zones * disc.sector()) as usize];
    formats(cases, disc, &buffer).gives(2);
}

// ------------------------------------------------------------------------ floppies

/// 800K and 1,600K, with every sector: in one zone, in two and in four.
fn floppies(cases: &mut Cases) {
    let disc = |log2secsize, idlen, kilobytes: u64| Disc {
        log2secsize,
        idlen,
        capacity: 1_024 * kilobytes,
    };
    let one = |two, rest, overhang| vec![vec![object(2, two), free(rest), object(1, overhang)]];
    for idlen in [13, 15] {
        drawn(cases, disc(10, idlen, 800), 8, &one(16, 3_184, 4_480));
    }
    drawn(cases, disc(10, 15, 1_600), 8, &one(16, 6_384, 1_280));
    drawn(cases, disc(9, 12, 800), 8, &one(14, 3_186, 384));
    drawn(cases, disc(9, 15, 800), 8, &one(16, 3_184, 384));
    let last = vec![object(2, 14), free(2_802), object(1, 1_248)];
    drawn(cases, disc(9, 13, 1_600), 8, &[vec![free(3_584)], last]);
    for (idlen, m) in [(11, 12), (15, 16)] {
        let last = vec![object(2, m), free(1_664 - m), object(1, 352)];
        drawn(cases, disc(8, idlen, 800), 8, &[vec![free(1_536)], last]);
        let last = vec![free(832), object(1, 1_184)];
        let zones = zones(8, 4, 2, m as u64, last);
        drawn(cases, disc(8, idlen, 1_600), 8, &zones);
    }
}

// --------------------------------------------------------------- one zone and two

/// "If object 2 and the overhang can't both be drawn, refuse with 2": under m bits of
/// disc, from one sector on. With m bits they touch, and nothing is free.
fn one_zone_whose_objects_meet(cases: &mut Cases) {
    for (log2secsize, idlen, k, m) in CLUSTERS {
        let disc = |bits| Disc::of_bits(log2secsize, idlen, bits);
        for bits in [k, m - k] {
            refused(cases, disc(bits), 1);
        }
        let rest = bits_of(log2secsize, 1) - m;
        let zone = vec![object(2, m as usize), object(1, rest as usize)];
        let map = drawn(cases, disc(m), 8, &[zone]);
        assert_eq!(map[1..3], [0, 0x80]);
    }
}

/// "A stretch shorter than m goes to object 2 if it directly follows object 2", though the
/// overhang follows it: from one cluster to all of m but one. A stretch of m is free.
fn one_zone_with_a_stretch_after_object_2(cases: &mut Cases) {
    for (log2secsize, idlen, k, m) in CLUSTERS {
        let all = bits_of(log2secsize, 1);
        for stretch in [k, m - k] {
            let (two, one) = (m + stretch, all - m - stretch);
            let zone = vec![object(2, two as usize), object(1, one as usize)];
            let disc = Disc::of_bits(log2secsize, idlen, m + stretch);
            drawn(cases, disc, 8, &[zone]);
        }
        for stretch in [m, m + k] {
            let zone = free_between(all, m, stretch);
            let disc = Disc::of_bits(log2secsize, idlen, m + stretch);
            drawn(cases, disc, 8, &[zone]);
        }
    }
}

/// A zone of object 2, a free stretch and the overhang.
fn free_between(all: u64, two: u64, stretch: u64) -> Parts {
    let overhang = all - two - stretch;
    vec![
        object(2, two as usize),
        free(stretch as usize),
        object(1, overhang as usize),
    ]
}

/// "(reaching back to m bits if shorter)": an overhang of one cluster, of all of m but
/// one, of m and of one more; and none, "if any".
fn one_zone_with_a_short_overhang(cases: &mut Cases) {
    for (log2secsize, idlen, k, m) in CLUSTERS {
        let all = bits_of(log2secsize, 1);
        for (overhang, drawn_as) in [(k, m), (m - k, m), (m, m), (m + k, m + k)] {
            let zone = free_between(all, m, all - m - drawn_as);
            let disc = Disc::of_bits(log2secsize, idlen, all - overhang);
            drawn(cases, disc, 8, &[zone]);
        }
        let zone = vec![object(2, m as usize), free((all - m) as usize)];
        drawn(cases, Disc::of_bits(log2secsize, idlen, all), 8, &[zone]);
    }
}

/// Two zones are the fewest from one cluster past zone 0 on, and the second holds both:
/// refused up to m bits. Three zones would have the same middle zone.
fn two_zones_whose_objects_meet(cases: &mut Cases) {
    for (log2secsize, idlen, k, m) in CLUSTERS {
        let first = bits_of(log2secsize, 1);
        let disc = |bits| Disc::of_bits(log2secsize, idlen, first + bits);
        let buffer = vec![0x5A; 2 << log2secsize];
        formats(cases, disc(k), &buffer).gives(2);
        refused_length(cases, disc(2 * k));
        refused(cases, disc(m - k), 2);
        let rest = zone_bits(log2secsize) - m;
        let last = vec![object(2, m as usize), object(1, rest as usize)];
        let zones = [vec![free(first as usize)], last];
        drawn(cases, disc(m), 8, &zones);
    }
    // Nor with three zones' buffer, or with one's.
    let disc = Disc::of_bits(8, 11, 1_537);
    for zones in [1, 3] {
        formats(cases, disc, &vec![0; 256 * zones]).gives(2);
    }
}

/// As in one zone.
fn two_zones_with_a_stretch_after_object_2(cases: &mut Cases) {
    for (log2secsize, idlen, k, m) in CLUSTERS {
        let (first, all) = (bits_of(log2secsize, 1), zone_bits(log2secsize));
        let disc = |bits| Disc::of_bits(log2secsize, idlen, first + bits);
        for stretch in [k, m - k] {
            let (two, one) = (m + stretch, all - m - stretch);
            let last = vec![object(2, two as usize), object(1, one as usize)];
            let zones = [vec![free(first as usize)], last];
            drawn(cases, disc(m + stretch), 8, &zones);
        }
        let zones = [vec![free(first as usize)], free_between(all, m, m)];
        drawn(cases, disc(2 * m), 8, &zones);
    }
}

/// As in one zone.
fn two_zones_with_a_short_overhang(cases: &mut Cases) {
    for (log2secsize, idlen, k, m) in CLUSTERS {
        let (first, all) = (bits_of(log2secsize, 1), zone_bits(log2secsize));
        for (overhang, drawn_as) in [(k, m), (m, m)] {
            let last = free_between(all, m, all - m - drawn_as);
            let disc = Disc::of_bits(log2secsize, idlen, first + all - overhang);
            drawn(cases, disc, 8, &[vec![free(first as usize)], last]);
        }
        let last = vec![object(2, m as usize), free((all - m) as usize)];
        let disc = Disc::of_bits(log2secsize, idlen, first + all);
        drawn(cases, disc, 8, &[vec![free(first as usize)], last]);
    }
}

// -------------------------------------------------------------------- several zones

/// "else to the overhang it precedes": from one cluster in the last of three zones on, the
/// zone is all object 1's, in one fragment. A stretch of m is free.
fn stretch_before_the_overhang(cases: &mut Cases) {
    for (log2secsize, idlen, k, m) in CLUSTERS {
        let (first, all) = (bits_of(log2secsize, 2), zone_bits(log2secsize));
        // Two copies of three blocks take 6, 12 or 24 bits.
        let two = m.max(6 * k);
        let disc = |bits| Disc::of_bits(log2secsize, idlen, first + bits);
        for stretch in [k, m - k] {
            let last = vec![object(1, all as usize)];
            let zones = zones(log2secsize, 3, 1, two, last);
            drawn(cases, disc(stretch), 8, &zones);
        }
        let last = vec![free(m as usize), object(1, (all - m) as usize)];
        let zones = zones(log2secsize, 3, 1, two, last);
        drawn(cases, disc(m), 8, &zones);
    }
}

/// An overhang at the end of the third zone: shorter than m, m, and none.
fn short_overhang_of_several_zones(cases: &mut Cases) {
    for (log2secsize, idlen, k, m) in [CLUSTERS[0], CLUSTERS[2], CLUSTERS[4]] {
        let (whole, all) = (bits_of(log2secsize, 3), zone_bits(log2secsize));
        let two = m.max(6 * k);
        for overhang in [k, m - k, m] {
            let last = vec![free((all - m) as usize), object(1, m as usize)];
            let zones = zones(log2secsize, 3, 1, two, last);
            let disc = Disc::of_bits(log2secsize, idlen, whole - overhang);
            drawn(cases, disc, 8, &zones);
        }
        let zones = zones(log2secsize, 3, 1, two, vec![free(all as usize)]);
        drawn(cases, Disc::of_bits(log2secsize, idlen, whole), 8, &zones);
    }
}

/// "object 2 at the middle zone", nzones div 2: of 3, 4, 5 and 6 zones.
fn middle_zone(cases: &mut Cases) {
    for (nzones, middle) in [(3, 1), (4, 2), (5, 2), (6, 3)] {
        let last = vec![free(1_000), object(1, 1_016)];
        let zones = zones(8, nzones, middle, 13, last);
        let bits = bits_of(8, nzones as u64) - 1_016;
        drawn(cases, Disc::of_bits(8, 12, bits), 8, &zones);
    }
}

/// "as short as m, k and two map copies allow": two blocks for each zone, where these take
/// more than m bits. A sector is a bit, two or four.
fn room_for_two_copies(cases: &mut Cases) {
    for (log2secsize, idlen, nzones, two) in [
        (8, 11, 6, 12),
        (8, 11, 7, 14),
        (8, 11, 12, 24),
        (8, 15, 8, 16),
        (8, 15, 9, 18),
        (9, 13, 3, 14),
        (9, 12, 4, 16),
        (9, 14, 5, 20),
        (10, 14, 3, 24),
        (10, 15, 5, 40),
    ] {
        let bits = zone_bits(log2secsize) as usize;
        let zones = zones(log2secsize, nzones, nzones / 2, two, vec![free(bits)]);
        let bits = bits_of(log2secsize, nzones as u64);
        drawn(cases, Disc::of_bits(log2secsize, idlen, bits), 8, &zones);
    }
}

// --------------------------------------------------------------------------- zones

/// "the fewest zones that cover the capacity": so many cover all of their bits, and a
/// sector more takes another zone.
fn lengths_of_few_zones(cases: &mut Cases) {
    for (log2secsize, idlen, _) in KINDS {
        for nzones in [1, 2, 3, 7] {
            let disc = Disc::of_bits(log2secsize, idlen, bits_of(log2secsize, nzones));
            long(cases, disc, nzones);
            let capacity = disc.capacity - disc.sector();
            long(cases, Disc { capacity, ..disc }, nzones);
            let capacity = disc.capacity + disc.sector();
            let more = Disc { capacity, ..disc };
            if nzones == 1 {
                // Object 2 and the overhang meet.
                refused_length(cases, more);
            } else {
                long(cases, more, nzones + 1);
            }
        }
    }
}

/// "within the record's ranges": "P*nzones at most 2^idlen", and P has idlen+1 as its
/// divisor, not m. A sector more than the most zones cover is refused; so is all that
/// takes more zones, up to the table's first limit and past it.
fn most_zones_by_ids(cases: &mut Cases) {
    for (log2secsize, idlen, most) in KINDS {
        if idlen == 15 {
            // As many as the table can ask for.
            continue;
        }
        let disc = Disc::of_bits(log2secsize, idlen, bits_of(log2secsize, most));
        long(cases, disc, most);
        let capacity = disc.capacity - disc.sector();
        long(cases, Disc { capacity, ..disc }, most);
        for capacity in [
            disc.capacity + disc.sector(),
            256 * bits_of(log2secsize, most + 1),
            256 * bits_of(log2secsize, most + 3),
            100 * MBYTE,
        ] {
            refused_length(cases, Disc { capacity, ..disc });
        }
    }
    // All of 13 zones are drawn, and there is none for a 14th, whatever the buffer.
    let zones = zones(9, 13, 6, 52, vec![free(4_064)]);
    let disc = Disc::of_bits(9, 12, bits_of(9, 13));
    drawn(cases, disc, 8, &zones);
    let capacity = disc.capacity + 512;
    for zones in [13, 14] {
        formats(cases, Disc { capacity, ..disc }, &vec![7; 512 * zones]).gives(2);
    }
}

/// Bytes per map bit go by the capacity alone: twice or eight times as many would make a
/// number of zones that is in range.
fn no_larger_map_bit(cases: &mut Cases) {
    for (log2secsize, idlen, most) in KINDS {
        if idlen == 15 {
            continue;
        }
        for factor in [2, 8] {
            let bits = factor * bits_of(log2secsize, most);
            if 256 * bits <= 124 * MBYTE {
                refused_length(cases, Disc::of_bits(log2secsize, idlen, bits));
            }
        }
        for capacity in [124 * MBYTE, 249 * MBYTE, 499 * MBYTE, 999 * MBYTE] {
            let disc = Disc {
                log2secsize,
                idlen,
                capacity,
            };
            refused_length(cases, disc);
        }
    }
}

// --------------------------------------------------------------------------- table

/// "limits included": at a limit, a sector less and a sector more, which takes the next
/// row, with about half as many zones, or is above the table. A limit counts Mbytes of
/// 1,048,576 bytes.
fn limits_of_the_table(cases: &mut Cases) {
    let fewest = [
        (8, [(253, 127), (254, 127), (254, 127), (254, 0)]),
        (9, [(126, 63), (126, 63), (126, 63), (126, 0)]),
        (10, [(63, 32), (63, 32), (63, 32), (63, 0)]),
    ];
    for (log2secsize, rows) in fewest {
        for (mbytes, (at_limit, above)) in [124, 249, 499, 999].into_iter().zip(rows) {
            let disc = |capacity| Disc {
                log2secsize,
                idlen: 15,
                capacity,
            };
            let (limit, sector) = (mbytes * MBYTE, disc(0).sector());
            long(cases, disc(limit), at_limit);
            long(cases, disc(limit - sector), at_limit);
            match above {
                0 => refused_length(cases, disc(limit + sector)),
                _ => long(cases, disc(limit + sector), above),
            }
        }
    }
}

/// The same with every shorter id: too many ids, at the limit and just above it.
fn shorter_ids_at_the_limits(cases: &mut Cases) {
    for (log2secsize, idlen, _) in KINDS {
        if idlen == 15 {
            continue;
        }
        for mbytes in [124, 249, 499, 999] {
            let disc = Disc {
                log2secsize,
                idlen,
                capacity: mbytes * MBYTE + (1 << log2secsize),
            };
            refused_length(cases, disc);
            let capacity = mbytes * MBYTE - disc.sector();
            refused_length(cases, Disc { capacity, ..disc });
        }
    }
}

/// 124 Mbytes in 253 zones, the most that a row of whole bits takes; and 999 Mbytes in 63.
fn limits_drawn(cases: &mut Cases) {
    let disc = |log2secsize, mbytes: u64| Disc {
        log2secsize,
        idlen: 15,
        capacity: mbytes * MBYTE,
    };
    // 507,904 bits, and 253 zones have 509,568.
    let last = vec![free(352), object(1, 1_664)];
    drawn(cases, disc(8, 124), 8, &zones(8, 253, 126, 506, last));
    // 511,488 bits, and 63 zones have 513,600.
    let last = vec![free(6_048), object(1, 2_112)];
    drawn(cases, disc(10, 999), 11, &zones(10, 63, 31, 63, last));
}

/// Two copies in bits that are longer than sectors, "rounded up": 63 blocks of 512 bytes,
/// twice, in bits of 2,048.
fn two_copies_in_part_bits(cases: &mut Cases) {
    // 499 Mbytes have 255,488 bits of 2,048 bytes, and 63 zones have 255,552.
    let disc = Disc {
        log2secsize: 9,
        idlen: 15,
        capacity: 499 * MBYTE + 2_048,
    };
    let last = vec![free(4_001), object(1, 63)];
    drawn(cases, disc, 11, &zones(9, 63, 31, 32, last));
    // 127 blocks of 256 bytes, twice, in bits of 1,024.
    let disc = Disc {
        log2secsize: 8,
        idlen: 15,
        capacity: 249 * MBYTE + 1_024,
    };
    let last = vec![free(1_441), object(1, 575)];
    drawn(cases, disc, 10, &zones(8, 127, 63, 64, last));
}

/// The same where a cluster has two bits and a map bit 512 bytes, and where both are
/// 1,024: 32 blocks, twice.
fn two_copies_of_large_map_bits(cases: &mut Cases) {
    for (mbytes, log2bpmb, two) in [(125, 9, 128), (250, 10, 64)] {
        let disc = Disc {
            log2secsize: 10,
            idlen: 15,
            capacity: mbytes * MBYTE,
        };
        // 256,000 bits, and 32 zones have 260,640.
        let last = vec![free(3_520), object(1, 4_640)];
        drawn(cases, disc, log2bpmb, &zones(10, 32, 16, two, last));
    }
}

// ------------------------------------------------------------------------ part bits

/// A disc of whole map bits of 2^log2bpmb bytes and some sectors.
fn with_part(log2secsize: u32, log2bpmb: u8, bits: u64, sectors: u64) -> Disc {
    Disc {
        log2secsize,
        idlen: 15,
        capacity: (bits << log2bpmb) + (sectors << log2secsize),
    }
}

/// "Every disc bit from disc_size div B onward is owned by 1": where a map bit is longer
/// than a sector, the bit that is partly on the disc is the overhang's first, though the
/// record tells the whole capacity.
fn part_bit_on_the_disc(cases: &mut Cases) {
    // 127 zones have 255,552 bits.
    let disc = with_part(8, 9, 255_000, 1);
    let last = vec![free(1_464), object(1, 552)];
    let map = drawn(cases, disc, 9, &zones(8, 127, 63, 127, last));
    assert_eq!(map[20..24], (disc.capacity as u32).to_le_bytes());
    // 32 zones of 8,160 bits have 260,640.
    let last = vec![free(8_000), object(1, 160)];
    let disc = with_part(10, 11, 260_480, 1);
    drawn(cases, disc, 11, &zones(10, 32, 16, 32, last));
}

/// The part bit is the map's last: "(reaching back to m bits if shorter)", with one sector
/// of it or all but one. A whole bit in its place leaves no overhang.
fn part_bit_at_the_maps_end(cases: &mut Cases) {
    for sectors in [1, 7] {
        let last = vec![free(2_000), object(1, 16)];
        let disc = with_part(8, 11, 255_551, sectors);
        drawn(cases, disc, 11, &zones(8, 127, 63, 32, last));
    }
    for (log2secsize, log2bpmb, nzones) in [(8, 9, 127), (9, 10, 63), (9, 11, 63)] {
        let zones = nzones as u64;
        for disc in [
            with_part(log2secsize, log2bpmb, 255_551, 1),
            with_part(log2secsize, log2bpmb, 255_552, 0),
        ] {
            long(cases, disc, zones);
        }
    }
}

/// The part bit is the first of a zone more: all of that zone is the overhang, and the
/// zone before it is free to its end.
fn part_bit_at_a_zones_start(cases: &mut Cases) {
    let last = vec![object(1, 2_016)];
    let disc = with_part(8, 9, 255_552, 1);
    drawn(cases, disc, 9, &zones(8, 128, 64, 128, last));
    let last = vec![object(1, 8_160)];
    let disc = with_part(10, 11, 260_640, 1);
    drawn(cases, disc, 11, &zones(10, 33, 16, 33, last));
    for (log2secsize, log2bpmb, sectors, zones) in [
        (8, 10, 1, 128),
        (8, 10, 3, 128),
        (8, 11, 1, 128),
        (8, 11, 7, 128),
        (9, 10, 1, 64),
        (9, 11, 1, 64),
        (9, 11, 3, 64),
    ] {
        let disc = with_part(log2secsize, log2bpmb, 255_552, sectors);
        long(cases, disc, zones);
    }
}

/// A whole bit, and a part of another, in the last zone: shorter than m, so that the
/// overhang it precedes has the whole zone.
fn whole_bits_at_a_zones_edge(cases: &mut Cases) {
    let last = vec![object(1, 4_064)];
    let disc = with_part(9, 10, 255_552 + 15, 1);
    drawn(cases, disc, 10, &zones(9, 64, 32, 64, last));
    let last = vec![free(16), object(1, 4_048)];
    let disc = with_part(9, 10, 255_552 + 16, 1);
    drawn(cases, disc, 10, &zones(9, 64, 32, 64, last));
}

// ------------------------------------------------------------------------- refusals

/// "if it's 0": with any buffer.
fn nothing_to_format(cases: &mut Cases) {
    for (log2secsize, idlen, _) in KINDS {
        refused_length(cases, Disc::of_bits(log2secsize, idlen, 0));
    }
    for zones in [0, 1, 2] {
        let disc = Disc::of_bits(8, 11, 0);
        formats(cases, disc, &vec![0; 256 * zones]).gives(2);
    }
}

/// "or no multiple of the sector": a byte more or less than one, and what is a multiple of
/// a smaller sector alone.
fn no_multiple_of_the_sector(cases: &mut Cases) {
    for log2secsize in [8, 9, 10] {
        let disc = |capacity| Disc {
            log2secsize,
            idlen: 15,
            capacity,
        };
        let sector = disc(0).sector();
        for capacity in [
            1,
            sector - 1,
            sector + 1,
            819_200 - 1,
            819_200 + 1,
            819_200 + sector / 2,
            999 * MBYTE - 1,
            124 * MBYTE + 1,
        ] {
            refused_length(cases, disc(capacity));
        }
        refused(cases, disc(819_200 - sector / 2), 1);
    }
    // 800,000 bytes are 3,125 sectors of 256.
    let disc = |log2secsize| Disc {
        log2secsize,
        idlen: 15,
        capacity: 800_000,
    };
    long(cases, disc(8), 2);
    refused_length(cases, disc(9));
    refused_length(cases, disc(10));
}

/// "above that": a sector and more above 999 Mbytes, and capacities whose lower 32 bits are
/// those of an 800K disc, or whose sum with something small comes round to 0.
fn above_the_table(cases: &mut Cases) {
    for log2secsize in [8, 9, 10] {
        let sector = 1u64 << log2secsize;
        for capacity in [
            999 * MBYTE + 2_048,
            1_000 * MBYTE,
            1 << 31,
            (1 << 32) - sector,
            1 << 32,
            (1 << 32) + 819_200,
            (7 << 32) + 124 * MBYTE,
            (1 << 63) + 819_200,
            u64::MAX - sector + 1,
            u64::MAX,
        ] {
            let disc = Disc {
                log2secsize,
                idlen: 15,
                capacity,
            };
            refused_length(cases, disc);
        }
    }
    let disc = Disc {
        log2secsize: 10,
        idlen: 15,
        capacity: (1 << 32) + 819_200,
    };
    formats(cases, disc, &[0; 1_024]).gives(2);
}

/// "log2secsize 8 to 10": just outside and far, and numbers whose lower bits are inside.
fn log2secsize_outside(cases: &mut Cases) {
    for log2secsize in [
        0,
        6,
        7,
        11,
        12,
        31,
        32,
        40,
        64,
        72,
        255,
        256 + 8,
        (1 << 16) + 9,
        (1 << 31) + 8,
        u32::MAX - 7,
        u32::MAX,
    ] {
        for (capacity, idlen) in [(819_200, 15), (4 * MBYTE, 14)] {
            cases.format_length(log2secsize, capacity, idlen).gives(2);
        }
        cases
            .format(log2secsize, 819_200, 15, &[0x33; 512])
            .gives(2);
    }
}

/// "idlen from log2secsize+3 to 15": the longer ones are those of E+ discs, and this is
/// version 0. Numbers whose lower bits are inside are outside.
fn idlen_outside(cases: &mut Cases) {
    for log2secsize in [8, 9, 10] {
        for idlen in [
            0,
            log2secsize,
            log2secsize + 2,
            16,
            17,
            19,
            31,
            47,
            255,
            256 + 15,
            (1 << 16) + 15,
            (1 << 31) + 15,
            u32::MAX - 16,
            u32::MAX,
        ] {
            cases.format_length(log2secsize, 819_200, idlen).gives(2);
        }
    }
    cases.format(8, 819_200, 10, &[0x33; 512]).gives(2);
    for idlen in [16, 256 + 15] {
        cases.format(10, 819_200, idlen, &[0x33; 1_024]).gives(2);
    }
    // A capacity of so few bits that one zone covers them, whatever m would be.
    cases.format(9, 20_480, 11, &[0x33; 512]).gives(2);
}

/// "A map buffer of the wrong length is refused with 1": a byte, a block and all of it too
/// short, a byte and a block too long, and other discs' lengths.
fn another_length(cases: &mut Cases) {
    for (log2secsize, idlen, capacity, zones) in [
        (10, 15, 819_200, 1),
        (8, 11, 819_200, 2),
        (8, 15, 1_638_400, 4),
    ] {
        let (length, sector) = (zones << log2secsize, 1 << log2secsize);
        let mut others = vec![0, 1, 63, 64, length - 1, length + 1];
        others.extend([length + sector, 3 * length]);
        if zones > 1 {
            others.push(length - sector);
        }
        for other in others {
            let buffer = vec![0x77; other];
            let answer = cases.format(log2secsize, capacity, idlen, &buffer);
            answer.gives(1);
        }
    }
}

/// The length is judged by the zones there are, not by what the buffer's own record tells:
/// an accepted map of another length stays as it is.
fn lengths_of_other_maps(cases: &mut Cases) {
    cases.format(8, 819_200, 11, &map_a()).gives(1);
    cases.format(8, 819_200, 11, &three_zones()).gives(1);
    cases.format(8, 393_216, 11, &three_zones()).gives(1);
}

/// "after every 2": each of these with a buffer of a length that no disc has.
fn every_2_before_1(cases: &mut Cases) {
    for (log2secsize, capacity, idlen) in [
        (7, 819_200, 15),
        (8, 819_200, 10),
        (8, 819_200, 16),
        (8, 0, 15),
        (9, 819_200 + 256, 15),
        (10, 1_000 * MBYTE, 15),
        (8, 124 * MBYTE, 14),
        (9, 14 * 4_064 * 256, 12),
        // Object 2 and the overhang meet.
        (10, 1_024, 15),
        (8, 15 * 256, 15),
        (8, 1_537 * 256, 11),
        (9, 3_586 * 256, 12),
    ] {
        for length in [0, 255] {
            cases
                .format(log2secsize, capacity, idlen, &vec![0x99; length])
                .gives(2);
        }
    }
}

// -------------------------------------------------------------------------- buffers

/// "bytes not named here 0": whatever stood there, in the record, in the blocks and in the
/// last bytes of each.
fn whatever_the_buffer_holds(cases: &mut Cases) {
    let disc = Disc::of_bits(8, 11, 1_000);
    let zone = free_between(1_536, 12, 988);
    let map = build(&disc.record(8, 1), &[zone]);
    for byte in [0xFF, 0x01, 0x80] {
        formats(cases, disc, &[byte; 256]).leaves(&map);
    }
    let counted: Vec<u8> = (0..=255).collect();
    formats(cases, disc, &counted).leaves(&map);
    let disc = Disc::of_bits(8, 15, 3_200);
    let last = vec![object(2, 16), free(1_648), object(1, 352)];
    let map = build(&disc.record(8, 2), &[vec![free(1_536)], last]);
    formats(cases, disc, &[0xFF; 512]).leaves(&map);
    let disc = Disc::of_bits(10, 15, 3_200);
    let map = build(&disc.record(8, 1), &[free_between(7_680, 16, 3_184)]);
    formats(cases, disc, &[0xFF; 1_024]).leaves(&map);
}

/// Over an older map: one of the bench examples, an E+ one, one of other zones, and the
/// same disc's, blank or not.
fn older_maps(cases: &mut Cases) {
    let disc = Disc::of_bits(8, 11, 1_536);
    let map = build(&disc.record(8, 1), &[vec![object(2, 12), free(1_524)]]);
    for older in [map_a(), map_b(), as_e_plus(&map_b()), map.clone()] {
        formats(cases, disc, &older).leaves(&map);
    }
    let disc = Disc::of_bits(8, 11, bits_of(8, 3) - 1_016);
    let last = vec![free(1_000), object(1, 1_016)];
    let map = build(&disc.record(8, 3), &zones(8, 3, 1, 12, last));
    formats(cases, disc, &three_zones()).leaves(&map);
    let mut claim = Case::new(Call::Claim, &map);
    claim.wide = 100_000;
    claim.list = vec![0; 2];
    formats(cases, disc, &claim.run().map).leaves(&map);
}

/// "the lent map buffer is untouched by a refusal": an accepted map stays one.
fn refused_buffers(cases: &mut Cases) {
    for capacity in [0, 255, 11 * 256, 1_000 * MBYTE] {
        cases.format(8, capacity, 11, &map_b()).gives(2);
    }
    cases.format(9, 393_216, 12, &map_b()).gives(1);
    cases.format(8, 1_537 * 256, 11, &three_zones()).gives(2);
    let mixed: Vec<u8> = (0..768).map(|at| (at * 7 % 251) as u8).collect();
    cases.format(8, 819_200, 11, &mixed).gives(1);
    cases.format(8, 819_200, 16, &mixed).gives(2);
}

// ----------------------------------------------------------------------- afterwards

/// Blank discs that are read and edited: 800K in one zone, 1,600K in four, and three zones
/// of which the last is all object 1's.
fn blank_800k() -> Vec<u8> {
    let disc = Disc::of_bits(10, 15, 3_200);
    build(&disc.record(8, 1), &[free_between(7_680, 16, 3_184)])
}

fn blank_1600k() -> Vec<u8> {
    let last = vec![free(832), object(1, 1_184)];
    let disc = Disc::of_bits(8, 11, 6_400);
    build(&disc.record(8, 4), &zones(8, 4, 2, 12, last))
}

fn blank_three_zones() -> Vec<u8> {
    let disc = Disc::of_bits(8, 15, bits_of(8, 2) + 5);
    let last = vec![object(1, 2_016)];
    build(&disc.record(8, 3), &zones(8, 3, 1, 16, last))
}

/// "The drawn map must be accepted and list exactly these owners": objects 1 and 2, and no
/// other.
fn read_after_it(cases: &mut Cases) {
    for (map, two, one, spans) in [
        (blank_800k(), [0, 16], [3_200, 4_480], &[16, 3_184][..]),
        (
            blank_1600k(),
            [3_552, 12],
            [6_400, 1_184],
            &[0, 1_536, 1_536, 2_016, 3_564, 2_004, 5_568, 832],
        ),
        (
            blank_three_zones(),
            [1_536, 16],
            [3_552, 2_016],
            &[0, 1_536, 1_552, 2_000],
        ),
    ] {
        cases.check(&map).done();
        cases.list(&map, 1, 2).pairs(&one);
        cases.list(&map, 2, 2).pairs(&two);
        cases.free(&map, spans.len()).pairs(spans);
        cases.list(&map, 3, 2).gives(10);
        cases.mend_positions(&map, 0).lists(&[]);
        // Both copies are in object 2.
        let first = 256 * two[0] as u64;
        let second = first + map.len() as u64;
        assert!(second + map.len() as u64 <= first + 256 * two[1] as u64);
        cases.copy_addresses(&map).answers(&[first, second]);
        let object_2 = 256 * two[1] as u64;
        cases.address(&map, 0x0200, 0).answers(&[first, object_2]);
        cases.address(&map, 0x0200, object_2).gives(16);
    }
    // No overhang, no object 1.
    let disc = Disc::of_bits(8, 11, 1_536);
    let map = build(&disc.record(8, 1), &[vec![object(2, 12), free(1_524)]]);
    cases.check(&map).done();
    cases.list(&map, 1, 2).gives(10);
}

/// What demand 3 starts from: "no two free fragments of a zone touch". A claim and its
/// release, a place and its release give the blank map back.
fn edits_after_it(cases: &mut Cases) {
    let map = blank_800k();
    let claimed = cases.claim(&map, 1, 0).claims(3, &[16, 16]);
    assert_eq!(cases.release(&claimed, 3, 2).pairs(&[16, 16]), map);
    let placed = cases.place(&map, 9, &[100, 24, 3_180, 20]).done();
    let released = cases.release(&placed, 9, 4).pairs(&[100, 24, 3_180, 20]);
    assert_eq!(released, map);
    cases.place(&map, 9, &[3_184, 20]).gives(13);
    let map = blank_1600k();
    let claimed = cases.claim(&map, 100_000, 3).claims(504, &[5_568, 391]);
    assert_eq!(cases.release(&claimed, 504, 2).pairs(&[5_568, 391]), map);
    let map = blank_three_zones();
    let claimed = cases.claim(&map, 1, 2).claims(126, &[1_552, 16]);
    assert_eq!(cases.release(&claimed, 126, 2).pairs(&[1_552, 16]), map);
    cases.release(&map, 1, 2).gives(8);
    cases
        .sweep_free(&map, 3_552 * 256 - 100, 200)
        .answers(&[100]);
}

/// All that is free, in one piece for each zone, and given back.
fn claims_over_all_zones(cases: &mut Cases) {
    let map = blank_1600k();
    let size = 256 * (1_536 + 2_016 + 2_004 + 832);
    let claimed = cases.claim_in(&map, size, 0, 8);
    let spans = [1_536, 2_016, 3_564, 2_004, 5_568, 832, 0, 1_536];
    let claimed = claimed.claims(168, &spans);
    assert!(spans_of(&claimed).is_empty());
    assert_eq!(pairs_of(&claimed, 2), [3_552, 12]);
    assert_eq!(cases.release(&claimed, 168, 8).pairs(&spans), map);
    cases.claim_in(&map, size + 1, 0, 8).gives(15);
}

/// Object 2 and the overhang have all there is.
fn nothing_free_after_it(cases: &mut Cases) {
    let disc = Disc::of_bits(8, 11, 20);
    let zone = vec![object(2, 20), object(1, 1_516)];
    let map = build(&disc.record(8, 1), &[zone]);
    formats(cases, disc, &[0xCC; 256]).leaves(&map);
    cases.free(&map, 2).pairs(&[]);
    cases.list(&map, 2, 2).pairs(&[0, 20]);
    cases.claim(&map, 1, 0).gives(15);
    cases.sweep_free(&map, 0, 5_120).answers(&[0]);
}
