//! A deterministic generator: maps over all geometries of document 01, damage
//! to them, arguments for each call, runs of calls, claims on crowded maps, in one piece
//! and in several, pairs of copies, maps to mend, and discs to format. A seed decides all.

use std::ops::Range;

use crate::case::{Call, Case, Outcome, CALLS_ON_ONE_MAP};
use crate::edit::{need, pieces_taken};
use crate::format::TABLE;
use crate::geometry::{
    DiscRecord, Edition, Geometry, MOST_ZONES, NZONES_HIGH, RESERVED, SIZE_HIGH, VERSION,
    ZONE_0_SHORTFALL,
};
use crate::map::{
    block_mut, check, set_bit, set_number, write_fragments, zone_check_by_words, CheckedMap,
    Fragment, Owner,
};
use crate::mend::mend;

/// A small generator of numbers (splitmix64).
pub struct Rng {
    state: u64,
}

impl Rng {
    pub fn new(seed: u64) -> Rng {
        Rng { state: seed }
    }

    pub fn word(&mut self) -> u64 {
        self.state = self.state.wrapping_add(0x9E37_79B9_7F4A_7C15);
        let mut z = self.state;
        z = (z ^ (z >> 30)).wrapping_mul(0xBF58_476D_1CE4_E5B9);
        z = (z ^ (z >> 27)).wrapping_mul(0x94D0_49BB_1331_11EB);
        z ^ (z >> 31)
    }

    /// A number below `limit`, which is above 0.
    pub fn below(&mut self, limit: usize) -> usize {
        (self.word() % limit as u64) as usize
    }

    /// A number from `low` to `high`, both included.
    pub fn between(&mut self, low: usize, high: usize) -> usize {
        low + self.below(high - low + 1)
    }

    pub fn percent(&mut self, percent: usize) -> bool {
        self.below(100) < percent
    }

    pub fn pick<T: Copy>(&mut self, from: &[T]) -> T {
        from[self.below(from.len())]
    }

    pub fn byte(&mut self) -> u8 {
        self.word() as u8
    }

    /// Another generator, for decisions after which this one goes on as if there
    /// had been none.
    fn aside(&self) -> Rng {
        Rng::new(!self.state)
    }
}

/// The largest map, list and image stretch wanted.
#[derive(Clone, Copy, Debug)]
pub struct Sizes {
    pub map: usize,
    pub list: usize,
    pub image: usize,
}

// ---------------------------------------------------------------- valid maps

/// The longest zone of which `MOST_ZONES` have at most 2^15 ids.
const LONGEST_OF_MANY: usize = 128 * 16 + 15;

/// The fewest zones that a byte does not hold.
const ABOVE_A_BYTE: usize = 256;

/// A disc record inside its ranges, on which a valid map can stand. A third of
/// them are E+ (R-12 of document 02).
pub fn disc_record(rng: &mut Rng, largest_map: usize) -> DiscRecord {
    let mut aside = rng.aside();
    let record = record_of(rng, largest_map, Edition::E);
    if aside.percent(33) {
        return record_of(&mut aside, largest_map, Edition::EPlus);
    }
    record
}

/// A disc record of one edition. Few leave room for many zones, more than 127 or,
/// in E+, than a byte holds, so some are made for it.
pub fn record_of(rng: &mut Rng, largest_map: usize, edition: Edition) -> DiscRecord {
    let (many, percent) = match edition {
        Edition::E => (MOST_ZONES, 20),
        Edition::EPlus => (ABOVE_A_BYTE, 40),
    };
    let many = (largest_map >= many * 256 && rng.percent(percent)).then_some(edition);
    let log2secsize = rng.pick(&[8usize, 8, 8, 9, 10]);
    let idlen = match many {
        Some(Edition::E) => 15,
        Some(Edition::EPlus) => rng.between(16, 19),
        None => rng.between(log2secsize + 3, edition.longest_id() as usize),
    };
    let log2bpmb = rng.between(7, 12);
    let sector_size = 1usize << log2secsize;
    let k = 1 << log2secsize.saturating_sub(log2bpmb);

    let mut longest = 8 * sector_size - 32;
    if many == Some(Edition::E) {
        longest = longest.min(LONGEST_OF_MANY) / k * k;
    }
    let (zone_bits, power_of_two) = some_zone_bits(rng, idlen, k, longest);
    let by_ids = (1 << idlen) / (zone_bits / (idlen + 1));
    let most = by_ids
        .min(edition.most_zones())
        .min(largest_map / sector_size)
        .max(1);
    let nzones = if power_of_two && by_ids <= most {
        by_ids
    } else {
        some_nzones(rng, most, many)
    };

    let record = DiscRecord {
        log2secsize: log2secsize as u8,
        idlen: idlen as u8,
        log2bpmb: log2bpmb as u8,
        nzones: nzones as u16,
        zone_spare: (8 * sector_size - zone_bits) as u16,
        disc_size: sector_size as u32,
        size_high: 0,
        version: edition.version(),
    };
    DiscRecord {
        disc_size: some_disc_size(rng, &record),
        ..record
    }
}

/// Z: the longest, near it, near the shortest, anywhere, or one that makes P a power
/// of two, so that P*nzones can be 2^idlen. Answers whether it does.
fn some_zone_bits(rng: &mut Rng, idlen: usize, k: usize, longest: usize) -> (usize, bool) {
    let shortest = ZONE_0_SHORTFALL + (idlen + 1).div_ceil(k) * k;
    let mut power_of_two = false;
    let zone_bits = match rng.below(10) {
        0..=4 => longest,
        5 | 6 => longest - k * rng.below(60),
        7 => shortest + k * rng.below(4),
        8 => shortest + k * rng.below((longest - shortest) / k + 1),
        _ => {
            power_of_two = true;
            (rng.pick(&[32, 64, 128, 256, 512]) * (idlen + 1)).div_ceil(k) * k
        }
    };
    if zone_bits < shortest || zone_bits > longest {
        return (longest, false);
    }
    (zone_bits, power_of_two)
}

/// Where the disc of a record ends: the middle zone's first m bits must be on it,
/// and its size has 32 bits.
fn some_disc_size(rng: &mut Rng, record: &DiscRecord) -> u32 {
    let geometry = Geometry::accept(record).expect("a record inside its ranges");
    let (k, m) = (geometry.cluster_bits, geometry.shortest_fragment);
    let (sector_size, nzones) = (geometry.sector_size, geometry.nzones);
    let bytes_per_map_bit = geometry.bytes_per_map_bit as usize;
    let disc_bits = geometry
        .disc_bits()
        .min(u32::MAX as usize / bytes_per_map_bit);
    let zone_start = |zone: usize| (zone * geometry.zone_bits).saturating_sub(480);
    let middle = geometry.middle_zone();
    let earliest = zone_start(middle) + m;
    let mut end = match rng.below(10) {
        0..=3 => disc_bits,
        4 | 5 => rng.between(earliest, disc_bits),
        6 => zone_start(rng.between(middle + 1, nzones)),
        7 => disc_bits.saturating_sub(k * rng.below(m / k + 3)),
        8 => earliest + k * rng.below(m / k + 3),
        _ => (zone_start(rng.between(middle + 1, nzones)) + m / k * k)
            .saturating_sub(k * rng.below(2 * m / k + 1)),
    };
    end = end.clamp(earliest, disc_bits) / k * k;
    // If the disc ends in the middle zone, object 2 and the overhang need m
    // bits each.
    let middle_end = zone_start(middle + 1);
    if end < middle_end && end.min(middle_end - m) < earliest {
        end = disc_bits;
    }
    let mut disc_size = end * bytes_per_map_bit;
    if bytes_per_map_bit > sector_size && end < geometry.disc_bits() {
        disc_size += sector_size * rng.below(bytes_per_map_bit / sector_size);
    }
    disc_size as u32
}

/// A number of zones up to `most`: mostly few, or many for an edition. For version 0
/// that is from 128 on, and 255 about every second time; for E+ more than a byte
/// holds.
fn some_nzones(rng: &mut Rng, most: usize, many: Option<Edition>) -> usize {
    let nzones = match many {
        Some(Edition::E) => rng.between(128, 2 * MOST_ZONES - 128),
        Some(Edition::EPlus) => rng.between(ABOVE_A_BYTE, most.max(ABOVE_A_BYTE)),
        None => match rng.below(20) {
            0..=5 => 1,
            6..=13 => rng.between(2, 4),
            14..=17 => rng.between(5, 12),
            _ => rng.between(1, most),
        },
    };
    nzones.min(most)
}

/// Builds a map from owners and lengths, zone by zone; carried and reserved
/// bytes are 0, the cross check is 255 in zone 0 and 0 elsewhere.
pub fn build(record: &DiscRecord, zones: &[Vec<(Owner, usize)>]) -> Vec<u8> {
    let geometry = Geometry::accept(record).expect("a record inside its ranges");
    let mut map = vec![0; geometry.nzones * geometry.sector_size];
    record.write(&mut map);
    assert_eq!(zones.len(), geometry.nzones);
    for (zone, parts) in zones.iter().enumerate() {
        let mut start = geometry.first_block_bit(zone);
        let mut fragments = Vec::new();
        for (owner, length) in parts {
            fragments.push(Fragment {
                zone,
                start,
                length: *length,
                owner: *owner,
            });
            start += length;
        }
        assert_eq!(start, geometry.end_block_bit(), "zone {zone} not filled");
        let block = block_mut(&mut map, geometry.sector_size, zone);
        write_fragments(&geometry, block, &fragments);
    }
    map[3] = 255;
    repair_zone_checks(&mut map, geometry.sector_size);
    map
}

/// Writes the right zone check into every whole block.
pub fn repair_zone_checks(map: &mut [u8], sector_size: usize) {
    for block in map.chunks_exact_mut(sector_size) {
        block[0] = zone_check_by_words(block);
    }
}

/// A whole map with other bytes from one of zone 0's on, all its zone checks made
/// right again. Its blocks are those of the record before the change, so that a
/// byte of the record may be changed too.
pub fn with_bytes(map: &[u8], at: usize, bytes: &[u8]) -> Vec<u8> {
    let record = DiscRecord::read(map);
    let geometry = Geometry::accept(&record).expect("a record inside its ranges");
    assert_eq!(map.len(), geometry.nzones * geometry.sector_size);
    let mut map = map.to_vec();
    map[at..at + bytes.len()].copy_from_slice(bytes);
    repair_zone_checks(&mut map, geometry.sector_size);
    map
}

/// A whole map of version 0 as one of an E+ disc (R-12 of document 02), all else as
/// it was.
pub fn as_e_plus(map: &[u8]) -> Vec<u8> {
    with_bytes(map, VERSION.start, &[1])
}

/// Changes the last block's cross check so that all together give 255.
pub fn repair_cross_checks(map: &mut [u8], sector_size: usize) {
    let mut all = 0;
    for block in map.chunks_exact(sector_size) {
        all ^= block[3];
    }
    if let Some(block) = map.chunks_exact_mut(sector_size).last() {
        block[3] ^= all ^ 255;
    }
}

fn repair(map: &mut [u8], sector_size: usize) {
    repair_cross_checks(map, sector_size);
    repair_zone_checks(map, sector_size);
}

/// Lengths that fill `total` bits, each a multiple of k and at least m.
fn lengths(rng: &mut Rng, geometry: &Geometry, total: usize) -> Vec<usize> {
    let (k, m) = (geometry.cluster_bits, geometry.shortest_fragment);
    let style = rng.below(4);
    let mut lengths = Vec::new();
    let mut left = total;
    while left > 0 {
        let mut length = match style {
            0 => m + k * rng.below(4),
            1 => m + k * rng.below(60),
            2 if rng.percent(50) => m,
            2 => m + k * rng.below(400),
            _ => m + k * rng.below(total / k),
        };
        if length > left || left - length < m {
            length = left;
        }
        lengths.push(length);
        left -= length;
    }
    lengths
}

/// A valid map on a record.
pub fn valid_map(rng: &mut Rng, record: &DiscRecord) -> Vec<u8> {
    let geometry = Geometry::accept(record).expect("a record inside its ranges");
    let (k, m) = (geometry.cluster_bits, geometry.shortest_fragment);
    let last_id = geometry.ids() - 1;

    // Carried fields and bits after a zone's end: noise in half of the maps. The
    // reserved bytes are judged but in E+, and stay 0.
    let mut map = vec![0; geometry.nzones * geometry.sector_size];
    if rng.percent(50) {
        map.iter_mut().for_each(|byte| *byte = rng.byte());
        if geometry.edition == Edition::E {
            map[RESERVED].fill(0);
        }
    }
    record.write(&mut map);

    // A few ids come again and again, so that objects have several pieces.
    let mut pool = Vec::new();
    for _ in 0..rng.between(1, 6) {
        let id = match rng.below(6) {
            0 => 3,
            1 => last_id,
            2 => geometry.ids_per_zone * rng.below(geometry.nzones),
            3 => geometry.ids_per_zone * rng.between(1, geometry.nzones) - 1,
            _ => rng.between(3, last_id),
        };
        pool.push(id.max(3));
    }
    let free_percent = rng.pick(&[0, 20, 40, 40, 60, 60, 80, 100]);
    let free_may_touch = rng.percent(6);

    for zone in 0..geometry.nzones {
        let low = geometry.first_block_bit(zone);
        let high = geometry.end_block_bit();
        // The overhang starts at or before the disc's end.
        let disc_end = geometry.disc_end_bit();
        let overhang = if disc_end >= geometry.disc_bit(zone, high) {
            high
        } else if disc_end <= geometry.disc_bit(zone, low) {
            low
        } else {
            let latest = geometry.block_bit(disc_end).min(high - m) / k * k;
            if latest < low + m {
                low
            } else if rng.percent(80) {
                latest
            } else {
                low + m + rng.below((latest - low - m) / k + 1) * k
            }
        };

        let here = if rng.percent(20) {
            rng.pick(&[0, 50, 100])
        } else {
            free_percent
        };
        let mut parts: Vec<(Owner, usize)> = Vec::new();
        let mut body = overhang - low;
        if zone == geometry.middle_zone() {
            let mut length = m + k * rng.below(4);
            if length > body || body - length < m {
                length = body;
            }
            parts.push((Owner::Object(2), length));
            body -= length;
        }
        for length in lengths(rng, &geometry, body) {
            let owner = if rng.percent(here) {
                Owner::Free
            } else {
                Owner::Object(match rng.below(20) {
                    0 => 1,
                    1 => 2,
                    2..=6 => rng.between(3, last_id),
                    _ => rng.pick(&pool),
                } as u32)
            };
            match parts.last_mut() {
                Some((Owner::Free, before)) if owner == Owner::Free && !free_may_touch => {
                    *before += length
                }
                _ => parts.push((owner, length)),
            }
        }
        for length in lengths(rng, &geometry, high - overhang) {
            parts.push((Owner::Object(1), length));
        }

        let mut start = low;
        let mut fragments = Vec::new();
        for (owner, length) in parts {
            fragments.push(Fragment {
                zone,
                start,
                length,
                owner,
            });
            start += length;
        }
        let block = block_mut(&mut map, geometry.sector_size, zone);
        write_fragments(&geometry, block, &fragments);
    }
    repair(&mut map, geometry.sector_size);
    map
}

// -------------------------------------------------------------------- damage

/// Damages a valid map towards the refusals named, deepest first, repairing
/// the checks between so that a deeper refusal is the one reached.
pub fn damage(rng: &mut Rng, map: &mut Vec<u8>, refusals: &[u32]) {
    let checked = check(map).expect("a valid map to damage");
    let geometry = checked.geometry;
    let sector_size = geometry.sector_size;
    for refusal in [7, 6, 5, 2] {
        if refusals.contains(&refusal) {
            match refusal {
                7 => damage_owner(rng, map, &checked),
                6 => damage_fragment(rng, map, &checked),
                5 => damage_link(rng, map, &checked),
                _ => damage_record(rng, map, &geometry),
            }
            repair(map, sector_size);
        }
    }
    if refusals.contains(&4) {
        let zone = rng.below(geometry.nzones);
        block_mut(map, sector_size, zone)[3] ^= rng.between(1, 255) as u8;
        repair_zone_checks(map, sector_size);
    }
    if refusals.contains(&3) {
        for _ in 0..rng.between(1, 2) {
            let zone = rng.below(geometry.nzones);
            block_mut(map, sector_size, zone)[0] ^= rng.between(1, 255) as u8;
        }
    }
    if refusals.contains(&1) {
        damage_length(rng, map, &geometry);
    }
}

/// Towards refusal 1: another length, or a record with another nzones.
fn damage_length(rng: &mut Rng, map: &mut Vec<u8>, geometry: &Geometry) {
    let whole = map.len();
    let length = match rng.below(10) {
        0 => rng.below(64),
        1 => rng.pick(&[0, 1, 63, 64, 65]),
        2 => whole - 1,
        3 => whole + 1,
        4 => whole - geometry.sector_size,
        5 => whole + geometry.sector_size,
        6 => rng.below(whole),
        7 => whole + rng.below(300),
        _ => {
            let nzones = rng.between(1, MOST_ZONES) as u8;
            map[13] = nzones;
            repair(map, geometry.sector_size);
            whole
        }
    };
    map.resize(length, rng.byte());
    let mut aside = rng.aside();
    if map.len() == whole && geometry.edition == Edition::EPlus {
        damage_high_byte(&mut aside, map, geometry);
    }
}

/// Towards refusal 1 in E+: another high byte of nzones, or the length that would
/// be right without it.
fn damage_high_byte(rng: &mut Rng, map: &mut Vec<u8>, geometry: &Geometry) {
    if geometry.nzones > ABOVE_A_BYTE && rng.percent(50) {
        map.truncate(geometry.nzones % ABOVE_A_BYTE * geometry.sector_size);
    } else {
        map[NZONES_HIGH] = rng.pick(&[0, 1, 2, 16, 255]);
        repair(map, geometry.sector_size);
    }
}

/// Towards refusal 2: the reserved bytes, a field, or both, or what R-12 of
/// document 02 brought.
fn damage_record(rng: &mut Rng, map: &mut [u8], geometry: &Geometry) {
    let mut aside = rng.aside();
    if aside.percent(25) {
        damage_edition(&mut aside, map, geometry.edition);
    }
    let what = rng.below(10);
    if what < 4 {
        dirty_record(rng, map);
    }
    if what > 2 {
        damage_field(rng, map, geometry);
    }
}

/// Reserved bytes that are not 0 (R-7 of document 02): one alone, one bit alone,
/// two that add up to 0, those from one on, or all.
fn dirty_record(rng: &mut Rng, map: &mut [u8]) {
    let reserved = &mut map[RESERVED];
    let at = rng.below(reserved.len());
    let dirt = rng.between(1, 255) as u8;
    match rng.below(6) {
        0 | 1 => reserved[at] = dirt,
        2 => reserved[at] = 1 << rng.below(8),
        3 => {
            let other = (at + rng.between(1, reserved.len() - 1)) % reserved.len();
            reserved[at] = dirt;
            reserved[other] = dirt.wrapping_neg();
        }
        4 => {
            reserved[at..]
                .iter_mut()
                .for_each(|byte| *byte = rng.byte());
            reserved[at] = dirt;
        }
        _ => reserved.fill(dirt),
    }
}

/// What R-12 of document 02 judges: the version, the high half of the size, the
/// high byte of nzones, and the longest id.
fn damage_edition(rng: &mut Rng, map: &mut [u8], edition: Edition) {
    let set_bit = 1 << rng.below(8);
    match rng.below(10) {
        // Neither 0 nor 1, by one of the four bytes or by several.
        0 | 1 => map[rng.between(VERSION.start, VERSION.end - 1)] = set_bit,
        2 => {
            let version = rng.pick(&[2u32, 3, 255, 257, 65_537, 1 << 24 | 1, u32::MAX]);
            map[VERSION].copy_from_slice(&version.to_le_bytes());
        }
        // The other edition, all else as it was.
        3..=5 => map[VERSION.start] ^= 1,
        6 | 7 => map[rng.between(SIZE_HIGH.start, SIZE_HIGH.end - 1)] = set_bit,
        8 => map[NZONES_HIGH] ^= set_bit,
        _ => map[8] = edition.longest_id() + rng.between(1, 2) as u8,
    }
}

/// One field outside or at the edge of its range. A small disc_size goes with
/// most changes, so that no other rule is broken by them.
fn damage_field(rng: &mut Rng, map: &mut [u8], geometry: &Geometry) {
    let mut record = DiscRecord::read(map);
    let whole_block = 8 * geometry.sector_size;
    let k = geometry.cluster_bits;
    // The version may have been damaged before.
    let edition = Edition::of_version(record.version).unwrap_or(geometry.edition);
    let most_zones = edition.most_zones();
    let most_bytes = geometry.disc_bits() as u64 * geometry.bytes_per_map_bit;
    let what = rng.below(22);
    match what {
        0 => record.log2secsize = rng.pick(&[0, 7, 11, 255]),
        1 => record.log2secsize = rng.pick(&[8, 9, 10]),
        2 => record.idlen = record.log2secsize + 2,
        3 => record.idlen = edition.longest_id() + 1,
        4 => record.idlen = rng.pick(&[0, 10, 11, 255]),
        5 => record.log2bpmb = rng.pick(&[6, 13]),
        6 => record.log2bpmb = rng.pick(&[0, 7, 12, 255]),
        // 0 is outside; the most is inside, but may break the rule on P*nzones.
        7 => record.nzones = rng.pick(&[0, 0, most_zones as u16]),
        8 => record.zone_spare = 31,
        9 => record.zone_spare = 32 - k as u16,
        10 => record.zone_spare = rng.pick(&[0, 16, 24]),
        11 | 12 => record.zone_spare += rng.between(1, k) as u16,
        13 => {
            // Z - 480 is m - k.
            let zone_bits = 480 + geometry.shortest_fragment - k;
            record.zone_spare = (whole_block - zone_bits) as u16;
        }
        14 => record.zone_spare = rng.pick(&[65_535, 32_768, whole_block as u16, 8_192, 8_191]),
        15 => {
            // P*nzones above 2^idlen, where there can be so many zones.
            let nzones = (1 << geometry.idlen) / geometry.ids_per_zone + 1;
            record.nzones = nzones.min(most_zones) as u16;
        }
        16 => record.disc_size = 0,
        17 => record.disc_size -= rng.between(1, geometry.sector_size - 1) as u32,
        18 => record.disc_size = (most_bytes + geometry.sector_size as u64) as u32,
        19 => record.disc_size = rng.pick(&[u32::MAX, 0xFFFF_FC00, 0x8000_0000]),
        20 => record.disc_size = most_bytes as u32,
        // Any byte of the record: judged, carried or reserved.
        _ => map[4 + rng.below(60)] = rng.byte(),
    }
    if what == 21 {
        return;
    }
    if what < 16 && rng.percent(80) {
        record.disc_size = 1 << record.log2secsize.clamp(8, 10);
    }
    record.write(map);
}

/// Towards refusal 5: FreeLink's top bit, FreeLink, or a free fragment's link.
fn damage_link(rng: &mut Rng, map: &mut [u8], checked: &CheckedMap) {
    let geometry = &checked.geometry;
    let zone = rng.below(geometry.nzones);
    let fragments = &checked.zones[zone];
    let free: Vec<Fragment> = fragments
        .iter()
        .copied()
        .filter(|fragment| fragment.owner == Owner::Free)
        .collect();
    let block = block_mut(map, geometry.sector_size, zone);
    let mut aside = rng.aside();
    if geometry.edition == Edition::EPlus && !free.is_empty() && aside.percent(25) {
        // No block has so many bits, but the link may be right without this one.
        let high = aside.between(geometry.idlen.min(14), geometry.idlen) - 1;
        set_bit(block, aside.pick(&free).start + high, true);
        return;
    }
    if rng.percent(20) {
        block[2] &= 0x7F;
        return;
    }
    let target = match rng.below(8) {
        0 => rng.below(0x8000) + 8,
        1 => geometry.end_block_bit(),
        2 => rng.pick(fragments).start + 1,
        3 => rng.pick(fragments).start - 1,
        4 => rng.pick(fragments).start,
        5 => rng.pick(fragments).end() - 1,
        6 => geometry.first_block_bit(zone) + 8,
        _ => rng.between(9, geometry.end_block_bit() + 8),
    };
    if free.is_empty() || rng.percent(50) {
        let link = target.saturating_sub(8);
        block[1..3].copy_from_slice(&(0x8000 | link as u16).to_le_bytes());
    } else {
        let from = rng.pick(&free).start;
        let link = target.saturating_sub(from);
        set_number(block, from, geometry.idlen, link);
    }
}

/// Towards refusal 6: closing bits cleared, moved or set too early.
fn damage_fragment(rng: &mut Rng, map: &mut [u8], checked: &CheckedMap) {
    let geometry = &checked.geometry;
    let zone = rng.below(geometry.nzones);
    let fragments = &checked.zones[zone];
    let last = fragments[fragments.len() - 1];
    let some = rng.pick(fragments);
    let block = block_mut(map, geometry.sector_size, zone);
    match rng.below(6) {
        // No closing bit before the zone's end.
        0 => set_bit(block, last.end() - 1, false),
        // Under idlen + 1 bits left.
        1 => set_bit(
            block,
            last.end() - 1 - rng.between(1, geometry.idlen.min(last.length - 1)),
            true,
        ),
        // A length that is one off.
        2 => {
            set_bit(block, some.end() - 1, false);
            set_bit(block, some.end() - 2, true);
        }
        3 => set_bit(block, some.end() - 1, false),
        4 => set_bit(block, rng.between(some.start, some.end() - 1), true),
        _ => {
            let end = geometry.end_block_bit();
            for block_bit in rng.between(some.start, end)..end {
                set_bit(block, block_bit, false);
            }
        }
    }
}

/// Towards refusal 7: an id out of range, object 2 or the overhang broken.
fn damage_owner(rng: &mut Rng, map: &mut [u8], checked: &CheckedMap) {
    let geometry = &checked.geometry;
    let wrong_ids = [
        0,
        geometry.ids(),
        geometry.ids() + 1,
        (1 << geometry.idlen) - 1,
    ];
    let mut zone = rng.below(geometry.nzones);
    let what = rng.below(8);
    if what == 0 {
        zone = geometry.middle_zone();
    }
    if what >= 6 && geometry.disc_end_bit() < geometry.disc_bits() {
        zone = geometry.zone_of(geometry.disc_end_bit());
    }
    let mut fragments = checked.zones[zone].clone();
    let last = fragments.len() - 1;
    match what {
        // Object 2's place.
        0 => {
            fragments[0].owner = match rng.below(3) {
                0 => Owner::Free,
                1 => Owner::Object(1),
                _ => Owner::Object(3),
            }
        }
        // The zone's last fragment, which may hang over the disc's end.
        1 => fragments[last].owner = rng.pick(&[Owner::Free, Owner::Object(3)]),
        2 => fragments[last].owner = Owner::Object(2),
        // Free fragments taken off the chain: their links become ids.
        3 => {
            let block = block_mut(map, geometry.sector_size, zone);
            block[1..3].copy_from_slice(&0x8000u16.to_le_bytes());
            return;
        }
        // The fragment before the overhang made one cluster longer.
        6 | 7 => {
            let overhang = fragments.iter().rposition(|f| f.owner != Owner::Object(1));
            let k = geometry.cluster_bits;
            if let Some(before) = overhang.filter(|before| *before < last) {
                if fragments[before + 1].length >= geometry.shortest_fragment + k {
                    fragments[before].length += k;
                    fragments[before + 1].start += k;
                    fragments[before + 1].length -= k;
                }
            }
        }
        _ => {
            let id = rng.pick(&wrong_ids) as u32;
            let index = rng.below(fragments.len());
            fragments[index].owner = Owner::Object(id);
        }
    }
    let block = block_mut(map, geometry.sector_size, zone);
    write_fragments(geometry, block, &fragments);
}

/// Flips a few bits, with the checks repaired or not.
fn flip_bits(rng: &mut Rng, map: &mut [u8], sector_size: usize) {
    for _ in 0..rng.between(1, 4) {
        let index = rng.below(map.len());
        map[index] ^= 1 << rng.below(8);
    }
    if rng.percent(60) {
        repair(map, sector_size);
    }
}

/// Noise of any length, with or without a plausible record and right checks.
fn noise(rng: &mut Rng, largest_map: usize) -> Vec<u8> {
    if rng.percent(40) {
        let length = match rng.below(3) {
            0 => rng.below(130),
            1 => 256 << rng.below(3),
            _ => rng.below(largest_map.min(2_048) + 1),
        };
        return (0..length).map(|_| rng.byte()).collect();
    }
    let record = disc_record(rng, largest_map);
    let sector_size = 1usize << record.log2secsize;
    let length = record.nzones as usize * sector_size;
    // Few set bits make long fragments, many make short ones.
    let density = rng.pick(&[2, 10, 50, 90]);
    let mut map: Vec<u8> = (0..length)
        .map(|_| if rng.percent(density) { rng.byte() } else { 0 })
        .collect();
    // A dirty record would hide the noise behind it.
    if record.version == 0 {
        map[RESERVED].fill(0);
    }
    record.write(&mut map);
    if rng.percent(90) {
        for block in map.chunks_exact_mut(sector_size) {
            if rng.percent(80) {
                block[2] |= 0x80;
            }
            if rng.percent(50) {
                block[1] = 0;
                block[2] = 0x80;
            }
        }
    }
    if rng.percent(80) {
        repair(&mut map, sector_size);
    }
    map
}

/// A map that may be damaged in any of the ways above.
pub fn any_map(rng: &mut Rng, largest_map: usize) -> Vec<u8> {
    if rng.percent(10) {
        return noise(rng, largest_map);
    }
    let record = disc_record(rng, largest_map);
    let map = valid_map(rng, &record);
    spoilt(rng, map)
}

/// A valid map after any damage but noise. Now and then it is accepted all the same.
fn spoilt(rng: &mut Rng, mut map: Vec<u8>) -> Vec<u8> {
    let geometry = check(&map).expect("a valid map").geometry;
    let sector_size = geometry.sector_size;
    let mut aside = rng.aside();
    if aside.percent(8) {
        // Nothing wrong but what R-12 of document 02 brought.
        damage_edition(&mut aside, &mut map, geometry.edition);
        repair(&mut map, sector_size);
        return map;
    }
    match rng.below(10) {
        0..=5 => {
            let refusal = rng.pick(&[1, 2, 2, 3, 4, 5, 6, 6, 7, 7]);
            damage(rng, &mut map, &[refusal]);
        }
        6 | 7 => {
            let refusals = [rng.between(1, 7) as u32, rng.between(1, 7) as u32];
            damage(rng, &mut map, &refusals);
        }
        // Nothing wrong but the reserved bytes.
        8 if rng.percent(50) => {
            dirty_record(rng, &mut map);
            repair(&mut map, sector_size);
        }
        _ => flip_bits(rng, &mut map, sector_size),
    }
    map
}

// ----------------------------------------------------------------- arguments

/// The ids of the objects on a map, each once, ascending.
pub fn objects(checked: &CheckedMap) -> Vec<u32> {
    let mut ids = Vec::new();
    for fragment in checked.fragments() {
        if let Owner::Object(id) = fragment.owner {
            ids.push(id);
        }
    }
    ids.sort();
    ids.dedup();
    ids
}

/// An id: mostly one on the map from 3 up, else absent or at an edge.
fn some_id(rng: &mut Rng, checked: &CheckedMap, present_percent: usize) -> u32 {
    let ids = checked.geometry.ids() as u32;
    let mut present = objects(checked);
    if rng.percent(90) {
        present.retain(|id| *id >= 3);
    }
    if !present.is_empty() && rng.percent(present_percent) {
        return rng.pick(&present);
    }
    let mut aside = rng.aside();
    if !present.is_empty() && ids > 1 << 16 && aside.percent(20) {
        // The same as one on the map in its low 16 bits.
        return aside.pick(&present) ^ 1 << aside.between(16, 18);
    }
    if rng.percent(75) {
        return rng.between(3, ids as usize - 1) as u32;
    }
    let far = rng.word() as u32;
    rng.pick(&[0, 1, 2, 3, ids - 1, ids, ids + 1, u32::MAX, far])
}

/// Old contents of a lent list.
fn room(rng: &mut Rng, entries: usize) -> Vec<u32> {
    (0..entries).map(|_| rng.word() as u32).collect()
}

/// Room around what a number of pairs takes.
fn room_for(rng: &mut Rng, pairs: usize, largest: usize) -> Vec<u32> {
    let exact = 2 * pairs;
    let entries = match rng.below(12) {
        0 => 0,
        1 => 1,
        2 => exact.saturating_sub(1),
        3 => exact.saturating_sub(2),
        4 | 5 => exact + 1,
        6 | 7 => exact,
        _ => exact + rng.below(20),
    };
    room(rng, entries.min(largest))
}

/// Pieces cut out of the free spans, right for the id in every way.
fn right_list(rng: &mut Rng, checked: &CheckedMap, id: u32) -> Vec<u32> {
    let geometry = &checked.geometry;
    let free = checked.free();
    let mut pieces: Vec<Fragment> = Vec::new();
    let chosen_percent = (100 * rng.between(1, 4) / free.len().max(1)).clamp(2, 100);
    let segment_percent = rng.pick(&[20, 50, 100]);
    for hole in &free {
        if pieces.len() > 40 || !rng.percent(chosen_percent) {
            continue;
        }
        let mut start = hole.start;
        for length in lengths(rng, geometry, hole.length) {
            if rng.percent(segment_percent) && pieces.len() <= 40 {
                pieces.push(Fragment {
                    zone: hole.zone,
                    start,
                    length,
                    owner: Owner::Free,
                });
            }
            start += length;
        }
    }
    let zones = geometry
        .zones_in_object_order(id.clamp(1, geometry.ids() as u32 - 1))
        .expect("an id in range");
    pieces.sort_by_key(|piece| (zones.iter().position(|z| *z == piece.zone), piece.start));
    let mut list = Vec::new();
    for piece in &pieces {
        let (disc_bit, length) = checked.pair(piece);
        list.extend_from_slice(&[disc_bit, length]);
    }
    list
}

/// A list made wrong in one way, or at least changed. It may already be wrong,
/// so its numbers are reckoned modulo 2^32.
fn spoil_list(rng: &mut Rng, checked: &CheckedMap, list: &mut Vec<u32>) {
    let geometry = &checked.geometry;
    let k = geometry.cluster_bits as u32;
    let m = geometry.shortest_fragment as u32;
    let disc_bits = geometry.disc_bits() as u32;
    let pairs = list.len() / 2;
    if pairs == 0 {
        let entry = rng.word() as u32;
        *list = match rng.below(4) {
            0 => vec![],
            1 => vec![entry],
            2 => vec![disc_bits - m, m],
            _ => vec![0, m],
        };
        return;
    }
    let pair = rng.below(pairs);
    let (start, length) = (list[2 * pair], list[2 * pair + 1]);
    match rng.below(22) {
        0 => list.clear(),
        1 => {
            list.pop();
        }
        2 => list.rotate_left(2 * pair),
        3 => list.rotate_left(1),
        4 => {
            let other = rng.below(pairs);
            list.swap(2 * pair, 2 * other);
            list.swap(2 * pair + 1, 2 * other + 1);
        }
        5 => list.extend_from_slice(&[start, length]),
        6 => list[2 * pair] = start.wrapping_add(rng.pick(&[1, k, 2 * k, m - k, m])),
        7 => list[2 * pair] = start.wrapping_sub(rng.pick(&[1, k, 2 * k, m - k, m])),
        8 => list[2 * pair + 1] = length.wrapping_add(rng.pick(&[1, k, 2 * k, m - k, m])),
        9 => list[2 * pair + 1] = length - rng.pick(&[1, k, m - k, length]).min(length),
        // Shortened at its start, so that a leftover comes before it.
        10 => {
            let less = k * rng.between(1, (m / k) as usize) as u32;
            if length >= m + less {
                list[2 * pair] = start.wrapping_add(less);
                list[2 * pair + 1] = length - less;
            } else {
                list[2 * pair + 1] = m - k;
            }
        }
        11 => {
            let less = k * rng.between(1, (m / k) as usize) as u32;
            list[2 * pair + 1] = length.saturating_sub(less).max(m);
        }
        12 => list[2 * pair + 1] = rng.pick(&[0, 1, m - 1, m - k]),
        // Off the disc map, at its end, or across a zone's end.
        13 => list[2 * pair] = rng.pick(&[disc_bits, disc_bits - 1, disc_bits - m, disc_bits + m]),
        14 => {
            let zone = geometry.zone_of(start as usize);
            let end = geometry.disc_bit(zone, geometry.end_block_bit()) as u32;
            list[2 * pair + 1] = end.wrapping_sub(start).wrapping_add(rng.pick(&[0, k, m]));
        }
        15 => {
            let zone = rng.below(geometry.nzones);
            let end = geometry.disc_bit(zone, geometry.end_block_bit()) as u32;
            list[2 * pair] = end.wrapping_sub(rng.pick(&[m, k, m - k, 2 * m]));
            list[2 * pair + 1] = rng.pick(&[m, 2 * m]);
        }
        // Near 2^32, where sums would wrap.
        16 => list[2 * pair] = rng.pick(&[u32::MAX, 0u32.wrapping_sub(k), 0u32.wrapping_sub(m)]),
        17 => {
            list[2 * pair + 1] = rng.pick(&[
                u32::MAX,
                0u32.wrapping_sub(k),
                0u32.wrapping_sub(start),
                0u32.wrapping_sub(start).wrapping_add(m),
            ])
        }
        // An owned fragment among the pieces.
        18 => {
            let fragments = checked.fragments();
            let (disc_bit, length) = checked.pair(&rng.pick(&fragments));
            list[2 * pair] = disc_bit;
            list[2 * pair + 1] = length;
        }
        // One piece as two that touch.
        19 if length >= 2 * m => {
            let tail = list.split_off(2 * pair + 2);
            list[2 * pair + 1] = m;
            list.extend_from_slice(&[start.wrapping_add(m), length - m]);
            list.extend(tail);
        }
        // One piece as two that overlap.
        20 if length >= 2 * m => {
            let tail = list.split_off(2 * pair + 2);
            list.extend_from_slice(&[start.wrapping_add(k), length - k]);
            list.extend(tail);
        }
        _ => {
            let index = rng.below(list.len());
            list[index] = rng.word() as u32;
        }
    }
}

/// A position in an object or near its edges, or near 2^64.
fn some_position(rng: &mut Rng, checked: &CheckedMap, n: u32) -> u64 {
    let geometry = &checked.geometry;
    let id = n / 256;
    let offset = (n % 256).saturating_sub(1) as u64 * geometry.sector_size as u64;
    let pieces = checked.object(id).unwrap_or_default();
    let mut ends = vec![0u64];
    for piece in &pieces {
        let before = ends[ends.len() - 1];
        ends.push(before + piece.length as u64 * geometry.bytes_per_map_bit);
    }
    let whole = ends[ends.len() - 1];
    let near = rng.pick(&[0u64, 1, 2, 255]);
    match rng.below(12) {
        0 => 0,
        1..=3 if whole > offset => rng.word() % (whole - offset),
        4 => whole.saturating_sub(offset + 1),
        5 => whole.saturating_sub(offset),
        6 => (whole + near).saturating_sub(offset),
        7 | 8 => rng.pick(&ends).saturating_sub(offset),
        9 => rng.pick(&ends).saturating_sub(offset + 1),
        // A sum that would wrap to the object's start.
        10 => near.wrapping_sub(offset),
        _ => {
            let any = rng.word();
            rng.pick(&[u64::MAX, u64::MAX - near, 1 << 63, 1 << 32, any])
        }
    }
}

/// A stretch for a sweep: its first disc address and its length.
fn some_stretch(
    rng: &mut Rng,
    checked: &CheckedMap,
    id: Option<u32>,
    largest: usize,
) -> (u64, usize) {
    let geometry = &checked.geometry;
    let disc_size = geometry.disc_size;
    let length = match rng.below(6) {
        0 => rng.below(4),
        1 => rng.below(largest + 1),
        2 => rng.below(300),
        3 => largest,
        _ => rng.below(largest.min(4_096) + 1),
    };
    let mut fragments = match id {
        Some(id) => checked.object(id).unwrap_or_default(),
        None => checked.free(),
    };
    if fragments.is_empty() || rng.percent(10) {
        fragments = checked.fragments();
    }
    let fragment = rng.pick(&fragments);
    let start = geometry.disc_bit(fragment.zone, fragment.start) as u64;
    let from = start * geometry.bytes_per_map_bit;
    let to = (start + fragment.length as u64) * geometry.bytes_per_map_bit;
    let back = rng.below(length + 1) as u64;
    let inside = |first: u64| first.min(disc_size.saturating_sub(length as u64));
    match rng.below(16) {
        0..=4 => (inside(from.saturating_sub(back)), length),
        5..=8 => (inside(to.saturating_sub(back)), length),
        9 => (inside(rng.word() % (disc_size + 1)), length),
        10 => (disc_size.saturating_sub(length as u64), length),
        11 => (disc_size.saturating_sub(length as u64) + 1, length),
        12 => (disc_size + rng.pick(&[0, 1, 1_000]), 0),
        13 => (rng.word() % (disc_size + 1), 0),
        14 => (
            rng.pick(&[
                u64::MAX,
                u64::MAX - length as u64,
                0u64.wrapping_sub(length as u64),
            ]),
            length,
        ),
        _ => (rng.word() % (disc_size + 1), length),
    }
}

/// A size for a claim: around holes, 0, 1, and near 2^64.
fn some_size(rng: &mut Rng, checked: &CheckedMap) -> u64 {
    let geometry = &checked.geometry;
    let bytes = geometry.bytes_per_map_bit;
    let k = geometry.cluster_bits as u64;
    let m = geometry.shortest_fragment as u64;
    let free = checked.free();
    let hole = if free.is_empty() {
        m
    } else {
        rng.pick(&free).length as u64
    };
    let most = free
        .iter()
        .map(|hole| hole.length as u64)
        .max()
        .unwrap_or(m);
    match rng.below(16) {
        0 => 0,
        1 => 1,
        2 => hole * bytes,
        3 => hole * bytes - rng.below((k * bytes) as usize) as u64,
        4 => hole * bytes + 1,
        5 => hole.saturating_sub(m) * bytes,
        6 => hole.saturating_sub(m) * bytes + 1,
        7 => hole.saturating_sub(m - k) * bytes,
        8 => hole.saturating_sub(k) * bytes,
        9 => most * bytes + 1,
        10 => rng.pick(&[
            u64::MAX,
            u64::MAX - k * bytes,
            0u64.wrapping_sub(k * bytes) + 1,
            1 << 63,
            1 << 32,
        ]),
        11 => m * bytes + rng.below(3) as u64 - 1,
        _ => 1 + rng.word() % (most * bytes),
    }
}

/// A size for a claim in several pieces (R-8 of document 02): around what some of the
/// largest holes have together, around one with which the last of them is cut, around
/// all free bits, or any above the largest hole. Nothing where there are not two holes.
fn some_split_size(rng: &mut Rng, checked: &CheckedMap) -> Option<u64> {
    let geometry = &checked.geometry;
    let (k, m) = (geometry.cluster_bits, geometry.shortest_fragment);
    let mut lengths: Vec<usize> = checked.free().iter().map(|hole| hole.length).collect();
    lengths.sort_by(|one, other| other.cmp(one));
    if lengths.len() < 2 {
        return None;
    }
    let whole = rng.between(1, lengths.len() - 1);
    let together: usize = lengths[..whole].iter().sum();
    let last = lengths[whole];
    let all: usize = lengths.iter().sum();
    let below_m = k * rng.between(1, m / k);
    let bits = match rng.below(10) {
        0 => together,
        1 | 2 => together + below_m,
        3 | 4 => together + last - below_m.min(last),
        5 => together + last - m,
        6 => all,
        7 => all + rng.pick(&[0, k, m]),
        _ => rng.between(lengths[0] + 1, all),
    };
    // Mostly no whole clusters, and so rounded up to them.
    let less = rng.below(k * geometry.bytes_per_map_bit as usize) as u64;
    let bytes = bits as u64 * geometry.bytes_per_map_bit;
    Some(rng.pick(&[bytes, bytes + 1, bytes - less, bytes - less]))
}

/// Room around what a claim takes.
fn room_for_claim(rng: &mut Rng, checked: &CheckedMap, case: &Case, largest: usize) -> Vec<u32> {
    let parent = case.number as usize;
    let mut pieces = None;
    if parent < checked.geometry.nzones {
        pieces = pieces_taken(checked, need(&checked.geometry, case.wide), parent);
    }
    room_for(rng, pieces.map_or(0, |pieces| pieces.len()), largest)
}

/// A parent zone for a claim (R-6 of document 02): mostly one of the disc, and of
/// these 0, the last, the middle or any; else one past the disc, or one of which only
/// the low bits are on it.
fn some_parent(rng: &mut Rng, geometry: &Geometry) -> u32 {
    let nzones = geometry.nzones as u32;
    let any = rng.below(geometry.nzones) as u32;
    match rng.below(24) {
        0..=3 => 0,
        4..=7 => nzones - 1,
        8..=10 => geometry.middle_zone() as u32,
        11..=21 => any,
        22 => rng.pick(&[nzones, nzones + 1, u32::MAX]),
        _ => any | 1 << rng.pick(&[8, 16, 24, 31]),
    }
}

/// Lists that earlier calls answered, with the id they were answered for.
pub type Memory = Vec<(u32, Vec<u32>)>;

/// A call with arguments for a map, which may be one that is refused.
pub fn arguments(rng: &mut Rng, call: Call, map: &[u8], sizes: &Sizes, memory: &Memory) -> Case {
    let mut case = Case::new(call, map);
    case.fill = rng.byte();
    let checked = match check(map) {
        Ok(checked) => checked,
        Err(_) => {
            // Arguments that would do on some map.
            case.number = rng.pick(&[2, 3, 5, 0x000300, 0x000501]);
            case.wide = rng.pick(&[0, 1, 1_000]);
            if call.writes_image() {
                case.image = (0..rng.below(100)).map(|_| rng.byte()).collect();
            }
            if call == Call::Claim {
                let mut aside = rng.aside();
                let entries = aside.below(5);
                case.list = room(&mut aside, entries);
            } else if call.writes_list() {
                let entries = rng.below(60);
                case.list = room(rng, entries);
            }
            if call == Call::Place {
                case.list = vec![12, 24];
            }
            return case;
        }
    };
    match call {
        Call::Check => {}
        Call::List => {
            case.number = some_id(rng, &checked, 80);
            if rng.percent(10) {
                case.number = rng.pick(&[1, 2]);
            }
            let pairs = checked.object(case.number).map_or(0, |pieces| pieces.len());
            case.list = room_for(rng, pairs, sizes.list);
        }
        Call::Free => case.list = room_for(rng, checked.free().len(), sizes.list),
        Call::Address => {
            let id = match rng.below(10) {
                0 | 1 => 2,
                2 => rng.pick(&[0, 1]),
                _ => some_id(rng, &checked, 85),
            };
            let any = rng.below(256) as u32;
            let low_byte = rng.pick(&[0, 1, 2, 3, 254, 255, any]);
            case.number = (id << 8) | low_byte;
            if rng.percent(5) {
                let edge = 1u32 << 24;
                case.number = rng.pick(&[
                    edge - 1,
                    edge,
                    edge + (3 << 8),
                    edge | case.number,
                    u32::MAX,
                ]);
            }
            case.wide = some_position(rng, &checked, case.number);
        }
        Call::SweepObject => {
            case.number = some_id(rng, &checked, 85);
            let (first, length) = some_stretch(rng, &checked, Some(case.number), sizes.image);
            case.wide = first;
            case.image = old_image(rng, length, case.fill);
        }
        Call::SweepFree => {
            let (first, length) = some_stretch(rng, &checked, None, sizes.image);
            case.wide = first;
            case.image = old_image(rng, length, case.fill);
        }
        Call::Release => {
            case.number = some_id(rng, &checked, 85);
            let pairs = checked.object(case.number).map_or(0, |pieces| pieces.len());
            case.list = room_for(rng, pairs, sizes.list);
        }
        Call::Place => {
            case.number = some_id(rng, &checked, 10);
            if !memory.is_empty() && rng.percent(25) {
                let (id, list) = &memory[rng.below(memory.len())];
                case.list = list.clone();
                if rng.percent(80) {
                    case.number = *id;
                }
            } else {
                case.list = right_list(rng, &checked, case.number);
            }
            if rng.percent(45) {
                spoil_list(rng, &checked, &mut case.list);
            }
            if rng.percent(5) {
                spoil_list(rng, &checked, &mut case.list);
            }
            case.list.truncate(sizes.list);
        }
        Call::Claim => {
            // The sizes for one hole, and all that comes after them, do not depend on
            // it.
            let mut aside = rng.aside();
            case.wide = some_size(rng, &checked);
            case.number = some_parent(&mut aside, &checked.geometry);
            if aside.percent(30) {
                case.wide = some_split_size(&mut aside, &checked).unwrap_or(case.wide);
            }
            case.list = room_for_claim(&mut aside, &checked, &case, sizes.list);
        }
        Call::ChooseCopy | Call::CopyOver | Call::CopyAddresses => {
            unreachable!("copies are made in pairs")
        }
        Call::Mend | Call::MendPositions => unreachable!("maps to mend are made for it"),
        Call::Format | Call::FormatLength => unreachable!("a disc to format has no map yet"),
    }
    case
}

/// Old contents of an image: noise, the fill itself, or another byte.
fn old_image(rng: &mut Rng, length: usize, fill: u8) -> Vec<u8> {
    match rng.below(4) {
        0 => vec![!fill; length],
        1 if length < 64 => vec![fill; length],
        _ => (0..length).map(|_| rng.byte()).collect(),
    }
}

// ---------------------------------------------------------------------- runs

/// Plays the calls of one seed: every call of document 01 on a valid map, a run of
/// edits on one map, or calls on a damaged map. Each goes to `visit` with its
/// outcome.
pub fn play(seed: u64, sizes: &Sizes, visit: &mut dyn FnMut(&Case, &Outcome)) {
    let mut rng = Rng::new(seed);
    let rng = &mut rng;
    // Mostly small maps; now and then as large as wanted.
    let largest_map = match rng.below(50) {
        0 => sizes.map,
        1..=4 => sizes.map.min(32_768),
        5..=14 => sizes.map.min(8_192),
        _ => sizes.map.min(2_048),
    };
    match rng.below(10) {
        0..=3 => {
            let record = disc_record(rng, largest_map);
            let map = valid_map(rng, &record);
            for call in CALLS_ON_ONE_MAP {
                let times = if *call == Call::Check { 1 } else { 2 };
                for _ in 0..times {
                    let case = arguments(rng, *call, &map, sizes, &Memory::new());
                    visit(&case, &case.run());
                }
            }
        }
        4..=6 => {
            let record = disc_record(rng, largest_map);
            let map = valid_map(rng, &record);
            play_run(rng, map, sizes, visit);
        }
        _ => {
            let map = any_map(rng, largest_map);
            let mut calls = vec![Call::Check];
            for _ in 0..3 {
                calls.push(rng.pick(CALLS_ON_ONE_MAP));
            }
            for call in calls {
                let case = arguments(rng, call, &map, sizes, &Memory::new());
                visit(&case, &case.run());
            }
        }
    }
}

/// Plays addresses of one seed, beside those of `play`: around one piece of a valid
/// map, at its first byte, at one inside it, at its last byte, and at the byte after
/// it, which is the next piece's first or past the object's end (R-11 of document
/// 02). The map is of version 0, as "Address refuses E+ with 8".
pub fn play_addresses(seed: u64, sizes: &Sizes, visit: &mut dyn FnMut(&Case, &Outcome)) {
    // Not the map that `play` makes.
    let mut rng = Rng::new(seed).aside();
    let rng = &mut rng;
    let largest_map = match rng.below(10) {
        0 => sizes.map.min(8_192),
        _ => sizes.map.min(2_048),
    };
    let record = record_of(rng, largest_map, Edition::E);
    let map = valid_map(rng, &record);
    let checked = check(&map).expect("a valid map");
    let piece = some_piece(rng, &checked);
    let Owner::Object(id) = piece.owner else {
        unreachable!("an object's piece");
    };
    let bytes = bytes_of(&checked, id, &piece);

    let sector_size = checked.geometry.sector_size as u64;
    let low_byte = some_low_byte(rng, &bytes, sector_size);
    let start_offset = low_byte.saturating_sub(1) * sector_size;
    let inside = bytes.start + rng.word() % (bytes.end - bytes.start);
    for byte in [bytes.start, inside, bytes.end - 1, bytes.end] {
        // A start offset inside the piece leaves out those before it.
        if byte >= start_offset {
            let mut case = Case::new(Call::Address, &map);
            case.number = id << 8 | low_byte as u32;
            case.wide = byte - start_offset;
            visit(&case, &case.run());
        }
    }
}

/// A piece of an object from 2 up: mostly one with another of the object right after
/// it on the disc, every second time across a zone's end, where there are such.
fn some_piece(rng: &mut Rng, checked: &CheckedMap) -> Fragment {
    let of_object = |fragment: &Fragment| matches!(fragment.owner, Owner::Object(2..));
    let mut pieces = checked.fragments();
    let mut touching: Vec<(Fragment, Fragment)> =
        pieces.windows(2).map(|two| (two[0], two[1])).collect();
    pieces.retain(of_object);
    touching.retain(|(piece, next)| of_object(piece) && piece.owner == next.owner);
    let mut across = touching.clone();
    across.retain(|(piece, next)| piece.zone != next.zone);

    if !across.is_empty() && rng.percent(50) {
        rng.pick(&across).0
    } else if !touching.is_empty() && rng.percent(60) {
        rng.pick(&touching).0
    } else {
        rng.pick(&pieces)
    }
}

/// Which bytes of its object a piece has.
fn bytes_of(checked: &CheckedMap, id: u32, piece: &Fragment) -> Range<u64> {
    let pieces = checked.object(id).expect("an id on the map");
    let earlier = pieces.iter().take_while(|other| *other != piece);
    let before: usize = earlier.map(|other| other.length).sum();
    let bytes = |map_bits: usize| map_bits as u64 * checked.geometry.bytes_per_map_bit;
    bytes(before)..bytes(before + piece.length)
}

/// The low byte of an internal number: 0, or one whose start offset is where some
/// bytes of the object start, or anywhere before they end.
fn some_low_byte(rng: &mut Rng, bytes: &Range<u64>, sector_size: u64) -> u64 {
    let at_sector = |byte: u64| (byte / sector_size + 1).min(255);
    match rng.below(3) {
        0 => 0,
        1 => at_sector(bytes.start),
        _ => rng.between(1, at_sector(bytes.end - 1) as usize) as u64,
    }
}

/// A run of releases, places and claims on one map, each call on the map as
/// the call before left it, with readings between (document 01, "Runs").
fn play_run(
    rng: &mut Rng,
    mut map: Vec<u8>,
    sizes: &Sizes,
    visit: &mut dyn FnMut(&Case, &Outcome),
) {
    let mut memory = Memory::new();
    for _ in 0..rng.between(4, 24) {
        let call = match rng.below(12) {
            0..=3 => Call::Release,
            4..=6 => Call::Place,
            7..=9 => Call::Claim,
            10 => Call::Free,
            _ => Call::List,
        };
        let case = arguments(rng, call, &map, sizes, &memory);
        let outcome = case.run();
        visit(&case, &outcome);
        if outcome.number == 0 && call == Call::Release {
            let entries = 2 * outcome.values[0] as usize;
            memory.push((case.number, outcome.list[..entries].to_vec()));
        }
        map = outcome.map;
    }
}

// ----------------------------------------------------- claims on crowded maps

/// Plays claims of one seed, beside those of `play`: a run of them on a map on which
/// one zone's ids are used up, or nearly, with a release now and then (R-6 of document
/// 02).
pub fn play_claims(seed: u64, sizes: &Sizes, visit: &mut dyn FnMut(&Case, &Outcome)) {
    // Not the map that `play` makes.
    let mut rng = Rng::new(Rng::new(seed).word());
    let rng = &mut rng;
    let record = record_of_several_zones(rng, 2);
    let mut map = crowded_map(rng, &record);
    for _ in 0..rng.between(2, 6) {
        let call = rng.pick(&[Call::Claim, Call::Claim, Call::Claim, Call::Release]);
        let case = arguments(rng, call, &map, sizes, &Memory::new());
        let outcome = case.run();
        visit(&case, &outcome);
        map = outcome.map;
    }
}

/// Plays claims of one seed that no hole is long enough for, or nearly, beside those of
/// `play`, on the map as the one before left it, with a release now and then (R-8 of
/// document 02). The map has holes of a few lengths, so that some are equal.
pub fn play_pieces(seed: u64, sizes: &Sizes, visit: &mut dyn FnMut(&Case, &Outcome)) {
    // Neither the map that `play` makes nor that of `play_claims`.
    let mut rng = Rng::new(Rng::new(!seed).word());
    let rng = &mut rng;
    let record = record_of_several_zones(rng, 1);
    let mut map = holed_map(rng, &record);
    for _ in 0..rng.between(2, 5) {
        let case = match rng.below(4) {
            0 => arguments(rng, Call::Release, &map, sizes, &Memory::new()),
            _ => split_claim(rng, &map, sizes),
        };
        let outcome = case.run();
        visit(&case, &outcome);
        map = outcome.map;
    }
}

/// A claim in several pieces, or around that.
fn split_claim(rng: &mut Rng, map: &[u8], sizes: &Sizes) -> Case {
    let checked = check(map).expect("a valid map");
    let mut case = arguments(rng, Call::Claim, map, sizes, &Memory::new());
    // Not past the disc, which is for other claims.
    case.number %= checked.geometry.nzones as u32;
    case.wide = some_split_size(rng, &checked).unwrap_or(case.wide);
    case.list = room_for_claim(rng, &checked, &case, sizes.list);
    case
}

/// A disc record of several zones, or of so few, mostly short ones of few ids. The disc
/// ends where the map does.
fn record_of_several_zones(rng: &mut Rng, fewest: usize) -> DiscRecord {
    let edition = rng.pick(&[Edition::E, Edition::E, Edition::EPlus]);
    let log2secsize = rng.pick(&[8usize, 8, 8, 8, 8, 8, 8, 8, 9, 10]);
    let idlen = rng.between(log2secsize + 3, edition.longest_id() as usize);
    let log2bpmb = rng.between(7, 12);
    let k = 1 << log2secsize.saturating_sub(log2bpmb);
    let whole_block = 8 << log2secsize;
    let shortest = ZONE_0_SHORTFALL + (idlen + 1).div_ceil(k) * k;
    let zone_bits = match rng.below(10) {
        0 => whole_block - 32,
        _ => shortest + k * rng.below(100),
    };
    let nzones = match rng.below(20) {
        0 => rng.between(10, 40),
        _ => rng.between(fewest, 9),
    };
    let nzones = nzones.min((1 << idlen) / (zone_bits / (idlen + 1)));
    DiscRecord {
        log2secsize: log2secsize as u8,
        idlen: idlen as u8,
        log2bpmb: log2bpmb as u8,
        nzones: nzones as u16,
        zone_spare: (whole_block - zone_bits) as u16,
        disc_size: ((nzones * zone_bits - ZONE_0_SHORTFALL) << log2bpmb) as u32,
        size_high: 0,
        version: edition.version(),
    }
}

/// A map of short fragments. Some zones have holes, of up to four fragments, others
/// none.
fn crowded_map(rng: &mut Rng, record: &DiscRecord) -> Vec<u8> {
    let geometry = Geometry::accept(record).expect("a record inside its ranges");
    let mut zones: Vec<_> = (0..geometry.nzones)
        .map(|zone| crowded_zone(rng, &geometry, zone))
        .collect();
    number_objects(rng, &geometry, &mut zones);
    build(record, &zones)
}

/// A map of short fragments and of holes of a few lengths.
fn holed_map(rng: &mut Rng, record: &DiscRecord) -> Vec<u8> {
    let geometry = Geometry::accept(record).expect("a record inside its ranges");
    let (k, m) = (geometry.cluster_bits, geometry.shortest_fragment);
    let mut lengths = vec![m + k * rng.below(3 * m / k)];
    for _ in 0..rng.below(5) {
        let any = m + k * rng.below(6 * m / k);
        lengths.push(rng.pick(&[m, 2 * m - k, 2 * m, 2 * m + k, any, any]));
    }
    let mut zones: Vec<_> = (0..geometry.nzones)
        .map(|zone| holed_zone(rng, &geometry, zone, &lengths))
        .collect();
    number_objects(rng, &geometry, &mut zones);
    build(record, &zones)
}

/// Gives the owned fragments of crowded zones their ids. Those of one zone are used, all
/// of them or all but a few, wherever their fragments lie; the others go up from 3, or
/// are any.
fn number_objects(rng: &mut Rng, geometry: &Geometry, zones: &mut [Vec<(Owner, usize)>]) {
    let ids = geometry.ids() as u32;
    // The owned fragments, in any order.
    let mut owned: Vec<&mut u32> = Vec::new();
    for (owner, _) in zones.iter_mut().flatten() {
        match owner {
            Owner::Object(2) | Owner::Free => {}
            Owner::Object(id) => owned.push(id),
        }
    }
    for index in 0..owned.len() {
        let other = rng.between(index, owned.len() - 1);
        owned.swap(index, other);
    }

    let used_up = rng.below(geometry.nzones);
    let mut its_ids: Vec<u32> = (3..ids)
        .filter(|id| geometry.start_zone(*id) == Ok(used_up))
        .collect();
    for _ in 0..rng.pick(&[0, 0, 1, 3]) {
        // Mostly the last one or the first.
        let any = rng.below(its_ids.len());
        let left = rng.pick(&[0, its_ids.len() - 1, its_ids.len() - 1, any]);
        its_ids.remove(left);
    }
    let mut its_ids = its_ids.into_iter();
    let mut next = 3;
    for id in owned {
        *id = its_ids.next().unwrap_or_else(|| {
            next += 1;
            match rng.below(3) {
                0 => rng.between(3, geometry.ids() - 1) as u32,
                _ => (next - 1).min(ids - 1),
            }
        });
    }
}

/// Owners and lengths of a crowded zone, with no ids as yet but for object 2.
fn crowded_zone(rng: &mut Rng, geometry: &Geometry, zone: usize) -> Vec<(Owner, usize)> {
    let bits = geometry.end_block_bit() - geometry.first_block_bit(zone);
    let m = geometry.shortest_fragment;
    let free_percent = rng.pick(&[0, 0, 5, 20, 50]);
    let mut parts: Vec<(Owner, usize)> = Vec::new();
    let mut left = bits;
    while left > 0 {
        let length = if left >= 2 * m { m } else { left };
        left -= length;
        let hole = rng.percent(free_percent);
        match parts.last_mut() {
            None if zone == geometry.middle_zone() => parts.push((Owner::Object(2), length)),
            Some((Owner::Free, before)) if *before < 4 * m && rng.percent(60) => *before += length,
            Some((Owner::Free, _)) => parts.push((Owner::Object(3), length)),
            _ if hole => parts.push((Owner::Free, length)),
            _ => parts.push((Owner::Object(3), length)),
        }
    }
    parts
}

/// Owners and lengths of a zone with holes of some lengths, with no ids as yet but for
/// object 2. No two holes touch.
fn holed_zone(
    rng: &mut Rng,
    geometry: &Geometry,
    zone: usize,
    lengths: &[usize],
) -> Vec<(Owner, usize)> {
    let m = geometry.shortest_fragment;
    let free_percent = rng.pick(&[0, 5, 20, 50, 100]);
    let mut parts: Vec<(Owner, usize)> = Vec::new();
    let mut left = geometry.end_block_bit() - geometry.first_block_bit(zone);
    while left > 0 {
        let hole = rng.percent(free_percent);
        let owner = match parts.last() {
            None if zone == geometry.middle_zone() => Owner::Object(2),
            Some((Owner::Free, _)) => Owner::Object(3),
            _ if hole => Owner::Free,
            _ => Owner::Object(3),
        };
        let mut length = match owner {
            Owner::Free => rng.pick(lengths),
            Owner::Object(_) => m,
        };
        if length > left || left - length < m {
            length = left;
        }
        parts.push((owner, length));
        left -= length;
    }
    parts
}

// -------------------------------------------------------------------- copies

/// The first and the second copy of a map (R-5 of document 02).
pub type Copies = (Vec<u8>, Vec<u8>);

/// The copies as a station leaves them that writes a new map over the second and then
/// over the first, byte by byte, and is cut off after so many bytes. Both were the
/// old map before, which is as long as the new one.
pub fn cut_off(old: &[u8], new: &[u8], written: usize) -> Copies {
    let half_written = |bytes: usize| [&new[..bytes], &old[bytes..]].concat();
    let in_second = written.min(new.len());
    (half_written(written - in_second), half_written(in_second))
}

/// A map after some edit that is accepted on it; as it was where none was found.
pub fn edited(rng: &mut Rng, map: &[u8], sizes: &Sizes) -> Vec<u8> {
    for _ in 0..6 {
        let call = rng.pick(&[Call::Release, Call::Place, Call::Place, Call::Claim]);
        let outcome = arguments(rng, call, map, sizes, &Memory::new()).run();
        if outcome.number == 0 {
            return outcome.map;
        }
    }
    map.to_vec()
}

/// After how many bytes a station is cut off that writes two copies of a map: every
/// second time at a block's edge, where the rest of the copy may match.
fn some_written(rng: &mut Rng, map: &[u8]) -> usize {
    let sector_size = check(map).expect("a valid map").geometry.sector_size;
    let any = rng.below(2 * map.len() + 1);
    match rng.below(2) {
        0 => any / sector_size * sector_size,
        _ => any,
    }
}

/// The bytes of a map in another length: fewer or more, by a byte, a block or any
/// number.
fn in_another_length(rng: &mut Rng, map: &[u8]) -> Vec<u8> {
    let sector_size = check(map).expect("a valid map").geometry.sector_size;
    let length = match rng.below(6) {
        0 => map.len() - 1,
        1 => map.len() + 1,
        2 => map.len() - sector_size,
        3 => map.len() + sector_size,
        4 => rng.below(map.len()),
        _ => map.len() + rng.between(1, 300),
    };
    let mut other = map.to_vec();
    other.resize(length, rng.byte());
    other
}

/// A map with another value in one byte: the first, the last or any.
fn with_another_byte(rng: &mut Rng, map: &[u8]) -> Vec<u8> {
    let mut other = map.to_vec();
    let any = rng.below(map.len());
    let at = rng.pick(&[0, map.len() - 1, any]);
    other[at] ^= rng.between(1, 255) as u8;
    other
}

/// Two copies, mostly of one map that is right in at least one of them: equal ones,
/// with damage to one or to both, with an edit or a part of it in one, of unequal
/// lengths, of two discs, or empty.
pub fn some_copies(rng: &mut Rng, largest_map: usize, sizes: &Sizes) -> Copies {
    let record = disc_record(rng, largest_map);
    let map = valid_map(rng, &record);
    match rng.below(20) {
        0 | 1 => (map.clone(), map),
        2 | 3 => {
            let other = spoilt(rng, map);
            (other.clone(), other)
        }
        4..=6 => (spoilt(rng, map.clone()), map),
        7..=10 => (spoilt(rng, map.clone()), spoilt(rng, map)),
        11 => (edited(rng, &map, sizes), map),
        12..=14 => {
            let new = edited(rng, &map, sizes);
            let written = some_written(rng, &map);
            cut_off(&map, &new, written)
        }
        15 => (with_another_byte(rng, &map), map),
        16 => (in_another_length(rng, &map), map),
        17 => (any_map(rng, largest_map), map),
        18 => (any_map(rng, largest_map), spoilt(rng, map)),
        _ => {
            let one = match rng.below(3) {
                0 => Vec::new(),
                1 => spoilt(rng, map),
                _ => map,
            };
            (one, Vec::new())
        }
    }
}

/// Plays the calls on copies of one seed, beside those of `play`: on one pair, and on
/// the same pair the other way round.
pub fn play_copies(seed: u64, sizes: &Sizes, visit: &mut dyn FnMut(&Case, &Outcome)) {
    // Neither the map that `play` makes nor that of `play_addresses`.
    let mut rng = Rng::new(Rng::new(seed).aside().word());
    let rng = &mut rng;
    let largest_map = match rng.below(50) {
        0 => sizes.map,
        1..=5 => sizes.map.min(8_192),
        _ => sizes.map.min(2_048),
    };
    let (first, second) = some_copies(rng, largest_map, sizes);
    for (one, other) in [(&first, &second), (&second, &first)] {
        for call in [Call::ChooseCopy, Call::CopyOver] {
            let mut case = Case::new(call, one);
            case.image = other.clone();
            visit(&case, &case.run());
        }
        let case = Case::new(Call::CopyAddresses, one);
        visit(&case, &case.run());
    }
}

// -------------------------------------------------------------- maps to mend

/// A valid map whose free fragments are cut into touching ones, of the lengths that a
/// function gives for each. Its zone checks are right.
pub fn with_holes_cut(
    map: &[u8],
    mut lengths: impl FnMut(&Geometry, usize) -> Vec<usize>,
) -> Vec<u8> {
    let checked = check(map).expect("a valid map");
    let geometry = &checked.geometry;
    let mut map = map.to_vec();
    for (zone, fragments) in checked.zones.iter().enumerate() {
        let mut cut = Vec::new();
        for fragment in fragments {
            let mut start = fragment.start;
            let parts = match fragment.owner {
                Owner::Free => lengths(geometry, fragment.length),
                Owner::Object(_) => vec![fragment.length],
            };
            for length in parts {
                cut.push(Fragment {
                    start,
                    length,
                    ..*fragment
                });
                start += length;
            }
        }
        let block = block_mut(&mut map, geometry.sector_size, zone);
        write_fragments(geometry, block, &cut);
    }
    repair_zone_checks(&mut map, geometry.sector_size);
    map
}

/// As many lengths as so many bits can have, the last with what is left.
fn shortest_lengths(geometry: &Geometry, total: usize) -> Vec<usize> {
    let m = geometry.shortest_fragment;
    let mut lengths = vec![m; total / m];
    *lengths.last_mut().expect("a fragment's bits") += total % m;
    lengths
}

/// A valid map in the worst order that can be mended (R-9 of document 02): every free
/// fragment is cut into shortest ones, and every zone check and the last zone's cross
/// check are wrong.
pub fn worn(map: &[u8]) -> Vec<u8> {
    let mut worn = with_holes_cut(map, shortest_lengths);
    let sector_size = check(map).expect("a valid map").geometry.sector_size;
    let last = block_mut(&mut worn, sector_size, map.len() / sector_size - 1);
    last[3] ^= 0x55;
    for block in worn.chunks_exact_mut(sector_size) {
        block[0] = !zone_check_by_words(block);
    }
    worn
}

/// Lengths of touching free fragments that fill so many bits: one, two or three, as many
/// as can be, or any.
fn some_cut(rng: &mut Rng, geometry: &Geometry, total: usize) -> Vec<usize> {
    let (k, m) = (geometry.cluster_bits, geometry.shortest_fragment);
    let first = |rng: &mut Rng, total: usize| m + k * rng.below((total - 2 * m) / k + 1);
    match rng.below(6) {
        1 | 2 if total >= 2 * m => {
            let first = first(rng, total);
            vec![first, total - first]
        }
        3 if total >= 3 * m => {
            let last = first(rng, total - m);
            let first = first(rng, total - last);
            vec![first, total - first - last, last]
        }
        4 => shortest_lengths(geometry, total),
        5 => lengths(rng, geometry, total),
        _ => vec![total],
    }
}

/// Changes cross checks: zone 0's, another's, those of two zones by the same, so that
/// all still give 255, or all of them. The zone checks are right then.
fn change_cross_checks(rng: &mut Rng, map: &mut [u8], sector_size: usize) {
    let zones = map.len() / sector_size;
    if zones == 0 {
        return;
    }
    let change = rng.between(1, 255) as u8;
    let (one, other) = (rng.below(zones), rng.below(zones));
    match rng.below(6) {
        0 | 1 => map[3] ^= change,
        2 => map[(zones - 1) * sector_size + 3] ^= change,
        3 => map[one * sector_size + 3] ^= change,
        4 => {
            map[one * sector_size + 3] ^= change;
            map[other * sector_size + 3] ^= change;
        }
        _ => map
            .chunks_exact_mut(sector_size)
            .for_each(|block| block[3] = rng.byte()),
    }
    repair_zone_checks(map, sector_size);
}

/// Changes zone checks: one, zone 0's, the last one's, all, or all to what they are once
/// the map is mended, which is wrong where free fragments touch.
fn change_zone_checks(rng: &mut Rng, map: &mut [u8], sector_size: usize) {
    let zones = map.len() / sector_size;
    if zones == 0 {
        return;
    }
    let change = rng.between(1, 255) as u8;
    match rng.below(8) {
        0 | 1 => map[rng.below(zones) * sector_size] ^= change,
        2 => map[0] ^= change,
        3 => map[(zones - 1) * sector_size] ^= change,
        4 => map
            .chunks_exact_mut(sector_size)
            .for_each(|block| block[0] = change),
        5 => map
            .chunks_exact_mut(sector_size)
            .for_each(|block| block[0] = rng.byte()),
        _ => {
            let mut mended = map.to_vec();
            if mend(&mut mended).is_ok() {
                for zone in 0..zones {
                    map[zone * sector_size] = mended[zone * sector_size];
                }
            }
        }
    }
}

/// Which refusals a map to mend is damaged towards, beside 3, 4 and 9: mostly none.
fn some_other_refusals(rng: &mut Rng) -> Vec<u32> {
    let any = |rng: &mut Rng| rng.pick(&[1, 2, 5, 5, 6, 6, 7, 7]);
    match rng.below(20) {
        0..=12 => vec![],
        13..=16 => vec![any(rng)],
        _ => vec![any(rng), any(rng)],
    }
}

/// A map with touching free fragments, changed cross checks and changed zone checks, each
/// of these alone, some of them together, or none (R-9 of document 02). Some are damaged
/// otherwise too.
pub fn map_to_mend(rng: &mut Rng, largest_map: usize) -> Vec<u8> {
    let record = disc_record(rng, largest_map);
    let mut map = valid_map(rng, &record);
    let sector_size = 1usize << record.log2secsize;
    let [touching, crossed, stale] = match rng.below(12) {
        0 => [false; 3],
        1 | 2 => [true, false, false],
        3 => [false, true, false],
        4 => [false, false, true],
        5 | 6 => [true, true, true],
        _ => [rng.percent(70), rng.percent(50), rng.percent(50)],
    };
    if touching {
        map = with_holes_cut(&map, |geometry, total| some_cut(rng, geometry, total));
    }
    let others = some_other_refusals(rng);
    damage(rng, &mut map, &others);
    if crossed {
        change_cross_checks(rng, &mut map, sector_size);
    }
    if stale {
        change_zone_checks(rng, &mut map, sector_size);
    }
    map
}

/// Room around what a number of positions takes.
fn room_for_positions(rng: &mut Rng, positions: usize, largest: usize) -> Vec<u32> {
    let entries = match rng.below(8) {
        0 => 0,
        1 | 2 => positions.saturating_sub(1),
        3 | 4 => positions,
        5 => positions + 1,
        6 => positions / 2,
        _ => positions + rng.below(20),
    };
    room(rng, entries.min(largest))
}

/// Plays the calls that mend a map of one seed, beside those of `play`: on a map to mend,
/// and where that is mended, a check, the free spans and each edit on what it became.
pub fn play_mends(seed: u64, sizes: &Sizes, visit: &mut dyn FnMut(&Case, &Outcome)) {
    // None of the maps that the other plays make.
    let mut earlier = Rng::new(seed);
    earlier.word();
    let mut rng = Rng::new(earlier.word());
    let rng = &mut rng;
    let largest_map = match rng.below(50) {
        0 => sizes.map,
        1..=5 => sizes.map.min(8_192),
        _ => sizes.map.min(2_048),
    };
    let map = map_to_mend(rng, largest_map);
    let case = Case::new(Call::Mend, &map);
    let mended = case.run();
    visit(&case, &mended);
    let changed = (0..map.len()).filter(|at| mended.map[*at] != map[*at]);
    let positions = changed.count();
    for _ in 0..2 {
        let mut case = Case::new(Call::MendPositions, &map);
        case.list = room_for_positions(rng, positions, sizes.list);
        visit(&case, &case.run());
    }
    if mended.number != 0 {
        return;
    }
    for call in [
        Call::Check,
        Call::Free,
        Call::Release,
        Call::Place,
        Call::Claim,
    ] {
        let case = arguments(rng, call, &mended.map, sizes, &Memory::new());
        visit(&case, &case.run());
    }
}

// ----------------------------------------------------------- discs to format

/// A disc to format (R-13 of document 02). Every number of these bits may be handed in.
#[derive(Clone, Copy, Debug, PartialEq, Eq)]
pub struct DiscToFormat {
    pub log2secsize: u32,
    pub idlen: u32,
    pub capacity: u64,
}

impl DiscToFormat {
    /// One of the two calls on it.
    pub fn case(&self, call: Call, buffer: &[u8]) -> Case {
        Case::formatting(call, self.log2secsize, self.capacity, self.idlen, buffer)
    }
}

/// The map bits of so many zones that spare 32 bits; none of no zones.
fn bits_of_zones(sector_size: usize, nzones: usize) -> usize {
    (nzones * (8 * sector_size - 32)).saturating_sub(ZONE_0_SHORTFALL)
}

/// A disc of few zones, all of the table's first row: mostly one or two, where object 2 and
/// the overhang can meet, and more than an id allows now and then. It ends at a zone's end
/// or within a few fragments of it, within a few of the last zone's start, or anywhere.
fn disc_of_few_zones(rng: &mut Rng, largest_map: usize) -> DiscToFormat {
    let log2secsize = rng.between(8, 10);
    let idlen = rng.between(log2secsize + 3, 15);
    let sector_size = 1 << log2secsize;
    let most = (largest_map / sector_size).max(1);
    let nzones = match rng.below(20) {
        0..=5 => 1,
        6..=11 => 2,
        12..=15 => rng.between(3, 4),
        16..=18 => rng.between(5, 16),
        _ => rng.between(1, most),
    };
    let nzones = nzones.min(most);
    let k = sector_size / 256;
    let near = k * rng.below(3 * 16 / k);
    let start = bits_of_zones(sector_size, nzones - 1);
    let end = bits_of_zones(sector_size, nzones);
    let bits = match rng.below(10) {
        0 => end,
        1..=3 => end - near,
        4..=7 => start + near,
        _ => rng.between(start, end) / k * k,
    };
    DiscToFormat {
        log2secsize: log2secsize as u32,
        idlen: idlen as u32,
        capacity: 256 * bits as u64,
    }
}

/// A disc of any row of the table, whose map has up to 65,024 bytes. It ends as the others
/// do, or at one of the row's limits; where a map bit is longer than a sector, with a part
/// of one.
fn disc_of_a_row(rng: &mut Rng) -> DiscToFormat {
    let log2secsize = rng.between(8, 10);
    let sector_size = 1 << log2secsize;
    let sector = sector_size as u64;
    let row = rng.below(TABLE.len());
    let (limit, log2bpmb) = TABLE[row];
    let above = if row == 0 { 0 } else { TABLE[row - 1].0 };
    let zones_for = |bytes: u64| {
        let bits = (bytes >> log2bpmb) as usize + ZONE_0_SHORTFALL;
        bits.div_ceil(8 * sector_size - 32)
    };
    let nzones = rng.between(zones_for(above + sector), zones_for(limit));
    let near = rng.below(40);
    let start = bits_of_zones(sector_size, nzones - 1);
    let end = bits_of_zones(sector_size, nzones);
    let bits = match rng.below(8) {
        0 => end,
        1 | 2 => end.saturating_sub(near),
        3 => start,
        4 | 5 => start + near,
        6 => rng.between(start, end),
        _ => rng.pick(&[above, limit]) as usize >> log2bpmb,
    };
    let sectors_of_a_bit = (1u64 << log2bpmb).div_ceil(sector);
    let part = rng.pick(&[0, 0, 1, sectors_of_a_bit - 1]) * sector;
    let capacity = ((bits as u64) << log2bpmb) + part;
    DiscToFormat {
        log2secsize: log2secsize as u32,
        idlen: if rng.percent(95) { 15 } else { 14 },
        capacity: capacity.clamp(above + sector, limit) / sector * sector,
    }
}

/// A number that is not in range, or by chance again: its lower bits are, it is near, or
/// it is any.
fn out_of_range(rng: &mut Rng, inside: u32, lowest: u32, highest: u32) -> u32 {
    let any = rng.word() as u32;
    match rng.below(8) {
        0 | 1 => lowest - 1,
        2 | 3 => highest + 1,
        4 => inside + 256,
        5 => inside | 1 << rng.between(5, 31),
        6 => rng.pick(&[0, 31, 32, u32::MAX, inside.wrapping_neg()]),
        _ => any,
    }
}

/// A capacity that is refused, or by chance again not.
fn some_other_capacity(rng: &mut Rng, disc: &DiscToFormat) -> u64 {
    let sector = 1u64 << disc.log2secsize.min(12);
    let last = TABLE[TABLE.len() - 1].0;
    let any = rng.word();
    match rng.below(10) {
        0 | 1 => 0,
        2 => disc.capacity + 1,
        3 => disc.capacity + sector / 2,
        4 => disc.capacity | 1 << rng.between(32, 63),
        5 => last + sector,
        6 => last + sector * rng.between(1, 1 << 20) as u64,
        7 => rng.pick(&[1, sector, u64::MAX, u64::MAX - sector + 1]),
        8 => sector * (any % (last / sector)),
        _ => any,
    }
}

/// A disc to format: mostly one that can be, else with one number that is out of range.
pub fn disc_to_format(rng: &mut Rng, largest_map: usize) -> DiscToFormat {
    let mut disc = if largest_map > 1 << 16 {
        disc_of_a_row(rng)
    } else {
        disc_of_few_zones(rng, largest_map)
    };
    if rng.percent(20) {
        match rng.below(3) {
            0 => disc.log2secsize = out_of_range(rng, disc.log2secsize, 8, 10),
            1 => disc.idlen = out_of_range(rng, disc.idlen, disc.log2secsize + 3, 15),
            _ => disc.capacity = some_other_capacity(rng, &disc),
        }
    }
    disc
}

/// A buffer for a map of so many bytes, mostly as long as that, with noise, one byte all
/// over, or 0.
fn some_buffer(rng: &mut Rng, length: usize, sector_size: usize) -> Vec<u8> {
    let length = match rng.below(20) {
        0 => length + 1,
        1 => length.saturating_sub(1),
        2 => length + sector_size,
        3 => length.saturating_sub(sector_size),
        4 => rng.pick(&[0, 1, 63, 64, 2 * length]),
        _ => length,
    };
    let byte = rng.byte();
    match rng.below(4) {
        0 => vec![0; length],
        1 => vec![rng.pick(&[0xFF, byte]); length],
        _ => (0..length).map(|_| rng.byte()).collect(),
    }
}

/// Plays the format of one disc, beside the calls of `play`: its length, and the map in a
/// lent buffer. What was formatted is read, and some of it goes through a run.
pub fn play_formats(seed: u64, sizes: &Sizes, visit: &mut dyn FnMut(&Case, &Outcome)) {
    // None of the maps that the other plays make.
    let mut earlier = Rng::new(!seed);
    earlier.word();
    let mut rng = Rng::new(earlier.word());
    let rng = &mut rng;
    let largest_map = match rng.below(200) {
        0..=3 => sizes.map,
        4..=11 => sizes.map.min(16_384),
        _ => sizes.map.min(2_048),
    };
    let disc = disc_to_format(rng, largest_map);
    let case = disc.case(Call::FormatLength, &[]);
    let told = case.run();
    visit(&case, &told);
    // Any length will do for a disc that is refused.
    let sector_size = 1 << disc.log2secsize.min(10);
    let length = match told.number {
        0 => told.values[0] as usize,
        _ => sector_size * rng.below(4),
    };
    let case = disc.case(Call::Format, &some_buffer(rng, length, sector_size));
    let formatted = case.run();
    visit(&case, &formatted);
    if formatted.number == 0 && rng.percent(10) && largest_map <= 1 << 14 {
        for call in CALLS_ON_ONE_MAP {
            let case = arguments(rng, *call, &formatted.map, sizes, &Memory::new());
            visit(&case, &case.run());
        }
        play_run(rng, formatted.map, sizes, visit);
    }
}

// ------------------------------------------------------- maps of document 01

/// Map A of document 01's bench examples, byte by byte.
pub fn map_a() -> Vec<u8> {
    let mut map = vec![0; 256];
    for (index, value) in [
        (0, 0xC7),
        (1, 0x04),
        (2, 0x82),
        (3, 0xFF),
        (4, 0x08),
        (8, 0x0B),
        (9, 0x0A),
        (13, 0x01),
        (14, 0x20),
        (22, 0x18),
        (64, 0x02),
        (65, 0x08),
        (255, 0x80),
    ] {
        map[index] = value;
    }
    map
}

/// Map B: A with object 5 placed at (12,20).
pub fn map_b() -> Vec<u8> {
    let mut map = map_a();
    for (index, value) in [(0, 0x28), (1, 0x18), (65, 0x58), (67, 0x80)] {
        map[index] = value;
    }
    map
}

/// Object 690 of source document 000: 8 zones, fragments in zones
/// 4, 4, 6, 0, 0, 0, 2, 3 in object order.
pub fn map_690() -> Vec<u8> {
    let record = DiscRecord {
        log2secsize: 8,
        idlen: 11,
        log2bpmb: 10,
        nzones: 8,
        zone_spare: 32,
        disc_size: (8 * 2_016 - 480 - 1_000) * 1_024,
        ..FLOPPY
    };
    let object = |id: u32, length: usize| (Owner::Object(id), length);
    let free = |length: usize| (Owner::Free, length);
    build(
        &record,
        &[
            vec![
                object(690, 20),
                object(3, 12),
                object(690, 30),
                free(100),
                object(690, 12),
                free(1_362),
            ],
            vec![free(2_016)],
            vec![free(500), object(690, 16), free(1_500)],
            vec![object(690, 2_016)],
            vec![
                object(2, 24),
                object(690, 40),
                free(100),
                object(690, 12),
                free(1_840),
            ],
            vec![object(7, 2_016)],
            vec![free(1_000), object(690, 1_016)],
            vec![free(1_000), object(1, 16), object(1, 1_000)],
        ],
    )
}

/// Eight zones, all free but object 2.
pub fn map_of_eight_zones() -> Vec<u8> {
    let record = DiscRecord {
        log2secsize: 8,
        idlen: 11,
        log2bpmb: 10,
        nzones: 8,
        zone_spare: 32,
        disc_size: (8 * 2_016 - 480) * 1_024,
        ..FLOPPY
    };
    let mut zones = vec![vec![(Owner::Free, 2_016)]; 8];
    zones[0] = vec![(Owner::Free, 1_536)];
    zones[4] = vec![(Owner::Object(2), 12), (Owner::Free, 2_004)];
    build(&record, &zones)
}

/// A record of so many zones of blocks of 2^log2secsize bytes, in version 0 or, as
/// E+, in version 1: with the longest id, zones as long as they can be, a map bit
/// of 1,024 bytes, and a disc that ends where the map does.
pub fn record_of_zones(log2secsize: u8, nzones: u16, edition: Edition) -> DiscRecord {
    let zone_bits = (8 << log2secsize) - 32;
    DiscRecord {
        log2secsize,
        idlen: edition.longest_id(),
        log2bpmb: 10,
        nzones,
        zone_spare: 32,
        disc_size: (nzones as u32 * zone_bits - 480) * 1_024,
        size_high: 0,
        version: edition.version(),
    }
}

/// A map of many zones. Each has an object of its own, one bit longer than that of
/// the zone before as far as zone 0 has room, and then a free fragment.
pub fn map_of_zones(record: &DiscRecord) -> Vec<u8> {
    let geometry = Geometry::accept(record).expect("a record inside its ranges");
    let m = geometry.shortest_fragment;
    let lengths = geometry.zone_bits - ZONE_0_SHORTFALL - m + 1;
    let zone = |zone: usize| {
        let id = geometry.ids_per_zone * zone + 7;
        let mut parts = vec![(Owner::Object(id as u32), m + zone % lengths)];
        if zone == geometry.middle_zone() {
            parts.insert(0, (Owner::Object(2), m));
        }
        let owned: usize = parts.iter().map(|(_, length)| length).sum();
        let bits = geometry.end_block_bit() - geometry.first_block_bit(zone);
        if bits > owned {
            parts.push((Owner::Free, bits - owned));
        }
        parts
    };
    let zones: Vec<_> = (0..geometry.nzones).map(zone).collect();
    build(record, &zones)
}

/// A map of shortest fragments whose ids go up from 3 without a gap, with a hole at the
/// disc's start. Where there are several zones all ids of the first are used, and the
/// lowest one left is as high as it can be.
pub fn map_of_packed_ids(record: &DiscRecord) -> Vec<u8> {
    let geometry = Geometry::accept(record).expect("a record inside its ranges");
    let m = geometry.shortest_fragment;
    let mut hole = Some(Owner::Free);
    let mut ids = 3..;
    let mut zones = Vec::new();
    for zone in 0..geometry.nzones {
        let mut left = geometry.end_block_bit() - geometry.first_block_bit(zone);
        let mut parts = Vec::new();
        while left > 0 {
            let length = if left >= 2 * m { m } else { left };
            let owner = if parts.is_empty() && zone == geometry.middle_zone() {
                Owner::Object(2)
            } else {
                let id = || Owner::Object(ids.next().expect("ids without end"));
                hole.take().unwrap_or_else(id)
            };
            parts.push((owner, length));
            left -= length;
        }
        zones.push(parts);
    }
    build(record, &zones)
}

/// A map of an E+ disc whose middle zone starts 49 map bits of 4,096 bytes before
/// address 2^32. Its 1,058 blocks of 256 bytes are longer than that, so that the
/// address of the second copy (R-5 of document 02) has 33 bits.
pub fn map_of_a_high_copy() -> Vec<u8> {
    let record = DiscRecord {
        log2secsize: 8,
        idlen: 17,
        log2bpmb: 12,
        nzones: 1_058,
        zone_spare: 2_048 - 1_983,
        disc_size: 0xFFFF_FF00,
        size_high: 0,
        version: 1,
    };
    let mut zones = vec![vec![(Owner::Free, 1_983)]; 529];
    zones[0] = vec![(Owner::Free, 1_983 - ZONE_0_SHORTFALL)];
    zones.push(vec![(Owner::Object(2), 18), (Owner::Object(1), 1_965)]);
    zones.resize(1_058, vec![(Owner::Object(1), 1_983)]);
    build(&record, &zones)
}

/// The record of an 800K floppy.
pub const FLOPPY: DiscRecord = DiscRecord {
    log2secsize: 10,
    idlen: 15,
    log2bpmb: 7,
    nzones: 1,
    zone_spare: 1_312,
    disc_size: 819_200,
    size_high: 0,
    version: 0,
};

/// The 800K floppy of the last bench line.
pub fn map_floppy() -> Vec<u8> {
    build(
        &FLOPPY,
        &[vec![
            (Owner::Object(2), 32),
            (Owner::Object(9), 16),
            (Owner::Free, 6_352),
        ]],
    )
}
