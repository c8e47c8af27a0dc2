//! R-13 of document 02: each disc of the generator held against the request's words, read
//! in another way than the library has them, what follows from them, and examples.

use std::collections::BTreeMap;

use reference::case::{Call, Case, Outcome};
use reference::copies::copy_addresses;
use reference::edit::{claim, release};
use reference::format::{format, format_length};
use reference::generate::{disc_to_format, map_a, play_formats, DiscToFormat, Rng, Sizes};
use reference::geometry::LARGEST_MAP;
use reference::map::{bit, check, number, zone_check_by_columns, CheckedMap, Fragment, Owner};
use reference::Refusal;

const SIZES: Sizes = Sizes {
    map: LARGEST_MAP,
    list: 4_096,
    image: 256,
};

const MBYTE: u64 = 1_048_576;

/// The longest map that any disc of the table has: 254 blocks of 256 bytes.
const LONGEST_MAP: u64 = 65_024;

fn disc(log2secsize: u32, idlen: u32, capacity: u64) -> DiscToFormat {
    DiscToFormat {
        log2secsize,
        idlen,
        capacity,
    }
}

/// The length that is told for a disc.
fn length(disc: DiscToFormat) -> Result<u64, Refusal> {
    format_length(disc.log2secsize, disc.capacity, disc.idlen)
}

/// The map of a disc that is not refused, drawn over noise.
fn formatted(disc: DiscToFormat) -> Vec<u8> {
    let mut map = vec![0xA7; length(disc).expect("a disc in range") as usize];
    let answer = format(disc.log2secsize, disc.capacity, disc.idlen, &mut map);
    assert_eq!(answer, Ok(()));
    map
}

// -------------------------------------------------------------------- examples

/// 1,536 map bits of 256 bytes: map A of the bench examples, but for the record's bytes per
/// map bit and disc_size, and for the zone check.
#[test]
fn as_map_a() {
    let map = formatted(disc(8, 11, 393_216));
    let mut expected = map_a();
    (expected[9], expected[22]) = (8, 6);
    expected[0] = zone_check_by_columns(&expected);
    assert_eq!(map, expected);
}

/// 800K in one zone of 1,024 bytes: object 2 in bits 0 to 15, the hole up to bit 3,199, the
/// overhang up to the map's end; a cluster has four bits. Bit 0 is the lowest of byte 64.
#[test]
fn a_floppy() {
    let map = formatted(disc(10, 15, 819_200));
    let mut expected = vec![0; 1_024];
    // FreeLink is 512 + 16 - 8.
    (expected[1], expected[2], expected[3]) = (0x08, 0x82, 0xFF);
    (expected[4], expected[8], expected[9], expected[13]) = (10, 15, 8, 1);
    (expected[14], expected[21], expected[22]) = (32, 0x80, 0x0C);
    (expected[64], expected[65]) = (2, 0x80);
    expected[64 + 399] = 0x80;
    (expected[64 + 400], expected[1_023]) = (1, 0x80);
    expected[0] = zone_check_by_columns(&expected);
    assert_eq!(map, expected);
}

/// The pairs of an object, or of what is free.
fn pairs(checked: &CheckedMap, owner: Owner) -> Vec<(u32, u32)> {
    let mut fragments = checked.fragments();
    fragments.retain(|fragment| fragment.owner == owner);
    fragments.iter().map(|piece| checked.pair(piece)).collect()
}

/// Object 2, object 1 and the free spans of a disc's map.
fn owners(disc: DiscToFormat) -> [Vec<(u32, u32)>; 3] {
    let checked = check(&formatted(disc)).expect("an accepted map");
    [Owner::Object(2), Owner::Object(1), Owner::Free].map(|owner| pairs(&checked, owner))
}

/// One zone: bits of disc, and where object 2 and the overhang are.
#[test]
fn objects_that_meet() {
    let bits = |bits: u64| disc(8, 11, 256 * bits);
    for refused in [1, 11, 1_537, 1_547] {
        assert_eq!(length(bits(refused)), Err(Refusal::plain(2)), "{refused}");
    }
    assert_eq!(owners(bits(12)), [vec![(0, 12)], vec![(12, 1_524)], vec![]]);
    assert_eq!(owners(bits(23)), [vec![(0, 23)], vec![(23, 1_513)], vec![]]);
    let free = vec![(12, 12)];
    assert_eq!(owners(bits(24)), [vec![(0, 12)], vec![(24, 1_512)], free]);
    let overhang = vec![(1_524, 12)];
    let free = vec![(12, 1_512)];
    for short in [1, 11, 12] {
        let drawn = owners(bits(1_536 - short));
        assert_eq!(drawn, [vec![(0, 12)], overhang.clone(), free.clone()]);
    }
    // Two zones.
    let drawn = owners(bits(1_548));
    assert_eq!(
        drawn,
        [vec![(1_536, 12)], vec![(1_548, 2_004)], vec![(0, 1_536)]]
    );
    // Three: the last is all object 1's.
    let free = vec![(0, 1_536), (1_548, 2_004)];
    for bits in [3_553, 3_563] {
        let drawn = owners(disc(8, 11, 256 * bits));
        assert_eq!(
            drawn,
            [vec![(1_536, 12)], vec![(3_552, 2_016)], free.clone()]
        );
    }
}

/// "up to 124 Mbytes (of 1,048,576 bytes) 256, up to 249 gives 512, up to 499 gives 1024,
/// up to 999 gives 2048, limits included".
#[test]
fn limits() {
    let unit = |log2secsize, capacity| {
        let map = formatted(disc(log2secsize, 15, capacity));
        check(&map).unwrap().geometry.bytes_per_map_bit
    };
    for (mbytes, at_limit) in [(124, 256), (249, 512), (499, 1_024), (999, 2_048)] {
        for log2secsize in 8..=10 {
            let (limit, sector) = (mbytes * MBYTE, 1 << log2secsize);
            assert_eq!(unit(log2secsize, limit - sector), at_limit);
            assert_eq!(unit(log2secsize, limit), at_limit);
            if mbytes < 999 {
                assert_eq!(unit(log2secsize, limit + sector), 2 * at_limit);
            } else {
                let above = disc(log2secsize, 15, limit + sector);
                assert_eq!(length(above), Err(Refusal::plain(2)));
            }
        }
    }
}

// ---------------------------------------------------------------- in other words

/// What the request makes of a disc, by sums instead of a search: B and the zones; nothing
/// where it is refused with 2.
fn by_sums(disc: DiscToFormat) -> Option<(u64, u64)> {
    let DiscToFormat {
        log2secsize,
        idlen,
        capacity,
    } = disc;
    let id_in_range = (8..=10).contains(&log2secsize) && idlen >= log2secsize + 3 && idlen <= 15;
    if !id_in_range || capacity == 0 || capacity % (1 << log2secsize) != 0 {
        return None;
    }
    let unit = match capacity.div_ceil(MBYTE) {
        0..=124 => 256,
        125..=249 => 512,
        250..=499 => 1_024,
        500..=999 => 2_048,
        _ => return None,
    };
    let zone = (8 << log2secsize) - 32;
    let nzones = (capacity.div_ceil(unit) + 480).div_ceil(zone);
    if nzones > 255 || zone / (idlen as u64 + 1) * nzones > 1 << idlen {
        return None;
    }
    // Up to 124 Mbytes a sector is k bits, and no disc of one zone or two is larger. These
    // have the overhang in object 2's zone, after the m bits of that.
    let k = (1 << log2secsize) / 256;
    let m = (idlen as u64 + 1).div_ceil(k) * k;
    let last_zone = ((nzones - 1) * zone).saturating_sub(480);
    if nzones <= 2 && capacity / unit < last_zone + m {
        return None;
    }
    Some((unit, nzones))
}

/// A disc of some seed.
fn some_disc(seed: u64) -> DiscToFormat {
    let mut rng = Rng::new(seed);
    let largest = if seed % 40 == 0 { LARGEST_MAP } else { 16_384 };
    disc_to_format(&mut rng, largest)
}

#[test]
fn every_disc_in_other_words() {
    let mut told = BTreeMap::new();
    for seed in 0..30_000 {
        let disc = some_disc(seed);
        let expected = by_sums(disc).map(|(_, nzones)| nzones << disc.log2secsize);
        assert_eq!(length(disc).ok(), expected, "{disc:?}");
        if let Some(length) = expected {
            assert!(length <= LONGEST_MAP);
        }
        *told.entry(expected.is_some()).or_insert(0) += 1;
    }
    assert!(told[&true] > 10_000 && told[&false] > 3_000, "{told:?}");
}

/// No disc of the table takes more than 254 zones, so that the record's 255 never refuse
/// one; and with ids of 15 bits none is refused for its zones at all.
#[test]
fn most_zones() {
    let mut most = 0;
    for mbytes in [124, 249, 499, 999] {
        for log2secsize in 8..=10 {
            let bytes = length(disc(log2secsize, 15, mbytes * MBYTE)).unwrap();
            most = most.max(bytes >> log2secsize);
            assert!(bytes <= LONGEST_MAP);
        }
    }
    assert_eq!(most, 254);
}

// ------------------------------------------------------------------------- laws

/// "The drawn map must be accepted and list exactly these owners", and no fragment is of
/// another one than objects 1 and 2. They fill the map, as an accepted map's do.
fn fragments_of(map: &[u8]) -> CheckedMap {
    let checked = check(map).expect("an accepted map");
    let fragments = checked.fragments();
    let bits: usize = fragments.iter().map(|fragment| fragment.length).sum();
    assert_eq!(bits, checked.geometry.disc_bits());
    for fragment in &fragments {
        assert!(matches!(
            fragment.owner,
            Owner::Free | Owner::Object(1) | Owner::Object(2)
        ));
    }
    checked
}

/// What object 2 and object 1 have, each in one piece, and the one before and after.
fn judge_objects(checked: &CheckedMap) {
    let geometry = &checked.geometry;
    let m = geometry.shortest_fragment as u64;
    let (unit, end) = (geometry.bytes_per_map_bit, geometry.disc_bits() as u64);
    let middle = &checked.zones[geometry.nzones / 2];
    assert_eq!(pairs(checked, Owner::Object(2)).len(), 1);
    assert_eq!(middle[0].owner, Owner::Object(2));
    let copies = 2 * (geometry.nzones * geometry.sector_size) as u64;
    let two = middle[0].length as u64;
    assert!(two * unit >= copies && two >= m);
    // A cluster less would not do, but for a stretch that is not free. Where it is longer,
    // the overhang follows it.
    let shortest = m.max(copies.div_ceil(unit));
    assert!(two == shortest || (two < shortest + m && middle[1].owner == Owner::Object(1)));

    let overhang = pairs(checked, Owner::Object(1));
    let disc_end = geometry.disc_size / unit;
    if disc_end == end {
        assert!(overhang.is_empty());
        return;
    }
    let (start, length) = (overhang[0].0 as u64, overhang[0].1 as u64);
    assert_eq!((overhang.len(), start + length), (1, end));
    assert!(start <= disc_end && length >= m);
    // It starts earlier for its length, or for all bits of a zone before it.
    let first_of_zone = checked.zones[geometry.nzones - 1][0].owner == Owner::Object(1);
    let early = disc_end - start;
    assert!(early == 0 || length == m || (first_of_zone && early < m));
}

/// The laws of one map.
fn judge(disc: DiscToFormat, map: &[u8]) {
    let checked = fragments_of(map);
    let geometry = &checked.geometry;
    assert_eq!(geometry.disc_size, disc.capacity);
    let (unit, nzones) = by_sums(disc).expect("a disc in range");
    assert_eq!(geometry.bytes_per_map_bit, unit);
    assert_eq!(geometry.nzones as u64, nzones);
    // "the fewest zones": one less does not cover the capacity.
    let less = ((nzones - 1) * geometry.zone_bits as u64).saturating_sub(480);
    assert!(less * unit < disc.capacity);
    for zone in &checked.zones {
        // "each other stretch one free fragment".
        let free = |fragment: &Fragment| fragment.owner == Owner::Free;
        assert!(!zone.windows(2).any(|two| two.iter().all(free)));
        assert!(zone.len() <= 3 && zone.iter().filter(|part| free(part)).count() <= 1);
    }
    judge_objects(&checked);
    // Both copies are in object 2, which R-5's addresses tell too.
    let copies = copy_addresses(map).unwrap();
    let (start, length) = pairs(&checked, Owner::Object(2))[0];
    assert_eq!(copies.first, start as u64 * unit);
    let end = (start + length) as u64 * unit;
    assert!(copies.second + map.len() as u64 <= end && end <= disc.capacity);
}

/// "bytes not named here 0": the record's other bytes, and in each block all allocation
/// bits but object numbers and closing bits. No link is needed, as a zone has one free
/// fragment at most.
fn judge_bytes(disc: DiscToFormat, map: &[u8]) {
    let checked = check(map).expect("an accepted map");
    let geometry = &checked.geometry;
    let named = [4, 8, 9, 13, 14, 20, 21, 22, 23];
    for at in (4..64).filter(|at| !named.contains(at)) {
        assert_eq!(map[at], 0, "byte {at}");
    }
    assert_eq!(map[14], 32);
    assert_eq!(map[20..24], (disc.capacity as u32).to_le_bytes());
    for (zone, block) in map.chunks_exact(geometry.sector_size).enumerate() {
        assert_eq!(block[0], zone_check_by_columns(block));
        assert_eq!(block[3], if zone == 0 { 255 } else { 0 });
        let fragments = &checked.zones[zone];
        let free = fragments.iter().find(|part| part.owner == Owner::Free);
        let link = free.map_or(0, |part| part.start - 8);
        assert_eq!(number(block, 8, 16), 0x8000 | link);
        let mut ones = 0;
        for fragment in fragments {
            let id = match fragment.owner {
                Owner::Object(id) => id as usize,
                Owner::Free => 0,
            };
            assert_eq!(number(block, fragment.start, geometry.idlen), id);
            ones += 1 + id.count_ones();
        }
        let first = geometry.first_block_bit(zone);
        let set = (first..8 * geometry.sector_size).filter(|at| bit(block, *at));
        assert_eq!(set.count() as u32, ones);
    }
}

#[test]
fn every_drawn_map() {
    let mut drawn = 0;
    for seed in 0..8_000 {
        let disc = some_disc(seed);
        if length(disc).is_ok() {
            let map = formatted(disc);
            judge(disc, &map);
            judge_bytes(disc, &map);
            drawn += 1;
        }
    }
    assert!(drawn > 3_000, "{drawn}");
}

/// Every number of map bits up to four zones and a little, with every sector and id.
#[test]
fn every_disc_of_few_zones() {
    for log2secsize in 8..=10 {
        for idlen in log2secsize + 3..=15 {
            let zone = (8 << log2secsize) - 32;
            let near = |edge: u64| (edge.saturating_sub(40)..edge + 40).collect::<Vec<u64>>();
            let edges = [
                0,
                zone - 480,
                2 * zone - 480,
                3 * zone - 480,
                4 * zone - 480,
            ];
            for bits in edges.into_iter().flat_map(near) {
                let disc = disc(log2secsize, idlen, 256 * bits);
                let expected = by_sums(disc).map(|(_, nzones)| nzones << log2secsize);
                assert_eq!(length(disc).ok(), expected, "{disc:?}");
                if expected.is_some() {
                    judge(disc, &formatted(disc));
                }
            }
        }
    }
}

// ------------------------------------------------------------------ the buffer

/// "A map buffer of the wrong length is refused with 1, after every 2", "and the lent map
/// buffer is untouched by a refusal".
#[test]
fn refused_buffers() {
    let noise: Vec<u8> = (0..3_000).map(|at| (at % 251) as u8).collect();
    for (disc, length) in [
        (disc(8, 11, 819_200), Some(512)),
        (disc(10, 15, 819_200), Some(1_024)),
        (disc(8, 11, 11 * 256), None),
        (disc(8, 11, 1_537 * 256), None),
        (disc(8, 10, 819_200), None),
        (disc(8, 11, 0), None),
    ] {
        for lent in [0, 1, 63, 64, 255, 256, 511, 513, 768, 1_023, 1_025, 3_000] {
            let mut map = noise[..lent].to_vec();
            let answer = format(disc.log2secsize, disc.capacity, disc.idlen, &mut map);
            let number = if length.is_some() { 1 } else { 2 };
            assert_eq!(answer, Err(Refusal::plain(number)));
            assert_eq!(map, noise[..lent]);
        }
    }
}

/// What stood in the buffer does not matter.
#[test]
fn over_any_bytes() {
    for seed in 0..500 {
        let disc = disc_to_format(&mut Rng::new(seed), 2_048);
        let Ok(length) = length(disc) else {
            continue;
        };
        let expected = formatted(disc);
        for byte in [0, 0xFF] {
            let mut map = vec![byte; length as usize];
            format(disc.log2secsize, disc.capacity, disc.idlen, &mut map).unwrap();
            assert_eq!(map, expected);
        }
    }
}

/// The numbers whose lower bits are in range, and what wraps.
#[test]
fn numbers_far_out_of_range() {
    for log2secsize in [0, 7, 11, 264, (1 << 31) + 8, u32::MAX - 7, u32::MAX] {
        let disc = disc(log2secsize, 15, 819_200);
        assert_eq!(length(disc), Err(Refusal::plain(2)));
    }
    for idlen in [0, 10, 16, 19, 267, (1 << 31) + 11, u32::MAX] {
        assert_eq!(length(disc(8, idlen, 819_200)), Err(Refusal::plain(2)));
    }
    for capacity in [(1 << 32) + 819_200, (1 << 63) + 819_200, u64::MAX - 255] {
        assert_eq!(length(disc(8, 15, capacity)), Err(Refusal::plain(2)));
    }
}

// ------------------------------------------------------------------- afterwards

/// "no two free fragments of a zone touch": edits start from it, and a claim is undone.
#[test]
fn claimed_and_released() {
    for seed in 0..300 {
        let disc = disc_to_format(&mut Rng::new(seed), 4_096);
        if length(disc).is_err() {
            continue;
        }
        let blank = formatted(disc);
        let mut map = blank.clone();
        let mut list = [0; 2];
        match claim(&mut map, 1, 0, &mut list) {
            Ok(claimed) => {
                assert_eq!(release(&mut map, claimed.id, &mut list), Ok(1));
                assert_eq!(map, blank);
            }
            Err(refusal) => {
                assert_eq!(refusal, Refusal::plain(15));
                assert!(check(&blank).unwrap().free().is_empty());
            }
        }
    }
}

/// The generator makes both calls in every seed, and reaches all that they answer.
#[test]
fn played() {
    let mut reached = BTreeMap::new();
    for seed in 0..3_000 {
        play_formats(seed, &SIZES, &mut |case: &Case, outcome: &Outcome| {
            *reached.entry((case.call, outcome.number)).or_insert(0) += 1;
            assert_eq!(outcome.zone, 0);
            if case.call == Call::Format && outcome.number == 0 {
                assert!(check(&outcome.map).is_ok());
            }
        });
    }
    for call in [Call::Format, Call::FormatLength] {
        for number in [vec![0], call.refusals()].concat() {
            assert!(reached.contains_key(&(call, number)), "{call:?} {number}");
        }
    }
}
