//! R-12 of document 02, "E+ discs": "Take version 1 as E+ and 0 as what we have;
//! others are refused with 2." The properties of maps and calls in `properties`
//! hold for both editions, as the generator makes both.

use std::collections::{BTreeMap, BTreeSet};

use reference::case::{Call, Case};
use reference::edit::{claim, place, release};
use reference::generate::{
    any_map, as_e_plus, disc_record, map_690, map_a, map_b, map_floppy, map_of_zones, play,
    record_of, record_of_zones, valid_map, with_bytes, Rng, Sizes,
};
use reference::geometry::{
    DiscRecord, Edition, Geometry, LARGEST_MAP, NZONES_HIGH, RESERVED, SIZE_HIGH, VERSION,
};
use reference::lines::lines;
use reference::map::check;
use reference::read::{address, free, list};
use reference::Refusal;

const REFUSED: Refusal = Refusal { number: 2, zone: 0 };

/// A record of E+ with the shortest zones and the longest id: 25 ids each.
fn short_zones(nzones: u16) -> DiscRecord {
    DiscRecord {
        zone_spare: 2_048 - 500,
        disc_size: 1_024,
        nzones,
        ..record_of_zones(8, 1, Edition::EPlus)
    }
}

#[test]
fn record_of_both_editions_is_read_as_it_was_written() {
    for seed in 0..2_000 {
        let mut rng = Rng::new(seed);
        let record = disc_record(&mut rng, LARGEST_MAP);
        let mut map = vec![0; 64];
        record.write(&mut map);
        assert_eq!(DiscRecord::read(&map), record);
    }
    // "a high byte for nzones at record offset 42, a format version of 4 bytes at
    // 44", from block byte 4 on.
    let mut map = vec![0; 64];
    let record = DiscRecord {
        size_high: 0x0403_0201,
        version: 0x0807_0605,
        ..short_zones(0x1234)
    };
    record.write(&mut map);
    assert_eq!((map[13], map[46]), (0x34, 0x12));
    assert_eq!(map[40..44], [1, 2, 3, 4]);
    assert_eq!(map[48..52], [5, 6, 7, 8]);
}

/// "others are refused with 2": all four bytes count.
#[test]
fn versions() {
    for map in [map_a(), map_690(), map_floppy()] {
        for version in (0u32..=300).chain((9..32).map(|bit| 1 << bit | 1)) {
            let changed = with_bytes(&map, VERSION.start, &version.to_le_bytes());
            match version {
                0 => assert_eq!(check(&changed).unwrap().geometry.edition, Edition::E),
                1 => assert_eq!(check(&changed).unwrap().geometry.edition, Edition::EPlus),
                _ => assert_eq!(check(&changed), Err(REFUSED), "version {version}"),
            }
        }
        assert_eq!(lines(&as_e_plus(&map)), lines(&map));
    }
}

/// "record bytes 36 to 39 ... must be 0 (else 2)"; the others that R-7 judges in
/// version 0 are carried, but for nzones and the version.
#[test]
fn bytes_of_the_e_plus_record() {
    let map = as_e_plus(&map_b());
    for at in RESERVED {
        for byte in 1..=255 {
            let number = check(&with_bytes(&map, at, &[byte])).map_err(|refusal| refusal.number);
            if SIZE_HIGH.contains(&at) || VERSION.contains(&at) && (at, byte) != (VERSION.start, 1)
            {
                assert_eq!(number.err(), Some(2), "byte {at} is {byte}");
            } else if at == NZONES_HIGH {
                // 168 ids a zone are too many with 2^11.
                assert_eq!(number.err(), Some(2), "byte {at} is {byte}");
            } else {
                assert!(number.is_ok(), "byte {at} is {byte}");
            }
        }
    }
}

/// "idlen up to 19 (version 1 only)", from log2secsize+3.
#[test]
fn idlens() {
    for log2secsize in 8..=10 {
        for idlen in 0..=255 {
            for (edition, longest) in [(Edition::E, 15), (Edition::EPlus, 19)] {
                let record = DiscRecord {
                    idlen,
                    ..record_of_zones(log2secsize, 1, edition)
                };
                let inside = (log2secsize + 3..=longest).contains(&idlen);
                assert_eq!(Geometry::accept(&record).is_some(), inside);
            }
        }
    }
}

/// "For E+ nzones may be 1 to 65,535 under the same P*nzones rule": all of them,
/// with 25 ids a zone, and with 100.
#[test]
fn numbers_of_zones() {
    for nzones in 0..=65_535 {
        let accepted = Geometry::accept(&short_zones(nzones));
        assert_eq!(accepted.is_some(), (1..=20_971).contains(&nzones));
        let longer = DiscRecord {
            zone_spare: 32,
            ..short_zones(nzones)
        };
        let accepted = Geometry::accept(&longer);
        assert_eq!(accepted.is_some(), (1..=5_242).contains(&nzones));
        if let Some(geometry) = accepted {
            let last = geometry.ids() as u32 - 1;
            assert_eq!(geometry.start_zone(last), Ok(nzones as usize - 1));
            assert_eq!(geometry.start_zone(last + 1), Err(Refusal::plain(8)));
            assert_eq!(geometry.start_zone(2), Ok(nzones as usize / 2));
        }
    }
}

/// "disc_size ... at most (nzones*Z - 480)*B", above 2^32 as well.
#[test]
fn largest_discs() {
    for (zone_bits, nzones) in [(519, 20_971), (2_016, 521), (2_016, 5_242)] {
        let record = DiscRecord {
            log2bpmb: 12,
            zone_spare: 2_048 - zone_bits,
            disc_size: u32::MAX - 255,
            ..short_zones(nzones)
        };
        let geometry = Geometry::accept(&record).unwrap();
        let bound = geometry.disc_bits() as u64 * geometry.bytes_per_map_bit;
        assert!(bound > 1 << 32);
        assert!(geometry.disc_end_bit() < geometry.disc_bits());
    }
    let largest = Geometry::accept(&DiscRecord {
        log2bpmb: 12,
        zone_spare: 2_048 - 519,
        ..short_zones(20_971)
    });
    let bits = largest.unwrap().disc_bits() as u64;
    assert_eq!(bits * 4_096, 44_578_689_024);
}

/// "Address refuses E+ with 8", after all that is wrong with the map.
#[test]
fn address_is_refused_with_8() {
    let map = as_e_plus(&map_b());
    for n in (0..0x1_0000).chain([1 << 24, u32::MAX]) {
        assert_eq!(address(&map, n, 0), Err(Refusal::plain(8)));
    }
    for seed in 0..3_000 {
        let map = any_map(&mut Rng::new(seed), 4_096);
        let refused = address(&map, 1 << 24, 0).unwrap_err();
        assert_eq!(refused, check(&map).err().unwrap_or(Refusal::plain(8)));
    }
}

/// What a call answers and writes does not depend on the edition, but for address
/// and the version itself.
#[test]
fn calls_answer_alike() {
    let sizes = Sizes {
        map: 4_096,
        list: 2_048,
        image: 8_192,
    };
    let mut alike = 0;
    for seed in 0..2_000 {
        play(seed, &sizes, &mut |case: &Case, outcome| {
            let of_version_0 = match check(&case.map) {
                Ok(checked) => checked.geometry.edition == Edition::E,
                Err(_) => false,
            };
            if !of_version_0 || case.call == Call::Address {
                return;
            }
            let mut other = case.clone();
            other.map = as_e_plus(&case.map);
            let answer = other.run();
            assert_eq!((answer.number, answer.zone), (outcome.number, outcome.zone));
            assert_eq!(answer.values, outcome.values);
            assert!(answer.list == outcome.list && answer.image == outcome.image);
            assert!(answer.map[..] == as_e_plus(&outcome.map));
            alike += 1;
        });
    }
    assert!(alike > 5_000, "{alike}");
}

/// Every byte that E+ carries comes up on valid maps, so do ids of 16 to 19 bits,
/// more than 255 zones, ids above 2^16, and P*nzones of 2^idlen.
#[test]
fn generator_reaches_e_plus() {
    let mut filled = BTreeSet::new();
    let mut seen: BTreeMap<&str, u32> = BTreeMap::new();
    let mut idlens = BTreeSet::new();
    for seed in 0..1_500 {
        let mut rng = Rng::new(seed);
        let record = record_of(&mut rng, LARGEST_MAP, Edition::EPlus);
        let geometry = Geometry::accept(&record).unwrap();
        if seed < 100 {
            let map = valid_map(&mut rng, &record);
            assert_eq!(check(&map).unwrap().geometry, geometry);
            filled.extend(RESERVED.filter(|at| map[*at] != 0));
        }
        idlens.insert((geometry.sector_size, geometry.idlen));
        let mut see = |what, is: bool| *seen.entry(what).or_insert(0) += u32::from(is);
        see("one zone", geometry.nzones == 1);
        see("256 to 511 zones", (256..512).contains(&geometry.nzones));
        see("512 zones and more", geometry.nzones >= 512);
        see("ids above 2^16", geometry.ids() > 1 << 16);
        see("P*nzones is 2^idlen", geometry.ids() == 1 << geometry.idlen);
        let bound = geometry.disc_bits() as u64 * geometry.bytes_per_map_bit;
        see("a bound above 2^32", bound > 1 << 32);
    }
    assert_eq!(idlens.len(), 9 + 8 + 7, "{idlens:?}");
    assert!(seen.values().all(|count| *count > 0), "{seen:?}");
    let carried = RESERVED.filter(|at| !SIZE_HIGH.contains(at) && !(49..52).contains(at));
    assert_eq!(filled, carried.collect());
}

/// Both editions, accepted and refused, and a map that only another version keeps
/// from being accepted.
#[test]
fn generator_damages_the_edition() {
    let mut seen: BTreeMap<&str, u32> = BTreeMap::new();
    for seed in 0..12_000 {
        let map = any_map(&mut Rng::new(seed), 2_048);
        if map.len() < 64 {
            continue;
        }
        let record = DiscRecord::read(&map);
        let number = check(&map).err().map_or(0, |refusal| refusal.number);
        let with = |version| {
            let other = DiscRecord { version, ..record };
            let short = version != 0 || record.nzones < 256;
            short && Geometry::accept(&other).is_some()
        };
        let mut see = |what, is: bool| *seen.entry(what).or_insert(0) += u32::from(is);
        see("version 0 accepted", number == 0 && record.version == 0);
        see("version 1 accepted", number == 0 && record.version == 1);
        see("another version alone", record.version > 1 && with(1));
        let size_high = DiscRecord {
            size_high: 0,
            ..record
        };
        let alone = record.size_high != 0 && Geometry::accept(&size_high).is_some();
        see("the size's high half", record.version == 1 && alone);
        see(
            "idlen 16 in version 0",
            number == 2 && record.version == 0 && with(1),
        );
        let high_byte = record.version == 1 && map[NZONES_HIGH] != 0;
        see("1 by a high byte", number == 1 && high_byte);
    }
    assert!(seen.values().all(|count| *count > 5), "{seen:?}");
}

/// Demand 3 on 1,000 zones: an object of an odd number of zones, a claim, and the
/// map's own objects.
#[test]
fn undo_on_1000_zones() {
    let before = map_of_zones(&record_of_zones(8, 1_000, Edition::EPlus));
    let mut entries = vec![0; 2_000];
    assert_eq!(free(&before, &mut entries), Ok(1_000));
    let spans = entries.clone();
    let mut map = before.clone();
    // In object order from zone 900 on, in every zone but the last.
    let pieces: Vec<u32> = (900..999)
        .chain(0..900)
        .flat_map(|zone| [spans[2 * zone], 20])
        .collect();
    place(&mut map, 90_001, &pieces).unwrap();
    assert_eq!(list(&map, 90_001, &mut entries), Ok(999));
    assert_eq!(entries[..1_998], pieces);
    let crosses: Vec<u8> = (0..1_000).map(|zone| map[256 * zone + 3]).collect();
    assert_eq!(crosses[..4], [254, 2, 3, 1]);
    assert_eq!(crosses[998..], [1, 0]);
    // The first id of the parent zone (R-6 of document 02), which has a hole.
    for (parent, id) in [(0, 3), (256, 25_600), (999, 99_900)] {
        let claimed = claim(&mut map, 1, parent, &mut entries).unwrap();
        assert_eq!(claimed.id, id);
    }
    for id in [99_900, 25_600, 3] {
        release(&mut map, id, &mut entries).unwrap();
    }
    release(&mut map, 90_001, &mut entries).unwrap();
    assert!(map == before);
    for id in [7, 25_607, 50_007, 99_907] {
        release(&mut map, id, &mut entries).unwrap();
        place(&mut map, id, &entries[..2]).unwrap();
        assert!(map == before, "object {id}");
    }
}
