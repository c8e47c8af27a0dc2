//! R-7 of document 02: "A map with any of block bytes 36 to 63 of zone 0 not 0 is
//! refused with 2 from now on, judged after the other fields." By R-12 that "holds
//! for version 0 only", and the version is in block bytes 48 to 51.

use std::collections::BTreeSet;

use reference::generate::{
    any_map, map_690, map_a, map_floppy, record_of, valid_map, with_bytes, Rng,
};
use reference::geometry::{DiscRecord, Edition, Geometry, CARRIED, LARGEST_MAP, RESERVED, VERSION};
use reference::map::{check, only_reserved_bytes_are_wrong};
use reference::Refusal;

const REFUSED: Refusal = Refusal { number: 2, zone: 0 };

/// Each carried byte of the record.
fn carried() -> impl Iterator<Item = usize> {
    CARRIED.into_iter().flatten()
}

#[test]
fn each_byte_is_refused_with_2_whatever_its_value() {
    for map in [map_a(), map_690(), map_floppy()] {
        for at in 36..64 {
            for byte in 1..=255 {
                let dirty = with_bytes(&map, at, &[byte]);
                let e_plus = (at, byte) == (VERSION.start, 1);
                assert_eq!(check(&dirty).err(), (!e_plus).then_some(REFUSED));
                let version = VERSION.contains(&at);
                assert_eq!(only_reserved_bytes_are_wrong(&dirty), !version);
            }
        }
        assert!(check(&map).is_ok());
        assert!(!only_reserved_bytes_are_wrong(&map));
    }
}

#[test]
fn carried_bytes_are_not_judged() {
    assert_eq!(carried().last(), Some(35));
    for map in [map_a(), map_690(), map_floppy()] {
        for at in carried() {
            for byte in 0..=255 {
                let carrying = with_bytes(&map, at, &[byte]);
                assert!(check(&carrying).is_ok(), "byte {at} is {byte}");
            }
        }
    }
}

/// Byte 64 has the first allocation bits: another value breaks other rules, if any.
#[test]
fn byte_64_is_not_judged_as_reserved() {
    for map in [map_a(), map_690(), map_floppy()] {
        for byte in 0..=255 {
            let changed = with_bytes(&map, 64, &[byte]);
            assert_ne!(check(&changed), Err(REFUSED), "byte 64 is {byte}");
        }
    }
}

/// "Order: 1 (under 64), 2, 1, 3 over all zones, 4".
#[test]
fn judged_between_the_two_lengths() {
    for at in 36..64 {
        let dirty = with_bytes(&map_a(), at, &[2]);
        for length in 0..64 {
            assert_eq!(check(&dirty[..length]), Err(Refusal::plain(1)));
        }
        for length in 64..=256 {
            assert_eq!(check(&dirty[..length]), Err(REFUSED));
        }
        let longer = [&dirty[..], &dirty[..1]].concat();
        assert_eq!(check(&longer), Err(REFUSED));
        assert!(!only_reserved_bytes_are_wrong(&longer));
        let mut wrong_check = dirty.clone();
        wrong_check[0] ^= 1;
        assert_eq!(check(&wrong_check), Err(REFUSED));
        assert!(!only_reserved_bytes_are_wrong(&wrong_check));
    }
}

/// Every reserved byte but the version's comes up as the only one that is not 0,
/// and there are maps with several. Other maps have another fault beside it: a field out of range, a
/// wrong length, or one that is judged later.
#[test]
fn generator_reaches_dirty_records() {
    let mut alone = BTreeSet::new();
    let mut several = 0;
    let (mut fields, mut lengths, mut later) = (0, 0, 0);
    for seed in 0..12_000 {
        let map = any_map(&mut Rng::new(seed), 2_048);
        if map.len() < 64 || map[RESERVED] == [0; 28] || map[VERSION] != [0; 4] {
            continue;
        }
        assert_eq!(check(&map), Err(REFUSED), "seed {seed}");
        let dirty: Vec<usize> = RESERVED.filter(|at| map[*at] != 0).collect();
        match Geometry::accept(&DiscRecord::read(&map)) {
            _ if only_reserved_bytes_are_wrong(&map) => match dirty[..] {
                [at] => {
                    alone.insert(at);
                }
                _ => several += 1,
            },
            None => fields += 1,
            Some(g) if map.len() != g.nzones * g.sector_size => lengths += 1,
            Some(_) => later += 1,
        }
    }
    let of_version_0 = RESERVED.filter(|at| !VERSION.contains(at));
    assert_eq!(alone, of_version_0.collect());
    assert!(several > 50, "{several}");
    let beside = [fields, lengths, later];
    assert!(beside.iter().all(|count| *count > 10), "{beside:?}");
}

/// "Other fields are carried and not judged": none of their bytes is always 0 on
/// valid maps, and the reserved bytes always are.
#[test]
fn generator_fills_carried_bytes() {
    let mut filled = BTreeSet::new();
    for seed in 0..200 {
        let mut rng = Rng::new(seed);
        let record = record_of(&mut rng, LARGEST_MAP, Edition::E);
        let map = valid_map(&mut rng, &record);
        assert!(check(&map).is_ok());
        assert_eq!(map[RESERVED], [0; 28]);
        filled.extend(carried().filter(|at| map[*at] != 0));
    }
    assert_eq!(filled, carried().collect());
}
