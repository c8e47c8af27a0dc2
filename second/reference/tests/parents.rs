//! R-6 of document 02: the order of zones, and each claim of the generator held against
//! the request's words, read in another way than the library has them. What no hole is
//! long enough for is in `pieces`.

use std::collections::BTreeMap;

use reference::case::{Call, Case, Outcome};
use reference::edit::{claim, need, release};
use reference::generate::{
    arguments, disc_record, map_a, objects, play, play_claims, record_of_zones, valid_map,
    with_bytes, Memory, Rng, Sizes,
};
use reference::geometry::{Edition, Geometry};
use reference::map::{check, CheckedMap, Fragment};
use reference::Refusal;

const SIZES: Sizes = Sizes {
    map: 32_768,
    list: 2_048,
    image: 256,
};

fn geometry(nzones: u16) -> Geometry {
    Geometry::accept(&record_of_zones(8, nzones, Edition::E)).unwrap()
}

/// "tries it, then one below, one above, two below and so on, skipping zones that
/// don't exist".
#[test]
fn order_of_zones() {
    for (nzones, parent, zones) in [
        (1, 0, vec![0]),
        (2, 0, vec![0, 1]),
        (2, 1, vec![1, 0]),
        (5, 0, vec![0, 1, 2, 3, 4]),
        (5, 1, vec![1, 0, 2, 3, 4]),
        (5, 2, vec![2, 1, 3, 0, 4]),
        (5, 3, vec![3, 2, 4, 1, 0]),
        (5, 4, vec![4, 3, 2, 1, 0]),
        (6, 3, vec![3, 2, 4, 1, 5, 0]),
    ] {
        assert_eq!(geometry(nzones).zones_near(parent), zones);
    }
}

/// It names every zone exactly once, by distance, the lower first.
#[test]
fn order_of_zones_names_each_once() {
    for nzones in 1..=20 {
        for parent in 0..nzones as usize {
            let mut expected: Vec<usize> = (0..nzones as usize).collect();
            expected.sort_by_key(|zone| (zone.abs_diff(parent), *zone));
            assert_eq!(geometry(nzones).zones_near(parent), expected);
        }
    }
}

/// The hole of a claim: of those long enough the nearest zone's, the lower one's of two
/// as near, and there the first.
fn expected_hole(checked: &CheckedMap, size: u64, parent: usize) -> Option<Fragment> {
    let mut holes = checked.free();
    holes.retain(|hole| hole.length as u128 >= need(&checked.geometry, size));
    let distance = |hole: &Fragment| hole.zone.abs_diff(parent);
    holes.sort_by_key(|hole| (distance(hole), hole.zone, hole.start));
    holes.first().copied()
}

/// The id of a claim: the first one of the zone that is not on the map, or of all.
fn expected_id(checked: &CheckedMap, zone: usize) -> u32 {
    let per_zone = checked.geometry.ids_per_zone as u32;
    let present = objects(checked);
    let mut free: Vec<u32> = (3..checked.geometry.ids() as u32).collect();
    free.retain(|id| present.binary_search(id).is_err());
    let of_zone = free.iter().find(|id| **id / per_zone == zone as u32);
    *of_zone.unwrap_or(&free[0])
}

/// A claim of the generator's as R-6 has it.
fn holds(case: &Case, outcome: &Outcome, seen: &mut BTreeMap<&'static str, u32>) {
    let Ok(checked) = check(&case.map) else {
        return;
    };
    let mut see = |what| *seen.entry(what).or_insert(0) += 1;
    let nzones = checked.geometry.nzones;
    let parent = case.number as usize;
    if outcome.number == 9 {
        return;
    }
    if case.wide == 0 || parent >= nzones {
        assert_eq!((outcome.number, outcome.zone), (12, 0));
        let what = ["no parent", "0 bytes"][usize::from(case.wide == 0)];
        see(what);
        return;
    }
    let Some(hole) = expected_hole(&checked, case.wide, parent) else {
        assert!(outcome.number != 0 || outcome.values[1] > 1);
        see("no hole");
        return;
    };
    if case.list.len() < 2 {
        assert_eq!((outcome.number, outcome.zone), (17, 0));
        see("no room");
        return;
    }
    let id = expected_id(&checked, hole.zone);
    let (start, _) = checked.pair(&hole);
    assert_eq!(outcome.number, 0);
    assert_eq!(outcome.values, [id as u64, 1]);
    assert_eq!(outcome.list[0], start);
    see(match hole.zone {
        zone if zone < parent => "below",
        zone if zone > parent => "above",
        _ => "in the parent",
    });
    if id as usize / checked.geometry.ids_per_zone != hole.zone {
        see("an id of another zone");
    }
    let mirrored = 2 * parent - hole.zone.min(parent);
    let long_enough = |other: &Fragment| other.length as u128 >= need(&checked.geometry, case.wide);
    let mut holes = checked.free().into_iter().filter(long_enough);
    if hole.zone < parent && holes.any(|other| other.zone == mirrored) {
        see("as far above");
    }
}

#[test]
fn generated_claims() {
    let mut seen = BTreeMap::new();
    let mut visit = |case: &Case, outcome: &Outcome| {
        if case.call == Call::Claim {
            holds(case, outcome, &mut seen);
        }
    };
    for seed in 0..3_000 {
        play(seed, &SIZES, &mut visit);
        play_claims(seed, &SIZES, &mut visit);
    }
    for what in [
        "0 bytes",
        "no parent",
        "no hole",
        "no room",
        "below",
        "above",
        "in the parent",
        "an id of another zone",
        "as far above",
    ] {
        let count = seen.get(what).copied().unwrap_or(0);
        assert!(count > 100, "{what}: {count}");
    }
}

/// Demand 3: "An accepted place or claim followed at once by its release, again with
/// room, does the same", whatever the parent.
#[test]
fn claim_then_release_restores_every_byte() {
    let mut claims = 0;
    let mut visit = |case: &Case, outcome: &Outcome| {
        if case.call != Call::Claim || outcome.number != 0 {
            return;
        }
        let mut map = outcome.map.clone();
        let mut entries = vec![0; 2 * outcome.values[1] as usize];
        release(&mut map, outcome.values[0] as u32, &mut entries).unwrap();
        assert_eq!(entries, outcome.list[..entries.len()]);
        assert!(map == case.map);
        claims += 1;
    };
    for seed in 0..2_000 {
        play_claims(seed, &SIZES, &mut visit);
    }
    assert!(claims > 2_000, "{claims}");
}

/// "Refusals 14 and 15 keep their meaning": whether a claim is refused does not depend
/// on which zone of the disc the parent is.
#[test]
fn no_hole_whatever_the_parent() {
    let mut refused = 0;
    for seed in 0..400 {
        let mut rng = Rng::new(seed);
        let record = disc_record(&mut rng, 4_096);
        let map = valid_map(&mut rng, &record);
        let case = arguments(&mut rng, Call::Claim, &map, &SIZES, &Memory::new());
        let nzones = check(&map).unwrap().geometry.nzones as u32;
        let room = || vec![0; 20_000];
        let answer = |parent| claim(&mut map.clone(), case.wide, parent, &mut room()).err();
        for parent in 1..nzones {
            assert_eq!(answer(parent), answer(0), "seed {seed}");
        }
        refused += u32::from(nzones > 1 && answer(0) == Some(Refusal::plain(15)));
    }
    assert!(refused > 20, "{refused}");
}

/// What is wrong with the map comes before a parent that is not there, 15 after it.
#[test]
fn no_such_parent() {
    let told = |map: &[u8], size| claim(&mut map.to_vec(), size, 1, &mut []).unwrap_err();
    assert_eq!(told(&map_a()[..63], 1), Refusal::plain(1));
    assert_eq!(told(&with_bytes(&map_a(), 36, &[1]), 1), Refusal::plain(2));
    let mut map = map_a();
    map[0] ^= 1;
    assert_eq!(told(&map, 1), Refusal::plain(3));
    for size in [0, 1, u64::MAX] {
        assert_eq!(told(&map_a(), size), Refusal::plain(12));
    }
}
