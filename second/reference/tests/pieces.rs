//! R-8 of document 02: each claim of the generator held against the request's words, read
//! in another way than the library has them, what follows from them, and examples.

use std::collections::BTreeMap;

use reference::case::{Call, Case, Outcome};
use reference::edit::{claim, cross_check_changes, need, place, release, Claimed};
use reference::generate::{
    build, objects, play, play_claims, play_pieces, record_of_zones, Rng, Sizes,
};
use reference::geometry::{DiscRecord, Edition, Geometry};
use reference::map::{check, CheckedMap, Fragment, Owner};
use reference::Refusal;

const SIZES: Sizes = Sizes {
    map: 32_768,
    list: 2_048,
    image: 256,
};

/// A disc bit and a length.
type Pair = (u32, u32);

// -------------------------------------------------------------------- examples

fn object(id: u32, length: usize) -> (Owner, usize) {
    (Owner::Object(id), length)
}

fn free(length: usize) -> (Owner, usize) {
    (Owner::Free, length)
}

/// Map A's record with three zones: Z 2016, m 12, P 168, 1,024 bytes a map bit. They
/// start at disc bits 0, 1,536 and 3,552, and have holes of 24, 30 and 36 bits, of 60, and
/// of 36 and 23.
fn six_holes() -> Vec<u8> {
    let record = DiscRecord {
        idlen: 11,
        ..record_of_zones(8, 3, Edition::E)
    };
    let zones = [
        vec![
            object(5, 76),
            free(24),
            object(5, 100),
            free(30),
            object(5, 100),
            free(36),
            object(5, 1_170),
        ],
        vec![object(2, 12), free(60), object(170, 1_944)],
        vec![free(36), object(170, 64), free(23), object(170, 1_893)],
    ];
    build(&record, &zones)
}

/// A claim of so many bits, with room for all holes: the id and the pairs.
fn claimed(bits: u64, parent: u32) -> Result<(u32, Vec<u32>), Refusal> {
    let mut entries = [7; 14];
    let Claimed { id, pairs } = claim(&mut six_holes(), bits * 1_024, parent, &mut entries)?;
    let (listed, past) = entries.split_at(2 * pairs as usize);
    assert!(past.iter().all(|entry| *entry == 7));
    Ok((id, listed.to_vec()))
}

/// The holes largest first: (1548,60), (330,36), (3552,36), (200,30), (76,24), (3652,23).
/// The first is in zone 1, so that zone 0 comes last.
#[test]
fn pieces_of_six_holes() {
    let of_zone_1 = |pairs: &[u32]| Ok((168, [&[1_548, 60], pairs].concat()));
    for parent in 0..3 {
        let claimed = |bits| claimed(bits, parent);
        // 1 to 12 bits remain of which 12 are taken, then 13.
        assert_eq!(claimed(61), of_zone_1(&[330, 12]));
        assert_eq!(claimed(72), of_zone_1(&[330, 12]));
        assert_eq!(claimed(73), of_zone_1(&[330, 13]));
        // A leftover of 12 bits, of 11, of none.
        assert_eq!(claimed(84), of_zone_1(&[330, 24]));
        assert_eq!(claimed(85), of_zone_1(&[330, 36]));
        assert_eq!(claimed(96), of_zone_1(&[330, 36]));
        // The second of the equal ones, in zone 2.
        assert_eq!(claimed(97), of_zone_1(&[3_552, 12, 330, 36]));
        assert_eq!(claimed(132), of_zone_1(&[3_552, 36, 330, 36]));
        // 24 bits remain, which a later hole has; of this one 6 would be left over.
        assert_eq!(claimed(156), of_zone_1(&[3_552, 36, 200, 30, 330, 36]));
        // A bit remains of the last hole: 12, and 11 left over.
        let all = [3_552, 36, 3_652, 23, 76, 24, 200, 30, 330, 36];
        assert_eq!(claimed(187), of_zone_1(&all));
        assert_eq!(claimed(209), of_zone_1(&all));
        assert_eq!(claimed(210), Err(Refusal::plain(15)));
    }
}

/// "When no hole is long enough": up to 60 bits one is.
#[test]
fn one_hole_of_six() {
    assert_eq!(claimed(31, 0), Ok((3, vec![330, 36])));
    assert_eq!(claimed(37, 0), Ok((168, vec![1_548, 37])));
    assert_eq!(claimed(60, 2), Ok((168, vec![1_548, 60])));
    assert_eq!(claimed(25, 2), Ok((336, vec![3_552, 36])));
}

/// "so 17 may be given": three pairs have six entries. 12 and 15 come before it.
#[test]
fn room() {
    let claimed = |bits: u64, parent, entries| {
        let mut map = six_holes();
        let mut list = vec![7; entries];
        let answer = claim(&mut map, bits * 1_024, parent, &mut list);
        if answer.is_err() {
            assert!(map == six_holes() && list == vec![7; entries]);
        }
        answer.map_or_else(|refusal| refusal.number, |_| 0)
    };
    let numbers = |bits, parent| [0, 1, 2, 5, 6, 7].map(|entries| claimed(bits, parent, entries));
    assert_eq!(numbers(132, 0), [17, 17, 17, 17, 0, 0]);
    assert_eq!(numbers(24, 0), [17, 17, 0, 0, 0, 0]);
    assert_eq!(numbers(210, 0), [15; 6]);
    assert_eq!(numbers(132, 3), [12; 6]);
    assert_eq!(numbers(0, 0), [12; 6]);
}

// ------------------------------------------------------------ generated claims

/// What is taken, in the order in which it is, by looking for the next hole each time.
fn expected_pieces(checked: &CheckedMap, size: u64, parent: usize) -> Option<Vec<Pair>> {
    let geometry = &checked.geometry;
    let (k, m) = (geometry.cluster_bits, geometry.shortest_fragment);
    let need = need(geometry, size);
    // The least from a hole's start that is enough and leaves nothing short.
    let enough = |hole: &Fragment, bits: usize| {
        let mut lengths = (bits.max(m)..=hole.length).step_by(k);
        let fits = |length: &usize| *length == hole.length || hole.length - length >= m;
        let length = lengths.find(fits).expect("the whole hole is enough");
        (checked.pair(hole).0, length as u32)
    };

    let mut holes = checked.free();
    let long_enough = holes.iter().filter(|hole| hole.length as u128 >= need);
    if let Some(hole) =
        long_enough.min_by_key(|hole| (hole.zone.abs_diff(parent), hole.zone, hole.start))
    {
        return Some(vec![enough(hole, need as usize)]);
    }
    let mut pieces = Vec::new();
    let mut remains = need;
    while remains > 0 {
        let longest = holes.iter().map(|hole| hole.length).max()?;
        let index = holes.iter().position(|hole| hole.length == longest)?;
        let hole = holes.remove(index);
        let bits = remains.min(longest as u128) as usize;
        pieces.push(enough(&hole, bits));
        remains -= bits as u128;
    }
    Some(pieces)
}

/// The first id of the zone that is not on the map, or of all.
fn expected_id(checked: &CheckedMap, zone: usize) -> u32 {
    let per_zone = checked.geometry.ids_per_zone;
    let present = objects(checked);
    let absent = |id: &usize| present.binary_search(&(*id as u32)).is_err();
    let of_zone = (zone * per_zone).max(3)..(zone + 1) * per_zone;
    let id = of_zone.clone().find(absent);
    id.or((3..checked.geometry.ids()).find(absent)).unwrap() as u32
}

/// The pieces ascending, those before the id's start zone moved to the end.
fn expected_list(geometry: &Geometry, id: u32, mut pieces: Vec<Pair>) -> Vec<u32> {
    pieces.sort();
    let start_zone = id as usize / geometry.ids_per_zone;
    let earlier = |pair: &Pair| geometry.zone_of(pair.0 as usize) < start_zone;
    let (last, first): (Vec<Pair>, Vec<Pair>) = pieces.into_iter().partition(earlier);
    let both = first.into_iter().chain(last);
    both.flat_map(|(start, length)| [start, length]).collect()
}

/// A claim of the generator's as R-8 has it.
fn holds(case: &Case, outcome: &Outcome, seen: &mut BTreeMap<&'static str, u32>) {
    let Ok(checked) = check(&case.map) else {
        return;
    };
    if matches!(outcome.number, 9 | 12) {
        return;
    }
    let geometry = &checked.geometry;
    let mut see = |what, is: bool| *seen.entry(what).or_insert(0) += u32::from(is);
    let entries = case.list.len();
    see("no room", entries == 0);
    see("room for one entry", entries == 1);

    let pieces = expected_pieces(&checked, case.wide, case.number as usize);
    let free_bits: usize = checked.free().iter().map(|hole| hole.length).sum();
    let need = need(geometry, case.wide);
    assert_eq!(pieces.is_none(), (free_bits as u128) < need);
    let Some(pieces) = pieces else {
        assert_eq!((outcome.number, outcome.zone), (15, 0));
        see("too few bits", true);
        see("a bit or cluster too few", need - free_bits as u128 <= 8);
        return;
    };
    let wanted = 2 * pieces.len();
    see("an entry too few", entries + 1 == wanted);
    if entries < wanted {
        assert_eq!((outcome.number, outcome.zone), (17, 0));
        see("one piece, too few entries", wanted == 2);
        return;
    }
    see("just enough entries", entries == wanted);
    see("an odd number of entries", entries % 2 == 1);

    let id = expected_id(&checked, geometry.zone_of(pieces[0].0 as usize));
    let list = expected_list(geometry, id, pieces.clone());
    assert_eq!(outcome.number, 0);
    assert_eq!(outcome.values, [id as u64, pieces.len() as u64]);
    assert_eq!(outcome.list[..wanted], list);
    assert_eq!(outcome.list[wanted..], case.list[wanted..]);
    see("one piece", pieces.len() == 1);
    see("several pieces", pieces.len() > 1);
    see(
        "all free bits",
        pieces.len() > 1 && free_bits as u128 == need,
    );
    counted_as_the_request_says(&checked, need, &pieces);
}

/// "the list's bits are at least need", by at most what m and a leftover add, and every
/// hole but the last is whole.
fn counted_as_the_request_says(checked: &CheckedMap, need: u128, pieces: &[Pair]) {
    let geometry = &checked.geometry;
    let holes: BTreeMap<u32, u32> = checked
        .free()
        .iter()
        .map(|hole| checked.pair(hole))
        .collect();
    let bits: u32 = pieces.iter().map(|(_, length)| length).sum();
    let over = bits as u128 - need;
    let most = 2 * (geometry.shortest_fragment - geometry.cluster_bits);
    assert!(over <= most as u128);
    for (start, length) in &pieces[..pieces.len() - 1] {
        assert_eq!(holes.get(start), Some(length));
    }
}

fn visit_all(seeds: std::ops::Range<u64>, visit: &mut dyn FnMut(&Case, &Outcome)) {
    let mut visit = |case: &Case, outcome: &Outcome| {
        if case.call == Call::Claim {
            visit(case, outcome);
        }
    };
    for seed in seeds {
        play(seed, &SIZES, &mut visit);
        play_claims(seed, &SIZES, &mut visit);
        play_pieces(seed, &SIZES, &mut visit);
    }
}

#[test]
fn generated_claims() {
    let mut seen = BTreeMap::new();
    visit_all(0..3_000, &mut |case, outcome| {
        holds(case, outcome, &mut seen)
    });
    for (what, count) in &seen {
        assert!(*count > 30, "{what}: {count}");
    }
    assert_eq!(seen.len(), 11, "{seen:?}");
}

/// The pairs of an accepted claim.
fn pairs_of(outcome: &Outcome) -> &[u32] {
    &outcome.list[..2 * outcome.values[1] as usize]
}

/// Demand 3: a claim is undone by its release; and its list, placed, is the claim.
#[test]
fn undone_and_placed() {
    let mut several = 0;
    visit_all(0..2_000, &mut |case, outcome| {
        if outcome.number != 0 {
            return;
        }
        let (id, pairs) = (outcome.values[0] as u32, pairs_of(outcome));
        let mut map = outcome.map.clone();
        let mut entries = vec![0; pairs.len()];
        assert_eq!(release(&mut map, id, &mut entries), Ok(outcome.values[1]));
        assert!(map == case.map && entries == pairs);
        assert_eq!(place(&mut map, id, pairs), Ok(()));
        assert!(map == outcome.map);
        several += u32::from(pairs.len() > 2);
    });
    assert!(several > 1_000, "{several}");
}

/// "An edit touching several, in ascending order, exclusive-ors each", whatever the order
/// of the list; an edit of one zone leaves the cross checks alone.
#[test]
fn cross_checks() {
    let mut seen = BTreeMap::new();
    visit_all(0..1_500, &mut |case, outcome| {
        if outcome.number != 0 {
            return;
        }
        let geometry = check(&case.map).unwrap().geometry;
        let zone_of = |pair: &[u32]| geometry.zone_of(pair[0] as usize);
        let mut touched: Vec<usize> = pairs_of(outcome).chunks(2).map(zone_of).collect();
        touched.sort();
        touched.dedup();
        let mut changes = vec![0; geometry.nzones];
        for (zone, change) in touched.iter().zip(cross_check_changes(touched.len())) {
            changes[*zone] = change;
        }
        for (zone, change) in changes.into_iter().enumerate() {
            let at = zone * geometry.sector_size + 3;
            assert_eq!(outcome.map[at], case.map[at] ^ change);
        }
        *seen.entry(touched.len()).or_insert(0) += 1;
    });
    for zones in 1..=7 {
        let count = seen.get(&zones).copied().unwrap_or(0);
        assert!(count > 10, "{zones} zones: {count}");
    }
}

/// "Refusal 15 is then given exactly if all free bits together are fewer than need", and
/// a claim of several pieces is the same with every parent.
#[test]
fn parents_of_split_claims() {
    let mut several = 0;
    visit_all(0..500, &mut |case, outcome| {
        let split = outcome.number == 0 && outcome.values[1] > 1;
        if !split && outcome.number != 15 {
            return;
        }
        let nzones = check(&case.map).unwrap().geometry.nzones as u32;
        for parent in 0..nzones.min(10) {
            let other = Case {
                number: parent,
                ..case.clone()
            };
            assert!(other.run() == *outcome);
        }
        several += u32::from(split);
    });
    assert!(several > 500, "{several}");
}

/// Demand 3 for runs: claims until one is refused, and then all of them released in any
/// order. "each object has its starting pieces", and every byte is as it was.
#[test]
fn released_in_any_order() {
    let (mut runs, mut several) = (0, 0);
    for seed in 0..400 {
        let mut before = Vec::new();
        play_pieces(seed, &SIZES, &mut |case, _| {
            if before.is_empty() {
                before = case.map.clone();
            }
        });
        let mut rng = Rng::new(seed);
        let mut map = before.clone();
        let mut ids = Vec::new();
        let mut entries = vec![0; 4_096];
        for _ in 0..4 {
            let geometry = check(&map).unwrap().geometry;
            let bits = rng.between(1, 8 * geometry.shortest_fragment) as u64;
            let parent = rng.below(geometry.nzones) as u32;
            let size = bits * geometry.bytes_per_map_bit;
            match claim(&mut map, size, parent, &mut entries) {
                Ok(Claimed { id, pairs }) => {
                    ids.push(id);
                    several += u32::from(pairs > 1);
                }
                Err(refusal) => assert_eq!(refusal, Refusal::plain(15)),
            }
        }
        runs += u32::from(ids.len() > 1);
        while !ids.is_empty() {
            let id = ids.swap_remove(rng.below(ids.len()));
            release(&mut map, id, &mut entries).unwrap();
        }
        assert!(map == before, "seed {seed}");
    }
    assert!(runs > 100 && several > 100, "{runs} {several}");
}
