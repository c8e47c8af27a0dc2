//! R-9 of document 02: each map of the generator held against the request's words, read in
//! another way than the library has them, what follows from them, and examples.

use std::collections::BTreeMap;

use reference::case::{Call, Case, Outcome};
use reference::edit::{claim, release};
use reference::generate::{
    any_map, as_e_plus, disc_record, map_a, map_b, map_to_mend, objects, play_mends,
    repair_cross_checks, repair_zone_checks, valid_map, with_holes_cut, worn, Rng, Sizes,
};
use reference::geometry::{DiscRecord, Geometry};
use reference::map::{
    bit, check, check_but_for_checks, number, set_bit, set_number, zone_check_by_columns,
    CheckedMap, Owner,
};
use reference::mend::{mend, mend_positions};
use reference::Refusal;

const SIZES: Sizes = Sizes {
    map: 32_768,
    list: 4_096,
    image: 256,
};

// -------------------------------------------------------------------- examples

/// Map A with its free fragment (12,1524) cut into (12,12) and (24,1512): the first has
/// link 12 in bits 12 to 22, and closes with bit 23.
fn cut_a() -> Vec<u8> {
    let mut map = map_a();
    (map[65], map[66]) = (0xC8, 0x80);
    map
}

/// What a map becomes, and the positions listed with so many entries.
fn mended(map: &[u8], entries: usize) -> (Vec<u8>, Result<Vec<u32>, Refusal>) {
    let mut after = map.to_vec();
    assert_eq!(mend(&mut after), Ok(()));
    let mut list = vec![7; entries];
    let count = mend_positions(map, &mut list);
    let listed = count.map(|count| {
        let (listed, past) = list.split_at(count as usize);
        assert!(past.iter().all(|entry| *entry == 7));
        listed.to_vec()
    });
    (after, listed)
}

/// The zone check of A stands there already, so that it is not listed.
#[test]
fn a_cut_map_a() {
    assert_eq!(mended(&cut_a(), 3), (map_a(), Ok(vec![65, 66])));
    let mut map = cut_a();
    map[0] = 0;
    assert_eq!(mended(&map, 3), (map_a(), Ok(vec![0, 65, 66])));
    map[3] = 0;
    assert_eq!(mended(&map, 4), (map_a(), Ok(vec![0, 3, 65, 66])));
    let e_plus = as_e_plus(&map_a());
    assert_eq!(mended(&as_e_plus(&cut_a()), 3).0, e_plus);
}

/// "A map already in order stays the same, byte for byte."
#[test]
fn maps_a_and_b() {
    for map in [map_a(), map_b()] {
        assert_eq!(mended(&map, 0), (map.clone(), Ok(vec![])));
        assert_eq!(mended(&map, 2), (map, Ok(vec![])));
    }
}

/// "then 17 if the list is too short", by single numbers, and nothing is written then.
#[test]
fn room() {
    let mut map = cut_a();
    map[0] = 0;
    for entries in 0..6 {
        let mut list = vec![7; entries];
        let answer = mend_positions(&map, &mut list);
        if entries < 3 {
            assert_eq!(answer, Err(Refusal::plain(17)));
            assert_eq!(list, vec![7; entries]);
        } else {
            assert_eq!(answer, Ok(3));
            assert_eq!(list[..3], [0, 65, 66]);
        }
    }
}

/// The stored forms of both calls.
#[test]
fn stored_forms() {
    let mut map = cut_a();
    map[0] = 0;
    let mend = Case::new(Call::Mend, &map);
    let line = mend.line(&mend.run());
    assert_eq!(line, "mend 0 0 map 0=199 65=8 66=0");
    let mut positions = Case::new(Call::MendPositions, &map);
    positions.list = vec![65, 65, 65, 65];
    let line = positions.line(&positions.run());
    // The second entry was 65 before, and so is not a changed one.
    assert_eq!(line, "mend_positions 0 0 3 list 0=0 2=66");
    positions.list.truncate(2);
    let line = positions.line(&positions.run());
    assert_eq!(line, "mend_positions 17 0 0 list");
    map[64] = 3;
    let mend = Case::new(Call::Mend, &map);
    assert_eq!(mend.line(&mend.run()), "mend 7 0 map");
    let numbers = [mend.bytes()[0], positions.bytes()[0]];
    assert_eq!(numbers, [13, 14]);
    assert_eq!(mend.bytes().len(), 32 + 256);
    assert_eq!(positions.bytes().len(), 32 + 256 + 8);
}

// -------------------------------------------------------------- generated maps

/// "the refusal that the map would get with those three ignored": that of the map with its
/// checks made right, as no check looks at free fragments that touch.
fn expected_refusal(map: &[u8]) -> Option<Refusal> {
    let mut repaired = map.to_vec();
    if map.len() >= 64 {
        if let Some(geometry) = Geometry::accept(&DiscRecord::read(map)) {
            repair_cross_checks(&mut repaired, geometry.sector_size);
            repair_zone_checks(&mut repaired, geometry.sector_size);
        }
    }
    check(&repaired).err()
}

/// What a map becomes, bit by bit: where two free fragments of a zone touch, the closing
/// bit of the one and the link of the other go; what is left of the chain is linked anew.
fn expected_map(map: &[u8], checked: &CheckedMap) -> Vec<u8> {
    let Geometry {
        sector_size, idlen, ..
    } = checked.geometry;
    let mut map = map.to_vec();
    let mut cross_checks = 0;
    for (block, fragments) in map.chunks_exact_mut(sector_size).zip(&checked.zones) {
        let mut firsts = Vec::new();
        let mut end_of_free = 0;
        for fragment in fragments.iter().filter(|f| f.owner == Owner::Free) {
            if fragment.start == end_of_free {
                set_bit(block, end_of_free - 1, false);
                set_number(block, fragment.start, idlen, 0);
            } else {
                firsts.push(fragment.start);
            }
            end_of_free = fragment.end();
        }
        for two in firsts.windows(2) {
            set_number(block, two[0], idlen, two[1] - two[0]);
        }
        if let Some(last) = firsts.last() {
            set_number(block, *last, idlen, 0);
        }
        cross_checks ^= block[3];
    }
    map[3] ^= !cross_checks;
    for block in map.chunks_exact_mut(sector_size) {
        block[0] = zone_check_by_columns(block);
    }
    map
}

/// Who has each block bit of a zone; none where no fragment has it.
fn owners(checked: &CheckedMap, zone: usize) -> Vec<Option<Owner>> {
    let mut owners = vec![None; checked.geometry.end_block_bit()];
    for fragment in &checked.zones[zone] {
        owners[fragment.start..fragment.end()].fill(Some(fragment.owner));
    }
    owners
}

/// "Ownership of every bit is untouched", the pieces of objects are as they were, and no
/// two free fragments touch.
fn same_owners(before: &CheckedMap, after: &CheckedMap) {
    assert_eq!(before.geometry, after.geometry);
    for zone in 0..before.zones.len() {
        assert_eq!(owners(before, zone), owners(after, zone));
        let owned = |checked: &CheckedMap| {
            let mut owned = checked.zones[zone].clone();
            owned.retain(|fragment| fragment.owner != Owner::Free);
            owned
        };
        assert_eq!(owned(before), owned(after));
        for two in after.zones[zone].windows(2) {
            assert!(two[0].owner != Owner::Free || two[1].owner != Owner::Free);
        }
    }
}

/// Nothing but zone checks, zone 0's cross check and allocation bits is another, not even
/// a FreeLink: the first of a row starts where the row does.
fn only_what_may_change(geometry: &Geometry, before: &[u8], after: &[u8]) {
    let size = geometry.sector_size;
    let blocks = before.chunks_exact(size).zip(after.chunks_exact(size));
    for (zone, (before, after)) in blocks.enumerate() {
        let first = if zone == 0 { 4 } else { 1 };
        assert_eq!(before[1..3], after[1..3]);
        let allocation = geometry.first_block_bit(zone)..geometry.end_block_bit();
        for block_bit in 8 * first..8 * size {
            if !allocation.contains(&block_bit) {
                assert_eq!(bit(before, block_bit), bit(after, block_bit));
            }
        }
    }
}

/// Holds both calls on a map against the request. Answers whether it is mended.
fn holds(map: &[u8]) -> bool {
    let mut after = map.to_vec();
    let answer = mend(&mut after);
    let refusal = expected_refusal(map);
    assert_eq!(answer.err(), refusal);
    let mut list = vec![7; map.len()];
    let count = mend_positions(map, &mut list);
    if let Some(refusal) = refusal {
        assert!(after == map);
        assert_eq!(count, Err(refusal));
        assert!(list.iter().all(|entry| *entry == 7));
        assert_eq!(mend_positions(map, &mut []), Err(refusal));
        return false;
    }
    let checked = check_but_for_checks(map).expect("a map that is mended");
    assert!(after == expected_map(map, &checked));
    let mended = check(&after).expect("a mended map is accepted");
    same_owners(&checked, &mended);
    only_what_may_change(&checked.geometry, map, &after);

    // "exactly the byte positions the mender would change".
    let listed = &list[..count.expect("the mender's answer") as usize];
    assert!(listed.is_sorted_by(|one, other| one < other));
    let mut changed = map.to_vec();
    for at in listed {
        assert_ne!(map[*at as usize], after[*at as usize]);
        changed[*at as usize] = after[*at as usize];
    }
    assert!(changed == after);

    // "mending twice is mending once."
    let mut twice = after.clone();
    assert_eq!(mend(&mut twice), Ok(()));
    assert!(twice == after);
    assert_eq!(mend_positions(&after, &mut []), Ok(0));
    true
}

#[test]
fn maps_to_mend() {
    let (mut mended, mut refused) = (0, 0);
    for seed in 0..6_000 {
        let mut rng = Rng::new(seed);
        let map = map_to_mend(&mut rng, 2_048);
        if holds(&map) {
            mended += 1;
        } else {
            refused += 1;
        }
    }
    assert!(mended > 3_000 && refused > 800, "{mended} {refused}");
}

#[test]
fn damaged_maps() {
    let (mut mended, mut refused) = (0, 0);
    for seed in 0..4_000 {
        let mut rng = Rng::new(seed);
        let map = any_map(&mut rng, 2_048);
        if holds(&map) {
            mended += 1;
        } else {
            refused += 1;
        }
    }
    assert!(mended > 500 && refused > 1_000, "{mended} {refused}");
}

/// Every map with one other bit.
#[test]
fn one_other_bit() {
    let mut mended = 0;
    for map in [cut_a(), map_b()] {
        for at in 0..8 * map.len() {
            let mut other = map.clone();
            other[at / 8] ^= 1 << (at % 8);
            mended += u32::from(holds(&other));
        }
    }
    assert!(mended > 200, "{mended}");
}

/// "A map already in order stays the same, byte for byte", and with its free fragments cut
/// it becomes what it was.
#[test]
fn maps_in_order() {
    let mut cut_again = 0;
    for seed in 0..2_000 {
        let mut rng = Rng::new(seed);
        let record = disc_record(&mut rng, 4_096);
        let mut map = valid_map(&mut rng, &record);
        mend(&mut map).unwrap();
        assert_eq!(mended(&map, 0), (map.clone(), Ok(vec![])));
        let cut = with_holes_cut(&map, |geometry, total| {
            let m = geometry.shortest_fragment;
            if total < 2 * m {
                return vec![total];
            }
            vec![m, total - m]
        });
        cut_again += u32::from(cut != map);
        assert!(mended(&cut, map.len()).0 == map);
        assert!(holds(&worn(&map)));
    }
    assert!(cut_again > 1_000, "{cut_again}");
}

/// Edits of a mended map are not refused with 9: a release and a claim are accepted.
#[test]
fn edits() {
    let mut edits = 0;
    for seed in 0..1_500 {
        let mut rng = Rng::new(seed);
        let mut map = map_to_mend(&mut rng, 2_048);
        if mend(&mut map).is_err() {
            continue;
        }
        let checked = check(&map).unwrap();
        let mut list = vec![0; 4_096];
        if let Some(id) = objects(&checked).into_iter().find(|id| *id >= 3) {
            assert!(release(&mut map.clone(), id, &mut list).is_ok());
            edits += 1;
        }
        if !checked.free().is_empty() {
            assert!(claim(&mut map, 1, 0, &mut list).is_ok());
            edits += 1;
        }
    }
    assert!(edits > 1_000, "{edits}");
}

/// What the generator's calls come to: each refusal of both, and each kind of map.
#[test]
fn generated_calls() {
    let mut seen: BTreeMap<(Call, u32), u32> = BTreeMap::new();
    let mut kinds: BTreeMap<[bool; 3], u32> = BTreeMap::new();
    for seed in 0..3_000 {
        play_mends(seed, &SIZES, &mut |case: &Case, outcome: &Outcome| {
            *seen.entry((case.call, outcome.number)).or_insert(0) += 1;
            assert!(case.call.mends() || outcome.number != 9);
            if case.call == Call::Mend && outcome.number == 0 {
                *kinds.entry(faults(&case.map)).or_insert(0) += 1;
            }
        });
    }
    for call in [Call::Mend, Call::MendPositions] {
        for number in [vec![0], call.refusals()].concat() {
            let count = seen.get(&(call, number)).copied().unwrap_or(0);
            assert!(count > 30, "{call:?} {number}: {count}");
        }
        assert!(!seen.contains_key(&(call, 3)) && !seen.contains_key(&(call, 4)));
    }
    assert_eq!(kinds.len(), 8, "{kinds:?}");
    assert!(kinds.values().all(|count| *count > 30), "{kinds:?}");
}

/// Whether zone checks, cross checks and touching free fragments are to be mended.
fn faults(map: &[u8]) -> [bool; 3] {
    let checked = check_but_for_checks(map).unwrap();
    let blocks = || map.chunks_exact(checked.geometry.sector_size);
    let touch = |fragments: &Vec<reference::map::Fragment>| {
        let free = |index: usize| fragments[index].owner == Owner::Free;
        (1..fragments.len()).any(|index| free(index - 1) && free(index))
    };
    [
        blocks().any(|block| block[0] != zone_check_by_columns(block)),
        blocks().fold(0, |all, block| all ^ block[3]) != 255,
        checked.zones.iter().any(touch),
    ]
}

/// The worst order: every free fragment is as short as can be, every zone check wrong, and
/// the last zone's cross check another.
#[test]
fn worn_maps() {
    for seed in 0..300 {
        let mut rng = Rng::new(seed);
        let record = disc_record(&mut rng, 4_096);
        let map = valid_map(&mut rng, &record);
        let worn = worn(&map);
        let checked = check_but_for_checks(&worn).unwrap();
        let m = checked.geometry.shortest_fragment;
        assert!(checked.free().iter().all(|hole| hole.length < 2 * m));
        for block in worn.chunks_exact(checked.geometry.sector_size) {
            assert_ne!(block[0], zone_check_by_columns(block));
        }
        for fragment in checked.free() {
            let block = &worn[fragment.zone * checked.geometry.sector_size..];
            let link = number(block, fragment.start, checked.geometry.idlen);
            assert!(link == 0 || link >= fragment.length);
        }
    }
}
