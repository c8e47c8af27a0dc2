//! E+ maps (R-12 of document 02) of more zones than the generator makes, with a
//! few calls on each: what is given out is given back, so that every byte must be
//! as before. Claims take up to all holes of the disc. One map is for claims alone
//! as its ids go up without a gap, and two more are there for the addresses of
//! their copies alone. Those of 1,000 and of 20,971 zones are mended too, with
//! something to join in every zone.

use reference::case::{Call, Case};
use reference::generate::{
    map_of_a_high_copy, map_of_packed_ids, map_of_zones, record_of_zones, repair_zone_checks,
    with_bytes, worn,
};
use reference::geometry::{DiscRecord, Edition, DISC_RECORD, NZONES_HIGH};
use reference::map::{check, set_bit, CheckedMap, Fragment};

use crate::mends::{changed, positions};

/// How many zones have a piece of the object that is placed: an odd number.
const PIECES: usize = 41;

/// The bytes of image that are swept.
const WINDOW: usize = 65_536;

/// A map's name, and the cases on it.
pub type Named = (String, Vec<Case>);

/// "For E+ nzones may be 1 to 65,535 under the same P*nzones rule": the shortest
/// zones there can be have 25 ids each, so that 20,971 of them have at most 2^19.
fn most_zones() -> DiscRecord {
    DiscRecord {
        log2bpmb: 8,
        nzones: 20_971,
        zone_spare: 2_048 - 500,
        disc_size: (20_971 * 500 - 480) * 256,
        ..record_of_zones(8, 1, Edition::EPlus)
    }
}

/// All maps in turn.
pub fn maps() -> Vec<Named> {
    let thousand = map_of_zones(&record_of_zones(8, 1_000, Edition::EPlus));
    let most = map_of_zones(&most_zones());
    let one_more = Case::new(Call::Check, &with_a_zone_more(&most));
    assert_eq!(one_more.run().number, 2);
    let packed = map_of_packed_ids(&record_of_zones(8, 2_000, Edition::EPlus));
    let mut claims = Vec::new();
    claimed_and_released(&mut claims, &packed);
    assert!(claims[0].run().values[0] > 1 << 16);
    let of_255 = map_of_zones(&record_of_zones(8, 255, Edition::E));
    let of_255 = Case::new(Call::CopyAddresses, &of_255);
    let high = Case::new(Call::CopyAddresses, &map_of_a_high_copy());
    assert!(high.run().values[1] > 1 << 32);
    vec![
        ("the E+ map of 1,000 zones".to_string(), cases(&thousand)),
        ("the E+ map of 20,971 zones".to_string(), cases(&most)),
        ("the E+ map of 20,972 zones".to_string(), vec![one_more]),
        ("the E+ map of packed ids".to_string(), claims),
        ("the map of 255 zones".to_string(), vec![of_255]),
        ("the E+ map of a high copy".to_string(), vec![high]),
    ]
}

/// The map with its last block again, and a record that tells of it.
fn with_a_zone_more(map: &[u8]) -> Vec<u8> {
    let [low, high] = (DiscRecord::read(map).nzones + 1).to_le_bytes();
    let mut longer = with_bytes(map, DISC_RECORD + 9, &[low]);
    longer[NZONES_HIGH] = high;
    longer.extend_from_within(map.len() - 256..);
    repair_zone_checks(&mut longer, 256);
    longer
}

/// The calls on one map.
fn cases(map: &[u8]) -> Vec<Case> {
    let checked = check(map).expect("a valid map");
    let ids = checked.geometry.ids() as u32;
    let mut cases = vec![Case::new(Call::Check, map)];
    let mut free = Case::new(Call::Free, map);
    free.list = vec![0; 2 * checked.geometry.nzones];
    cases.push(free);
    // The second has the low 16 bits of one that is there, the last is too high.
    let last = ids - checked.geometry.ids_per_zone as u32 + 7;
    cases.extend([last, last ^ 1 << 16, ids].map(|id| numbered(Call::List, map, id, 2)));
    cases.extend([0x000700, last << 8, 1 << 24].map(|n| numbered(Call::Address, map, n, 0)));
    released_and_placed(&mut cases, map, last);
    placed_and_released(&mut cases, &checked, map, ids / 3 * 2);
    claimed_and_released(&mut cases, map);
    claimed_in_pieces(&mut cases, &checked, map);
    copied(&mut cases, map);
    mended(&mut cases, map);
    cases
}

fn numbered(call: Call, map: &[u8], number: u32, entries: usize) -> Case {
    let mut case = Case::new(call, map);
    case.number = number;
    case.list = vec![0; entries];
    case
}

/// The object of one fragment goes and comes back.
fn released_and_placed(cases: &mut Vec<Case>, map: &[u8], id: u32) {
    let release = numbered(Call::Release, map, id, 2);
    let released = release.run();
    let mut place = numbered(Call::Place, &released.map, id, 0);
    place.list = released.list;
    assert!(place.run().map == map);
    cases.extend([release, place]);
}

/// An absent object gets pieces all over the disc, is read, swept and released.
fn placed_and_released(cases: &mut Vec<Case>, checked: &CheckedMap, map: &[u8], id: u32) {
    let mut place = numbered(Call::Place, map, id, 0);
    place.list = pieces(checked, id);
    let placed = place.run();
    assert_eq!(placed.number, 0);
    let entries = place.list.len();
    cases.push(numbered(Call::List, &placed.map, id, entries));
    for call in [Call::SweepObject, Call::SweepFree] {
        let mut sweep = numbered(call, &placed.map, id, 0);
        let first = place.list[0] as u64 * checked.geometry.bytes_per_map_bit;
        sweep.wide = first - WINDOW as u64 / 2;
        sweep.fill = 0xFF;
        sweep.image = vec![0; WINDOW];
        cases.push(sweep);
    }
    let release = numbered(Call::Release, &placed.map, id, entries);
    assert!(release.run().map == map);
    cases.extend([place, release]);
}

/// The starts of free fragments in `PIECES` zones, in the object order of an id.
fn pieces(checked: &CheckedMap, id: u32) -> Vec<u32> {
    let m = checked.geometry.shortest_fragment;
    let mut holes: Vec<Fragment> = checked.free();
    holes.retain(|hole| hole.length >= 2 * m);
    let step = holes.len() / PIECES;
    let start = checked.geometry.start_zone(id).expect("an id in range");
    let mut chosen: Vec<_> = holes.into_iter().step_by(step).take(PIECES).collect();
    chosen.sort_by_key(|hole| (hole.zone < start, hole.zone));
    let pair = |hole: &Fragment| [checked.pair(hole).0, m as u32];
    chosen.iter().flat_map(pair).collect()
}

/// A claim of a size near a zone, with room for so many entries.
fn claim(map: &[u8], size: u64, parent: u32, entries: usize) -> Case {
    let mut claim = numbered(Call::Claim, map, parent, entries);
    claim.wide = size;
    claim
}

/// A claim near the first zone, the middle one and the last, in the first hole there
/// is, and its release; one of more bits than are free, one near a zone past the last,
/// and one without room.
fn claimed_and_released(cases: &mut Vec<Case>, map: &[u8]) {
    let geometry = check(map).expect("a valid map").geometry;
    let nzones = geometry.nzones as u32;
    let middle = geometry.middle_zone() as u32;
    for parent in [0, middle, nzones - 1] {
        let claim = claim(map, 1, parent, 2);
        let claimed = claim.run();
        assert_eq!(claimed.number, 0);
        let release = numbered(Call::Release, &claimed.map, claimed.values[0] as u32, 2);
        assert!(release.run().map == map);
        cases.extend([claim, release]);
    }
    let refused = [
        claim(map, u64::MAX, middle, 2),
        claim(map, 1, nzones, 2),
        claim(map, 1, middle, 1),
    ];
    let numbers = refused.each_ref().map(|case| case.run().number);
    assert_eq!(numbers, [15, 12, 17]);
    cases.extend(refused);
}

/// A claim of a bit more than the longest hole has, one of half of the free bits and one
/// of all, each released, and its list placed again; the last one also with an entry too
/// few, and with a byte too many.
fn claimed_in_pieces(cases: &mut Vec<Case>, checked: &CheckedMap, map: &[u8]) {
    let lengths: Vec<u64> = checked
        .free()
        .iter()
        .map(|hole| hole.length as u64)
        .collect();
    let longest = lengths.iter().max().expect("a hole");
    let all: u64 = lengths.iter().sum();
    let bytes = |bits: u64| bits * checked.geometry.bytes_per_map_bit;
    let room = 2 * lengths.len();
    for bits in [longest + 1, all / 2, all] {
        let claim = claim(map, bytes(bits), 0, room);
        let claimed = claim.run();
        let (id, entries) = (claimed.values[0] as u32, 2 * claimed.values[1] as usize);
        assert!(claimed.number == 0 && entries > 2);
        let release = numbered(Call::Release, &claimed.map, id, entries);
        let released = release.run();
        assert!(released.map == map && released.list == claimed.list[..entries]);
        let mut place = numbered(Call::Place, map, id, 0);
        place.list = released.list;
        assert!(place.run().map == claimed.map);
        cases.extend([claim, release, place]);
    }
    let refused = [
        claim(map, bytes(all), 0, room - 1),
        claim(map, bytes(all) + 1, 0, room),
    ];
    assert_eq!(refused.each_ref().map(|case| case.run().number), [17, 15]);
    cases.extend(refused);
}

/// The first of two copies has a wrong zone check in its last block; the second is
/// chosen and written over it.
fn copied(cases: &mut Vec<Case>, map: &[u8]) {
    let mut choose = Case::new(Call::ChooseCopy, map);
    let last = map.len() - 256;
    choose.map[last] ^= 1;
    choose.image = map.to_vec();
    assert_eq!(choose.run().values, [2, 0]);
    let mut copy = Case::new(Call::CopyOver, map);
    copy.image = choose.map.clone();
    assert!(copy.run().image == map);
    cases.extend([choose, copy, Case::new(Call::CopyAddresses, map)]);
}

/// The map in the worst order is mended, which may change all bits of a zone's hole, and
/// zone 0's cross check for the last zone's; with as many entries as there are positions,
/// and with one less. Then the last zone's last closing bit is gone.
fn mended(cases: &mut Vec<Case>, map: &[u8]) {
    let worn = worn(map);
    let mend = Case::new(Call::Mend, &worn);
    let after = mend.run().map;
    // The last zone's cross check is another, and so is zone 0's.
    let last = map.len() - 256;
    assert!(check(&after).is_ok() && after[last + 3] != map[last + 3]);
    let number = changed(&worn, &after).len();
    let mut open = worn.clone();
    let end = check(map).expect("a valid map").geometry.end_block_bit();
    set_bit(&mut open[last..], end - 1, false);
    let refused = [Case::new(Call::Mend, &open), positions(&open, 0)];
    assert!(refused.iter().all(|case| case.run().number == 6));
    cases.extend([
        mend,
        positions(&worn, number),
        positions(&worn, number - 1),
        Case::new(Call::Check, &after),
        Case::new(Call::Mend, &after),
        positions(&after, 0),
    ]);
    cases.extend(refused);
}
