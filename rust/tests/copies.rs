//! The two copies of a map: which of them is handed back, one written over the
//! other, where they lie, and a station that is cut off while it writes them.

mod shapes;

use std::fs;

use shapes::{fresh_map, Shape};
use shapes::{DRIVE_OF_255_ZONES, FLOPPY, HARD_DISC_256, HARD_DISC_512, PLUS_OF_1000_ZONES};
use shoalswift::{
    check, choose_copy, copy_addresses, copy_over, geometry, list, place, MapCopy, Reason, Refusal,
};

fn map_a() -> Vec<u8> {
    fs::read("../maps/a.map").expect("map A is in the repository")
}

fn map_b() -> Vec<u8> {
    fs::read("../maps/b.map").expect("map B is in the repository")
}

/// A map with a byte of its last block changed: refused with 3, that zone.
fn spoilt(map: &[u8]) -> Vec<u8> {
    let mut map = map.to_vec();
    *map.last_mut().expect("a map has bytes") ^= 0x40;
    map
}

fn refusal(reason: Reason, zone: u32) -> Refusal {
    Refusal { reason, zone }
}

/// The copy that must be handed back, and whether the two are told to be equal.
fn assert_choice(first: &[u8], second: &[u8], accepted: Result<MapCopy, Refusal>, equal: bool) {
    let choice = choose_copy(first, second);
    assert_eq!(choice.accepted, accepted);
    assert_eq!(choice.equal, equal);
}

#[test]
fn the_first_accepted_copy_is_handed_back() {
    let (a, b) = (map_a(), map_b());
    assert_choice(&a, &a, Ok(MapCopy::First(&a)), true);
    assert_choice(&a, &b, Ok(MapCopy::First(&a)), false);
    assert_choice(&a, &spoilt(&a), Ok(MapCopy::First(&a)), false);
    assert_choice(&a, &[], Ok(MapCopy::First(&a)), false);
    assert_choice(&spoilt(&a), &b, Ok(MapCopy::Second(&b)), false);
    assert_choice(&[], &b, Ok(MapCopy::Second(&b)), false);
    assert_choice(&a[..255], &a, Ok(MapCopy::Second(&a)), false);
    assert_eq!(choose_copy(&[], &b).accepted.map(MapCopy::map), Ok(&b[..]));
}

#[test]
fn where_neither_is_accepted_the_first_s_refusal_is_told() {
    let a = map_a();
    let wide = fresh_map(&HARD_DISC_256);
    let last = refusal(Reason::ZoneCheck, 4);
    assert_choice(&spoilt(&wide), &spoilt(&a), Err(last), false);
    assert_choice(&spoilt(&wide), &[], Err(last), false);
    let short = refusal(Reason::MapLength, 0);
    assert_choice(&[], &spoilt(&wide), Err(short), false);
    // Equal, and refused all the same.
    assert_choice(&spoilt(&wide), &spoilt(&wide), Err(last), true);
    assert_choice(&[], &[], Err(short), true);
    assert_choice(&a[..255], &a[..255], Err(short), true);
}

/// What is answered, and what the target then holds.
fn copied(source: &[u8], target: &[u8]) -> (Result<(), Refusal>, Vec<u8>) {
    let mut after = target.to_vec();
    (copy_over(source, &mut after), after)
}

#[test]
fn an_accepted_copy_is_written_over_the_other() {
    let (a, b) = (map_a(), map_b());
    for target in [&a, &b, &spoilt(&a), &vec![0xFF; a.len()]] {
        assert_eq!(copied(&a, target), (Ok(()), a.clone()));
    }
}

#[test]
fn a_refused_copy_writes_nothing() {
    let (a, wide) = (map_a(), fresh_map(&HARD_DISC_256));
    let other_length = Err(refusal(Reason::MapLength, 0));
    for target in [&wide[..], &a[..255], &[]] {
        assert_eq!(copied(&a, target), (other_length, target.to_vec()));
    }
    // The source is judged first, whatever the lengths.
    let last = Err(refusal(Reason::ZoneCheck, 4));
    for target in [&wide[..], &a, &[]] {
        assert_eq!(copied(&spoilt(&wide), target), (last, target.to_vec()));
    }
    assert_eq!(copied(&[], &[]), (other_length, vec![]));
}

#[test]
fn the_copies_lie_where_object_2_starts() {
    for shape in [
        FLOPPY,
        HARD_DISC_512,
        HARD_DISC_256,
        DRIVE_OF_255_ZONES,
        PLUS_OF_1000_ZONES,
    ] {
        let map = fresh_map(&shape);
        let at = copy_addresses(&map).expect("a fresh map is accepted");
        let mut pieces = [0; 4];
        list(&map, 2, &mut pieces).expect("object 2 has at most two pieces here");
        let unit = geometry(&map).expect("the same").unit as u64;
        assert_eq!(at.first, pieces[0] as u64 * unit);
        assert_eq!(at.second, at.first + map.len() as u64);
        assert!(at.second < shape.disc_size as u64);
        let zone = (map.len() / shape.sector() - 1) as u32;
        let told = copy_addresses(&spoilt(&map));
        assert_eq!(told, Err(refusal(Reason::ZoneCheck, zone)));
    }
}

/// The shape's map with an object of a piece in each of four zones.
fn edited(shape: &Shape, map: &[u8]) -> Vec<u8> {
    let mut new = map.to_vec();
    let length = shape.shortest() as u32;
    let free = |zone| (shape.first_disc_bit(zone) + shape.zone_bits() / 2) as u32;
    let pieces: Vec<u32> = (1..5).flat_map(|zone| [free(zone), length]).collect();
    let id = shape.ids_per_zone() - 1;
    assert_eq!(place(&mut new, id, &pieces), Ok(()));
    new
}

/// A copy over which so many bytes of a new map are written.
fn written(bytes: usize, new: &[u8], old: &[u8]) -> Vec<u8> {
    let bytes = bytes.min(new.len());
    [&new[..bytes], &old[bytes..]].concat()
}

/// The station writes the second copy, then the first. What it may count on
/// wherever it is cut off is what `StationLaws.cut-off` says.
#[test]
fn a_station_is_cut_off_after_any_byte() {
    let old = fresh_map(&HARD_DISC_256);
    let new = edited(&HARD_DISC_256, &old);
    let length = new.len();
    let mut by_chance = Vec::new();
    for n in 0..=2 * length {
        let second = written(n, &new, &old);
        let first = written(n.saturating_sub(length), &new, &old);
        let choice = choose_copy(&first, &second);
        let map = choice.accepted.map(MapCopy::map).expect("one is accepted");
        assert_eq!(check(map), Ok(()));
        if n <= length {
            assert!(map == old, "{n}: the old map until the second is whole");
        }
        // What can be told by who does not know n.
        if check(&first).is_err() {
            assert!(map == new, "{n}: the first is refused");
        }
        if check(&second).is_err() {
            assert!(map == old, "{n}: the second is refused");
        }
        if map != old && map != new {
            assert!(!choice.equal, "{n}: a map that is neither is not equal");
            by_chance.push(n - length);
        }
        assert!(n < 2 * length || (map == new && choice.equal));
    }
    // With the blocks of two of the four zones written, 1 and 2, the cross
    // checks give 255 again: up to the first byte of zone 3's that changes.
    let zone_3 = 3 * HARD_DISC_256.sector();
    assert!(by_chance.contains(&zone_3));
    let same = |at: &usize| first_change(&old, &new, zone_3) >= *at;
    assert!(by_chance.iter().all(same));
}

/// The first byte from a place on that an edit changes.
fn first_change(old: &[u8], new: &[u8], from: usize) -> usize {
    let differs = |at: &usize| old[*at] != new[*at];
    (from..old.len()).find(differs).expect("the edit goes on")
}
