//! The bench examples for maps A and B, and every refusal that can arise,
//! through the binding. A refused call must change no byte.

use std::fs;

use shoalswift::{
    address, check, claim, free, geometry, list, place, release, sweep_free, sweep_object, Geometry,
    Location, Refusal,
};

fn map_a() -> Vec<u8> {
    fs::read("../maps/a.map").expect("map A is in the repository")
}

fn map_b() -> Vec<u8> {
    fs::read("../maps/b.map").expect("map B is in the repository")
}

/// What unused entries and untouched image bytes hold.
const ENTRY: u32 = 0xDEAD_BEEF;
const BYTE: u8 = 0x5A;

/// A refusal as its number and zone.
fn told<T>(answer: Result<T, Refusal>) -> Result<T, (u32, u32)> {
    answer.map_err(|refusal| (refusal.reason.number(), refusal.zone))
}

fn listed(map: &[u8], id: u32, room: usize) -> Result<Vec<u32>, (u32, u32)> {
    let mut entries = vec![ENTRY; room];
    let answer = told(list(map, id, &mut entries));
    written(answer, entries)
}

fn free_spans(map: &[u8], room: usize) -> Result<Vec<u32>, (u32, u32)> {
    let mut entries = vec![ENTRY; room];
    let answer = told(free(map, &mut entries));
    written(answer, entries)
}

fn released(map: &mut [u8], id: u32, room: usize) -> Result<Vec<u32>, (u32, u32)> {
    let mut entries = vec![ENTRY; room];
    let before = map.to_vec();
    let answer = told(release(map, id, &mut entries));
    assert_eq!(answer.is_err(), map == before, "a refusal changes no byte");
    written(answer, entries)
}

/// The pairs of a list, of which nothing else was written.
fn written(answer: Result<usize, (u32, u32)>, mut list: Vec<u32>) -> Result<Vec<u32>, (u32, u32)> {
    let end = 2 * answer.unwrap_or(0);
    assert!(list[end..].iter().all(|entry| *entry == ENTRY));
    list.truncate(end);
    answer.map(|_| list)
}

fn placed(map: &mut [u8], id: u32, pieces: &[u32]) -> Result<(), (u32, u32)> {
    let before = map.to_vec();
    let answer = told(place(map, id, pieces));
    assert_eq!(answer.is_err(), map == before, "a refusal changes no byte");
    answer
}

/// The id that a claim gives and its pairs.
fn claimed(
    map: &mut [u8],
    size: u64,
    parent: u32,
    room: usize,
) -> Result<(u32, Vec<u32>), (u32, u32)> {
    let mut entries = vec![ENTRY; room];
    let before = map.to_vec();
    let answer = told(claim(map, size, parent, &mut entries));
    assert_eq!(answer.is_err(), map == before, "a refusal changes no byte");
    let pairs = written(answer.map(|given| given.pairs), entries)?;
    answer.map(|given| (given.id, pairs))
}

/// Sweeps a stretch and tells how many bytes of it changed.
fn swept(map: &[u8], id: u32, first: u64, length: usize) -> Result<u64, (u32, u32)> {
    let mut image = vec![BYTE; length];
    let answer = told(sweep_object(map, &mut image, first, 0, id));
    let changed = image.iter().filter(|byte| **byte != BYTE).count();
    assert_eq!(changed as u64, answer.unwrap_or(0));
    answer
}

/// Gives zone 0 the check byte that its contents ask for, so that the rules
/// after the zone check are reached.
fn mend_check(mut map: Vec<u8>) -> Vec<u8> {
    for value in 0..=255 {
        map[0] = value;
        if told(check(&map)) != Err((3, 0)) {
            return map;
        }
    }
    panic!("no check byte fits");
}

#[test]
fn both_maps_are_accepted_and_read() {
    let (a, b) = (map_a(), map_b());
    assert_eq!(told(check(&a)), Ok(()));
    assert_eq!(told(check(&b)), Ok(()));
    assert_eq!(listed(&a, 2, 8), Ok(vec![0, 12]));
    assert_eq!(free_spans(&a, 8), Ok(vec![12, 1524]));
    assert_eq!(listed(&b, 5, 8), Ok(vec![12, 20]));
    assert_eq!(free_spans(&b, 8), Ok(vec![32, 1504]));
}

#[test]
fn both_maps_have_the_geometry_of_their_record() {
    let record = Geometry {
        sector: 256,
        unit: 1_024,
        zones: 1,
        ids: 168,
        disc_size: 1_572_864,
    };
    assert_eq!(told(geometry(&map_a())), Ok(record));
    assert_eq!(told(geometry(&map_b())), Ok(record));
}

#[test]
fn release_and_place_lead_from_b_to_a_and_back() {
    let mut map = map_b();
    assert_eq!(released(&mut map, 5, 2), Ok(vec![12, 20]));
    assert_eq!(map, map_a());
    assert_eq!(placed(&mut map, 5, &[12, 20]), Ok(()));
    assert_eq!(map, map_b());
}

#[test]
fn place_rows() {
    let rows = [
        ([12, 11], Err((12, 0))),
        ([12, 1512], Ok(())),
        ([12, 1513], Err((13, 0))),
        ([12, 1524], Ok(())),
        ([23, 12], Err((13, 0))),
        ([24, 12], Ok(())),
    ];
    for (piece, answer) in rows {
        let mut map = map_a();
        assert_eq!(placed(&mut map, 5, &piece), answer, "{piece:?}");
        if answer.is_ok() {
            assert_eq!(listed(&map, 5, 2), Ok(piece.to_vec()));
        }
    }
}

#[test]
fn claim_rows() {
    let rows = [
        (1, Ok((3, vec![12, 12]))),
        (1_548_288, Ok((3, vec![12, 1512]))),
        (1_548_289, Ok((3, vec![12, 1524]))),
        (1_560_576, Ok((3, vec![12, 1524]))),
        (1_560_577, Err((15, 0))),
        (u64::MAX, Err((15, 0))),
        (0, Err((12, 0))),
    ];
    for (size, answer) in rows {
        let mut map = map_a();
        assert_eq!(claimed(&mut map, size, 0, 4), answer, "{size} bytes");
        assert!(check(&map).is_ok());
        assert_eq!(claimed(&mut map_a(), size, 1, 4), Err((12, 0)), "one zone");
    }
    assert_eq!(claimed(&mut map_a(), 1, u32::MAX, 4), Err((12, 0)));
}

/// Map A with object 4 at (24,12) has holes of 12 and 1,500 bits. Neither has 1,501:
/// the larger goes whole, and the other gives m bits, its whole length.
#[test]
fn a_claim_in_two_pieces() {
    let mut map = map_a();
    placed(&mut map, 4, &[24, 12]).unwrap();
    let before = map.clone();
    let size = 1_501 * 1_024;
    for room in 0..4 {
        assert_eq!(claimed(&mut map, size, 0, room), Err((17, 0)));
    }
    let pieces = vec![12, 12, 36, 1500];
    assert_eq!(claimed(&mut map, size, 0, 5), Ok((3, pieces.clone())));
    assert_eq!(listed(&map, 3, 4), Ok(pieces.clone()));
    let mut other = before.clone();
    assert_eq!(placed(&mut other, 3, &pieces), Ok(()));
    assert!(other == map, "a claim is the place of its list");
    assert_eq!(released(&mut map, 3, 4), Ok(pieces));
    assert!(map == before);
    assert_eq!(claimed(&mut map, 1_513 * 1_024, 0, 4), Err((15, 0)));
}

#[test]
fn address_rows() {
    let at = |address, run| Ok(Location { address, run });
    let rows = [
        (0x000503, 0, at(12_800, 19_968)),
        (0x000500, 19_967, at(32_255, 513)),
        (0x000501, 19_967, at(32_255, 513)),
        (0x000503, 19_967, at(32_767, 1)),
        (0x000503, 19_968, Err((16, 0))),
        (0x000503, u64::MAX, Err((16, 0))),
        (0x1000000, 0, Err((8, 0))),
    ];
    for (n, position, answer) in rows {
        let found = told(address(&map_b(), n, position));
        assert_eq!(found, answer, "{n:#x} at {position}");
    }
}

#[test]
fn sweep_rows() {
    let b = map_b();
    assert_eq!(swept(&b, 5, 12_000, 1_000), Ok(712));
    assert_eq!(swept(&b, 5, 1_572_864, 0), Ok(0));
    assert_eq!(swept(&b, 5, 1_572_864, 1), Err((16, 0)));
    let mut image = vec![BYTE; 1_000];
    assert_eq!(told(sweep_free(&b, &mut image, 32_000, 0)), Ok(232));
    assert!(image[..768].iter().all(|byte| *byte == BYTE));
    assert!(image[768..].iter().all(|byte| *byte == 0));
}

#[test]
fn id_rows() {
    let mut a = map_a();
    assert_eq!(listed(&a, 167, 8), Err((10, 0)));
    assert_eq!(listed(&a, 168, 8), Err((8, 0)));
    assert_eq!(swept(&a, 167, 0, 16), Err((10, 0)));
    assert_eq!(released(&mut a, 167, 8), Err((10, 0)));
    assert_eq!(released(&mut a, 2, 8), Err((8, 0)));
}

#[test]
fn maps_that_break_a_rule() {
    // Byte, its new value, and the refusal. The rules after 3 are reached with
    // a mended check byte.
    let rows = [(3, 0xFE, 4), (2, 0x02, 5), (255, 0x00, 6), (64, 0x03, 7)];
    for (byte, value, number) in rows {
        let mut map = map_a();
        map[byte] = value;
        assert_eq!(told(check(&map)), Err((3, 0)));
        assert_eq!(told(geometry(&map)), Err((3, 0)));
        let map = mend_check(map);
        assert_eq!(told(check(&map)), Err((number, 0)));
        assert_eq!(told(geometry(&map)), Err((number, 0)));
    }
    let mut outside = map_a();
    outside[4] = 7;
    for (map, number) in [(&outside[..], 2), (&map_a()[..255], 1), (&[], 1)] {
        assert_eq!(told(check(map)), Err((number, 0)));
        assert_eq!(told(geometry(map)), Err((number, 0)));
    }
}

#[test]
fn a_dirty_record_is_refused() {
    // Of the bytes after the record's fields, 35 is carried; 36 to 63 are
    // reserved.
    for byte in [35, 36, 63] {
        let mut map = map_a();
        map[byte] = 1;
        let mut map = mend_check(map);
        let answer = if byte == 35 { Ok(()) } else { Err((2, 0)) };
        assert_eq!(told(check(&map)), answer);
        assert_eq!(told(geometry(&map)).map(|_| ()), answer);
        assert_eq!(placed(&mut map, 5, &[12, 20]), answer);
    }
}

#[test]
fn touching_holes_are_read_but_not_edited() {
    // Map A's free fragment cut in two: 12 bits that lead to the rest.
    let mut map = map_a();
    map[65] = 0xC8;
    map[66] = 0x80;
    let mut map = mend_check(map);
    assert_eq!(free_spans(&map, 4), Ok(vec![12, 12, 24, 1512]));
    assert_eq!(claimed(&mut map, 1, 0, 2), Err((9, 0)));
    assert_eq!(claimed(&mut map, 1, 1, 2), Err((9, 0)));
    assert_eq!(placed(&mut map, 5, &[12, 12]), Err((9, 0)));
    assert_eq!(released(&mut map, 5, 2), Err((9, 0)));
}

#[test]
fn lists_without_room_and_lists_that_cannot_be_used() {
    let mut b = map_b();
    for room in 0..2 {
        assert_eq!(listed(&b, 5, room), Err((17, 0)));
        assert_eq!(free_spans(&b, room), Err((17, 0)));
        assert_eq!(released(&mut b, 5, room), Err((17, 0)));
        assert_eq!(claimed(&mut b, 1, 0, room), Err((17, 0)));
    }
    assert_eq!(placed(&mut b, 5, &[40, 12]), Err((11, 0)));
    assert_eq!(placed(&mut b, 6, &[]), Err((12, 0)));
    assert_eq!(placed(&mut b, 6, &[40, 12, 60]), Err((12, 0)));
}
