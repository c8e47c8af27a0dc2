//! The mender: maps that are in order, maps that it puts in order, the positions
//! that it tells beforehand, and what it refuses.

mod shapes;

use std::fs;

use shapes::{fresh_map, Shape};
use shapes::{DRIVE_OF_255_ZONES, FLOPPY, HARD_DISC_256, HARD_DISC_512, PLUS_OF_1000_ZONES};
use shoalswift::{check, claim, free, list, mend, mend_positions, release, Reason, Refusal};

const SHAPES: [&Shape; 5] = [
    &FLOPPY,
    &HARD_DISC_512,
    &HARD_DISC_256,
    &DRIVE_OF_255_ZONES,
    &PLUS_OF_1000_ZONES,
];

fn map_a() -> Vec<u8> {
    fs::read("../maps/a.map").expect("map A is in the repository")
}

/// Map A with its free fragment cut in two, 12 bits that lead to the rest.
fn touching_a() -> Vec<u8> {
    let mut map = map_a();
    map[65] = 0xC8;
    map[66] = 0x80;
    map
}

fn refusal(reason: Reason, zone: u32) -> Refusal {
    Refusal { reason, zone }
}

/// Mends a map, whose listed positions must be those of the bytes that changed.
fn mended(map: &[u8]) -> Vec<u8> {
    let mut after = map.to_vec();
    assert_eq!(mend(&mut after), Ok(()));
    assert_eq!(check(&after), Ok(()));
    let changed: Vec<u32> = (0..map.len())
        .filter(|&at| map[at] != after[at])
        .map(|at| at as u32)
        .collect();
    let mut list = vec![7; changed.len() + 1];
    assert_eq!(mend_positions(map, &mut list), Ok(changed.len()));
    assert_eq!(list[..changed.len()], changed);
    assert_eq!(list[changed.len()], 7);
    assert_eq!(mend_positions(map, &mut list[..changed.len()]), Ok(changed.len()));
    if let Some(short) = changed.len().checked_sub(1) {
        let mut list = vec![7; short];
        let refused = Err(refusal(Reason::ListTooShort, 0));
        assert_eq!(mend_positions(map, &mut list), refused);
        assert_eq!(list, vec![7; short]);
    }
    after
}

#[test]
fn a_map_in_order_stays_as_it_is() {
    assert_eq!(mended(&map_a()), map_a());
    for shape in SHAPES {
        let map = fresh_map(shape);
        assert_eq!(mended(&map), map);
        assert_eq!(mend_positions(&map, &mut []), Ok(0));
    }
}

#[test]
fn check_bytes_of_all_zones_are_set() {
    for shape in SHAPES {
        let map = fresh_map(shape);
        let size = map.len() / shape.nzones as usize;
        let mut spoilt = map.clone();
        for block in spoilt.chunks_mut(size) {
            block[0] ^= 0x55;
        }
        spoilt[3] ^= 0x0F;
        assert_eq!(mended(&spoilt), map);
    }
}

#[test]
fn only_zone_0_s_cross_check_is_set() {
    let map = fresh_map(&HARD_DISC_256);
    let size = map.len() / 5;
    let mut spoilt = map.clone();
    spoilt[4 * size + 3] ^= 0x0F;
    let after = mended(&spoilt);
    assert_eq!(after[3], map[3] ^ 0x0F);
    assert_eq!(after[4 * size + 3], map[4 * size + 3] ^ 0x0F);
    assert_eq!(after[4..size], map[4..size]);
}

#[test]
fn touching_free_fragments_are_joined_and_edits_work_again() {
    let mut map = touching_a();
    let mut list = [0; 4];
    assert_eq!(mended(&map), map_a());
    assert_eq!(mend(&mut map), Ok(()));
    assert_eq!(free(&map, &mut list), Ok(1));
    assert_eq!(list[..2], [12, 1524]);
    let id = claim(&mut map, 1, 0, &mut list).expect("the map is in order").id;
    assert_eq!(release(&mut map, id, &mut list), Ok(1));
    assert_eq!(map, map_a());
}

#[test]
fn an_object_keeps_its_pieces() {
    let mut map = map_a();
    let (mut given, mut listed) = ([0; 2], [0; 2]);
    let id = claim(&mut map, 20_480, 0, &mut given).expect("there is room").id;
    map[0] ^= 0xFF;
    map[3] = 0;
    let after = mended(&map);
    assert_eq!(list(&after, id, &mut listed), Ok(1));
    assert_eq!(listed, given);
}

#[test]
fn what_is_wrong_in_another_way_is_refused() {
    let spoilt = |at: usize, byte: u8| {
        let mut map = touching_a();
        map[at] = byte;
        map
    };
    let cases = [
        (map_a()[..63].to_vec(), Reason::MapLength),
        (spoilt(4, 7), Reason::DiscRecord),
        (map_a()[..255].to_vec(), Reason::MapLength),
        (spoilt(2, 0x02), Reason::FreeChain),
        (spoilt(255, 0x00), Reason::Fragment),
        (spoilt(64, 0x03), Reason::Owner),
    ];
    for (map, reason) in cases {
        let mut after = map.clone();
        let mut list = [7; 8];
        assert_eq!(mend(&mut after), Err(refusal(reason, 0)));
        assert_eq!(after, map);
        assert_eq!(mend_positions(&map, &mut list), Err(refusal(reason, 0)));
        assert_eq!(list, [7; 8]);
    }
}
