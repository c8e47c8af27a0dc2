//! Document 01's bench examples, line by line, and document 000's object 690.

use reference::edit::{claim, cross_check_changes, place, release, Claimed};
use reference::generate::{map_690, map_a, map_b, map_floppy, map_of_eight_zones};
use reference::geometry::{DiscRecord, Geometry};
use reference::lines::lines;
use reference::map::{check, zone_check_by_columns, zone_check_by_words};
use reference::read::{address, free, list, sweep_free, sweep_object, Location};
use reference::Refusal;

const PLAIN: fn(u32) -> Refusal = Refusal::plain;

fn listed(map: &[u8], id: u32) -> Vec<u32> {
    let mut entries = vec![0; 64];
    let pairs = list(map, id, &mut entries).unwrap() as usize;
    entries.truncate(2 * pairs);
    entries
}

fn free_spans(map: &[u8]) -> Vec<u32> {
    let mut entries = vec![0; 64];
    let pairs = free(map, &mut entries).unwrap() as usize;
    entries.truncate(2 * pairs);
    entries
}

#[test]
fn small_program_on_map_a() {
    assert_eq!(lines(&map_a()), "2 0 12\nfree 12 1524\n");
    assert_eq!(lines(&[]), "refused 1 0\n");
    assert_eq!(lines(&vec![0; 65_536]), "refused 2 0\n");
    assert_eq!(lines(&vec![0; 65_537]), "refused 1 0\n");
}

#[test]
fn a_is_accepted() {
    let map = map_a();
    assert!(check(&map).is_ok());
    assert_eq!(listed(&map, 2), [0, 12]);
    assert_eq!(free_spans(&map), [12, 1524]);
}

#[test]
fn b_is_accepted_and_release_gives_a() {
    let mut map = map_b();
    assert!(check(&map).is_ok());
    assert_eq!(listed(&map, 5), [12, 20]);
    assert_eq!(free_spans(&map), [32, 1504]);
    let mut entries = [7; 4];
    assert_eq!(release(&mut map, 5, &mut entries), Ok(1));
    assert_eq!(entries, [12, 20, 7, 7]);
    assert_eq!(map, map_a());
}

#[test]
fn a_place_5() {
    let placed = |pair: [u32; 2]| {
        let mut map = map_a();
        let answer = place(&mut map, 5, &pair);
        if answer.is_ok() {
            assert_eq!(listed(&map, 5), pair);
        } else {
            assert_eq!(map, map_a());
        }
        answer
    };
    assert_eq!(placed([12, 11]), Err(PLAIN(12)));
    assert_eq!(placed([12, 1512]), Ok(()));
    assert_eq!(placed([12, 1513]), Err(PLAIN(13)));
    assert_eq!(placed([12, 1524]), Ok(()));
    assert_eq!(placed([23, 12]), Err(PLAIN(13)));
    assert_eq!(placed([24, 12]), Ok(()));

    let mut map = map_a();
    assert_eq!(place(&mut map, 5, &[12, 20]), Ok(()));
    assert_eq!(map, map_b());
}

/// 'The claim examples read "parent zone 0"' (R-6 of document 02).
#[test]
fn a_claim() {
    let claimed = |size: u64| {
        let mut entries = [7; 3];
        let answer = claim(&mut map_a(), size, 0, &mut entries);
        answer.map(|claimed| (claimed, entries))
    };
    let given = |start: u32, length: u32| Ok((Claimed { id: 3, pairs: 1 }, [start, length, 7]));
    assert_eq!(claimed(1), given(12, 12));
    assert_eq!(claimed(1_548_288), given(12, 1512));
    assert_eq!(claimed(1_548_289), given(12, 1524));
    assert_eq!(claimed(1_560_576), given(12, 1524));
    assert_eq!(claimed(1_560_577), Err(PLAIN(15)));
    assert_eq!(claimed(0), Err(PLAIN(12)));
    assert_eq!(claimed(u64::MAX), Err(PLAIN(15)));
    for parent in [1, 256, u32::MAX] {
        assert_eq!(claim(&mut map_a(), 1, parent, &mut [0; 2]), Err(PLAIN(12)));
    }
    // "so 17 may be given" (R-8 of document 02).
    assert_eq!(claim(&mut map_a(), 1, 0, &mut [0]), Err(PLAIN(17)));
}

/// "the address examples gain this number: for map B, 0x000503 at 0 has 19,968" (R-11
/// of document 02).
#[test]
fn b_address() {
    let map = map_b();
    let found = |address, run| Ok(Location { address, run });
    assert_eq!(address(&map, 0x000503, 0), found(12_800, 19_968));
    assert_eq!(address(&map, 0x000500, 19_967), found(32_255, 513));
    assert_eq!(address(&map, 0x000501, 19_967), found(32_255, 513));
    assert_eq!(address(&map, 0x000503, 19_968), Err(PLAIN(16)));
    assert_eq!(address(&map, 0x000503, u64::MAX - 511), Err(PLAIN(16)));
    assert_eq!(address(&map, 1 << 24, 0), Err(PLAIN(8)));
    assert_eq!(address(&map, 0x000100, 0), Err(PLAIN(8)));
}

#[test]
fn b_sweep() {
    let map = map_b();
    let mut image = vec![0; 1_000];
    assert_eq!(sweep_object(&map, &mut image, 12_000, 0xEE, 5), Ok(712));
    assert!(image[..288].iter().all(|byte| *byte == 0));
    assert!(image[288..].iter().all(|byte| *byte == 0xEE));

    assert_eq!(sweep_object(&map, &mut [], 1_572_864, 0, 5), Ok(0));
    assert_eq!(
        sweep_object(&map, &mut [9], 1_572_864, 0, 5),
        Err(PLAIN(16))
    );
    assert_eq!(sweep_free(&map, &mut [], 1_572_864, 0), Ok(0));
    assert_eq!(sweep_free(&map, &mut [9], 1_572_864, 0), Err(PLAIN(16)));
}

#[test]
fn ids_of_a() {
    let mut map = map_a();
    assert_eq!(list(&map, 167, &mut []), Err(PLAIN(10)));
    assert_eq!(list(&map, 168, &mut []), Err(PLAIN(8)));
    assert_eq!(list(&map, 0, &mut []), Err(PLAIN(8)));
    assert_eq!(address(&map, 167 << 8, 0), Err(PLAIN(10)));
    assert_eq!(address(&map, 168 << 8, 0), Err(PLAIN(8)));
    assert_eq!(release(&mut map, 2, &mut []), Err(PLAIN(8)));
    assert_eq!(release(&mut map, 167, &mut []), Err(PLAIN(10)));
    assert_eq!(release(&mut map, 168, &mut []), Err(PLAIN(8)));
}

#[test]
fn object_690() {
    let map = map_690();
    let checked = check(&map).unwrap();
    assert_eq!(checked.geometry.ids_per_zone, 168);
    assert_eq!(checked.geometry.start_zone(690), Ok(4));
    assert_eq!(checked.geometry.start_zone(2), Ok(4));
    assert_eq!(checked.geometry.start_zone(1), Ok(0));
    assert_eq!(checked.geometry.start_zone(0), Err(PLAIN(8)));
    assert_eq!(checked.geometry.start_zone(8 * 168), Err(PLAIN(8)));
    let zones: Vec<usize> = checked
        .object(690)
        .unwrap()
        .iter()
        .map(|f| f.zone)
        .collect();
    assert_eq!(zones, [4, 4, 6, 0, 0, 0, 2, 3]);
}

#[test]
fn cross_checks() {
    assert_eq!(cross_check_changes(1), [0]);
    assert_eq!(cross_check_changes(2), [1, 1]);
    assert_eq!(cross_check_changes(3), [1, 2, 3]);
    assert_eq!(cross_check_changes(4), [1, 1, 1, 1]);
    assert_eq!(cross_check_changes(5), [1, 2, 3, 1, 1]);

    // The same, seen on a map: which zones change, and by what.
    let before = map_of_eight_zones();
    let changes = |zones: &[u32]| {
        let mut map = before.clone();
        let list: Vec<u32> = zones
            .iter()
            .flat_map(|zone| [zone * 2016 - 480 * (*zone).min(1) + 12, 24])
            .collect();
        assert_eq!(place(&mut map, 3, &list), Ok(()));
        assert!(check(&map).is_ok());
        let changed: Vec<(usize, u8)> = (0..8)
            .map(|zone| (zone, map[zone * 256 + 3] ^ before[zone * 256 + 3]))
            .filter(|(_, change)| *change != 0)
            .collect();
        changed
    };
    assert_eq!(changes(&[3]), []);
    assert_eq!(changes(&[1, 4]), [(1, 1), (4, 1)]);
    assert_eq!(changes(&[1, 2, 5]), [(1, 1), (2, 2), (5, 3)]);
    assert_eq!(
        changes(&[0, 2, 3, 6, 7]),
        [(0, 1), (2, 2), (3, 3), (6, 1), (7, 1)]
    );
}

#[test]
fn floppy_of_800k() {
    let geometry = Geometry::accept(&DiscRecord {
        log2secsize: 10,
        idlen: 15,
        log2bpmb: 7,
        nzones: 1,
        zone_spare: 1312,
        disc_size: 819_200,
        size_high: 0,
        version: 0,
    })
    .unwrap();
    assert_eq!(geometry.zone_bits, 6880);
    assert_eq!(geometry.shortest_fragment, 16);
    assert_eq!(geometry.ids_per_zone, 430);
    assert_eq!(
        geometry.disc_bits() as u64 * geometry.bytes_per_map_bit,
        819_200
    );
    assert!(check(&map_floppy()).is_ok());
}

/// R-4 of document 02: "Put 255 and, for record offset 9, the value 0 into the
/// examples"; "the rule on P*nzones stays".
#[test]
fn zones_up_to_255() {
    let record = |log2secsize, nzones| DiscRecord {
        log2secsize,
        idlen: 15,
        log2bpmb: 10,
        nzones,
        zone_spare: 32,
        disc_size: 1_024,
        size_high: 0,
        version: 0,
    };
    assert_eq!(Geometry::accept(&record(8, 0)), None);
    for nzones in 1..=255 {
        let geometry = Geometry::accept(&record(8, nzones)).unwrap();
        assert_eq!(geometry.ids(), 126 * nzones as usize);
        assert_eq!(geometry.start_zone(2), Ok(nzones as usize / 2));
    }
    let most = Geometry::accept(&record(8, 255)).unwrap();
    assert_eq!(most.start_zone(200 * 126), Ok(200));
    assert_eq!(most.start_zone(255 * 126 - 1), Ok(254));
    assert_eq!(most.start_zone(255 * 126), Err(PLAIN(8)));
    // 254 ids in each zone of 512 bytes, 510 in each of 1,024.
    for (log2secsize, most) in [(9, 129), (10, 64)] {
        assert!(Geometry::accept(&record(log2secsize, most)).is_some());
        assert!(Geometry::accept(&record(log2secsize, most + 1)).is_none());
    }
}

#[test]
fn carry_after_word_16_of_map_b() {
    // A sum without that carry is one less in its lowest byte.
    let map = map_b();
    assert_eq!(zone_check_by_words(&map), 0x28);
    assert_eq!(zone_check_by_columns(&map), 0x28);
    let words: Vec<u32> = map
        .chunks(4)
        .map(|word| u32::from_le_bytes([word[0], word[1], word[2], word[3]]))
        .collect();
    let above: u64 = words[17..].iter().map(|word| *word as u64).sum();
    assert!(above + words[16] as u64 >= 1 << 32);
}
