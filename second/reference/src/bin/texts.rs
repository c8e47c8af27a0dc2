//! Writes the stored maps of crate `map_lines_cases`: OUTDIR/stdin and, by
//! `lines`, OUTDIR/stdout. A map is its head (how many bytes are stored, how
//! many the map has, three bytes each, lowest first) and the stored bytes; the
//! map's other bytes are 0.

use reference::generate::{
    as_e_plus, build, map_690, map_a, map_of_zones, record_of_zones, repair_cross_checks,
    repair_zone_checks, with_bytes,
};
use reference::geometry::{DiscRecord, Edition, SIZE_HIGH};
use reference::lines::{lines, LONGEST_MAP};
use reference::map::Owner;

fn object(id: u32, length: usize) -> (Owner, usize) {
    (Owner::Object(id), length)
}

fn free(length: usize) -> (Owner, usize) {
    (Owner::Free, length)
}

fn plain(nzones: u16, disc_bits: u32) -> DiscRecord {
    DiscRecord {
        log2secsize: 8,
        idlen: 11,
        log2bpmb: 9,
        nzones,
        zone_spare: 32,
        disc_size: disc_bits * 512,
        size_high: 0,
        version: 0,
    }
}

/// Three zones: object 2 first in zone 1, a free fragment in each, zone 2 ends
/// past the disc.
fn three_zones() -> Vec<u8> {
    build(
        &plain(3, 3 * 2_016 - 480 - 100),
        &[
            vec![object(7, 20), free(1_000), object(8, 516)],
            vec![object(2, 12), object(7, 20), free(1_984)],
            vec![free(1_000), object(7, 900), object(1, 116)],
        ],
    )
}

/// The same after a change, with its checks made right again.
fn changed(change: fn(&mut [u8])) -> Vec<u8> {
    let mut map = three_zones();
    change(&mut map);
    repair_cross_checks(&mut map, 256);
    repair_zone_checks(&mut map, 256);
    map
}

/// Four zones of shortest fragments: a text longer than the product's buffer.
fn long_text() -> Vec<u8> {
    let zone = |number: usize, fragments: usize| -> Vec<(Owner, usize)> {
        (0..fragments)
            .map(|i| match (number, i) {
                (2, 0) => object(2, 12),
                (_, i) if i % 5 == 4 => free(12),
                (_, i) => object((3 + 168 * number + i) as u32 % 671 + 1, 12),
            })
            .collect()
    };
    let zones: Vec<_> = (0..4)
        .map(|z| zone(z, if z == 0 { 128 } else { 168 }))
        .collect();
    build(&plain(4, 4 * 2_016 - 480), &zones)
}

/// 255 zones, the most that version 0 can have (R-4 of document 02), with at least
/// two lines for each: only 256-byte blocks are short enough for the program.
fn most_zones() -> Vec<u8> {
    let map = map_of_zones(&record_of_zones(8, 255, Edition::E));
    assert_eq!(lines(&map).lines().count(), 2 * 255 + 1);
    map
}

/// As many bytes as the program takes: 256 zones of an E+ disc (R-12 of document
/// 02). The low byte of nzones is 0.
fn longest_e_plus() -> Vec<u8> {
    let map = map_of_zones(&record_of_zones(8, 256, Edition::EPlus));
    assert_eq!(map.len(), LONGEST_MAP);
    assert_eq!(lines(&map).lines().count(), 2 * 256 + 1);
    map
}

/// The first 64 bytes of a map of 257 zones.
fn head_of_257_zones() -> Vec<u8> {
    let mut head = vec![0; 64];
    record_of_zones(8, 257, Edition::EPlus).write(&mut head);
    head
}

/// An E+ disc of two zones of 1,024 bytes, with ids of 19 bits up to the last, 815,
/// rubbish in what E+ carries, and a disc that ends 1,000 map bits before its map.
fn large_blocks() -> Vec<u8> {
    let mut record = record_of_zones(10, 2, Edition::EPlus);
    record.disc_size -= 1_000 * 1_024;
    let zones = [
        vec![object(815, 20), free(7_000), object(407, 660)],
        vec![
            object(2, 21),
            object(408, 5_000),
            free(2_139),
            object(1, 1_000),
        ],
    ];
    with_bytes(&build(&record, &zones), 52, b"E+ carries..")
}

/// A map: the stored bytes, its length, and how its text begins.
type Stored = (Vec<u8>, usize, &'static str);

/// The maps in their order.
fn stored_maps() -> [Stored; 17] {
    let zone_check = {
        let mut map = three_zones();
        map[512] ^= 2;
        map
    };
    let cross_check = {
        let mut map = three_zones();
        map[256 + 3] ^= 4;
        repair_zone_checks(&mut map, 256);
        map
    };
    [
        (map_a(), 256, "2 0 12\nfree 12 1524\n"),
        (map_690(), 2_048, "690 0 20\n"),
        (three_zones(), 768, "7 0 20\n"),
        (long_text(), 1_024, "4 0 12\n"),
        (map_a()[..63].to_vec(), 63, "refused 1 0\n"),
        (three_zones()[..512].to_vec(), 512, "refused 1 0\n"),
        // A reserved byte that is not 0 (R-7 of document 02).
        (with_bytes(&map_a(), 36, &[0x01]), 256, "refused 2 0\n"),
        (with_bytes(&map_a(), 63, &[0x80]), 256, "refused 2 0\n"),
        (zone_check, 768, "refused 3 2\n"),
        (cross_check, 768, "refused 4 0\n"),
        (changed(|map| map[256 + 2] &= 0x7F), 768, "refused 5 1\n"),
        (changed(|map| map[512 + 255] &= 0x7F), 768, "refused 6 2\n"),
        // Object 3 in the place of object 2.
        (changed(|map| map[256 + 4] ^= 1), 768, "refused 7 1\n"),
        (most_zones(), 65_280, "7 0 16\nfree 16 1520\n133 1536 17\n"),
        (Vec::new(), LONGEST_MAP, "refused 2 0\n"),
        (Vec::new(), LONGEST_MAP + 1, "refused 1 0\n"),
        // After the longest ones, that nothing of them is left.
        (map_a(), 256, "2 0 12\nfree 12 1524\n"),
    ]
}

/// Those of E+ discs (R-12 of document 02), after the others.
fn e_plus_maps() -> [Stored; 6] {
    let size_high = with_bytes(&as_e_plus(&map_a()), SIZE_HIGH.start, &[0x01]);
    let text = "815 0 20\nfree 20 7000\n407 7020 660\n2 7680 21\n";
    let longest = "7 0 20\nfree 20 1516\n107 1536 21\n";
    [
        (large_blocks(), 2_048, text),
        // Version 256.
        (with_bytes(&map_a(), 49, &[0x01]), 256, "refused 2 0\n"),
        (size_high, 256, "refused 2 0\n"),
        (longest_e_plus(), LONGEST_MAP, longest),
        // Too long, whatever follows the record.
        (head_of_257_zones(), LONGEST_MAP + 256, "refused 1 0\n"),
        (as_e_plus(&map_a()), 256, "2 0 12\nfree 12 1524\n"),
    ]
}

fn main() {
    let out = std::env::args().nth(1).expect("OUTDIR");
    let (mut stdin, mut stdout) = (Vec::new(), String::new());
    for (stored, length, begins) in stored_maps().iter().chain(&e_plus_maps()) {
        for number in [stored.len(), *length] {
            stdin.extend_from_slice(&(number as u32).to_le_bytes()[..3]);
        }
        stdin.extend_from_slice(stored);
        let mut map = stored.clone();
        map.resize(*length, 0);
        let text = lines(&map);
        assert!(text.starts_with(begins), "{begins:?} expected, {text:.40?}");
        stdout += &text;
    }
    std::fs::write(format!("{out}/stdin"), stdin).expect("stdin written");
    std::fs::write(format!("{out}/stdout"), stdout).expect("stdout written");
}
