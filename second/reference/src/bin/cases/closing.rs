//! Document 02, R-3, "Closing bits, a word at a time": closing bits that a
//! search by words of 64 bits could miss, and 1 bits that it could take for
//! one. "What that routine answers doesn't change", so every answer here is
//! document 01's.
//!
//! A search begins at a fragment's start plus idlen, and its first word with
//! the byte that holds this bit. A place in the word counts from the lowest bit
//! of that byte or from the search's own bit: both are tried around 64 and 128.
//!
//! "zone_spare at least 32", and allocation bits end at 32+Z: with 32 the zone's
//! last bit is its block's last bit, and no zone ends nearer to it.

use reference::generate::{build, map_a, map_floppy, repair_zone_checks};
use reference::geometry::DiscRecord;
use reference::map::{set_bit, Owner};

use crate::calls::{groups, Cases};
use crate::maps::*;

groups![
    objects_by_the_byte,
    free_by_the_byte,
    places_by_the_search,
    closing_bit_where_the_search_begins,
    two_closing_bits_in_a_word,
    ones_before_the_search,
    objects_in_the_last_bytes,
    free_in_the_last_bytes,
    shortest_fragments_last,
    ones_after_the_last_closing_bit,
    whole_zones,
    no_closing_bit_before_the_map_ends,
    no_closing_bit_before_the_next_block,
    a_one_past_the_zone,
    no_closing_bit_on_the_floppy,
    search_past_the_block,
    sweeps_to_a_closing_bit,
    edits_at_word_ends,
];

const OBJECT_5: Owner = Owner::Object(5);

/// Around the end of the first word and of the second.
const PLACES: [usize; 6] = [63, 64, 65, 127, 128, 129];

/// One zone with a fragment of the owner for each of the places, and their
/// pairs. The first's search begins at disc bit `search`, and its closing bit is
/// at its place from disc bit `from`; each of the others lies 192 bits after the
/// one before, so that it meets the bytes in the same way. Object 2 lies before
/// them, object 6 fills the rest.
fn at_places(record: &DiscRecord, owner: Owner, search: usize, from: usize) -> (Vec<u8>, Vec<u32>) {
    let start = search - record.idlen as usize;
    let mut zone = vec![object(2, start)];
    let mut pairs = Vec::new();
    for (index, place) in PLACES.into_iter().enumerate() {
        let length = from + place + 1 - start;
        zone.push((owner, length));
        zone.push(object(6, 192 - length));
        pairs.extend([(start + 192 * index) as u32, length as u32]);
    }
    let all = (record.disc_size >> record.log2bpmb) as usize;
    zone.push(object(6, all - start - 192 * PLACES.len()));
    (build(record, &[zone]), pairs)
}

/// "A fragment is idlen bits of id (lowest first), some zero bits, and a closing
/// 1 bit": an object's, searched from each bit of a byte, the places counted
/// from that byte. From bit 3 the fragment itself starts with a byte.
fn objects_by_the_byte(cases: &mut Cases) {
    for bit in 0..8 {
        let (map, pairs) = at_places(&plain(1), OBJECT_5, 32 + bit, 32);
        cases.list(&map, 5, 12).pairs(&pairs);
    }
}

/// The same for free fragments, with an idlen of 13.
fn free_by_the_byte(cases: &mut Cases) {
    let record = DiscRecord {
        idlen: 13,
        ..plain(1)
    };
    for bit in [0, 1, 4, 7] {
        let (map, pairs) = at_places(&record, Owner::Free, 32 + bit, 32);
        cases.free(&map, 12).pairs(&pairs);
    }
}

/// The same in blocks of 1,024 bytes, the places counted from the search. From
/// bit 7 the fragment itself starts with a byte.
fn places_by_the_search(cases: &mut Cases) {
    for bit in [1, 7] {
        let (search, from) = (32 + bit, 32 + bit);
        let (map, pairs) = at_places(&large_sectors(1), OBJECT_5, search, from);
        cases.list(&map, 5, 12).pairs(&pairs);
        let (map, pairs) = at_places(&large_sectors(1), Owner::Free, search, from);
        cases.free(&map, 12).pairs(&pairs);
    }
}

/// "some zero bits" are none: eight fragments of 13 bits, so that the searches
/// begin at each bit of a byte, and up to five closing bits lie in a word.
fn closing_bit_where_the_search_begins(cases: &mut Cases) {
    let record = DiscRecord {
        idlen: 12,
        ..plain(1)
    };
    let pairs = [
        13, 13, 26, 13, 39, 13, 52, 13, 65, 13, 78, 13, 91, 13, 104, 13,
    ];
    for owner in [OBJECT_5, Owner::Free] {
        let mut zone = vec![object(2, 13)];
        zone.extend([(owner, 13); 8]);
        zone.push(object(6, 1_419));
        let map = build(&record, &[zone]);
        match owner {
            Owner::Free => cases.free(&map, 16).pairs(&pairs),
            Owner::Object(id) => cases.list(&map, id, 16).pairs(&pairs),
        };
    }
}

/// A fragment, then one of object 7. The first's searches begin at disc bits 24,
/// 216 and 408, which begin a byte, and in the words from there closing bits are
/// at the places 0 and 12, at 51 and 63, and at 52 and, one too far, 64.
fn two_closing_bits_in_a_word(cases: &mut Cases) {
    let zone = |owner: Owner| {
        vec![
            object(2, 13),
            (owner, 12),
            object(7, 12),
            object(6, 168),
            (owner, 63),
            object(7, 12),
            object(6, 117),
            (owner, 64),
            object(7, 12),
            object(6, 1_063),
        ]
    };
    let before = [13, 12, 205, 63, 397, 64];
    let after = [25, 12, 268, 12, 461, 12];
    let map = build(&plain(1), &[zone(OBJECT_5)]);
    cases.list(&map, 5, 6).pairs(&before);
    cases.list(&map, 7, 6).pairs(&after);
    let map = build(&plain(1), &[zone(Owner::Free)]);
    cases.free(&map, 6).pairs(&before);
}

/// "idlen bits of id": their 1 bits in the byte where the search begins close
/// nothing.
fn ones_before_the_search(cases: &mut Cases) {
    // A link of 1,024 has its top bit just before the search, which begins at
    // bit 1 of a byte; the closing bit is at place 63 from that byte.
    let zone = vec![object(2, 14), free(74), object(6, 950), free(498)];
    let map = build(&plain(1), &[zone]);
    cases.free(&map, 4).pairs(&[14, 74, 1_038, 498]);
    // The top seven bits of a link of 1,504, 1011110, fill the byte up to the
    // search, which begins at its bit 7 and finds the closing bit there.
    let zone = vec![object(2, 20), free(12), object(6, 1_492), free(12)];
    let map = build(&plain(1), &[zone]);
    cases.free(&map, 4).pairs(&[20, 12, 1_524, 12]);
    // 2,048 ids, the last of which is all ones, and fragments of 13 bits: the
    // search begins at each bit of a byte, with a 0.
    let record = DiscRecord {
        zone_spare: 512,
        ..plain(16)
    };
    let mut zones = vec![vec![free(1_536)]; 16];
    zones[0] = [vec![object(2_047, 13); 8], vec![free(952)]].concat();
    zones[8] = vec![object(2, 12), free(1_524)];
    let map = build(&disc_of(16 * 1_536 - 480, record), &zones);
    let pairs = [
        0, 13, 13, 13, 26, 13, 39, 13, 52, 13, 65, 13, 78, 13, 91, 13,
    ];
    cases.list(&map, 2_047, 16).pairs(&pairs);
}

/// Three zones that end with their blocks, each in a fragment of the owner, and
/// the pairs of these. Their searches begin at the lowest bit of the byte that is
/// so many from the block's end, at the top bit of it, and two words before that.
fn in_the_last_bytes(record: &DiscRecord, owner: Owner, bytes: usize) -> (Vec<u8>, Vec<u32>) {
    let lowest_bit = record.idlen as usize + 8 * bytes;
    let top_bit = lowest_bit - 7;
    let words_before = top_bit + 128;
    let zones = [
        vec![object(6, 1_536 - lowest_bit), (owner, lowest_bit)],
        vec![object(2, 2_016 - top_bit), (owner, top_bit)],
        vec![object(6, 2_016 - words_before), (owner, words_before)],
    ];
    let pairs = [
        (first(1), lowest_bit as u32),
        (first(2), top_bit as u32),
        (first(3), words_before as u32),
    ];
    let pairs = pairs
        .into_iter()
        .flat_map(|(end, length)| [end - length, length]);
    (build(record, &zones), pairs.collect())
}

/// "up to but not including 32+Z": no whole word is left in the block where the
/// search begins or comes to, or just one, and the last bit closes. Another
/// block follows, or the map's end.
fn objects_in_the_last_bytes(cases: &mut Cases) {
    for bytes in 1..=8 {
        let (map, pairs) = in_the_last_bytes(&plain(3), OBJECT_5, bytes);
        cases.list(&map, 5, 6).pairs(&pairs);
    }
}

/// The same for free fragments, with an idlen of 14.
fn free_in_the_last_bytes(cases: &mut Cases) {
    let record = DiscRecord {
        idlen: 14,
        ..plain(3)
    };
    for bytes in 1..=8 {
        let (map, pairs) = in_the_last_bytes(&record, Owner::Free, bytes);
        cases.free(&map, 6).pairs(&pairs);
    }
}

/// As many shortest fragments as have their searches in the block's last seven
/// bytes: five of 12 bits, four of 16, with clusters of 4 and without.
fn shortest_fragments_last(cases: &mut Cases) {
    let zone = [vec![object(2, 1_476)], vec![object(5, 12); 5]].concat();
    let map = build(&plain(1), &[zone]);
    let pairs = [1_476, 12, 1_488, 12, 1_500, 12, 1_512, 12, 1_524, 12];
    cases.list(&map, 5, 10).pairs(&pairs);
    let zone = [vec![object(2, 3_520)], vec![object(5, 16); 4]].concat();
    let map = build(&clusters_of_four(1), &[zone]);
    let pairs = [3_520, 16, 3_536, 16, 3_552, 16, 3_568, 16];
    cases.list(&map, 5, 8).pairs(&pairs);
    let zone = [vec![object(2, 7_616)], vec![free(16); 4]].concat();
    let map = build(&large_sectors(1), &[zone]);
    let pairs = [7_616, 16, 7_632, 16, 7_648, 16, 7_664, 16];
    cases.free(&map, 8).pairs(&pairs);
}

/// The record of two zones that end so many bits before their block does.
fn ends_before(bits: u16) -> DiscRecord {
    let record = DiscRecord {
        zone_spare: 32 + bits,
        ..plain(2)
    };
    disc_of(2 * (2_016 - bits as u32) - 480, record)
}

/// "up to but not including 32+Z": the zone's last bit closes, where the search
/// begins with it and where it comes from the zone's start, and only ones follow
/// to the block's end: 1 or 7 bits in the same byte, 1 or 7 bytes, a word.
fn ones_after_the_last_closing_bit(cases: &mut Cases) {
    for bits in [1, 7, 8, 56, 64] {
        let zone_bits = 2_016 - bits as usize;
        let zones = [
            vec![free(zone_bits - 492), object(5, 12)],
            vec![object(2, 12), object(5, zone_bits - 12)],
        ];
        let map = with_ones_outside(build(&ends_before(bits), &zones));
        let in_zone_1 = zone_bits as u32 - 480;
        let pairs = [in_zone_1 - 12, 12, in_zone_1 + 12, zone_bits as u32 - 12];
        cases.list(&map, 5, 4).pairs(&pairs);
    }
}

/// "Fragments fill each zone's allocation bits exactly": one fragment does, over
/// 24, 32, 120 and 128 words.
fn whole_zones(cases: &mut Cases) {
    let zones = [
        vec![free(1_536)],
        vec![object(2, 2_016)],
        vec![object(5, 2_016)],
    ];
    let map = build(&plain(3), &zones);
    cases.free(&map, 2).pairs(&[0, 1_536]);
    cases.list(&map, 5, 2).pairs(&[3_552, 2_016]);
    let zones = [vec![object(2, 7_680)]];
    let map = build(&large_sectors(1), &zones);
    cases.list(&map, 2, 2).pairs(&[0, 7_680]);
    let zones = [vec![free(7_680)], vec![object(2, 16), object(5, 8_144)]];
    let map = build(&large_sectors(2), &zones);
    cases.list(&map, 5, 2).pairs(&[7_696, 8_144]);
}

/// "no closing bit before the zone's end", which is the map's: of one bit, of the
/// block's last seven bytes, of its last word.
fn no_closing_bit_before_the_map_ends(cases: &mut Cases) {
    for length in [12, 11 + 56, 11 + 64] {
        let zone = vec![object(2, 1_536 - length), object(5, length)];
        let mut map = build(&plain(1), &[zone]);
        set_bit(&mut map, 2_047, false);
        repair_zone_checks(&mut map, 256);
        cases.check(&map).told(6, 0);
    }
}

/// "Each zone's block is handed on as its own stretch": what follows in the map
/// closes nothing. The next block's check byte is odd or even, so that a 1 comes
/// right after the zone or a little later.
fn no_closing_bit_before_the_next_block(cases: &mut Cases) {
    for (length, id, check) in [(12, 16, 0x0B), (12, 5, 0x5A), (11 + 56, 16, 0x0B)] {
        let zones = [
            vec![free(1_536 - length), object(5, length)],
            vec![object(2, 12), object(id, 2_004)],
        ];
        let mut map = build(&plain(2), &zones);
        set_bit(&mut map[..256], 2_047, false);
        repair_zone_checks(&mut map, 256);
        assert_eq!(map[256], check);
        cases.check(&map).told(6, 0);
    }
}

/// Two zones as `ends_before` has them. The last fragment has its closing bit so
/// many bits too late; all else past the zone is 0.
fn closing_bit_late(bits: u16, last: (Owner, usize), late: usize) -> Vec<u8> {
    let zone_bits = 2_016 - bits as usize;
    let zones = [
        vec![free(zone_bits - 480)],
        vec![object(2, zone_bits - last.1), last],
    ];
    let mut map = build(&ends_before(bits), &zones);
    let zone_end = 32 + zone_bits;
    set_bit(&mut map[256..], zone_end - 1, false);
    set_bit(&mut map[256..], zone_end - 1 + late, true);
    repair_zone_checks(&mut map, 256);
    map
}

/// "no closing bit before the zone's end": a 1 bit past it is none, be it the
/// next bit, in the same byte or not, at place 63 from the byte where the search
/// begins, or at place 63 or 64 from the search.
fn a_one_past_the_zone(cases: &mut Cases) {
    for (bits, last, late) in [
        (1, object(5, 12), 1),
        (7, free(12), 1),
        (8, object(5, 12), 1),
        (64, object(5, 12), 56),
        (64, free(12), 63),
        (64, object(5, 12), 64),
        (64, object(5, 12 + 63), 1),
    ] {
        let map = closing_bit_late(bits, last, late);
        cases.check(&map).told(6, 1);
    }
}

/// The same on the floppy, whose zone ends with byte 863 of 1,024: no 1 bit after
/// it, and one a cluster of 8 bits late.
fn no_closing_bit_on_the_floppy(cases: &mut Cases) {
    let mut map = map_floppy();
    assert_eq!(map[863..865], [0x80, 0]);
    for bytes in [[0, 0], [0, 0x80]] {
        map[863..865].copy_from_slice(&bytes);
        repair_zone_checks(&mut map, 1_024);
        cases.check(&map).told(6, 0);
    }
}

/// "under idlen+1 bits left": 1 or 8 bits, after which a search would begin past
/// the block's end, in the last zone and in one before it.
fn search_past_the_block(cases: &mut Cases) {
    for (zone, left) in [(1, 1), (1, 8), (0, 1)] {
        let zones = [
            vec![free(1_524 - left), object(5, 12 + left)],
            vec![object(2, 2_004 - left), object(5, 12 + left)],
        ];
        let mut map = build(&plain(2), &zones);
        // The last fragment now closes after 12 bits.
        set_bit(&mut map[256 * zone..], 2_047 - left, true);
        repair_zone_checks(&mut map, 256);
        cases.check(&map).told(6, zone as u32);
    }
}

/// "each address of that class": a piece's last bytes are swept and not the next
/// one's. The piece closes at disc bit 192 + 32 + 64, at place 64 from the byte.
fn sweeps_to_a_closing_bit(cases: &mut Cases) {
    let first = 289 * 1_024 - 100;
    let (map, _) = at_places(&plain(1), OBJECT_5, 32 + 5, 32);
    cases.sweep_object(&map, 5, first, 300).answers(&[100]);
    let (map, _) = at_places(&plain(1), Owner::Free, 32 + 5, 32);
    cases.sweep_free(&map, first, 300).answers(&[100]);
}

/// "after place, the list shows the pieces": their searches begin at bit 3 of a
/// byte, and the closing bits are at the places from there. The claim finds the
/// hole of 117 bits between two of them, or with one bit more the last.
fn edits_at_word_ends(cases: &mut Cases) {
    let pairs = [24, 75, 216, 76, 408, 77, 600, 139, 792, 140, 984, 141];
    let spans = [
        12, 12, 99, 117, 292, 116, 485, 115, 739, 53, 932, 52, 1_125, 411,
    ];
    let placed = cases.place(&map_a(), 5, &pairs).done();
    cases.list(&placed, 5, 12).pairs(&pairs);
    cases.free(&placed, 14).pairs(&spans);
    cases.claim(&placed, 117 * 1_024, 0).claims(3, &[99, 117]);
    let last = [1_125, 118];
    cases.claim(&placed, 118 * 1_024, 0).claims(3, &last);
    assert_eq!(cases.release(&placed, 5, 12).pairs(&pairs), map_a());
}
