//! R-11 of document 02, "How far may I read?": address answers "how many bytes
//! follow at consecutive disc addresses in the same piece, the asked byte included.
//! Touching pieces count as separate."

use std::collections::BTreeMap;

use reference::case::{Call, Case, Outcome};
use reference::generate::{map_b, objects, play, play_addresses, record_of, valid_map, Rng, Sizes};
use reference::geometry::{Edition, Geometry};
use reference::map::check;
use reference::read::{address, list, sweep_object, Location};
use reference::Refusal;

const SIZES: Sizes = Sizes {
    map: 32_768,
    list: 2_048,
    image: 8_192,
};

/// The low bytes of the internal numbers that are walked.
const LOW_BYTES: [u32; 7] = [0, 1, 2, 3, 49, 128, 255];

/// A stretch of the disc: its first address and how many bytes it has.
type Stretch = (u64, u64);

/// A valid map of version 0: no other has addresses.
fn generated(seed: u64, largest_map: usize) -> (Rng, Vec<u8>) {
    let mut rng = Rng::new(seed);
    let record = record_of(&mut rng, largest_map, Edition::E);
    let map = valid_map(&mut rng, &record);
    (rng, map)
}

/// The ids of the objects whose bytes have addresses.
fn addressed(map: &[u8]) -> Vec<u32> {
    let mut ids = objects(&check(map).unwrap());
    ids.retain(|id| *id >= 2);
    ids
}

fn start_offset(geometry: &Geometry, low_byte: u32) -> u64 {
    low_byte.saturating_sub(1) as u64 * geometry.sector_size as u64
}

/// Reads an object as the copy tool does: asks, notes the stretch, and asks again
/// after it, until refused.
fn walk(map: &[u8], n: u32) -> (Vec<Stretch>, Refusal) {
    let mut stretches = Vec::new();
    let mut position = 0;
    loop {
        match address(map, n, position) {
            Ok(Location { address, run }) => {
                assert!(run > 0, "the asked byte is included");
                stretches.push((address, run));
                position += run;
            }
            Err(refusal) => return (stretches, refusal),
        }
    }
}

/// The pieces of an object as the list has them, in bytes.
fn listed(map: &[u8], id: u32) -> Vec<Stretch> {
    let bytes_per_map_bit = check(map).unwrap().geometry.bytes_per_map_bit;
    let mut entries = vec![0; 20_000];
    let pairs = list(map, id, &mut entries).unwrap() as usize;
    let bytes = |map_bits: u32| map_bits as u64 * bytes_per_map_bit;
    let pairs = entries[..2 * pairs].chunks(2);
    pairs.map(|pair| (bytes(pair[0]), bytes(pair[1]))).collect()
}

/// The stretches without so many bytes at their start.
fn without(stretches: &[Stretch], mut bytes: u64) -> Vec<Stretch> {
    let mut left = Vec::new();
    for (first, length) in stretches {
        let less = bytes.min(*length);
        bytes -= less;
        if less < *length {
            left.push((first + less, length - less));
        }
    }
    left
}

/// "The object's bytes are its pieces joined in order": by runs each of them is read
/// once, from the start offset on, and one stretch is read for each piece.
#[test]
fn a_walk_by_runs_reads_the_listed_pieces() {
    let (mut whole, mut shortened, mut nothing) = (0, 0, 0);
    for seed in 0..600 {
        let largest_map = if seed % 20 == 0 { 8_192 } else { 2_048 };
        let (mut rng, map) = generated(seed, largest_map);
        let geometry = check(&map).unwrap().geometry;
        let ids = addressed(&map);
        for id in [2, rng.pick(&ids), rng.pick(&ids)] {
            let pieces = listed(&map, id);
            for low_byte in LOW_BYTES {
                let expected = without(&pieces, start_offset(&geometry, low_byte));
                let (stretches, refusal) = walk(&map, id << 8 | low_byte);
                assert_eq!(refusal, Refusal::plain(16), "seed {seed}");
                assert_eq!(stretches, expected, "seed {seed}, object {id}");
                match expected.len() {
                    0 => nothing += 1,
                    _ if expected == pieces => whole += 1,
                    _ => shortened += 1,
                }
            }
        }
    }
    let kinds = [whole, shortened, nothing];
    assert!(kinds.iter().all(|count| *count > 500), "{kinds:?}");
}

/// All bytes of a run are the object's: its sweep over the last ones of the run writes
/// each of them.
#[test]
fn a_sweep_writes_every_byte_of_a_run() {
    let mut swept = 0;
    for seed in 0..400 {
        let (mut rng, map) = generated(seed, 2_048);
        let mut ids = addressed(&map);
        ids.retain(|id| *id >= 3);
        if ids.is_empty() {
            continue;
        }
        let id = rng.pick(&ids);
        for (first, run) in walk(&map, id << 8).0.into_iter().take(8) {
            let length = run.min(2_048);
            let mut image = vec![0; length as usize];
            let from = first + run - length;
            let count = sweep_object(&map, &mut image, from, 1, id);
            assert_eq!(count, Ok(length), "seed {seed}");
            swept += 1;
        }
    }
    assert!(swept > 500, "{swept}");
}

/// How many bytes all stretches have.
fn bytes(stretches: &[Stretch]) -> u64 {
    stretches.iter().map(|(_, length)| length).sum()
}

/// "the asked byte included": asks for each byte of two pieces, by their place among
/// those of the object, and for the byte after them, which is the next piece's first
/// or past the object.
fn walk_by_bytes(map: &[u8], id: u32, place: usize) {
    let pieces = listed(map, id);
    let mut position = bytes(&pieces[..place]);
    for (first, length) in &pieces[place..place + 2] {
        for inside in 0..*length {
            let expected = Location {
                address: first + inside,
                run: length - inside,
            };
            assert_eq!(address(map, id << 8, position), Ok(expected));
            position += 1;
        }
    }
    let expected = match pieces.get(place + 2) {
        Some((address, run)) => Ok(Location {
            address: *address,
            run: *run,
        }),
        None => Err(Refusal::plain(16)),
    };
    assert_eq!(address(map, id << 8, position), expected);
}

/// Each byte of two short pieces that touch has a run that is one less than that of
/// the byte before in the same piece.
#[test]
fn each_byte_of_touching_pieces() {
    let short = |two: &[Stretch]| bytes(two) <= 8_192 && two[0].0 + two[0].1 == two[1].0;
    let mut walked = 0;
    for seed in 0..600 {
        let (_, map) = generated(seed, 512);
        for id in addressed(&map) {
            if let Some(place) = listed(&map, id).windows(2).position(short) {
                walk_by_bytes(&map, id, place);
                walked += 1;
                break;
            }
        }
    }
    assert!(walked > 20, "{walked}");
}

/// The same of two bytes somewhere in an object, and of its first piece's last byte.
#[test]
fn neighbouring_bytes() {
    let (mut same_piece, mut piece_end) = (0, 0);
    for seed in 0..400 {
        let (mut rng, map) = generated(seed, 2_048);
        for id in addressed(&map).into_iter().take(6) {
            let pieces = listed(&map, id);
            let all = bytes(&pieces);
            let first_piece = pieces[0].1;
            for position in [rng.word() % all, first_piece - 1] {
                let here = address(&map, id << 8, position).unwrap();
                let after = address(&map, id << 8, position + 1);
                if here.run > 1 {
                    let next = Location {
                        address: here.address + 1,
                        run: here.run - 1,
                    };
                    assert_eq!(after, Ok(next), "seed {seed}");
                    same_piece += 1;
                } else {
                    let starts = |next: Location| pieces.contains(&(next.address, next.run));
                    assert!(after.map_or(position + 1 == all, starts), "seed {seed}");
                    piece_end += 1;
                }
            }
        }
    }
    assert!(same_piece > 500 && piece_end > 500);
}

/// "A refusal answers its number and zone, any other number 0": address and run.
#[test]
fn a_refused_call_answers_no_run() {
    let mut refused = BTreeMap::new();
    let mut see = |case: &Case, outcome: &Outcome| {
        if case.call != Call::Address {
            return;
        }
        assert_eq!(outcome.values.len(), 2);
        if outcome.number == 0 {
            assert!(outcome.values[1] > 0);
        } else {
            assert_eq!(outcome.values, [0, 0]);
            *refused.entry(outcome.number).or_insert(0) += 1;
        }
    };
    for seed in 0..6_000 {
        play(seed, &SIZES, &mut see);
        play_addresses(seed, &SIZES, &mut see);
    }
    let numbers: Vec<u32> = refused.into_keys().collect();
    assert_eq!(numbers, Call::Address.refusals());
    // Past the object, up to the last position there is.
    for position in [19_968, 19_969, 1 << 32, u64::MAX] {
        let refused = address(&map_b(), 0x000503, position);
        assert_eq!(refused, Err(Refusal::plain(16)));
    }
}

/// Generated maps have objects with pieces that touch in a zone, across a zone's end,
/// and three in a row; and an object whose first piece follows its last on the disc.
#[test]
fn generator_reaches_touching_pieces() {
    let mut seen: BTreeMap<&str, u32> = BTreeMap::new();
    for seed in 0..1_000 {
        let (_, map) = generated(seed, 4_096);
        let checked = check(&map).unwrap();
        let mut kinds: BTreeMap<&str, bool> = BTreeMap::new();
        for id in addressed(&map) {
            let touching = checked.touching_pieces(id).unwrap();
            let pieces = listed(&map, id);
            let (last, length) = pieces[pieces.len() - 1];
            let mut see = |what, is: bool| *kinds.entry(what).or_insert(false) |= is;
            see("in a zone", touching.iter().any(|(a, b)| a.zone == b.zone));
            see("across", touching.iter().any(|(a, b)| a.zone != b.zone));
            see("three", touching.windows(2).any(|two| two[0].1 == two[1].0));
            see("first after last", last + length == pieces[0].0);
            let of_2 = id == 2 && !touching.is_empty();
            see("of object 2", of_2);
        }
        for (kind, is) in kinds {
            *seen.entry(kind).or_insert(0) += u32::from(is);
        }
    }
    assert_eq!(seen.len(), 5);
    assert!(seen.values().all(|count| *count > 10), "{seen:?}");
}

/// Where asked bytes lie: at a piece's first byte, its last byte, inside it, at the
/// object's end or past it. The first and last ones count where another piece is next
/// to them in the object.
#[test]
fn generator_reaches_the_edges_of_pieces() {
    let mut seen: BTreeMap<&str, u32> = BTreeMap::new();
    let mut see = |case: &Case, outcome: &Outcome| {
        if case.call != Call::Address || !matches!(outcome.number, 0 | 16) {
            return;
        }
        let checked = check(&case.map).unwrap();
        let geometry = checked.geometry;
        let pieces = checked.object(case.number / 256).unwrap();
        let offset = start_offset(&geometry, case.number % 256) as u128;
        let byte = offset + case.wide as u128;
        let mut end = 0u128;
        let mut kind = "past the end";
        for (index, piece) in pieces.iter().enumerate() {
            let start = end;
            end += piece.length as u128 * geometry.bytes_per_map_bit as u128;
            if byte == start && index > 0 {
                kind = "the first byte of a next piece";
            } else if byte + 1 == end && index + 1 < pieces.len() {
                kind = "the last byte before a next piece";
            } else if byte + 1 == end {
                kind = "the object's last byte";
            } else if (start..end).contains(&byte) {
                kind = "elsewhere";
            }
        }
        if byte == end {
            kind = "the object's end";
        }
        *seen.entry(kind).or_insert(0) += 1;
    };
    for seed in 0..3_000 {
        play(seed, &SIZES, &mut see);
        play_addresses(seed, &SIZES, &mut see);
    }
    assert_eq!(seen.len(), 6, "{seen:?}");
    assert!(seen.values().all(|count| *count > 200), "{seen:?}");
}
