//! Properties of generated maps and calls.

use std::collections::BTreeMap;

use reference::case::{Call, Case, Outcome, CALLS};
use reference::edit::{claim, place, release};
use reference::generate::{
    any_map, arguments, disc_record, map_a, map_b, objects, play, play_claims, play_copies,
    play_formats, play_mends, play_pieces, valid_map, Memory, Rng, Sizes,
};
use reference::geometry::{DiscRecord, Edition, Geometry, LARGEST_MAP};
use reference::map::{check, zone_check_by_columns, zone_check_by_words};
use reference::read::{address, free, list, sweep_free, sweep_object, Location};
use reference::Refusal;

const SIZES: Sizes = Sizes {
    map: 32_768,
    list: 2_048,
    image: 8_192,
};

fn generated(seed: u64) -> (Rng, Vec<u8>) {
    let mut rng = Rng::new(seed);
    let largest = if seed % 40 == 0 { LARGEST_MAP } else { 8_192 };
    let record = disc_record(&mut rng, largest);
    let map = valid_map(&mut rng, &record);
    (rng, map)
}

/// Pairs of a call that fills a list.
fn pairs(answer: impl Fn(&mut [u32]) -> u64) -> Vec<u32> {
    let mut entries = vec![0; 200_000];
    let pairs = answer(&mut entries) as usize;
    entries.truncate(2 * pairs);
    entries
}

#[test]
fn generated_maps_are_accepted_and_cover_every_allocation_bit_once() {
    for seed in 0..1_500 {
        let (_, map) = generated(seed);
        let checked = check(&map).unwrap_or_else(|refusal| panic!("seed {seed}: {refusal:?}"));
        let mut times = vec![0; checked.geometry.disc_bits()];
        let mut cover = |entries: &[u32]| {
            for pair in entries.chunks(2) {
                for disc_bit in pair[0]..pair[0] + pair[1] {
                    times[disc_bit as usize] += 1;
                }
            }
        };
        cover(&pairs(|entries| free(&map, entries).unwrap()));
        // A list checks the whole map anew, so that of many objects the first ones
        // are listed.
        for (index, id) in objects(&checked).into_iter().enumerate() {
            if index < 50 {
                cover(&pairs(|entries| list(&map, id, entries).unwrap()));
                continue;
            }
            for fragment in checked.object(id).unwrap() {
                let (disc_bit, length) = checked.pair(&fragment);
                cover(&[disc_bit, length]);
            }
        }
        assert!(times.iter().all(|count| *count == 1), "seed {seed}");
    }
}

#[test]
fn generator_reaches_the_geometries() {
    let mut seen = BTreeMap::new();
    for seed in 0..3_000 {
        let mut rng = Rng::new(seed);
        let record = disc_record(&mut rng, LARGEST_MAP);
        let geometry = Geometry::accept(&record).unwrap();
        let end = geometry.disc_end_bit();
        let mut see = |what: &'static str, is: bool| {
            *seen.entry(what).or_insert(0) += is as u32;
        };
        see("k 1", geometry.cluster_bits == 1);
        see("k 2", geometry.cluster_bits == 2);
        see("k 4", geometry.cluster_bits == 4);
        see("k 8", geometry.cluster_bits == 8);
        see("Z no multiple of 8", geometry.zone_bits % 8 != 0);
        see("disc ends at the map's end", end == geometry.disc_bits());
        see(
            "disc ends at a zone's end",
            end < geometry.disc_bits() && geometry.block_bit(end) == 32,
        );
        see(
            "disc ends inside a zone",
            end < geometry.disc_bits() && geometry.block_bit(end) != 32,
        );
        see(
            "disc_size no multiple of B",
            geometry.disc_size % geometry.bytes_per_map_bit != 0,
        );
        see("P*nzones is 2^idlen", geometry.ids() == 1 << geometry.idlen);
        see(
            "smallest Z",
            geometry.zone_bits == 480 + geometry.shortest_fragment,
        );
    }
    for (what, count) in &seen {
        assert!(*count > 0, "never: {what}");
    }
}

/// "Raise nzones from 127 to 255" (R-4 of document 02), for every sector size.
#[test]
fn generator_reaches_the_numbers_of_zones() {
    let mut seen: BTreeMap<(usize, usize), u32> = BTreeMap::new();
    for seed in 0..3_000 {
        let record = disc_record(&mut Rng::new(seed), LARGEST_MAP);
        let geometry = Geometry::accept(&record).unwrap();
        let zones = (geometry.sector_size, geometry.nzones);
        *seen.entry(zones).or_insert(0) += 1;
    }
    for sector_size in [256, 512, 1_024] {
        assert!(seen.contains_key(&(sector_size, 1)), "one zone");
        assert!(seen.contains_key(&(sector_size, 255)), "255 zones");
        let many = (sector_size, 128)..(sector_size, 255);
        assert!(seen.range(many).count() > 5, "128 to 254 zones");
    }
}

#[test]
fn release_then_place_restores_every_byte() {
    let mut restored = 0;
    for seed in 0..1_500 {
        let (mut rng, before) = generated(seed);
        let checked = check(&before).unwrap();
        let mut present = objects(&checked);
        present.retain(|id| *id >= 3);
        if present.is_empty() {
            continue;
        }
        let id = rng.pick(&present);
        let mut map = before.clone();
        let mut entries = vec![0; 200_000];
        match release(&mut map, id, &mut entries) {
            Err(refusal) => assert_eq!(refusal.number, 9),
            Ok(pairs) => {
                assert_eq!(list(&map, id, &mut entries.clone()).unwrap_err().number, 10);
                assert!(map != before);
                place(&mut map, id, &entries[..2 * pairs as usize]).unwrap();
                assert!(map == before, "seed {seed}");
                restored += 1;
            }
        }
    }
    assert!(restored > 500);
}

#[test]
fn place_or_claim_then_release_restores_every_byte() {
    let (mut places, mut claims) = (0, 0);
    for seed in 0..1_500 {
        let (mut rng, before) = generated(seed);
        for call in [Call::Place, Call::Claim] {
            let case = arguments(&mut rng, call, &before, &SIZES, &Memory::new());
            let mut map = before.clone();
            let (id, expected) = if call == Call::Place {
                match place(&mut map, case.number, &case.list) {
                    Ok(()) => (case.number, case.list.clone()),
                    Err(_) => continue,
                }
            } else {
                let mut entries = vec![0; 200_000];
                match claim(&mut map, case.wide, case.number, &mut entries) {
                    Ok(claimed) => (claimed.id, entries[..2 * claimed.pairs as usize].to_vec()),
                    Err(_) => continue,
                }
            };
            assert_eq!(pairs(|entries| list(&map, id, entries).unwrap()), expected);
            let mut entries = vec![0; expected.len()];
            release(&mut map, id, &mut entries).unwrap();
            assert_eq!(entries, expected);
            assert!(map == before, "seed {seed}");
            if call == Call::Place {
                places += 1;
            } else {
                claims += 1;
            }
        }
    }
    assert!(places > 300 && claims > 300, "{places} {claims}");
}

#[test]
fn zone_check_by_words_equals_the_one_by_columns() {
    for seed in 0..4_000 {
        let mut rng = Rng::new(seed);
        let density = rng.pick(&[1, 20, 100]);
        let top_heavy = rng.percent(30);
        let block: Vec<u8> = (0..256usize << rng.below(3))
            .map(|_| {
                if !rng.percent(density) {
                    0
                } else if top_heavy {
                    255 - rng.below(3) as u8
                } else {
                    rng.byte()
                }
            })
            .collect();
        assert_eq!(zone_check_by_words(&block), zone_check_by_columns(&block));
    }
    for seed in 0..300 {
        let (_, map) = generated(seed);
        let sector_size = check(&map).unwrap().geometry.sector_size;
        for block in map.chunks(sector_size) {
            assert_eq!(zone_check_by_words(block), zone_check_by_columns(block));
        }
    }
}

#[test]
fn refused_calls_change_nothing_and_every_refusal_is_reached() {
    let mut reached = BTreeMap::new();
    let mut see = |case: &Case, outcome: &Outcome| {
        *reached.entry((case.call, outcome.number)).or_insert(0) += 1;
        if outcome.number != 0 {
            assert!(outcome.map == case.map);
            assert!(outcome.list == case.list);
            assert!(outcome.image == case.image);
            let zeros = &outcome.values[..case.call.zeros()];
            assert!(zeros.iter().all(|value| *value == 0));
            assert!(case.call.refusals().contains(&outcome.number));
        } else {
            assert_eq!(outcome.zone, 0);
        }
        if !matches!(outcome.number, 3 | 5 | 6 | 7 | 9) {
            assert_eq!(outcome.zone, 0);
        }
    };
    for seed in 0..6_000 {
        play(seed, &SIZES, &mut see);
        play_claims(seed, &SIZES, &mut see);
        play_pieces(seed, &SIZES, &mut see);
        play_copies(seed, &SIZES, &mut see);
        play_mends(seed, &SIZES, &mut see);
        play_formats(seed, &SIZES, &mut see);
    }
    for call in CALLS {
        assert!(reached.contains_key(&(call, 0)), "{call:?} never accepted");
        for number in call.refusals() {
            assert!(reached.contains_key(&(call, number)), "{call:?} {number}");
        }
    }
}

#[test]
fn an_edit_writes_only_the_zones_it_touches() {
    for seed in 0..3_000 {
        play(seed, &SIZES, &mut |case, outcome| {
            if !case.call.writes_map() || outcome.number != 0 {
                return;
            }
            let checked = check(&case.map).unwrap();
            let geometry = checked.geometry;
            let listed = match case.call {
                Call::Release => outcome.list[..2 * outcome.values[0] as usize].to_vec(),
                Call::Place => case.list.clone(),
                _ => outcome.list[..2 * outcome.values[1] as usize].to_vec(),
            };
            let mut touched: Vec<usize> = listed
                .chunks(2)
                .map(|pair| geometry.zone_of(pair[0] as usize))
                .collect();
            touched.sort();
            touched.dedup();
            assert!(check(&outcome.map).is_ok());
            for zone in 0..geometry.nzones {
                let bytes = zone * geometry.sector_size..(zone + 1) * geometry.sector_size;
                let (before, after) = (&case.map[bytes.clone()], &outcome.map[bytes]);
                if !touched.contains(&zone) {
                    assert!(before == after);
                    continue;
                }
                let low = geometry.first_block_bit(zone);
                for block_bit in 32..8 * geometry.sector_size {
                    if block_bit < low || block_bit >= geometry.end_block_bit() {
                        let mask = 1 << (block_bit % 8);
                        assert_eq!(before[block_bit / 8] & mask, after[block_bit / 8] & mask);
                    }
                }
            }
        });
    }
}

/// The owner of each address by asking `address` for every byte of objects
/// is too slow; at the edges of each piece it must agree with the sweeps. "Address
/// refuses E+ with 8" (R-12 of document 02).
#[test]
fn sweeps_agree_with_the_lists() {
    for seed in 0..400 {
        let (_, map) = generated(seed);
        let checked = check(&map).unwrap();
        let geometry = checked.geometry;
        let bytes = geometry.bytes_per_map_bit;
        let window = 64u64;
        let addressed = |address, run| match geometry.edition {
            Edition::E => Ok(Location { address, run }),
            Edition::EPlus => Err(Refusal::plain(8)),
        };
        for id in objects(&checked).into_iter().filter(|id| *id >= 3).take(4) {
            let mut position = 0;
            for piece in checked.object(id).unwrap().iter().take(6) {
                let first = geometry.disc_bit(piece.zone, piece.start) as u64 * bytes;
                let length = piece.length as u64 * bytes;
                assert_eq!(address(&map, id << 8, position), addressed(first, length));
                position += length;
                let last = addressed(first + length - 1, 1);
                assert_eq!(address(&map, id << 8, position - 1), last);

                let from = (first + length - 10).min(geometry.disc_size - window);
                let mut image = vec![1; window as usize];
                let count = sweep_object(&map, &mut image, from, 2, id).unwrap();
                assert_eq!(
                    count,
                    image.iter().filter(|byte| **byte == 2).count() as u64
                );
                assert!(count >= 10);
                let free_count = sweep_free(&map, &mut image, from, 3).unwrap();
                assert_eq!(
                    free_count,
                    image.iter().filter(|byte| **byte == 3).count() as u64
                );
                assert_eq!(
                    count,
                    image.iter().filter(|byte| **byte == 2).count() as u64
                );
            }
        }
    }
}

#[test]
fn any_map_is_judged_without_a_panic() {
    for seed in 0..3_000 {
        let mut rng = Rng::new(seed);
        let map = any_map(&mut rng, 4_096);
        if let Err(refusal) = check(&map) {
            assert!((1..=7).contains(&refusal.number));
        }
    }
}

/// "for record offset 9, the value 0" (R-4 of document 02): refused with 2 in
/// every map that is not refused for being under 64 bytes, if it has no high byte
///
#[test]
fn no_zones_are_refused_with_2() {
    let mut refused = 0;
    for seed in 0..12_000 {
        let mut rng = Rng::new(seed);
        let map = any_map(&mut rng, 2_048);
        if map.len() >= 64 && DiscRecord::read(&map).nzones == 0 {
            assert_eq!(check(&map).unwrap_err().number, 2, "seed {seed}");
            refused += 1;
        }
    }
    assert!(refused > 10, "{refused}");
}

#[test]
fn stored_form_of_a_case() {
    let mut case = Case::new(Call::Release, &map_a());
    case.fill = 1;
    case.number = 0x0102_0304;
    case.wide = 0x1112_1314_1516_1718;
    case.list = vec![0x2122_2324, 9];
    case.image = vec![7, 8, 9];
    let bytes = case.bytes();
    assert_eq!(
        bytes[..32],
        [
            7, 1, 0, 0, 4, 3, 2, 1, 0x18, 0x17, 0x16, 0x15, 0x14, 0x13, 0x12, 0x11, 0, 1, 0, 0, 2,
            0, 0, 0, 3, 0, 0, 0, 0, 0, 0, 0
        ]
    );
    assert_eq!(bytes[32..288], map_a());
    assert_eq!(bytes[288..], [0x24, 0x23, 0x22, 0x21, 9, 0, 0, 0, 7, 8, 9]);

    let mut case = Case::new(Call::Place, &map_a());
    case.number = 5;
    case.list = vec![12, 20];
    assert_eq!(
        case.line(&case.run()),
        "place 0 0 map 0=40 1=24 65=88 67=128"
    );

    // The address, then the run (R-11 of document 02).
    let mut case = Case::new(Call::Address, &map_b());
    case.number = 0x000503;
    assert_eq!(case.line(&case.run()), "address 0 0 12800 19968");
    case.wide = 19_968;
    assert_eq!(case.line(&case.run()), "address 16 0 0 0");

    // The parent zone where other calls have their id (R-6 of document 02), and a list
    // that is lent.
    let mut case = Case::new(Call::Claim, &map_a());
    case.wide = 1;
    assert_eq!(case.line(&case.run()), "claim 17 0 0 0 list map");
    case.list = vec![12, 0, 0];
    let line = case.line(&case.run());
    assert!(line.starts_with("claim 0 0 3 1 list 1=12 map 0="));
    case.number = 1;
    assert_eq!(case.bytes()[4..8], [1, 0, 0, 0]);
    assert_eq!(case.bytes()[20..24], [3, 0, 0, 0]);
    assert_eq!(case.line(&case.run()), "claim 12 0 0 0 list map");
}
