//! R-5 of document 02, "The second map copy": "with an accepted copy it leaves alone,
//! the pair still yields an accepted map whatever bytes the other is left with."

use std::collections::BTreeMap;

use reference::case::{Call, Case, Outcome};
use reference::copies::{choose_copy, copy_addresses, copy_over, Addresses};
use reference::edit::release;
use reference::generate::{
    any_map, as_e_plus, build, cut_off, disc_record, edited, map_a, map_b, map_of_a_high_copy,
    map_of_zones, play_copies, record_of, record_of_zones, some_copies, valid_map, Rng, Sizes,
};
use reference::geometry::Edition;
use reference::map::{check, Owner};
use reference::read::address;
use reference::Refusal;

const SIZES: Sizes = Sizes {
    map: 32_768,
    list: 2_048,
    image: 8_192,
};

fn generated(seed: u64, largest_map: usize) -> (Rng, Vec<u8>) {
    let mut rng = Rng::new(seed);
    let record = disc_record(&mut rng, largest_map);
    let map = valid_map(&mut rng, &record);
    (rng, map)
}

/// What another copy may be left with: no bytes, those of the map with one changed,
/// another map, a damaged one, or noise as long as the map.
fn other_bytes(rng: &mut Rng, map: &[u8]) -> Vec<u8> {
    match rng.below(5) {
        0 => Vec::new(),
        1 => {
            let mut other = map.to_vec();
            other[rng.below(map.len())] ^= rng.between(1, 255) as u8;
            other
        }
        2 => {
            let record = disc_record(rng, 2_048);
            valid_map(rng, &record)
        }
        3 => any_map(rng, 2_048),
        _ => (0..map.len()).map(|_| rng.byte()).collect(),
    }
}

/// "with an accepted copy it leaves alone, the pair still yields an accepted map
/// whatever bytes the other is left with": the accepted one is the first, or the
/// second.
#[test]
fn a_pair_with_an_accepted_copy_yields_an_accepted_map() {
    let (mut refused, mut accepted) = (0, 0);
    for seed in 0..4_000 {
        let (mut rng, map) = generated(seed, 2_048);
        let other = other_bytes(&mut rng, &map);
        let choice = choose_copy(&map, &other);
        assert_eq!(choice.chosen, Ok((1, &map[..])), "seed {seed}");
        let choice = choose_copy(&other, &map);
        match check(&other) {
            Ok(_) => {
                assert_eq!(choice.chosen, Ok((1, &other[..])), "seed {seed}");
                accepted += 1;
            }
            Err(_) => {
                assert_eq!(choice.chosen, Ok((2, &map[..])), "seed {seed}");
                refused += 1;
            }
        }
        assert!(check(choice.part()).is_ok(), "seed {seed}");
    }
    assert!(refused > 1_000 && accepted > 500, "{refused} {accepted}");
}

/// "else the first's refusal and an empty part": number and zone are those of the
/// first, also where the second's are others.
#[test]
fn two_refused_copies_tell_the_first_refusal() {
    let (mut refused, mut other_number, mut other_zone) = (0, 0, 0);
    for seed in 0..6_000 {
        let mut rng = Rng::new(seed);
        let (first, second) = some_copies(&mut rng, 2_048, &SIZES);
        let (Err(of_first), Err(of_second)) = (check(&first), check(&second)) else {
            continue;
        };
        let choice = choose_copy(&first, &second);
        assert_eq!(choice.chosen, Err(of_first), "seed {seed}");
        assert!(choice.part().is_empty());
        refused += 1;
        other_number += u32::from(of_first.number != of_second.number);
        let same_number = of_first.number == of_second.number;
        other_zone += u32::from(same_number && of_first.zone != of_second.zone);
    }
    assert!(refused > 1_000 && other_number > 500, "{refused}");
    assert!(other_zone > 10, "{other_zone}");
}

/// Whether two slices are equal, by their lengths and each of their bytes.
fn byte_for_byte(first: &[u8], second: &[u8]) -> bool {
    first.len() == second.len() && (0..first.len()).all(|at| first[at] == second[at])
}

/// "Say also whether they are byte for byte equal": of accepted and of refused ones.
#[test]
fn equal_is_told_of_all_copies() {
    let mut seen: BTreeMap<(bool, bool), u32> = BTreeMap::new();
    for seed in 0..6_000 {
        let mut rng = Rng::new(seed);
        let (first, second) = some_copies(&mut rng, 2_048, &SIZES);
        let choice = choose_copy(&first, &second);
        assert_eq!(choice.equal, byte_for_byte(&first, &second), "seed {seed}");
        let kind = (choice.chosen.is_ok(), choice.equal);
        *seen.entry(kind).or_insert(0) += 1;
    }
    assert_eq!(seen.len(), 4, "{seen:?}");
    assert!(seen.values().all(|count| *count > 100), "{seen:?}");
}

/// Every beginning of a map, beside the whole one and beside each shorter beginning.
#[test]
fn copies_of_unequal_lengths_are_unequal() {
    let map = map_a();
    for length in 0..map.len() {
        let part = &map[..length];
        let choice = choose_copy(part, &map);
        assert_eq!((choice.chosen, choice.equal), (Ok((2, &map[..])), false));
        let choice = choose_copy(&map, part);
        assert_eq!((choice.chosen, choice.equal), (Ok((1, &map[..])), false));
        for shorter in 0..=length {
            let choice = choose_copy(part, &map[..shorter]);
            assert_eq!(choice.chosen, Err(Refusal::plain(1)));
            assert_eq!(choice.equal, shorter == length);
        }
    }
}

/// "byte for byte": one bit of one byte makes two copies unequal, wherever it is and
/// however long they are, and a copy makes them equal again.
#[test]
fn every_bit_counts() {
    let map = map_b();
    for bit in 0..8 * map.len() {
        let mut other = map.clone();
        other[bit / 8] ^= 1 << (bit % 8);
        assert!(!choose_copy(&map, &other).equal && !choose_copy(&other, &map).equal);
        assert_eq!(copy_over(&map, &mut other), Ok(()));
        assert!(other == map && choose_copy(&map, &other).equal);
    }
    for length in 1..=70 {
        for at in 0..length {
            let mut other = vec![0; length];
            other[at] = 1;
            assert!(!choose_copy(&vec![0; length], &other).equal);
        }
    }
}

/// "a call that writes one over the other; it answers the source's refusal first, then
/// 1 where lengths differ, and then writes nothing." After a copy both are equal and
/// accepted.
#[test]
fn a_copy_makes_both_equal_and_accepted() {
    let (mut copied, mut refused, mut other_length) = (0, 0, 0);
    for seed in 0..6_000 {
        let mut rng = Rng::new(seed);
        let (source, before) = some_copies(&mut rng, 2_048, &SIZES);
        let mut target = before.clone();
        match copy_over(&source, &mut target) {
            Ok(()) => {
                assert_eq!(source.len(), before.len());
                let choice = choose_copy(&source, &target);
                assert_eq!(choice.chosen, Ok((1, &source[..])), "seed {seed}");
                assert!(choice.equal, "seed {seed}");
                copied += 1;
            }
            Err(refusal) => {
                assert!(target == before, "seed {seed}");
                let expected = match check(&source) {
                    Ok(_) => Refusal::plain(1),
                    Err(of_source) => of_source,
                };
                assert_eq!(refusal, expected, "seed {seed}");
                other_length += u32::from(check(&source).is_ok());
                refused += u32::from(check(&source).is_err());
            }
        }
    }
    assert!(copied > 500 && refused > 500, "{copied} {refused}");
    assert!(other_length > 100, "{other_length}");
}

/// Each refusal of a source with a target of every length around its own: the lengths
/// matter only where the source is accepted.
#[test]
fn the_source_is_judged_before_the_lengths() {
    let mut seen = [0; 8];
    for seed in 0..2_000 {
        let mut rng = Rng::new(seed);
        let source = any_map(&mut rng, 1_024);
        let of_source = check(&source).map(|_| ());
        for length in [0, source.len().saturating_sub(1), source.len() + 1] {
            let mut target = vec![0x5A; length];
            let expected = match of_source {
                Ok(()) if length != source.len() => Err(Refusal::plain(1)),
                other => other,
            };
            assert_eq!(copy_over(&source, &mut target), expected, "seed {seed}");
            let untouched = target.iter().all(|byte| *byte == 0x5A);
            assert!(untouched || expected.is_ok());
            seen[of_source.err().map_or(0, |refusal| refusal.number as usize)] += 1;
        }
    }
    assert!(seen.iter().all(|count| *count > 50), "{seen:?}");
}

/// What the choice told after each cut.
#[derive(Default)]
struct Seen {
    old: u32,
    new: u32,
    neither: u32,
    equal: u32,
}

/// A station has edited a map in memory, writes the new one over the second copy and
/// then over the first, and is cut off after each byte in turn. "until the second is
/// whole the pair yields exactly the old map; afterwards exactly the new one whenever
/// the half-written first is refused, and an accepted map in any case." Copies that
/// are told to be equal are exactly the old map or exactly the new one.
fn cut_off_after_every_byte(old: &[u8], new: &[u8], seen: &mut Seen) {
    let length = old.len();
    for written in 0..=2 * length {
        let (first, second) = cut_off(old, new, written);
        let choice = choose_copy(&first, &second);
        let part = choice.part();
        assert!(check(part).is_ok(), "cut off after {written}");
        if written < length {
            assert!(part == old, "cut off after {written}");
        } else if check(&first).is_err() {
            assert!(part == new, "cut off after {written}");
        }
        if choice.equal {
            assert!(part == old || part == new, "cut off after {written}");
        }
        seen.equal += u32::from(choice.equal);
        seen.old += u32::from(part == old);
        seen.new += u32::from(part == new);
        seen.neither += u32::from(part != old && part != new);
    }
    let (first, second) = cut_off(old, new, 2 * length);
    assert!(first == new && second == new);
}

#[test]
fn a_station_cut_off_after_every_byte() {
    let (mut stations, mut seen) = (0, Seen::default());
    for seed in 0..200 {
        let (mut rng, old) = generated(seed, 1_024);
        let new = edited(&mut rng, &old, &SIZES);
        assert_eq!(new.len(), old.len());
        if new != old {
            cut_off_after_every_byte(&old, &new, &mut seen);
            stations += 1;
        }
    }
    assert!(stations > 100, "{stations}");
    assert!(seen.old > 10_000 && seen.new > 10_000 && seen.equal > 1_000);
}

/// Zones with a piece of object 9 each, and nothing else but object 2.
fn object_in_each_zone(nzones: u16) -> Vec<u8> {
    let record = record_of_zones(8, nzones, Edition::E);
    let piece = (Owner::Object(9), 20);
    let mut zones = vec![vec![piece, (Owner::Free, 1_996)]; nzones as usize];
    zones[0] = vec![piece, (Owner::Free, 1_516)];
    zones[nzones as usize / 2] = vec![(Owner::Object(2), 16), piece, (Owner::Free, 1_980)];
    build(&record, &zones)
}

/// The numbers of blocks after which a half-written first copy is accepted, though it
/// is neither the old map nor the new one.
fn accepted_by_chance(old: &[u8], new: &[u8]) -> Vec<usize> {
    let mut blocks = Vec::new();
    for written in 0..=old.len() / 256 {
        let (first, second) = cut_off(old, new, old.len() + 256 * written);
        assert!(second == new);
        if check(&first).is_ok() && first != old && first != new {
            let choice = choose_copy(&first, &second);
            assert_eq!(choice.chosen, Ok((1, &first[..])));
            assert!(!choice.equal);
            blocks.push(written);
        }
    }
    blocks
}

/// Why no more can be promised than an accepted map: "exclusive-ors each with 1 when
/// their number is even; when odd, the first three with 1, 2, 3 and the rest with 1",
/// so that two written blocks of four cancel, as do the first three of five. Every
/// block's zone check is right by itself. "not equal" tells of it. The station places
/// the object as well as it releases it.
#[test]
fn a_half_written_first_copy_may_be_accepted_by_chance() {
    for (nzones, chances) in [
        (2, vec![]),
        (3, vec![]),
        (4, vec![2]),
        (5, vec![3]),
        (6, vec![2, 4]),
        (7, vec![3, 5]),
    ] {
        let old = object_in_each_zone(nzones);
        let mut new = old.clone();
        let mut list = vec![0; 2 * nzones as usize];
        assert_eq!(release(&mut new, 9, &mut list), Ok(nzones as u64));
        assert_eq!(accepted_by_chance(&old, &new), chances, "{nzones} zones");
        assert_eq!(accepted_by_chance(&new, &old), chances, "{nzones} zones");
    }
    // What is handed back has the object in the last two zones of four only.
    let old = object_in_each_zone(4);
    let mut new = old.clone();
    release(&mut new, 9, &mut [0; 8]).unwrap();
    let (first, second) = cut_off(&old, &new, 1_024 + 512);
    let chosen = check(choose_copy(&first, &second).part()).unwrap();
    let zones: Vec<usize> = chosen.object(9).unwrap().iter().map(|p| p.zone).collect();
    assert_eq!(zones, [2, 3]);
    let mut seen = Seen::default();
    cut_off_after_every_byte(&old, &new, &mut seen);
    assert!(seen.neither > 0);
}

/// The copies of one zone lie at 0 and after it; the others where a fragment of object
/// 2 is the first of the middle zone.
#[test]
fn addresses_of_some_maps() {
    let lie_at = |first, second| Ok(Addresses { first, second });
    assert_eq!(copy_addresses(&map_a()), lie_at(0, 256));
    assert_eq!(copy_addresses(&map_b()), lie_at(0, 256));
    for (log2secsize, nzones, edition, first) in [
        (8, 127, Edition::E, 63 * 2_016 - 480),
        (8, 128, Edition::E, 64 * 2_016 - 480),
        (8, 255, Edition::E, 127 * 2_016 - 480),
        (9, 128, Edition::E, 64 * 4_064 - 480),
        (8, 256, Edition::EPlus, 128 * 2_016 - 480),
        (8, 513, Edition::EPlus, 256 * 2_016 - 480),
        (10, 300, Edition::EPlus, 150 * 8_160 - 480),
    ] {
        let map = map_of_zones(&record_of_zones(log2secsize, nzones, edition));
        let first = first * 1_024;
        let second = first + ((nzones as u64) << log2secsize);
        assert_eq!(copy_addresses(&map), lie_at(first, second));
    }
    // "straight after", at 2^32 and more.
    let map = map_of_a_high_copy();
    assert_eq!(copy_addresses(&map), lie_at(4_294_766_592, 4_295_037_440));
}

/// "at the address of the middle zone's first bit": object 2 starts there, so that in
/// version 0 its first byte has the address of the first copy. E+ discs have no
/// internal numbers here, but the same zones. The second copy is "straight after".
#[test]
fn the_first_copy_lies_where_object_2_starts() {
    let mut zones = BTreeMap::new();
    for seed in 0..2_000 {
        let mut rng = Rng::new(seed);
        let largest_map = if seed % 40 == 0 { 65_536 } else { 4_096 };
        let record = record_of(&mut rng, largest_map, Edition::E);
        let map = valid_map(&mut rng, &record);
        let addresses = copy_addresses(&map).unwrap();
        let byte_0 = address(&map, 0x000200, 0).unwrap();
        assert_eq!(addresses.first, byte_0.address, "seed {seed}");
        assert_eq!(addresses.second, addresses.first + map.len() as u64);
        assert_eq!(copy_addresses(&as_e_plus(&map)), Ok(addresses));
        *zones.entry(record.nzones).or_insert(0) += 1;
    }
    assert!((1..=12).all(|nzones| zones.contains_key(&nzones)));
    assert!(zones.contains_key(&255), "{zones:?}");
}

/// A refused map has no addresses: "any other number 0".
#[test]
fn a_refused_map_has_no_addresses() {
    let mut refused = BTreeMap::new();
    for seed in 0..4_000 {
        let map = any_map(&mut Rng::new(seed), 2_048);
        let outcome = Case::new(Call::CopyAddresses, &map).run();
        if let Err(refusal) = check(&map) {
            let told = (outcome.number, outcome.zone);
            assert_eq!(told, (refusal.number, refusal.zone), "seed {seed}");
            assert_eq!(outcome.values, [0, 0]);
            *refused.entry(refusal.number).or_insert(0) += 1;
        }
    }
    let numbers: Vec<u32> = refused.into_keys().collect();
    assert_eq!(numbers, Call::CopyAddresses.refusals());
}

/// "No call writes both": the first copy, or the source, is left alone, and so are both
/// by a choice. Each outcome is reached.
#[test]
fn generator_reaches_every_outcome() {
    let mut choices: BTreeMap<(u64, u64), u32> = BTreeMap::new();
    let mut numbers: BTreeMap<(Call, u32), u32> = BTreeMap::new();
    let mut other_length = 0;
    let mut see = |case: &Case, outcome: &Outcome| {
        assert!(outcome.map == case.map);
        let key = (case.call, outcome.number);
        *numbers.entry(key).or_insert(0) += 1;
        if case.call == Call::ChooseCopy {
            assert!(outcome.image == case.image);
            let key = (outcome.values[0], outcome.values[1]);
            *choices.entry(key).or_insert(0) += 1;
        }
        if key == (Call::CopyOver, 1) && check(&case.map).is_ok() {
            other_length += 1;
        }
    };
    for seed in 0..6_000 {
        play_copies(seed, &SIZES, &mut see);
    }
    let reached: Vec<_> = choices.keys().copied().collect();
    assert_eq!(reached, [(0, 0), (0, 1), (1, 0), (1, 1), (2, 0)]);
    assert!(choices.values().all(|count| *count > 100), "{choices:?}");
    assert!(other_length > 100, "{other_length}");
    for call in [Call::ChooseCopy, Call::CopyOver, Call::CopyAddresses] {
        for number in 0..=7 {
            let count = numbers.get(&(call, number)).copied().unwrap_or(0);
            assert!(count > 20, "{call:?} {number}: {count}");
        }
    }
}

/// The lines and values of the three calls as they are stored.
#[test]
fn stored_lines() {
    let line = |call, map: &[u8], other: &[u8]| {
        let mut case = Case::new(call, map);
        case.image = other.to_vec();
        case.line(&case.run())
    };
    let (a, b) = (map_a(), map_b());
    let mut wrong = a.clone();
    wrong[0] ^= 1;
    let choose = |first: &[u8], second: &[u8]| line(Call::ChooseCopy, first, second);
    assert_eq!(choose(&a, &a), "choose_copy 0 0 1 1");
    assert_eq!(choose(&a, &b), "choose_copy 0 0 1 0");
    assert_eq!(choose(&wrong, &b), "choose_copy 0 0 2 0");
    assert_eq!(choose(&wrong, &wrong), "choose_copy 3 0 0 1");
    assert_eq!(choose(&wrong, &[]), "choose_copy 3 0 0 0");
    let over = |source: &[u8], target: &[u8]| line(Call::CopyOver, source, target);
    let changed = "copy_over 0 0 copy 0=40 1=24 65=88 67=128";
    assert_eq!(over(&b, &a), changed);
    assert_eq!(over(&a, &a), "copy_over 0 0 copy");
    assert_eq!(over(&a, &b[..255]), "copy_over 1 0 copy");
    assert_eq!(over(&wrong, &b[..255]), "copy_over 3 0 copy");
    let addresses = |map: &[u8]| line(Call::CopyAddresses, map, &[]);
    assert_eq!(addresses(&a), "copy_addresses 0 0 0 256");
    assert_eq!(addresses(&wrong), "copy_addresses 3 0 0 0");
    let mut case = Case::new(Call::CopyOver, &a);
    case.image = b;
    assert_eq!(case.bytes()[0], 11);
    assert_eq!(case.bytes()[32..], [map_a(), map_b()].concat());
    assert_eq!(
        [Call::ChooseCopy as u8, Call::CopyAddresses as u8],
        [10, 12]
    );
}
