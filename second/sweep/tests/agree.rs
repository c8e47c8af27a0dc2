//! Both programs against the reference, on generated maps, valid and damaged,
//! with stretches at odd places.

use reference::generate::{
    any_map, disc_record, map_690, map_a, map_b, map_floppy, map_of_zones, record_of_zones,
    valid_map, with_bytes, Rng,
};
use reference::geometry::{DiscRecord, Edition, LARGEST_MAP};
use reference::read;

type Sweep = fn(&[u8], &mut [u8], u64, u8) -> Result<u64, (u32, u32)>;

const PROGRAMS: [(&str, Sweep); 2] = [
    ("simple", sweep::simple::sweep_free),
    ("fast", sweep::fast::sweep_free),
];

/// Makes one sweep by all three, and answers the refusal's number or 0.
fn agree(seed: u64, map: &[u8], image: &[u8], first: u64, fill: u8) -> usize {
    let mut expected = image.to_vec();
    let answer = read::sweep_free(map, &mut expected, first, fill)
        .map_err(|refusal| (refusal.number, refusal.zone));
    for (name, program) in PROGRAMS {
        let mut ours = image.to_vec();
        let given = program(map, &mut ours, first, fill);
        assert_eq!(given, answer, "{name}, seed {seed}");
        assert!(ours == expected, "{name}, seed {seed}: the image differs");
    }
    answer.err().map_or(0, |(number, _)| number as usize)
}

/// A stretch anywhere on the disc, or a little past its end.
fn stretch(rng: &mut Rng, disc_size: u64) -> (u64, Vec<u8>) {
    let length = rng.pick(&[0, 1, 7, 127, 1_000, 40_000]) + rng.below(300);
    let first = match rng.below(6) {
        0 => rng.below(2_000) as u64,
        1 => disc_size.saturating_sub(length as u64) + rng.below(2) as u64,
        2 => rng.word(),
        3 => u64::MAX - rng.below(2_000) as u64,
        _ => rng.below(disc_size as usize) as u64,
    };
    (first, (0..length).map(|_| rng.byte()).collect())
}

/// Sweeps a map through several stretches; counts the answers by number.
fn agree_on(seed: u64, rng: &mut Rng, map: &[u8], answers: &mut [u32; 17]) {
    let disc_size = match map.len() {
        0..64 => 1,
        _ => DiscRecord::read(map).disc_size.max(1) as u64,
    };
    for _ in 0..4 {
        let (first, image) = stretch(rng, disc_size);
        answers[agree(seed, map, &image, first, rng.byte())] += 1;
    }
}

#[test]
fn valid_maps() {
    let mut answers = [0; 17];
    for seed in 0..1_500 {
        let mut rng = Rng::new(seed);
        let record = disc_record(&mut rng, LARGEST_MAP);
        let map = valid_map(&mut rng, &record);
        agree_on(seed, &mut rng, &map, &mut answers);
    }
    assert!(answers[0] > 1_000 && answers[16] > 1_000, "{answers:?}");
}

#[test]
fn damaged_maps() {
    let mut answers = [0; 17];
    for seed in 0..6_000 {
        let mut rng = Rng::new(seed);
        let map = any_map(&mut rng, LARGEST_MAP);
        agree_on(seed, &mut rng, &map, &mut answers);
    }
    for number in [0, 1, 2, 3, 4, 5, 6, 7, 16] {
        assert!(answers[number] > 100, "{answers:?}");
    }
}

/// Document 01's maps, and the edges of their discs and free spans.
#[test]
fn maps_of_document_01() {
    for (map, size) in [
        (map_a(), 1_572_864),
        (map_b(), 1_572_864),
        (map_floppy(), 819_200),
    ] {
        let whole = vec![0; size];
        assert_eq!(agree(0, &map, &whole, 0, 0xFF), 0);
        assert_eq!(agree(0, &map, &whole, 1, 0xFF), 16);
        assert_eq!(agree(0, &map, &[], size as u64, 0xFF), 0);
        assert_eq!(agree(0, &map, &[0], size as u64, 0xFF), 16);
        for first in (0..40 * 1_024).step_by(1_021) {
            assert_eq!(agree(0, &map, &whole[..1_027], first, 0xFF), 0);
        }
    }
}

/// "A map with any of block bytes 36 to 63 of zone 0 not 0 is refused with 2" (R-7
/// of document 02): each of them alone. Byte 35 is carried, and byte 64 has
/// allocation bits. A 1 in byte 48 makes an E+ disc of it.
#[test]
fn dirty_records() {
    let number = |map: &[u8]| agree(0, map, &[0; 64], 0, 0xFF);
    for map in [map_b(), map_690(), map_floppy()] {
        for byte in 1..=255 {
            for at in 36..64 {
                let expected = if (at, byte) == (48, 1) { 0 } else { 2 };
                assert_eq!(number(&with_bytes(&map, at, &[byte])), expected);
            }
            assert_eq!(number(&with_bytes(&map, 35, &[byte])), 0);
            assert_ne!(number(&with_bytes(&map, 64, &[byte])), 2);
        }
    }
}

/// R-12 of document 02, on maps of E+ discs: each byte of the record with each
/// value, the map's length and checks as they were.
#[test]
fn e_plus_records() {
    let record = record_of_zones(8, 2, Edition::EPlus);
    for map in [map_of_zones(&record), with_bytes(&map_b(), 48, &[1])] {
        assert_eq!(agree(0, &map, &[0; 64], 0, 0xFF), 0);
        let mut answers = [0; 17];
        for at in 4..64 {
            for byte in 0..=255 {
                let changed = with_bytes(&map, at, &[byte]);
                let number = agree(0, &changed, &[0; 64], 0, 0xFF);
                answers[number] += 1;
                // The size's high half, and what is carried.
                if (40..44).contains(&at) {
                    assert_eq!(number, if byte == 0 { 0 } else { 2 }, "byte {at}");
                }
                if (36..40).contains(&at) || at == 47 || at > 51 {
                    assert_eq!(number, 0, "byte {at}");
                }
            }
        }
        assert!(answers[1] > 5 && answers[2] > 1_000, "{answers:?}");
    }
}

/// "For E+ nzones may be 1 to 65,535 under the same P*nzones rule": more than 255
/// zones, to both sides of a border, and a fault in zone 256.
#[test]
fn e_plus_of_many_zones() {
    for nzones in [256, 257, 300] {
        let mut map = map_of_zones(&record_of_zones(8, nzones, Edition::EPlus));
        let border = (nzones as u64 - 1) * 2_016 * 1_024 - 480 * 1_024;
        for first in [0, border - 500, border + 20_000] {
            assert_eq!(agree(0, &map, &[0; 1_000], first, 0xFF), 0);
        }
        assert_eq!(agree(0, &map[256..], &[], 0, 0), 2);
        assert_eq!(agree(0, &map[..256], &[], 0, 0), 1);
        *map.last_mut().expect("a byte") ^= 1;
        assert_eq!(agree(0, &map, &[0; 1_000], 0, 0xFF), 3);
    }
}

/// "Order: 1 (under 64), 2, 1, 3".
#[test]
fn dirty_records_of_other_lengths() {
    let mut dirty = with_bytes(&map_b(), 36, &[1]);
    assert_eq!(agree(0, &dirty[..63], &[], 0, 0), 1);
    assert_eq!(agree(0, &dirty[..64], &[], 0, 0), 2);
    assert_eq!(agree(0, &dirty[..255], &[], 0, 0), 2);
    dirty[0] ^= 1;
    assert_eq!(agree(0, &dirty, &[], 0, 0), 2);
    dirty.push(0);
    assert_eq!(agree(0, &dirty, &[], 0, 0), 2);
}
