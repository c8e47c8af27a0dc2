//! Blank discs: what is drawn, that it can be used and filled, and what is refused.

use shoalswift::{check, claim, copy_addresses, format, format_length, free, geometry, list};
use shoalswift::{release, Reason, Refusal};

const MBYTE: u64 = 1_048_576;

/// log2secsize, capacity and idlen of discs that can be formatted: floppies, one
/// zone, two, three, and each row of the table at its limit and a sector past the
/// one before.
const DISCS: [(u32, u64, u32); 14] = [
    (10, 819_200, 15),
    (10, 1_638_400, 15),
    (8, 256 * 12, 11),
    (8, 256 * 23, 11),
    (8, 256 * 1535, 11),
    (8, 256 * 3552, 11),
    (8, 256 * 3553, 11),
    (9, 124 * MBYTE, 15),
    (8, 124 * MBYTE, 15),
    (9, 124 * MBYTE + 512, 15),
    (10, 249 * MBYTE, 15),
    (9, 249 * MBYTE + 512, 15),
    (9, 499 * MBYTE + 512, 15),
    (10, 999 * MBYTE, 15),
];

fn refusal(reason: Reason) -> Refusal {
    Refusal { reason, zone: 0 }
}

/// A formatted map, drawn over bytes that are not 0.
fn blank((log2secsize, capacity, idlen): (u32, u64, u32)) -> Vec<u8> {
    let length = format_length(log2secsize, capacity, idlen).expect("there is such a disc");
    let mut map = vec![0xA5; length];
    assert_eq!(format(log2secsize, capacity, idlen, &mut map), Ok(()));
    map
}

/// The pairs that a listing call writes.
fn pairs(call: impl FnOnce(&mut [u32]) -> Result<usize, Refusal>) -> Vec<(u64, u64)> {
    let mut room = vec![0; 2048];
    let n = call(&mut room).expect("the call is accepted");
    room[..2 * n]
        .chunks(2)
        .map(|pair| (u64::from(pair[0]), u64::from(pair[1])))
        .collect()
}

#[test]
fn a_blank_disc_has_objects_2_and_1_and_is_else_free() {
    for disc in DISCS {
        let map = blank(disc);
        assert_eq!(check(&map), Ok(()));
        let g = geometry(&map).unwrap();
        assert_eq!((1 << disc.0, disc.1), (g.sector, g.disc_size));
        let two = pairs(|room| list(&map, 2, room));
        assert_eq!(two.len(), 1);
        let unit = u64::from(g.unit);
        let copies = copy_addresses(&map).unwrap();
        assert_eq!(copies.first, two[0].0 * unit);
        assert!(copies.second + map.len() as u64 <= (two[0].0 + two[0].1) * unit);
        let end = disc.1 / unit;
        let one = list(&map, 1, &mut [0; 2]).map_err(|refused| refused.reason);
        assert!(one == Ok(1) || one == Err(Reason::Absent));
        let over = if one == Ok(1) { pairs(|room| list(&map, 1, room)) } else { Vec::new() };
        assert!(over.iter().all(|&(start, _)| start <= end));
        let last = over.first().map_or(end, |&(start, _)| start);
        let free_bits: u64 = pairs(|room| free(&map, room)).iter().map(|pair| pair.1).sum();
        assert_eq!(free_bits + two[0].1, last);
        for id in 3..20.min(g.ids) {
            let absent = Err(refusal(Reason::Absent));
            assert_eq!(list(&map, id, &mut []), absent);
        }
    }
}

#[test]
fn a_blank_disc_is_filled_and_emptied_again() {
    for disc in DISCS {
        let map = blank(disc);
        let g = geometry(&map).unwrap();
        let mut used = map.clone();
        let mut room = vec![0; 2048];
        let mut given = Vec::new();
        for zone in [0, g.zones / 2, g.zones - 1] {
            match claim(&mut used, 5 * u64::from(g.sector) + 1, zone, &mut room) {
                Ok(claimed) => given.push(claimed.id),
                Err(refused) => assert_eq!(refused, refusal(Reason::NoRoom)),
            }
        }
        for id in given {
            release(&mut used, id, &mut room).unwrap();
        }
        assert_eq!(check(&used), Ok(()));
        assert_eq!(pairs(|room| free(&used, room)), pairs(|room| free(&map, room)));
        assert_eq!(used, map);
    }
}

#[test]
fn what_cannot_be_formatted_is_refused_and_the_buffer_stays() {
    let no_disc = [
        (7, 393_216, 11),
        (11, 2048 * 1536, 15),
        (264, 393_216, 11),
        (8, 393_216, 10),
        (8, 393_216, 16),
        (8, 393_216, 267),
        (8, 0, 11),
        (8, 393_215, 11),
        (8, 1 << 63, 11),
        (8, 256 * 11, 11),
        (8, 256 * 1537, 11),
        (9, 124 * MBYTE, 14),
        (9, 999 * MBYTE + 512, 15),
    ];
    for (log2secsize, capacity, idlen) in no_disc {
        let refused = refusal(Reason::DiscRecord);
        assert_eq!(format_length(log2secsize, capacity, idlen), Err(refused));
        for n in [0, 1, 256, 512] {
            let mut buffer = vec![0xA5; n];
            assert_eq!(format(log2secsize, capacity, idlen, &mut buffer), Err(refused));
            assert_eq!(buffer, vec![0xA5; n]);
        }
    }
    for n in [0, 255, 257, 512] {
        let mut buffer = vec![0xA5; n];
        let refused = Err(refusal(Reason::MapLength));
        assert_eq!(format(8, 393_216, 11, &mut buffer), refused);
        assert_eq!(buffer, vec![0xA5; n]);
    }
}
