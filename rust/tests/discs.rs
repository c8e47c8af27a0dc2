//! Whole discs as real ones are laid out, small and made here: an 800K floppy
//! and two hard discs of five zones. Files are written into the image, one is
//! swept and released, and every other must stay as it was. Of a drive of 255
//! zones and of an E+ disc of 1,000 there is the map alone.

mod shapes;

use shapes::{fresh_map, Shape};
use shapes::{DRIVE_OF_255_ZONES, FLOPPY, HARD_DISC_256, HARD_DISC_512, PLUS_OF_1000_ZONES};
use shoalswift::{
    address, check, choose_copy, claim, copy_addresses, copy_over, free, geometry, list, place,
    release, sweep_free, sweep_object, Geometry, MapCopy, Reason,
};

/// What the geometry of a disc's map must be.
fn geometry_of(shape: &Shape) -> Geometry {
    Geometry {
        sector: shape.sector() as u32,
        unit: shape.bytes_per_map_bit() as u32,
        zones: shape.nzones as u32,
        ids: shape.ids_per_zone(),
        disc_size: shape.disc_size as u64,
    }
}

/// A file: its id and all bytes of its pieces, joined in object order.
struct File {
    id: u32,
    contents: Vec<u8>,
}

struct Disc {
    shape: Shape,
    map: Vec<u8>,
    image: Vec<u8>,
    files: Vec<File>,
}

/// An object's pieces, as pairs.
fn pieces(map: &[u8], id: u32) -> Vec<(usize, usize)> {
    let mut entries = [0; 64];
    let pairs = list(map, id, &mut entries).expect("the object is listed");
    pairs_of(&entries[..2 * pairs])
}

fn pairs_of(entries: &[u32]) -> Vec<(usize, usize)> {
    let pair = |two: &[u32]| (two[0] as usize, two[1] as usize);
    entries.chunks(2).map(pair).collect()
}

/// Bytes that differ from file to file and from place to place, never 0xE5.
fn contents(id: u32, length: usize) -> Vec<u8> {
    let mut state = id.wrapping_mul(2_654_435_761) | 1;
    let mut next = || {
        state = state.wrapping_mul(1_664_525).wrapping_add(1_013_904_223);
        (state >> 24) as u8 & 0x7F
    };
    (0..length).map(|_| next()).collect()
}

/// The pieces of one of three scattered files: in each zone, in the id's
/// object order, three pieces that take turns with those of the others.
fn scattered(shape: &Shape, id: u32, turn: usize) -> Vec<u32> {
    let m = shape.shortest();
    let start_zone = (id / shape.ids_per_zone()) as usize;
    let mut entries = Vec::new();
    for step in 0..shape.zones() {
        let zone = (start_zone + step) % shape.zones();
        for round in 0..3 {
            let lane = 3 * round + turn;
            let bit = shape.first_disc_bit(zone) + 16 * m + lane * 8 * m;
            entries.extend([bit as u32, ((1 + lane % 4) * m) as u32]);
        }
    }
    entries
}

impl Disc {
    fn new(shape: Shape) -> Disc {
        let map = fresh_map(&shape);
        assert_eq!(check(&map), Ok(()));
        assert_eq!(geometry(&map), Ok(geometry_of(&shape)));
        let mut disc = Disc {
            shape,
            map,
            image: vec![0x55; shape.disc_size as usize],
            files: Vec::new(),
        };
        disc.add_files();
        disc.add_map_copies();
        disc
    }

    /// Three scattered files, then claimed ones. The ids start in a zone near
    /// the end, in zone 0 and in the last zone.
    fn add_files(&mut self) {
        let per_zone = self.shape.ids_per_zone();
        let zones = self.shape.nzones as u32;
        let ids = [
            zones.saturating_sub(2) * per_zone + 5,
            7,
            zones * per_zone - 1,
        ];
        for (turn, id) in ids.into_iter().enumerate() {
            let entries = scattered(&self.shape, id, turn);
            assert_eq!(place(&mut self.map, id, &entries), Ok(()));
            assert_eq!(pieces(&self.map, id), pairs_of(&entries));
            self.fill_file(id);
        }
        for (size, parent) in [(1, 0), (5_000, zones / 2), (100_000, zones - 1)] {
            let claimed = claim(&mut self.map, size, parent, &mut [0; 2]).expect("there is room");
            assert_eq!(
                claimed.id / per_zone,
                parent,
                "the hole is in the parent zone"
            );
            self.fill_file(claimed.id);
            let last = self.files.last().unwrap();
            assert!(last.contents.len() as u64 >= size);
        }
    }

    fn fill_file(&mut self, id: u32) {
        let bytes = self.addresses(id);
        let contents = contents(id, bytes.len());
        for (at, byte) in bytes.iter().zip(&contents) {
            assert_eq!(self.image[*at], 0x55, "files do not share a byte");
            self.image[*at] = *byte;
        }
        self.files.push(File { id, contents });
    }

    /// The disc addresses of an object, worked out from its pieces alone.
    fn addresses(&self, id: u32) -> Vec<usize> {
        let unit = self.shape.bytes_per_map_bit();
        let spread = |(bit, length): (usize, usize)| bit * unit..(bit + length) * unit;
        pieces(&self.map, id).into_iter().flat_map(spread).collect()
    }

    /// The map is on the disc itself, twice, where the middle zone starts.
    fn add_map_copies(&mut self) {
        let at = copy_addresses(&self.map).expect("the map is accepted");
        let bit = self.shape.first_disc_bit(self.shape.zones() / 2);
        assert_eq!(at.first, (bit * self.shape.bytes_per_map_bit()) as u64);
        assert_eq!(at.second, at.first + self.map.len() as u64);
        for at in [at.first as usize, at.second as usize] {
            self.image[at..at + self.map.len()].copy_from_slice(&self.map);
        }
        let found = address(&self.map, 0x200, 0).expect("every map has object 2");
        assert_eq!(found.address, at.first);
        let both = 2 * self.map.len() as u64;
        assert!(found.run >= both, "both copies are in one piece");
    }
}

/// The two copies of the map, as parts of the image.
fn map_copies<'a>(disc: &Disc, image: &'a mut [u8]) -> (&'a mut [u8], &'a mut [u8]) {
    let at = copy_addresses(&disc.map).expect("the map is accepted");
    let both = &mut image[at.first as usize..][..2 * disc.map.len()];
    both.split_at_mut((at.second - at.first) as usize)
}

/// The map is read out of the image, with either copy spoilt, which is then
/// written anew from the other.
fn copies_stand_in(disc: &Disc) {
    let mut image = disc.image.clone();
    let (first, second) = map_copies(disc, &mut image);
    let choice = choose_copy(first, second);
    assert_eq!(choice.accepted, Ok(MapCopy::First(&disc.map)));
    assert!(choice.equal);

    first[disc.map.len() - 1] ^= 1;
    let choice = choose_copy(first, second);
    assert_eq!(choice.accepted, Ok(MapCopy::Second(&disc.map)));
    assert!(!choice.equal);
    assert!(
        copy_over(first, second).is_err(),
        "a spoilt map is not copied"
    );
    assert_eq!(copy_over(second, first), Ok(()));

    second[0] ^= 1;
    let choice = choose_copy(first, second);
    assert_eq!(choice.accepted, Ok(MapCopy::First(&disc.map)));
    assert!(!choice.equal);
    assert_eq!(copy_over(first, second), Ok(()));
    assert!(image == disc.image, "both copies are as they were");
}

/// Reads a whole file through `address`, run by run, and asks once for each
/// piece and once more at the end.
fn read_back(map: &[u8], image: &[u8], file: &File) -> Vec<u8> {
    let mut bytes = Vec::new();
    for _ in pieces(map, file.id) {
        let found = address(map, file.id << 8, bytes.len() as u64).expect("within the file");
        let (at, run) = (found.address as usize, found.run as usize);
        bytes.extend_from_slice(&image[at..at + run]);
    }
    let end = address(map, file.id << 8, bytes.len() as u64);
    assert_eq!(end.unwrap_err().reason, Reason::PastEnd);
    bytes
}

/// Single bytes of each piece and how far may be read from them, by internal
/// numbers that start the file at its first, third or eighth sector.
fn read_bytes(disc: &Disc, map: &[u8], image: &[u8], file: &File) {
    let length = file.contents.len();
    let unit = disc.shape.bytes_per_map_bit();
    // Each position with the end of its piece.
    let mut positions = Vec::new();
    let mut end = 0;
    for (_, bits) in pieces(map, file.id) {
        let first = end;
        end += bits * unit;
        positions.extend([first, first + 1, (first + end) / 2, end - 1].map(|at| (at, end)));
    }
    assert_eq!(end, length);
    for (low, skipped) in [(0, 0), (1, 0), (3, 2), (8, 7)] {
        let skipped = skipped * disc.shape.sector();
        let n = file.id << 8 | low;
        for (position, end) in positions.iter().filter(|(at, _)| *at >= skipped) {
            let found = address(map, n, (position - skipped) as u64).expect("within the file");
            assert_eq!(image[found.address as usize], file.contents[*position]);
            assert_eq!(found.run, (end - position) as u64);
        }
        let past = address(map, n, length.saturating_sub(skipped) as u64);
        assert_eq!(past.unwrap_err().reason, Reason::PastEnd);
    }
}

/// Every file but one lists and reads as on the disc as it was made.
fn others_are_as_before(disc: &Disc, map: &[u8], image: &[u8], without: Option<u32>) {
    assert_eq!(check(map), Ok(()));
    assert_eq!(pieces(map, 2), pieces(&disc.map, 2));
    for file in disc.files.iter().filter(|file| Some(file.id) != without) {
        assert_eq!(pieces(map, file.id), pieces(&disc.map, file.id));
        assert_eq!(read_back(map, image, file), file.contents);
        read_bytes(disc, map, image, file);
    }
}

/// Sweeps one file in windows of uneven length. Exactly its bytes change.
fn swept_in_windows(disc: &Disc, file: &File) -> Vec<u8> {
    let mut image = disc.image.clone();
    let length = image.len();
    let cuts = [0, 1, length / 7 + 3, length / 2 - 100, length - 5, length];
    let mut count = 0;
    for window in cuts.windows(2) {
        let stretch = &mut image[window[0]..window[1]];
        count += sweep_object(&disc.map, stretch, window[0] as u64, 0xE5, file.id).unwrap();
    }
    assert_eq!(count, file.contents.len() as u64);
    let mut expected = disc.image.clone();
    for at in disc.addresses(file.id) {
        expected[at] = 0xE5;
    }
    assert!(image == expected, "only the file's addresses changed");
    image
}

/// Sweeps and releases one file, then places it again.
fn wipe_and_undo(disc: &Disc, file: &File) {
    let image = swept_in_windows(disc, file);
    let mut map = disc.map.clone();
    let mut entries = [0; 64];
    let pairs = release(&mut map, file.id, &mut entries).expect("the file is there");
    let returned = &entries[..2 * pairs];
    assert_eq!(pairs_of(returned), pieces(&disc.map, file.id));
    let gone = list(&map, file.id, &mut [0; 64]).unwrap_err();
    assert_eq!(gone.reason, Reason::Absent);
    others_are_as_before(disc, &map, &image, Some(file.id));
    assert_eq!(place(&mut map, file.id, returned), Ok(()));
    assert!(map == disc.map, "every byte is back");
}

/// Sweeping what is free leaves every file and object 2.
fn sweep_what_is_free(disc: &Disc) {
    let mut image = disc.image.clone();
    let mut entries = [0; 200];
    let pairs = free(&disc.map, &mut entries).unwrap();
    let mut expected = disc.image.clone();
    for (bit, length) in pairs_of(&entries[..2 * pairs]) {
        let unit = disc.shape.bytes_per_map_bit();
        expected[bit * unit..(bit + length) * unit].fill(0xE5);
    }
    let count = sweep_free(&disc.map, &mut image, 0, 0xE5).unwrap();
    assert!(image == expected);
    let swept = image.iter().filter(|byte| **byte == 0xE5).count();
    assert_eq!(count, swept as u64);
    others_are_as_before(disc, &disc.map, &image, None);
}

fn end_to_end(shape: Shape) {
    let disc = Disc::new(shape);
    others_are_as_before(&disc, &disc.map, &disc.image, None);
    for file in &disc.files {
        wipe_and_undo(&disc, file);
    }
    sweep_what_is_free(&disc);
    copies_stand_in(&disc);
}

#[test]
fn floppy_of_800k() {
    end_to_end(FLOPPY);
    let numbers = (FLOPPY.zone_bits(), FLOPPY.shortest(), FLOPPY.ids_per_zone());
    assert_eq!(numbers, (6880, 16, 430));
}

#[test]
fn hard_disc_with_sectors_of_512_bytes() {
    end_to_end(HARD_DISC_512);
}

#[test]
fn hard_disc_with_sectors_of_256_bytes() {
    end_to_end(HARD_DISC_256);
}

#[test]
fn every_file_released_gives_the_fresh_map() {
    for shape in [FLOPPY, HARD_DISC_512, HARD_DISC_256] {
        let Disc { mut map, files, .. } = Disc::new(shape);
        for file in files.iter().rev() {
            release(&mut map, file.id, &mut [0; 64]).unwrap();
        }
        assert!(map == fresh_map(&shape));
    }
}

#[test]
fn a_damaged_zone_is_named() {
    let mut disc = Disc::new(HARD_DISC_512);
    disc.map[3 * 512 + 300] ^= 4;
    let refusal = check(&disc.map).unwrap_err();
    assert_eq!((refusal.reason, refusal.zone), (Reason::ZoneCheck, 3));
    assert_eq!(geometry(&disc.map), Err(refusal));
    let before = disc.image.clone();
    let answer = sweep_object(&disc.map, &mut disc.image, 0, 0xE5, 7);
    assert_eq!(answer, Err(refusal));
    assert!(disc.image == before);
}

/// A piece at the end of each named zone, in the order given.
fn one_piece_in_each(shape: &Shape, zones: &[usize]) -> Vec<u32> {
    let m = shape.shortest();
    let last = |zone: &usize| [shape.first_disc_bit(zone + 1) - m, m].map(|n| n as u32);
    zones.iter().flat_map(last).collect()
}

#[test]
fn object_690_with_168_ids_per_zone_starts_in_zone_4() {
    let shape = HARD_DISC_256;
    assert_eq!(shape.ids_per_zone(), 168);
    let mut map = fresh_map(&shape);
    let wrong = place(&mut map, 690, &one_piece_in_each(&shape, &[0, 4]));
    assert_eq!(wrong.unwrap_err().reason, Reason::BadRequest);
    assert!(map == fresh_map(&shape));
    let right = one_piece_in_each(&shape, &[4, 0, 1, 3]);
    assert_eq!(place(&mut map, 690, &right), Ok(()));
    assert_eq!(pieces(&map, 690), pairs_of(&right));
}

#[test]
fn cross_checks_change_by_the_rule_and_no_other_zone_does() {
    let rows: [(&[usize], &[u8]); 4] = [
        (&[2], &[0]),
        (&[1, 4], &[1, 1]),
        (&[0, 2, 3], &[1, 2, 3]),
        (&[0, 1, 2, 3, 4], &[1, 2, 3, 1, 1]),
    ];
    let shape = HARD_DISC_256;
    let fresh = fresh_map(&shape);
    for (zones, changes) in rows {
        let mut map = fresh.clone();
        place(&mut map, 5, &one_piece_in_each(&shape, zones)).unwrap();
        let blocks = map.chunks(256).zip(fresh.chunks(256));
        for (zone, (new, old)) in blocks.enumerate() {
            match zones.iter().position(|touched| *touched == zone) {
                Some(place) => assert_eq!(new[3] ^ old[3], changes[place]),
                None => assert!(new == old),
            }
        }
    }
}

/// An object with a piece in each of these zones, in its object order from its
/// start zone on: placed, listed, and released again.
fn goes_round(shape: &Shape, zones: &[usize; 5]) {
    let fresh = fresh_map(shape);
    assert_eq!(geometry(&fresh), Ok(geometry_of(shape)));
    let id = zones[0] as u32 * shape.ids_per_zone();
    let entries = one_piece_in_each(shape, zones);
    let mut map = fresh.clone();
    assert_eq!(place(&mut map, id, &entries), Ok(()));
    assert_eq!(pieces(&map, id), pairs_of(&entries));
    let mut returned = [0; 10];
    assert_eq!(release(&mut map, id, &mut returned), Ok(5));
    assert_eq!(returned[..], entries);
    assert!(map == fresh);
    let last = shape.zones() - 1;
    map[last * shape.sector() + 100] ^= 4;
    let refusal = check(&map).unwrap_err();
    assert_eq!(
        (refusal.reason, refusal.zone),
        (Reason::ZoneCheck, last as u32)
    );
}

#[test]
fn an_object_goes_round_255_zones() {
    goes_round(&DRIVE_OF_255_ZONES, &[200, 254, 0, 127, 128]);
}

#[test]
fn an_object_goes_round_1000_zones() {
    goes_round(&PLUS_OF_1000_ZONES, &[700, 999, 0, 255, 256]);
}

/// Claims of which a zone has room for one: the parent zone, then the others by
/// their distance. Each has the lowest id that starts in its zone, which is 3 in
/// zone 0. Then no hole is long enough, and one more claim takes the largest holes
/// whole and a part of the next, for an id of the first one's zone; after that there
/// is no room. The releases give the fresh map.
#[test]
fn claims_go_to_the_zones_by_their_distance() {
    let shape = HARD_DISC_256;
    let per_zone = shape.ids_per_zone();
    let fresh = fresh_map(&shape);
    for (parent, zones) in [
        (0, [0, 1, 2, 3, 4]),
        (1, [1, 0, 2, 3, 4]),
        (2, [2, 1, 3, 0, 4]),
        (4, [4, 3, 2, 1, 0]),
    ] {
        let mut map = fresh.clone();
        let size = 1_500 * shape.bytes_per_map_bit() as u64;
        let mut list = [0; 8];
        let given = zones.map(|_| claim(&mut map, size, parent, &mut list).expect("room"));
        assert_eq!(given.map(|new| new.id), zones.map(|z| 3.max(z * per_zone)));
        assert!(given.iter().all(|new| new.pairs == 1));
        // 516 bits are left in zones 1, 3 and 4: the third gives what remains of 1,500.
        let short = claim(&mut map, size, parent, &mut list[..5]).unwrap_err();
        assert_eq!((short.reason, short.zone), (Reason::ListTooShort, 0));
        let split = claim(&mut map, size, parent, &mut list).expect("room in pieces");
        assert_eq!((split.id, split.pairs), (per_zone + 1, 3));
        let spans = [3_036, 516, 7_068, 516, 9_084, 468];
        assert_eq!(list[..6], spans);
        assert_eq!(pieces(&map, split.id), pairs_of(&spans));
        let full = claim(&mut map, size, parent, &mut list).unwrap_err();
        assert_eq!((full.reason, full.zone), (Reason::NoRoom, 0));
        let no_zone = claim(&mut map, size, 5, &mut list).unwrap_err();
        assert_eq!((no_zone.reason, no_zone.zone), (Reason::BadRequest, 0));
        assert_eq!(release(&mut map, split.id, &mut list), Ok(3));
        assert_eq!(list[..6], spans);
        for new in given {
            assert_eq!(release(&mut map, new.id, &mut list), Ok(1));
        }
        assert!(map == fresh);
    }
}

#[test]
fn a_claim_on_e_plus_is_undone_and_has_no_address() {
    let fresh = fresh_map(&PLUS_OF_1000_ZONES);
    let mut map = fresh.clone();
    let claimed = claim(&mut map, 1_000_000, 700, &mut [0; 2]).expect("there is room");
    assert_eq!(claimed.id, 700 * PLUS_OF_1000_ZONES.ids_per_zone());
    assert_eq!(pieces(&map, claimed.id).len(), 1);
    for n in [0, 0x200, claimed.id << 8, u32::MAX] {
        let refusal = address(&map, n, 0).unwrap_err();
        assert_eq!((refusal.reason, refusal.zone), (Reason::NumberRange, 0));
    }
    assert_eq!(release(&mut map, claimed.id, &mut [0; 2]), Ok(1));
    assert!(map == fresh);
    map[0] ^= 1;
    let damaged = address(&map, 0x200, 0).unwrap_err();
    assert_eq!((damaged.reason, damaged.zone), (Reason::ZoneCheck, 0));
}
