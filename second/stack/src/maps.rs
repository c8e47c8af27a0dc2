//! Calls that have the most to do in a zone: every fragment is as short as it
//! can be. E+ discs (R-12 of document 02) have longer ids and more zones.

use reference::case::{Call, Case, CALLS_ON_ONE_MAP};
use reference::generate::{build, map_of_packed_ids, repair_zone_checks, worn};
use reference::geometry::{DiscRecord, Edition, Geometry};
use reference::map::{check, Owner};

/// The object that is listed, swept, released and placed.
const OBJECT: u32 = 3;

/// Another object, that has what is left.
const OTHER: u32 = 4;

/// A fragment's place: its index within its zone, how many come after it
/// there, and whether the zone is the last.
#[derive(Clone, Copy)]
struct Place {
    index: usize,
    after: usize,
    last_zone: bool,
}

/// Who has the fragment at a place.
type Layout = fn(Place) -> Owner;

/// In some the call has a whole zone before it, in some a whole zone after it,
/// and in some it is at work everywhere.
const LAYOUTS: [(&str, Layout); 7] = [
    ("one object", |_| Owner::Object(OBJECT)),
    ("two objects in turn", |at| {
        by(at.index % 2 == 0, Owner::Object(OTHER))
    }),
    ("an object and holes in turn", |at| {
        by(at.index % 2 == 0, Owner::Free)
    }),
    ("the object first in each zone", |at| {
        by(at.index < 2, Owner::Object(OTHER))
    }),
    ("the object last in each zone", |at| {
        by(at.after == 0, Owner::Object(OTHER))
    }),
    ("the object first in the last zone", |at| {
        by(at.index < 2 && at.last_zone, Owner::Object(OTHER))
    }),
    ("the object last in the last zone", |at| {
        by(at.after == 0 && at.last_zone, Owner::Object(OTHER))
    }),
];

fn by(object: bool, otherwise: Owner) -> Owner {
    if object {
        Owner::Object(OBJECT)
    } else {
        otherwise
    }
}

/// The bytes of disc image that are swept.
const WINDOW: usize = 1 << 16;

/// A call, and on what map it is made.
pub struct Subject {
    pub on: String,
    pub case: Case,
}

/// Records with as many short fragments to a zone as they can have: every
/// edition, block size and id length, one zone and several, once as many zones as
/// version 0 can have (255, by R-4 of document 02), and 1,000 of an E+ disc.
fn records() -> Vec<DiscRecord> {
    let mut records = Vec::new();
    for edition in [Edition::E, Edition::EPlus] {
        for log2secsize in 8..=10 {
            for idlen in log2secsize + 3..=edition.longest_id() {
                let record = |nzones| record(edition, log2secsize, idlen, nzones);
                records.extend([1, 2, 5].map(record));
            }
        }
    }
    records.push(record(Edition::E, 8, 15, 255));
    records.push(record(Edition::EPlus, 8, 19, 1_000));
    records
}

/// As many zones as can be with 100 ids each, 524,200 in all: 2^19 are 524,288.
fn most_ids() -> DiscRecord {
    record(Edition::EPlus, 8, 19, 5_242)
}

fn record(edition: Edition, log2secsize: u8, idlen: u8, nzones: u16) -> DiscRecord {
    let zone_bits = (8 << log2secsize) - 32;
    DiscRecord {
        log2secsize,
        idlen,
        // A map bit for each sector: fragments need not be in longer clusters.
        log2bpmb: log2secsize,
        nzones,
        zone_spare: 32,
        disc_size: (nzones as u32 * zone_bits - 480) << log2secsize,
        size_high: 0,
        version: edition.version(),
    }
}

/// A zone of shortest fragments, the last one longer where bits are left.
fn zone(geometry: &Geometry, zone: usize, layout: Layout) -> Vec<(Owner, usize)> {
    let bits = geometry.end_block_bit() - geometry.first_block_bit(zone);
    let shortest = geometry.shortest_fragment;
    let number = bits / shortest;
    let place = |index| Place {
        index,
        after: number - 1 - index,
        last_zone: zone + 1 == geometry.nzones,
    };
    let mut parts: Vec<_> = (0..number)
        .map(|index| (layout(place(index)), shortest))
        .collect();
    parts[number - 1].1 += bits % shortest;
    if zone == geometry.middle_zone() {
        parts[0].0 = Owner::Object(2);
    }
    parts
}

/// Claims of a size (R-6 of document 02): near the first zone, the middle one and the
/// last, with room for every hole there can be.
fn claims(geometry: &Geometry, map: &[u8], size: u64) -> [Case; 3] {
    [0, geometry.middle_zone(), geometry.nzones - 1].map(|parent| {
        let mut case = Case::new(Call::Claim, map);
        case.number = parent as u32;
        case.wide = size;
        case.list = vec![0; 2 * geometry.ids()];
        case
    })
}

/// Claims in the most pieces (R-8 of document 02): of all free bits, in as many as there
/// are holes, and of all but a bit and of half of them, which end with a part of a hole or
/// with one of many that are equal. None where there are not two holes.
fn split_claims(geometry: &Geometry, map: &[u8]) -> Vec<Case> {
    let free = check(map).expect("a valid map").free();
    if free.len() < 2 {
        return Vec::new();
    }
    let bits: usize = free.iter().map(|hole| hole.length).sum();
    let bytes = |bits: usize| bits as u64 * geometry.bytes_per_map_bit;
    let [all, cut, half] = [bits, bits - 1, bits / 2].map(|bits| {
        let [claim, ..] = claims(geometry, map, bytes(bits));
        claim
    });
    assert_eq!(all.run().values[1], free.len() as u64, "every hole");
    vec![all, cut, half]
}

/// Every call of document 01 on one map; the place and some claims on what the release
/// leaves.
fn calls(geometry: &Geometry, map: &[u8]) -> Vec<Case> {
    let room = vec![0; 2 * geometry.ids()];
    let case = |call, map: &[u8], wide| {
        let mut case = Case::new(call, map);
        case.number = OBJECT;
        case.wide = wide;
        case.list = room.clone();
        if call == Call::Address {
            case.number = OBJECT << 8;
        }
        if call.writes_image() {
            case.image = vec![0; WINDOW];
        }
        case
    };

    let mut cases: Vec<Case> = CALLS_ON_ONE_MAP
        .iter()
        .filter(|call| !matches!(call, Call::Place | Call::Claim))
        .map(|call| case(*call, map, 1))
        .collect();
    cases.extend(claims(geometry, map, 1));
    // More than all free bits, so that every hole is looked at.
    cases.extend(claims(geometry, map, geometry.disc_size));
    cases.extend(split_claims(geometry, map));

    let released = case(Call::Release, map, 0).run();
    assert_eq!(released.number, 0, "the object is released");
    let mut place = case(Call::Place, &released.map, 0);
    place.list = released.list[..2 * released.values[0] as usize].to_vec();
    assert_eq!(place.run().map, map, "and placed again");
    cases.push(place);
    cases.extend(claims(geometry, &released.map, 1));
    cases.extend(split_claims(geometry, &released.map));
    cases
}

/// Claims that have to look for an id from 3 up to the last.
fn claims_on_packed(record: &DiscRecord, geometry: &Geometry) -> Vec<Case> {
    let cases = claims(geometry, &map_of_packed_ids(record), 1);
    for case in &cases {
        let id = case.run().values[0] as usize;
        let of_zone_0 = id < geometry.ids_per_zone;
        assert_eq!(of_zone_0, geometry.nzones == 1, "an id of another zone");
    }
    cases.into()
}

/// The calls on two copies of a map (R-5 of document 02). The first is chosen; or the
/// second, as the first lacks its last closing bit and is walked up to there; or none.
fn calls_on_copies(geometry: &Geometry, map: &[u8]) -> Vec<Case> {
    let mut open = map.to_vec();
    open[map.len() - 1] &= 0x7F;
    repair_zone_checks(&mut open, geometry.sector_size);
    let pair = |call, one: &[u8], other: &[u8]| {
        let mut case = Case::new(call, one);
        case.image = other.to_vec();
        case
    };
    let cases = vec![
        pair(Call::ChooseCopy, map, map),
        pair(Call::ChooseCopy, &open, map),
        pair(Call::ChooseCopy, &open, &open),
        pair(Call::CopyOver, map, &open),
        pair(Call::CopyOver, &open, map),
        Case::new(Call::CopyAddresses, map),
    ];
    let numbers: Vec<u32> = cases.iter().map(|case| case.run().number).collect();
    assert_eq!(numbers, [0, 0, 6, 0, 6, 0], "the closing bit is cleared");
    cases
}

/// The calls that mend a map (R-9 of document 02): one in order, and one in the worst
/// order, as it is and with the object released, so that rows are as long as a zone; with
/// room for all positions, with an entry too few, and where the last closing bit is gone.
fn mends(geometry: &Geometry, map: &[u8]) -> Vec<Case> {
    let mut release = Case::new(Call::Release, map);
    release.number = OBJECT;
    release.list = vec![0; 2 * geometry.ids()];
    let mut cases = Vec::new();
    for map in [map.to_vec(), worn(map), worn(&release.run().map)] {
        cases.extend(both_mends(&map));
    }
    let mut open = worn(map);
    open[map.len() - 1] &= 0x7F;
    let refused = Case::new(Call::Mend, &open);
    assert_eq!(refused.run().number, 6, "the closing bit is cleared");
    cases.extend(both_mends(&open));
    cases
}

/// Both calls, the second twice.
fn both_mends(map: &[u8]) -> [Case; 3] {
    let positions = |entries: usize| {
        let mut case = Case::new(Call::MendPositions, map);
        case.list = vec![0; entries];
        case
    };
    let all = positions(map.len());
    let count = all.run().values[0] as usize;
    let mend = Case::new(Call::Mend, map);
    [mend, all, positions(count.saturating_sub(1))]
}

/// Mbytes of 1,048,576 bytes.
const MBYTE: u64 = 1 << 20;

/// The calls that format a disc (R-13 of document 02): one whose map has no free fragment,
/// floppies, and the table's limits, with every block size; in a buffer as long as the map
/// and in one that is too short. Then discs that are refused.
fn formats() -> Vec<Subject> {
    let mut subjects = Vec::new();
    for log2secsize in 8..=10 {
        let mut capacities = vec![16 * 256, 819_200, 1_638_400];
        for limit in [124, 249, 499, 999].map(|mbytes| mbytes * MBYTE) {
            capacities.extend([limit, limit + (1 << log2secsize)]);
        }
        capacities.extend([0, 1 << log2secsize, 819_201]);
        for capacity in capacities {
            subjects.extend(formats_of(log2secsize, capacity));
        }
    }
    subjects
}

/// Both calls on one disc.
fn formats_of(log2secsize: u32, capacity: u64) -> Vec<Subject> {
    let case = |call, buffer: &[u8]| Case::formatting(call, log2secsize, capacity, 15, buffer);
    let length = case(Call::FormatLength, &[]);
    let bytes = length.run().values[0] as usize;
    let on = format!("a disc of {capacity} bytes, blocks of {}", 1 << log2secsize);
    let mut cases = vec![length];
    for lent in [bytes, bytes.saturating_sub(1)] {
        cases.push(case(Call::Format, &vec![0xFF; lent]));
    }
    let subject = |case| Subject {
        on: on.clone(),
        case,
    };
    cases.into_iter().map(subject).collect()
}

/// Every call, on every map, and every disc to format. The map of the most ids is large,
/// and has one layout.
pub fn subjects() -> Vec<Subject> {
    let mut subjects = Vec::new();
    for record in records() {
        for layout in LAYOUTS {
            subjects.extend(on_map(&record, layout));
        }
    }
    subjects.extend(on_map(&most_ids(), LAYOUTS[2]));
    for record in records().into_iter().chain([most_ids()]) {
        subjects.extend(on_packed(&record));
    }
    subjects.extend(formats());
    subjects
}

/// What a map is like.
fn title(geometry: &Geometry, who: &str) -> String {
    let edition = match geometry.edition {
        Edition::E => "",
        Edition::EPlus => "E+, ",
    };
    format!(
        "{edition}blocks of {} bytes, idlen {}, zones: {}; {who}",
        geometry.sector_size, geometry.idlen, geometry.nzones
    )
}

/// Claims where the ids go up without a gap.
fn on_packed(record: &DiscRecord) -> Vec<Subject> {
    let geometry = Geometry::accept(record).expect("a record inside its ranges");
    let on = title(&geometry, "ids without a gap");
    let subject = |case| Subject {
        on: on.clone(),
        case,
    };
    let cases = claims_on_packed(record, &geometry);
    cases.into_iter().map(subject).collect()
}

/// Every call on the map with a layout.
fn on_map(record: &DiscRecord, (who, layout): (&str, Layout)) -> Vec<Subject> {
    let geometry = Geometry::accept(record).expect("a record inside its ranges");
    let zones: Vec<_> = (0..geometry.nzones)
        .map(|index| zone(&geometry, index, layout))
        .collect();
    let on = title(&geometry, who);
    let map = build(record, &zones);
    let mut cases = calls(&geometry, &map);
    cases.extend(calls_on_copies(&geometry, &map));
    cases.extend(mends(&geometry, &map));
    let subject = |case| Subject {
        on: on.clone(),
        case,
    };
    cases.into_iter().map(subject).collect()
}
